#!/bin/sh
# Builds the Debian package lobbysorrel-controller_VERSION_all.deb from controller/. Prints its name.
# usage: controller-package.sh [OUT-FOLDER]
# The default folder is the current one. This script needs dpkg-deb, and the Debian packages in controller/README.md.
# The same tree results in the same bytes: files have the date of the last commit, or SOURCE_DATE_EPOCH (seconds since
# 1970) if that is set.
set -eu
here=$(CDPATH='' cd -- "$(dirname -- "$0")" && pwd)
top=$(dirname -- "$here")
[ $# -le 1 ] || { echo 'usage: controller-package.sh [OUT-FOLDER]' >&2; exit 2; }
out=${1:-.}
SOURCE_DATE_EPOCH=${SOURCE_DATE_EPOCH:-$(git -C "$top" log -1 --format=%ct)}
export SOURCE_DATE_EPOCH DPKG_DEB_THREADS_MAX=1 LC_ALL=C
umask 022

work=$(mktemp -d)
trap 'rm -rf "$work"' EXIT
(cd "$top/controller" && REBAR_BASE_DIR=$work/build rebar3 as package compile > "$work/log" 2>&1) ||
    { cat "$work/log" >&2; exit 1; }
built=$work/build/package/lib/lobby
version=$(sed -n 's/.*{vsn, *"\(.*\)"}.*/\1/p' "$built/ebin/lobby.app")

# install_in FOLDER FILE ..
root=$work/root
install_in() {
    folder=$root/$1
    shift
    install -d -m 755 "$folder"
    install -m 644 "$@" "$folder"
}
install_in "usr/lib/erlang/lib/lobby-$version/ebin" "$built"/ebin/*
install_in "usr/lib/erlang/lib/lobby-$version/priv" "$top"/controller/apps/lobby/priv/*
chmod 755 "$root/usr/lib/erlang/lib/lobby-$version/priv/ready"
install_in usr/lib/systemd/system "$here/lobbysorrel-controller.service" "$here/lobbysorrel-controller-keeper.service"
install -D -m 755 -t "$root/usr/lib/lobbysorrel-controller" "$here/keeper" "$here/listens"
install_in usr/share/doc/lobbysorrel-controller "$top/controller/README.md" "$top"/controller/page-*.png \
    "$here/debian/copyright"
install_in usr/share/doc/lobbysorrel-controller/pair "$here/pair/keepalived.conf" "$here/pair/lobby.config"
install_in etc/lobbysorrel "$here/lobby.config"
mv "$root/etc/lobbysorrel/lobby.config" "$root/etc/lobbysorrel/lobby.config.example"

{
    printf 'lobbysorrel-controller (%s) unstable; urgency=medium\n\n  * See CHANGELOG.md in the repository.\n\n' "$version"
    printf ' -- %s  %s\n' "$(sed -n 's/^Maintainer: //p' "$here/debian-controller/control")" "$(date -uR -d "@$SOURCE_DATE_EPOCH")"
} > "$work/changelog"
gzip -9n "$work/changelog"
install_in usr/share/doc/lobbysorrel-controller "$work/changelog.gz"

install -D -m 755 "$here/lobby-status" "$root/usr/bin/lobby-status"
sed "s/@VERSION@/$version/; s/@DATE@/$(date -u -d "@$SOURCE_DATE_EPOCH" +%F)/" "$here/lobby-status.1" > "$work/lobby-status.1"
gzip -9n "$work/lobby-status.1"
install_in usr/share/man/man1 "$work/lobby-status.1.gz"

mkdir "$root/DEBIAN" && chmod 755 "$root/DEBIAN" "$root"
echo /etc/lobbysorrel/lobby.config.example > "$root/DEBIAN/conffiles"
(cd "$root" && find usr -type f | sort | xargs md5sum) > "$root/DEBIAN/md5sums"
(cd "$here/debian-controller" && install -m 755 postinst prerm postrm "$root/DEBIAN/")
size=$(du -k -s --apparent-size "$root" | cut -f 1)
sed "s/@VERSION@/$version/; s/@SIZE@/$size/" "$here/debian-controller/control" > "$root/DEBIAN/control"
find "$root" -exec touch -h -d "@$SOURCE_DATE_EPOCH" {} +

mkdir -p "$out"
package=$out/lobbysorrel-controller_${version}_all.deb
dpkg-deb --root-owner-group -Zxz --build "$root" "$package" > /dev/null
echo "$package"
