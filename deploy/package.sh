#!/bin/sh
# Builds the Debian package lobbysorrel_VERSION_amd64.deb from the programs in dist/. Prints its name.
# usage: package.sh [OUT-FOLDER]
# The default folder is the current one. This script needs dpkg-deb and python3. The same tree results in the same
# bytes: files have the date of the last commit, or SOURCE_DATE_EPOCH (seconds since 1970) if that is set.
set -eu
here=$(CDPATH='' cd -- "$(dirname -- "$0")" && pwd)
top=$(dirname -- "$here")
case $# in
    0) out=. ;;
    1) out=$1 ;;
    *) echo 'usage: package.sh [OUT-FOLDER]' >&2; exit 2 ;;
esac

fail() {
    echo "package.sh: $1" >&2
    exit 1
}

SOURCE_DATE_EPOCH=${SOURCE_DATE_EPOCH:-$(git -C "$top" log -1 --format=%ct 2> /dev/null || true)}
[ -n "$SOURCE_DATE_EPOCH" ] || fail 'git reports no date of the last commit: set SOURCE_DATE_EPOCH'
# One thread compresses: with more, the bytes can depend on the machine.
export SOURCE_DATE_EPOCH DPKG_DEB_THREADS_MAX=1 LC_ALL=C
umask 022

# The manifest is the only source of the version.
manifest=$top/dist/MANIFEST
version=$(sed -n 's/^version: //p' "$manifest")
sed -n 's/^\(mg_[a-z]*\): \(.*\)/\2  \1/p' "$manifest" | (cd "$top/dist" && sha256sum --quiet -c -) ||
    fail 'the programs in dist/ are not those in dist/MANIFEST'

work=$(mktemp -d)
trap 'rm -rf "$work"' EXIT
root=$work/root derived=$work/derived
mkdir -p "$derived" "$root/DEBIAN" "$out"
chmod 755 "$root"
python3 "$here/derived.py" "$derived" "$version" "$SOURCE_DATE_EPOCH"

# put MODE TO FROM ..: installs files, and the folders that they need.
put() {
    mode=$1 to=$2
    shift 2
    case $to in
        */) install -d -m 755 "$root/$to" ;;
        *) install -d -m 755 "$root/$(dirname "$to")" ;;
    esac
    install -m "$mode" "$@" "$root/$to"
}

# put_compressed TO FROM
put_compressed() {
    gzip -9n < "$2" > "$2.gz"
    put 644 "$1" "$2.gz"
}

put 755 usr/bin/ "$top/dist/mg_bridge" "$top/dist/mg_pace"
put 755 usr/lib/lobbysorrel/ "$here/check-config" "$here/cut-journal" "$here/drain" "$here/firewall" "$here/keeper" \
    "$here/new-journal" "$here/receive-journal" "$here/run" "$here/started"
put 644 usr/lib/systemd/system/ "$here/lobbysorrel@.service" "$here/lobbysorrel-keeper@.service" \
    "$here/lobbysorrel-firewall.service"
for program in mg_bridge mg_pace; do
    put_compressed usr/share/man/man1/ "$derived/$program.1"
    put 644 "usr/share/bash-completion/completions/$program" "$derived/$program.bash"
done
for example in 1.env 2.env gateway.nft; do
    put 644 "etc/lobbysorrel/$example.example" "$here/$example"
done
put 644 usr/share/doc/lobbysorrel/examples/ "$here/sysctl.conf" "$here/prometheus/lobbysorrel.rules.yml"
for page in BENCHMARKS CONTROLLERS OPERATING PROFILE RECORDINGS SCRIPTS SECURITY; do
    put 644 usr/share/doc/lobbysorrel/ "$top/docs/$page.md"
done
put 644 usr/share/doc/lobbysorrel/ "$manifest" "$here/debian/copyright"
put_compressed usr/share/doc/lobbysorrel/ "$derived/changelog"
put 644 usr/share/lintian/overrides/lobbysorrel "$here/debian/lintian-overrides"

(cd "$root" && find etc -type f -printf '/%p\n' | sort) > "$root/DEBIAN/conffiles"
(cd "$root" && find usr -type f | sort | xargs md5sum) > "$root/DEBIAN/md5sums"
install -m 755 "$here/debian/postinst" "$here/debian/prerm" "$here/debian/postrm" "$root/DEBIAN/"
# Counts as dpkg-gencontrol does: each file in whole kilobytes, and one kilobyte for each folder.
size=$(find "$root/etc" "$root/usr" -printf '%y %s\n' |
    awk '{ sum += $1 == "f" ? int(($2 + 1023) / 1024) : 1 } END { print sum }')
sed "s/@VERSION@/$version/; s/@SIZE@/$size/" "$here/debian/control" > "$root/DEBIAN/control"
find "$root" -exec touch -h -d "@$SOURCE_DATE_EPOCH" {} +

package=$out/lobbysorrel_${version}_amd64.deb
dpkg-deb --root-owner-group -Zxz --build "$root" "$package" > /dev/null
echo "$package"
