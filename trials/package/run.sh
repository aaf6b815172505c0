#!/bin/sh
# Builds the Debian package, and installs, upgrades and removes it in a Debian 12 container that runs systemd.
# usage: run.sh [FOLDER]
# It needs root, python3, and the Debian packages debootstrap, lintian and systemd-container, which it doesn't install.
# It downloads Debian 12 (100 MB, two minutes) into FOLDER/debian, unless it is there already, and leaves it unchanged.
# Without FOLDER, the trial deletes the download afterwards. The trial takes three and a half minutes.
set -eu
here=$(CDPATH='' cd -- "$(dirname -- "$0")" && pwd)
[ $# -le 1 ] || { echo 'usage: run.sh [FOLDER]' >&2; exit 2; }
[ "$(id -u)" = 0 ] || { echo 'run.sh: it needs root' >&2; exit 1; }
for program in debootstrap lintian systemd-nspawn python3; do
    command -v $program > /dev/null || { echo "run.sh: it needs $program" >&2; exit 1; }
done
work=$(mktemp -d)
trap 'rm -rf --one-file-system "$work"' EXIT
folder=${1:-$work}
if [ ! -e "$folder/debian/etc/debian_version" ]; then
    mkdir -p "$folder"
    rm -rf --one-file-system "$folder/new"
    debootstrap --variant=minbase --include=dbus,iproute2,man-db,nftables,systemd,systemd-sysv \
        bookworm "$folder/new" > "$work/log" 2>&1 || { tail -n 20 "$work/log" >&2; exit 1; }
    rm -rf --one-file-system "$folder/debian"
    mv "$folder/new" "$folder/debian"
fi
PYTHONPATH=$here/.. python3 "$here/package.py" "$folder/debian" "$work"
