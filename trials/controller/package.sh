#!/bin/sh
# Builds the controller's Debian package, and installs, upgrades and removes it next to the gateway's on a Debian 12 under
# systemd, in a container.
# usage: package.sh [FOLDER]
# It needs what trials/package/run.sh and deploy/controller-package.sh need. It downloads a Debian 12 with Erlang (150 MB,
# three minutes) into FOLDER/debian, unless it is there already, and leaves it unchanged. Without FOLDER, it deletes the
# download afterwards. The trial takes a minute.
set -eu
here=$(CDPATH='' cd -- "$(dirname -- "$0")" && pwd)
[ $# -le 1 ] || { echo 'usage: package.sh [FOLDER]' >&2; exit 2; }
work=$(mktemp -d)
trap 'rm -rf --one-file-system "$work"' EXIT
folder=${1:-$work}
if [ ! -e "$folder/debian/etc/debian_version" ]; then
    needed=$(sed -n 's/^Depends: //p' "$here/../../deploy/debian-controller/control" | sed 's/ ([^)]*)//g; s/, /,/g')
    debootstrap --variant=minbase --include="dbus,iproute2,nftables,systemd,systemd-sysv,$needed" bookworm "$folder/debian" \
        > "$work/log" 2>&1 || { tail -n 20 "$work/log" >&2; exit 1; }
fi
PYTHONPATH=$here/..:$here/../package python3 "$here/package.py" "$folder/debian" "$work"
