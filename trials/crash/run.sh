#!/bin/sh
# Kills a gateway with a journal again and again during calls, and checks what callers and the controller see. Then cuts
# off a journal after its title and after each later byte, makes each write to it fail, does the same while journals are
# renewed, fills the disk, takes down a host, starts gateways with long journals, and reads a year's journals.
# usage: run.sh [--gateway PATH]
# It needs root, gcc, python3, what standby.sh needs, and three gigabytes of disk space in the current folder. It takes
# half an hour. cost.sh measures what a journal costs.
set -eu
here=$(CDPATH='' cd -- "$(dirname -- "$0")" && pwd)
. "$here/../gateway_option.sh"
# The scheduling policy of the unit file, if permitted.
policy=
if chrt -f 10 true 2> /dev/null; then policy='chrt -f 10'; fi
work=$(mktemp -d)
trap 'rm -rf "$work"' EXIT
gcc -O2 -Wall -Wextra -shared -fPIC -o "$work/refuse.so" "$here/../refusals/refuse.c"
export PYTHONPATH="$here/.."
$policy python3 "$here/crash.py" "$gateway" 256 600 40
python3 "$here/cuts.py" "$gateway"
python3 "$here/refused.py" "$gateway" "$work/refuse.so"
python3 "$here/renewals.py" "$gateway" "$work/refuse.so"
python3 "$here/files.py" "$gateway"
python3 "$here/disk.py" "$gateway"
"$here/standby.sh" --gateway "$gateway"
python3 "$here/start.py" "$gateway" .
