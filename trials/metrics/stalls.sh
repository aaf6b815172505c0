#!/bin/sh
# Measures whether writing metrics, or a disk that is busy meanwhile, delays the packets to callers.
# usage: stalls.sh [--gateway PATH]
# It needs python3, and measures the program in dist/, or the one at PATH. It takes three minutes and writes up to 64 MB
# to the folder for temporary files (TMPDIR), which should be on a disk.
set -eu
here=$(CDPATH= cd -- "$(dirname -- "$0")" && pwd)
. "$here/../gateway_option.sh"
# The scheduling policy of the unit file, if permitted.
policy=
if chrt -f 10 true 2> /dev/null; then policy='chrt -f 10'; fi
PYTHONPATH=$here/.. exec python3 "$here/stalls.py" $policy "$gateway"
