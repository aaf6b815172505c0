#!/bin/sh
# Checks that symmetric RTP keeps a stream that outlives its call out of the next call on the same port.
# usage: run.sh [--gateway PATH]
# It needs python3, and tests the program in dist/, or the one at PATH. It takes ten seconds.
set -eu
here=$(CDPATH= cd -- "$(dirname -- "$0")" && pwd)
. "$here/../gateway_option.sh"
PYTHONPATH=$here/.. exec python3 "$here/reuse.py" "$gateway"
