#!/bin/sh
# Stops a running gateway for a few seconds during calls, and checks what callers are sent when it resumes.
# usage: run.sh [--gateway PATH] [CALLERS] [SECONDS]
# It needs python3, and tests the program in dist/, or the one at PATH. The default is 16 callers and 5 seconds. It takes
# five seconds longer than the stall.
set -eu
here=$(CDPATH= cd -- "$(dirname -- "$0")" && pwd)
others='[CALLERS] [SECONDS]'
. "$here/../gateway_option.sh"
PYTHONPATH=$here/.. exec python3 "$here/stall.py" "$gateway" "${1:-16}" "${2:-5}"
