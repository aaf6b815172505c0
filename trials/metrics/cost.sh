#!/bin/sh
# Measures how much processor time metrics cost a gateway with 256 talkers.
# usage: cost.sh [--gateway PATH]
# It needs python3, and measures the program in dist/, or the one at PATH. It takes five minutes.
set -eu
here=$(CDPATH= cd -- "$(dirname -- "$0")" && pwd)
. "$here/../gateway_option.sh"
PYTHONPATH=$here/.. exec python3 "$here/cost.py" "$gateway"
