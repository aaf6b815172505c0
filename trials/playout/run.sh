#!/bin/sh
# Prints what others hear from callers whose clocks drift, whose sequence numbers jump, who send in bursts, or who share
# a port.
# usage: run.sh [--gateway PATH]
# It needs python3, and tests the program in dist/, or the one at PATH. It takes a few seconds.
set -eu
here=$(CDPATH= cd -- "$(dirname -- "$0")" && pwd)
. "$here/../gateway_option.sh"
exec python3 "$here/callers.py" "$gateway"
