#!/bin/sh
# Measures how quickly a gateway answers messages, and checks that it answers all messages outside a flood, and loses no
# packet during the flood.
# usage: run.sh [--gateway PATH]
# It needs gcc and python3, and tests the program in dist/, or the one at PATH. It takes a minute and a half.
set -eu
here=$(CDPATH= cd -- "$(dirname -- "$0")" && pwd)
. "$here/../gateway_option.sh"
# The scheduling policy of the unit file, if permitted.
policy=
if chrt -f 10 true 2> /dev/null; then policy='chrt -f 10'; fi
work=$(mktemp -d)
trap 'rm -rf "$work"' EXIT
gcc -O2 -Wall -o "$work/callers" "$here/../failover/callers.c"
PYTHONPATH=$here/.. $policy python3 "$here/answers.py" "$gateway" "$work/callers"
