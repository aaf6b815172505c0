#!/bin/sh
# Sends random bursts of datagrams to the ports of gateways that poll in between, and checks that every datagram
# arrives. Prints how many schedules it ran, and exits with 1 at the first failure.
# usage: run.sh [--gateway PATH] [SCHEDULES] [SEED]
# It needs gcc and python3, and tests the program in dist/, or the one at PATH. 10,000 schedules, the default, take half
# a minute.
set -eu
here=$(CDPATH= cd -- "$(dirname -- "$0")" && pwd)
others='[SCHEDULES] [SEED]'
. "$here/../gateway_option.sh"
work=$(mktemp -d)
trap 'rm -rf "$work"' EXIT
gcc -O2 -Wall -Wextra -shared -fPIC -o "$work/refuse.so" "$here/../refusals/refuse.c"
PYTHONPATH=$here/.. python3 "$here/schedules.py" "$gateway" "$work/refuse.so" "${1:-10000}" "${2:-1}"
