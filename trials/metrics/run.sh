#!/bin/sh
# Checks the file that `mg_bridge live --metrics` writes, using promtool, node_exporter and Prometheus, and checks that
# alerts fire.
# usage: run.sh [--gateway PATH]
# It needs python3 and Debian's packages prometheus and prometheus-node-exporter. It tests the program in dist/, or the
# one at PATH, and takes three minutes.
set -eu
here=$(CDPATH= cd -- "$(dirname -- "$0")" && pwd)
. "$here/../gateway_option.sh"
# The scheduling policy of the unit file, if permitted.
policy=
if chrt -f 10 true 2> /dev/null; then policy='chrt -f 10'; fi
PYTHONPATH=$here/.. exec python3 "$here/metrics.py" $policy "$gateway"
