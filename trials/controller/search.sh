#!/bin/sh
# Searches worlds of three people, two rooms and two gateways for broken promises: breadth first, and in random walks
# whose seeds are printed. The controller's own modules decide, and the gateways run the proved program.
# usage: search.sh [SECONDS [SEED]]
# SECONDS are for each of the six searches [default: 600]. It exits with status 1 if a promise is broken. It needs the
# Debian packages that controller/test needs.
set -eu
case $# in 0|1|2) ;; *) echo 'usage: search.sh [SECONDS [SEED]]' >&2; exit 2 ;; esac
seconds=${1:-600} seed=${2:-$(date +%s)}
cd "$(CDPATH='' cd -- "$(dirname -- "$0")/../../controller" && pwd)"
# shellcheck source=controller/base
. ./base
# This compiles the tests, too.
rebar3 eunit --module=search_tests
BRIDGE=${BRIDGE:-$PWD/../dist/mg_bridge} exec erl -noshell -pa "$REBAR_BASE_DIR/test/lib/lobby/ebin" \
    -pa "$REBAR_BASE_DIR/test/lib/lobby/test" -run large_search run "$seconds" "$seed"
