#!/bin/sh
# Measures a pair of controllers with simulated gateways and callers, all on this host: joins per second, memory, and
# how long a takeover and the recovery from a loss of gateways take. It needs the Debian packages that controller/test
# needs.
# usage: scale.sh [CALLERS ROOMS GATEWAYS LOST]
set -eu
here=$(CDPATH='' cd -- "$(dirname -- "$0")" && pwd)
[ $# = 4 ] || set -- 20000 2000 100 10
cd "$here/../../controller"
# shellcheck source=controller/base
. ./base
rebar3 as test compile > /dev/null
built=$REBAR_BASE_DIR/test/lib/lobby
exec erl -noinput -pa "$built/ebin" "$built/test" -eval 'scale:main(init:get_plain_arguments())' -extra "$@"
