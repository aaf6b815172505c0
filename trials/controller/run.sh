#!/bin/sh
# Runs the controller's trials on this host, with gateways from dist/ and phones on 127.0.0.1.
# usage: run.sh [--gateway PATH] [TRIAL ..]
# The default is heard loss failover crashes garbage started anything; the last takes an hour. It needs python3 and the
# Debian packages that controller/test needs; the trials linphone, proxy, page, web and two need more. To avoid port
# conflicts with other programs, run it in a network namespace. Each trial prints its results, and exits with 1 if
# something is wrong.
set -eu
here=$(CDPATH='' cd -- "$(dirname -- "$0")" && pwd)
if [ "${1:-}" = --gateway ] && [ $# -ge 2 ]; then
    BRIDGE=$(realpath "$2")
    export BRIDGE
    shift 2
fi
case ${1:-} in -*) echo 'usage: run.sh [--gateway PATH] [TRIAL ..]' >&2; exit 2 ;; esac
cd "$here/../../controller"
# shellcheck source=controller/base
. ./base
rebar3 compile > /dev/null
cd - > /dev/null
[ $# -gt 0 ] || set -- heard loss failover crashes garbage started anything
status=0
for trial; do
    echo "== $trial"
    PYTHONPATH=$here/.. python3 "$here/$trial.py" || status=1
done
exit $status
