#!/bin/sh
# Lets a gateway write to pipes that nobody reads, and checks that its ticks begin as they do with a reader, that calls
# continue, and that the recording can be replayed.
# usage: run.sh [--gateway PATH]
# It needs python3. If you run it as root, the gateway gets real-time scheduling, as in the systemd unit. It takes about
# a minute.
set -eu
here=$(CDPATH='' cd -- "$(dirname -- "$0")" && pwd)
. "$here/../gateway_option.sh"
PYTHONPATH=$here/.. exec python3 "$here/readers.py" "$gateway"
