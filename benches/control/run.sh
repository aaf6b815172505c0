#!/bin/sh
# Measures how long the gateway takes to answer control messages, in nanoseconds per message. Run it from anywhere.
here=$(CDPATH= cd -- "$(dirname -- "$0")" && pwd)
exec "$here/../program.sh" "$here" mg_core
