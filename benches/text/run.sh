#!/bin/sh
# Measures how long it takes to read messages and write replies, in nanoseconds per message. Run it from anywhere.
here=$(CDPATH= cd -- "$(dirname -- "$0")" && pwd)
exec "$here/../program.sh" "$here" mg_text mg_sdp mg_g711
