#!/bin/sh
# Measures a gateway's tick and the arrival of its packets, and both in hand-written C, in nanoseconds.
# usage: run.sh [TURNS]
# It needs rt and gcc.
set -eu
here=$(CDPATH= cd -- "$(dirname -- "$0")" && pwd)
work=$(mktemp -d)
trap 'rm -rf "$work"' EXIT
gcc -O3 -march=x86-64-v2 -Wall -Wextra -o "$work/kept" "$here/kept.c"
BESIDE=$work/kept TURNS=${1:-5} "$here/../program.sh" "$here" mg_core mg_rtp
