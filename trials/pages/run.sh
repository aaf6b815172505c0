#!/bin/sh
# Runs the pages' commands that need no network, and compares their output with what the pages show.
# usage: run.sh [--try]
# It needs python3 and bash, and runs the program in dist/. With --try, it runs the sources, unproved: that needs rt,
# and each command takes about a minute.
set -eu
cd "$(dirname -- "$0")/../.."
exec python3 trials/pages/pages.py "$@" ./*.md docs/*.md demo/*.md
