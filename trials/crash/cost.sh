#!/bin/sh
# Measures what a journal costs: processor time with 256 talkers and without calls, and how much later answers arrive.
# usage: cost.sh [--gateway PATH]
# It needs python3, and measures the program in dist/, or the one at PATH, with journals on the disk of the current folder.
# It takes eight minutes, in which nothing else should run.
set -eu
here=$(CDPATH='' cd -- "$(dirname -- "$0")" && pwd)
. "$here/../gateway_option.sh"
export PYTHONPATH="$here/..:$here/../metrics"
python3 "$here/answer_times.py" "$gateway" .
python3 "$here/cost.py" "$gateway" .
