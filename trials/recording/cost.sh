#!/bin/bash
# Measures the cost of recording: the processor time of a gateway with --record and without, in turn, and the size of
# the recording, before and after gzip. The time is the user and system time in /proc/PID/stat from the start to the end
# of the calls.
# usage: cost.sh [--gateway PATH] [SECONDS] [CALLERS] [TURNS]
# It needs what calls.sh needs, and gzip.
set -eu
here=$(CDPATH= cd -- "$(dirname -- "$0")" && pwd)
others='[SECONDS] [CALLERS] [TURNS]'
. "$here/../gateway_option.sh"
seconds=${1:-60} callers=${2:-128} turns=${3:-3}
. "$here/common.sh"
hz=$(getconf CLK_TCK)

# Runs one turn: NAME [ARGUMENT].., with these arguments for the gateway.
turn() {
    start "${@:2}"
    "$work/calls" "$callers" "$seconds" "$work/sent" "$work/came" > "$work/told"
    awk -v name="$1" -v hz="$hz" '{ printf "%s: %.2f s of the processor\n", name, ($14 + $15) / hz }' \
        "/proc/$process/stat" | tee -a "$work/turns"
    sed 's/^/  /' "$work/told"
    stop
}
for ((k = 0; k < turns; k++)); do
    turn plain
    turn recorded --record
done
awk '!least[$1] || $2 < least[$1] { least[$1] = $2 } END {
    printf "the least: %.2f times as much as without\n", least["recorded:"] / least["plain:"] }' "$work/turns"
size=$(wc -c < "$work/out")
TIMEFORMAT='gzip took %U s of the processor as user and %S as system'
time gzip -6 < "$work/out" > "$work/packed"
packed=$(wc -c < "$work/packed")
awk -v n="$callers" -v s="$seconds" -v size="$size" -v packed="$packed" 'BEGIN {
    printf "%.1f MB an hour and caller; %.1f by gzip, which is a factor of %.2f\n", size * 3600 / n / s / 1e6,
        packed * 3600 / n / s / 1e6, size / packed }'
