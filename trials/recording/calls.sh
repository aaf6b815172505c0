#!/bin/bash
# Calls a gateway that records, under a controller that keeps changing conferences, and replays the recording. Checks,
# for each pair of a gateway's port and another port, that the recording has the datagrams that were sent, and the
# replay those that arrived, in order.
# usage: calls.sh [--gateway PATH] [--wrong[=KIND]] [SECONDS] [CALLERS]
# With --wrong, a line of this kind (rtp, tick or control; rtp by default) is removed from the middle of the recording
# before the replay, and the difference must be found.
# It tests the program in dist/, or the one at PATH. It needs gcc, and 1.5 GB for ten minutes of 128 callers. Exits with
# 0 if every check passes.
set -euo pipefail
here=$(CDPATH= cd -- "$(dirname -- "$0")" && pwd)
others='[--wrong[=KIND]] [SECONDS] [CALLERS]'
. "$here/../gateway_option.sh"
wrong='' wanted=0
case ${1:-} in
--wrong) wrong=rtp ;;
--wrong=*) wrong=${1#*=} ;;
esac
if [ -n "$wrong" ]; then
    wanted=2
    shift
fi
seconds=${1:-60} callers=${2:-128}
. "$here/common.sh"

start --record
"$work/calls" "$callers" "$seconds" "$work/sent" "$work/came"
stop

# The options in the first line. A recording is data: only known options with plain values are taken from it.
title=$(head -n 1 "$work/out")
names='address|control-address|control-port|base-port|slots|first-termination|first-context|ssrc|sequence|timestamp'
[[ $title =~ ^'# mg_bridge replay'(\ --($names)=[0-9.]+)*$ ]] || { echo "no title: $title"; exit 1; }
read -ra words <<< "$title"

# Prints the complete lines of the recording. If a kind is named, leaves out the middle line of that kind.
recording() {
    if [ -n "${1:-}" ]; then
        recording | awk -v kind="$1" -v half=$(($(grep -c "^$1" "$work/out") / 2)) '$1 != kind || n++ != half'
    else
        head -n "$(wc -l < "$work/out")" "$work/out"
    fi
}
# Reports whether two lists of datagrams are equal, or how they differ.
compare() {
    if diff "$work/$1" "$work/$2" > "$work/differences"; then
        echo equal
    else
        echo "$(grep -c '^[<>]' "$work/differences") lines differ"
        head -n 5 "$work/differences"
        return 1
    fi
}
recording | "$work/lines" > "$work/recorded"
begun=$SECONDS
recording "$wrong" | "$gateway" "${words[@]:2}" | "$work/lines" > "$work/replayed"
took=$((SECONDS - begun)) status=0
printf '%d events, ' "$(grep -vc '^#' "$work/out")"
printf '%d of them datagrams, recorded beside sent: ' "$(grep -c '^rtp\|^control' "$work/out")"
compare sent recorded || status=1
awk '{ n[$1 == 15944] += $3 } END { printf "%d answers and %d packets, ", n[1], n[0] }' "$work/came"
printf 'came beside replayed (in %d s): ' $took
compare came replayed || status=$((status + 2))
[ $status = $wanted ]
