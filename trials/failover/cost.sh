#!/bin/bash
# Compares the processor time of four gateways with 64 callers each with that of one gateway with 256 callers, in as
# many conferences. It is the user and system time in /proc/PID/stat while all callers speak. Runs of one gateway and of
# four alternate, and the minimum counts.
# usage: cost.sh [--gateway PATH] [SECONDS] [TURNS]
# It needs what run.sh needs.
set -eu
here=$(CDPATH= cd -- "$(dirname -- "$0")" && pwd)
others='[SECONDS] [TURNS]'
. "$here/../gateway_option.sh"
seconds=${1:-30} turns=${2:-3}
. "$here/common.sh"

# Prints the clock ticks of processor time that the gateways used.
taken() {
    for n in "${!process[@]}"; do
        cat "/proc/${process[$n]}/stat"
    done | awk '{ sum += $14 + $15 } END { print sum }'
}
turn() {
    call "$1" noise
    sleep 2
    echo mark >&8
    before=$(taken)
    sleep "$seconds"
    after=$(taken)
    echo report >&8
    until_told report moved 1
    awk -v n="$1" -v ticks=$((after - before)) -v hz="$(getconf CLK_TCK)" -v s="$seconds" 'END {
        share = ticks / hz / s
        printf "%d of %d: %.2f %% of a core, %.0f callers a core, missing %d, at most %.0f ms between two\n", n,
            256 / n, 100 * share, 256 / share, $12, 1000 * $14 }' "$work/report" | tee -a "$work/turns"
    echo quit >&9
    sleep 1
    echo quit >&8
    kill "${process[@]}"
    wait "${process[@]}" 2> /dev/null || true
    process=()
    sleep 0.5
}
for ((k = 0; k < turns; k++)); do
    turn 1
    turn 4
done
echo 'the least:'
sort -n -k 1,1 -k 4,4 "$work/turns" | awk '!seen[$1]++'
errors
