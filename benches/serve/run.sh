#!/bin/bash
# Measures the gateway over loopback: `live`, which waits for its ticks and messages itself, and `serve`, which polls
# and ticks when mg_pace says so (mg_pace's own time isn't counted). Compares their processor time with that of plain
# receives and sends in C.
# usage: run.sh CALLERS A_CONFERENCE SECONDS [SLOTS]
# With 0 CALLERS it measures an idle gateway. TURNS=N measures each N times, in turn.
# It needs gcc, bc, and mg_bridge and mg_pace in dist/, or in the folder PROGRAMS.
set -eu
callers=$1 members=$2 seconds=$3 slots=${4:-$1}
here=$(CDPATH= cd -- "$(dirname -- "$0")" && pwd)
programs=${PROGRAMS:-$here/../../dist}
bridge=$programs/mg_bridge pace=$programs/mg_pace
work=$(mktemp -d)
trap 'rm -rf "$work"; kill $(jobs -p) 2> /dev/null || true' EXIT
for program in load bare; do
    gcc -O2 -Wall -o "$work/$program" "$here/$program.c"
done
# Makes calls, or only waits if there are no callers. Prints the processor time that a process has used since it was
# ready, its memory, and how many packets were too late.
measure() {
    name=$1 process=$2
    until grep -q ready "$work/out" 2> /dev/null; do sleep 0.1; done
    begun=$(date +%s.%N) before=$(cut -d ' ' -f 1 "/proc/$process/schedstat")
    if [ "$callers" = 0 ]; then sleep "$seconds"; else "$work/load" "$callers" "$members" "$seconds"; fi
    after=$(cut -d ' ' -f 1 "/proc/$process/schedstat") ended=$(date +%s.%N)
    awk -v n="$callers" -v s="$(echo "$ended - $begun" | bc)" -v ns="$((after - before))" -v name="$name" 'BEGIN {
        printf "%s: %.2f s of the processor in %.0f s, %.2f %%", name, ns / 1e9, s, ns / 1e7 / s
        if (n > 0) printf ", %.3f ms a caller and second", ns / 1e6 / n / s
        print "" }'
    sed -n 's/^VmHWM:[ \t]*/  memory at most: /p' "/proc/$process/status"
    sed 's/^/  /' "$work/errors"
}
# Runs a gateway that mg_pace drives.
paced() {
    name=$1
    shift
    rm -f "$work/lines"
    mkfifo "$work/lines"
    "$pace" --polls 1 > "$work/lines" 2> "$work/errors" &
    paces=$!
    "$@" < "$work/lines" > "$work/out" 2>> "$work/errors" &
    measure "$name" $!
    kill $! $paces
    wait $! $paces 2> /dev/null || true
    : > "$work/out"
}
for _ in $(seq "${TURNS:-1}"); do
    "$bridge" live --slots "$slots" > "$work/out" 2> "$work/errors" &
    measure live $!
    kill $!
    wait $! 2> /dev/null || true
    : > "$work/out"
    paced serve "$bridge" serve --slots "$slots"
    [ "$callers" = 0 ] || paced 'bare calls' "$work/bare" "$callers" "$slots"
done
