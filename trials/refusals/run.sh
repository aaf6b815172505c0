#!/bin/sh
# Makes each allocation, read, write, receive, send and wait of the gateway fail in turn, one per run, until no such
# call is left. Checks what happens after each failure. Prints how many runs there were, and exits with 1 at the first
# run that goes wrong.
# usage: run.sh [--gateway PATH]
# It needs gcc, python3 and rt, and tests the program in dist/, or the one at PATH. It also tests a core alone, in a
# program that rt proves and builds first, with the crates below it. The runs take less than a minute.
set -eu
here=$(CDPATH= cd -- "$(dirname -- "$0")" && pwd)
. "$here/../gateway_option.sh"
root=$here/../..
script=$root/examples/speech.txt
output=$root/examples/speech.out
work=$(mktemp -d)
trap 'rm -rf "$work"' EXIT
gcc -O2 -Wall -Wextra -shared -fPIC -o "$work/refuse.so" "$here/refuse.c"

# Prints what happened in this run, and ends the trial.
wrong() {
    echo "wrong: $name, $kind $at refused: $1" >&2
    echo "status $status, on standard error:" >&2
    head -c 2000 "$work/errors" >&2
    echo "on standard output:" >&2
    tail -c 2000 "$work/out" >&2
    exit 1
}

# Runs a program in which one call of this kind fails, with reads and writes of at most PIECE bytes.
# usage: refused KIND AT PIECE INPUT PROGRAM WORD ..
refused() {
    kind=$1 at=$2 piece=$3 input=$4
    shift 4
    rm -f "$work/told"
    status=0
    LD_PRELOAD=$work/refuse.so REFUSE=$kind REFUSE_AT=$at REFUSE_PIECE=$piece REFUSE_TOLD=$work/told \
        "$@" < "$input" > "$work/out" 2> "$work/errors" || status=$?
}

was_refused() {
    [ -e "$work/told" ]
}

# Checks that a run ended with this status and text.
ended() {
    [ "$status" = "$1" ] || wrong "not status $1"
    [ "$(cat "$work/errors")" = "$2" ] || wrong "not '$2'"
}

# Checks that the output is a prefix of the stored output.
is_front() {
    head -c "$(wc -c < "$work/out")" "$output" | cmp -s - "$work/out" \
        || wrong 'what was written is not a prefix of the output'
}

# Checks that the output ends at the end of a line.
is_whole_lines() {
    [ -z "$(tail -c 1 "$work/out")" ] || wrong 'what was written ends within a line'
}

# Checks that the output is that of the complete lines in the script's first COUNT bytes.
# usage: is_of_bytes COUNT
is_of_bytes() {
    head -c "$1" "$script" > "$work/bytes"
    head -n "$(wc -l < "$work/bytes")" "$work/bytes" > "$work/lines"
    "$gateway" replay < "$work/lines" > "$work/wanted"
    cmp -s "$work/out" "$work/wanted" || wrong 'what was written is not the output of the lines that were read'
}

# Checks a run with complete output.
is_whole() {
    ended 0 ''
    cmp -s "$work/out" "$1" || wrong 'the output is not as stored'
}

# Checks the run in which no call fails anymore, after at least one in which a call failed.
is_last() {
    [ "$at" -gt 1 ] || wrong 'nothing was refused'
    is_whole "$1"
    echo "$name, each $kind refused: $((at - 1)) runs"
}

# A script of control messages and speech. Reads and writes take at most 40 bytes, so that there are many.
name=replay
replay() {
    refused "$1" "$2" 40 "$script" "$gateway" replay
}
spared=0
k=1
while replay memory "$k"; was_refused; do
    if [ "$status" = 0 ]; then
        # The program first allocates for all arguments at once, and then for one.
        spared=$((spared + 1))
        [ "$spared" = 1 ] || wrong 'not status 4'
        is_whole "$output"
    else
        ended 4 'out of memory'
        is_front
        is_whole_lines
    fi
    k=$((k + 1))
done
is_last "$output"
k=1
while replay read "$k"; was_refused; do
    ended 3 'read failed'
    is_front
    is_of_bytes $(((k - 1) * 40))
    k=$((k + 1))
done
is_last "$output"
k=1
while replay write "$k"; was_refused; do
    ended 3 'write failed'
    is_front
    [ "$(wc -c < "$work/out")" -le $(((k - 1) * 40)) ] || wrong 'more was written than was taken'
    k=$((k + 1))
done
is_last "$output"

# Sessions of the gateway over loopback.
for kind in memory read write receive send wait; do
    PYTHONPATH=$here/.. python3 "$here/serve.py" "$gateway" "$work/refuse.so" "$kind"
done

# A session that gets no line after the write that fails. `serve` must not exit as if everything had been printed.
name=serve
printf 'stats\ntick\nstats\nquit\n' > "$work/session"
serve() {
    ports=$(PYTHONPATH=$here/.. python3 -c 'from loopback import free_ports; print(*free_ports(2))')
    refused "$1" "$2" 0 "$work/session" "$gateway" serve --slots=2 --control-port="${ports% *}" --base-port="${ports#* }"
}
serve none 0
cp "$work/out" "$work/whole"
k=1
while serve write "$k"; was_refused; do
    ended 3 'write failed'
    head -c "$(wc -c < "$work/out")" "$work/whole" | cmp -s - "$work/out" || wrong 'no prefix of the output'
    k=$((k + 1))
done
is_last "$work/whole"

# A core alone: its results before and after a message for which memory ran out. Its program is rebuilt if it or the
# crates have changed.
name=control
sources() {
    find "$root"/crates/*/src "$here/control.rt.in" -type f | LC_ALL=C sort \
        | while read -r file; do cat "$file"; done | cksum
}
if [ ! -x "$here/out/control" ] || [ "$(sources)" != "$(cat "$here/out/sources")" ]; then
    mkdir -p "$work/program" "$here/out"
    cp "$here/control.rt.in" "$work/program/main.rt.in"
    printf '#!/bin/sh\ncp out/bench "%s"\n' "$here/out/control" > "$work/keep"
    chmod +x "$work/keep"
    BESIDE=$work/keep "$root/benches/program.sh" "$work/program" mg_core > /dev/null
    sources > "$here/out/sources"
fi
refused none 0 0 /dev/null "$here/out/control"
ended 0 ''
cp "$work/out" "$work/answered"
[ "$(grep -c ': answered$' "$work/answered")" = 2 ] || wrong 'the messages are not answered'
starts=0
k=1
while refused memory "$k" 0 /dev/null "$here/out/control"; was_refused; do
    ended 0 ''
    if [ "$(cat "$work/out")" = 'no memory at the start' ]; then
        starts=$((starts + 1))
    else
        # One of the two messages was answered when sent again, and nothing else differs.
        [ "$(grep -c ': as before, and answered again$' "$work/out")" = 1 ] || wrong 'no message was answered again'
        sed 's/: as before, and answered again$/: answered/' "$work/out" | cmp -s - "$work/answered" \
            || wrong 'another outcome'
    fi
    k=$((k + 1))
done
is_last "$work/answered"
[ "$starts" -gt 0 ] && [ "$starts" -lt $((k - 1)) ] || wrong 'none at the start, or none afterwards'
echo "$name: $starts of them at the start"
