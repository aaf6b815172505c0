#!/bin/sh
# Proves, builds and runs the program FOLDER/main.rt.in, which uses these crates of the repository. Needs rt.
# usage: program.sh FOLDER CRATE ..
# It builds in a temporary folder, which it removes at the end. It runs the program TURNS times (default: 1) on one
# processor, followed each time by the program BESIDE, if that variable is set.
set -eu
folder=$1
shift
root=$(CDPATH= cd -- "$(dirname -- "$0")/.." && pwd)
work=$(mktemp -d)
trap 'rm -rf "$work"' EXIT
for crate in "$root"/crates/*; do
    copy=$work/crates/${crate##*/}
    mkdir -p "$copy"
    for part in src specs proofs; do
        [ ! -d "$crate/$part" ] || cp -R "$crate/$part" "$copy/"
    done
done
mkdir -p "$work/crates/bench/src"
cp "$folder/main.rt.in" "$work/crates/bench/src/main.rt"
cp "$root/crates.txt" "$work/"
echo "bench: $*" >> "$work/crates.txt"
cd "$work/crates/bench"
rt run > /dev/null 2> "$work/log" || { tail -n 20 "$work/log" >&2; exit 1; }
for _ in $(seq "${TURNS:-1}"); do
    taskset -c 0 out/bench
    [ -z "${BESIDE:-}" ] || taskset -c 0 "$BESIDE"
done
