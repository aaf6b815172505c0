#!/bin/sh
# Compares mg_g711 with C tables, in nanoseconds per sample. Run it from anywhere. It needs rt and gcc. It builds in a
# temporary folder, which it removes at the end.
# Arguments go to `rt lib`, as in `run.sh --cpu=x86-64-v3`.
set -eu
here=$(CDPATH= cd -- "$(dirname -- "$0")" && pwd)
root=$here
while [ ! -d "$root/crates/mg_g711" ]; do
    [ "$root" != / ] || { echo "no crates/mg_g711 above $here" >&2; exit 1; }
    root=$(dirname -- "$root")
done
work=$(mktemp -d)
trap 'rm -rf "$work"' EXIT
mkdir "$work/crates"
mkdir "$work/crates/mg_g711"
for part in src specs proofs; do cp -R "$root/crates/mg_g711/$part" "$work/crates/mg_g711/"; done
mkdir -p "$work/crates/g711_bench/src"
cp "$here/exports.rt.in" "$work/crates/g711_bench/src/lib.rt"
printf 'mg_g711:\ng711_bench staticlib: mg_g711\n' > "$work/crates.txt"
(cd "$work/crates/g711_bench" && rt lib "$@") > "$work/log" 2>&1 || { tail -n 20 "$work/log" >&2; exit 1; }
gcc -O2 -o "$work/bench" "$here/bench.c" "$work/crates/g711_bench/out/libg711_bench.a"
"$work/bench"
