#!/bin/sh
# Draws the output of a replay with --flows as demo/recording.html shows it, with the pointer at TICK in ROW (from 0).
# usage: draw.sh SHOWN.txt PICTURE.png [TICK [ROW [WIDTH,HEIGHT]]]
# It needs chromium. docs/recording.png was made with this script.
set -eu
here=$(CDPATH= cd -- "$(dirname -- "$0")" && pwd)
shown=$1 picture=$2 tick=${3:-0} row=${4:-0} size=${5:-1200,640}
work=$(mktemp -d)
trap 'rm -rf "$work"' EXIT
{
    # The page, with the text embedded and a last step that opens it.
    sed '/^<\/script>$/,$d' "$here/../../demo/recording.html"
    printf 'const text = document.getElementById("shown").textContent;\n'
    printf 'await open(new File([text], "%s"));\n' "$(basename "$shown")"
    printf 'pointer = { tick: %d, row: %d };\nlater();\n</script>\n' "$tick" "$row"
} > "$work/page.html"
{
    printf '<!doctype html><script type="text/plain" id="shown">'
    cat "$shown"
    printf '</script>\n'
    cat "$work/page.html"
} > "$work/shown.html"
timeout 60 chromium --headless --no-sandbox --disable-gpu --hide-scrollbars --user-data-dir="$work/profile" \
    --virtual-time-budget=20000 --window-size="$size" --screenshot="$picture" "file://$work/shown.html" 2> "$work/errors"
[ -s "$picture" ] || { cat "$work/errors" >&2; exit 1; }
