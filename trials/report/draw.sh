#!/bin/sh
# Draws the page of `mg_bridge heard --report` on a small and a large screen, and prints it.
# usage: draw.sh PAGE.html FOLDER
# Writes small.png, large.png and page.pdf. It needs chromium.
set -eu
page=$(realpath "$1")
mkdir -p "$2"
folder=$(realpath "$2")
work=$(mktemp -d)
trap 'rm -rf "$work"' EXIT

# Opens the page with additional browser options.
browse() {
    timeout 60 chromium --headless --no-sandbox --disable-gpu --hide-scrollbars --user-data-dir="$work/profile" \
        "$@" "file://$page" 2> "$work/errors" || { cat "$work/errors" >&2; exit 1; }
}

browse --window-size=400,1600 --screenshot="$folder/small.png"
browse --window-size=1200,1000 --screenshot="$folder/large.png"
browse --no-pdf-header-footer --print-to-pdf="$folder/page.pdf"
