#!/bin/sh
# Runs the tests of the page that draws a recording, demo/recording.html, in a headless browser. Prints how many
# passed, and exits with 1 if one failed. Then it breaks the page in one place after another, as listed in wrong.txt,
# and exits with 1 if the tests miss one. Finally, it draws the page's sample into FOLDER, or into a temporary folder.
# usage: run.sh [FOLDER]
# It needs chromium. It takes about a minute.
set -eu
here=$(CDPATH= cd -- "$(dirname -- "$0")" && pwd)
page=$here/../../demo/recording.html
folder=${1:-$(mktemp -d)}
work=$(mktemp -d)
trap 'rm -rf "$work"' EXIT

# Opens a page, with additional browser options.
# usage: browse URL OPTION ..
browse() {
    url=$1
    shift
    timeout 60 chromium --headless --no-sandbox --disable-gpu --hide-scrollbars --user-data-dir="$work/profile" \
        --virtual-time-budget=20000 --window-size=1400,900 "$@" "$url" 2> "$work/errors"
}

# Prints the result line of a page's tests, and the tests that failed.
tests_of() {
    browse "file://$1#test" --dump-dom > "$work/dom" || { cat "$work/errors" >&2; exit 1; }
    sed -n '/id="told"/,$p' "$work/dom" | sed 's/.*id="told"[^>]*>//; /<\/span>/ { s/<\/span>.*//; q }'
}

told=$(tests_of "$page")
printf '%s\n' "$told"
case $told in
    [1-9]*\ passed,\ 0\ failed) ;;
    *) exit 1 ;;
esac

# A line of wrong.txt: what is broken, a string in the page, and its replacement.
wrong=0
while IFS=@ read -r name from to; do
    grep -qF -- "$from" "$page" || { echo "$name: the page has no '$from'" >&2; exit 1; }
    FROM=$from TO=$to awk '!done && (at = index($0, ENVIRON["FROM"])) {
        $0 = substr($0, 1, at - 1) ENVIRON["TO"] substr($0, at + length(ENVIRON["FROM"])); done = 1 } { print }' \
        "$page" > "$work/wrong.html"
    told=$(tests_of "$work/wrong.html")
    case $told in
        *passed,\ 0\ failed | [!0-9]* | '')
            echo "$name: no test noticed: $told" >&2
            exit 1
            ;;
    esac
    wrong=$((wrong + 1))
done < "$here/wrong.txt"
echo "$wrong wrong pages were rejected"

mkdir -p "$folder"
browse "file://$page#sample" --screenshot="$folder/recording.png"
[ -s "$folder/recording.png" ] || { cat "$work/errors" >&2; exit 1; }
echo "$folder/recording.png"
