# The gateway and the tools of this folder. calls.sh and cost.sh source it after gateway_option.sh, and set how many
# callers there are. Recordings go into a new folder in TMPDIR or /tmp, which is removed at the end. They take 70 MB per
# caller and hour.
root=$here/../..
work=$(mktemp -d)
trap 'kill $(jobs -p) 2> /dev/null || true; rm -rf "$work"' EXIT
for program in calls lines; do
    gcc -O2 -Wall -Wextra -o "$work/$program" "$here/$program.c"
done

# Starts a gateway on the ports of streams.h, with additional arguments. Its output goes to a file. Its RTP numbers
# start so high that they wrap. No packet counts as too late, because a recording does not say which were not sent.
start() {
    : > "$work/out"
    "$gateway" live --control-port 15944 --base-port 16000 --slots "$callers" --first-termination 1000 \
        --first-context 100 --ssrc 4294967200 --sequence 65000 --timestamp 4294960000 --late 60000 "$@" \
        > "$work/out" 2> "$work/errors" &
    process=$!
    until grep -q 'ready$' "$work/out"; do
        kill -0 "$process" 2> /dev/null || { cat "$work/errors"; exit 1; }
        sleep 0.1
    done
}

# Ends the gateway, and shows what it wrote to standard error.
stop() {
    kill "$process"
    wait "$process" 2> /dev/null || true
    cat "$work/errors" >&2
}
