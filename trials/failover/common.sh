# Starts gateways on this host, callers who follow a controller, and the controller in `demo`. run.sh and cost.sh
# source it after gateway_option.sh.
root=$here/../..
work=$(mktemp -d)
trap 'kill $(jobs -p) 2> /dev/null || true; rm -rf "$work"' EXIT
gcc -O2 -Wall -o "$work/callers" "$here/callers.c"

# The scheduling policy of the unit file, if permitted.
policy=
if chrt -f 10 true 2> /dev/null; then policy='chrt -f 10'; fi

# Waits up to ten seconds until a file has this many matching lines: FILE PATTERN COUNT
until_told() {
    for ((i = 0; i < 100; i++)); do
        if [ "$(cat "$work/$1" 2> /dev/null | grep -c -- "$2")" -ge "$3" ]; then return; fi
        sleep 0.1
    done
    echo "$1: missing: $2"
    grep -v '^member' "$work/log" || true
    errors
    exit 1
}

# start N: starts gateway N. Its first termination and context have the clock's time in seconds as their numbers.
declare -A process
start() {
    numbers=$(date +%s)
    : > "$work/$1.out"
    $policy "$gateway" live --control-port $((12944 + 2 * $1)) --base-port $((13000 + 512 * $1)) --controller 127.0.0.1 \
        --first-termination "$numbers" --first-context "$numbers" > "$work/$1.out" 2>> "$work/$1.errors" &
    process[$1]=$!
}

# Starts gateways, 256 callers and the controller, which makes four conferences of 64. Further arguments go to the
# callers. Lines for the callers go to file descriptor 8, and those for the controller to 9: HOW_MANY [ARGUMENT]..
call() {
    rm -f "$work/events" "$work/words"
    mkfifo "$work/events" "$work/words"
    $policy "$work/callers" 256 20000 "${@:2}" < "$work/events" > "$work/report" &
    exec 8> "$work/events"
    gateways=()
    for ((n = 0; n < $1; n++)); do
        start $n
        until_told $n.out ready 1
        gateways+=("127.0.0.1:$((12944 + 2 * n))")
    done
    "$root/demo/controller.escript" --here 127.0.0.1:12942 --conferences 4 --members 64 --callers 127.0.0.1:20000 \
        "${gateways[@]}" < "$work/words" 2> "$work/controller.errors" | tee "$work/log" >&8 &
    exec 9> "$work/words"
    until_told log '^member' 256
}

# Prints what the gateways and the controller wrote to standard error.
errors() {
    for file in "$work"/*.errors; do
        sed "s/^/$(basename "$file" .errors): /" "$file"
    done
}
