#!/bin/bash
# Runs four gateways on this host under the controller in `demo`, with 64 callers on each. One is killed; later another
# is killed and restarts at once. Each time, the callers of the killed gateway must hear the others again within 3 s, on
# another gateway. Isolated callers must hear nobody, and the callers of the other gateways must not miss a packet.
# usage: run.sh [--gateway PATH]
# It tests the program in dist/, or the one at PATH, and exits with 0 if all of this holds. It needs gcc and Erlang
# (erlang-base, erlang-megaco), and takes half a minute.
set -eu
here=$(CDPATH= cd -- "$(dirname -- "$0")" && pwd)
. "$here/../gateway_option.sh"
. "$here/common.sh"

# after WHAT COMMAND ..: runs a command at a random moment between two audits, gives the controller and the callers five
# seconds, and prints what happened to the callers, under the name WHAT.
failed=0 reports=0
after() {
    sleep "0.$((RANDOM % 900 + 100))"
    echo mark >&8
    "${@:2}"
    sleep 5
    reports=$((reports + 1))
    echo report >&8
    until_told report moved $reports
    tail -n 1 "$work/report" | awk -v what="$1" '{
        printf "%s: ", what
        if ($2 > 0) printf "%d of its %d callers heard others again, %.2f to %.2f s after it; ", $4, $2, $6, $8
        printf "%d callers stayed and missed %d packets, at most %.0f ms between two; ", $10, $12, 1000 * $14
        printf "%d packets with speech to one isolated\n", $16
        exit !($4 == $2 && $8 <= 3 && $2 + $10 == 256 && $12 == 0 && $16 == 0) }' || failed=1
}
lose() {
    kill -9 "${process[$1]}"
    wait "${process[$1]}" 2> /dev/null || true
}
lose_and_start() {
    lose "$1"
    start "$1"
}
# Prints the number of the gateway that has a conference.
holder() {
    port=$(sed -n "s/^conference $1 on 127.0.0.1:\([0-9]*\).*/\1/p" "$work/log" | tail -n 1)
    echo $(((port - 12944) / 2))
}

call 4
echo 'isolate 1 3 *' >&9
echo 'isolate 2 4 *' >&9
until_told log 'isolate .*: ok' 2
sleep 2
after 'nothing done' true
first=$(holder 1)
after 'killed' lose "$first"
start "$first"
until_told log '^gateway .* up' 5
after 'killed and restarted' lose_and_start "$(holder 2)"
echo quit >&9
grep '^gateway.*lost' "$work/log"
until_told log 'lost: no answer' 1
until_told log 'lost: restarted, error 4[13]' 1
errors
if [ $failed = 1 ]; then echo 'it did not hold'; fi
exit $failed
