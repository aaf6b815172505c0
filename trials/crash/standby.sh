#!/bin/sh
# Two hosts, as network namespaces. The second follows the journal of the first, which is renewed meanwhile. The first
# goes down with its gateway, and the second gets its address and continues. Prints the longest times for which a caller
# in a conference of eight, all talking, was sent no packet, and no speech.
# usage: standby.sh [--gateway PATH]
# It needs root, ip (iproute2), socat, arping (iputils-arping) and python3. It takes fifteen seconds.
set -eu
here=$(CDPATH='' cd -- "$(dirname -- "$0")" && pwd)
. "$here/../gateway_option.sh"
work=$(mktemp -d)
names='standby-one standby-two standby-calls'
end() {
    for name in $names; do
        ip netns pids "$name" 2> /dev/null | xargs -r kill -9 2> /dev/null || true
        ip netns delete "$name" 2> /dev/null || true
    done
    for link in standby-1 standby-2 standby-3 standby-br; do
        ip link delete "$link" 2> /dev/null || true
    done
    rm -rf "$work"
}
trap end EXIT
trap 'exit 1' INT TERM

fail() {
    echo "standby.sh: $1" >&2
    cat "$work"/*.err "$work/calls.out" >&2
    exit 1
}

# until_holds WHAT COMMAND ..: waits at most ten seconds until a command succeeds.
until_holds() {
    what=$1
    shift
    tries=0
    until "$@"; do
        tries=$((tries + 1))
        [ "$tries" -lt 1000 ] || fail "no $what"
        sleep 0.01
    done
}

ip link add standby-br type bridge
ip link set standby-br up
host=1
for name in $names; do
    ip netns add "$name"
    ip link add "standby-$host" type veth peer name eth0 netns "$name"
    ip link set "standby-$host" master standby-br up
    ip -n "$name" address add "10.88.0.$host/24" dev eth0
    ip -n "$name" link set eth0 up
    ip -n "$name" link set lo up
    host=$((host + 1))
done

# on HOST COMMAND ..
on() {
    name=standby-$1
    shift
    ip netns exec "$name" "$@"
}

# take HOST: gives the service's address to a host.
take() {
    ip -n "standby-$1" address add 10.88.0.100/24 dev eth0
    on "$1" arping -q -c 1 -U -I eth0 10.88.0.100 > /dev/null 2>&1 &
}

# gateway HOST: starts the gateway, and waits until it is ready.
gateway() {
    on "$1" "$gateway" live --address 10.88.0.100 --journal "$work/$1.txt" --checkpoint-every 2 \
        > "$work/$1.out" 2> "$work/$1.err" &
    until_holds "gateway on host $1" grep -q ready "$work/$1.out"
}

touch "$work/one.out" "$work/two.out" "$work/calls.out"
take one
gateway one
on one socat -U TCP-LISTEN:7000,reuseaddr,fork "SYSTEM:tail -c +1 -F $work/one.txt" 2> /dev/null &
on two socat -u TCP:10.88.0.1:7000,retry=100,interval=0.1 "SYSTEM:$here/../../deploy/receive-journal $work/two.txt" \
    2> "$work/copy.err" &
until_holds 'copy of the journal' [ -s "$work/two.txt" ]
on calls env "PYTHONPATH=$here/.." python3 "$here/calls.py" 10.88.0.100 10.88.0.3 10 > "$work/calls.out" 2>&1 &
calls=$!
until_holds conference grep -q ready "$work/calls.out"
sleep 4
ip -n standby-one link set eth0 down
ip netns pids standby-one | xargs -r kill -9
grep -q '^# follows ' "$work/two.txt" || fail 'the journal was not renewed'
take two
gateway two
wait "$calls" || fail 'the conference'
sed -n '$p' "$work/calls.out"
