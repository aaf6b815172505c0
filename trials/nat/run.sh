#!/bin/sh
# Checks that a gateway works behind a 1:1 NAT, as in most clouds: callers and controllers send to 203.0.113.5, and a
# router translates this address to and from 10.77.0.2, the gateway's own.
# usage: run.sh [--gateway PATH]
# It needs root, ip (iproute2), nft (nftables) and python3, and tests the program in dist/, or the one at PATH. It takes
# three seconds.
set -eu
here=$(CDPATH= cd -- "$(dirname -- "$0")" && pwd)
. "$here/../gateway_option.sh"

work=$(mktemp -d)
pid=
# Names of network namespaces: the gateway's host, the router and the outside world.
host=nat-host-$$ router=nat-router-$$ outside=nat-outside-$$
clean_up() {
    [ -z "$pid" ] || kill "$pid" || :
    for space in "$host" "$router" "$outside"; do
        ip netns delete "$space" 2> /dev/null || :
    done
    rm -rf "$work"
}
trap clean_up EXIT

# Adds a namespace, and connects it to an interface of the router, which becomes its default gateway.
join() { # NAMESPACE ADDRESS INTERFACE ROUTER-ADDRESS
    ip netns add "$1"
    ip -n "$router" link add "$3" type veth peer name eth0 netns "$1"
    ip -n "$router" address add "$4/24" dev "$3"
    ip -n "$router" link set "$3" up
    ip -n "$1" address add "$2/24" dev eth0
    ip -n "$1" link set lo up
    ip -n "$1" link set eth0 up
    ip -n "$1" route add default via "$4"
}

ip netns add "$router"
join "$host" 10.77.0.2 inside 10.77.0.1
join "$outside" 198.51.100.2 outside 198.51.100.1
ip netns exec "$router" sh -c 'echo 1 > /proc/sys/net/ipv4/ip_forward'
ip netns exec "$router" nft -f - <<'RULES'
table ip nat {
    chain prerouting {
        type nat hook prerouting priority dstnat
        ip daddr 203.0.113.5 dnat to 10.77.0.2
    }
    chain postrouting {
        type nat hook postrouting priority srcnat
        ip saddr 10.77.0.2 snat to 203.0.113.5
    }
}
RULES

printf 'with --address 203.0.113.5 alone: '
set -- ip netns exec "$host" "$gateway" live --slots 4 --address 203.0.113.5
if "$@" > "$work/out" 2> "$work/errors"; then
    status=0
else
    status=$?
fi
echo "$(cat "$work/errors") (status $status)"

"$@" --bind-address 10.77.0.2 --controller 198.51.100.2 --symmetric-rtp > "$work/ready" &
pid=$!
until grep -q '^ready$' "$work/ready"; do
    kill -0 "$pid"
    sleep 0.05
done
printf 'with --bind-address 10.77.0.2: '
ip netns exec "$outside" "$gateway" check 203.0.113.5:2944
PYTHONPATH=$here/.. ip netns exec "$outside" python3 "$here/calls.py"
[ "$status" = 5 ]
