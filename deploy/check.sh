#!/bin/sh
# Checks the units, the programs that they run, the firewall rules, the alert rules and the Debian package. Prints one
# line for each check.
# usage: check.sh [--missing]
# It needs python3 and dpkg-deb. It skips a check whose program is missing: systemd-analyze, erl, rebar3, nft, promtool,
# lintian, man, or bash. With --missing, it only prints those Debian packages with these programs that aren't installed,
# except for rebar3 and bash.
set -eu
here=$(CDPATH='' cd -- "$(dirname -- "$0")" && pwd)

missing() {
    for program in systemd-analyze:systemd erl:erlang-base nft:nftables promtool:prometheus lintian:lintian man:man-db; do
        command -v "${program%:*}" > /dev/null || printf '%s ' "${program#*:}"
    done
}

case "$# ${1:-}" in
    '0 ') ;;
    '1 --missing') missing; exit ;;
    *) echo 'usage: check.sh [--missing]' >&2; exit 2 ;;
esac
work=$(mktemp -d)
trap 'rm -rf "$work"' EXIT

# Whether the program of a check is installed.
has() {
    command -v "$1" > /dev/null || { echo "skipped, as $1 is missing: $2"; false; }
}

fail() {
    echo "check.sh: $1" >&2
    exit 1
}

# verify UNIT [FILE]: checks a unit's syntax and that its programs exist. The package need not be installed here.
verify() {
    sed "s|=\(+\{0,1\}\)/usr/lib/lobbysorrel\(-controller\)\{0,1\}/|=\1$here/|" "$here/${2:-$1}" > "$work/$1"
    systemd-analyze verify --man=no "$work/$1" 2> "$work/said" || true
    [ ! -s "$work/said" ] || fail "systemd-analyze verify: $(cat "$work/said")"
}

# rules KIND FILE: runs `promtool KIND rules FILE`.
rules() {
    promtool "$1" rules "$here/prometheus/$2" > "$work/said" 2>&1 || fail "promtool $1 rules $2: $(cat "$work/said")"
}

# exposure UNIT FILE: verifies a unit, and fails if its exposure is above 1.5.
exposure() {
    verify "$1" "$2"
    security=$(systemd-analyze security --no-pager --offline=true --threshold=15 "$work/$1") ||
        fail "$2: systemd-analyze security reports an exposure above 1.5"
    echo "$2: valid, $(echo "$security" | sed -n 's/.*\(exposure level\).*: \([0-9.]*\) .*/\1 \2/p')"
}

if has systemd-analyze 'the units'; then
    cp "$here/lobbysorrel-keeper@.service" "$work/lobbysorrel-keeper@1.service"
    exposure lobbysorrel@1.service lobbysorrel@.service
    exposure lobbysorrel-keeper@1.service lobbysorrel-keeper@.service
fi
if has systemd-analyze "the controller's unit" && has erl "the controller's unit"; then
    cp "$here/lobbysorrel-controller-keeper.service" "$work"
    exposure lobbysorrel-controller.service lobbysorrel-controller.service
    exposure lobbysorrel-controller-keeper.service lobbysorrel-controller-keeper.service
fi
if has nft 'the firewall rules'; then
    if nft -c -f "$here/gateway.nft" > "$work/said" 2>&1; then
        echo 'gateway.nft: valid'
    elif grep -q 'Operation not permitted' "$work/said"; then
        echo "skipped, as nft isn't permitted here: the firewall rules"
    else
        fail "gateway.nft: $(cat "$work/said")"
    fi
    if has systemd-analyze 'the unit that loads them'; then
        verify lobbysorrel-firewall.service
        echo 'lobbysorrel-firewall.service: valid'
    fi
fi
if has promtool 'the alert rules'; then
    rules check lobbysorrel.rules.yml
    rules test lobbysorrel_test.yml
    echo "lobbysorrel.rules.yml: valid, and its tests pass"
fi

# metrics NUMBER: writes a metrics file, as a gateway does, with this number of terminations.
metrics() {
    {
        printf 'lobbysorrel_terminations{gateway="192.0.2.1:2944"} %s\n' "$1"
        printf 'lobbysorrel_port_termination{gateway="192.0.2.1:2944",port="30002"} 7\n'
    } > "$work/metrics.new"
    mv "$work/metrics.new" "$work/metrics"
}

# drains STATUS WANTED [SECONDS]: checks the exit status of `drain`, and everything that it prints, except for the path
# of the folder.
drains() {
    status=0
    "$here/drain" "$work/metrics" "${3:-0}" > "$work/said" 2>&1 || status=$?
    said=$(sed "s|$work/||g" "$work/said")
    [ "$status" = "$1" ] || fail "drain: status $status, not $1: $said"
    [ "$said" = "$2" ] || fail "drain: '$said', not '$2'"
}

drains 2 'drain: there is no file metrics'
metrics 0
drains 0 'metrics: 0 terminations'
metrics 1
drains 1 'metrics: waiting up to 1 s for calls to end; new ones are still accepted
metrics: 1 termination
drain: 1 termination left: RTP/7 (port 30002)' 1
(sleep 1.5; metrics 0) &
drains 0 'metrics: waiting up to 10 s for calls to end; new ones are still accepted
metrics: 1 termination
metrics: 0 terminations' 10
wait
for text in '' 0x0 -1 1.5 'a b' 99999999999999999999; do
    metrics "$text"
    drains 2 "drain: metrics doesn't state the number of terminations"
done
metrics 0
drains 2 'drain: more than 65535 seconds: 65536' 65536
drains 2 'drain: not a number of seconds: ten' ten
touch -d '1 minute ago' "$work/metrics"
status=0
"$here/drain" "$work/metrics" > "$work/said" 2>&1 || status=$?
if [ "$status" != 2 ] || ! grep -q 'is 6[0-9] seconds old: is the gateway running?' "$work/said"; then
    fail "drain with an old file: status $status: $(cat "$work/said")"
fi
echo 'drain: as expected'

# stops WANTED [VARIABLE=VALUE]..: checks everything that the unit's ExecStop prints in this environment.
command=$(sed -n "s|^ExecStop=-/bin/sh -c '\(.*\)'$|\1|p" "$here/lobbysorrel@.service" |
    sed "s|/usr/lib/lobbysorrel|$here|; s|/run/lobbysorrel/%i/gateway.prom|$work/metrics|; s|/run/|$work/|")
stops() {
    wanted=$1
    shift
    said=$(env -i "$@" sh -c "$command" 2>&1 | sed "s|$work/||g")
    [ "$said" = "$wanted" ] || fail "ExecStop with '$*': '$said', not '$wanted'"
}

metrics 1
left='metrics: 1 termination
drain: 1 termination left: RTP/7 (port 30002)'
stops '' DRAIN=60
stops "$left" MAINPID=1
stops "$left" MAINPID=1 DRAIN=0
(sleep 1.5; metrics 0) &
stops 'metrics: waiting up to 60 s for calls to end; new ones are still accepted
metrics: 1 termination
metrics: 0 terminations' MAINPID=1 DRAIN=60
wait
metrics 1
touch "$work/lobbysorrel-upgrade"
stops "$left" MAINPID=1 DRAIN=60
echo 'ExecStop: as expected'

python3 -B -m unittest discover -s "$here/tests" > "$work/said" 2>&1 || fail "the tests: $(cat "$work/said")"
echo "$(sed -n 's/^Ran \([0-9]*\) tests.*/\1/p' "$work/said") tests of the programs: passed"

package=$("$here/package.sh" "$work")
again=$("$here/package.sh" "$work/again")
cmp "$package" "$again" || fail 'two builds of the package differ'
dpkg-deb -x "$package" "$work/root"
echo "$(basename "$package"): two builds have the same bytes"

if has rebar3 "the controller's package"; then
    controller=$("$here/controller-package.sh" "$work")
    echo "$(basename "$controller"): built"
fi
if has lintian 'the packages'; then
    # shellcheck disable=SC2086
    lintian --allow-root --fail-on error,warning "$package" ${controller:-}
    echo 'lintian: no errors or warnings'
fi
if has man 'the manual pages'; then
    for page in "$work"/root/usr/share/man/man1/*; do
        man --warnings -l "$page" 2> "$work/said" > "$work/page"
        [ ! -s "$work/said" ] || fail "$(basename "$page"): $(cat "$work/said")"
        echo "$(basename "$page" .gz): $(wc -l < "$work/page") lines"
    done
fi
if has bash 'the completions'; then
    cat "$work"/root/usr/share/bash-completion/completions/* - > "$work/completions" << 'END'
compopt() { :; } # it works only while the shell completes
COMP_WORDS=("$@") COMP_CWORD=$(($# - 1))
"_$1" "$1" "${COMP_WORDS[COMP_CWORD]}" "${COMP_WORDS[COMP_CWORD - 1]}"
echo "${COMPREPLY[*]}"
END
    # completes WANTED WORD ..: the last word must have these completions.
    completes() {
        wanted=$1
        shift
        found=$(bash "$work/completions" "$@")
        [ "$found" = "$wanted" ] || fail "'$*' is completed by '$found', not by '$wanted'"
    }
    completes live mg_bridge l
    completes '--control-address --control-port --controller --checkpoint-every' mg_bridge live --c
    completes --flows mg_bridge replay --fl
    completes '' mg_bridge serve --slots ''
    completes 'seal serve' mg_bridge help s
    touch "$work/gateway.prom"
    completes "$work/gateway.prom" mg_bridge live --metrics "$work/gateway.p"
    completes --ticks mg_pace --t
    echo 'bash completions: as expected'
fi
