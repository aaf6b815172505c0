# For the scripts in trials/*/ to source: parses the option --gateway PATH, which comes before all other arguments, and
# sets `gateway` to PATH or, without the option, to the program in dist/. The other arguments stay in "$@". The script
# must have set `here` to its own folder and, if it has other arguments, `others` to their names, such as '[CALLERS]'.
gateway=$here/../../dist/mg_bridge
others=${others:-}
if [ "${1:-}" = --gateway ] && [ $# -ge 2 ]; then
    gateway=$2
    shift 2
fi
case $others:${1:-} in
    *-*:*) ;;
    *:-*) set -- $others too many ;;
esac
if [ $# -gt "$(echo "$others" | wc -w)" ]; then
    echo "usage: ${0##*/} [--gateway PATH]${others:+ $others}" >&2
    exit 2
fi
