# Extracts speech from a recording or a replay, and packets from a network capture. Source it in a shell:
#     . demo/recordings.sh
# It needs xxd, sox and tcpdump.

# Writes the speech at one port of the gateway as a WAV file: PORT FILE.wav [al] < LINES. The lines come from a
# recording (for what the caller said) or from a replay (for what the listener was sent). Pass `al` for A-law.
sound() {
    grep "^rtp $1 " | cut -d ' ' -f 4 | cut -c 25- | xxd -r -p | sox -t "${3:-ul}" -r 8000 -c 1 - "$2"
}

# Writes the RTP packets that a port of the gateway received or sent, from a network capture: PORT in|out < CAPTURE.
# Each line has a port, a peer and the packet's bytes, as in a recording or a replay. The link is Ethernet or loopback.
captured() {
    tcpdump -r - -nn -x "udp and $([ "$2" = in ] && echo dst || echo src) port $1" 2> /dev/null | awk -v way="$2" '
        function put() { if (hex) print "rtp", port, peer, substr(hex, 57) }
        function part(name) { n = split(name, p, "."); return p[1] "." p[2] "." p[3] "." p[4] ":" p[5] }
        /^[0-9]/ {
            put(); hex = ""; from = part($3); sub(/:$/, "", $5); to = part($5)
            peer = way == "in" ? from : to; port = way == "in" ? to : from; sub(/.*:/, "", port)
        }
        /^\t/ { for (i = 2; i <= NF; i++) hex = hex $i }
        END { put() }'
}
