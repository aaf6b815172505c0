# Callers and a controller for a gateway on 127.0.0.1, using common tools. Source it in a shell:
#     . demo/callers.sh
# It needs netcat-openbsd, sox, ffmpeg and GStreamer (gstreamer1.0-tools, -plugins-base, -plugins-good).

# The gateway's control port, the port in the controller's name, and the first port of the callers. For a second run,
# choose other ports, and type the same commands. For another gateway, set CONTROL_PORT and CALLER_PORT. For the same
# gateway, set CONTROLLER_PORT and CALLER_PORT: it then treats the messages as another controller's.
: "${CONTROL_PORT:=2944}" "${CONTROLLER_PORT:=2945}" "${CALLER_PORT:=40000}"
# The gateway's choices: its port for the first caller, the context, and the first termination. `mg` takes them from the
# answer to an Add.
: "${MEDIA_PORT:=30000}" "${CONTEXT:=1}" "${TERMINATION:=1}"

# Commands and messages use the ports and numbers of a first run on a new gateway. This prints the port to use instead.
moved() {
    if [ "$1" -lt 40000 ]; then echo $(($1 - 30000 + MEDIA_PORT)); else echo $(($1 - 40000 + CALLER_PORT)); fi
}

# Sends a controller's message from a file, and prints the answer. A message is one datagram.
mg() {
    answer=$(awk -v name="$CONTROLLER_PORT" -v callers="$CALLER_PORT" -v context="$CONTEXT" -v first="$TERMINATION" '
        NR == 1 { sub(/:2945/, ":" name) }
        /^m=audio 4/ { $2 += callers - 40000 }
        { sub(/Context=1[{]/, "Context=" context "{"); gsub(/RTP\/3/, "RTP/" first + 2); print }' "$1" |
        nc -u -w 1 127.0.0.1 "$CONTROL_PORT")
    echo "$answer"
    case $answer in *Add=RTP/*audio*)
        CONTEXT=${answer#*Context=} TERMINATION=${answer#*Add=RTP/} MEDIA_PORT=${answer#*m=audio }
        CONTEXT=${CONTEXT%%\{*} TERMINATION=${TERMINATION%%\{*} MEDIA_PORT=${MEDIA_PORT%% *}
    esac
}

# Writes five seconds of a tone: FILE.wav FREQUENCY
tone() {
    sox -n -r 8000 -c 1 -b 16 "$1" synth 5 sine "$2" gain -12
}

# Plays a file from a caller's port to a port of the gateway, with GStreamer: FILE.wav GATEWAY_PORT FROM_PORT.
# Each packet must hold 20 ms. For a microphone, replace the first two elements with autoaudiosrc.
say() {
    gst-launch-1.0 -q filesrc location="$1" ! wavparse ! audioconvert ! audioresample ! \
        audio/x-raw,rate=8000,channels=1 ! mulawenc ! \
        rtppcmupay pt=0 min-ptime=20000000 max-ptime=20000000 ! \
        udpsink host=127.0.0.1 port="$(moved "$2")" bind-address=127.0.0.1 bind-port="$(moved "$3")"
}

# The same as `say`, with packet loss: FILE.wav GATEWAY_PORT FROM_PORT PROBABILITY. 0.1 loses one packet in ten.
say_with_loss() {
    gst-launch-1.0 -q filesrc location="$1" ! wavparse ! audioconvert ! audioresample ! \
        audio/x-raw,rate=8000,channels=1 ! mulawenc ! \
        rtppcmupay pt=0 min-ptime=20000000 max-ptime=20000000 ! identity drop-probability="$4" ! \
        udpsink host=127.0.0.1 port="$(moved "$2")" bind-address=127.0.0.1 bind-port="$(moved "$3")"
}

# The same as `say`, with ffmpeg.
say_by_ffmpeg() {
    local to from
    to=127.0.0.1:$(moved "$2") from=$(moved "$3")
    ffmpeg -hide_banner -loglevel error -nostdin -i "$1" \
        -af aresample=8000,asetnsamples=n=160:p=1,arealtime -ac 1 -ar 8000 -c:a pcm_mulaw \
        -f rtp -payload_type 0 -rtpflags +skip_rtcp \
        "rtp://$to?localaddr=127.0.0.1&localrtpport=$from&localrtcpport=$((from + 1))&pkt_size=172" > /dev/null
}

# Records what a caller is sent: CALLER_PORT FILE.wav SECONDS. If too few packets arrive, `record` gives up 10 seconds
# later. To hear them live, replace the last three elements with audioconvert ! audioresample ! autoaudiosink.
record() {
    timeout $(($3 + 10)) gst-launch-1.0 -q udpsrc address=127.0.0.1 port="$(moved "$1")" num-buffers=$(($3 * 50)) \
        caps="application/x-rtp,media=audio,clock-rate=8000,encoding-name=PCMU,payload=0" ! \
        rtpjitterbuffer latency=60 ! rtppcmudepay ! mulawdec ! audio/x-raw,format=S16LE ! \
        wavenc ! filesink location="$2"
}

# Prints the loudest sample and the rough frequency of two seconds of a recording: FILE.wav
what() {
    printf '%s: ' "$1"
    sox "$1" -n trim 2 2 stat 2>&1 | awk '
        /Maximum amp/ { peak = $3 }
        /Rough/ { frequency = $3 }
        END { if (peak == 0) print "silence"; else print "peak", peak, "frequency", frequency }'
}

# Prints how often a recording is silent for 20 ms or longer between its first and its last sound: FILE.wav
holes() {
    printf '%s: ' "$1"
    sox "$1" -t dat - | awk '
        $1 == ";" { next }
        { n++ }
        $2 > 0.01 || $2 < -0.01 { if (last && n - last > 150) holes++; last = n }
        END { print holes + 0, "holes" }'
}
