"""Stops `mg_bridge live` for a few seconds while callers in conferences of up to 64 send packets, and checks what they
are sent.

usage: stall.py BRIDGE CALLERS SECONDS

After the stall, no caller may be sent more than six packets at once (those of ticks at most five ticks late), and the
timestamps must agree with the clock. Exits with 1 otherwise.
"""
import re
import selectors
import signal
import subprocess
import sys
import tempfile
import time

from loopback import free_ports, udp

BRIDGE, CALLERS, STALL = sys.argv[1], int(sys.argv[2]), float(sys.argv[3])
BEFORE, AFTER = 2.0, 3.0
A_REQUEST, MEMBERS = 16, 64
ADD = ("Add=${Media{LocalControl{Mode=SendReceive},Local{v=0\nc=IN IP4 $\nm=audio $ RTP/AVP 0\n},"
       "Remote{v=0\nc=IN IP4 127.0.0.1\nm=audio %d RTP/AVP 0\n}}}")


def ask(controller, to, text):
    controller.sendto(text.encode(), ("127.0.0.1", to))
    for _ in range(200):
        try:
            return controller.recv(65535).decode()
        except BlockingIOError:
            time.sleep(0.01)
    sys.exit("no answer")


def conference(control, callers):
    """Puts the callers into conferences, and returns the gateway's port for each."""
    controller = udp()
    ports = []
    for first in range(0, CALLERS, A_REQUEST):
        adds = ",".join(ADD % s.getsockname()[1] for s in callers[first:first + A_REQUEST])
        context = "$" if first % MEMBERS == 0 else str(first // MEMBERS + 1)
        action = f"Context={context}{{{adds}}}"
        reply = ask(controller, control, f"MEGACO/1 [127.0.0.1]:2945 Transaction={first + 1}{{{action}}}")
        ports += [int(port) for port in re.findall(r"m=audio (\d+)", reply)]
    if len(ports) != CALLERS:
        sys.exit("not all callers were added")
    return ports


def main():
    control, base = free_ports(CALLERS)
    errors = tempfile.TemporaryFile()
    ports = ["--control-port", str(control), "--base-port", str(base)]
    # Timestamps start at 0, so they don't wrap.
    bridge = subprocess.Popen([BRIDGE, "live", *ports, "--slots", str(CALLERS), "--timestamp", "0"],
                              stdout=subprocess.PIPE, stderr=errors)
    try:
        trial(bridge, control)
    finally:
        bridge.kill()
        errors.seek(0)
        print(errors.read().decode(), end="")


def trial(bridge, control):
    if bridge.stdout.readline() != b"ready\n":
        sys.exit("not ready")
    callers = [udp() for _ in range(CALLERS)]
    ports = conference(control, callers)
    arrivals = [[] for _ in callers]
    selector = selectors.DefaultSelector()
    for number, s in enumerate(callers):
        selector.register(s, selectors.EVENT_READ, number)
    start = time.monotonic()
    stopped, going, sent = None, None, 0
    while (now := time.monotonic() - start) < BEFORE + STALL + AFTER:
        if stopped is None and now >= BEFORE:
            bridge.send_signal(signal.SIGSTOP)
            stopped = now
        if going is None and now >= BEFORE + STALL:
            bridge.send_signal(signal.SIGCONT)
            going = now
        while sent * 0.02 <= now:
            head = b"\x80\x00" + (sent & 0xFFFF).to_bytes(2, "big") + (sent * 160).to_bytes(4, "big")
            for number, s in enumerate(callers):
                s.sendto(head + number.to_bytes(4, "big") + b"\xff" * 160, ("127.0.0.1", ports[number]))
            sent += 1
        for key, _ in selector.select(0.002):
            try:
                while True:
                    packet = key.fileobj.recv(2000)
                    arrivals[key.data].append((time.monotonic() - start, int.from_bytes(packet[4:8], "big") / 8000))
            except BlockingIOError:
                pass
    at_once, missing, early, late = 0, 0, 0.0, 0.0
    for came in arrivals:
        # When the tick of timestamp 0 was due, judging by the packet that arrived with the least delay.
        origin = min(at - stamp for at, stamp in came if at < stopped)
        first = next(at for at, _ in came if at >= going)
        at_once = max(at_once, sum(first <= at and origin + stamp < first for at, stamp in came))
        steps = [round((b[1] - a[1]) / 0.02) - 1 for a, b in zip(came, came[1:])]
        missing = max(missing, sum(steps))
        for at, stamp in came:
            if at > first + 0.1:
                early, late = min(early, at - stamp - origin), max(late, at - stamp - origin)
    print(f"{CALLERS} callers, {STALL:g} s: at most {at_once} packets at once, {missing} missing; after it a packet "
          f"comes {1000 * early:.0f} to {1000 * late:.0f} ms after its timestamp")
    if at_once > 6 or early < -0.03 or late > 0.1:
        sys.exit(1)


main()
