"""Calls a gateway behind a 1:1 NAT from outside: a controller puts A and B into a conference, A sends a tone, and B listens.

All send from 198.51.100.2 to 203.0.113.5, the only address of the gateway that they know. Prints what B heard. Exits with
1 unless every reply and packet came from 203.0.113.5, replies named this address, and B heard A as loudly as A spoke.
"""
import re
import select
import socket
import struct
import sys
import time

from tones import FRAME, SAMPLES, level, tone

GATEWAY, OWN = "203.0.113.5", "198.51.100.2"
CONTROL_PORT = 2944
PITCH, PACKETS = 300, 50
ADD = ("Add=${Media{LocalControl{Mode=SendReceive},Local{v=0\nc=IN IP4 $\nm=audio $ RTP/AVP 0\n},"
       "Remote{v=0\nc=IN IP4 %s\nm=audio %d RTP/AVP 0\n}}}")


def udp():
    s = socket.socket(socket.AF_INET, socket.SOCK_DGRAM)
    s.bind((OWN, 0))
    return s


def received(s, seconds):
    """Returns the next datagram that arrives, if one does. It must come from the gateway's public address."""
    if not select.select([s], [], [], seconds)[0]:
        return None
    datagram, source = s.recvfrom(65535)
    if source[0] != GATEWAY:
        sys.exit(f"received from {source[0]}")
    return datagram


def ports(controller, callers):
    """Adds the callers to a new conference, and returns their ports at the gateway."""
    adds = ",".join(ADD % caller.getsockname() for caller in callers)
    text = f"MEGACO/1 [{OWN}]:2945 Transaction=1{{Context=${{{adds}}}}}"
    controller.sendto(text.encode(), (GATEWAY, CONTROL_PORT))
    reply = (received(controller, 1) or sys.exit("no reply")).decode()
    if set(re.findall(r"c=IN IP4 ([\d.]+)|^MEGACO/1 \[([\d.]+)\]", reply)) != {(GATEWAY, ""), ("", GATEWAY)}:
        sys.exit(reply)
    return [int(port) for port in re.findall(r"m=audio (\d+)", reply)]


def main():
    controller, a, b = udp(), udp(), udp()
    to_a, to_b = ports(controller, [a, b])
    frame, heard = tone(PITCH), []
    start = time.monotonic()
    for n in range(PACKETS):
        # B's packets, which are silence, would keep the path through B's own NAT open, and count as speech, too.
        for caller, to, speech in ((a, to_a, frame), (b, to_b, b"\xff" * FRAME)):
            caller.sendto(struct.pack("!BBHII", 0x80, 0, n, n * FRAME, to) + speech, (GATEWAY, to))
        time.sleep(max(0, start + (n + 1) / PACKETS - time.monotonic()))
        while packet := received(b, 0):
            heard += (SAMPLES[code] for code in packet[12:])
    loudness = level(heard, PITCH) if heard else 0
    print(f"B heard A at {100 * loudness:.1f} % in {len(heard) // FRAME} packets")
    sys.exit(loudness < 0.9)


main()
