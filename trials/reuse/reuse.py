"""Measures what is heard from a caller who keeps sending after the call has ended and another caller has its port.

usage: reuse.py BRIDGE

A, B and D are in a conference on `mg_bridge live`; D's termination has no Remote. A and D send tones, and B listens.
After a second, the controller subtracts A and adds C, who gets A's port. A keeps sending. After another second, C sends
a tone too. All callers are on 127.0.0.1. Prints one line for a run with `--symmetric-rtp` and one for a run without it.
Exits with 1 if, with the option, B hears anything but A during A's call and C when C speaks, or if the reports don't
count each dropped packet.
"""
import re
import select
import struct
import subprocess
import sys
import tempfile
import time

from loopback import free_ports, udp
from tones import FRAME, SAMPLES, level, tone

BRIDGE, SLOTS = sys.argv[1], 4
# Packets per second.
PACKETS = 50
# How loud B must hear A, C and D in each second. Less than half a packet of a tone in a second counts as none.
DUE = [1, 0, 0, 0, 0, 0, 0, 1, 0]
TRACE = 0.5 / PACKETS
TONES = "A %.1f %%, C %.1f %%, D %.1f %%"
HEARD = (f"B heard {TONES} in A's call; {TONES} when C was silent; {TONES} when C spoke; C was added in %.0f ms; "
         "strangers at C's port, at D's and in all: %s of %s")
ADD = "Add=${Media{LocalControl{Mode=SendReceive},Local{v=0\nc=IN IP4 $\nm=audio $ RTP/AVP 0\n}%s}}"
REMOTE = ",Remote{v=0\nc=IN IP4 127.0.0.1\nm=audio %d RTP/AVP 0\n}"


class Caller:
    """A telephone that sends a tone to a port of the gateway."""

    def __init__(self, pitch):
        self.socket, self.pitch, self.frame = udp(), pitch, tone(pitch)
        self.remote = REMOTE % self.socket.getsockname()[1]
        self.to, self.sent = None, 0

    def speak(self):
        head = struct.pack("!BBHII", 0x80, 0, self.sent, self.sent * FRAME, self.pitch)
        self.socket.sendto(head + self.frame, ("127.0.0.1", self.to))
        self.sent += 1

    def samples(self):
        """Yields the samples in the packets that are waiting at its socket."""
        while select.select([self.socket], [], [], 0)[0]:
            yield from (SAMPLES[code] for code in self.socket.recv(2048)[12:])


class Gateway:
    """A gateway and its controller."""

    def __init__(self, *options):
        self.port, base = free_ports(SLOTS)
        ports = ["--control-port", str(self.port), "--base-port", str(base), "--slots", str(SLOTS)]
        self.reports, self.controller, self.asked = tempfile.TemporaryFile("w+"), udp(), 0
        words = [BRIDGE, "live", *ports, "--report", "1", *options]
        self.process = subprocess.Popen(words, stdout=subprocess.PIPE, stderr=self.reports)

    def __enter__(self):
        if self.process.stdout.readline() != b"ready\n":
            sys.exit(f"not ready: {' '.join(self.process.args)}")
        return self

    def __exit__(self, *_):
        self.process.kill()
        self.process.wait()

    def ask(self, action):
        """Sends a request, and returns the gateway's ports that the answer names."""
        self.asked += 1
        text = b"MEGACO/1 [127.0.0.1]:2945 Transaction=%d{%s}" % (self.asked, action.encode())
        self.controller.sendto(text, ("127.0.0.1", self.port))
        if not select.select([self.controller], [], [], 1)[0]:
            sys.exit(f"no answer to {action}")
        answer = self.controller.recv(65535).decode()
        if "Error=" in answer:
            sys.exit(answer)
        return [int(port) for port in re.findall(r"m=audio (\d+)", answer)]

    def strangers(self, words):
        """Returns the counts of strangers in the report lines that start with these words."""
        self.reports.seek(0)
        return [int(count) for count in re.findall(rf"{words} .*strangers=(\d+)", self.reports.read())]


def second(speakers, listener):
    """Makes callers speak for a second, and returns the samples that a listener receives meanwhile."""
    list(listener.samples())  # discard earlier ones
    start, samples = time.monotonic(), []
    for n in range(1, PACKETS + 1):
        for caller in speakers:
            caller.speak()
        time.sleep(max(0, start + n / PACKETS - time.monotonic()))
        samples += listener.samples()
    return samples or sys.exit("B received no packets")


def trial(*options):
    a, b, c, d = (Caller(pitch) for pitch in (300, 0, 550, 1050))
    with Gateway(*options) as gateway:
        a.to, b.to, d.to = gateway.ask("Context=${%s}" % ",".join(ADD % remote for remote in (a.remote, b.remote, "")))
        spans = [second([a, d], b)]
        start, in_call = time.monotonic(), a.sent
        gateway.ask("Context=1{Subtract=RTP/1}")
        a.speak()
        c.to, = gateway.ask("Context=1{%s}" % (ADD % c.remote))
        took = 1000 * (time.monotonic() - start)
        spans += [second([a, d], b), second([a, c, d], b)]
        time.sleep(1.2)  # until the next report
    if c.to != a.to:
        sys.exit("C did not get A's port")
    levels = [level(samples, caller.pitch) for samples in spans for caller in (a, c, d)]
    counts = [sum(gateway.strangers(f"port={caller.to}")) for caller in (c, d)] + gateway.strangers("totals")[-1:]
    late = a.sent - in_call
    sent = [late, d.sent, late + d.sent]
    holds = all(abs(one - due) < (0.5 if due else TRACE) for one, due in zip(levels, DUE)) and counts == sent
    return HEARD % (*(100 * one for one in levels), took, counts, sent), holds


def main():
    text, holds = trial("--symmetric-rtp")
    print(f"with --symmetric-rtp: {text}{'' if holds else ': MISSED'}", flush=True)
    print(f"without: {trial()[0]}")
    sys.exit(not holds)


main()
