"""A conference of eight callers at a gateway, from one host. Prints the longest intervals without a packet,
and without speech.

usage: calls.py GATEWAY OWN SECONDS

GATEWAY and OWN are addresses; the gateway's control port is 2944. Each caller sends a tone. Exits with 1 if a port, an SSRC
or the order of timestamps changes, if the last caller, who is isolated, hears anybody, or if another hears nobody at the
end.
"""
import re
import sys
import time

from callers import TONE, Caller, Calls
from controller import Controller

GATEWAY, OWN, SECONDS = sys.argv[1], sys.argv[2], float(sys.argv[3])
MEMBERS = 8


def main():
    controller = Controller((GATEWAY, 2944), OWN)
    callers = [Caller(number, TONE, number < MEMBERS - 1, OWN) for number in range(MEMBERS)]
    reply = controller.ask("Context=${%s}" % ",".join(one.add() for one in callers))
    for one, port in zip(callers, re.findall(r"m=audio (\d+)", reply)):
        one.to = (GATEWAY, int(port))
    controller.ask(f"Context=1{{Topology{{RTP/{MEMBERS},*,isolate}}}}")
    print("ready", flush=True)
    calls = Calls(callers)
    while time.monotonic() < calls.start + SECONDS:
        calls.turn()
    end = time.monotonic()
    if any(end - (one.last or 0) > 0.1 or one.hears and end - (one.heard or 0) > 0.1 for one in callers):
        sys.exit("a caller is sent nothing, or hears nobody, at the end")
    controls = controller.ask("Context=1{ContextAudit{Topology},AuditValue=*{Audit{}}}")
    if f"RTP/{MEMBERS}" not in controls:
        sys.exit(f"the conference is gone: {controls}")
    longest = [max((gap for one in callers for _, gap in gaps(one)), default=0)
               for gaps in (lambda one: one.gaps, lambda one: one.speech_gaps)]
    print("packets stop for at most {:.0f} ms, speech for {:.0f}".format(*(1000 * gap for gap in longest)))


main()
