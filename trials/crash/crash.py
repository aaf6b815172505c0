"""Kills `mg_bridge live` with a journal at random moments, restarts it as the unit does, and checks that callers hear
nothing worse than a gap.

usage: crash.py BRIDGE TERMINATIONS SECONDS KILLS

TERMINATIONS is a multiple of eight. One of them, which a controller adds and removes again and again, is in the first
conference. The others are callers: seven in the first conference, and eight in each of the others. In each conference,
the first caller sends a tone, from which the last caller is isolated; all but the first send silence. One kill in five
hits a gateway that is starting after another kill. Exits with 1 if a check fails.
"""
import os
import random
import re
import statistics
import sys
import tempfile
import time

from callers import SILENCE, TONE, Caller, Calls
from controller import Controller
from edits import Edits
from loopback import end_on_signals
from unit import RESTART, Unit

BRIDGE, TERMINATIONS, SECONDS, KILLS = sys.argv[1], int(sys.argv[2]), float(sys.argv[3]), int(sys.argv[4])
MEMBERS = 8
# The longest interval without packets, and how far timestamps may move from the clock, in seconds.
LONGEST, FARTHEST = 0.5, 0.06


def conference(controller, first, size):
    """Puts new callers into a conference. Their terminations are numbered from `first`."""
    callers = [Caller(first + place, SILENCE if place else TONE, place < size - 1) for place in range(size)]
    reply = controller.ask("Context=${%s}" % ",".join(one.add() for one in callers))
    for one, port in zip(callers, re.findall(r"m=audio (\d+)", reply)):
        one.to = ("127.0.0.1", int(port))
    context = re.search(r"Context=(\d+)", reply)[1]
    controller.ask(f"Context={context}{{Topology{{RTP/{first},RTP/{first + size - 1},isolate}}}}")
    return callers


def conferences(controller):
    callers = conference(controller, 1, MEMBERS - 1)
    while len(callers) < TERMINATIONS - 1:
        callers += conference(controller, len(callers) + 1, MEMBERS)
    return callers


def moments(start):
    """When to kill the gateway."""
    between = SECONDS / (KILLS + 1)
    found = [start + between * (n + 0.5 + random.random()) for n in range(KILLS)]
    for n in range(4, KILLS, 5):
        found[n] = found[n - 1] + RESTART + 0.1 * random.random()
    return found


def trial(unit):
    controller = Controller(("127.0.0.1", unit.control))
    callers = conferences(controller)
    edits = Edits(controller, MEMBERS - 1, len(callers))
    calls = Calls(callers)
    kills = moments(calls.start)
    killed, leads = [], []
    while (now := time.monotonic()) < calls.start + SECONDS:
        # Repeating a request that was forgotten would hide that.
        if unit.turn() and len(killed) % 2:
            controller.request_again()
        edits.turn()
        if kills and now >= kills[0]:
            unit.kill()
            killed.append(kills.pop(0))
            leads.append([one.take_leads() for one in callers])
        calls.turn()
    leads.append([one.take_leads() for one in callers])
    if any(time.monotonic() - (one.last or 0) > 0.1 for one in callers):
        sys.exit("a caller is sent nothing at the end")
    controller.finish()
    return controller, callers, killed, leads


def lives(leads):
    """For each caller, the median of how much the timestamps led the clock in each run of the gateway."""
    return [[statistics.median(life) for life in one if life] for one in zip(*leads)]


def widest(gaps, kill):
    """The longest interval after a kill."""
    return max((length for start, length in gaps if kill - 0.1 < start + length and start < kill + 2), default=None)


def report(controller, callers, killed, leads):
    gaps = [widest(one.gaps, kill) for kill in killed for one in callers]
    listeners = [one for one in callers if one.hears and one.payload == SILENCE]
    speech = [widest(one.speech_gaps, kill) for kill in killed for one in listeners]
    if None in gaps or None in speech:
        sys.exit("a caller noticed no kill, or was sent nothing after it")
    moved = [abs(lead - life[0]) for life in lives(leads) for lead in life[1:]]
    print(f"{len(callers)} callers, {len(killed)} kills: packets stop for {1000 * statistics.median(gaps):.0f} ms at the "
          f"median, {1000 * max(gaps):.0f} at most; speech for {1000 * statistics.median(speech):.0f} and "
          f"{1000 * max(speech):.0f}")
    print(f"after a restart, timestamps have moved from the clock by {1000 * statistics.median(moved):.0f} ms at the median, "
          f"{1000 * max(moved):.0f} at most, since before the first kill; ports and SSRCs stay; nobody isolated is heard")
    print(f"{controller.answered} requests handled once each, {controller.repeats} repeats, each answered within "
          f"{1000 * controller.longest:.0f} ms; {controller.kept} kept replies are the same after a restart")
    return max(gaps) <= LONGEST and max(moved) <= FARTHEST and controller.kept > 0


def main():
    end_on_signals()
    with tempfile.TemporaryDirectory() as folder, tempfile.TemporaryFile() as errors:
        journal = os.path.join(folder, "journal.txt")
        unit = Unit(BRIDGE, TERMINATIONS, journal, errors)
        try:
            holds = report(*trial(unit))
            print(f"the journal has {os.path.getsize(journal)} bytes")
        finally:
            unit.kill()
            errors.seek(0)
            # Each start says what the gateway serves.
            said = re.compile("journal .*: continues after |(version|control|media|controllers|warning|journal|fence): ")
            lines = [line for line in errors.read().decode().splitlines() if not said.match(line)]
            print("".join(line + "\n" for line in lines[-20:]), end="")
    sys.exit(not holds)


main()
