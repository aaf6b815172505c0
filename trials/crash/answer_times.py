"""Measures how quickly `mg_bridge live` answers without a journal, with a journal, and with a synced journal.

usage: answer_times.py BRIDGE FOLDER

The journal is in FOLDER. A controller sends each gateway 1,000 heartbeats one after another, at random intervals.
"""
import random
import statistics
import sys
import tempfile
import time

from gateway import Gateway
from loopback import end_on_signals

BRIDGE, FOLDER = sys.argv[1:]
MESSAGES = 1000
HEARTBEAT = "Context=-{AuditValue=ROOT{Audit{}}}"


def times(*options):
    """Returns how long a gateway took to answer, in milliseconds, in ascending order."""
    found = []
    with Gateway([BRIDGE], 4, *options) as gateway:
        for _ in range(MESSAGES):
            time.sleep(random.uniform(0.001, 0.045))
            start = time.monotonic()
            gateway.ask(HEARTBEAT)
            found.append(1000 * (time.monotonic() - start))
    return sorted(found)


def main():
    end_on_signals()
    with tempfile.TemporaryDirectory(dir=FOLDER) as folder:
        for name, options in (("no journal", ()),
                              ("--journal", ("--journal", f"{folder}/written.txt")),
                              ("--journal --sync", ("--journal", f"{folder}/synced.txt", "--sync"))):
            found = times(*options)
            print(f"{name}: {MESSAGES} answers, median {statistics.median(found):.2f} ms, 99 % within "
                  f"{found[MESSAGES * 99 // 100 - 1]:.2f}, all within {found[-1]:.2f}", flush=True)


main()
