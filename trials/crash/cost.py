"""Measures the processor time of `mg_bridge live` with and without a journal.

usage: cost.py BRIDGE FOLDER

In each run, 256 callers in conferences of eight talk for 30 s. Runs with and without a journal, which is in FOLDER,
alternate. Prints the processor time of each, as a share of a processor, and the quotient of the medians. Then measures
gateways without calls. Exits with 1 if the quotient is more than 1.05.
"""
import statistics
import sys
import tempfile
import time

from gateway import Gateway
from load import Caller, Load
from loopback import end_on_signals

BRIDGE, FOLDER = sys.argv[1:]
SLOTS, MEMBERS, RUNS, SECONDS, LIMIT = 256, 8, 5, 30, 1.05


def used(gateway):
    """Returns the share of a processor that a gateway uses."""
    start, before = time.monotonic(), gateway.processor_time()
    time.sleep(SECONDS)
    return (gateway.processor_time() - before) / (time.monotonic() - start)


def busy(gateway):
    callers = [Caller() for _ in range(SLOTS)]
    for first in range(0, SLOTS, MEMBERS):
        own = callers[first:first + MEMBERS]
        for caller, (_, port) in zip(own, gateway.conference([caller.remote for caller in own])):
            caller.port = port
    load = Load(callers)
    load.start()
    time.sleep(2)
    share = used(gateway)
    load.hush()
    load.end()
    heard = min(caller.received for caller in callers)
    if heard < 50 * SECONDS:
        sys.exit(f"a caller was sent only {heard} packets")
    return share


def measure(what, measured, runs):
    """Measures gateways with and without a journal in turn. Returns the quotient of the medians."""
    shares = {"without a journal": [], "with a journal": []}
    for _ in range(runs):
        for kind, found in shares.items():
            with tempfile.TemporaryDirectory(dir=FOLDER) as folder:
                options = () if kind == "without a journal" else ("--journal", f"{folder}/journal.txt")
                with Gateway([BRIDGE], SLOTS, *options) as gateway:
                    found.append(measured(gateway))
            print(f"{what}, {kind}: {100 * found[-1]:.2f} %", flush=True)
    without, with_journal = (statistics.median(found) for found in shares.values())
    print(f"{what}: median {100 * without:.2f} % and {100 * with_journal:.2f} %: {with_journal / without:.3f}", flush=True)
    return with_journal / without


def main():
    end_on_signals()
    quotient = measure(f"{SLOTS} callers", busy, RUNS)
    measure("no callers", used, 1)
    sys.exit(quotient > LIMIT)


main()
