"""Measures the processor time of `mg_bridge live` with and without metrics.

usage: cost.py BRIDGE

In each run, 256 callers in four conferences talk for 30 s. Runs with and without metrics alternate. Prints the processor
time of each, as a share of a processor, and the ratio of the medians.
"""
import statistics
import sys
import tempfile
import time

from gateway import Gateway
from load import Caller, Load

BRIDGE = sys.argv[1]
SLOTS, CONFERENCES, RUNS, SECONDS = 256, 4, 5, 30
MEMORY = "/dev/shm"


def share(*options):
    """Returns the share of a processor that a gateway with these options uses."""
    callers = [Caller() for _ in range(SLOTS)]
    with Gateway([BRIDGE], SLOTS, *options) as gateway:
        for first in range(CONFERENCES):
            own = callers[first::CONFERENCES]
            for caller, (_, port) in zip(own, gateway.conference([caller.remote for caller in own])):
                caller.port = port
        load = Load(callers)
        load.start()
        time.sleep(2)
        start, before = time.monotonic(), gateway.processor_time()
        time.sleep(SECONDS)
        used, passed = gateway.processor_time() - before, time.monotonic() - start
        load.hush()
        load.end()
    heard = min(caller.received for caller in callers)
    if heard < 50 * SECONDS:
        sys.exit(f"a caller was sent only {heard} packets")
    return used / passed


def main():
    with tempfile.TemporaryDirectory(dir=MEMORY) as folder:
        kinds = {"without metrics": (), "with metrics": ("--metrics", f"{folder}/gateway.prom")}
        shares = {kind: [] for kind in kinds}
        for _ in range(RUNS):
            for kind, options in kinds.items():
                shares[kind].append(share(*options))
                print(f"{kind}: {100 * shares[kind][-1]:.2f} %", flush=True)
    without, with_metrics = (statistics.median(found) for found in shares.values())
    print(f"median {100 * without:.2f} % and {100 * with_metrics:.2f} %: {with_metrics / without:.3f}")


main()
