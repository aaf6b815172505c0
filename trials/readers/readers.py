"""Lets `mg_bridge live` write to pipes that have no active reader.

usage: readers.py GATEWAY

1. A recording and reports that nobody reads for some seconds: ticks begin as they do with a reader, callers are sent
   their packets, and afterwards the whole recording can be read and replayed.
2. A recording that nobody reads until it ends: this is reported, calls continue, and what was recorded replays.

Prints a line for each check. Exits with 1 if one fails.
"""
import os
import re
import subprocess
import sys
import tempfile
import threading
import time

from loopback import free_ports, udp

GATEWAY = sys.argv[1]
SLOTS, CALLERS = 256, 16
ADD = ("Add=${Media{LocalControl{Mode=SendReceive},Local{v=0\nc=IN IP4 $\nm=audio $ RTP/AVP 0\n},"
       "Remote{v=0\nc=IN IP4 127.0.0.1\nm=audio %d RTP/AVP 0\n}}}")
failed = False


def check(said, holds):
    global failed
    failed = failed or not holds
    print(f"{'ok' if holds else 'FAILED'}: {said}", flush=True)


def soon(holds, seconds=10.0):
    end = time.monotonic() + seconds
    while not holds() and time.monotonic() < end:
        time.sleep(0.02)
    return holds()


class Gateway:
    """A gateway that records, with the reading ends of its pipes."""

    def __init__(self, folder, *options):
        self.metrics = os.path.join(folder, "gateway.prom")
        self.control, self.base = free_ports(SLOTS)
        self.options = ["--slots", str(SLOTS), "--base-port", str(self.base), "--control-port", str(self.control)]
        real_time = ["chrt", "-f", "10"] if os.geteuid() == 0 else []
        self.process = subprocess.Popen([*real_time, GATEWAY, "live", *self.options, "--record", "--metrics",
                                         self.metrics, *options], stdout=subprocess.PIPE, stderr=subprocess.PIPE)
        self.output = self.process.stdout
        while b"ready" not in (line := self.output.readline()):
            self.title = line.decode()

    def answers(self):
        return subprocess.run([GATEWAY, "check", f"127.0.0.1:{self.control}"], capture_output=True).returncode == 0

    def delays(self):
        """Returns how many ticks began, and how many of them at most 1 ms late, according to the metrics."""
        with open(self.metrics) as file:
            text = file.read()
        found = [re.search(rf'tick_delay_seconds_{name} (\d+)', text).group(1)
                 for name in ('bucket{.*le="\\+Inf"}', 'bucket{.*le="0.001"}')]
        return [int(number) for number in found]

    def next_delays(self):
        """Returns the same numbers from the next file."""
        before = os.stat(self.metrics).st_mtime_ns if os.path.exists(self.metrics) else 0
        soon(lambda: os.path.exists(self.metrics) and os.stat(self.metrics).st_mtime_ns != before)
        return self.delays()

    def late(self, seconds):
        """Returns the share of the ticks in about this time that began more than 1 ms late."""
        ticks, in_time = self.next_delays()
        time.sleep(seconds)
        then, then_in_time = self.next_delays()
        return 1 - (then_in_time - in_time) / (then - ticks)

    def add_callers(self, callers):
        adds = ",".join(ADD % caller.getsockname()[1] for caller in callers)
        controller = udp()
        controller.setblocking(True)
        controller.settimeout(2)
        controller.sendto(f"MEGACO/1 [127.0.0.1]:2945 Transaction=1{{Context=${{{adds}}}}}".encode(),
                          ("127.0.0.1", self.control))
        return controller.recv(65535).count(b"Add=RTP/") == len(callers)

    def replays(self, recording):
        """Whether a replay of the recording's whole lines ends well, and how many ticks it has."""
        lines = recording[:recording.rfind(b"\n") + 1]
        # The title names the numbers that the gateway drew.
        options = [word for word in self.title.split() if word.startswith(("--ssrc", "--sequence", "--timestamp"))]
        done = subprocess.run([GATEWAY, "replay", *self.options, *options], input=lines, capture_output=True)
        return done.returncode == 0, lines.count(b"\ntick\n")


def packet(number):
    return (b"\x80\0" + (number % 65536).to_bytes(2, "big") + (160 * number % 2**32).to_bytes(4, "big") + b"SSRC"
            + bytes([number % 256]) * 160)


class Load:
    """Sends a packet to each of the first `count` media ports every 20 ms, and counts what the callers are sent."""

    def __init__(self, gateway, callers, count):
        self.running, self.callers, self.counts = True, callers, [0] * len(callers)
        self.ports = [("127.0.0.1", gateway.base + 2 * slot) for slot in range(count)]
        self.thread = threading.Thread(target=self.run)
        self.thread.start()

    def run(self):
        start, number = time.monotonic(), 0
        while self.running:
            for slot, port in enumerate(self.ports):
                self.callers[slot % len(self.callers)].sendto(packet(number), port)
            self.receive()
            number += 1
            time.sleep(max(0, start + 0.02 * number - time.monotonic()))

    def receive(self):
        for place, caller in enumerate(self.callers):
            try:
                while caller.recv(2048):
                    self.counts[place] += 1
            except BlockingIOError:
                pass

    def sent_during(self, action):
        """Returns how many packets each caller is sent during an action, how many seconds it takes, and its result."""
        before, start = list(self.counts), time.monotonic()
        result = action()
        seconds = time.monotonic() - start
        return [now - then for now, then in zip(self.counts, before)], seconds, result

    def stop(self):
        self.running = False
        self.thread.join()


class Reader:
    """Reads a gateway's output into a list, until the output ends or `end` is called."""

    def __init__(self, gateway, recording):
        self.gateway, self.recording, self.ended = gateway, recording, threading.Event()
        self.thread = threading.Thread(target=self.run)
        self.thread.start()

    def run(self):
        while not self.ended.is_set() and (part := os.read(self.gateway.output.fileno(), 65536)):
            self.recording.append(part)

    def end(self):
        self.ended.set()
        self.thread.join()


def recorded(gateway, recording):
    """Stops a gateway once all waiting output is read, and returns the text of its recording."""
    reader = Reader(gateway, recording)
    before, size = -1000, 0
    # Without callers, a recording grows by 250 bytes a second.
    while size - before >= 1000:
        time.sleep(0.5)
        before, size = size, sum(map(len, recording))
    gateway.process.terminate()
    gateway.process.wait()
    reader.end()
    return gateway.title.encode() + b"# ready\n" + b"".join(recording)


def slow_reader(folder):
    gateway = Gateway(folder, "--report", "1")
    callers = [udp() for _ in range(CALLERS)]
    check(f"{CALLERS} callers were added", gateway.add_callers(callers))
    load, recording = Load(gateway, callers, CALLERS), []
    reader = Reader(gateway, recording)
    usual = gateway.late(10)
    reader.end()
    counts, seconds, late = load.sent_during(lambda: gateway.late(10))
    wanted = int(50 * seconds)
    check(f"with readers, {100 * usual:.1f} % of the ticks began over 1 ms late; without, {100 * late:.1f} %",
          late <= usual + 0.02)
    check(f"without readers, each caller was sent {min(counts)} to {max(counts)} packets in {seconds:.1f} s",
          wanted - 10 <= min(counts) and max(counts) <= wanted + 10)
    load.stop()
    size = sum(map(len, recording))
    text = recorded(gateway, recording)
    replayed, ticks = gateway.replays(text)
    check(f"a reader that resumed got {len(text)} bytes, {len(text) - size} of them since then, which replay: {ticks} ticks",
          replayed and ticks > 50 * (10 + seconds))


def no_reader(folder):
    gateway = Gateway(folder)
    callers = [udp() for _ in range(CALLERS)]
    gateway.add_callers(callers)
    load = Load(gateway, callers, SLOTS)
    start = time.monotonic()
    # First, the gateway prints lines about itself, the last one about its fence.
    for line in iter(gateway.process.stderr.readline, b""):
        if line.startswith(b"fence: "):
            break
    line = gateway.process.stderr.readline().decode()
    seconds = time.monotonic() - start
    check(f"after {seconds:.0f} s: {line.strip()}", line == "standard output ended: its reader is too slow\n")
    counts, _, _ = load.sent_during(lambda: time.sleep(2))
    check(f"calls continue: each caller was sent {min(counts)} to {max(counts)} packets in 2 s, and messages are answered",
          90 <= min(counts) and gateway.answers())
    load.stop()
    text = recorded(gateway, [])
    replayed, ticks = gateway.replays(text)
    check(f"{len(text) / 2**20:.1f} MiB were recorded, which replay: {ticks} ticks", replayed and len(text) > 64 << 20)


def main():
    memory = "/dev/shm" if os.path.isdir("/dev/shm") else None
    for trial in slow_reader, no_reader:
        with tempfile.TemporaryDirectory(dir=memory) as folder:
            trial(folder)
    sys.exit(failed)


main()
