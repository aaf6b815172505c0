"""Measures how regularly `mg_bridge live` sends packets while it writes metrics.

usage: stalls.py WORD ..

The words start mg_bridge. In each measurement, 16 callers in a conference send packets for 25 s. The gateway writes no
metrics, or writes them to /dev/shm or to the folder for temporary files; nothing else writes to that folder, or four
programs write and sync there all the time. Prints how far the packets were behind a grid of 20 ms, by the kernel's
time of arrival. The earliest packet of each caller counts as in time.

A gateway writes only five files in this time, so the trial also measures how long 1,000 such files take. The gateway
sends nothing while it writes one. The trial measures, and judges nothing.
"""
import os
import socket
import struct
import subprocess
import sys
import tempfile
import time

from gateway import Gateway
from load import STRIDE, packet

WORDS = sys.argv[1:]
CALLERS, SECONDS, WRITERS = 16, 25, 4
RATE = 8000
# How many files are written alone, and how large a gateway's file with 256 ports is.
FILES, FILE_BYTES = 1000, 100_000
PARTS = (("half", 0.5), ("99 %", 0.99), ("99.9 %", 0.999), ("greatest", 1))
MEMORY = "/dev/shm"
# The number of one of Linux's socket options, which Python's `socket` lacks.
SO_TIMESTAMPNS = 35
# Writes 16 MB again and again, and syncs each MB and the folder.
WRITER = """
import os, sys
file, folder = os.open(sys.argv[1], os.O_CREAT | os.O_WRONLY), os.open(os.path.dirname(sys.argv[1]), os.O_RDONLY)
while True:
    os.lseek(file, 0, os.SEEK_SET)
    for _ in range(16):
        os.write(file, os.urandom(1 << 20))
        os.fsync(file)
        os.fsync(folder)
"""


class Writers:
    """Programs that write and sync in a folder until the end."""

    def __init__(self, folder, count):
        self.all = [subprocess.Popen([sys.executable, "-c", WRITER, f"{folder}/{n}"]) for n in range(count)]

    def __enter__(self):
        return self

    def __exit__(self, *_):
        for one in self.all:
            one.kill()
            one.wait()


class Caller:
    """A telephone that keeps the time of arrival and the timestamp of each packet, in seconds."""

    def __init__(self):
        self.socket = socket.socket(socket.AF_INET, socket.SOCK_DGRAM)
        self.socket.setsockopt(socket.SOL_SOCKET, SO_TIMESTAMPNS, 1)
        self.socket.bind(("127.0.0.1", 0))
        self.socket.setblocking(False)
        self.arrivals = []

    def listen(self):
        try:
            while True:
                datagram, extra, _, _ = self.socket.recvmsg(2048, 64)
                seconds, nanoseconds = struct.unpack("qq", extra[0][2][:16])
                self.arrivals.append((seconds + nanoseconds / 1e9, struct.unpack("!I", datagram[4:8])[0] / RATE))
        except BlockingIOError:
            pass

    def delays(self):
        """Returns how much later than its timestamp each packet was, compared with the earliest one."""
        lags = [at - stamp for at, stamp in self.arrivals]
        return [lag - min(lags) for lag in lags]


def measure(folder):
    """Has callers send for some seconds, and returns the delays of the packets that they were sent, in order."""
    options = ("--metrics", f"{folder}/gateway.prom") if folder else ()
    callers = [Caller() for _ in range(CALLERS)]
    # Timestamps start at 0, so they don't wrap.
    with Gateway(WORDS, CALLERS, "--timestamp", "0", *options) as gateway:
        ports = [port for _, port in gateway.conference([one.socket.getsockname() for one in callers])]
        start = time.monotonic()
        for n in range(int(SECONDS / STRIDE)):
            for caller, port in zip(callers, ports):
                caller.socket.sendto(packet(n), ("127.0.0.1", port))
                caller.listen()
            time.sleep(max(0, start + n * STRIDE - time.monotonic()))
    for caller in callers:
        caller.listen()
    return sorted(delay for caller in callers for delay in caller.delays())


def kind(folder):
    """Returns the type of the file system with this folder."""
    return subprocess.run(["stat", "-f", "-c", "%T", folder], capture_output=True, text=True).stdout.strip()


def write(folder):
    """Writes files as a gateway does, and returns the time that each took, in order."""
    times = []
    for _ in range(FILES):
        time.sleep(0.01)
        start = time.monotonic()
        with open(f"{folder}/alone.prom.new", "wb") as file:
            file.write(b"x" * FILE_BYTES)
        os.rename(f"{folder}/alone.prom.new", f"{folder}/alone.prom")
        times.append(time.monotonic() - start)
    return sorted(times)


def table(title, folders, disk, measurement):
    """Prints a row for each folder, both with an idle and a busy disk."""
    print(f"\n| {title} | disk | number |" + "".join(f" {name} |" for name, _ in PARTS))
    print("|---|---|---|" + "---|" * len(PARTS))
    for what, folder in folders.items():
        for writers in (0, WRITERS):
            with Writers(disk, writers):
                found = measurement(folder)
            cells = [f"{1000 * found[int(part * (len(found) - 1))]:.1f} ms" for _, part in PARTS]
            print(f"| {what} | {'busy' if writers else 'idle'} | {len(found)} | {' | '.join(cells)} |", flush=True)


def main():
    with tempfile.TemporaryDirectory() as disk, tempfile.TemporaryDirectory(dir=MEMORY) as memory:
        print(f"{CALLERS} callers, {SECONDS} s each, {' '.join(WORDS[:-1]) or 'usual scheduling'}, "
              f"load {os.getloadavg()[0]:.1f}")
        folders = {f"memory ({kind(memory)})": memory, f"disk ({kind(disk)})": disk}
        table("delay of packets, metrics in", {"none": None, **folders}, disk, measure)
        table("time to write a file in", folders, disk, write)


main()
