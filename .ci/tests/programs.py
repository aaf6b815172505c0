"""Runs the programs under test, on UDP ports of 127.0.0.1 that were free at the start."""
import contextlib
import os
import socket
import subprocess
import sys
import threading
import time
import unittest
from pathlib import Path

ROOT = Path(__file__).resolve().parent.parent.parent
# The folder with the programs. None: each crate's folder has the program that `rt ci` built.
FOLDER = None
# The maximum number of seconds for which a test waits for something that should happen at once.
LIMIT = 30

HEARTBEAT = "MEGACO/1 [127.0.0.1]:2945 Transaction=1{Context=-{AuditValue=ROOT{Audit{}}}}"


def program(name):
    """The path of a program. `mg_bridge.by-rattle` is the program built by Rattle's own compiler."""
    return (FOLDER / name) if FOLDER else ROOT / "crates" / name.removesuffix(".by-rattle") / "out" / name


def run(*words, text="", name="mg_bridge"):
    """Runs a program on this input. Returns its exit status, its output and its error messages."""
    ran = subprocess.run([program(name), *words], input=text.encode(), capture_output=True, timeout=60)
    return ran.returncode, ran.stdout.decode(), ran.stderr.decode()


def udp(address="127.0.0.1", port=0):
    """A UDP socket, on a free port if none is named."""
    it = socket.socket(socket.AF_INET, socket.SOCK_DGRAM)
    try:
        it.bind((address, port))
    except OSError:
        it.close()
        raise
    it.settimeout(LIMIT)
    return it


@contextlib.contextmanager
def bound(*ports):
    """UDP sockets on these ports."""
    with contextlib.ExitStack() as stack:
        yield [stack.enter_context(udp(port=port)) for port in ports]


def waiting(caller):
    """The datagrams that wait at a socket."""
    found = []
    caller.setblocking(False)
    with contextlib.suppress(BlockingIOError):
        while True:
            found.append(caller.recv(65535))
    caller.settimeout(LIMIT)
    return found


def first_of_free_ports(count):
    """The first of this many consecutive ports that are free: an even one, below the ports that the system chooses."""
    start = 20000 + os.getpid() * count % 12000
    for first in (*range(start, 32000, count), *range(20000, start, count)):
        with contextlib.suppress(OSError), bound(*range(first, first + count)):
            return first
    sys.exit(f".ci/commands: 127.0.0.1 has no {count} free ports in a row")


# The first of 32 ports that were free.
FIRST = first_of_free_ports(32)


def ports(place, slots):
    """The options of a gateway whose control port is in this place among the ports, with its media ports behind it."""
    return [f"--control-port={FIRST + place}", f"--base-port={FIRST + place + 2}", f"--slots={slots}"]


class Gateway:
    """A gateway that runs until the end of the `with` block, perhaps on a test's own `Kernel`."""

    def __init__(self, *words, kernel=None):
        pipes = {it: subprocess.PIPE for it in ("stdin", "stdout", "stderr")}
        install = kernel.install if kernel else None
        self.process = subprocess.Popen([program("mg_bridge"), *words], text=True, preexec_fn=install, **pipes)
        # So no read waits forever.
        self.end = threading.Timer(2 * LIMIT, self.process.kill)
        self.end.start()
        # The lines that were printed before the counts.
        self.lines = []
        # A recording has a title, and lines that aren't events are comments.
        first = self.process.stdout.readline()
        self.title = first if first.startswith("# mg_bridge ") else None
        self.ready = self.process.stdout.readline().removeprefix("# ") if self.title else first
        # The lines about itself that a gateway in real time prints on standard error, up to its fence.
        self.said = []
        if words[0] == "live" and self.ready:
            for line in iter(self.process.stderr.readline, ""):
                self.said.append(line)
                if line.startswith("fence: "):
                    break

    def __enter__(self):
        return self

    def __exit__(self, *_):
        self.process.kill()
        self.process.communicate()
        self.end.cancel()

    def tell(self, *lines):
        """Writes lines to the gateway's input."""
        self.process.stdin.write("".join(f"{line}\n" for line in lines))
        self.process.stdin.flush()

    def stats(self, *lines):
        """Writes these lines. Returns the counts after them."""
        self.tell(*lines, "stats")
        for line in self.process.stdout:
            if line.startswith(("control=", "# control=")):
                return line.removeprefix("# ")
            self.lines.append(line)
        return ""

    def received(self, control, media):
        """Polls until the gateway has received this many messages and RTP datagrams. Returns the counts."""
        end = time.monotonic() + LIMIT
        counts = ""
        while time.monotonic() < end and not counts.startswith(f"control={control} media={media} "):
            counts = self.stats("poll")
        return counts

    def finish(self, *lines):
        """Writes these lines and ends the input. Returns the exit status, what was printed since the last read, and the
        error messages."""
        output, errors = self.process.communicate("".join(f"{line}\n" for line in lines), timeout=LIMIT)
        return self.process.returncode, output, errors


def counted(control=0, media=0, ticks=0, sent=0, failed=0, dropped="0,0,0,0,0,0"):
    """The line that `stats` prints."""
    return f"control={control} media={media} ticks={ticks} sent={sent} failed={failed} dropped={dropped} concealed=0\n"


class Commands(unittest.TestCase):
    """Compares what command lines print, and their exit status."""

    maxDiff = None

    def ends(self, status, output, errors, *words, text="", name="mg_bridge"):
        """The program ends like this."""
        with self.subTest(name, words=words):
            self.assertEqual(run(*words, text=text, name=name), (status, output, errors))

    def refuses(self, message, *words, status=2, text="quit\n", name="mg_bridge"):
        """The program prints only an error message that starts like this."""
        with self.subTest(name, words=words):
            found, output, errors = run(*words, text=text, name=name)
            self.assertEqual((found, output, errors[: len(message)]), (status, "", message))
