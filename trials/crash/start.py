"""Measures how long `mg_bridge serve` takes to start, and how long `mg_bridge heard` takes for a year.

usage: start.py BRIDGE FOLDER

256 terminations are in conferences of eight. A controller replaces a member, sets the new one to listen and isolates it,
in one conference after another. The gateway starts with the journal of a day, as an earlier version left it: 20,000
messages, without a checkpoint. It renews that journal, and starts again when the new one is almost as long as a journal
gets. Then `heard` reads a year's journals: 5,000 messages a day, and a seal a minute. FOLDER needs three gigabytes. Exits
with 1 if a gateway doesn't know all messages and terminations, if `heard` finds other intervals, or if the median of
three runs is longer than its limit.
"""
import datetime
import hashlib
import os
import re
import statistics
import subprocess
import sys
import tempfile
import time
from glob import glob

from callers import ADD
from loopback import end_on_signals, free_ports, udp
from serving import Serving

BRIDGE, FOLDER = sys.argv[1:]
SLOTS, MEMBERS, RUNS, DAY = 256, 8, 3, 24 * 3600 * 50
# The length at which a gateway renews its journal, in bytes.
LENGTH = 3_000_000
# The maximum number of seconds that each measurement may take.
OLD, NEW, YEAR = 0.3, 0.1, 20.0


def conferences():
    return [list(range(first, first + MEMBERS)) for first in range(1, SLOTS, MEMBERS)]


def actions():
    """Yields the actions of a controller, each with the newest termination after it."""
    rooms = conferences()
    for members in rooms:
        yield "Context=${%s}" % ",".join([ADD % ("192.0.2.7", 40000)] * MEMBERS), members[-1]
    newest = SLOTS
    while True:
        for number, members in enumerate(rooms, 1):
            yield f"Context={number}{{Subtract=RTP/{members.pop(0)}{{Audit{{}}}}}}", newest
            newest += 1
            members.append(newest)
            yield "Context=%d{%s}" % (number, ADD % ("192.0.2.7", 40000)), newest
            yield f"Context={number}{{Modify=RTP/{newest}{{Media{{LocalControl{{Mode=ReceiveOnly}}}}}}}}", newest
            yield f"Context={number}{{Topology{{RTP/{newest},RTP/{members[0]},isolate}}}}", newest


class Lines:
    """The lines of a journal that ends now: messages at equal intervals, ticks, dates and seals."""

    def __init__(self, days, per_day, made=actions):
        self.actions, self.number, self.newest, self.between = made(), 0, 0, DAY // per_day
        self.start = datetime.datetime.now(datetime.timezone.utc) - datetime.timedelta(days=days)
        # A gateway appends ten ticks at a time, and the rest before a message.
        tens, rest = divmod(self.between, 10)
        self.ticks = b"ticks 10\n" * tens + (b"ticks %d\n" % rest if rest else b"")
        self.per_seal = max(60 * 50 // self.between, 1)
        self.hash = hashlib.sha256()

    def add(self, file, text):
        file.write(text)
        self.hash.update(text)

    def message(self, file):
        action, self.newest = next(self.actions)
        self.number += 1
        date = self.start + datetime.timedelta(milliseconds=20 * self.between * self.number)
        text = f"MEGACO/1 [10.0.0.20]:2945 Transaction={self.number}{{{action}}}".encode().hex()
        if self.number % self.per_seal == 0:
            seal = f"# sha256 {self.hash.hexdigest()}\n".encode()
            self.hash = hashlib.sha256()
            self.add(file, seal)
        self.add(file, f"# time {date:%Y-%m-%dT%H:%M:%S.%fZ}\ncontrol 10.0.0.20:2945 {text}\n".encode() + self.ticks)


def title(control, base):
    return (f"# mg_bridge replay --address=127.0.0.1 --control-address=127.0.0.1 --control-port={control} "
            f"--base-port={base} --slots={SLOTS} --first-termination=1 --first-context=1 --ssrc=7 --sequence=0 "
            f"--timestamp=0\n").encode()


def timed(run):
    """The median of the seconds that some runs take."""
    return statistics.median(run() for _ in range(RUNS))


def start(path, messages):
    """Returns how long a start takes, in seconds."""
    begun = time.monotonic()
    with Serving(BRIDGE, path) as gateway:
        took = time.monotonic() - begun
        status, errors = gateway.end()
    if not gateway.is_ready or f"continues after {messages} messages and " not in errors:
        sys.exit(f"not ready after {messages} messages: status {status}, {errors}")
    return took


def terminations(path, control):
    """Returns the numbers of all terminations."""
    found, controller = [], udp()
    with Serving(BRIDGE, path) as gateway:
        for context in range(1, SLOTS // MEMBERS + 1):
            audit = f"Transaction={context}{{Context={context}{{AuditValue=*{{Audit{{}}}}}}}}"
            answer = gateway.ask(controller, control, f"MEGACO/1 [127.0.0.1]:2945 {audit}")
            found += [int(number) for number in re.findall(r"AuditValue=RTP/(\d+)", answer)]
    return found


def last_part(path):
    """Returns what the next seal of a journal covers: its text from the last seal on, or all of it."""
    with open(path, "rb") as file:
        text = file.read()
    return text[text.rfind(b"\n# sha256 ") + 1:]


def starts(folder):
    """Measures a start with a day's journal, and one with the journal that takes its place."""
    control, base = free_ports(SLOTS)
    path, lines = os.path.join(folder, "journal.txt"), Lines(1, 20_000)
    with open(path, "wb") as file:
        lines.add(file, title(control, base) + b"# counted ticks\n")
        while lines.number < 20_000:
            lines.message(file)
    size = os.path.getsize(path)
    old = timed(lambda: start(path, lines.number))
    with Serving(BRIDGE, path) as gateway:
        gateway.run("tick\n" * 50)
        gateway.end()
    short = os.path.getsize(path)
    if len(glob(f"{path}.2*")) != 1 or short > LENGTH // 2:
        sys.exit(f"the journal was not renewed: {os.listdir(folder)}, {short} bytes")
    # The lines of a busy day follow, up to the length at which the journal would be renewed again.
    first, lines.hash = lines.number, hashlib.sha256(last_part(path))
    with open(path, "ab") as file:
        while file.tell() < LENGTH - 10_000:
            lines.message(file)
    new = timed(lambda: start(path, lines.number))
    found = terminations(path, control)
    if len(found) != SLOTS or max(found) != lines.newest:
        sys.exit(f"not {SLOTS} terminations up to {lines.newest}: {found}")
    print(f"a day's journal without a checkpoint, {first} messages, {size / 1e6:.0f} MB: ready after {old:.3f} s", flush=True)
    print(f"a checkpoint of {SLOTS} terminations ({short} bytes) and {lines.number - first} messages, {LENGTH / 1e6:.0f} MB: "
          f"ready after {new:.3f} s", flush=True)
    return old > OLD or new > NEW


def isolations():
    """Yields actions of a controller: two members of a conference are isolated, and hear each other again."""
    rooms = conferences()
    for members in rooms:
        yield "Context=${%s}" % ",".join([ADD % ("192.0.2.7", 40000)] * MEMBERS), members[-1]
    while True:
        for member in range(1, MEMBERS):
            for word in ("isolate", "bothway"):
                for number, members in enumerate(rooms, 1):
                    yield f"Context={number}{{Topology{{RTP/{members[0]},RTP/{members[member]},{word}}}}}", SLOTS


def year(folder):
    """Measures `heard` for a year's journals."""
    lines, front = Lines(365, 5_000, isolations), title(2944, 30000)
    # A checkpoint of this length. `heard` needs only that of the first file.
    checkpoint = b"# a line as long as that of a termination in a checkpoint, about a hundred and fifty bytes long or so" + b"." * 50 + b"\n"
    last = 365 * 5_000
    while lines.number < last:
        with open(os.path.join(folder, f"journal.txt.{lines.start:%Y}-{lines.number:09}"), "wb") as file:
            joint = b"# follows " + lines.hash.hexdigest().encode() + b"\n" if lines.number else b""
            lines.hash = hashlib.sha256()
            lines.add(file, front + (checkpoint * SLOTS if lines.number else b"") + b"# counted ticks\n" + joint)
            while file.tell() < LENGTH and lines.number < last:
                lines.message(file)
    files = sorted(glob(os.path.join(folder, "journal.txt.2*")))
    size = sum(os.path.getsize(file) for file in files)
    # The first member hears each of the others, and the end of each isolation begins another interval.
    turns = -(-(last - SLOTS // MEMBERS) // (SLOTS // MEMBERS))
    wanted = MEMBERS - 1 + turns // 2
    begun = time.monotonic()
    done = subprocess.run([BRIDGE, "heard", "--listener", "RTP/1", *files], capture_output=True, text=True)
    took = time.monotonic() - begun
    heard = done.stdout.count(" could hear ")
    if done.returncode or heard != wanted:
        sys.exit(f"heard: status {done.returncode}, {heard} intervals, not {wanted}, {done.stderr}")
    print(f"a year, {last} messages, {len(files)} files, {size / 1e9:.1f} GB: heard after {took:.1f} s, {heard} intervals", flush=True)
    return took > YEAR


def main():
    end_on_signals()
    fails = False
    for measure in (starts, year):
        with tempfile.TemporaryDirectory(dir=FOLDER) as folder:
            fails |= measure(folder)
    sys.exit(fails)


main()
