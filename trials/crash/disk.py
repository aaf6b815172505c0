"""Fills the disk on which a gateway's journal is, and checks what a controller and a caller see.

usage: disk.py BRIDGE

Needs root for a small disk in memory. Exits with 1 if a check fails.
"""
import itertools
import os
import re
import subprocess
import sys
import tempfile
import time

from loopback import end_on_signals, free_ports, udp
from serving import waiting

BRIDGE, SLOTS = sys.argv[1], 24
# Transaction numbers of audits.
AUDITS = itertools.count(1000)
FULL, WORKS = "the journal can't be written: messages get no answer", "the journal can be written again"
ADD = ("MEGACO/1 [127.0.0.1]:2945 Transaction=%d{Context=%s{Add=${Media{LocalControl{Mode=SendReceive},Remote{v=0\n"
       "c=IN IP4 127.0.0.1\nm=audio %d RTP/AVP 0\n}}}}}")


def check(holds, what):
    if not holds:
        sys.exit(f"wrong: {what}")


class Live:
    """A gateway in real time with a journal. It ends with the block that uses it."""

    def __init__(self, journal, control, base):
        words = [BRIDGE, "live", "--journal", journal, "--control-port", str(control), "--base-port", str(base),
                 "--slots", str(SLOTS)]
        self.process = subprocess.Popen(words, stdout=subprocess.PIPE, stderr=subprocess.PIPE)
        self.to, self.controller = ("127.0.0.1", control), udp()
        check(self.process.stdout.readline() == b"ready\n", "not ready")

    def __enter__(self):
        return self

    def __exit__(self, *_):
        self.end()

    def end(self):
        """Ends the gateway, and returns its errors."""
        self.process.kill()
        return self.process.communicate()[1].decode()

    def ask(self, message):
        """Sends a message, and returns its answer, or None after half a second."""
        self.controller.sendto(message.encode(), self.to)
        for _ in range(100):
            try:
                return self.controller.recv(65535).decode()
            except BlockingIOError:
                time.sleep(0.005)
        return None

    def members(self):
        """The terminations in context 1."""
        audit = f"MEGACO/1 [127.0.0.1]:2945 Transaction={next(AUDITS)}{{Context=1{{AuditValue=*{{Audit{{}}}}}}}}"
        return re.findall(r"RTP/\d+", self.ask(audit))


def packets(caller, seconds):
    """Counts packets for some time."""
    waiting(caller)
    time.sleep(seconds)
    return len(waiting(caller))


def fill(disk):
    """Fills a disk, and returns the file to delete."""
    path = os.path.join(disk, "filler")
    with open(path, "wb", buffering=0) as filler:
        try:
            while True:
                filler.write(b"\0" * 512)
        except OSError:
            return path


def until_full(gateway):
    """Adds terminations until there is no answer, as the last page of the journal has room for some. Returns the message
    without an answer."""
    for number in range(2, SLOTS + 1):
        message = ADD % (number, 1, 9)
        if not (answer := gateway.ask(message)):
            return message
        check("Error" not in answer, f"an answer on a full disk: {answer}")
    sys.exit("wrong: answers on a full disk")


def fill_and_free(journal, disk, gateway, caller):
    """Returns the message that got no answer at first, and its answer when the disk had room."""
    check(gateway.ask(ADD % (1, "$", caller.getsockname()[1])), "no answer")
    filler = fill(disk)
    message = until_full(gateway)
    count = packets(caller, 2)
    check(90 <= count <= 110, f"{count} packets in two seconds")
    check(gateway.ask(message) is None, "an answer on a full disk")
    with open(journal) as file:
        check(file.read().endswith("\n"), "the journal ends within a line")
    os.remove(filler)
    answer = gateway.ask(message)
    number = re.search(r"Transaction=(\d+)", message)[1]
    check(answer and f"Add=RTP/{number}}}" in answer, f"{message} is answered by {answer}")
    time.sleep(0.1)  # A tick reports that the journal can be written.
    return message, answer


def full_disk(folder, control, base):
    """The disk is full for a while: the gateway sends packets, but no answers. Then everything works, and a restarted
    gateway knows all of it."""
    disk = os.path.join(folder, "disk")
    os.mkdir(disk)
    subprocess.run(["mount", "-t", "tmpfs", "-o", "size=64k", "tmpfs", disk], check=True)
    try:
        journal = os.path.join(disk, "journal.txt")
        with Live(journal, control, base) as gateway:
            message, answer = fill_and_free(journal, disk, gateway, udp())
            members = gateway.members()
            check(members == [f"RTP/{number + 1}" for number in range(len(members))] and len(members) > 1, members)
            # Without what the gateway prints at its start, up to the line about its fence.
            said = re.sub("(?s).*\nfence: none\n", "", gateway.end())
            # On a busy machine, packets may be late.
            errors = re.sub("\\d+ packets were too late\n", "", said)
        # Ticks may still fit if a message doesn't.
        check(re.fullmatch(f"({FULL}\n{WORKS}\n)+", errors), errors)
        with Live(journal, control, base) as gateway:
            found = gateway.members()
            again = gateway.ask(message)
            check(found == gateway.members() == members, f"{members} became {found}")
        check(again == answer, f"the kept reply {answer} became {again}")
    finally:
        subprocess.run(["umount", disk], check=True)
    print("a full disk: no answers, packets go on, then everything works, and a restart knows it")


def main():
    end_on_signals()
    with tempfile.TemporaryDirectory() as folder:
        full_disk(folder, *free_ports(SLOTS))


main()
