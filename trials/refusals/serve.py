"""Makes each call of a kind fail in turn in sessions of `mg_bridge serve` over loopback, and checks what follows.

usage: serve.py BRIDGE LIBRARY KIND

Each session is a conversation of a controller and two callers: an Add of both, 20 ms of speech, three ticks and a
heartbeat. A message that isn't answered is sent again, and a datagram that isn't counted is polled for again. Exits
with 1 at the first session that goes wrong.
"""
import os
import select
import signal
import socket
import subprocess
import sys
import tempfile

from loopback import free_ports, udp

BRIDGE, LIBRARY, KIND = sys.argv[1:]

HEAD = b"MEGACO/1 [127.0.0.1]:%d\n"
ADD = b"MEGACO/1 [127.0.0.1]:2945 Transaction=1{Context=${%s,%s}}"
CALLER = (b"Add=${Media{LocalControl{Mode=SendReceive},Local{v=0\nc=IN IP4 $\nm=audio $ RTP/AVP 0\n},"
          b"Remote{v=0\nc=IN IP4 127.0.0.1\nm=audio %d RTP/AVP 0\n}}}")
ADDED = b"Reply=1{Context=1{%s,%s}}"
TOLD = b"Add=RTP/%d{Media{Stream=1{Local{v=0\r\nc=IN IP4 127.0.0.1\r\nm=audio %d RTP/AVP 0\r\na=ptime:20\r\n}}}}"
HEARTBEAT = b"MEGACO/1 [127.0.0.1]:2945 Transaction=2{Context=-{AuditValue=ROOT{Audit{}}}}"
ALIVE = b"Reply=2{Context=-{AuditValue=ROOT}}"
STATS = "control={control} media={media} ticks={ticks} sent={sent} failed={failed} dropped=0,0,0,0,0,0 concealed=0"
# The kinds of failures after which the gateway can't pass on a line before it prints the next one.
DELAYING = ("wait", "write")
# The text that the gateway prints if a read or a write fails.
FAILED = {"read": "read failed\n", "write": "write failed\n"}


class Wrong(Exception):
    """Raised if the gateway did something wrong."""


class Ended(Exception):
    """Raised if the program ended early."""


def expect(holds, what):
    if not holds:
        raise Wrong(what)


def came(s):
    """Returns the datagrams waiting at a socket."""
    datagrams = []
    while True:
        try:
            datagrams.append(s.recv(65535))
        except BlockingIOError:
            return datagrams


def packet(number, tick):
    """The packet of a tick, counted from 0, to one of the two callers.

    In the third tick, the second caller hears the first, who says 80.
    """
    payload = b"\x80" if (number, tick) == (2, 2) else b"\xff"
    head = bytes([0x80, 0x80 if tick == 0 else 0]) + tick.to_bytes(2, "big")
    return head + (160 * tick).to_bytes(4, "big") + number.to_bytes(4, "big") + 160 * payload


class Session:
    def __init__(self, at):
        self.at = at
        self.control_port, self.base_port = free_ports(2)
        self.controller, self.callers = udp(), [udp(), udp()]
        self.folder = tempfile.TemporaryDirectory()
        self.mark = os.path.join(self.folder.name, "told")
        self.errors = open(os.path.join(self.folder.name, "errors"), "w+")
        self.printed = b""
        # What the conversation has achieved so far.
        self.counts = {"control": 0, "media": 0, "ticks": 0, "sent": 0, "failed": 0}
        # Whether an allocation failed, and a smaller one replaced it.
        self.is_spared = False
        words = ["serve", "--slots", "2", "--control-port", str(self.control_port), "--base-port", str(self.base_port)]
        self.program = subprocess.Popen(
            [BRIDGE] + words, stdin=subprocess.PIPE, stdout=subprocess.PIPE, stderr=self.errors, bufsize=0,
            env=dict(os.environ, LD_PRELOAD=LIBRARY, REFUSE=KIND, REFUSE_AT=str(at), REFUSE_TOLD=self.mark))

    def is_refused(self):
        return os.path.exists(self.mark)

    def is_delayed(self):
        """Returns whether nothing is printed within a second, because of the failure."""
        return KIND in DELAYING and not select.select([self.program.stdout], [], [], 1)[0] and self.is_refused()

    def line(self):
        """Returns the next complete line that is printed. A line that is delayed comes with those for `stats`."""
        if not self.is_delayed():
            return self.next_line()
        self.program.stdin.write(b"stats\n")
        line, counts = self.next_line(), self.next_line()
        expect(line in ("ready\n", counts), "other counts were printed later")
        return line

    def next_line(self):
        text = b""
        while not text.endswith(b"\n"):
            byte = self.program.stdout.read(1)
            if not byte:
                expect(text == b"" or KIND == "write", f"part of a line was printed: {text}")
                raise Ended
            text += byte
            self.printed += byte
        return text.decode()

    def do(self, line):
        """Runs a line, and returns the counts after it."""
        try:
            self.program.stdin.write(f"{line}\nstats\n".encode())
        except BrokenPipeError:
            pass
        printed = self.line()
        told = dict(word.split("=") for word in printed.split())
        expect(printed == STATS.format(**told) + "\n", f"printed {printed!r}")
        return {name: int(told[name]) for name in self.counts}

    def after(self, counts, **risen):
        """Checks that the counts have risen by this much, and that at most the one failure was counted."""
        failed = counts["failed"]
        expect(failed == 0 or (failed == 1 and self.is_refused()), f"failed={failed}")
        for name in ("control", "media", "ticks", "sent"):
            self.counts[name] += risen.get(name, 0)
        self.counts["failed"] = failed
        expect(counts == self.counts, f"counted {counts}, not {self.counts}")

    def ask(self, message, answer):
        """Sends a message up to twice, until it is answered."""
        failed = self.counts["failed"]
        for turn in range(2):
            self.controller.sendto(message, ("127.0.0.1", self.control_port))
            counts = self.do("poll")
            answers = came(self.controller)
            if not answers and KIND == "receive" and counts["failed"] > failed:
                # The datagram waits for the next poll.
                self.after(counts)
                counts = self.do("poll")
                answers = came(self.controller)
            if answers:
                expect(answers == [answer], f"answered {answers}")
                self.after(counts, control=1, sent=1)
                return
            expect(turn == 0 and counts["failed"] == failed + 1, "no answer")
            expect(KIND in ("memory", "send"), "no answer")
            # Without memory, the datagram isn't an event. If its answer was lost, it is one, and its reply is kept.
            self.after(counts, control=0 if KIND == "memory" else 1)

    def speak(self):
        """Sends the first caller's speech, and polls until it is accepted."""
        speech = bytes([0x80, 0, 0, 1, 0, 0, 0, 0, 0, 0, 0, 99]) + 160 * b"\x80"
        self.callers[0].sendto(speech, ("127.0.0.1", self.base_port))
        counts = self.do("poll")
        if counts["media"] == 0 and KIND == "receive" and counts["failed"] > self.counts["failed"]:
            self.after(counts)
            counts = self.do("poll")
        self.after(counts, media=1)

    def tick(self, number):
        failed = self.counts["failed"]
        counts = self.do("tick")
        sent = 0
        for caller, s in enumerate(self.callers):
            packets = came(s)
            expect(packets in ([], [packet(caller + 1, number)]), f"tick {number} sent {packets}")
            sent += len(packets)
        lost = counts["failed"] - failed
        expect(sent == 2 - lost and (lost == 0 or KIND == "send"), f"tick {number} sent {sent} packets")
        self.after(counts, ticks=1, sent=sent)

    def converse(self):
        expect(self.line() == "ready\n", "not ready")
        head = HEAD % self.control_port
        add = ADD % tuple(CALLER % s.getsockname()[1] for s in self.callers)
        self.ask(add, head + ADDED % tuple(TOLD % (i + 1, self.base_port + 2 * i) for i in range(2)))
        self.speak()
        for number in range(3):
            self.tick(number)
        self.ask(HEARTBEAT, head + ALIVE)
        self.program.stdin.write(b"quit\n")

    def run(self):
        """Runs the session, and checks how it ended."""
        try:
            self.converse()
            ended = False
        except (Ended, BrokenPipeError):
            ended = True
        rest = self.program.stdout.read()
        status = self.program.wait()
        self.errors.seek(0)
        errors = self.errors.read()
        expect(rest == b"", f"printed at the end {rest}")
        refused = self.is_refused()
        if refused and KIND in FAILED:
            expect((status, errors) == (3, FAILED[KIND]), f"status {status}, {errors!r}")
        elif refused and KIND == "memory" and not self.printed:
            told = errors.endswith("out of memory\n") or errors.startswith("no memory for ")
            expect(status == 4 and told, f"status {status}, {errors!r}")
        else:
            expect(not ended and (status, errors) == (0, ""), f"status {status}, {errors!r}")
            failed = self.counts["failed"]
            if KIND == "wait":
                # Then all ports are polled, and nothing is lost.
                expect(failed == 0, "a wait was counted")
            else:
                self.is_spared = refused and failed == 0
                expect(failed == (1 if refused else 0) or KIND == "memory", "the failure wasn't counted")
        return refused

    def close(self):
        self.program.kill()
        self.program.wait()
        for s in [self.controller] + self.callers + [self.program.stdin, self.program.stdout, self.errors]:
            s.close()
        self.folder.cleanup()


def main():
    at, spared, fronts = 0, 0, []
    while True:
        at += 1
        session = Session(at)
        signal.alarm(20)
        try:
            if not session.run():
                # If a read or a write failed, a prefix of this was printed.
                if KIND in FAILED:
                    expect(all(session.printed.startswith(front) for front in fronts), "not a prefix was printed")
                break
            fronts.append(session.printed)
            spared += session.is_spared
            # The program first allocates for all arguments at once, and then for some.
            expect(spared <= 1, "no failure was counted")
        except Wrong as wrong:
            sys.exit(f"serve, {KIND} {at} refused: {wrong}")
        finally:
            session.close()
    if at == 1:
        sys.exit(f"serve, {KIND}: none was refused")
    print(f"serve, each {KIND} refused: {at - 1} sessions")


main()
