"""Calls 200 times one after the other, in rooms of ten, and measures the time from INVITE to 200. Then SIPp calls 200
times at 20 a second, and 20 times over a relay that loses the first copy of one kind of message of each call: INVITE,
its 200, ACK, BYE, and its 200. Each call must succeed, and no call or termination may be left over.

It needs the Debian package sip-tester.
"""
import re
import select
import statistics
import subprocess
import threading

from lobby import Lobby, Phone, Phones, check, finish, spread, until
from loopback import end_on_signals, udp

KINDS = ["INVITE", "200 to INVITE", "ACK", "BYE", "200 to BYE"]


class Relay(threading.Thread):
    """Passes datagrams between a caller and the controller, except for the first of one kind in each call."""

    def __init__(self, lobby, kind):
        super().__init__(daemon=True)
        self.lobby, self.kind, self.lost, self.stopped = lobby, kind, set(), False
        self.front, self.back, self.caller = udp(), udp(), None
        self.start()

    def run(self):
        while not self.stopped:
            for socket in select.select([self.front, self.back], [], [], 0.2)[0]:
                data, source = socket.recvfrom(65536)
                text = data.decode()
                if socket is self.front:
                    self.caller = source
                    # So that responses come back here (RFC 3581).
                    text = re.sub(r"(Via: [^\r]*)", r"\1;rport", text, count=1)
                call, kind = re.search(r"Call-ID: (\S+)", text)[1], self.kind_of(text)
                if kind == self.kind and call not in self.lost:
                    self.lost.add(call)
                elif socket is self.front:
                    self.back.sendto(text.encode(), ("127.0.0.1", self.lobby.sip))
                else:
                    self.front.sendto(data, self.caller)

    def kind_of(self, text):
        if text.startswith("SIP/2.0 200"):
            return "200 to " + re.search(r"CSeq: \d+ (\w+)", text)[1]
        return text.partition(" ")[0]


def sipp(lobby, port, *options):
    with udp() as free:
        own = free.getsockname()[1]
    done = subprocess.run(["sipp", "-sn", "uac", f"127.0.0.1:{port}", "-i", "127.0.0.1", "-p", str(own), "-s", "100", "-nostdin",
                           "-timeout", "60", *options], cwd=lobby.folder, stdin=subprocess.DEVNULL, stdout=subprocess.PIPE,
                          stderr=subprocess.DEVNULL, text=True)
    counts = [int(re.search(rf"{kind} call *\|[^|]*\| *(\d+)", done.stdout)[1]) for kind in ("Successful", "Failed")]
    return done.returncode, *counts


def over(lobby):
    """Whether no caller is left within 40 s, and the gateway then has only the controller's termination."""
    took = until(lambda: not lobby.members("100"), 40)
    gateway, = lobby.ask("GET", "/gateways")["gateways"]
    return took is not None and gateway["terminations"] == 1 and gateway["contexts"] == 1


def one_after_the_other(lobby):
    """The times of 200 calls, with ten callers in the room at a time."""
    times = []
    for _ in range(20):
        loop = Phones(Phone(lobby, "100", 400) for _ in range(10))
        for phone in loop.phones:
            phone.frame = b""
        times += loop.call()
        for phone in loop.phones:
            phone.hang_up()
        loop.run(0.3)
    return times


def main():
    end_on_signals()
    with Lobby() as lobby:
        times = one_after_the_other(lobby)
        check(f"{len(times)} calls one after the other: INVITE to 200 in {spread(times)}", statistics.median(times) <= 0.005)
        status, successful, bad = sipp(lobby, lobby.sip, "-r", "20", "-m", "200", "-d", "1000")
        left = not over(lobby)
        check(f"200 calls at 20 a second: {successful} successful, {bad} failed; anything left: {left}",
              (status, successful, bad, left) == (0, 200, 0, False))
        for kind in KINDS:
            relay = Relay(lobby, kind)
            status, successful, bad = sipp(lobby, relay.front.getsockname()[1], "-r", "20", "-m", "20", "-d", "500")
            relay.stopped = True
            left = not over(lobby)
            check(f"{kind} lost in each of {len(relay.lost)} calls: {successful} successful, {bad} failed; anything left: {left}",
                  (status, successful, bad, left, len(relay.lost)) == (0, 20, 0, False, 20))
    finish()


main()
