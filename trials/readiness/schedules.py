"""Sends random bursts of datagrams to the ports of `mg_bridge serve`, and checks that every datagram is handled.

usage: schedules.py BRIDGE LIBRARY SCHEDULES SEED

A schedule consists of bursts and polls in random order. A burst goes to one port; some have 64 datagrams, as many as a
poll receives from a port, and some have one more or 64 more. The schedule does not wait for the gateway, so that
datagrams arrive while it polls. Then the gateway is polled as often as the fullest port needs, and must have counted
each datagram once. The schedule's messages must be answered in the order in which they were sent. A session has up to a
hundred schedules. In about two thirds of the sessions, a call is to fail: a receive, or one that asks which sockets are
ready.
Exits with 1 at the first failure.
"""
import os
import random
import re
import subprocess
import sys

from loopback import free_ports, udp

BRIDGE, LIBRARY = sys.argv[1:3]
SCHEDULES, SEED = int(sys.argv[3]), int(sys.argv[4])
SLOTS = 8
IN_A_SESSION = 100
# The buffer of a socket holds more than this many short datagrams.
MOST_AT_A_PORT = 200
ASK = b"MEGACO/1 [127.0.0.1]:2945 Transaction=%d{Context=-{AuditValue=ROOT{Audit{}}}}"


class Session:
    def __init__(self, chance):
        self.control, self.base = free_ports(SLOTS)
        self.refused = chance.choice(["none", "receive", "wait"])
        at = chance.randrange(1, 2000)
        env = dict(os.environ, LD_PRELOAD=LIBRARY, REFUSE=self.refused, REFUSE_AT=str(at))
        ports = ["--control-port", str(self.control), "--base-port", str(self.base)]
        words = [BRIDGE, "serve", *ports, "--slots", str(SLOTS)]
        self.bridge = subprocess.Popen(words, stdin=subprocess.PIPE, stdout=subprocess.PIPE, env=env)
        if self.bridge.stdout.readline() != b"ready\n":
            sys.exit("not ready")
        self.caller = udp()
        self.sent = [0] * (SLOTS + 1)
        self.asked = 0

    def say(self, line):
        self.bridge.stdin.write(line + b"\n")
        self.bridge.stdin.flush()

    def send(self, slot, count):
        port = self.control if slot == 0 else self.base + 2 * (slot - 1)
        for _ in range(count):
            self.asked += slot == 0
            self.caller.sendto(ASK % self.asked if slot == 0 else b"", ("127.0.0.1", port))
        self.sent[slot] += count

    def counts(self):
        self.say(b"stats")
        line = self.bridge.stdout.readline().decode()
        return [int(n) for n in re.match(r"control=(\d+) media=(\d+) .* failed=(\d+) ", line).groups()]

    def answered(self):
        """Returns the numbers of the requests that were answered, in order."""
        numbers = []
        while True:
            try:
                numbers.append(int(re.search(rb"Reply=(\d+)", self.caller.recv(1000)).group(1)))
            except BlockingIOError:
                return numbers

    def schedule(self, chance):
        before = list(self.sent)
        first = self.asked + 1
        for _ in range(chance.randrange(1, 12)):
            slot = chance.randrange(SLOTS + 1)
            count = chance.choice([1, 1, 2, 5, 63, 64, 65, 128])
            if chance.random() < 0.4:
                self.say(b"poll")
            elif self.sent[slot] - before[slot] + count <= MOST_AT_A_PORT:
                self.send(slot, count)
        # A failed call may cost one poll.
        fullest = max(now - then for now, then in zip(self.sent, before))
        for _ in range(fullest // 64 + 2):
            self.say(b"poll")
        control, media, failed = self.counts()
        wanted = [self.sent[0], sum(self.sent[1:])]
        if [control, media] != wanted or failed > (self.refused == "receive"):
            return f"counted {control} and {media} of {wanted}, {failed} failed, {self.refused} refused"
        if self.answered() != list(range(first, self.asked + 1)):
            return "not answered in order"
        return None

    def end(self):
        self.say(b"quit")
        self.bridge.stdin.close()
        return self.bridge.wait()


def main():
    chance = random.Random(SEED)
    refused = {"none": 0, "receive": 0, "wait": 0}
    datagrams = done = 0
    while done < SCHEDULES:
        session = Session(chance)
        for _ in range(min(IN_A_SESSION, SCHEDULES - done)):
            fault = session.schedule(chance)
            done += 1
            if fault:
                sys.exit(f"wrong: schedule {done} of seed {SEED}: {fault}")
        if session.end() != 0:
            sys.exit(f"wrong: the session of schedule {done} ended with a nonzero status")
        datagrams += sum(session.sent)
        refused[session.refused] += 1
    print(f"{done} schedules, {datagrams} datagrams: each came out")
    print(f"sessions: {refused['none']} with no call refused, {refused['receive']} a receive, {refused['wait']} a wait")


main()
