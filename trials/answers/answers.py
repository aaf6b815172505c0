"""Sends messages to `mg_bridge live`, and measures how quickly they are answered.

usage: answers.py BRIDGE CALLERS

CALLERS is the program built from trials/failover/callers.c. Each trial starts a gateway with 256 media ports and prints
a line. Exits with 1 if a median exceeds 1 ms, a message outside the flood is not answered, a caller is sent nothing, or
a packet is lost during the flood.
"""
import os
import random
import re
import select
import statistics
import struct
import subprocess
import sys
import time

from loopback import free_ports, udp

BRIDGE, CALLERS = sys.argv[1:]
SLOTS, CONFERENCES = 256, 4
MESSAGES, MEDIAN_MS = 1000, 1.0
BURSTS, BURST, BURST_MS, BURST_BYTES = 10, 200, 20, 2000
FLOOD_SECONDS, FLOOD_RATE = 3, 20000
IDLE_SECONDS = 30
HEARTBEAT = "Context=-{AuditValue=ROOT{Audit{}}}"
# Short words, so that a message has room for 64.
ADD = "A=${M{O{MO=SR},L{c=IN IP4 $\nm=audio $ RTP/AVP 0\n},R{c=IN IP4 127.0.0.1\nm=audio %d RTP/AVP 0\n}}}"


def received(s, seconds=0.0):
    """Yields the datagrams that arrive at a socket, until none arrives within this time."""
    while select.select([s], [], [], seconds)[0]:
        yield s.recv(65535)


class Gateway:
    """A gateway and its controller."""

    def __init__(self, *options):
        self.port, base = free_ports(SLOTS)
        ports = ["--control-port", str(self.port), "--base-port", str(base), "--slots", str(SLOTS)]
        words = [BRIDGE, "live", *ports, "--controller", "127.0.0.1", *options]
        self.process = subprocess.Popen(words, stdout=subprocess.PIPE)
        self.controller, self.sent = udp(), 0

    def __enter__(self):
        if self.process.stdout.readline() != b"ready\n":
            sys.exit("not ready")
        return self

    def __exit__(self, *_):
        self.process.kill()
        self.process.wait()

    def send(self, action, size=0):
        """Sends a message with a new transaction number, padded to this size with blanks."""
        self.sent += 1
        text = f"MEGACO/1 [127.0.0.1]:2945 Transaction={self.sent}{{{action}}}"
        self.controller.sendto(text.ljust(size).encode(), ("127.0.0.1", self.port))

    def answers(self, seconds=0.0):
        """Yields each answer that arrives, with its transaction number, until none arrives within this time."""
        for answer in received(self.controller, seconds):
            reply = re.search(rb"Reply=(\d+)", answer)
            if not reply or b"Error=" in answer:
                sys.exit(answer.decode())
            yield int(reply.group(1)), answer.decode()

    def ask(self, action):
        """Sends a message and returns its answer."""
        self.send(action)
        for number, answer in self.answers(1):
            if number == self.sent:
                return answer
        raise TimeoutError(f"message {self.sent} was not answered")

    def conference(self, callers):
        """Puts the callers on these ports into a new conference, and returns the gateway's port for each."""
        answer = self.ask("Context=${%s}" % ",".join(ADD % port for port in callers))
        return [int(port) for port in re.findall(r"m=audio (\d+)", answer)]

    def times(self):
        """Sends messages one after another at random intervals, and measures how quickly they are answered."""
        times = []
        for _ in range(MESSAGES):
            time.sleep(random.uniform(0.001, 0.045))
            start = time.monotonic()
            self.ask(HEARTBEAT)
            times.append(1000 * (time.monotonic() - start))
        times.sort()
        median, most = statistics.median(times), times[MESSAGES * 99 // 100 - 1]
        text = f"all {MESSAGES} answered, median {median:.2f} ms, 99 % within {most:.2f}, all within {times[-1]:.2f}"
        return text, median <= MEDIAN_MS

    def processor_time(self):
        """Returns the user and system time of the gateway, in seconds."""
        with open(f"/proc/{self.process.pid}/stat") as stat:
            user, system = stat.read().rpartition(")")[2].split()[11:13]
        return (int(user) + int(system)) / os.sysconf("SC_CLK_TCK")


def nobody():
    with Gateway() as gateway:
        return gateway.times()


def join(gateway, callers, first):
    """Puts the callers, whose ports start at `first`, into conferences, and has them send to the gateway's ports."""
    for conference in range(CONFERENCES):
        own = range(first + 2 * conference, first + 2 * SLOTS, 2 * CONFERENCES)
        for member, (port, to) in enumerate(zip(own, gateway.conference(own)), 1):
            callers.stdin.write(f"member {conference} {member} 127.0.0.1:{port} at 127.0.0.1:{to}\n")


def talkers():
    pipes = {"stdin": subprocess.PIPE, "stdout": subprocess.PIPE, "text": True, "bufsize": 1}
    with Gateway() as gateway:
        _, first = free_ports(SLOTS)
        with subprocess.Popen([CALLERS, str(SLOTS), str(first), "noise"], **pipes) as callers:
            join(gateway, callers, first)
            time.sleep(1)
            callers.stdin.write("mark\n")
            text, holds = gateway.times()
            report, _ = callers.communicate("report\nquit\n")
    hearing, missing = re.search(r"stayed (\d+) missing (\d+)", report).groups()
    return f"{text}; {hearing} callers missed {missing} packets", holds and int(hearing) == SLOTS


def bursts():
    answered = {}
    with Gateway() as gateway:
        for _ in range(BURSTS):
            # Starts at a random moment between two ticks.
            start = time.monotonic() + random.uniform(0, 0.02)
            for n in range(BURST):
                time.sleep(max(0, start + n * BURST_MS / BURST / 1000 - time.monotonic()))
                gateway.send(HEARTBEAT, BURST_BYTES)
                answered.update(gateway.answers())
            answered.update(gateway.answers(0.1))
    return f"{len(answered)} of {gateway.sent} answered", len(answered) == gateway.sent


def flood():
    """Floods a gateway that doesn't send the packets of ticks that are at least 20 ms late."""
    caller, said, heard, answered = udp(), 0, set(), {}
    with Gateway("--late", "0") as gateway:
        to = gateway.conference([caller.getsockname()[1]])[0]
        start, before = time.monotonic(), gateway.sent
        while (now := time.monotonic() - start) < FLOOD_SECONDS:
            while gateway.sent - before < now * FLOOD_RATE:
                gateway.send(HEARTBEAT)
            while said < now * 50:
                caller.sendto(struct.pack("!BBHII160x", 0x80, 0, said, 160 * said, 7), ("127.0.0.1", to))
                said += 1
            answered.update(gateway.answers())
            heard.update(packet[2:4] for packet in received(caller))
            time.sleep(0.001)
        answered.update(gateway.answers(0.2))
        flooded = gateway.sent - before
        counts = gateway.ask("Context=1{Subtract=*}")
        heard.update(packet[2:4] for packet in received(caller, 0.1))
    sent, taken = (int(re.search(name + r"=(\d+)", counts).group(1)) for name in ("rtp/ps", "rtp/pr"))
    lost = said - taken + sent - len(heard)
    return f"{len(answered)} of {flooded} answered, {lost} of {said + sent} packets of a caller lost", lost == 0


def idle():
    with Gateway() as gateway:
        before = gateway.processor_time()
        time.sleep(IDLE_SECONDS)
        share = (gateway.processor_time() - before) / IDLE_SECONDS
    return f"{100 * share:.2f} % of one processor in {IDLE_SECONDS} s", True


def main():
    missed = 0
    for what, trial in (("no callers", nobody),
                        (f"{SLOTS} callers, all talking", talkers),
                        (f"{BURSTS} bursts of {BURST} messages of {BURST_BYTES} bytes in {BURST_MS} ms", bursts),
                        (f"{FLOOD_RATE} messages a second for {FLOOD_SECONDS} s", flood),
                        ("idle", idle)):
        try:
            text, holds = trial()
        except TimeoutError as fault:
            text, holds = fault, False
        print(f"{what}: {text}{'' if holds else ': MISSED'}", flush=True)
        missed += not holds
    sys.exit(missed > 0)


main()
