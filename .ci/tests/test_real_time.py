"""Gateways that run in real time: ticks, answers between ticks, stalls, and metrics."""
import re
import shutil
import signal
import socket
import tempfile
import time
from pathlib import Path

from media import add, conference
from programs import FIRST, HEARTBEAT, LIMIT, Commands, Gateway, ports, udp

CONTROL = ("127.0.0.1", FIRST)
NUMBERS = ["--sequence=0", "--timestamp=0"]
TOTALS = r"\Atotals control=1 media=0 ticks=[0-9]+ sent=([0-9]+) failed=([0-9]+) strangers=0 .*\n\Z"


def listen(caller):
    """Creates a termination that only sends to the caller."""
    caller.sendto(conference(add(caller.getsockname()[1], "SendOnly")), CONTROL)


def received(caller):
    """The next datagram at a socket, and when the system received it, in seconds."""
    data, [(_, _, stamp)], _, _ = caller.recvmsg(2000, 100)
    return data, int.from_bytes(stamp[:8], "little") + int.from_bytes(stamp[8:16], "little") / 1e9


def numbers(packet):
    """A packet's sequence number and timestamp."""
    return int.from_bytes(packet[2:4], "big"), int.from_bytes(packet[4:8], "big")


class RealTime(Commands):
    def test_an_answer_does_not_wait_for_the_next_tick(self):
        both = ["--bind-address=127.0.0.1", "--bind-address=127.0.0.2"]
        for words, control in (([], CONTROL), (both, ("127.0.0.2", FIRST))):
            with self.subTest(words), udp() as caller, Gateway("live", *ports(0, 1), *words) as gateway:
                self.assertEqual(self.early_answers(gateway, caller, control), 5)

    def early_answers(self, gateway, caller, control):
        """Asks until five answers didn't wait for the next tick, at most 100 times. Returns how many didn't."""
        early = 0
        caller.setsockopt(socket.SOL_SOCKET, 35, 1)  # SO_TIMESTAMPNS
        # Unlike `serve`, `live` doesn't read its input.
        gateway.tell("quit")
        listen(caller)
        for _ in range(100):
            if early == 5:
                break
            while len(received(caller)[0]) != 172:
                pass
            caller.sendto(HEARTBEAT.encode(), control)
            data, answered = received(caller)
            while len(data) == 172:
                data, answered = received(caller)
            # An answer that waits for the tick is sent right before the tick's packet.
            early += received(caller)[1] - answered > 0.005
        return early

    def test_ticks_come_one_by_one(self):
        with udp() as caller, Gateway("live", *ports(0, 1)):
            caller.setsockopt(socket.SOL_SOCKET, 35, 1)  # SO_TIMESTAMPNS
            listen(caller)
            caller.recv(2000)
            times = [received(caller)[1] for _ in range(50)]
        gaps = sorted(after - before for before, after in zip(times, times[1:]))
        self.assertTrue(0.01 < gaps[len(gaps) // 2] < 0.03, gaps)

    def stall(self, gateway, seconds):
        """Stops the gateway for this long."""
        gateway.process.send_signal(signal.SIGSTOP)
        time.sleep(seconds)
        gateway.process.send_signal(signal.SIGCONT)

    def test_a_stall_becomes_a_gap(self):
        with udp() as caller, Gateway("live", *ports(0, 1), "--report=1", *NUMBERS) as gateway:
            begun = time.monotonic()
            listen(caller)
            caller.recv(2000)
            first = [numbers(caller.recv(2000)) for _ in range(4)]
            self.stall(gateway, 1)
            # A report that falls into the late ticks comes before the line that counts them.
            late, totals = 0, ["", "0"]
            while not 0 < int(totals[1]) == late:
                line = gateway.process.stderr.readline()
                if found := re.fullmatch(r"([0-9]+) packets were too late\n", line):
                    late += int(found[1])
                else:
                    self.assertRegex(line, TOTALS)
                    totals = re.match(TOTALS, line).groups()
            lasted = time.monotonic() - begun
            sent, failed = map(int, totals)
            due = sent - 1 + failed
            packets = list(first)
            while packets[-1][0] < due - 1:
                packets.append(numbers(caller.recv(2000)))
        arrived = [number for number, _ in packets if number < due]
        self.assertEqual((late, len(arrived)), (failed, sent - 1))
        self.assertEqual(packets, [(number, 160 * number) for number, _ in packets])
        self.assertEqual(arrived, sorted(set(arrived)))
        # The ticks of the stalled second were run: the last five and the one in progress on time, the others late.
        self.assertTrue(44 <= failed <= 50 * lasted, (failed, lasted))

    def test_how_late_packets_may_be_is_an_option(self):
        with udp() as caller, Gateway("live", *ports(0, 1), "--late=65535", *NUMBERS) as gateway:
            listen(caller)
            caller.recv(2000)
            self.assertEqual(numbers(caller.recv(2000)), (0, 0))
            self.stall(gateway, 0.5)
            packets = [numbers(caller.recv(2000)) for _ in range(30)]
        self.assertEqual(packets, [(number, 160 * number) for number in range(1, 31)])

    def test_metrics_are_written(self):
        with tempfile.TemporaryDirectory() as folder:
            path = Path(folder) / "gateway.prom"
            begun = time.monotonic()
            with Gateway("live", *ports(0, 1), f"--metrics={path}"):
                while not path.exists() and time.monotonic() < begun + LIMIT:
                    time.sleep(0.05)
                lasted = time.monotonic() - begun
                self.assertTrue(path.exists())
                text = path.read_text()
        self.assertGreaterEqual(lasted, 5)
        self.assertTrue(text.startswith("# HELP lobbysorrel_info "))
        self.assertTrue(text.endswith("# TYPE lobbysorrel_port_silence_seconds gauge\n"))

    def test_metrics_that_cannot_be_written_are_reported_once(self):
        """The folder of the metrics is gone when the gateway writes them, twice."""
        with tempfile.TemporaryDirectory() as folder:
            path = Path(folder) / "gone" / "gateway.prom"
            path.parent.mkdir()
            with Gateway("live", *ports(0, 1), f"--metrics={path}") as gateway:
                shutil.rmtree(path.parent)
                time.sleep(11)
                gateway.process.kill()
                errors = gateway.process.stderr.read()
        self.assertEqual(errors, f"cannot write {path}: No such file or directory (os error 2)\n")
