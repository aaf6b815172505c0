"""Gateways whose system refuses something, or takes a long time."""
import contextlib
import errno
import tempfile
import time
from pathlib import Path

from kernel import Kernel
from media import add, conference, spoken
from programs import FIRST, HEARTBEAT, LIMIT, Commands, Gateway, ports, udp

CONTROL, MEDIA = ("127.0.0.1", FIRST), ("127.0.0.1", FIRST + 2)
POLLS, SYNCS = ["epoll_wait", "epoll_pwait"], ["fsync", "fdatasync"]


def processor_seconds(gateway):
    """The processor time that a gateway has taken."""
    return int(Path(f"/proc/{gateway.process.pid}/schedstat").read_text().split()[0]) / 1e9


class Failures(Commands):
    def setUp(self):
        folder = tempfile.TemporaryDirectory()
        self.addCleanup(folder.cleanup)
        self.journal = Path(folder.name) / "journal.txt"

    def ask(self, caller, number, wait=LIMIT):
        """The answer to a request that creates a context, or `None` if there is none within this time."""
        caller.settimeout(wait)
        caller.sendto(f"MEGACO/1 [127.0.0.1]:2945 Transaction={number}{{Context=${{Add=$}}}}".encode(), CONTROL)
        with contextlib.suppress(TimeoutError):
            return caller.recv(2000).decode().partition("\n")[2]
        return None

    def has_received(self, gateway, words, control, media):
        """Whether a gateway that records has received this many datagrams, or does so soon."""
        if words == ["serve"]:
            return gateway.received(control, media).startswith(f"control={control} media={media} ")
        kind = "rtp " if media else "control "
        return any(line.startswith(kind) for line in iter(gateway.process.stdout.readline, ""))

    def test_a_message_is_answered_once_it_is_on_the_disk(self):
        failing = []
        words = [*ports(0, 4), "--sync", f"--journal={self.journal}"]
        with Kernel(SYNCS, lambda call: errno.EIO if failing else None) as kernel, udp() as caller:
            with Gateway("live", *words, kernel=kernel) as gateway:
                for number in (1, 2):
                    before = sum(kernel.made.values())
                    self.assertEqual(self.ask(caller, number), f"Reply={number}{{Context={number}{{Add=RTP/{number}}}}}")
                    self.assertGreater(sum(kernel.made.values()), before)
                failing.append(True)
                self.assertIsNone(self.ask(caller, 3, 0.5))
                line = gateway.process.stderr.readline()
                self.assertEqual(line, "the journal can't be written: messages get no answer\n")
        with udp() as caller, Gateway("live", *words):
            self.assertEqual(self.ask(caller, 3), "Reply=3{Context=3{Add=RTP/3}}")

    def test_without_sync_nothing_waits_for_the_disk(self):
        failing = []
        with Kernel(SYNCS, lambda call: errno.EIO if failing else None) as kernel, udp() as caller:
            with Gateway("live", *ports(0, 4), f"--journal={self.journal}", kernel=kernel):
                failing.append(True)
                self.assertEqual(self.ask(caller, 1), "Reply=1{Context=1{Add=RTP/1}}")
        self.assertIn("\ncontrol 127.0.0.1:", self.journal.read_text())

    def test_polls_fail(self):
        """The gateway then reads every socket in each tick: the one for messages, and those for media."""
        for words in (["serve"], ["live"]):
            failing = []

            def decide(call):
                _, _, most, wait, *_ = call.arguments
                # A poll of an output asks for one report, and doesn't wait.
                return errno.EBADF if failing and (most, wait) != (1, 0) else None

            with self.subTest(words), udp() as caller, Kernel(POLLS, decide) as kernel:
                with Gateway(*words, "--record", *ports(0, 4), kernel=kernel) as gateway:
                    failing.append(True)
                    caller.sendto(conference(add(caller.getsockname()[1])), CONTROL)
                    self.assertTrue(self.has_received(gateway, words, control=1, media=0))
                    caller.sendto(spoken(1, b"\x21" * 160), MEDIA)
                    self.assertTrue(self.has_received(gateway, words, control=1, media=1))
                    made = sum(kernel.made.values())
                    time.sleep(1)
                    # A gateway that doesn't wait makes thousands of calls.
                    self.assertLess(sum(kernel.made.values()) - made, 500)

    def test_nothing_is_received_where_nothing_arrived(self):
        with Kernel(["recvfrom"]) as kernel, udp() as caller, Gateway("live", *ports(0, 4), kernel=kernel) as gateway:
            caller.sendto(HEARTBEAT.encode(), CONTROL)
            caller.recv(2000)
            time.sleep(0.2)
            made = kernel.made["recvfrom"]
            time.sleep(0.5)
            self.assertEqual(kernel.made["recvfrom"], made)
            self.assertIsNone(gateway.process.poll())

    def test_an_idle_gateway_hardly_works(self):
        with udp() as caller, Gateway("live", *ports(0, 4)) as gateway:
            caller.sendto(HEARTBEAT.encode(), CONTROL)
            caller.recv(2000)
            before = processor_seconds(gateway)
            time.sleep(2)
            # An idle gateway wakes up once in each tick. One that doesn't wait at all takes at least twice this time.
            self.assertLess(processor_seconds(gateway) - before, 0.06)
