"""Metrics, compared with what happened to the gateway."""
import contextlib
import errno
import re
import resource
import tempfile
import time
from pathlib import Path

from kernel import Kernel
from media import SILENCE, add, conference, request, spoken
from programs import FIRST, LIMIT, Commands, Gateway, ports, udp, waiting

CONTROL, SPEECH = ("127.0.0.1", FIRST), ("127.0.0.1", FIRST + 2)
# The length of an RTP packet.
PACKET = 172


# The expected counts, by metric.
COUNTS = {
    "control_messages_total": 1,
    "control_messages_unread_total": 0,
    'strangers_total{socket="control"}': 2,
    'strangers_total{socket="media"}': 3,
    "receives_failed_total": 2,
    'datagrams_unsent_total{cause="refused"}': 3,
    "frames_concealed_total": 2,
    'rtp_packets_total{result="started"}': 2,
}


class Page:
    """The metrics as written at one time."""

    def __init__(self, path):
        self.inode, text = path.stat().st_ino, path.read_text()
        found = re.findall(r'^lobbysorrel_(\w+)\{gateway="[^"]*",?([^}]*)\} (\S+)$', text, re.MULTILINE)
        self.values = {name + ("{" + labels + "}" if labels else ""): float(value) for name, labels, value in found}

    def __getitem__(self, name):
        return self.values[name]


class Metrics(Commands):
    def setUp(self):
        folder = tempfile.TemporaryDirectory()
        self.addCleanup(folder.cleanup)
        self.path = Path(folder.name) / "gateway.prom"

    def page(self, before=None):
        """The next page."""
        end = time.monotonic() + LIMIT
        while time.monotonic() < end:
            with contextlib.suppress(FileNotFoundError):
                page = Page(self.path)
                if before is None or page["ticks_total"] > before["ticks_total"]:
                    return page
            time.sleep(0.02)
        return self.fail("no metrics")

    def decide(self, call):
        """Twice, the system refuses to receive, and three times to send a packet. A later packet takes 0.6 s."""
        if call.name == "recvfrom":
            return errno.EIO if call.count <= 2 else None
        if call.arguments[2] != PACKET:
            return None
        self.packets += 1
        if self.packets == 30:
            time.sleep(0.6)
        return errno.EPERM if 11 <= self.packets <= 13 else None

    def test_counts(self):
        self.packets = 0
        words = ["live", *ports(0, 4), f"--metrics={self.path}", "--controller=127.0.0.1", "--symmetric-rtp", "--sequence=0"]
        with Kernel(["sendto", "recvfrom"], self.decide) as kernel, udp() as caller, udp("127.0.0.2") as stranger:
            with Gateway(*words, kernel=kernel) as gateway:
                self.talk(caller, stranger)
                first = self.page()
                packets = waiting(caller)
                self.starve(gateway, caller)
                second = self.page(first)
                packets += waiting(caller)
                last = self.page(second)
                self.recover(gateway, caller)
        starved = {**COUNTS, "control_messages_unread_total": 3}
        for page, counts in ((first, COUNTS), (second, starved)):
            for name, count in counts.items():
                with self.subTest(name):
                    self.assertEqual(page[name], count)
        held = first['datagrams_unsent_total{cause="held"}']
        # If nobody stopped the gateway meanwhile, these two numbers are equal.
        late, later = (page['datagrams_unsent_total{cause="late"}'] for page in (second, last))
        arrived = {int.from_bytes(it[2:4], "big") for it in packets}
        self.assertEqual(len(arrived), len(packets))
        with self.subTest("one termination is held, and an answer was sent to the other, which was refused three packets"):
            self.assertEqual(held, first["datagrams_sent_total"] - 1 + 3)
        with self.subTest("both terminations' packets were late"):
            self.assertGreater(late, 40)
            self.assertTrue(late <= 2 * (max(arrived) + 1 - len(arrived) - 3) <= later, (late, later))
        with self.subTest("the slow packet was sent in the first five seconds"):
            self.assertTrue(second["step_seconds_max"] < 0.6 <= first["step_seconds_max"], second["step_seconds_max"])
        with self.subTest("whoever has opened the file reads one page"):
            self.assertNotEqual(first.inode, second.inode)

    def talk(self, caller, stranger):
        """Strangers send messages and packets. The caller talks in a conference with a member on hold."""
        for _ in range(2):
            stranger.sendto(b"MEGACO/1 mg", CONTROL)
        caller.sendto(conference(add(caller.getsockname()[1]), add(40000, address="0.0.0.0")), CONTROL)
        self.assertIn(b"Context=1", caller.recv(2000))
        for number in (1, 2, 3):
            stranger.sendto(spoken(number, SILENCE), SPEECH)
        # Twice, a frame is missing.
        for number in (1, 101):
            caller.sendto(spoken(number, SILENCE), SPEECH)
            caller.sendto(spoken(number + 2, SILENCE), SPEECH)
            time.sleep(0.5)

    def starve(self, gateway, caller):
        """The gateway gets no more memory, and then three messages that need memory."""
        pid = gateway.process.pid
        size = int(Path(f"/proc/{pid}/statm").read_text().split()[0]) * resource.getpagesize()
        resource.prlimit(pid, resource.RLIMIT_AS, (size, resource.RLIM_INFINITY))
        for number in (2, 3, 4):
            caller.sendto(request(number, f"Context=1{{{','.join(['AuditValue=*{Audit{}}'] * 370)}}}"), CONTROL)

    def recover(self, gateway, caller):
        resource.prlimit(gateway.process.pid, resource.RLIMIT_AS, (resource.RLIM_INFINITY, resource.RLIM_INFINITY))
        caller.sendto(request(5, "Context=1{AuditValue=*{Audit{}}}"), CONTROL)
        while not (answer := caller.recv(2000)).startswith(b"MEGACO/1 "):
            self.assertEqual(len(answer), PACKET)
