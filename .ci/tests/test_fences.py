"""Gateways with a fence."""
import os
import tempfile
from pathlib import Path

from programs import FIRST, Commands, Gateway, ports, run, udp

FENCE = ("--fence", "--controller=127.0.0.1")
REFUSED = b"MEGACO/1 <99.lobby.example> Transaction=1{Context=-{AuditValue=ROOT}"


def audit(sender, number):
    """A message that has no effect."""
    return f"MEGACO/1 {sender} Transaction={number}{{Context=-{{AuditValue=ROOT}}}}".encode()


class Fences(Commands):
    def setUp(self):
        handle, self.path = tempfile.mkstemp()
        os.close(handle)
        self.addCleanup(os.remove, self.path)

    def counts(self, gateway, *messages):
        """Sends messages. Returns the counts after them."""
        with udp() as controller:
            for message in messages:
                controller.sendto(message, ("127.0.0.1", FIRST))
            return gateway.stats("poll")

    def fenced(self, counts, control, fence, stale):
        """Checks how many messages were run, and the fence."""
        self.assertTrue(counts.startswith(f"control={control} "), counts)
        self.assertTrue(counts.endswith(f" fence={fence} stale={stale}\n"), counts)

    def test_lower_numbers_are_stale(self):
        with Gateway("serve", *ports(0, 2), *FENCE) as gateway:
            self.fenced(self.counts(gateway, audit("<9.x>", 1), audit("<10.x>", 2), audit("<9.x>", 3)), 2, 10, 1)
            self.fenced(self.counts(gateway, audit("<10.x>", 4), audit("<lobby>", 5), audit("<11>", 6)), 5, 10, 1)
            self.fenced(self.counts(gateway, audit("[11.0.0.1]:2945", 7), REFUSED, audit("<10.x>", 8)), 8, 10, 1)

    def test_it_survives_a_restart(self):
        words = ["serve", *ports(0, 2), *FENCE, "--journal", self.path]
        with Gateway(*words) as gateway:
            self.fenced(self.counts(gateway, audit("<17.x>", 1), audit("<16.x>", 2), audit("<x>", 3)), 2, 17, 1)
        with Gateway(*words) as gateway:
            self.fenced(self.counts(gateway, audit("<16.x>", 4), audit("<17.x>", 5)), 3, 17, 1)
            self.assertTrue(gateway.finish()[2].endswith(" 2 messages and 0 ticks\n"))
        with Gateway("live", *words[1:]) as gateway:
            self.assertEqual(gateway.said[-1], "fence: begins at 17\n")
        # Without a fence, all messages are run, and with one, the highest number counts again.
        with Gateway(*[word for word in words if word not in FENCE]) as gateway:
            counts = self.counts(gateway, audit("<18.x>", 6), audit("<16.x>", 7))
            self.assertTrue(counts.startswith("control=5 ") and "fence" not in counts, counts)
        with Gateway(*words) as gateway:
            self.fenced(self.counts(gateway, audit("<17.x>", 8), audit("<18.x>", 9)), 6, 18, 1)

    def test_an_operator_resets_it(self):
        words = ["serve", *ports(0, 2), *FENCE, "--journal", self.path]
        with Gateway(*words) as gateway:
            self.fenced(self.counts(gateway, audit("<4294967295.x>", 1), audit("<17.x>", 2)), 1, 4294967295, 1)
        with Gateway(*[word for word in words if word != "--fence"], "--fence-from=17") as gateway:
            self.fenced(self.counts(gateway, audit("<16.x>", 3), audit("<18.x>", 4)), 2, 18, 1)
        self.assertIn("\n# fence 17\n", Path(self.path).read_text())
        # Ticks that were missed before the restart have a line, too.
        self.assertRegex(run("heard", self.path)[1], r"\A(gap .*\n)?fence 17 from .*\n\Z")
        # The fence survives another restart.
        with Gateway(*words) as gateway:
            self.fenced(self.counts(gateway, audit("<17.x>", 5), audit("<18.x>", 6)), 3, 18, 1)
        with Gateway(*words, "--fence-from", "20") as gateway:
            self.fenced(self.counts(gateway, audit("<19.x>", 7), audit("<20.x>", 8)), 4, 20, 1)

    def test_a_strict_fence(self):
        heartbeat = b"MEGACO/1 <check>\nTransaction=1{Context=-{AuditValue=ROOT}}"
        acknowledgement = b"MEGACO/1 <check>\nTransactionResponseAck{1}"
        other = b"MEGACO/1 <check>\nTransaction=1{Context=*{Subtract=*}}"
        with Gateway("serve", *ports(0, 2), "--fence-strict", "--controller=127.0.0.1") as gateway:
            self.fenced(self.counts(gateway, audit("<x>", 1), audit("<1.x>", 2), REFUSED, other), 1, 1, 3)
            self.fenced(self.counts(gateway, heartbeat, acknowledgement), 3, 1, 3)

    def test_refused(self):
        for words, message in (
            (["--fence"], "error: a fence needs '--controller <ADDRESS>'\n"),
            (["--fence-strict"], "error: a fence needs '--controller <ADDRESS>'\n"),
            (["--fence-from=1"], "error: a fence needs '--controller <ADDRESS>'\n"),
            ([*FENCE, "--fence-from=4294967296"], "error: invalid value "),
            ([*FENCE, "--fence"], "error: "),
        ):
            for name in ("serve", "live"):
                self.refuses(message, name, *words)
        self.refuses("error: ", "replay", "--fence")
