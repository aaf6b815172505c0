"""Recordings: a line for each event, and a replay that sends what the session sent."""
import re
import tempfile
from pathlib import Path

from media import add, conference, request, spoken
from programs import FIRST, Commands, Gateway, ports, run, udp, waiting

CONTROL, ONE, OTHER = ("127.0.0.1", FIRST), ("127.0.0.1", FIRST + 2), ("127.0.0.1", FIRST + 4)


def address(caller):
    """A caller's address, as a script has it."""
    return "127.0.0.1:%d" % caller.getsockname()[1]


def datagram(line):
    """The destination and the datagram of a line of a replay's output."""
    word, *rest = line.split(" ", 3)
    if word == "rtp":
        return rest[1], bytes.fromhex(rest[2])
    text = " ".join(rest[1:]).replace("\\r", "\r").replace("\\n", "\n")
    return rest[0], text.encode()


class Recordings(Commands):
    def test_a_replay_sends_what_the_session_sent(self):
        with udp() as first, udp() as second, Gateway("serve", "--record", *ports(0, 2)) as gateway:
            create = conference(add(first.getsockname()[1]), add(second.getsockname()[1]))
            change = request(2, "Context=1{Modify=RTP/2{Media{LocalControl{nt/jit=40}}}}")
            sends = [(first, CONTROL, it) for it in (create, b"", b"MEGACO/1 mg K{7", b"MEGACO/1 mg K{7}", change)]
            sends += [(first, ONE, spoken(1, b"\x21" * 160)), (first, ONE, b"\x80\x00\xff\x0a")]
            sends += [(second, OTHER, spoken(7, b"\xde" * 160)), (second, OTHER, b"")]
            # Each datagram is recorded before the next one is sent.
            for count, (caller, to, bytes_sent) in enumerate(sends, 1):
                caller.sendto(bytes_sent, to)
                gateway.received(min(count, 5), max(0, count - 5))
            status, output, errors = gateway.finish("tick", "tick", "tick", "tick", "quit")
            self.assertEqual((status, errors), (0, ""))
            # Four answers, and four packets for each caller.
            counts = ((first, 8), (second, 4))
            found = {address(it): [it.recv(2000) for _ in range(count)] + waiting(it) for it, count in counts}
            events = [
                f"control {address(caller)} {it.hex()}\n"
                if to == CONTROL
                else f"rtp {to[1]} {address(caller)} {it.hex()}\n"
                for caller, to, it in sends
            ]
        recorded = [it for it in [*gateway.lines, *output.splitlines(keepends=True)] if not it.startswith("#")]
        self.assertEqual(recorded, events + ["tick\n"] * 4)
        status, sent, errors = run(*gateway.title.split()[2:], text="".join(recorded))
        self.assertEqual((status, errors), (0, ""))
        lines = [datagram(line) for line in sent.splitlines()]
        wanted = {caller: [it for to, it in lines if to == caller] for caller in found}
        self.assertEqual(found, wanted)
        for speech, heard in zip((b"\xde", b"\x21"), found.values()):
            self.assertIn(speech * 160, [it[12:] for it in heard])

    def test_a_journal_has_the_same_flows(self):
        with tempfile.TemporaryDirectory() as folder, udp() as caller:
            path = Path(folder) / "journal.txt"
            with Gateway("serve", "--record", "--journal", str(path), "--sync", *ports(0, 2)) as gateway:
                gateway.tell("tick")
                create = conference(*(add(caller.getsockname()[1]) for _ in range(2)))
                change = request(2, "Context=1{Topology{RTP/1,RTP/2,Oneway}}")
                # The second message is a retransmission.
                sends = [(CONTROL, create), (CONTROL, create), (ONE, b"\x80x"), (CONTROL, change)]
                for count, (to, message) in enumerate(sends, 1):
                    caller.sendto(message, to)
                    gateway.received(count - (count > 2), int(count > 2))
                    gateway.tell("tick")
                status, output, errors = gateway.finish("poll", "quit")
                self.assertEqual((status, errors), (0, ""))
            words = [*gateway.title.split()[2:], "--flows"]
            flows = []
            # A script has a line for each tick.
            journal = re.sub("^ticks ([0-9]+)\n", lambda it: "tick\n" * int(it[1]), path.read_text(), flags=re.M)
            for text in (journal, "".join(gateway.lines) + output):
                status, written, errors = run(*words, text=text)
                self.assertEqual((status, errors), (0, ""))
                flows.append([line for line in written.splitlines() if line.startswith("#")])
        self.assertEqual(flows[0], flows[1])
        self.assertTrue(flows[0])
