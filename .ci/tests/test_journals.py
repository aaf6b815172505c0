"""Gateways that keep a journal."""
import os
import re
import tempfile
from datetime import datetime, timedelta, timezone
from pathlib import Path

from media import add, conference, header, request, spoken
from programs import FIRST, Commands, Gateway, bound, counted, ports, run, udp, waiting
from seals import right_seals


def line_of(message):
    """The line of a message from a controller."""
    return f"control 127.0.0.1:2945 {message.hex()}\n"


class Journals(Commands):
    TITLE = (
        "# mg_bridge replay --address=127.0.0.1 --control-address=127.0.0.1 --control-port=28807 --base-port=28808"
        " --slots=2 --first-termination=11 --first-context=12 --ssrc=7 --sequence=8 --timestamp=9\n"
    )

    def setUp(self):
        handle, self.path = tempfile.mkstemp()
        os.close(handle)
        self.addCleanup(os.remove, self.path)

    def session(self, caller, words, lines):
        """Serves these lines after a message from the caller. Returns the exit status, the output after `ready` and the
        error messages."""
        with Gateway("serve", *words) as gateway:
            self.assertEqual(gateway.ready, "ready\n")
            caller.sendto(conference("Add=${Media{LocalControl{Mode=SendReceive}}}"), ("127.0.0.1", FIRST))
            return gateway.finish(*lines.splitlines())

    def test_goes_on(self):
        os.remove(self.path)
        with bound(FIRST + 30) as (caller,):
            words = [*ports(0, 2), "--ssrc=7", "--sync", "--journal", self.path]
            self.assertEqual(self.session(caller, words, "tick\ntick\npoll\ntick\nquit\n")[:2], (0, ""))
            answer = caller.recv(2000)
            self.assertTrue(Path(self.path).read_text().startswith("# mg_bridge replay --address=127.0.0.1 "))
            # The next gateway takes the options from the title. It knows the message, and doesn't run it again.
            words = ["--journal", self.path]
            status, output, errors = self.session(caller, words, "stats\npoll\nstats\nquit\n")
            self.assertEqual((status, output.startswith("control=1 media=0 ticks=")), (0, True))
            self.assertTrue(errors.endswith(": continues after 1 messages and 2 ticks\n"), errors)
            self.assertEqual(caller.recv(2000), answer)

    def test_a_title_has_the_numbers_that_the_gateway_begins_with(self):
        """Five different options, for a new journal, and for a restart without them."""
        os.remove(self.path)
        numbers = "--first-termination=11 --first-context=12 --ssrc=7 --sequence=8 --timestamp=9"
        words = [*ports(0, 2), "--journal", self.path]
        for given, conference_number, termination in ((numbers.split(), 12, 11), ([], 13, 12)):
            with self.subTest(given=given), udp() as caller, Gateway("serve", *words, *given) as gateway:
                caller.sendto(request(termination, f"Context=${{{add(caller.getsockname()[1])}}}"), ("127.0.0.1", FIRST))
                gateway.tell("poll", "tick")
                self.assertIn(f"{{Context={conference_number}{{Add=RTP/{termination}{{", caller.recv(2000).decode())
                self.assertEqual(caller.recv(2000)[:12], header(8, 9, 7 + termination, marker=True))
                self.assertEqual(gateway.finish("quit")[0], 0)
            self.assertTrue(Path(self.path).read_text().partition("\n")[0].endswith(f" --slots=2 {numbers}"))

    def test_seals(self):
        os.remove(self.path)
        words = [*ports(0, 2), "--ssrc=7", "--journal", self.path]
        for lines in ("tick\n" * 50, "tick\n" * 100):
            self.assertEqual(run("serve", *words, text=lines + "quit\n")[0], 0)
        text = Path(self.path).read_text()
        self.assertEqual(right_seals(text), [True, True])
        lines = text.splitlines()
        last = max(n for n, line in enumerate(lines, 1) if line.startswith("# sha256 "))
        wanted = f"seals hold: 2, the last in line {last}; lines after it: {len(lines) - last}\n"
        self.ends(0, wanted, "", "verify", self.path)
        Path(self.path).write_text(text.replace("--ssrc=7", "--ssrc=8"))
        self.ends(1, "changed up to line 3\n", "", "verify", self.path)

    def test_a_journal_that_was_changed_is_refused(self):
        """Lines that are lines of a script, too, but not those that the gateway wrote."""
        os.remove(self.path)
        words = ["serve", *ports(0, 2), "--ssrc=7", "--journal", self.path]
        for _ in range(3):
            self.assertEqual(run(*words, text="tick\n" * 10 + "quit\n")[0], 0)
        text = Path(self.path).read_text()
        lines = text.splitlines(keepends=True)
        seals = [n for n, line in enumerate(lines, 1) if line.startswith("# sha256 ")]
        ticks = [n for n, line in enumerate(lines, 1) if line == "ticks 10\n"]
        self.assertEqual((len(seals), len(ticks)), (3, 3))
        for name, at, line, wrong in (
            ("another number", ticks[0], "ticks 11\n", seals[1]),
            ("a line is missing", ticks[1], "", seals[2] - 1),
            ("a line is there twice", ticks[0], "ticks 10\nticks 10\n", seals[1] + 1),
            ("another comment", ticks[1] - 1, "# note\n", seals[2]),
            ("a seal", seals[1], "# sha256 " + "0" * 64 + "\n", seals[1]),
        ):
            changed = "".join([*lines[:at - 1], line, *lines[at:]])
            Path(self.path).write_text(changed)
            with self.subTest(name):
                message = f"journal {self.path}: line {wrong} is a wrong seal: a line before it was changed\n"
                self.ends(6, "", message, *words, text="quit\n")
                self.assertEqual(Path(self.path).read_text(), changed)
        # Nothing seals the last lines.
        Path(self.path).write_text("".join([*lines[:ticks[2] - 1], "ticks 11\n"]))
        self.assertEqual(run(*words, text="quit\n")[0], 0)

    def test_missed_ticks_are_passed(self):
        """Ten seconds have passed since the journal's date, but only five ticks were run."""
        start = datetime.now(timezone.utc).replace(microsecond=0) - timedelta(seconds=10)
        text = f"{self.TITLE}# time {start:%Y-%m-%dT%H:%M:%S}Z\n" + "tick\n" * 5
        text = text.replace("28807", str(FIRST)).replace("28808", str(FIRST + 2))
        Path(self.path).write_text(text)

        def passed():
            return (datetime.now(timezone.utc) - start) // timedelta(milliseconds=20)

        least = passed()
        with Gateway("serve", "--journal", self.path) as gateway:
            most = passed()
            counts = gateway.stats()
            ticks = int(re.search("ticks=([0-9]+)", counts)[1])
            self.assertEqual(counts, counted(ticks=ticks))
            self.assertEqual(gateway.finish("quit")[:2], (0, ""))
        self.assertTrue(500 <= least <= ticks <= most, (least, ticks, most))
        missed = ticks - 5
        self.assertEqual(Path(self.path).read_text(), f"{text}# counted ticks\n# missed {missed} ticks\nticks {missed}\n")
        status, output, errors = run("heard", self.path)
        self.assertEqual((status, errors), (0, ""))
        self.assertRegex(output, rf"\Agap from \S+ \(tick 5\) until \S+ \(tick {ticks}\)\n\Z")

    def test_goes_on_like_a_replay(self):
        """A gateway that resumes from a script answers and sends like a gateway that ran the script."""
        speech = "".join(
            f"rtp {FIRST + 2 + 2 * slot} 127.0.0.1:40000 {spoken(1, byte * 160).hex()}\n"
            for slot, byte in enumerate((b"\x10", b"\x9c"))
        )
        part = request(2, "Context=12{Topology{RTP/11,RTP/12,Oneway}}")
        for end in ("", speech + "tick\ntick\n"):
            with self.subTest(end=end), udp() as controller, udp() as first, udp() as second, udp() as third:
                modes = {first: "SendReceive", second: "SendReceive", third: "SendOnly"}
                adds = [add(it.getsockname()[1], mode) for it, mode in modes.items()]
                script = "tick\n" + line_of(conference(*adds)) + "tick\ntick\n" + line_of(part) + "tick\n"
                self.check_resumed(script + end, controller, list(modes))

    def check_resumed(self, text, controller, callers):
        """A gateway that resumes from this script continues like a replay of it."""
        audit = request(3, "Context=12{AuditValue=RTP/11{Audit{Media,Statistics}}},Context=12{ContextAudit{Topology}}")
        title = self.TITLE.replace("28807", str(FIRST)).replace("28808", str(FIRST + 2)).replace("=2 ", "=3 ")
        Path(self.path).write_text(title + text)
        source = "127.0.0.1:%d" % controller.getsockname()[1]
        rest = f"control {source} {audit.hex()}\n" + "tick\n" * 4
        status, output, errors = run(*title.split()[2:], text=text + rest)
        self.assertEqual((status, errors), (0, ""))
        # An answer, and three packets for each of four ticks.
        sent = output.splitlines()[-13:]
        ticks, media = text.count("tick\n"), text.count("rtp ")
        with Gateway("serve", "--journal", self.path, "--report=1") as gateway:
            controller.sendto(audit, ("127.0.0.1", FIRST))
            self.assertEqual(gateway.received(3, media), counted(control=3, media=media, ticks=ticks, sent=1))
            answer = controller.recv(4000).decode().replace("\r", "\\r").replace("\n", "\\n")
            self.assertEqual(sent[0], f"say {source} {answer}")
            counts = gateway.stats("tick", "tick", "tick", "tick")
            self.assertEqual(counts, counted(control=3, media=media, ticks=ticks + 4, sent=13))
            for place, line in enumerate(sent[1:]):
                caller = callers[place % 3]
                packet, (_, port) = caller.recvfrom(2000)
                self.assertEqual(line, f"rtp {port} 127.0.0.1:{caller.getsockname()[1]} {packet.hex()}")
            self.assertEqual([waiting(caller) for caller in callers], [[], [], []])
            # The report at 50 ticks says what happened to the frames.
            status, _, errors = gateway.finish(*["tick"] * (46 - ticks), "quit")
            self.assertEqual(status, 0)
            self.assertIn(f" strangers=0 started={media} placed=0 pushed=0 again=0 late=0 dropped=0,0,0,0,0,0 ", errors)

    def test_each_cause_is_counted(self):
        """A gateway that resumes counts each cause of a drop and each result of a frame in its journal."""

        def rtp(place, data, source="127.0.0.1"):
            return f"rtp {FIRST + place} {source}:5004 {data}\n"

        def frame(sequence, source="127.0.0.1"):
            return rtp(2, f"8000{sequence:04x}0000000000000063" + "ff" * 160, source)

        callers = line_of(conference(*(add(port, "SendReceive") for port in (40000, 40002, 40004))))
        no_local = line_of(request(2, "Context=12{Add=$}"))
        header = "0000010000000000000063"
        frames = [100, 101, *[102] * 5, 104, 105, 106, *[100] * 5]
        for script, control, media, ticks, dropped, results, sent in (
            (
                callers + frame(1) * 2 + frame(1, "127.0.0.2") + rtp(8, "80") + rtp(2, "80") + "tick\ntick\n\n# end\n",
                *(1, 5, 2, "1,1,0,1,0,0", "started=1 placed=0 pushed=0 again=1 late=0", 7),
            ),
            (
                callers + no_local + rtp(10, "80") + rtp(2, "80", "127.0.0.2") * 2 + rtp(8, "80") * 3 + rtp(2, "80") * 4
                + rtp(2, f"8008{header[2:]}") * 5 + rtp(2, f"8000{header[2:]}") * 6 + "".join(map(frame, frames)),
                *(2, 36, 0, "1,2,3,4,5,6", "started=1 placed=2 pushed=3 again=4 late=5", 2),
            ),
            # After an acknowledgment, the same request runs again. The last line has no line feed.
            (
                callers + line_of(b"!/1 [127.0.0.1]:2945 K{1}") + callers + "tick\ntick",
                *(3, 0, 2, "0,0,0,0,0,0", "started=0 placed=0 pushed=0 again=0 late=0", 14),
            ),
        ):
            with self.subTest(results=results):
                title = self.TITLE.replace("28807", str(FIRST)).replace("28808", str(FIRST + 2)).replace("=2 ", "=6 ")
                status, output, errors = run(*title.split()[2:], text=title + script)
                self.assertEqual((status, output.count("\n"), errors), (0, sent, ""))
                Path(self.path).write_text(title + script + "\n")
                with Gateway("serve", "--journal", self.path, "--report=1") as gateway:
                    counts = gateway.stats()
                    self.assertEqual(counts, counted(control=control, media=media, ticks=ticks, dropped=dropped))
                    status, _, errors = gateway.finish(*["tick"] * (50 - ticks), "quit")
                self.assertEqual(status, 0)
                self.assertIn(f" strangers=0 {results} dropped={dropped} ", errors)

    def test_bad_lines_are_named(self):
        for text, line in (
            ("tack\n", 2),
            ("tick\ntick\ntick\ntack\ntick\n", 5),
            ("# one\r\ntick\r\n\r\n\r\r\n", 5),
            ("tick\nsay 127.0.0.1:2945 no\ntick\ntick\r\r\n", 5),
            ("tick\n say 127.0.0.1:2945 no\n", 3),
            ("tick\n" + "#" * 140000 + "\r\ntack\n", 4),
            ("tick\n" + "#" * 140001 + "\r\ntack\n", 3),
        ):
            with self.subTest(text=text[:99]):
                Path(self.path).write_bytes((self.TITLE + text).encode())
                status, output, errors = run("serve", "--journal", self.path, text="quit\n")
                wanted = f": line {line} isn't a line of a script\n"
                self.assertEqual((status, output, errors[-len(wanted) :]), (6, "", wanted))
                message = f"{self.path}: line {line}: bad script line\n"
                self.ends(6, "", message, "heard", "--at=2026-11-27T14:03:20Z", self.path)

    CHECKPOINT = (
        "checkpoint after 3 control datagrams and 100 ticks\n",
        "next RTP/12 context 13\n",
        "context 12 has RTP/11 in room 0\n",
        "termination RTP/11 context 12 slot 0 seat 0 mode SendReceive depth 4 local none remote none"
        " timestamp 15849 sequence 8 sent 0 octets 0 paused\n",
        "end after 4 lines\n",
    )

    def test_a_journal_that_was_renewed(self):
        """A gateway goes on from the checkpoint behind the title, and runs the lines behind the checkpoint."""
        title = self.TITLE.replace("28807", str(FIRST)).replace("28808", str(FIRST + 2))
        text = title + "".join(self.CHECKPOINT) + "# counted ticks\n# reached 17\n"
        Path(self.path).write_text(text + "ticks 5\n")
        words = ["serve", "--fence", "--controller=127.0.0.1", "--journal", self.path]
        with udp() as caller, Gateway(*words) as gateway:
            counts = gateway.stats()
            self.assertTrue(counts.startswith("control=3 media=0 ticks=105 "), counts)
            self.assertTrue(counts.endswith(" fence=17 stale=0\n"), counts)
            # A message with a lower number than the one that was reached is dropped.
            for number, answer in ((16, []), (17, ["Reply=7{Context=12{AuditValue=RTP/11{"])):
                message = f"MEGACO/1 <{number}.x>\nTransaction=7{{Context=12{{AuditValue=RTP/11{{Audit{{Media}}}}}}}}"
                caller.sendto(message.encode(), ("127.0.0.1", FIRST))
                gateway.stats("poll")
                found = [it.decode().partition("\n")[2] for it in waiting(caller)]
                self.assertEqual([it[: len(start)] for it, start in zip(found, answer, strict=True)], answer)
            status, _, errors = gateway.finish("quit")
            self.assertEqual(status, 0)
            self.assertTrue(errors.endswith(": continues after 3 messages and 105 ticks\n"), errors)
        self.assertTrue(Path(self.path).read_text().startswith(text))

    def test_bad_lines_of_a_checkpoint_are_named(self):
        script = "# counted ticks\nticks 5\n"
        lost = [(self.CHECKPOINT[:n] + self.CHECKPOINT[n + 1 :], line) for n, line in ((1, 3), (2, 4), (3, 4), (4, 6))]
        doubled = [(self.CHECKPOINT[: n + 1] + self.CHECKPOINT[n:], n + 3) for n in range(4)]
        changed = [
            ((*self.CHECKPOINT[:n], self.CHECKPOINT[n].replace(old, new), *self.CHECKPOINT[n + 1 :]), line)
            for n, old, new, line in (
                (0, "100", "0100", 2),
                (1, "12", "11", 4),
                (2, "room 0", "room 64", 4),
                (3, "slot 0", "slot 2", 4),
                (4, "4", "5", 6),
            )
        ]
        for lines, line in (*lost, *doubled, *changed):
            with self.subTest(lines=lines):
                Path(self.path).write_text(self.TITLE + "".join(lines) + script)
                status, output, errors = run("serve", "--journal", self.path, text="quit\n")
                wanted = f": line {line} isn't a line of a checkpoint\n"
                self.assertEqual((status, output, errors[-len(wanted) :]), (6, "", wanted))
        for lines in (self.CHECKPOINT[1:], (*self.CHECKPOINT, self.CHECKPOINT[4])):
            with self.subTest(lines=lines):
                Path(self.path).write_text(self.TITLE + "".join(lines) + script)
                status, output, errors = run("serve", "--journal", self.path, text="quit\n")
                wanted = f": line {2 if len(lines) == 4 else 7} isn't a line of a script\n"
                self.assertEqual((status, output, errors[-len(wanted) :]), (6, "", wanted))

    def test_counted_ticks(self):
        """A line can count many ticks, but only after the line that says so."""
        for text, ticks in (
            ("# counted ticks\nticks 1\n", 1),
            ("tick\n# counted ticks\nticks 12\ntick\r\nticks 4294967296\r\n# counted ticks\n", 14 + 2**32),
            ("# counted ticks\nticks 18446744073709551615\n", 2**64 - 1),
            # The counts stay at their greatest value.
            ("# counted ticks\n" + "ticks 18446744073709551615\n" * 3 + "tick\n" * 40, 2**64 - 1),
        ):
            with self.subTest(text=text[:99]):
                title = self.TITLE.replace("28807", str(FIRST)).replace("28808", str(FIRST + 2))
                Path(self.path).write_text(title + text)
                with Gateway("serve", "--journal", self.path) as gateway:
                    self.assertEqual(gateway.stats(), counted(ticks=ticks))
                    self.assertEqual(gateway.finish("quit")[:2], (0, ""))
                self.assertEqual(Path(self.path).read_bytes().decode(), title + text + "# counted ticks\n")
        mark = "# counted ticks\n"
        for text, line in (
            ("ticks 1\n", 2),
            ("ticks 1\n" + mark, 2),
            ("# counted  ticks\nticks 1\n", 3),
            ("#counted ticks\nticks 1\n", 3),
            *((f"{mark}ticks 1\n{bad}\ntick\n", 4) for bad in (
                "ticks 0", "ticks 01", "ticks", "ticks ", "ticks  1", "ticks 1 ", "ticks +1", "ticks 0x1", "ticks 1a", "Ticks 1",
                "ticks 18446744073709551616", "ticks 100000000000000000000",
            )),
        ):
            with self.subTest(text=text):
                Path(self.path).write_text(self.TITLE + text)
                status, output, errors = run("serve", "--journal", self.path, text="quit\n")
                wanted = f": line {line} isn't a line of a script\n"
                self.assertEqual((status, output, errors[-len(wanted) :]), (6, "", wanted))
                self.ends(6, "", f"{self.path}: line {line}: bad script line\n", "heard", self.path)

    def test_ticks_are_one_line(self):
        """A month of missed ticks takes one line. A gateway appends the ticks that it runs ten at a time."""
        start = datetime.now(timezone.utc).replace(microsecond=0) - timedelta(days=30)
        title = self.TITLE.replace("28807", str(FIRST)).replace("28808", str(FIRST + 2))
        Path(self.path).write_text(f"{title}# time {start:%Y-%m-%dT%H:%M:%S}Z\n")
        with Gateway("serve", "--journal", self.path) as gateway:
            self.assertEqual(gateway.finish(*["tick"] * 3000, "quit")[0], 0)
        lines = [line for line in Path(self.path).read_text().splitlines() if not line.startswith("#")]
        self.assertRegex(lines[0], r"\Aticks 1296[0-9]{5}\Z")
        self.assertEqual(lines[1:], ["ticks 10"] * 300)
        self.assertEqual(run("heard", self.path)[0], 0)

    def test_other_files(self):
        bad = self.TITLE + "tick\ntick\n\nspeech\ntick\n"
        for text, option, wanted in (
            ("tick\n", "--report=0", ": line 1 isn't the title of a journal\n"),
            ("# a comment\ntick\n", "--report=0", ": line 1 isn't the title of a journal\n"),
            ("notes", "--report=0", ": line 1 isn't the title of a journal\n"),
            ("# mg_bridge live", "--report=0", ": line 1 isn't the title of a journal\n"),
            (self.TITLE[:-1] + " " * 1000, "--report=0", ": line 1 isn't the title of a journal\n"),
            (self.TITLE, "--slots=3", ": line 1 has another --slots\n"),
            (bad, "--slots=2", ": line 5 isn't a line of a script\n"),
        ):
            with self.subTest(text=text):
                Path(self.path).write_text(text)
                status, output, errors = run("serve", "--journal", self.path, option, text="quit\n")
                self.assertEqual((status, output, errors[-len(wanted) :]), (6, "", wanted))
                self.assertEqual(Path(self.path).read_text(), text)

    def test_a_partial_last_line_is_cut_off_once_the_journal_is_accepted(self):
        text = self.TITLE + "tick\n"
        Path(self.path).write_text(text + "tic")
        refused = ": line 1 has another --slots\n"
        status, output, errors = run("serve", "--journal", self.path, "--slots=3", text="quit\n")
        self.assertEqual((status, output, errors[-len(refused) :]), (6, "", refused))
        self.assertEqual(Path(self.path).read_text(), text + "tic")
        for sync in ([], ["--sync"]):
            with self.subTest(sync=sync), bound(FIRST + 30) as (caller,):
                title = text.replace("28807", str(FIRST)).replace("28808", str(FIRST + 2))
                Path(self.path).write_text(title + "tic")
                self.assertEqual(self.session(caller, ["--journal", self.path, *sync], "poll\nquit\n")[:2], (0, ""))
                found = Path(self.path).read_text()
                # The next lines say that ticks are counted, and have a seal, a date and the caller's message.
                self.assertRegex(found[len(title) :], r"\A(# .*\n)*control 127\.0\.0\.1:[0-9]+ [0-9a-f]+\n\Z")
                self.assertEqual(found[: len(title)], title)

    def test_a_title_that_was_not_written_completely(self):
        words = [*ports(0, 2), "--ssrc=7", "--journal", self.path]
        for text in ("", "#", self.TITLE[:40], self.TITLE[:-1]):
            with self.subTest(text=text):
                Path(self.path).write_text(text)
                self.assertEqual(run("serve", *words, text="tick\nquit\n")[0], 0)
                self.assertRegex(Path(self.path).read_text(), r"\A# mg_bridge replay --.* --ssrc=7 .*\n(# .*\n)*")

    def test_one_gateway_at_a_time(self):
        os.remove(self.path)
        words = [*ports(0, 2), "--journal", self.path]
        with Gateway("serve", *words) as gateway:
            self.assertEqual(gateway.ready, "ready\n")
            self.ends(3, "", f"journal {self.path}: in use by another gateway\n", "serve", *words, text="quit\n")
            self.assertEqual(gateway.finish("quit")[0], 0)
        self.assertEqual(run("serve", *words, text="quit\n")[0], 0)

    def test_metrics_do_not_replace_it(self):
        with tempfile.TemporaryDirectory() as folder:
            for journal, metrics in (("one", "one"), ("one.new", "one")):
                journal, metrics = f"{folder}/{journal}", f"{folder}/{metrics}"
                words = [*ports(0, 2), "--journal", journal, "--metrics", metrics]
                message = f"cannot write {metrics}: this would replace the journal\n"
                self.ends(3, "", message, "live", *words)
                self.assertEqual(Path(journal).read_bytes(), b"")
            status, output, errors = run("live", *ports(0, 2), "--metrics", folder)
            self.assertEqual((status, output, errors.partition(": ")[0]), (3, "", f"cannot write {folder}"))
            self.assertFalse(Path(f"{folder}.new").exists())

    def test_files_that_cannot_be_opened(self):
        for path, error in (
            ("/", "Is a directory (os error 21)"),
            ("/dev/null/journal", "Not a directory (os error 20)"),
            ("/nowhere/journal", "No such file or directory (os error 2)"),
        ):
            self.ends(3, "", f"journal {path}: cannot be opened: {error}\n", "serve", "--journal", path, text="quit\n")
