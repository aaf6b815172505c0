"""Who could hear whom, according to a journal that was renewed, and according to several files."""
import hashlib
import subprocess
import tempfile
from pathlib import Path

from programs import Commands, run
from seals import part, seal
from test_heard import JOIN, PAIR, PART, TITLE, date, say

COUNTED = "# counted ticks\n"


def follows(text):
    """The line that says that the lines behind it follow this text."""
    return f"# follows {hashlib.sha256(part(text).encode()).hexdigest()}\n"


def checkpoint(messages, ticks, muted=""):
    """The checkpoint of a gateway with two callers in a conference. With `muted`, the first one doesn't hear the
    second."""
    lines = (
        f"checkpoint after {messages} control datagrams and {ticks} ticks\n",
        "next RTP/3 context 2\n",
        "context 1 has RTP/1 RTP/2 in room 0\n",
        "termination RTP/1 context 1 slot 0 seat 0 mode SendReceive depth 4 local none remote none"
        " timestamp 160 sequence 0 sent 0 octets 0 paused\n",
        *([muted] if muted else []),
        "termination RTP/2 context 1 slot 1 seat 1 mode SendReceive depth 4 local none remote none"
        " timestamp 160 sequence 0 sent 0 octets 0 paused\n",
    )
    return "".join(lines) + f"end after {len(lines)} lines\n"


MUTED = checkpoint(2, 3, "listener RTP/1 has RTP/2 muted\n")
# The first caller stops hearing the second after two ticks, and hears it again two ticks after the first file.
FIRST = COUNTED + date(20) + PAIR + "ticks 2\n" + PART + "ticks 1\n"
SECOND = date(20).replace("Z", ".06Z") + "ticks 2\n" + JOIN + "ticks 3\n"
THIRD = date(20).replace("Z", ".16Z") + "ticks 1\n" + say(4, "Context=1{Topology{RTP/1,RTP/2,Isolate}}") + "ticks 1\n"


class Renewed(Commands):
    """A gateway's journal was renewed twice."""

    def setUp(self):
        folder = tempfile.TemporaryDirectory()
        self.addCleanup(folder.cleanup)
        self.one, self.two, self.three = (str(Path(folder.name, name)) for name in ("one", "two", "three"))
        texts = [TITLE + FIRST]
        texts.append(TITLE + MUTED + COUNTED + "# reached 0\n" + follows(texts[0]) + SECOND)
        texts.append(TITLE + checkpoint(3, 8) + COUNTED + "# reached 0\n" + follows(texts[1]) + THIRD)
        self.texts = texts
        self.paths = [self.one, self.two, self.three]
        self.write()

    def write(self):
        for path, text in zip(self.paths, self.texts, strict=True):
            Path(path).write_text(text)

    def test_a_checkpoint(self):
        """Ticks are counted from the checkpoint."""
        wanted = (
            "RTP/2 could hear RTP/1 in context 1 from 2026-11-27T14:03:20.06Z (tick 0) until the end\n"
            "RTP/1 could hear RTP/2 in context 1 from 2026-11-27T14:03:20.1Z (tick 2) until the end\n"
        )
        status, output, errors = run("heard", self.two)
        self.assertEqual((status, sorted(output.splitlines()), errors), (0, sorted(wanted.splitlines()), ""))
        self.ends(0, output, "", "heard", text=self.texts[1])
        self.ends(1, "could not hear\n", "", "heard", "--listener=RTP/1", "--at=2026-11-27T14:03:20.06Z", self.two)
        self.ends(2, "", f"{self.two}: RTP/9 was never there\n", "heard", "--listener=RTP/9", self.two)
        # Terminations in the checkpoint were there.
        line = "RTP/2 could hear RTP/1 in context 1 from 2026-11-27T14:03:20.06Z (tick 0)\n"
        self.ends(1, line, "", "heard", "--never=RTP/1 -> RTP/2", self.two)
        self.ends(0, "", "", "heard", "--never=RTP/1 -> RTP/1", self.two)
        warning = ": no RTP datagrams, so nothing is audible; a journal has none, a recording does\n"
        self.ends(0, "", self.two + warning, "heard", "--audible", "--talker=RTP/1", self.two)

    def test_audible_behind_a_checkpoint(self):
        """The three gateways of `--audible`, two of which it compares, go on from the checkpoint."""
        loud = "".join(f"rtp 30000 127.0.0.1:5004 8000{n:04x}{n * 160:08x}00000007{'80' * 160}\ntick\n" for n in range(9))
        start = checkpoint(3, 8)
        for port, address in ((30000, "127.0.0.1:5004"), (30002, "192.0.2.7:40000")):
            media = f"local at 127.0.0.1:{port} PCMU remote at {address} PCMU"
            start = start.replace("local none remote none", media, 1)
        Path(self.one).write_text(TITLE + start + COUNTED + loud + "tick\n" * 9)
        pair = "RTP/2 (192.0.2.7:40000) heard RTP/1 (127.0.0.1:5004) in context 1"
        self.ends(0, f"{pair} from tick 2 until tick 11\n", "", "heard", "--audible", "--talker=RTP/1", self.one)

    def test_bad_lines(self):
        lines = self.texts[1].splitlines(keepends=True)
        for number, old, new, message in (
            (2, "after 2", "after 02", "line 2: not as the restored gateway would save it"),
            (4, "room 0", "room 64", "line 4: contradicts other lines or the configuration"),
            (6, "RTP/2", "RTP/9", "line 6: contradicts other lines or the configuration"),
            (7, "slot 1", "slot one", "line 7: bad checkpoint line"),
            (13, "ticks", "tacks", "line 13: bad script line"),
        ):
            changed = [*lines]
            changed[number - 1] = changed[number - 1].replace(old, new)
            self.assertNotEqual(changed, lines)
            for words in ([], ["--never=RTP/1 -> RTP/1"], ["--audible", "--talker=RTP/1"]):
                Path(self.two).write_text("".join(changed))
                self.ends(6, "", f"{self.two}: {message}\n", "heard", *words, self.two)

    def test_a_cut_journal(self):
        """Several files say the same as one journal that was never renewed."""
        whole = TITLE + FIRST + SECOND + THIRD
        for words in (
            [], ["--listener=RTP/1"], ["--format=csv"], ["--listener=RTP/1", "--at=2026-11-27T14:03:20.1Z"],
            ["--never=RTP/2 -> RTP/1"], ["--never=RTP/1 -> RTP/1"],
        ):
            wanted = run("heard", *words, text=whole)
            self.assertNotEqual(wanted, (0, "", "") if not words else None)
            self.assertEqual(run("heard", *words, *self.paths), wanted)
        gone = f"{self.one} to {self.three}: RTP/9 was never there\n"
        self.ends(2, "", gone, "heard", "--talker=RTP/9", *self.paths)

    def test_sealed_files(self):
        """The hash is that of the previous file's last part."""
        first = TITLE + FIRST
        self.texts[0] = first + seal(first) + "ticks 1\n"
        self.texts[1] = self.texts[1].replace(follows(first), follows(self.texts[0]))
        self.write()
        self.ends(*run("heard", text=TITLE + FIRST + "ticks 1\n" + SECOND)[:2], "", "heard", self.one, self.two)

    def test_files_that_do_not_follow(self):
        def apart(later, before):
            return f"{later}: doesn't follow {before}: a file is missing between them, or one was changed\n"

        one, two, three = self.paths
        for files, message in (
            ((one, three), apart(three, one)),
            ((two, one), apart(one, two)),
            ((three, two), apart(two, three)),
            ((one, two, two), apart(two, two)),
            ((one, one), apart(one, one)),
        ):
            for words in ([], ["--never=RTP/1 -> RTP/1"], ["--audible", "--talker=RTP/1"]):
                status, _, errors = run("heard", *words, *files)
                self.assertEqual((status, errors[-len(message) :]), (6, message), files)
        for index, old, new in ((0, "ticks 1", "ticks 2"), (0, "Transaction=1", "Transaction=7"), (1, "20.06Z", "20.08Z")):
            with self.subTest(index=index, old=old):
                kept = self.texts[index]
                self.texts[index] = kept.replace(old, new, 1)
                self.assertNotEqual(self.texts[index], kept)
                self.write()
                status, _, errors = run("heard", *self.paths)
                self.assertEqual((status, errors), (6, apart(self.paths[index + 1], self.paths[index])))
                self.texts[index] = kept
        # A journal of another gateway, and one without a line that says what it follows.
        for old, new in (("--slots=256", "--slots=255"), ("# follows ", "# precedes ")):
            Path(two).write_text(self.texts[1].replace(old, new, 1))
            self.ends(6, "", apart(two, one), "heard", one, two)
        # A violation is printed, even if a later file doesn't follow.
        self.write()
        status, output, errors = run("heard", "--never=RTP/1 -> RTP/2", one, three)
        self.assertEqual((status, bool(output), errors), (6, True, apart(three, one)))

    def test_a_fault_names_its_file(self):
        second = self.texts[1].replace("ticks 3\n", "ticks 3\ntack\n")
        Path(self.two).write_text(second)
        line = second.count("\n", 0, second.index("tack")) + 1
        self.ends(6, *run("heard", text=TITLE + FIRST + SECOND + "tack\n")[1:2],
                  f"{self.two}: line {line}: bad script line\n", "heard", self.one, self.two)
        Path(self.one).write_text(self.texts[0].replace("ticks 2\n", "tocks 2\n"))
        status, _, errors = run("heard", *self.paths)
        line = self.texts[0].count("\n", 0, self.texts[0].index("ticks 2")) + 1
        self.assertEqual((status, errors), (6, f"{self.one}: line {line}: bad script line\n"))

    def test_files_that_cannot_be_opened(self):
        self.ends(6, "", f"{self.three}x: cannot be opened: No such file or directory (os error 2)\n",
                  "heard", self.one, self.two, self.three + "x")

    def test_a_page(self):
        """The digest on a page is that of the text that was read. A command makes this text from the files."""
        command = f"{{ cat {self.one}; sed '1,/^# follows /d' {self.two}; sed '1,/^# follows /d' {self.three}; }} | sha256sum"
        digest = subprocess.run(command, shell=True, capture_output=True, check=True).stdout.decode()[:64]
        status, page, errors = run("heard", "--report", *self.paths)
        self.assertEqual((status, errors), (0, ""))
        self.assertIn(digest, page)
        self.assertIn(f"{self.one} to {self.three}", page)
        quoted = " ".join(f"&#39;{path}&#39;" for path in self.paths)
        self.assertIn(quoted, page.replace("&apos;", "&#39;"))

    def test_verify(self):
        """The seals of several files, and whether each file follows the one before it."""
        none = [f"{path}: no seals in {text.count(chr(10))} lines\n" for path, text in zip(self.paths, self.texts)]
        apart = [f"{path}: doesn't follow the file before it\n" for path in self.paths]
        self.ends(0, "".join(none), "", "verify", *self.paths)
        self.ends(1, none[0] + none[2] + apart[2], "", "verify", self.one, self.three)
        self.ends(1, none[1] + none[0] + apart[0], "", "verify", self.two, self.one)
        self.ends(6, none[0], f"{self.one}.gone: cannot be opened: No such file or directory (os error 2)\n", "verify",
                  self.one, self.one + ".gone")
        Path(self.one).write_text(self.texts[0].replace("ticks 2", "ticks 3"))
        self.ends(1, none[0] + none[1] + apart[1] + none[2], "", "verify", *self.paths)
        first = TITLE + FIRST
        self.texts[0] = first + seal(first) + "ticks 1\n"
        self.texts[1] = TITLE + MUTED + COUNTED + follows(self.texts[0]) + SECOND
        self.write()
        held = f"{self.one}: seals hold: 1, the last in line {first.count(chr(10)) + 1}; lines after it: 1\n"
        self.ends(0, held + f"{self.two}: no seals in {self.texts[1].count(chr(10))} lines\n", "", "verify", self.one, self.two)
        Path(self.one).write_text(self.texts[0].replace("ticks 2", "ticks 3"))
        changed = f"{self.one}: changed up to line {first.count(chr(10)) + 1}\n"
        status, output, errors = run("verify", self.one, self.two)
        self.assertEqual((status, errors), (1, ""))
        self.assertTrue(output.startswith(changed), output)
