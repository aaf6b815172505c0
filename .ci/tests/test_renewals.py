"""Gateways that replace their journal with one that begins with a checkpoint."""
import errno
import re
import subprocess
import tempfile
import threading
from pathlib import Path

from kernel import Kernel
from programs import FIRST, LIMIT, Commands, Gateway, ports, program, run, udp, waiting
from seals import seal

CONTROL = ("127.0.0.1", FIRST)
# The numbers of ticks between two looks at the journal's file, and from a renewal that failed to the next one.
LOOK, PAUSE = 50, 3000
FAILS, WORKS = "the journal can't be written: messages get no answer\n", "the journal can be written again\n"
UNRENEWED = "the journal can't be renewed: the next try is in a minute\n"


def request(number):
    """A request that creates a context."""
    return f"MEGACO/1 [127.0.0.1]:2945 Transaction={number}{{Context=${{Add=$}}}}".encode()


class Renewals(Commands):
    def setUp(self):
        folder = tempfile.TemporaryDirectory()
        self.addCleanup(folder.cleanup)
        self.folder = Path(folder.name)
        self.journal = self.folder / "journal.txt"
        self.caller = udp()
        self.addCleanup(self.caller.close)

    def serving(self, *words, kernel=None):
        return Gateway("serve", *ports(0, 8), "--journal", str(self.journal), *words, kernel=kernel)

    def ask(self, gateway, number):
        """Whether this request, which may be a retransmission, creates the context and termination of its number."""
        self.caller.sendto(request(number), CONTROL)
        gateway.stats("poll")
        answers = [it.decode().partition("\n")[2] for it in waiting(self.caller)]
        if not answers:
            return False
        self.assertEqual(answers, [f"Reply={number}{{Context={number}{{Add=RTP/{number}}}}}"])
        return True

    def kept(self):
        """The old journals, oldest first. They have the date of their end in their names."""
        files = [it for it in self.folder.iterdir() if it.name not in ("journal.txt", "journal.txt.new", "moved")]
        # Without the Z, 11.3 comes before 11.34.
        files.sort(key=lambda it: it.name.removesuffix("Z"))
        for it in files:
            self.assertRegex(it.name, r"\Ajournal\.txt\.20\d\d-\d\d-\d\dT\d\d:\d\d:\d\d(\.\d+)?Z\Z")
        return files

    def is_renewed(self, messages):
        """Whether the journal begins with a checkpoint after this many messages."""
        _, second, *_ = self.journal.read_text().split("\n", 2)
        return re.fullmatch(f"checkpoint after {messages} control datagrams and [0-9]+ ticks", second) is not None

    def resumes(self, messages):
        """A gateway that resumes from the journal knows these messages."""
        with self.serving() as gateway:
            self.assertTrue(gateway.stats().startswith(f"control={messages} "))
            for number in range(1, messages + 1):
                self.assertTrue(self.ask(gateway, number))
            self.assertTrue(self.ask(gateway, messages + 1))
            self.assertEqual(gateway.finish("quit")[0], 0)

    def test_a_file_that_somebody_changed(self):
        """Within a second, the journal is at its path again, and whole. Only a file that was deleted is lost."""

        def renamed():
            self.journal.rename(self.folder / "moved")

        def deleted():
            self.journal.unlink()

        def cut():
            text = self.journal.read_text()
            self.journal.write_text(text[:70])

        def emptied():
            self.journal.write_text("")

        def replaced():
            other = self.folder / "other"
            other.write_text("another file\n")
            other.rename(self.journal)

        for change, kept in ((renamed, None), (deleted, None), (cut, "# mg_bridge "), (emptied, ""),
                             (replaced, "another file\n")):
            with self.subTest(change.__name__):
                for it in self.folder.iterdir():
                    it.unlink()
                with self.serving() as gateway:
                    self.assertTrue(self.ask(gateway, 1))
                    change()
                    gateway.stats(*["tick"] * (LOOK - 1))
                    self.assertFalse(self.journal.exists() and self.is_renewed(1))
                    self.assertTrue(self.ask(gateway, 2))
                    gateway.stats("tick")
                    self.assertTrue(self.is_renewed(2))
                    self.assertTrue(self.ask(gateway, 3))
                    # The date may follow a checkpoint, but not a message.
                    self.assertEqual(gateway.finish(*["tick"] * LOOK, "quit")[::2], (0, ""))
                self.assertEqual(len(re.findall("^control ", self.journal.read_text(), re.MULTILINE)), 1)
                texts = [it.read_text() for it in self.kept()]
                self.assertEqual(len(texts), 0 if kept is None else 1)
                if texts:
                    self.assertTrue(texts[0].startswith(kept))
                if change is renamed:
                    self.assertEqual((self.folder / "moved").read_text().count("\ncontrol "), 2)
                self.resumes(3)

    def test_a_number_of_messages(self):
        with self.serving("--checkpoint-every=3") as gateway:
            for number in range(1, 8):
                self.assertTrue(self.ask(gateway, number))
                gateway.stats("tick")
                self.assertEqual(len(self.kept()), number // 3)
                if number >= 3:
                    self.assertTrue(self.is_renewed(number // 3 * 3))
            self.assertEqual(gateway.finish("quit")[::2], (0, ""))
        # Each file has its messages, and nothing is in two of them.
        texts = [it.read_text() for it in (*self.kept(), self.journal)]
        self.assertEqual([text.count("\ncontrol ") for text in texts], [3, 3, 1])
        self.assertEqual(len({text.partition("\n")[0] for text in texts}), 1)
        # Each file says which one it follows.
        for old, new in zip(texts, texts[1:]):
            self.assertIn(f"\n# follows {seal(old).removeprefix('# sha256 ')}", new)
        self.resumes(7)

    def test_the_file_is_looked_at_once_a_second(self):
        with Kernel(["stat", "newfstatat", "statx"]) as kernel, self.serving(kernel=kernel) as gateway:
            gateway.stats()
            before = sum(kernel.made.values())
            gateway.stats(*["tick"] * (10 * LOOK))
            # A look asks about the path and about the file, whose length is asked for once more.
            self.assertIn(sum(kernel.made.values()) - before, range(10, 31))

    def test_the_same_users_may_read_it(self):
        for mode in (0o600, 0o640, 0o644):
            self.journal.touch()
            self.journal.chmod(mode)
            with self.serving("--checkpoint-every=1") as gateway:
                self.assertTrue(self.ask(gateway, 1))
                self.assertEqual(gateway.finish("tick", "quit")[0], 0)
            self.assertTrue(self.is_renewed(1))
            self.assertEqual(self.journal.stat().st_mode & 0o777, mode)
            for it in self.folder.iterdir():
                it.unlink()

    def test_a_file_that_has_another_name(self):
        """As after a crash in a renewal: a file that has another name isn't given the name of an old journal."""
        with self.serving("--checkpoint-every=1") as gateway:
            self.assertTrue(self.ask(gateway, 1))
            (self.folder / "moved").hardlink_to(self.journal)
            gateway.stats("tick")
            self.assertTrue(self.is_renewed(1))
            self.assertEqual(self.kept(), [])
            self.assertEqual(gateway.finish("quit")[0], 0)

    def test_a_file_of_a_crash_is_overwritten(self):
        """A start ignores the file that a renewal left when it was cut off."""
        rest = Path(f"{self.journal}.new")
        rest.write_text("# mg_bridge replay --slots=3\ncheckpoint after 9 control datagrams and 9 ticks\n" + "x" * 99999)
        with self.serving("--checkpoint-every=1") as gateway:
            self.assertEqual(gateway.stats()[:17], "control=0 media=0")
            self.assertTrue(self.ask(gateway, 1))
            gateway.stats("tick")
            self.assertTrue(self.is_renewed(1))
            self.assertEqual(gateway.finish("quit")[::2], (0, ""))
        self.assertNotIn("x" * 9, self.journal.read_text())
        self.assertFalse(rest.exists())
        self.resumes(1)

    def check_refused(self, names, decide, *words):
        """While `decide` refuses a call that a renewal needs, the gateway goes on with the journal. The next try is a
        minute later."""
        failing = [True]
        with Kernel(names, lambda call: decide(call) if failing else None) as kernel:
            with self.serving("--checkpoint-every=1", *words, kernel=kernel) as gateway:
                self.assertTrue(self.ask(gateway, 1))
                gateway.stats(*["tick"] * PAUSE)
                self.assertEqual(gateway.process.stderr.readline(), UNRENEWED)
                self.assertFalse(self.is_renewed(1))
                # The journal has no other name any more.
                self.assertEqual(self.kept(), [])
                self.assertTrue(self.ask(gateway, 2))
                failing.clear()
                # The pause is over after this tick.
                gateway.stats("tick")
                self.assertFalse(self.is_renewed(2))
                gateway.stats("tick")
                self.assertTrue(self.is_renewed(2))
                self.assertTrue(self.ask(gateway, 3))
                self.assertEqual(gateway.finish("quit")[::2], (0, ""))
        [kept] = self.kept()
        self.assertEqual(kept.read_text().count("\ncontrol "), 2)
        self.resumes(3)

    def test_the_disk_is_full(self):
        self.check_refused(["write"], lambda call: errno.ENOSPC if call.file().endswith(".txt.new") else None)

    def test_the_old_name_is_taken(self):
        self.check_refused(["link"], lambda call: errno.EEXIST)

    def test_the_new_file_cannot_be_renamed(self):
        self.check_refused(["rename"], lambda call: errno.EIO)

    def test_the_new_text_cannot_be_synced(self):
        self.check_refused(
            ["fdatasync"], lambda call: errno.EIO if call.file().endswith(".txt.new") else None, "--sync"
        )

    def test_the_folder_cannot_be_synced_before_the_file_is_renamed(self):
        self.check_refused(["fsync"], lambda call: errno.EIO if call.count > 1 else None, "--sync")

    def test_the_order_of_syncs(self):
        """The new text and the old file's other name are on the disk before the new file is renamed. Then the folder is
        synced again."""
        made = []

        def decide(call):
            made.append((call.name, Path(call.file()).name if call.name.endswith("sync") else None))

        with Kernel(["fsync", "fdatasync", "link", "rename"], decide) as kernel:
            with self.serving("--checkpoint-every=1", "--sync", kernel=kernel) as gateway:
                self.assertTrue(self.ask(gateway, 1))
                folder, file = ("fsync", self.folder.name), ("fdatasync", "journal.txt")
                # The journal and its name are new, so both are synced.
                self.assertEqual((made[:2], {*made[2:]}), ([folder, file], {file}))
                made.clear()
                gateway.stats("tick")
                new = ("fdatasync", "journal.txt.new")
                self.assertEqual(made, [new, ("link", None), folder, ("rename", None), folder])
                made.clear()
                self.assertTrue(self.ask(gateway, 2))
                self.assertEqual(made, [file])
        with Kernel(["fsync", "fdatasync"]) as kernel, self.serving("--checkpoint-every=1", kernel=kernel) as gateway:
            self.assertTrue(self.ask(gateway, 3))
            gateway.stats("tick")
            self.assertTrue(self.is_renewed(3))
            self.assertEqual(sum(kernel.made.values()), 0)

    def test_the_folder_cannot_be_synced_after_the_file_was_renamed(self):
        """A message waits until the folder is synced, since it's in the new file."""
        for count, answered in ((1, True), (2, False)):
            failing = []

            def decide(call):
                """Refuses this many syncs of the folder after a rename."""
                if call.name == "rename":
                    failing.extend([True] * count)
                elif failing:
                    failing.pop()
                    return errno.EIO
                return None

            with self.subTest(count), Kernel(["fsync", "rename"], decide) as kernel:
                with self.serving("--checkpoint-every=1", "--sync", kernel=kernel) as gateway:
                    self.assertTrue(self.ask(gateway, 1))
                    gateway.stats("tick")
                    self.assertTrue(self.is_renewed(1))
                    self.assertEqual(self.ask(gateway, 2), answered)
                    self.assertTrue(self.ask(gateway, 2) or not answered)
                    count = 0
                    gateway.stats(*["tick"] * LOOK)
                    self.assertTrue(self.ask(gateway, 2))
                    _, _, errors = gateway.finish("tick", "quit")
                    self.assertEqual(errors, "" if answered else FAILS + WORKS)
            for it in self.folder.iterdir():
                it.unlink()

    def test_a_broken_journal_works_again(self):
        """A sync fails, so what the disk has isn't known. The journal is renewed within a second."""
        failing = []
        with Kernel(["fdatasync"], lambda call: errno.EIO if failing else None) as kernel:
            with self.serving("--sync", kernel=kernel) as gateway:
                self.assertTrue(self.ask(gateway, 1))
                failing.append(True)
                self.assertFalse(self.ask(gateway, 2))
                failing.clear()
                self.assertFalse(self.ask(gateway, 2))
                gateway.stats(*["tick"] * LOOK)
                self.assertTrue(self.is_renewed(1))
                self.assertTrue(self.ask(gateway, 2))
                self.assertEqual(gateway.finish("tick", "quit")[::2], (0, FAILS + WORKS))
        self.resumes(2)

    def test_a_file_that_somebody_cut_gets_no_zeros(self):
        """A write fails after somebody has cut the file, so the gateway can't cut off what it wrote."""
        failing = []
        decide = lambda call: errno.ENOSPC if failing and call.file() == str(self.journal) else None
        with Kernel(["write"], decide) as kernel, self.serving(kernel=kernel) as gateway:
            self.assertTrue(self.ask(gateway, 1))
            front = self.journal.read_text()[:20]
            self.journal.write_text(front)
            failing.append(True)
            self.assertFalse(self.ask(gateway, 2))
            self.assertEqual(self.journal.read_text(), front)

    def test_a_full_disk_with_room_for_ticks_is_reported_once(self):
        """The report that the journal can be written again waits for a message."""
        failing = []
        decide = lambda call: errno.ENOSPC if failing and call.file() == str(self.journal) and call.arguments[2] > 60 else None
        with Kernel(["write"], decide) as kernel, self.serving(kernel=kernel) as gateway:
            self.assertTrue(self.ask(gateway, 1))
            failing.append(True)
            for _ in range(3):
                self.assertFalse(self.ask(gateway, 2))
                gateway.stats(*["tick"] * 30)
            self.assertIn("ticks 10\n", self.journal.read_text())
            failing.clear()
            gateway.stats(*["tick"] * 30)
            self.assertTrue(self.ask(gateway, 2))
            self.assertEqual(gateway.finish("tick", "quit")[::2], (0, FAILS + WORKS))

    def test_a_second_gateway_is_refused(self):
        """The new file is locked, too."""
        with self.serving("--checkpoint-every=1") as gateway:
            self.assertTrue(self.ask(gateway, 1))
            gateway.stats("tick")
            self.assertTrue(self.is_renewed(1))
            message = f"journal {self.journal}: in use by another gateway\n"
            self.ends(3, "", message, "serve", *ports(12, 2), "--journal", str(self.journal), text="quit\n")

    def renewed(self):
        """The old and the new journal of a gateway that renewed it once, as scripts, and the options of their title."""
        with self.serving("--checkpoint-every=3") as gateway:
            for number in range(1, 6):
                self.assertTrue(self.ask(gateway, number))
                gateway.stats("tick", "tick")
            self.assertEqual(gateway.finish("quit")[::2], (0, ""))
        texts = [re.sub("^ticks ([0-9]+)$", lambda it: "\n".join(["tick"] * int(it[1])), file.read_text(), flags=re.M)
                 for file in (*self.kept(), self.journal)]
        self.assertEqual(len(texts), 2)
        return *texts, texts[1].partition("\n")[0].split()[2:]

    def test_a_replay_begins_with_the_checkpoint(self):
        """The old and the new file send what the whole history sends, and the same changes are reported."""
        old, new, words = self.renewed()
        tail = new.partition("\n# counted ticks\n")[2]
        for shown in ([], ["--flows"]):
            first, then, whole = (run(*words, *shown, text=it) for it in (old, new, old + tail))
            self.assertEqual([it[::2] for it in (first, then, whole)], [(0, "")] * 3)
            self.assertIn("Reply=5", then[1])
            self.assertEqual(first[1] + then[1], whole[1])

    def test_a_replay_names_the_line_of_a_fault(self):
        old, new, words = self.renewed()
        lines = new.splitlines(keepends=True)
        output = run(*words, text=new)[1]
        self.ends(1, output, f"line {len(lines) + 1}: bad script line\n", *words, text=new + "no line\n")
        end = next(at for at, line in enumerate(lines, 1) if line.startswith("end after "))
        others = [it.replace("--slots=8", "--slots=7") for it in words]
        self.ends(1, "", "line 1: the title of a gateway with another configuration\n", *others, text=new)
        self.ends(1, "", "line 3: bad checkpoint line\n", *words, text="".join([*lines[:2], "next\n", *lines[3:]]))
        self.refuses(f"line {end}: ", *words, status=1, text="".join(lines[:end - 1]))
        self.ends(1, "", "line 2: bad script line\n", *words, text=lines[0] + "checkpoint\n")
        self.ends(1, "", "line 1: bad script line\n", *words, text=new.partition("\n")[2])
        self.ends(0, "", "", *words, text=lines[0])

    def test_a_replay_reads_no_further_than_a_line(self):
        """A message is answered before the next line is read, behind a title as well."""
        for title in (b"", b"# mg_bridge replay --slots=8\n"):
            pipes = {it: subprocess.PIPE for it in ("stdin", "stdout")}
            with self.subTest(title), subprocess.Popen([program("mg_bridge"), "replay"], **pipes) as replay:
                end = threading.Timer(LIMIT, replay.kill)
                end.start()
                replay.stdin.write(title + b"control 127.0.0.1:1 %s\n" % request(1).hex().encode())
                replay.stdin.flush()
                self.assertTrue(replay.stdout.readline().startswith(b"say 127.0.0.1:1 "))
                end.cancel()
