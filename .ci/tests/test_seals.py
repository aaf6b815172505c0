"""Checks of seals, and recordings that are sealed."""
import tempfile
from pathlib import Path

from programs import Commands
from seals import part, seal, seal_of, sealed


class Seals(Commands):
    def verifies(self, status, wanted, text):
        self.ends(status, wanted + "\n", "", "verify", text=text)

    def test_added(self):
        text = "# a comment\n" + "rtp 30000 127.0.0.1:40000 00\ntick\n" * 7000 + "tick"
        self.ends(0, sealed(text), "", "seal", text=text)
        self.verifies(0, "seals hold: 2, the last in line 12003; lines after it: 2001", sealed(text))
        self.ends(0, "", "", "seal", text="")

    def test_last_seal(self):
        for text in ("tick\n", "\n", "# a comment\ntick\n", "tick\n" * 3000, "# sha256 \n# sha256\n"):
            whole = text + seal(text)
            self.ends(0, whole, "", "seal", text=text)
        text = "# a comment\ntick\n"
        self.verifies(0, "seals hold: 1, the last in line 3; lines after it: 0", text + seal(text))
        # No seal is added after a seal, right or wrong, or after a partial line.
        for text in (text + seal(text), "# sha256 \n", "tick\n# sha256 00\n", "tick", "tick\n\ntick", "tick\n# sha256"):
            self.ends(0, text, "", "seal", text=text)

    def test_sealed_text_stays_unchanged(self):
        minute = "tick\n" * 3000
        for text in (minute + "# sha256 00\ntick\n", minute + "# sha256 00", minute + minute + "tick\ntick"):
            self.ends(0, sealed(text), "", "seal", text=text)
            self.ends(0, sealed(text), "", "seal", text=sealed(text))
        self.verifies(0, "seals hold: 3, the last in line 7003; lines after it: 0", sealed("tick\n" * 7000))

    def test_right(self):
        first = "# a comment\ntick\n"
        one = first + seal(first)
        two = one + "tick\n" + seal(one + "tick\n")
        holds = "seals hold: {}, the last in line {}; lines after it: {}".format
        self.verifies(0, holds(1, 3, 0), one)
        self.verifies(0, holds(2, 5, 0), two)
        self.verifies(0, holds(3, 6, 0), two + seal(two))
        # A file that was cut, at the end of a line and within one.
        self.verifies(0, holds(2, 5, 1), two + "tick\n")
        self.verifies(0, holds(2, 5, 1), two + "tick")
        self.verifies(0, holds(1, 3, 1), one + "tick\n")
        for n in (1, 2, 64, 73):
            self.verifies(0, holds(1, 3, 2), two[:-n])
        for text in ("", first, one[:-1], first + one.partition("# sha256")[2]):
            self.verifies(2, f"no seals in {len(text.splitlines())} lines", text)

    def test_wrong(self):
        first = "# a comment\ntick\n"
        one = first + seal(first)
        two = one + "tick\n" + seal(one + "tick\n")
        three = two + "tick\n" + seal(two + "tick\n")
        for text, wanted in (
            (three.replace("comment", "remark"), "up to line 3"),
            (three.replace("# a comment\n", ""), "up to line 2"),
            (three.replace("# a comment\n", "# a comment\r\n"), "up to line 3"),
            (three.replace(seal(first), seal(first).upper()), "up to line 5"),
            (three.replace(seal(first), ""), "up to line 4"),
            (one + "tick\n" + two[len(one) :], "after line 3, up to line 6"),
            (one + "rtp\n" + three[len(one) + 5 :], "after line 3, up to line 5"),
            (two + three[len(two) + 5 :], "after line 5, up to line 6"),
            # A seal of nothing, a seal that covers its own mark, three seals that leave lines out, and a seal of all
            # lines.
            (one + seal_of(""), "after line 3, up to line 4"),
            (one + seal_of(part(one) + "# sha256 "), "after line 3, up to line 4"),
            (one + "tick\n" + seal_of("tick\n"), "after line 3, up to line 5"),
            (one + "tick\n" + seal_of(first + "tick\n"), "after line 3, up to line 5"),
            (one + "tick\n" + seal_of(part(one)), "after line 3, up to line 5"),
            (one + "tick\n" + seal_of(one + "tick\n"), "after line 3, up to line 5"),
            # A line that only begins like a seal.
            (one + "# sha256 \ntick\n" + seal_of("# sha256 \ntick\n"), "after line 3, up to line 4"),
        ):
            self.verifies(1, f"changed {wanted}", text)

    def test_files(self):
        with tempfile.TemporaryDirectory() as folder:
            path = f"{folder}/recording.txt"
            Path(path).write_text(sealed("tick\n" * 3000))
            self.ends(0, "seals hold: 1, the last in line 3001; lines after it: 0\n", "", "verify", path, text="x")
            self.refuses(f"{folder}/none.txt: cannot be opened: ", "verify", f"{folder}/none.txt", status=6)
