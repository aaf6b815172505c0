"""Scripts that need options, the lines that `--flows` adds, and lines that aren't events."""
from pathlib import Path

from programs import HEARTBEAT, Commands, run

SCRIPTS = Path(__file__).resolve().parent / "scripts"

CONTROLLER = "127.0.0.1:2945"


class Stored(Commands):
    def test_output_is_as_stored(self):
        """The first line of each script is the command that plays it."""
        for script in sorted(SCRIPTS.glob("*.txt")):
            text = script.read_text()
            words = text.partition("\n")[0].removeprefix("# mg_bridge ").split()
            self.ends(0, script.with_suffix(".out").read_text(), "", *words, text=text)

    def test_flows_are_reported_only_if_requested(self):
        script = SCRIPTS / "changes_are_reported.txt"
        lines = script.with_suffix(".out").read_text().splitlines(keepends=True)
        plain = "".join(line for line in lines if not line.startswith("#"))
        self.ends(0, plain, "", "replay", text=script.read_text())


class Lines(Commands):
    def test_bad_lines_are_named(self):
        for script, line in (
            ("tick\ntock\n", 2),
            ("tick\r", 1),
            ("Tick\n", 1),
            ("tick \n", 1),
            ("tack", 1),
            ("tick\ntick\ntick\ntack\ntick\n", 4),
            ("# one\r\ntick\r\n\r\n\r\r\n", 4),
            ("say 127.0.0.1:2945\n", 1),
            ("say 127.0.0.1 x\n", 1),
            ("say 127.0.0.1:2945 \\t\n", 1),
            ("say 127.0.0.1:2945 \\\n", 1),
            ("tick\n say 127.0.0.1:2945 no\n", 2),
            ("control 127.0.0.1:2945 4d4\n", 1),
            ("\n\n\nrtp 30000 127.0.0.1:40000 8\n", 4),
            ("rtp 30000 127.0.0.1 80\n", 1),
            ("rtp 127.0.0.1:40000 80\n", 1),
        ):
            self.ends(1, "", f"line {line}: bad script line\n", "replay", text=script)

    def test_a_line_has_140000_bytes_and_a_datagram_65535(self):
        control = f"control {CONTROLLER} "
        for script, line in (
            ("#" * 140000, None),
            ("#" * 140000 + "\r\n", None),
            ("#" * 140001, 1),
            ("tick\n" + "#" * 140003 + "\ntick\n", 2),
            (control + "0" * 2 * 65535, None),
            (control + "0" * 2 * 65536, 1),
        ):
            status, _, errors = run("replay", text=script)
            wanted = (0, "") if line is None else (1, f"line {line}: bad script line\n")
            self.assertEqual((status, errors), wanted)

    def test_control_lines_run_like_say_lines(self):
        for text in ("", "!", HEARTBEAT, "!" * 65507):
            said = run("replay", text=f"say {CONTROLLER} {text}\n")
            self.assertEqual((said[0], said[1].count("\n"), said[2]), (0, 1, ""))
            self.ends(*said, "replay", text=f"control {CONTROLLER} {text.encode().hex()}\n")


class Messages(Commands):
    def test_refusals(self):
        name = f"say {CONTROLLER} MEGACO/1 [127.0.0.1]:2944\\n"
        for text, answer in (
            (HEARTBEAT, f"{name}Reply=1{{Context=-{{AuditValue=ROOT}}}}\n"),
            ("MEGACO/1 mg K{7}", ""),
            ("MEGACO/1 mg K{7", f'{name}Error=400{{"syntax"}}\n'),
            ("MEGACO/2 mg K{7}", f'{name}Error=406{{"version"}}\n'),
            (" " * 8193, f'{name}Error=501{{"not served"}}\n'),
        ):
            self.ends(0, answer, "", "replay", text=f"say {CONTROLLER} {text}\n")
