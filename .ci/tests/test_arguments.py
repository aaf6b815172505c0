"""Arguments that are refused, and the versions."""
import re
import subprocess
import time

from programs import LIMIT, ROOT, Commands, program, run

ADD = "MEGACO/1 [127.0.0.1]:2945 Transaction=1{Context=${Add=${Media{LocalControl{Mode=Inactive}}}}}"


class Arguments(Commands):
    def test_refused(self):
        for words in (
            [],
            ["record"],
            ["replay", "--slots"],
            ["replay", "--slots", "65536"],
            ["replay", "--slots", "1", "--slots", "1"],
            ["serve", "--colour"],
            ["serve", "--control-port", "x"],
            ["serve", "--late", "5"],
            ["live", "--late", "65536"],
            ["live", "--first-context", "4294967296"],
            ["replay", "--controller", "10.0.0.1"],
            ["heard", "--slots", "4"],
            ["heard", "one.txt", ""],
            ["heard", ""],
            ["heard", "--at", "14:03:20"],
            ["heard", "--at", "today"],
            ["heard", "--at", "1969-12-31T23:59:59Z"],
            ["heard", "--listener", "RTP/x"],
            ["heard", "--talker", "192.0.2"],
            ["heard", "--format", "xml"],
            ["heard", "--format", "page"],
            ["heard", "--report", "--format", "csv"],
            ["heard", "--report", "--at", "2026-11-27T14:03:20Z"],
            ["heard", "--report", "--never", "RTP/1 -> RTP/2"],
            ["heard", "--report", "--report"],
            ["heard", "--report=yes"],
            ["heard", "--never", "RTP/1 RTP/2"],
            ["heard", "--never", "RTP/1 -> "],
            ["heard", "--never", "RTP/1->RTP/2"],
            ["heard", "--never", "RTP/1 -> RTP/2", "--never", "RTP/1 -> me"],
            ["heard", *["--never=RTP/1 -> RTP/2"] * 65],
            ["heard", "--never", "RTP/1 -> RTP/2", "--talker", "RTP/1"],
            ["heard", "--never", "RTP/1 -> RTP/2", "--listener", "RTP/1"],
            ["heard", "--never", "RTP/1 -> RTP/2", "--at", "2026-11-27T14:03:20Z"],
            ["heard", "--never", "RTP/1 -> RTP/2", "--from", "2026-11-27T14:03:20Z"],
            ["heard", "--never", "RTP/1 -> RTP/2", "--to", "2026-11-27T14:03:20Z"],
            ["heard", "--never", "RTP/1 -> RTP/2", "--audible"],
            ["heard", "--audible"],
            ["heard", "--audible", "--talker", "192.0.2.7"],
            ["heard", "--audible", "--talker", "RTP/1", "--at", "2026-11-27T14:03:20Z"],
            ["heard", "--at", "2026-11-27T14:03:20Z", "--from", "2026-11-27T14:03:20Z"],
            ["heard", "--at", "2026-11-27T14:03:20Z", "--to", "2026-11-27T14:03:20Z"],
            ["verify", "one.txt", ""],
            ["verify", ""],
            ["seal", "one.txt"],
            ["replay", "--bind-address", "10.0.0.1"],
            ["replay", "--address", "10.0.0.1", "--address", "10.0.0.1"],
            ["serve", "--address"],
            ["serve", "--address="],
            ["check"],
        ):
            self.refuses("error: ", *words)

    def test_a_number_is_decimal_and_within_its_range(self):
        for word in ("65536", "-1", "0x10", "1.5", "ten", "", " 1", "1_000", "99999999999999999999"):
            self.refuses("error: ", "replay", f"--control-port={word}")
        # What was read shows in the answer: the control port after the address, and the number of the new context.
        for option, name, number in (("--control-port", "[127.0.0.1]:", 65535), ("--first-context", "Context=", 4294967293)):
            for words in ([option, f"{number}"], [f"{option}=+{number}"], [f"{option}=0{number}"]):
                status, output, errors = run("replay", *words, text=f"say 127.0.0.1:2945 {ADD}\n")
                with self.subTest(words=words):
                    self.assertEqual((status, errors), (0, ""))
                    self.assertRegex(output, f"{re.escape(name)}{number}\\D")

    def test_an_argument_is_utf_8(self):
        for name in ("mg_bridge", "mg_pace"):
            self.refuses("error: an argument is not valid UTF-8\n", b"\xff", name=name)

    def test_help_that_cannot_be_printed(self):
        # The reader of mg_pace's output may stop reading at any time.
        for name, status, message in (("mg_bridge", 3, b"write failed\n"), ("mg_pace", 0, b"")):
            with open("/dev/full", "wb") as full:
                ran = subprocess.run([program(name), "--help"], stdout=full, stderr=subprocess.PIPE, timeout=LIMIT)
            self.assertEqual((ran.returncode, ran.stderr), (status, message), name)

    def test_mg_pace_polls_and_ticks(self):
        for words, polls, ticks in ((["--ticks", "1"], 4, 1), (["--polls=1", "--ticks=2"], 1, 2), (["--ticks=0"], 4, 0)):
            self.ends(0, ("poll\n" * polls + "tick\n") * ticks + "quit\n", "", *words, name="mg_pace")

    def test_mg_pace_waits(self):
        """Three steps of 20 ms take at least 60 ms, and less than ten seconds on any host."""
        begun = time.monotonic()
        self.ends(0, "poll\ntick\n" * 3 + "quit\n", "", "--polls=1", "--ticks=3", name="mg_pace")
        self.assertTrue(0.06 <= time.monotonic() - begun < 10)

    def test_mg_pace_refused(self):
        for words in (["--polls", "0"], ["--polls", "1001"], ["--ticks", "-1"], ["--tick", "1"], ["20"]):
            self.refuses("error: ", *words, name="mg_pace")

    def test_version(self):
        options = (ROOT / "crates/mg_options/src/command.rt").read_text()
        version, toolchain = (
            options.partition(f"pub const {it}: &str = \"")[2].partition('"')[0] for it in ("VERSION", "TOOLCHAIN")
        )
        for name in ("mg_bridge", "mg_pace"):
            self.ends(0, f"{name} {version}\n{toolchain}\n", "", "--version", name=name)
