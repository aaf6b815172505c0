"""Who could hear whom, and when."""
import json
import re
import subprocess
import tempfile
import unittest
from pathlib import Path

from media import description
from programs import Commands, program, run

TITLE = (
    "# mg_bridge replay --address=127.0.0.1 --control-address=127.0.0.1 --control-port=2944 --base-port=30000"
    " --slots=256 --first-termination=1 --first-context=1 --ssrc=0 --sequence=0 --timestamp=0\n"
)

# The names of the columns.
HEAD = (
    "kind,listener,listener_at,talker,talker_at,context,first_tick,end_tick,from,until,listener_name,talker_name"
)

def say(number, actions):
    """The line of a message with one request."""
    return f"say 127.0.0.1:2945 MEGACO/1 [127.0.0.1]:2945 Transaction={number}{{{actions}}}\n"


def topology(number, word):
    """The message that connects the first two callers like this."""
    return say(number, f"Context=1{{Topology{{RTP/1,RTP/2,{word}}}}}")


def media(address):
    """Descriptors for a caller at this address."""
    local, remote = (description(*it).replace("\n", "\\n") for it in (("$", "$"), (address, 40000)))
    return f"Local{{{local}}},Remote{{{remote}}}"


def date(seconds):
    """The line for a time after 14:03, in seconds."""
    return f"# time 2026-11-27T14:{3 + seconds // 60:02}:{seconds % 60:02}Z\n"


TALKS = "Add=${Media{LocalControl{Mode=SendReceive}}}"
PAIR = say(1, f"Context=${{{TALKS},{TALKS}}}")
# The first caller doesn't hear the second, and then does again. Both move to a new context.
PART = say(2, "Context=1{Topology{RTP/1,RTP/2,Oneway}}")
JOIN = say(3, "Context=1{Topology{RTP/1,RTP/2,Bothway}}")
MOVE = say(4, "Context=${Move=RTP/1,Move=RTP/2}")
REMOTE = say(5, f"Context=1{{Modify=RTP/1{{Media{{{media('192.0.2.7')}}}}}}}")
# Three callers are in a conference. The first and the third are isolated, the second only listens, the third moves to a
# new context, and the second is subtracted after the last tick.
CHANGES = (
    "tick\n" + say(1, f"Context=${{{TALKS},{TALKS},{TALKS}}}") + "tick\nrtp 30000 127.0.0.1:5004 80\n"
    + say(2, "Context=1{Topology{RTP/1,RTP/3,Isolate}}") + "tick\ntick\n"
    + say(3, "Context=1{Modify=RTP/2{Media{LocalControl{Mode=SendOnly}}}}") + "# a comment\n"
    + say(4, "Context=${Move=RTP/3}") + "tick\n" + say(5, "Context=1{Subtract=RTP/2{Audit{}}}")
)
# Two callers with a date. The first doesn't hear the second from the third tick on. Then the gateway is restarted.
DATED = date(20) + PAIR + "tick\ntick\n" + PART + "tick\n# missed 2 ticks\ntick\ntick\ntick\n"
# The ticks before the date, and the ticks after a change, don't have their own dates.
LASTING = PAIR + "tick\n" + date(20) + "tick\n" + PART + "tick\n"
# The first caller stops hearing the second before the date.
OVER = PAIR + "tick\n" + PART + "tick\n" + date(20) + "tick\n"
# Without a date, the times aren't known.
NEVER = PAIR + "tick\ntick\n"


class Heard(Commands):
    """Two callers from 14:03:20 on. The first one stops hearing the second after two ticks, and three ticks follow."""

    TITLE = TITLE
    CALL = (
        date(20)
        + say(1, f"Context=${{Add=${{Media{{LocalControl{{Mode=SendReceive}},{media('192.0.2.7')}}}}},{TALKS}}}")
        + "tick\ntick\n" + PART + "tick\ntick\ntick\n"
    )
    FIRST = (
        "RTP/1 (192.0.2.7:40000) could hear RTP/2 in context 1 from 2026-11-27T14:03:20Z (tick 0)"
        " until 2026-11-27T14:03:20.04Z (tick 2)\n"
    )
    SECOND = (
        "RTP/2 could hear RTP/1 (192.0.2.7:40000) in context 1 from 2026-11-27T14:03:20Z (tick 0) until the end\n"
    )

    def test_intervals(self):
        both = self.FIRST + self.SECOND
        for words, wanted in (
            ([], both),
            (["--listener=RTP/1"], self.FIRST),
            (["--listener=192.0.2.7"], self.FIRST),
            (["--talker=192.0.2.7:40000"], self.SECOND),
            (["--from=2026-11-27T14:03:20.04Z"], self.SECOND),
            (["--to=2026-11-27T14:03:20Z"], ""),
        ):
            self.ends(0, wanted, "", "heard", *words, text=self.TITLE + self.CALL)

    def test_never(self):
        first, second = (it.partition(" until ")[0] + "\n" for it in (self.FIRST, self.SECOND))
        for rules, status, wanted in (
            (["RTP/2 -> RTP/1"], 1, first),
            (["* -> 192.0.2.7"], 1, first),
            (["* -> *"], 1, first),
            (["192.0.2.7:40000 -> *"], 1, second),
            (["RTP/3 -> RTP/1", "RTP/1 -> RTP/2"], 1, second),
            (["RTP/1 -> RTP/1", "RTP/1 -> 192.0.2.7"], 0, ""),
        ):
            words = [f"--never={rule}" for rule in rules]
            self.ends(status, wanted, "", "heard", *words, text=self.TITLE + self.CALL)
        comma = "heard,RTP/1,192.0.2.7:40000,RTP/2,,1,0,,2026-11-27T14:03:20Z,,,\n"
        self.ends(1, comma, "", "heard", "--never=* -> *", "--format=csv", text=self.TITLE + self.CALL)
        status, output, errors = run("heard", "--never=* -> *", "--format=json", text=self.TITLE + self.CALL)
        end = ',"until":null,"listener_name":null,"talker_name":null}\n'
        self.assertEqual((status, output[:16], output[-len(end) :], errors), (1, '{"kind":"heard",', end, ""))

    def test_whom_the_script_never_has(self):
        text = self.TITLE + self.CALL
        for words, names in (
            (["--listener=RTP/9"], ["RTP/9"]),
            (["--talker=192.0.2.8"], ["192.0.2.8"]),
            (["--talker=192.0.2.7:40001"], ["192.0.2.7:40001"]),
            (["--listener=RTP/9", "--talker=RTP/10"], ["RTP/10", "RTP/9"]),
            (["--listener=RTP/1", "--talker=RTP/10"], ["RTP/10"]),
        ):
            said = "".join(f"standard input: {name} was never there\n" for name in names)
            self.ends(2, "", said, "heard", *words, text=text)
            self.ends(2, "not known\n", said, "heard", "--at=2026-11-27T14:03:20Z", *words, text=text)
        # A caller who was there only between two ticks, or was always isolated, could not be heard.
        gone = self.TITLE + date(20) + PAIR + say(2, "Context=1{Subtract=RTP/2}") + "tick\n"
        apart = self.TITLE + date(20) + PAIR + topology(2, "Isolate") + "tick\n"
        for text in (gone, apart):
            words = ["--listener=RTP/1", "--talker=RTP/2", "--at=2026-11-27T14:03:20Z"]
            self.ends(1, "could not hear\n", "", "heard", *words, text=text)
            self.ends(0, "", "", "heard", *words[:2], text=text)

    def test_names_that_the_script_never_has(self):
        with tempfile.TemporaryDirectory() as folder:
            path = Path(folder, "names.csv")
            path.write_text("RTP/9,Coach\n192.0.2.8,Coach\nRTP/9,Pair\nRTP/2,Pair\n")
            words, text = ["heard", f"--names={path}"], self.TITLE + self.CALL
            said = "standard input: Coach was never there\n"
            self.ends(2, "", said, *words, "--listener=Coach", text=text)
            self.ends(0, "", said, *words, "--never=Coach -> Pair", text=text)
            # One of two keys is enough.
            self.assertEqual(run(*words, "--talker=Pair", text=text)[0::2], (0, ""))

    def test_a_message_that_cannot_be_written(self):
        for words in (["--listener=RTP/9"], ["--never=RTP/9 -> *"]):
            with open("/dev/full", "w", encoding="utf-8") as full:
                ran = subprocess.run([program("mg_bridge"), "heard", *words], input=(self.TITLE + self.CALL).encode(),
                                     stdout=subprocess.PIPE, stderr=full, timeout=60)
            self.assertEqual((ran.returncode, ran.stdout), (3, b""))

    def test_never_warns_of_whom_the_script_never_has(self):
        rules = ["RTP/9 -> RTP/1", "RTP/1 -> RTP/2", "* -> 192.0.2.8", "RTP/10 -> RTP/9"]
        words = [f"--never={rule}" for rule in rules]
        said = "".join(f"standard input: {name} was never there\n" for name in ("RTP/9", "192.0.2.8", "RTP/10", "RTP/9"))
        apart = self.TITLE + date(20) + PAIR + topology(2, "Isolate") + "tick\n"
        self.ends(0, "", said, "heard", *words, text=apart)
        # A broken rule matters more than terminations that were never there.
        line = self.SECOND.partition(" until ")[0] + "\n"
        self.ends(1, line, "", "heard", *words, text=self.TITLE + self.CALL)

    def test_never_later(self):
        start = self.TITLE + self.CALL.partition("tick\n")[0] + topology(2, "Isolate") + "tick\ntick\n"
        undone = start + topology(3, "Bothway") + topology(4, "Isolate") + "tick\n"
        self.ends(0, "", "", "heard", "--never=* -> *", text=undone)
        broken = undone + topology(5, "Oneway")
        line = "RTP/2 could hear RTP/1 (192.0.2.7:40000) in context 1 from 2026-11-27T14:03:20.06Z (tick 3)\n"
        # The rule is broken at the end, too.
        for text in (broken, broken + "tick\n", broken + "tick\ntick\n" + topology(6, "Isolate") + "tick\n"):
            self.ends(1, line, "", "heard", "--never=RTP/1 -> RTP/2", text=text)

    def test_never_in_a_growing_journal(self):
        words = [program("mg_bridge"), "heard", "--never", "RTP/2 -> RTP/1"]
        isolated = self.TITLE + self.CALL.partition("tick\n")[0] + topology(2, "Isolate") + "tick\n"
        with subprocess.Popen(words, stdin=subprocess.PIPE, stdout=subprocess.PIPE) as watch:
            watch.stdin.write((isolated + topology(3, "Bothway")).encode())
            watch.stdin.flush()
            # No tick has followed, and the journal has not ended.
            with self.assertRaises(subprocess.TimeoutExpired):
                watch.wait(1)
            watch.stdin.write(b"tick\n")
            watch.stdin.flush()
            self.assertEqual(watch.wait(5), 1)
            wanted = self.FIRST.partition(" from ")[0] + " from 2026-11-27T14:03:20.02Z (tick 1)\n"
            self.assertEqual(watch.stdout.read().decode(), wanted)

    def test_faulty_scripts(self):
        other = "# mg_bridge replay --slots=4\n"
        no_title = "line 1 isn't the title of a journal or a recording"
        for text, message in (
            (self.TITLE + "tick\ntock\n", "line 3: bad script line"),
            (self.TITLE + "tick\n# a\ntock\n", "line 4: bad script line"),
            (self.TITLE + "tick\n" + other, "line 3: the title of another gateway"),
            (self.TITLE + "tick\n\n" + other, "line 4: the title of another gateway"),
            (self.TITLE + "tick\n# missed 18446744073709551615 ticks\n", "too many ticks"),
            (self.TITLE + "# counted ticks\nticks 18446744073709551615\ntick\n", "too many ticks"),
            (self.TITLE + "# counted ticks\nticks 7\ntick\n" + other, "line 5: the title of another gateway"),
            (self.TITLE + "ticks 3\n", "line 2: bad script line"),
            ("", no_title),
            (self.CALL, no_title),
            ("#" * 5000, no_title),
        ):
            for word in ("--format=text", "--at=2026-11-27T14:03:20Z", "--never=RTP/8 -> RTP/9"):
                with self.subTest(text=text, word=word):
                    status, _, errors = run("heard", word, text=text)
                    self.assertEqual((status, errors), (6, f"standard input: {message}\n"))

    def test_a_clock_that_was_set_back(self):
        """The clock shows the time from 14:03:20 until 14:03:22 twice. The first caller hears the second only the first
        time."""
        text = self.TITLE + date(20) + PAIR + "tick\n" * 100 + date(20) + PART + "tick\n" * 200
        gap = "gap from 2026-11-27T14:03:22Z (tick 100) until 2026-11-27T14:03:20Z (tick 100)\n"
        first = ("RTP/1 could hear RTP/2 in context 1 from 2026-11-27T14:03:20Z (tick 0) until 2026-11-27T14:03:20Z"
                 " (tick 100)\n")
        second = "RTP/2 could hear RTP/1 in context 1 from 2026-11-27T14:03:20Z (tick 0) until the end\n"
        self.ends(0, gap + first + second, "", "heard", text=text)
        for start, end, wanted in ((18, 20, ""), (20, 21, gap + second), (21, 22, gap + second), (22, 24, second)):
            words = [f"--from=2026-11-27T14:03:{start}Z", f"--to=2026-11-27T14:03:{end}Z"]
            self.ends(0, wanted, "", "heard", *words, text=text)
        for time, statuses in (("19.9", (2, 2)), ("20", (2, 2)), ("21.99", (2, 2)), ("22", (1, 0)), ("24", (2, 2))):
            for listener, wanted in zip("12", statuses):
                words = [f"--at=2026-11-27T14:03:{time}Z", f"--listener=RTP/{listener}"]
                with self.subTest(words):
                    self.assertEqual(run("heard", *words, text=text)[0::2], (wanted, ""))

    def test_output_that_is_lost(self):
        for word in ("--format=text", "--format=csv", "--format=json", "--at=2026-11-27T14:03:20Z", "--never=* -> *"):
            with self.subTest(word), open("/dev/full", "wb") as full:
                words = [program("mg_bridge"), "heard", word]
                text = (self.TITLE + self.CALL).encode()
                ran = subprocess.run(words, input=text, stdout=full, stderr=subprocess.PIPE, timeout=60)
                self.assertEqual(ran.returncode, 3)
                self.assertTrue(ran.stderr)

    def test_a_configuration_that_no_gateway_has(self):
        title = self.TITLE.replace("--slots=256", "--slots=0")
        self.refuses("standard input: bad configuration\n", "heard", status=6, text=title)

    def test_joined_scripts(self):
        """A script may have the title of the same gateway several times."""
        self.ends(0, "", "", "heard", text=f"{self.TITLE}tick\n{self.TITLE}")

    def test_files(self):
        with tempfile.TemporaryDirectory() as folder:
            path = f"{folder}/script.txt"
            Path(path).write_text(self.TITLE + self.CALL)
            self.ends(0, self.FIRST, "", "heard", path, "--talker", "RTP/2", text="not a script")
            self.refuses(f"{folder}/none.txt", "heard", f"{folder}/none.txt", status=6)

    def test_full_output(self):
        """If the output can't be written, the message doesn't name the script."""
        for words in ((), ("--at", "2026-11-27T14:03:20Z"), ("--never", "* -> RTP/1")):
            with self.subTest(words=words), open("/dev/full", "wb") as full:
                command = [program("mg_bridge"), "heard", *words]
                ran = subprocess.run(
                    command, input=(self.TITLE + self.CALL).encode(), stdout=full, stderr=subprocess.PIPE, timeout=60
                )
                self.assertEqual((ran.returncode, ran.stderr), (3, b"write failed\n"))


class Intervals(Commands):
    def test_what_holds_before_a_tick(self):
        for script, rows in (
            # Intervals end with their flows.
            (
                CHANGES,
                ["1,3,,1,1,2", "3,1,,1,1,2", "1,2,,1,1,4", "2,3,,1,1,4", "3,2,,1,1,4", "2,1,,1,1,5"],
            ),
            # A change that is undone before the next tick makes no difference.
            (PAIR + "tick\n" + PART + JOIN + "tick\n", ["1,2,,1,0,", "2,1,,1,0,"]),
            # Changes that happen at the same tick.
            (
                PAIR + "tick\ntick\n" + PART + "tick\n" + JOIN + "tick\n",
                ["1,2,,1,0,2", "1,2,,1,3,", "2,1,,1,0,"],
            ),
            # A change after the last tick affects the tick that comes next.
            ("tick\n" + PAIR, ["1,2,,1,1,", "2,1,,1,1,"]),
            # Another context begins another interval.
            (PAIR + "tick\n" + MOVE + "tick\n", ["1,2,,1,0,1", "2,1,,1,0,1", "1,2,,2,1,", "2,1,,2,1,"]),
            ("", []),
        ):
            self.ends(0, self.table(rows), "", "heard", "--format=csv", text=TITLE + script)

    def table(self, rows):
        """The report of these intervals, without times and Remotes. A row has listener, talker, nothing, context and
        ticks."""
        lines = [HEAD]
        for listener, talker, rest in (row.split(",", 2) for row in rows):
            lines.append(f"heard,RTP/{listener},,RTP/{talker},{rest},,,,")
        return "".join(f"{line}\n" for line in lines)

    def test_remotes_are_named(self):
        at = "192.0.2.7:40000"
        wanted = self.table([]) + (
            f"heard,RTP/1,,RTP/2,,1,0,1,,,,\nheard,RTP/2,,RTP/1,,1,0,1,,,,\n"
            f"heard,RTP/1,{at},RTP/2,,1,1,,,,,\nheard,RTP/2,,RTP/1,{at},1,1,,,,,\n"
        )
        text = TITLE + PAIR + "tick\n" + REMOTE + "tick\n"
        self.ends(0, wanted, "", "heard", "--format=csv", text=text)

    def test_times_come_from_dates(self):
        text = TITLE + date(20) + PAIR + "tick\ntick\n# time 2026-11-27T14:03:20.041Z\n" + PART
        text += "tick\n# missed 3 ticks\ntick\ntick\ntick\n" + date(80) + "tick\n"
        hour = "2026-11-27T14:"
        wanted = (
            f"heard,RTP/1,,RTP/2,,1,0,2,{hour}03:20Z,{hour}03:20.04Z,,\n"
            f"gap,,,,,,3,6,{hour}03:20.06Z,{hour}03:20.12Z,,\n"
            f"gap,,,,,,6,6,{hour}03:20.12Z,{hour}04:20Z,,\n"
            f"heard,RTP/2,,RTP/1,,1,0,,{hour}03:20Z,,,\n"
        )
        self.ends(0, self.table([]) + wanted, "", "heard", "--format=csv", text=text)
        # The script covers the time until the end of its last tick.
        for time, status, answer in (("20.019", 1, "could not hear\n"), ("20.02", 2, "not known\n")):
            words = ["--listener=RTP/1", "--talker=RTP/2", f"--at={hour}04:{time}Z"]
            self.ends(status, answer, "", "heard", *words, text=text)

    def test_counted_ticks(self):
        """A line with a number counts as that many `tick` lines."""
        mark = "# counted ticks\n"
        text = (
            TITLE + mark + date(20) + PAIR + "ticks 2\n" + PART + "ticks 1\n# missed 2 ticks\nticks 2\ntick\n"
            + JOIN + "ticks 3000\n" + date(80) + PART + "ticks 12"
        )
        plain = re.sub("ticks ([0-9]+)(\n|$)", lambda match: "tick\n" * int(match[1]), text.replace(" 2 ticks", " 2 TICKS"))
        plain = plain.replace("TICKS", "ticks")
        for words in (["--format=csv"], ["--format=json"], ["--never=RTP/2 -> RTP/1"], ["--listener=RTP/1"]):
            wanted = run("heard", *words, text=plain)
            self.assertEqual((wanted[2], run("heard", *words, text=text)), ("", wanted))
        # A year of ticks takes a single step, and so do almost 2^64 ticks.
        year = f"ticks {365 * 86400 * 50}\n"
        for count, lines in ((365 * 86400 * 50, year), (2**64 - 2, f"ticks {2**64 - 2}\n")):
            answer = f"RTP/1 could hear RTP/2 in context 1 from tick 1 until tick {count + 1}\n"
            text = TITLE + mark + "tick\n" + PAIR + lines + PART
            self.ends(0, answer, "", "heard", "--listener=RTP/1", text=text)

    def test_comments_that_are_no_gaps(self):
        for count in ("0", "", "+3", "-3", "3.5", "18446744073709551616", "000000000000000000003"):
            with self.subTest(count=count):
                text = TITLE + date(20) + f"tick\n# missed {count} ticks\ntick\n# missed 3 ticks.\n# missed ticks\n"
                self.ends(0, "", "", "heard", text=text)
        gap = "gap from tick 1 until tick 4\n"
        self.ends(0, gap, "", "heard", text=TITLE + "tick\n# missed 003 ticks\ntick\n")

    def test_a_fence_that_was_set(self):
        hour = "2026-11-27T14:03"
        text = TITLE + date(20) + "tick\ntick\n# missed 2 ticks\ntick\ntick\n# fence 17\ntick\n# fence 4294967295\ntick\n"
        gap = f"gap from {hour}:20.04Z (tick 2) until {hour}:20.08Z (tick 4)\n"
        first = f"fence 17 from {hour}:20.08Z (tick 4) until {hour}:20.08Z (tick 4)\n"
        second = f"fence 4294967295 from {hour}:20.1Z (tick 5) until {hour}:20.1Z (tick 5)\n"
        for words, wanted in (
            ([], gap + first + second),
            ([f"--from={hour}:20.09Z"], second),
            ([f"--to={hour}:20.1Z"], gap + first),
        ):
            self.ends(0, wanted, "", "heard", *words, text=text)
        # The choice of a listener doesn't affect gaps and fences.
        said = "standard input: RTP/1 was never there\n"
        self.ends(2, second, said, "heard", "--listener=RTP/1", f"--from={hour}:20.09Z", text=text)
        table = (
            f"{HEAD}\ngap,,,,,,2,4,{hour}:20.04Z,{hour}:20.08Z,,\n"
            f"fence 17,,,,,,4,4,{hour}:20.08Z,{hour}:20.08Z,,\n"
            f"fence 4294967295,,,,,,5,5,{hour}:20.1Z,{hour}:20.1Z,,\n"
        )
        self.ends(0, table, "", "heard", "--format=csv", text=text)
        line = f'{{"kind":"fence 4294967295","first_tick":5,"end_tick":5,"from":"{hour}:20.1Z","until":"{hour}:20.1Z"}}\n'
        self.ends(0, line, "", "heard", "--format=json", f"--from={hour}:20.09Z", text=text)
        # The interval of a fence is empty.
        self.ends(1, "could not hear\n", "", "heard", f"--at={hour}:20.08Z", text=text)
        self.ends(0, "", "", "heard", "--never=* -> *", text=text)

    def test_comments_that_set_no_fence(self):
        for number in ("", "x", "-1", "4294967296", "1.5", "17 ", " 17", "00000000017"):
            with self.subTest(number=number):
                self.ends(0, "", "", "heard", text=TITLE + f"tick\n# fence {number}\n#fence 17\n# fences 17\ntick\n")
        self.ends(0, "fence 17 from tick 1 until tick 1\n", "", "heard", text=TITLE + "tick\n# fence 17\ntick\n")


class Formats(Commands):
    def test_reports(self):
        hour = "2026-11-27T14:03"
        interval = f"RTP/1 could hear RTP/2 in context 1 from {hour}:20Z (tick 0) until {hour}:20.04Z (tick 2)\n"
        gap = f"gap from {hour}:20.06Z (tick 3) until {hour}:20.1Z (tick 5)\n"
        both = interval + gap + f"RTP/2 could hear RTP/1 in context 1 from {hour}:20Z (tick 0) until the end\n"
        table = (
            f"{HEAD}\n"
            "heard,RTP/1,,RTP/2,,1,0,2,2026-11-27T14:03:20Z,2026-11-27T14:03:20.04Z,,\n"
            "gap,,,,,,3,5,2026-11-27T14:03:20.06Z,2026-11-27T14:03:20.1Z,,\n"
            "heard,RTP/2,,RTP/1,,1,0,,2026-11-27T14:03:20Z,,,\n"
        )
        second = (
            '{"kind":"gap","first_tick":3,"end_tick":5,"from":"2026-11-27T14:03:20.06Z","until":"2026-11-27T14:03:20.1Z"}\n'
            '{"kind":"heard","listener":"RTP/2","listener_at":null,"talker":"RTP/1","talker_at":null,"context":1,'
            '"first_tick":0,"end_tick":null,"from":"2026-11-27T14:03:20Z","until":null,"listener_name":null,"talker_name":null}\n'
        )
        for words, wanted in (
            (["--format=text"], both),
            (["--format=csv"], table),
            (["--format=json", "--listener=RTP/2"], second),
            (["--listener=RTP/1", "--from=2026-11-27T14:03:20.1Z"], ""),
            (["--listener=RTP/1", "--from=2026-11-27T14:03:20.099Z"], gap),
            (["--listener=RTP/1", "--to=2026-11-27T14:03:20.06Z"], interval),
        ):
            self.ends(0, wanted, "", "heard", *words, text=TITLE + DATED)

    def test_answers(self):
        yes = "RTP/1 could hear RTP/2 in context 1 from 2026-11-27T14:03:20Z (tick 0) until 2026-11-27T14:03:20.04Z (tick 2)\n"
        for form, time, status, wanted in (
            ("text", "20Z", 0, yes),
            ("text", "20.04Z", 1, "could not hear\n"),
            ("text", "20.06Z", 2, "not known\n"),
            ("csv", "20.02Z", 0, "heard,RTP/1,,RTP/2,,1,0,2,2026-11-27T14:03:20Z,2026-11-27T14:03:20.04Z,,\n"),
            ("csv", "20.04Z", 1, "not heard,,,,,,,,,,,\n"),
            ("csv", "20.06Z", 2, "not known,,,,,,,,,,,\n"),
            ("json", "20.04Z", 1, '{"kind":"not heard"}\n'),
            ("json", "20.06Z", 2, '{"kind":"not known"}\n'),
        ):
            words = [f"--format={form}", "--listener=RTP/1", f"--at=2026-11-27T14:03:{time}"]
            self.ends(status, wanted, "", "heard", *words, text=TITLE + DATED)


class Zones(Commands):
    """The first caller stops hearing the second when summer time ends in Berlin, after one tick."""

    CALL = TITLE + "# time 2026-10-25T00:59:59.98Z\n" + PAIR + "tick\n" + PART + "tick\n"
    # The same text at the beginning of summer time.
    SPRING = CALL.replace("10-25", "03-29")

    def heard(self, words, text, first, end):
        """The first interval begins and ends at these times."""
        row = f"heard,RTP/1,,RTP/2,,1,0,1,{first},{end},,\n"
        status, output, errors = run("heard", "--format=csv", *words, text=text)
        self.assertEqual((status, output.splitlines(keepends=True)[1], errors), (0, row, ""))

    def test_offsets(self):
        for zone, first, end in (
            ("UTC", "2026-10-25T00:59:59.98Z", "2026-10-25T01:00:00Z"),
            ("+00:00", "2026-10-25T00:59:59.98+00:00", "2026-10-25T01:00:00+00:00"),
            ("+01:00", "2026-10-25T01:59:59.98+01:00", "2026-10-25T02:00:00+01:00"),
            ("-03:30", "2026-10-24T21:29:59.98-03:30", "2026-10-24T21:30:00-03:30"),
            ("+23:59", "2026-10-26T00:58:59.98+23:59", "2026-10-26T00:59:00+23:59"),
        ):
            self.heard([f"--zone={zone}"], self.CALL, first, end)

    @unittest.skipUnless(Path("/usr/share/zoneinfo/Europe/Berlin").exists(), "no time zones")
    def test_summer_and_winter(self):
        words = ["--zone=Europe/Berlin"]
        self.heard(words, self.CALL, "2026-10-25T02:59:59.98+02:00", "2026-10-25T02:00:00+01:00")
        self.heard(words, self.SPRING, "2026-03-29T01:59:59.98+01:00", "2026-03-29T03:00:00+02:00")
        begins = "RTP/1 could hear RTP/2 in context 1 from 2026-10-25T02:59:59.98+02:00 (tick 0)"
        ends = " until 2026-10-25T02:00:00+01:00 (tick 1)\n"
        self.ends(0, begins + ends, "", "heard", *words, "--at=2026-10-25T02:59:59.98+02:00", text=self.CALL)
        self.ends(1, begins + "\n", "", "heard", *words, "--never=RTP/2 -> RTP/1", text=self.CALL)

    def test_bad_zones(self):
        paths = "../zoneinfo/UTC", "/usr/share/zoneinfo/UTC", "Europe", "zone.tab"
        for zone in ("Europe/Atlantis", *paths, "+1", "+24:00", "+01:60"):
            for word in ("--format=text", "--at=2026-10-25T01:00:00Z", "--never=RTP/2 -> RTP/1"):
                self.ends(6, "", f"{zone}: no such time zone\n", "heard", f"--zone={zone}", word, text=self.CALL)
        for zone in ("", "x" * 65):
            self.refuses("error: ", "heard", f"--zone={zone}")


class Names(Commands):
    """The two callers of `Heard.CALL`, with a file of names."""

    TEXT = TITLE + Heard.CALL
    # The lines about the first caller and the second one.
    FIRST, SECOND = Heard.FIRST, Heard.SECOND

    def setUp(self):
        folder = tempfile.TemporaryDirectory()
        self.addCleanup(folder.cleanup)
        self.path = f"{folder.name}/names.csv"
        self.words = ["heard", f"--names={self.path}"]

    def named(self, lines):
        """Writes the file of names."""
        Path(self.path).write_bytes(lines if isinstance(lines, bytes) else lines.encode())

    def called(self, line, first, second):
        """The line of text with these names of the callers."""
        for number, name, at in ((1, first, " (192.0.2.7:40000)"), (2, second, "")):
            if name:
                inner = at.replace(" (", ", ").rstrip(")")
                line = line.replace(f"RTP/{number}{at}", f"{name} (RTP/{number}{inner})")
        return line

    def test_text(self):
        for lines, first, second in (
            ("", "", ""),
            ("RTP/2,Coach\n", "", "Coach"),
            ("192.0.2.7,Customer\n", "Customer", ""),
            ("192.0.2.7:40000,Customer\nRTP/2,Coach", "Customer", "Coach"),
            # The first line that applies.
            ("192.0.2.7:40001,a\n192.0.2.8,b\nRTP/1,c\n192.0.2.7,d\n", "c", ""),
            ("192.0.2.7,d\nRTP/1,c\n", "d", ""),
            # Quotes, other ends of lines, a byte order mark, and long names.
            ('"RTP/1","Front, left"\r\nRTP/2,Zoë\r\n', "Front, left", "Zoë"),
            ("\ufeffRTP/1,a -> b\n", "a -> b", ""),
            (f"RTP/1,{'ö' * 32}\n", "ö" * 32, ""),
        ):
            self.named(lines)
            both = self.called(self.FIRST, first, second) + self.called(self.SECOND, first, second)
            self.ends(0, both, "", *self.words, text=self.TEXT)

    def test_columns_and_members(self):
        self.named("RTP/1,Customer\nRTP/2,Zoë O'Neill\n")
        status, output, errors = run(*self.words, "--format=csv", text=self.TEXT)
        rows = [row.split(",")[-2:] for row in output.splitlines()]
        names = ['"Customer"', '"Zoë O\'Neill"']
        self.assertEqual((status, rows, errors), (0, [["listener_name", "talker_name"], names, names[::-1]], ""))
        status, output, errors = run(*self.words, "--format=json", text=self.TEXT)
        found = [json.loads(line) for line in output.splitlines()]
        names = [(it["listener_name"], it["talker_name"]) for it in found]
        self.assertEqual((status, errors), (0, ""))
        self.assertEqual(names, [("Customer", "Zoë O'Neill"), ("Zoë O'Neill", "Customer")])
        self.named("RTP/2,Coach\n")
        row = "heard,RTP/1,192.0.2.7:40000,RTP/2,,1,0,,2026-11-27T14:03:20Z,,,\"Coach\"\n"
        self.ends(1, row, "", *self.words, "--never=* -> RTP/1", "--format=csv", text=self.TEXT)

    def test_questions(self):
        self.named("192.0.2.7,Customer\nRTP/2,Coach\nRTP/9,Customer\n192.0.2.9,Coach\nRTP/1,Other\n")
        first, second = (self.called(it, "Customer", "Coach") for it in (self.FIRST, self.SECOND))
        for words, wanted in (
            (["--listener=Customer"], first),
            (["--talker=Customer"], second),
            (["--listener=Coach", "--talker=Customer"], second),
            (["--listener=Coach", "--talker=RTP/2"], ""),
            # A line that doesn't name a termination may still apply to it.
            (["--listener=Other"], first),
            (["--listener=192.0.2.7"], first),
        ):
            self.ends(0, wanted, "", *self.words, *words, text=self.TEXT)
        self.ends(0, first, "", *self.words, "--at=2026-11-27T14:03:20Z", "--listener=Customer", text=self.TEXT)
        # A name with three keys, of which the second one applies.
        self.named("RTP/9,Staff\nRTP/2,Staff\nRTP/8,Staff\n")
        self.ends(0, self.called(self.FIRST, "", "Staff"), "", *self.words, "--talker=Staff", text=self.TEXT)

    def test_rules(self):
        self.named("RTP/9,Front desk\nRTP/2,Front desk\n192.0.2.7,Customer > 1\n")
        first, second = (
            self.called(it, "Customer > 1", "Front desk").partition(" until ")[0] + "\n" for it in (self.FIRST, self.SECOND)
        )
        for rules, status, wanted in (
            (["Front desk -> Customer > 1"], 1, first),
            (["Front desk -> *"], 1, first),
            (["RTP/1 -> Front desk"], 1, second),
            (["Front desk -> Front desk", "Front desk -> RTP/2"], 0, ""),
        ):
            self.ends(status, wanted, "", *self.words, *(f"--never={it}" for it in rules), text=self.TEXT)
        # The first `>` belongs to the arrow.
        self.refuses("error: ", *self.words, "--never=Customer > 1 -> *")

    def test_unknown_names(self):
        self.named("RTP/1,Customer\n")
        for word in ("--listener=Coach", "--talker=Coach", "--never=* -> Coach", "--never=Coach -> *"):
            message = f"{self.path}: no line has the name 'Coach'\n"
            self.ends(6, "", message, *self.words, word, text=self.TEXT)
        # Without a file, there are no names.
        self.refuses("error: ", "heard", "--listener=Customer")
        self.refuses("error: ", "heard", "--never=* -> Customer")

    def test_bad_lines(self):
        good = "RTP/1,Customer\n"
        for lines, number in (
            ("RTP/1\n", 1),
            ("RTP/1,a,b\n", 1),
            ("RTP/1,\n", 1),
            ("RTP/x,a\n", 1),
            ("192.0.2,a\n", 1),
            ("\n" + good, 1),
            (good + "\n" + good, 2),
            (good + 'RTP/1,"a\nb"\n', 2),
            (good + 'RTP/1,"a""b"\n', 2),
            (good + "RTP/1,a\\b\n", 2),
            (good + "RTP/1,a\tb\n", 2),
            (good * 3 + "RTP/1,a\x7f", 4),
            (good + f"RTP/1,{'a' * 65}\n", 2),
            (b"RTP/1,\xe9\n", 1),
        ):
            self.named(lines)
            self.refuses(f"{self.path}: line {number}: ", *self.words, status=6)
        self.named(good * 1024)
        self.ends(0, self.called(self.FIRST, "Customer", ""), "", *self.words, "--talker=RTP/2", text=self.TEXT)
        self.named(good * 1025)
        self.refuses(f"{self.path}: more than 1024 lines", *self.words, status=6)
        self.refuses("none.csv: cannot be opened: ", "heard", "--names=none.csv", status=6)
        self.refuses("error: ", "heard", "--names=")


class Answers(Commands):
    def test_at_a_time(self):
        yes, no, unknown = (0, "RTP/1 could hear RTP/2 "), (1, "could not hear\n"), (2, "not known\n")
        for script, time, (status, wanted) in (
            (DATED, "14:03:19.999Z", unknown),
            (DATED, "14:03:20Z", yes),
            (DATED, "14:03:20.039Z", yes),
            # The tick of the change itself, also with another offset.
            (DATED, "14:03:20.04Z", no),
            (DATED, "15:03:20.04+01:00", no),
            (DATED, "14:03:20.059Z", no),
            # The gap, and then the last tick.
            (DATED, "14:03:20.06Z", unknown),
            (DATED, "14:03:20.099Z", unknown),
            (DATED, "14:03:20.1Z", no),
            (DATED, "14:03:20.119Z", no),
            (DATED, "14:03:20.12Z", unknown),
            (DATED, "14:03:20.5Z", unknown),
            (LASTING, "14:03:19.999Z", unknown),
            (LASTING, "14:03:20Z", yes),
            (LASTING, "14:03:20.02Z", no),
            (OVER, "14:03:20Z", no),
            (NEVER, "14:03:20Z", unknown),
        ):
            with self.subTest(script=script, time=time):
                words = ["--listener=RTP/1", "--talker=RTP/2", f"--at=2026-11-27T{time}"]
                found, output, errors = run("heard", *words, text=TITLE + script)
                self.assertEqual((found, output[: len(wanted)], errors), (status, wanted, ""))
                self.assertEqual(output.count("\n"), 1)
