"""Pages about who could hear whom."""
import csv
import hashlib
import io
import re
import shlex
import subprocess
import tempfile
from html.parser import HTMLParser
from pathlib import Path

from programs import ROOT, Commands, program, run
from test_heard import CHANGES, DATED, LASTING, PAIR, PART, TITLE, date

VOID = {"meta", "br"}
# Elements and attributes that would run or fetch something.
ACTIVE = {"a", "audio", "base", "embed", "form", "frame", "iframe", "img", "input", "link", "object", "script", "video"}
FETCHES = {"action", "background", "data", "formaction", "href", "poster", "src", "srcset", "xlink:href"}


class Page(HTMLParser):
    """A page: its elements, its text by element, and its rows."""

    def __init__(self, text):
        super().__init__()
        self.text, self.open, self.rows, self.said, self.wrong = text, [], [], {}, []
        self.feed(text)
        self.close()
        self.wrong += [f"{tag} is open" for tag in self.open]
        self.facts = {}
        for term, fact in zip(self.said["dt"], self.said["dd"]):
            self.facts.setdefault(term, []).append(fact)

    def handle_starttag(self, tag, attrs):
        attrs = dict(attrs)
        if tag in ACTIVE or any(name in FETCHES or name.startswith("on") for name in attrs):
            self.wrong.append(f"{tag} {attrs}")
        if tag in VOID:
            return
        self.open.append(tag)
        self.said.setdefault(tag, []).append("")
        if tag == "tr":
            self.rows.append((attrs, []))
        if tag in ("td", "th"):
            self.rows[-1][1].append("")
            if tag == "th" and "scope" not in attrs:
                self.wrong.append("th without a scope")

    def handle_endtag(self, tag):
        if not self.open or self.open.pop() != tag:
            self.wrong.append(f"/{tag}")

    def handle_data(self, data):
        for tag in set(self.open):
            self.said[tag][-1] += data
        if {"td", "th"} & set(self.open):
            self.rows[-1][1][-1] += data


def moment(time, tick):
    """How a moment is printed."""
    return f"{time} (tick {tick})" if time else f"tick {tick}"


def party(name, at, called):
    """How a termination is printed."""
    if called:
        return f"{called} ({name}, {at})" if at else f"{called} ({name})"
    return f"{name} ({at})" if at else name


def rows_of(table):
    """The rows of a page with these comma-separated values."""
    for row in csv.DictReader(io.StringIO(table)):
        first, end = row["first_tick"], row["end_tick"]
        attrs = {"style": f"--a:{first};--b:{end or 'var(--t1)'}"}
        times = [moment(row["from"], first), moment(row["until"], end) if end else "the end", ""]
        if row["kind"] == "gap" or row["kind"].startswith("fence "):
            yield {"class": "gap", **attrs}, [row["kind"], *times]
        else:
            parties = (party(row[it], row[f"{it}_at"], row[f"{it}_name"]) for it in ("listener", "talker"))
            yield attrs, [*parties, row["context"], *times]


class Reports(Commands):
    def page(self, *words, text="", status=0, errors=""):
        """The page that the program prints. It is well formed, and fetches nothing."""
        found, output, said = run("heard", "--report", *words, text=text)
        self.assertEqual((found, said), (status, errors))
        page = Page(output)
        self.assertEqual(page.wrong, [])
        self.assertRegex(output, r"^<!DOCTYPE html>\n<html lang=\"en\">\n")
        self.assertNotRegex(output, r"https?:|url\(|@import|javascript:")
        return page

    def test_rows(self):
        examples = (ROOT / "examples/coached_call.txt").read_text()
        for text in (TITLE + CHANGES, TITLE + DATED, TITLE + LASTING, TITLE + "# fence 17\n", TITLE, examples):
            for words in ([], ["--listener=RTP/1"], ["--talker=RTP/9"], ["--from=2026-11-27T14:03:20.04Z"]):
                with self.subTest(text=text[-200:], words=words):
                    status, table, said = run("heard", "--format=csv", *words, text=text)
                    self.assertIn((status, said == ""), ((0, True), (2, False)))
                    page = self.page(*words, text=text, status=status, errors=said)
                    self.assertEqual(page.rows[1:], list(rows_of(table)))
                    self.assertEqual(page.said["table"][0].split("\n")[1], "ListenerTalkerContextFromUntilTimeline")

    def test_scale(self):
        for text, words, scale in (
            (DATED, [], (0, 6)),
            (DATED, ["--listener=RTP/1"], (0, 2)),
            # A flow that opens in the last tick, and a script without flows.
            ("tick\ntick\n" + PAIR, [], (2, 3)),
            ("tick\ntick\ntick\n", [], (0, 3)),
            ("", [], (0, 1)),
        ):
            page = self.page(*words, text=TITLE + text)
            self.assertIn(":root{{--t0:{};--t1:{}}}".format(*scale), page.said["style"])
            self.assertIn("The timeline runs from tick {} to tick {}.".format(*scale), page.text)

    def test_origin(self):
        text = TITLE + DATED
        said = "standard input: 192.0.2.7:40000 was never there\n"
        page = self.page("--talker=192.0.2.7:40000", "--from=2026-11-27T14:03:20Z", text=text, status=2, errors=said)
        digest = hashlib.sha256(Path(program("mg_bridge")).read_bytes()).hexdigest()
        version, toolchain = run("--version")[1].splitlines()
        self.assertEqual(
            page.facts,
            {
                "File": ["standard input"] * 2,
                "Listener": ["anyone"],
                "Talker": ["192.0.2.7:40000"],
                "From": ["2026-11-27T14:03:20Z"],
                "To": ["the end"],
                "Bytes read": [str(len(text))],
                "Their SHA-256": [hashlib.sha256(text.encode()).hexdigest()],
                "Time covered": ["2026-11-27T14:03:20Z (tick 0) until 2026-11-27T14:03:20.12Z (tick 6)"],
                "Program": [f"{version} ({toolchain})"],
                "Its SHA-256": [digest],
            },
        )
        self.assertEqual(
            page.said["pre"],
            ["mg_bridge heard --report --talker=192.0.2.7:40000 --from=2026-11-27T14:03:20Z < FILE"],
        )

    def test_hash_of_sealed_file(self):
        """The hash covers all bytes, even if the file has seals."""
        path = ROOT / "examples/coached_call.txt"
        self.assertIn("\n# sha256 ", path.read_text())
        for words, text in (([str(path)], ""), ([], path.read_text())):
            facts = self.page(*words, text=text).facts
            self.assertEqual(facts["Their SHA-256"], [hashlib.sha256(path.read_bytes()).hexdigest()])
            self.assertEqual(facts["Bytes read"], [str(path.stat().st_size)])

    def test_names(self):
        """Rows, the question and the command have the names of terminations."""
        with tempfile.TemporaryDirectory() as folder:
            path = f"{folder}/it's.csv"
            Path(path).write_text("RTP/1,O'Neil > Größe\nRTP/2,<b>R&D</b> &amp;\n")
            script = f"{folder}/script.txt"
            Path(script).write_text(TITLE + DATED)
            words = ["--listener=O'Neil > Größe", "--zone=+01:00", f"--names={path}", script]
            page = self.page(*words)
            table = run("heard", "--format=csv", *words)[1]
            self.assertEqual(page.rows[1:], list(rows_of(table)))
            self.assertEqual(page.rows[1][1][:2], ["O'Neil > Größe (RTP/1)", "<b>R&D</b> &amp; (RTP/2)"])
            self.assertEqual(page.facts["Listener"], ["O'Neil > Größe"])
            self.assertEqual(shlex.split(page.said["pre"][0])[2:], ["--report", *words[:3], "--", script])

    def test_file_names(self):
        """The name of the file is text, and the command makes the same page again."""
        for name, shown in (
            ("script.txt", "script.txt"),
            ("<title><script>alert(1)<script> & \"it's\" &amp; $(id).txt", None),
            ("a'b''c", None),
            ("größe.txt", None),
            ("two\nlines\x7f", "two\ufffdlines\ufffd"),
        ):
            with self.subTest(name=name), tempfile.TemporaryDirectory() as folder:
                path, wanted = f"{folder}/{name}", f"{folder}/{shown or name}"
                Path(path).write_text(TITLE + DATED)
                words = ["--listener=RTP/1", "--to=2026-11-27T14:04:00Z", path]
                page = self.page(*words)
                self.assertEqual(run("heard", "--report", *words), (0, page.text, ""))
                self.assertEqual(page.facts["File"], [wanted] * 2)
                self.assertEqual(page.said["title"], [f"Who could hear whom: {wanted}"])
                command = page.said["pre"][0]
                if wanted == path:
                    self.assertEqual(shlex.split(command)[-1], path)
                    command = command.replace("mg_bridge", shlex.quote(str(program("mg_bridge"))), 1)
                    again = subprocess.run(["bash", "-c", command], capture_output=True, timeout=60)
                    self.assertEqual((again.stdout.decode(), again.returncode), (page.text, 0))

    def test_faults(self):
        """A page about a script that can't be read to its end says so."""
        for text, message in (
            (PAIR + "tick\n" + PART + "tick\n# a comment\ntock\n", "line 7: bad script line"),
            (date(20) + PAIR + "tick\n" + PART + "tick\n" + TITLE.replace("=256", "=4"), "line 7: the title of another gateway"),
        ):
            page = self.page(text=TITLE + text, status=6, errors=f"standard input: {message}\n")
            alert = next(it for it in page.said["p"] if it.startswith("This report is incomplete."))
            self.assertIn(f" to its end: {message}.", alert)
            self.assertNotIn("read to its end.", page.text)
            self.assertIn("(incomplete)", page.said["style"][1])
            # The period that ended before the fault.
            self.assertEqual([cells[:2] for _, cells in page.rows[1:]], [["RTP/1", "RTP/2"]])
            self.assertEqual(page.facts["Time covered"], ["not known"])
        # If the input isn't a script, there is no page.
        self.refuses("standard input: line 1 isn't the title", "heard", "--report", status=6)
        self.refuses("none.txt: cannot be opened", "heard", "--report", "none.txt", status=6)

    def test_style(self):
        """Pages suit small screens, dark screens and paper."""
        style = self.page(text=TITLE).said["style"][0]
        for wanted in ("@media print", "prefers-color-scheme:dark", "max-width:50em"):
            self.assertIn(wanted, style)
        self.assertEqual(style.count("{"), style.count("}"))
        self.assertEqual(re.findall(r"[^\x00-\x7f]", style), [])
