"""The programs of the units: run, started, keeper, firewall, check-config, and those for journals. A fake systemctl, nft or mg_bridge replaces the real one."""
import fcntl
import os
import re
import socket
import subprocess
import tempfile
import time
import unittest
from pathlib import Path

DEPLOY = Path(__file__).resolve().parents[1]
DIST = DEPLOY.parent / "dist"


class Scripts(unittest.TestCase):
    def setUp(self):
        folder = tempfile.TemporaryDirectory()
        self.addCleanup(folder.cleanup)
        self.folder = Path(folder.name)
        self.path = self.folder / "bin"
        self.path.mkdir()

    def fake(self, name, script):
        """A program that the scripts find before the real one."""
        file = self.path / name
        file.write_text(f"#!/bin/sh\n{script}\n")
        file.chmod(0o755)

    def begin(self, name, *words, **environment):
        path = f"{self.path}:{DIST}:{os.environ['PATH']}"
        process = subprocess.Popen([DEPLOY / name, *map(str, words)], env={"PATH": path, **environment}, text=True,
                                   stdin=subprocess.DEVNULL, stdout=subprocess.PIPE, stderr=subprocess.STDOUT)
        self.addCleanup(process.stdout.close)
        self.addCleanup(process.wait)
        self.addCleanup(process.kill)
        return process

    def soon(self, holds, seconds=20):
        """Waits until something holds."""
        end = time.monotonic() + seconds
        while not holds():
            self.assertLess(time.monotonic(), end)
            time.sleep(0.05)

    def said(self, name, *words, **environment):
        """Returns the output of a script, and its status."""
        process = self.begin(name, *words, **environment)
        return process.communicate(timeout=30)[0], process.returncode


class Run(Scripts):
    def options(self, text, **variables):
        file = self.folder / "1.env"
        file.write_text(text)
        variables = variables or dict(re.findall(r"^(\w+)=(.*)$", text, re.M))
        said, status = self.said("run", file, "echo", "live", variables.get("OPTIONS", ""), **variables)
        return said.replace(str(self.folder) + "/", ""), status

    def test_options_are_used(self):
        said, status = self.options("# Mine.\n\nOPTIONS=--address 192.0.2.1 --controller 10.0.0.1\nDRAIN=60\n")
        line = "live --address 192.0.2.1 --controller 10.0.0.1\n"
        self.assertEqual((said, status), ("echo " + line + line, 0))

    def test_what_is_wrong_is_named(self):
        for text, wanted in (
            ("OPTION=--address 192.0.2.1\n", "1.env: line 1 sets neither OPTIONS nor DRAIN: OPTION=--address 192.0.2.1"),
            ("# Mine.\nOPTIONS --slots 3\n", "1.env: line 2 sets neither OPTIONS nor DRAIN: OPTIONS --slots 3"),
            ("OPTIONS=--slots 3\nOPTIONS=--sync\n", "1.env: line 2 sets OPTIONS again: only the last one would count"),
            ("DRAIN=5\n", "1.env sets no OPTIONS: the gateway would use 127.0.0.1, and obey anyone"),
            ("OPTIONS= \n", "1.env sets no OPTIONS: the gateway would use 127.0.0.1, and obey anyone"),
            ("OPTIONS=--sync\nDRAIN=1m\n", "1.env: DRAIN must be 0-65535, not 1m"),
            ("OPTIONS=--sync\nDRAIN=65536\n", "1.env: DRAIN must be 0-65535, not 65536"),
        ):
            with self.subTest(text):
                self.assertEqual(self.options(text), (wanted + "\n", 2))

    def test_a_value_may_continue(self):
        said, status = self.options("OPTIONS=--address 192.0.2.1 \\\n  --controller 10.0.0.1\n",
                                    OPTIONS="--address 192.0.2.1 --controller 10.0.0.1")
        self.assertEqual(status, 0, said)

    def test_a_missing_file_is_named(self):
        said, status = self.said("run", self.folder / "3.env", "echo", OPTIONS="--sync")
        self.assertEqual(status, 2)
        self.assertIn("there is no file", said)

    def test_a_warning_if_anyone_may_command_it(self):
        said, status = self.options("OPTIONS=--address 192.0.2.1\n")
        self.assertIn("warning: without --controller, anyone who reaches the control port can command this gateway", said)
        self.assertEqual(status, 0)

    def test_a_warning_without_an_address(self):
        said, _ = self.options("OPTIONS=--controller=10.0.0.1\n")
        self.assertIn("warning: without --address", said)
        self.assertNotIn("warning: without --controller", said)


class Gateway(unittest.TestCase):
    """./gateway with a wrong option, which ends it early."""

    def said(self, *words):
        done = subprocess.run([DEPLOY.parent / "gateway", *words, "--slots=0"], capture_output=True, text=True)
        return done.stderr

    @unittest.skipUnless(os.uname().machine == "x86_64", "dist/ has programs for x86_64")
    def test_a_warning_if_anyone_may_command_it(self):
        self.assertIn("warning: without --controller", self.said("--address=192.0.2.1"))
        self.assertNotIn("warning", self.said("--address=192.0.2.1", "--controller", "10.0.0.1"))
        self.assertNotIn("warning", self.said())
        self.assertNotIn("warning", self.said("--address=127.0.0.1"))


class Started(Scripts):
    def gateway(self, *options):
        """A gateway on a free port, with the options for `started`."""
        with socket.socket(socket.AF_INET, socket.SOCK_DGRAM) as free:
            free.bind(("127.0.0.1", 0))
            self.port = free.getsockname()[1]
        base = 2 * (self.port // 2) + 2 if self.port < 65000 else 20000
        words = ["--control-port", str(self.port), f"--base-port={base}", "--slots=1", *options]
        process = subprocess.Popen([DIST / "mg_bridge", "live", *words], stdin=subprocess.DEVNULL, text=True,
                                   stdout=subprocess.DEVNULL, stderr=subprocess.DEVNULL)
        self.addCleanup(process.wait)
        self.addCleanup(process.kill)
        return process, words

    def test_a_gateway_that_answers(self):
        for options in (), ("--controller=127.0.0.1", "--symmetric-rtp"), ("--controller", "10.0.0.1"):
            with self.subTest(options):
                process, words = self.gateway(*options)
                self.assertEqual(self.said("started", *words, MAINPID=str(process.pid)), ("", 0))
                self.assertIsNone(process.poll())

    def test_a_gateway_with_several_addresses(self):
        """The script asks at the first address. Here, the gateway has only that one."""
        process, words = self.gateway()
        words += ["--bind-address=127.0.0.1", "--bind-address", "127.0.0.9"]
        self.assertEqual(self.said("started", *words, MAINPID=str(process.pid)), ("", 0))

    def test_a_gateway_that_ends(self):
        _, words = self.gateway()
        ended = subprocess.Popen(["true"])
        ended.wait()
        said = self.said("started", *words, MAINPID=str(ended.pid))
        self.assertEqual(said, ("the gateway ended: its last line says why\n", 1))

    def test_it_waits_for_the_port(self):
        """The script waits for a process that has no port yet."""
        other = subprocess.Popen(["sleep", "1"])
        self.addCleanup(other.wait)
        start = time.monotonic()
        waiting = self.begin("started", "--control-port=1", "--controller=10.0.0.1", MAINPID=str(other.pid))
        time.sleep(0.5)
        self.assertIsNone(waiting.poll())
        other.wait()
        self.assertEqual(waiting.wait(5), 1)
        self.assertLess(time.monotonic() - start, 5)

    def test_a_gateway_without_an_answer_goes_on(self):
        process, words = self.gateway()
        self.fake("mg_bridge", "echo \"$2 doesn't answer\" >&2; sleep 1; exit 2")
        said, status = self.said("started", *words, MAINPID=str(process.pid))
        self.assertIn(f"warning: the gateway runs, but 127.0.0.1:{self.port} doesn't answer", said)
        self.assertEqual((status, process.poll()), (0, None))


class Listens(Scripts):
    def process(self, script):
        process = subprocess.Popen(["python3", "-c", script], stdin=subprocess.DEVNULL, stderr=subprocess.DEVNULL)
        self.addCleanup(process.wait)
        self.addCleanup(process.kill)
        return process

    def test_a_controller_that_ends(self):
        """Other programs of this user may listen, so the controller ends later, as if its last port were taken."""
        with socket.create_server(("127.0.0.1", 0)):
            process = self.process("import time; time.sleep(1)")
            waiting = self.begin("listens", MAINPID=str(process.pid))
            process.wait()
            self.assertEqual((waiting.wait(10), waiting.stdout.read()), (1, "the controller ended: its last lines say why\n"))

    def test_a_controller_that_listens(self):
        process = self.process("import socket, time; s = socket.create_server(('127.0.0.1', 0)); time.sleep(60)")
        self.assertEqual(self.said("listens", MAINPID=str(process.pid)), ("", 0))


# A fake systemctl: prints the unit's state, and records other commands in ORDERS.
SYSTEMCTL = """
case $1 in
    show) cat "$STATE" ;;
    *) ! [ "$1" = start ] || echo "$(cut -d ' ' -f 1 /proc/uptime)" >> "$ORDERS.starts"; echo "$*" >> "$ORDERS" ;;
esac"""


@unittest.skipUnless(os.geteuid() == 0, "it needs root")
class CheckConfig(Scripts):
    OPTIONS = "--address=192.0.2.1 --control-address=10.0.0.10 --controller=10.0.0.1 --slots=1".split()

    def setUp(self):
        super().setUp()
        self.journal = self.folder / "journal.txt"

    def free_ports(self):
        """Options for two ports that are free."""
        while True:
            with socket.socket(type=socket.SOCK_DGRAM) as control, socket.socket(type=socket.SOCK_DGRAM) as media:
                for port in control, media:
                    port.bind(("127.0.0.1", 0))
                control, base = (port.getsockname()[1] for port in (control, media))
            if base % 2 == 0:
                return [f"--control-port={control}", f"--base-port={base}"]

    def checked(self, *words):
        before = self.journal.read_text() if self.journal.exists() else None
        said, status = self.said("check-config", self.journal, *words)
        self.assertEqual(self.journal.read_text() if self.journal.exists() else None, before)
        self.assertEqual([file.name for file in self.folder.iterdir() if file not in (self.journal, self.path)], [])
        return status, said

    def test_a_gateway_that_would_start(self):
        """This host doesn't have the gateway's addresses, and another program has its port."""
        options = [*self.OPTIONS, *self.free_ports()]
        self.assertEqual(self.checked(*options), (0, ""))
        begin = [DIST / "mg_bridge", "serve", *options, "--bind-address=127.0.0.1", "--journal", self.journal]
        with subprocess.Popen(begin, stdin=subprocess.PIPE, stdout=subprocess.PIPE, text=True) as other:
            self.assertEqual(other.stdout.readline(), "ready\n")
            self.assertEqual(self.checked(*options), (0, ""))
            other.communicate("tick\nquit\n")
        self.assertEqual(self.checked(*options), (0, ""))

    def test_a_gateway_that_would_not_start(self):
        self.journal.write_text("# mg_bridge replay --address=192.0.2.1 --control-address=10.0.0.10 --control-port=2944"
                                " --base-port=30000 --slots=1 --first-termination=1 --first-context=1 --ssrc=0"
                                " --sequence=0 --timestamp=0\ntick\n")
        for changed, status, reason in (
            ("--slots=2", 6, f"journal {self.journal}: line 1 has another --slots\n"),
            ("--slot=2", 2, "unexpected argument '--slot' found"),
        ):
            with self.subTest(changed):
                found, said = self.checked(*self.OPTIONS[:-1], changed)
                self.assertEqual(found, status, said)
                self.assertIn(reason, said)
                self.assertTrue(said.endswith("check-config: the gateway would not start\n"), said)


class CutJournal(Scripts):
    def setUp(self):
        super().setUp()
        # On a busy machine, the disk can take longer than a test.
        self.fake("sync", ":")
        self.journal = self.folder / "journal.txt"
        self.sealed = self.seal("# mg_bridge replay --slots=2\nticks 10\n")
        self.rest = "# time 2026-11-27T16:05:23.902Z\ncontrol 127.0.0.1:9 4d\ncontrol 127.0.0.1:9 4e\nticks 10\n"

    def seal(self, text):
        return subprocess.run([DIST / "mg_bridge", "seal"], input=text, capture_output=True, text=True, check=True).stdout

    def whole(self):
        """The names and texts of the journals that are kept next to the journal."""
        return {file.name: file.read_text() for file in self.folder.glob("journal-*.txt")}

    def test_it_is_cut_after_the_last_valid_seal(self):
        text = self.seal(self.sealed + self.rest).replace("4e", "4f") + "ticks 10\n"
        self.journal.write_text(text)
        self.journal.chmod(0o640)
        said, status = self.said("cut-journal", self.journal)
        self.assertEqual((status, self.journal.read_text()), (0, self.sealed), said)
        [(name, kept)] = self.whole().items()
        self.assertEqual(kept, text)
        self.assertEqual(self.journal.stat().st_mode & 0o777, 0o640)
        self.assertEqual(said, f"{self.journal} ends after line 3; {self.folder}/{name} has all lines\n"
                               f"{self.journal} lacks 2 messages, from 2026-11-27T16:05:23.902Z on\n")
        self.assertEqual(self.said("cut-journal", self.journal)[1], 1)

    def test_what_is_not_cut(self):
        changed = self.seal(self.sealed + self.rest).replace("4e", "4f")
        for name, text, reason in (
            ("valid", self.sealed + self.rest, "seals hold: 1, the last in line 3; lines after it: 4"),
            ("no seal", "ticks 10\n", "no seals in 1 lines"),
            ("no valid seal", self.sealed.replace("10", "11"), "has no valid seal: begin a new journal"),
            ("in use", changed, f"a gateway uses {self.journal}"),
        ):
            self.journal.write_text(text)
            with self.subTest(name), open(self.journal) as file:
                if name == "in use":
                    fcntl.flock(file, fcntl.LOCK_EX)
                said, status = self.said("cut-journal", self.journal)
                self.assertEqual((status, self.journal.read_text(), self.whole()), (1, text, {}))
                self.assertTrue(said.startswith("cut-journal: ") and said.endswith(f"{reason}\n"), said)
        self.assertEqual(self.said("cut-journal")[1], 2)


class Copy(Scripts):
    """A journal that is copied to a standby host, through a renewal."""

    def setUp(self):
        super().setUp()
        self.copy = self.folder / "journal.txt"
        path = f"{self.path}:{os.environ['PATH']}"
        self.process = subprocess.Popen([DEPLOY / "receive-journal", self.copy], env={"PATH": path}, text=True,
                                        stdin=subprocess.PIPE, stdout=subprocess.PIPE, stderr=subprocess.STDOUT)
        self.addCleanup(self.process.stdout.close)
        self.addCleanup(self.process.wait)
        self.addCleanup(self.process.kill)

    def give(self, text):
        self.process.stdin.write(text)
        self.process.stdin.flush()

    def has(self, text):
        self.soon(lambda: self.copy.exists() and self.copy.read_text() == text)

    def test_the_copy_is_always_a_whole_journal(self):
        first = "# mg_bridge replay --slots=2\nticks 10\n"
        self.give(first)
        self.has(first)
        self.give("ticks 20\n")
        self.has(first + "ticks 20\n")
        checkpoint = "# mg_bridge replay --slots=2\ncheckpoint after 0 control datagrams and 30 ticks\nend after 2 lines\n"
        self.give(checkpoint)
        self.soon(lambda: Path(f"{self.copy}.new").exists() and Path(f"{self.copy}.new").read_text() == checkpoint)
        self.has(first + "ticks 20\n")
        joint = f"# follows {'0' * 64}\n"
        self.give(joint + "ticks 10\n")
        self.has(checkpoint + joint + "ticks 10\n")
        self.process.stdin.close()
        self.assertEqual(self.process.wait(20), 0)
        self.assertEqual([file.name for file in self.folder.glob("journal*")], ["journal.txt"])

    def test_what_is_no_journal(self):
        self.give("ticks 10\n")
        self.process.stdin.close()
        self.assertEqual(self.process.wait(20), 1)
        self.assertFalse(self.copy.exists())


class Keeper(Scripts):
    def setUp(self):
        super().setUp()
        self.state, self.orders = self.folder / "state", self.folder / "orders"
        self.orders.touch()
        self.fake("systemctl", SYSTEMCTL)
        # Time passes faster between checks, but not for the pauses, which follow the clock.
        self.fake("sleep", "exec /bin/sleep 0.1")

    def unit(self, state, main=0, status=0, since=0):
        new = self.folder / "new"
        new.write_text(f"MainPID={main}\nExecMainStatus={status}\nActiveState={state}\n"
                       f"ActiveEnterTimestampMonotonic={since}\n")
        new.replace(self.state)

    def keeper(self, *words):
        words = words or ("lobbysorrel@1", self.folder / "journal.txt")
        return self.begin("keeper", *words, RUNTIME_DIRECTORY=str(self.folder), STATE=str(self.state), ORDERS=str(self.orders))

    def ordered(self, count, seconds=20):
        """The orders, once there are this many or the time is over."""
        end = time.monotonic() + seconds
        while len(lines := self.orders.read_text().splitlines()) < count and time.monotonic() < end:
            time.sleep(0.05)
        return lines

    def test_growing_pauses(self):
        self.unit("failed", status=5)
        self.keeper()
        self.assertEqual(self.ordered(6), ["reset-failed lobbysorrel@1", "start --no-block lobbysorrel@1"] * 3)
        starts = [float(line) for line in Path(f"{self.orders}.starts").read_text().split()]
        first, second = starts[1] - starts[0], starts[2] - starts[1]
        self.assertTrue(1 <= first < second and 3 <= second, starts)

    def test_the_longest_pause(self):
        (self.folder / "pause").write_text("60\n")
        self.unit("failed", status=5)
        keeper = self.keeper()
        self.assertEqual(keeper.stdout.readline(), "lobbysorrel@1 has failed: it is started again in 60 s\n")
        self.assertEqual((self.folder / "pause").read_text(), "60\n")

    def test_a_minute_without_a_failure(self):
        (self.folder / "pause").write_text("32\n")
        uptime = float(Path("/proc/uptime").read_text().split()[0])
        self.unit("active", os.getpid(), since=int((uptime - 50) * 1e6))
        self.keeper()
        self.soon((self.folder / "unit.prom").exists)
        time.sleep(0.5)
        self.assertTrue((self.folder / "pause").exists())
        self.unit("active", os.getpid(), since=int((uptime - 70) * 1e6))
        self.soon(lambda: not (self.folder / "pause").exists())

    def test_what_needs_a_correction_is_not_started(self):
        for status in 2, 6, 243:
            with self.subTest(status):
                self.unit("failed", status=status)
                keeper = self.keeper()
                self.assertEqual(keeper.stdout.readline(), f"lobbysorrel@1 ended with status {status}, which you have to "
                                                           "correct: it isn't started again\n")
                self.assertEqual(self.ordered(1, 3), [])
                keeper.kill()

    def test_a_gateway_that_hangs(self):
        for what in ("sleep 60", "while :; do :; done"):
            with self.subTest(what):
                self.orders.write_text("")
                hung = subprocess.Popen(["/bin/sh", "-c", f"exec {what}" if what.startswith("sleep") else what])
                self.addCleanup(hung.wait)
                self.addCleanup(hung.kill)
                self.unit("active", hung.pid)
                keeper = self.keeper()
                wanted = "kill --kill-who=main --signal=KILL lobbysorrel@1"
                self.assertEqual(self.ordered(1)[:1], [wanted])
                keeper.kill()

    def test_only_a_gateway_ticks(self):
        other = subprocess.Popen(["sleep", "60"])
        self.addCleanup(other.wait)
        self.addCleanup(other.kill)
        self.unit("active", other.pid)
        self.keeper("lobbysorrel-controller")
        self.soon((self.folder / "unit.prom").exists)
        self.assertEqual(self.ordered(1, 3), [])
        self.assertNotIn("journal", (self.folder / "unit.prom").read_text())

    def test_a_gateway_that_ticks(self):
        ticking = subprocess.Popen(["python3", "-c", "import time\nwhile True: time.sleep(0.02)"])
        self.addCleanup(ticking.wait)
        self.addCleanup(ticking.kill)
        self.unit("active", ticking.pid)
        self.keeper()
        self.assertEqual(self.ordered(1, 3), [])

    def test_metrics(self):
        page = self.folder / "unit.prom"
        self.unit("failed", status=2)
        self.keeper()
        self.soon(page.exists)
        self.assertIn('lobbysorrel_unit_active{unit="lobbysorrel@1"} 0\n', page.read_text())
        self.unit("active", os.getpid())
        self.soon(lambda: 'lobbysorrel_unit_active{unit="lobbysorrel@1"} 1\n' in page.read_text())
        self.assertIn('lobbysorrel_unit_journal_age_seconds{unit="lobbysorrel@1"} +Inf\n', page.read_text())
        (self.folder / "journal.txt").touch()
        self.soon(lambda: re.search(r'age_seconds{unit="lobbysorrel@1"} \d+\n', page.read_text()))

    def test_it_ends_with_its_unit(self):
        self.unit("inactive")
        self.assertEqual(self.keeper().wait(10), 0)


class Firewall(Scripts):
    """The fake nft has a file in place of the kernel's rules, and accepts only files that contain `good`."""

    def setUp(self):
        super().setUp()
        self.rules, self.kernel, self.kept = (self.folder / name for name in ("gateway.nft", "kernel", "kept"))
        self.kept.mkdir()
        self.fake("nft", """
case $* in
    *-f*) for file; do :; done; grep -q good "$file" || { echo "$file: syntax error" >&2; exit 1; } ;;
esac
case $* in
    '-c -f '*) ;;
    '-f '*) grep -o 'good.*' "$file" > "$KERNEL" ;;
    *'list table inet lobbysorrel') cat "$KERNEL" ;;
    'delete table inet lobbysorrel') rm "$KERNEL" ;;
    *) exit 99 ;;
esac""")
        script = (DEPLOY / "firewall").read_text().replace("/etc/lobbysorrel/gateway.nft", str(self.rules))
        self.fake("firewall", script.partition("\n")[2])

    def firewall(self, word):
        return self.said(self.path / "firewall", word, KERNEL=str(self.kernel), STATE_DIRECTORY=str(self.kept))

    def loaded(self):
        return self.kernel.read_text() if self.kernel.exists() else None

    def restart(self, text):
        self.rules.write_text(text)
        return self.firewall("unload")[1], self.firewall("load")[1]

    def test_a_broken_file_leaves_the_old_rules(self):
        self.assertEqual((self.restart("good 1\n")[1], self.loaded()), (0, "good 1\n"))
        self.rules.write_text("bad\n")
        said, status = self.firewall("unload")
        self.assertEqual((status, self.loaded()), (0, "good 1\n"))
        self.assertIn("is broken: the rules stay", said)
        self.assertEqual((self.restart("bad\n"), self.loaded()), ((0, 1), "good 1\n"))
        # As after a boot, or after nftables.service has flushed all rules.
        self.kernel.unlink()
        said, status = self.firewall("load")
        self.assertEqual((status, self.loaded()), (1, "good 1\n"))
        self.assertIn("is broken: the rules of", said)
        self.assertEqual((self.restart("good 2\n"), self.loaded()), ((0, 0), "good 2\n"))

    def test_without_rules_of_before(self):
        self.rules.write_text("bad\n")
        said, status = self.firewall("load")
        self.assertEqual((status, self.loaded()), (1, None))
        self.assertIn("is broken: there are no rules", said)

    def test_unload(self):
        self.restart("good 1\n")
        self.assertEqual((self.firewall("unload"), self.loaded()), (("", 0), None))


if __name__ == "__main__":
    unittest.main()
