"""Each subcommand in its simplest form."""
import signal
import subprocess
import tempfile
import threading
import time

from programs import FIRST, HEARTBEAT, Commands, Gateway, bound, counted, ports, program, run


def answer(gateway, message):
    """Answers three heartbeats with this message."""
    for _ in range(3):
        gateway.sendto(message, gateway.recvfrom(200)[1])


class Runs(Commands):
    def test_replay(self):
        answer = "say 127.0.0.1:2945 MEGACO/1 [127.0.0.1]:{port}\\nReply=1{{Context=-{{AuditValue=ROOT}}}}\n"
        for port, words in ((2944, []), (4000, ["--control-port", "4000"])):
            text = f"say 127.0.0.1:2945 {HEARTBEAT}\n"
            self.ends(0, answer.format(port=port), "", "replay", *words, text=text)

    def test_replay_of_a_bad_line(self):
        for text in ("tick\ntock\n", "tick\nticks 2\n", "# counted ticks\nticks 2\n"):
            self.ends(1, "", "line 2: bad script line\n", "replay", text=text)

    def test_serve(self):
        wanted = "ready\nunknown command\n" + counted(ticks=1)
        self.ends(0, wanted, "", "serve", *ports(0, 4), text="poll\ntick\npol\nstats\nquit\nstats\n")

    def test_check(self):
        with Gateway("live", *ports(0, 1)):
            status, output, errors = run("check", f"127.0.0.1:{FIRST}")
        self.assertEqual((status, errors), (0, ""))
        self.assertRegex(output, rf"\A127\.0\.0\.1:{FIRST} answered in [0-9]+ us\n\Z")

    def test_live_says_what_it_is(self):
        version = "version: " + run("--version")[1].splitlines(keepends=True)[0]
        control = f"control: 127.0.0.1:{FIRST}\n"
        with Gateway("live", *ports(0, 4)) as gateway:
            self.assertEqual(gateway.ready, "ready\n")
            media = f"media: 127.0.0.1, ports {FIRST + 2} to {FIRST + 8}\n"
            warning = "warning: no --controller: anybody may command this gateway\n"
            self.assertEqual(gateway.said, [version, control, media, warning, "journal: none\n", "fence: none\n"])
        with tempfile.NamedTemporaryFile() as journal:
            words = ["--bind-address=0.0.0.0", "--controller=127.0.0.1", "--controller=10.0.0.2", "--fence-strict"]
            with Gateway("live", *ports(0, 1), *words, "--fence-from=17", "--sync", f"--journal={journal.name}") as gateway:
                media = f"media: 127.0.0.1, ports {FIRST + 2} to {FIRST + 2}\n"
                controllers = "controllers: 127.0.0.1 10.0.0.2\n"
                last = [f"journal: {journal.name}, each message synced\n", "fence: begins at 17, strict\n"]
                self.assertEqual(gateway.said, [version, control, media, "bound to: 0.0.0.0\n", controllers, *last])

    def test_check_from_an_address(self):
        with Gateway("live", *ports(0, 1), "--controller=127.0.0.2"):
            self.assertEqual(run("check", "--source=127.0.0.2", f"127.0.0.1:{FIRST}")[0], 0)
            self.ends(2, "", f"127.0.0.1:{FIRST} doesn't answer: timed out\n", "check", f"127.0.0.1:{FIRST}")
        wanted = "cannot send from 192.0.2.1: Cannot assign requested address (os error 99)\n"
        self.ends(3, "", wanted, "check", "--source=192.0.2.1", f"127.0.0.1:{FIRST}")

    def test_check_of_a_gateway_that_answers_something_else(self):
        with bound(FIRST) as (gateway,):
            other = threading.Thread(target=answer, args=(gateway, b"MEGACO/1 mg\nReply=2{Context=-{AuditValue=ROOT}}"))
            other.start()
            self.ends(2, "", f"127.0.0.1:{FIRST} doesn't answer: timed out\n", "check", f"127.0.0.1:{FIRST}")
            other.join()

    def test_check_of_a_gateway_that_answers_from_another_address(self):
        with Gateway("live", *ports(0, 1), "--bind-address=0.0.0.0"):
            wanted = f"127.0.0.2:{FIRST} doesn't answer, but an answer came from 127.0.0.1:{FIRST}\n"
            self.ends(2, "", wanted, "check", f"127.0.0.2:{FIRST}")
            self.assertEqual(run("check", f"127.0.0.1:{FIRST}")[0], 0)

    def test_check_of_a_gateway_that_is_not_there(self):
        wanted = f"127.0.0.1:{FIRST} doesn't answer: Connection refused (os error 111)\n"
        self.ends(2, "", wanted, "check", f"127.0.0.1:{FIRST}")

    def test_check_of_a_gateway_that_keeps_silent(self):
        with bound(FIRST) as (gateway,):
            self.ends(2, "", f"127.0.0.1:{FIRST} doesn't answer: timed out\n", "check", f"127.0.0.1:{FIRST}")
            heartbeat = b"MEGACO/1 <check>\nTransaction=1{Context=-{AuditValue=ROOT}}"
            self.assertEqual([gateway.recv(100) for _ in range(4)], [heartbeat] * 4)

    def test_check_that_is_stopped_and_continued(self):
        with bound(FIRST) as (gateway,):
            words = [program("mg_bridge"), "check", f"127.0.0.1:{FIRST}"]
            with subprocess.Popen(words, stderr=subprocess.PIPE, text=True) as check:
                gateway.recv(100)
                for number in (signal.SIGSTOP, signal.SIGCONT):
                    time.sleep(0.1)
                    check.send_signal(number)
                self.assertEqual(check.communicate(timeout=20)[1], f"127.0.0.1:{FIRST} doesn't answer: timed out\n")

    def test_check_acknowledges_the_answer(self):
        """Then the gateway doesn't have to keep the reply."""
        found = []

        def serve(gateway):
            message, check = gateway.recvfrom(200)
            gateway.sendto(b"MEGACO/1 [127.0.0.1]:2944\nReply=1{Context=-{AuditValue=ROOT}}", check)
            found.extend([message, gateway.recv(200)])

        with bound(FIRST) as (gateway,):
            other = threading.Thread(target=serve, args=(gateway,))
            other.start()
            self.assertEqual(run("check", f"127.0.0.1:{FIRST}")[0], 0)
            other.join()
        sender = b"MEGACO/1 <check>\n"
        self.assertEqual(found, [sender + b"Transaction=1{Context=-{AuditValue=ROOT}}", sender + b"TransactionResponseAck{1}"])
