"""Readers of a gateway's output: slow readers, readers that are gone, and files."""
import contextlib
import os
import resource
import socket
import subprocess
import tempfile
import unittest
from pathlib import Path

from programs import FIRST, HEARTBEAT, LIMIT, Gateway, ports, program, udp

WORDS = ["serve", "--record", *ports(0, 1)]


def start(**how):
    """Starts a gateway that records, with pipes for what isn't given."""
    pipes = {it: subprocess.PIPE for it in ("stdin", "stdout", "stderr")} | how
    return subprocess.Popen([program("mg_bridge"), *WORDS], **pipes)


class Outputs(unittest.TestCase):
    def test_a_gateway_does_not_wait_for_its_reader(self):
        """A pipe holds 64 KiB. While the reader waits, the gateway runs 400,000 ticks and answers. Then all lines
        arrive."""
        ticks = 400_000
        with udp() as controller, Gateway(*WORDS) as gateway:
            gateway.tell(*["tick"] * ticks)
            controller.sendto(HEARTBEAT.encode(), ("127.0.0.1", FIRST))
            gateway.tell("poll")
            self.assertTrue(controller.recv(2000).startswith(b"MEGACO/1 "))
            message = f"control 127.0.0.1:{controller.getsockname()[1]} {HEARTBEAT.encode().hex()}\n"
            status, output, errors = gateway.finish("quit")
        self.assertEqual((status, errors), (0, ""))
        self.assertTrue(output == "tick\n" * ticks + message, output[-300:])

    def test_a_reader_that_is_too_slow(self):
        """A reader that is too slow gets the beginning of the recording, without holes. This is reported once, and
        calls continue."""
        with udp() as controller, Gateway(*WORDS) as gateway:
            lines = []
            # Each line has 32 KB. The queue and the pipe hold some 2,080 of them.
            for number in range(2200):
                message = number.to_bytes(2, "big") + b"x" * 16_000
                controller.sendto(message, ("127.0.0.1", FIRST))
                gateway.tell("poll")
                self.assertIn(b"Error=", controller.recv(2000))
                lines.append(f"control 127.0.0.1:{controller.getsockname()[1]} {message.hex()}")
            status, output, errors = gateway.finish("quit")
        self.assertEqual((status, errors), (0, "standard output ended: its reader is too slow\n"))
        recorded = output.splitlines()
        self.assertTrue(recorded == lines[: len(recorded)] and 2000 < len(recorded) < 2150, len(recorded))

    def test_a_reader_that_is_gone(self):
        reader, writer = os.pipe()
        near, far = socket.socketpair()
        for name, output, end in (
            ("a pipe", os.fdopen(writer, "wb"), os.fdopen(reader, "rb", buffering=0)),
            ("a socket", near, far.makefile("rb", buffering=0)),
        ):
            with self.subTest(name), start(stdout=output) as process, end:
                output.close()
                self.assertEqual(end.read(11), b"# mg_bridge")
                far.close()
                end.close()
                with contextlib.suppress(BrokenPipeError):
                    process.stdin.write(b"tick\n" * 10_000)
                    process.stdin.flush()
                self.assertEqual((process.wait(LIMIT), process.stderr.read()), (3, b"write failed\n"))

    def test_a_file(self):
        with tempfile.NamedTemporaryFile() as file, start(stdout=file.fileno()) as process:
            process.communicate(b"tick\n" * 10_000 + b"quit\n", timeout=LIMIT)
            text = Path(file.name).read_text()
        self.assertEqual((process.returncode, text.count("tick\n"), text[-5:]), (0, 10_000, "tick\n"))

    def test_one_that_cannot_be_made(self):
        def close():
            os.closerange(0, 2)

        def allow_little():
            resource.setrlimit(resource.RLIMIT_AS, (50 << 20, 50 << 20))

        for first, status, message in (
            (close, 3, "cannot watch file descriptor 1: Bad file descriptor (os error 9)\n"),
            (allow_little, 4, "no memory for 67108864 bytes of output\n"),
        ):
            with self.subTest(message), start(preexec_fn=first) as process:
                _, errors = process.communicate(timeout=LIMIT)
                self.assertEqual((process.returncode, errors.decode()), (status, message))
