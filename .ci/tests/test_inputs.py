"""Standard input that arrives in pieces, and input that cannot be read."""
import os
import socket
import struct
import subprocess
import time

from programs import LIMIT, ROOT, Commands, ports, program

EXAMPLES = ROOT / "examples"


def run_on(source, *words, feed=None):
    """Runs the program on this file descriptor, and closes it. Calls `feed` while the program runs. Returns its exit
    status, its output and its errors."""
    command = [program("mg_bridge"), *words]
    with subprocess.Popen(command, stdin=source, stdout=subprocess.PIPE, stderr=subprocess.PIPE, text=True) as process:
        os.close(source)
        if feed:
            feed()
        output, errors = process.communicate(timeout=LIMIT)
    return process.returncode, output, errors


class Inputs(Commands):
    def test_pieces(self):
        """Each read returns one piece: from a socket of this type, a read returns one packet. The title, the first line,
        is read byte by byte."""
        for words, name, stored in (
            (["replay", "--flows"], "coaching.txt", "coaching.flows"),
            (["heard"], "coached_call.txt", "coached_call.heard"),
        ):
            text = (EXAMPLES / name).read_bytes()
            for size in (1, 2, 5):
                with self.subTest(words=words, size=size):
                    near, far = socket.socketpair(socket.AF_UNIX, socket.SOCK_SEQPACKET)
                    near.settimeout(LIMIT)

                    def feed():
                        title = text.index(b"\n") + 1
                        for start in (*range(title), *range(title, len(text), size)):
                            near.sendall(text[start : start + (1 if start < title else size)])
                        near.close()

                    found = run_on(far.detach(), *words, feed=feed)
                    self.assertEqual(found, (0, (EXAMPLES / stored).read_text(), ""))

    def test_a_folder(self):
        for words, output, message in (
            (["replay"], "", "read failed\n"),
            (["heard"], "", "standard input: cannot be read: Is a directory (os error 21)\n"),
            (["serve", *ports(0, 1)], "ready\n", "read failed\n"),
        ):
            with self.subTest(words=words):
                self.assertEqual(run_on(os.open("/", os.O_RDONLY), *words), (3, output, message))

    def test_a_read_that_fails_later(self):
        """A read of a connection that the other side has reset fails."""
        text = (EXAMPLES / "coaching.txt").read_bytes()[:3000]
        with socket.create_server(("127.0.0.1", 0)) as server:
            near = socket.create_connection(server.getsockname())
            far, _ = server.accept()

        def feed():
            near.sendall(text)
            time.sleep(0.5)
            near.setsockopt(socket.SOL_SOCKET, socket.SO_LINGER, struct.pack("ii", 1, 0))
            near.close()

        status, output, errors = run_on(far.detach(), "replay", feed=feed)
        self.assertEqual((status, errors), (3, "read failed\n"))
        stored = (EXAMPLES / "coaching.out").read_text()
        self.assertTrue(output and stored.startswith(output), output)
