"""`mg_bridge serve` with a journal, for the trials of the journal."""
import contextlib
import subprocess

# The maximum number of seconds that a gateway may take to end.
PATIENCE = 20


def waiting(s):
    """Returns the datagrams that wait at a socket."""
    datagrams = []
    try:
        while True:
            datagrams.append(s.recv(65535))
    except BlockingIOError:
        return datagrams


class Serving:
    """A gateway that is driven line by line. It ends with the block that uses it."""

    def __init__(self, bridge, journal, *options, environment=None):
        pipes = {"stdin": subprocess.PIPE, "stdout": subprocess.PIPE, "stderr": subprocess.PIPE}
        self.process = subprocess.Popen([bridge, "serve", "--journal", journal, *options], env=environment, **pipes)
        self.is_ready = self.process.stdout.readline() == b"ready\n"

    def __enter__(self):
        return self

    def __exit__(self, *_):
        self.process.kill()
        self.close()
        self.process.communicate()

    def close(self, last=b""):
        """Writes the last line, and closes the gateway's input. A gateway that was killed no longer reads it."""
        stdin, self.process.stdin = self.process.stdin, None
        if stdin is not None:
            with contextlib.suppress(BrokenPipeError):
                stdin.write(last)
                stdin.close()

    def run(self, lines):
        """Runs lines, and returns whether the gateway has executed them."""
        try:
            self.process.stdin.write(f"{lines}stats\n".encode())
            self.process.stdin.flush()
        except BrokenPipeError:
            return False
        return self.process.stdout.readline().startswith(b"control=")

    def ask(self, s, port, message):
        """Sends a message, and returns its answer, or None."""
        s.sendto(message.encode(), ("127.0.0.1", port))
        self.run("poll\n")
        answers = waiting(s)
        return answers[0].decode() if answers else None

    def end(self):
        """Ends the gateway, and returns its status and its errors."""
        self.close(b"quit\n")
        _, errors = self.process.communicate(timeout=PATIENCE)
        return self.process.returncode, errors.decode()


def exchange(bridge, journal, options, messages, s, port, lines=""):
    """Starts a gateway, sends it messages, and runs lines. Returns its status, its errors and its answers."""
    answers = []
    with Serving(bridge, journal, *options) as gateway:
        if gateway.is_ready:
            answers = [gateway.ask(s, port, message) for message in messages]
            gateway.run(lines)
        return *gateway.end(), answers
