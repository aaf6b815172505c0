"""A controller that repeats each request until it is answered, for the trials of the journal."""
import sys
import time

from loopback import udp

PATIENCE, REPEAT = 5.0, 0.05


class Request:
    def __init__(self, number, action, address):
        self.text = f"MEGACO/1 [{address}]:2945 Transaction={number}{{{action}}}"
        self.mark, self.reply = f"Reply={number}{{", None
        self.first_at, self.sent_at = 0.0, 0.0


class Controller:
    """Ends the trial if a request isn't answered, is answered with an error, or gets a different answer when it is
    repeated."""

    def __init__(self, to, address="127.0.0.1"):
        self.socket, self.to, self.address = udp(address=address), to, address
        # The requests that wait for an answer, and the last one that was answered.
        self.due, self.last = [], None
        self.asked, self.answered, self.repeats, self.kept = 0, 0, 0, 0
        # The longest time that an answer took, in seconds.
        self.longest = 0.0

    def send(self, request):
        request.sent_at = time.monotonic()
        try:
            self.socket.sendto(request.text.encode(), self.to)
        except OSError:
            pass  # The gateway's host is gone, or nobody has its port.

    def begin(self, request):
        self.due.append(request)
        request.first_at = time.monotonic()
        self.send(request)

    def request(self, action):
        self.asked += 1
        self.begin(Request(self.asked, action, self.address))

    def request_again(self):
        """Repeats the last request that was answered. The answer must be the same."""
        if self.last not in self.due:
            self.begin(self.last)

    def take(self, request, reply):
        self.due.remove(request)
        self.longest = max(self.longest, time.monotonic() - request.first_at)
        if request.reply is not None:
            self.kept += 1
            if reply != request.reply:
                sys.exit(f"{request.text}\nanswered by {request.reply}\nand then by {reply}")
            return
        if "Error" in reply:
            sys.exit(f"{request.text}\n{reply}")
        request.reply, self.last = reply, request
        self.answered += 1

    def receive(self):
        """Takes an answer if one has arrived, and repeats requests that have waited for one."""
        try:
            reply = self.socket.recv(65535).decode()
            for request in [one for one in self.due if one.mark in reply]:
                self.take(request, reply)
        except OSError:
            pass  # Nothing has arrived, or nobody had the gateway's port.
        now = time.monotonic()
        for request in self.due:
            if now - request.first_at > PATIENCE:
                sys.exit(f"no answer to {request.text}")
            if now - request.sent_at > REPEAT:
                self.repeats += 1
                self.send(request)

    def finish(self):
        """Waits for the answers that are due."""
        while self.due:
            self.receive()
            time.sleep(0.001)

    def ask(self, action):
        """Sends a request, and returns its answer."""
        self.request(action)
        self.finish()
        return self.last.reply
