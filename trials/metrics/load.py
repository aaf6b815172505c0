"""Callers who send to a gateway, for the trials of metrics and of the journal."""
import struct
import threading
import time

from loopback import udp

FRAME = 160
# The sequence numbers wrap within the trial.
FIRST = 65001
STRIDE = 0.02


def packet(number, payload_type=0, size=FRAME):
    """Returns an RTP packet."""
    return struct.pack("!BBHII", 0x80, payload_type, number % 65536, number * FRAME % 2**32, 7) + b"\xff" * size


class Caller:
    """A telephone. It loses each packet whose number is a multiple of `lost`, unless that is 0."""

    def __init__(self, lost=0):
        self.socket, self.lost = udp(), lost
        self.remote = self.socket.getsockname()
        self.port = None
        self.next, self.sent, self.received = FIRST, 0, 0

    def speak(self):
        if not self.lost or self.next % self.lost:
            self.send(packet(self.next))
            self.sent += 1
        self.skip()

    def skip(self):
        self.next += 1

    def finish(self):
        """Sends a packet that isn't a lost one."""
        if self.lost and self.next % self.lost == 0:
            self.skip()
        self.speak()

    def send(self, datagram):
        self.socket.sendto(datagram, ("127.0.0.1", self.port))

    def listen(self):
        try:
            while True:
                self.socket.recv(2048)
                self.received += 1
        except BlockingIOError:
            pass

    def missing(self):
        """Returns how many packets a gateway must count as lost: those at least 64 numbers before the last packet."""
        return sum(self.lost and number % self.lost == 0 for number in range(FIRST, self.next - 64))


class Load(threading.Thread):
    """Callers who send a packet every 20 ms until they are hushed, and receive what they are sent until the end."""

    def __init__(self, callers):
        super().__init__(daemon=True)
        self.callers, self.hushed, self.silent, self.ended = callers, *(threading.Event() for _ in range(3))
        # When the last packets were sent.
        self.last = None

    def run(self):
        due = time.monotonic()
        while not self.ended.is_set():
            for caller in self.callers:
                if not self.silent.is_set():
                    caller.speak()
                caller.listen()
            if self.hushed.is_set() and not self.silent.is_set():
                self.finish()
            due += STRIDE
            time.sleep(max(0, due - time.monotonic()))

    def finish(self):
        """Sends the last packets."""
        for caller in self.callers:
            caller.finish()
        self.last = time.time()
        self.silent.set()

    def hush(self):
        """Makes the callers send their last packets."""
        self.hushed.set()
        self.silent.wait()

    def end(self):
        """Receives the packets that are still in flight, and ends the thread."""
        time.sleep(5 * STRIDE)
        self.ended.set()
        self.join()
