"""Callers of a gateway that exits and starts again, for the trials of the journal."""
import select
import sys
import time
from array import array

from loopback import udp

RATE, FRAME, STRIDE = 8000, 160, 0.02
SILENCE, TONE = b"\xff" * FRAME, b"\x80\x00" * (FRAME // 2)
# An interval between two packets is kept if it is longer than this, in seconds.
GAP = 0.05
ADD = ("Add=${Media{LocalControl{Mode=SendReceive},Local{v=0\nc=IN IP4 $\nm=audio $ RTP/AVP 0\n},"
       "Remote{v=0\nc=IN IP4 %s\nm=audio %d RTP/AVP 0\n}}}")


class Caller:
    """A telephone. It ends the trial if it hears someone but may hear nobody, if the gateway's port or SSRC for it
    changes, or if a timestamp isn't after the last one."""

    def __init__(self, number, payload, hears=True, address="127.0.0.1"):
        self.number, self.payload, self.hears = number, payload, hears
        self.socket = udp(address=address)
        # The gateway's port for this caller.
        self.to = None
        self.source, self.stamp = None, None
        # When the last packet and the last speech arrived, and the intervals without them: start and length.
        self.last, self.heard = None, None
        self.gaps, self.speech_gaps = [], []
        # How far the timestamps have advanced since the first packet, in seconds, when that packet arrived, and by how
        # much the timestamps led the clock at each packet.
        self.played, self.start, self.leads = 0.0, None, array("d")

    def add(self):
        """The command that adds this caller to a context."""
        return ADD % self.socket.getsockname()

    def send(self, head):
        try:
            self.socket.sendto(head + self.number.to_bytes(4, "big") + self.payload, self.to)
        except OSError:
            pass  # Nobody has the gateway's port.

    def listen(self):
        """Takes all packets that have arrived."""
        try:
            while True:
                packet, source = self.socket.recvfrom(2000)
                self.take(packet, (packet[8:12], source), time.monotonic())
        except (BlockingIOError, ConnectionRefusedError):
            pass

    def take(self, packet, source, now):
        stamp = int.from_bytes(packet[4:8], "big")
        if self.last is None:
            self.source, self.start = source, now
        else:
            step = (stamp - self.stamp) % 2**32
            if source != self.source:
                sys.exit(f"caller {self.number}: another SSRC or port")
            if step == 0 or step > 2**31:
                sys.exit(f"caller {self.number}: a timestamp that isn't after the last one")
            self.played += step / RATE
            keep(self.gaps, self.last, now)
        self.stamp, self.last = stamp, now
        self.leads.append(self.played - (now - self.start))
        if packet[12:] != SILENCE:
            if not self.hears:
                sys.exit(f"caller {self.number} hears somebody who is isolated from it")
            if self.heard is not None:
                keep(self.speech_gaps, self.heard, now)
            self.heard = now

    def take_leads(self):
        """Returns by how much the timestamps led the clock at each packet since the last call."""
        leads, self.leads = self.leads, array("d")
        return leads


def keep(gaps, start, now):
    if now - start > GAP:
        gaps.append((start, now - start))


class Calls:
    """Callers who send a frame every 20 ms."""

    def __init__(self, callers):
        self.callers, self.poll = callers, select.epoll()
        self.by_file = {one.socket.fileno(): one for one in callers}
        for file in self.by_file:
            self.poll.register(file, select.EPOLLIN)
        self.start, self.sent = time.monotonic(), 0

    def turn(self):
        """Sends the frames that are due, and takes packets, for which it waits at most 2 ms."""
        while self.start + self.sent * STRIDE <= time.monotonic():
            head = b"\x80\x00" + (self.sent & 0xFFFF).to_bytes(2, "big") + (self.sent * FRAME).to_bytes(4, "big")
            for one in self.callers:
                one.send(head)
            self.sent += 1
        for file, _ in self.poll.poll(0.002):
            self.by_file[file].listen()
