"""What a controller and callers see of the package's two gateways."""
import re
import select
import socket
import time

MEDIA, CONTROL, CONTROLLER, STRANGER, CALLER = "192.0.2.10", "10.0.0.10", "10.0.0.20", "10.0.0.99", "198.51.100.7"
PORTS = {"1": 2944, "2": 2946}
HEARTBEAT = "Context=-{AuditValue=ROOT}"
CALL = (f"Context=${{Add=${{Media{{LocalControl{{Mode=SendReceive}},Local{{v=0\nc=IN IP4 $\nm=audio $ RTP/AVP 0\n}},"
        f"Remote{{v=0\nc=IN IP4 {CALLER}\nm=audio %d RTP/AVP 0\n}}}}}}}}")

asked = 0


def ask(action, port, wait=1.0, source=CONTROLLER, number=None):
    """Sends a request, and returns the answer and the byte of its class; None if there is no answer. `number` repeats an
    earlier request."""
    global asked
    if number is None:
        asked += 1
        number = asked
    with socket.socket(socket.AF_INET, socket.SOCK_DGRAM) as controller:
        controller.setsockopt(socket.IPPROTO_IP, socket.IP_RECVTOS, 1)
        controller.bind((source, 0))
        controller.sendto(b"MEGACO/1 [%s] Transaction=%d{%s}" % (source.encode(), number, action.encode()), (CONTROL, port))
        if not select.select([controller], [], [], wait)[0]:
            return None, None
        answer, notes, _, _ = controller.recvmsg(65535, 64)
    return answer.decode(), notes[0][2][0]


def alive(port, wait=1.0):
    """Whether a gateway answers a heartbeat."""
    answer, _ = ask(HEARTBEAT, port, wait)
    return answer is not None and "AuditValue=ROOT" in answer and "Error" not in answer


def soon(holds, seconds=5):
    """Waits until something holds, and returns whether it does."""
    end = time.monotonic() + seconds
    while not holds():
        if time.monotonic() > end:
            return False
        time.sleep(0.02)
    return True


def both_alive():
    """Whether both gateways answer a heartbeat, or will soon."""
    return soon(lambda: all(alive(port, 0.1) for port in PORTS.values()))


class Call:
    """A caller in a context of the first gateway, and what must stay the same."""

    def __init__(self):
        self.listen(0)
        self.action = CALL % self.port
        self.answer, _ = ask(self.action, PORTS["1"])
        self.number = asked
        self.context, self.termination, self.to = map(
            int, re.search(r"Context=(\d+){Add=RTP/(\d+){.*m=audio (\d+) ", self.answer, re.S).groups())
        self.source = self.packet()[0]

    def listen(self, port):
        """Opens the caller's port, which is needed again after each boot, in the new network."""
        self.socket = socket.socket(socket.AF_INET, socket.SOCK_DGRAM)
        self.socket.setsockopt(socket.IPPROTO_IP, socket.IP_RECVTOS, 1)
        self.socket.bind((CALLER, port))
        self.port = self.socket.getsockname()[1]

    def packet(self):
        """Waits for the next packet. Returns its address, port and SSRC, the byte of its class, and its length."""
        while select.select([self.socket], [], [], 0)[0]:
            self.socket.recv(2048)
        if not select.select([self.socket], [], [], 1)[0]:
            return None, None, 0
        packet, notes, _, source = self.socket.recvmsg(2048, 64)
        return (source, packet[8:12]), notes[0][2][0], len(packet)

    def changed(self):
        """What has changed in the call."""
        again, _ = ask(self.action, PORTS["1"], number=self.number)
        audit, _ = ask(f"Context={self.context}{{AuditValue=RTP/{self.termination}{{Audit{{Media}}}}}}", PORTS["1"])
        same = {"the kept reply": again == self.answer,
                "the termination": audit is not None and f"m=audio {self.to} " in audit,
                "the port or SSRC": self.packet()[0] == self.source}
        return ", ".join(name for name, holds in same.items() if not holds) or "nothing"

    def end(self):
        ask(f"Context={self.context}{{Subtract=*}}", PORTS["1"])
        self.socket.close()
