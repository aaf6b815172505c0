"""A gateway on 127.0.0.1 with its controller, for the trials of metrics and of the journal."""
import re
import select
import subprocess
import sys

from loopback import free_ports, udp

ADD = ("Add=${Media{LocalControl{Mode=SendReceive},Local{v=0\nc=IN IP4 $\nm=audio $ RTP/AVP 0\n},"
       "Remote{v=0\nc=IN IP4 %s\nm=audio %d RTP/AVP 0\n}}}")
# The maximum number of terminations that one message adds.
A_REQUEST = 16


class Gateway:
    """A gateway and its controller."""

    def __init__(self, words, slots, *options):
        """Starts the gateway. `words` are the program and any command before it."""
        self.control, base = free_ports(slots)
        self.ports = range(base, base + 2 * slots, 2)
        self.name = f"127.0.0.1:{self.control}"
        self.controller, self.asked, self.contexts = udp(), 0, []
        ports = ["--control-port", str(self.control), "--base-port", str(base), "--slots", str(slots)]
        self.process = subprocess.Popen([*words, "live", *ports, *options], stdout=subprocess.PIPE)
        if self.process.stdout.readline() != b"ready\n":
            sys.exit(f"not ready: {' '.join(self.process.args)}")

    def __enter__(self):
        return self

    def __exit__(self, *_):
        self.kill()

    def kill(self):
        self.process.kill()
        self.process.wait()

    def processor_time(self):
        """Returns the user and system time so far, in seconds."""
        with open(f"/proc/{self.process.pid}/schedstat") as stat:
            return int(stat.read().split()[0]) / 1e9

    def ask(self, action):
        """Sends a request, and returns the answer."""
        self.asked += 1
        text = f"MEGACO/1 [127.0.0.1]:2945 Transaction={self.asked}{{{action}}}"
        self.controller.sendto(text.encode(), ("127.0.0.1", self.control))
        if not select.select([self.controller], [], [], 1)[0]:
            sys.exit(f"no answer to {action}")
        answer = self.controller.recv(65535).decode()
        if "Error=" in answer:
            sys.exit(answer)
        return answer

    def conference(self, remotes):
        """Puts callers with these addresses into a new conference. Returns the number and port of each termination."""
        context, terminations = "$", []
        for first in range(0, len(remotes), A_REQUEST):
            adds = ",".join(ADD % remote for remote in remotes[first:first + A_REQUEST])
            answer = self.ask(f"Context={context}{{{adds}}}")
            context = re.search(r"Context=(\d+)", answer)[1]
            found = re.findall(r"Add=RTP/(\d+).*?m=audio (\d+)", answer, re.S)
            terminations += [(int(number), int(port)) for number, port in found]
        self.contexts.append(context)
        return terminations

    def end(self):
        """Ends all conferences."""
        for context in self.contexts:
            self.ask(f"Context={context}{{Subtract=*}}")
