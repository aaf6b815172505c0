"""A controller's edits in a conference, for the trials of the journal."""
import re
import sys
import time

from callers import ADD

PERIOD = 0.1


class Edits:
    """Edits the conference in context 1 ten times a second: adds a termination, sets it to listen, isolates it from the
    first member, audits the conference and subtracts the termination. Ends the trial if the answers show that a request
    was forgotten or handled twice."""

    def __init__(self, controller, members, newest):
        """`members` is how many members stay. The first is isolated from the last. `newest` is the highest termination."""
        self.controller, self.members, self.newest = controller, members, newest
        self.made, self.next_at = 0, 0.0

    def turn(self):
        self.controller.receive()
        now = time.monotonic()
        if not self.controller.due and now >= self.next_at:
            self.next_at = max(self.next_at + PERIOD, now)
            self.check(self.controller.last.reply)
            self.made += 1
            self.controller.request(self.edit())

    def step(self):
        """Which of the five edits was the last one or, in `edit`, is the next one."""
        return self.made % 5

    def edit(self):
        one = f"RTP/{self.newest}"
        return ("Context=1{Subtract=%s{Audit{}}}" % one,
                "Context=1{%s}" % ADD % ("127.0.0.1", 9),
                "Context=1{Modify=%s{Media{LocalControl{Mode=ReceiveOnly}}}}" % one,
                "Context=1{Topology{%s,RTP/1,isolate}}" % one,
                "Context=1{ContextAudit{Topology},AuditValue=*{Audit{Media}}}")[self.step()]

    def check(self, reply):
        """Checks the answer to the last edit, if that was an Add or an audit. An Add that is handled twice leaves a
        hole in the terminations' numbers."""
        if self.step() == 1:
            self.newest += 1
            if f"Add=RTP/{self.newest}{{" not in reply:
                sys.exit(f"not RTP/{self.newest} was added: {reply}")
        elif self.step() == 4:
            self.check_audit(reply, [*range(1, self.members + 1), self.newest], {(1, self.members), (1, self.newest)})

    def check_audit(self, reply, members, isolated):
        """Checks who is in the conference, who is isolated from whom, and that the newest member listens."""
        found = [int(number) for number in re.findall(r"AuditValue=RTP/(\d+)", reply)]
        pairs = {(int(a), int(b)): how for a, b, how in re.findall(r"RTP/(\d+),RTP/(\d+),(\w+)", reply)}
        wanted = {(a, b): "Isolate" if (a, b) in isolated else "Bothway" for a in members for b in members if a < b}
        mode = re.findall(r"Mode=(\w+)", reply)[-1]
        if (found, pairs, mode) != (members, wanted, "ReceiveOnly"):
            sys.exit(f"members {found}, not {members}; pairs {pairs}, not {wanted}; the newest is {mode}")
