"""Makes each write and each sync of a journal fail in turn, one in each session of `mg_bridge serve`.

usage: refused.py BRIDGE LIBRARY

LIBRARY is built from trials/refusals/refuse.c. In a session, a controller sends five requests, with ticks after each.
In some sessions, each cut of a file after the refused write fails, too. Then the journal is broken, as it is after a
refused sync.

An answer needs a whole line in the file. If the journal isn't broken, it consists of whole lines, and a repeated
request is answered. If it is broken, requests get no answer, packets continue, and the gateway reports it. Within a
second, it renews the journal, unless the cut of the new file is refused, too. Then a repeated request is answered. A
gateway that resumes from the file knows what was answered, and answers all requests with the same bytes as a gateway
whose calls don't fail. Exits with 1 at the first session that goes wrong.
"""
import glob
import os
import sys
import tempfile

from loopback import end_on_signals, free_ports, udp
from serving import Serving, waiting

BRIDGE, LIBRARY = sys.argv[1:]
SLOTS, TICKS, PIECE = 4, 60, 64
# The number of ticks within which a broken journal is renewed.
LOOK = 50
ADD = ("Add=${Media{LocalControl{Mode=SendReceive},Local{v=0\nc=IN IP4 $\nm=audio $ RTP/AVP 0\n},"
       "Remote{v=0\nc=IN IP4 127.0.0.1\nm=audio %d RTP/AVP 0\n}}}")
AUDIT = "Context=1{ContextAudit{Topology},AuditValue=*{Audit{Media}}}"
FULL, WORKS = "the journal can't be written: messages get no answer\n", "the journal can be written again\n"
UNRENEWED = "the journal can't be renewed: the next try is in a minute\n"


class Wrong(Exception):
    """Raised if the gateway did something wrong."""


def expect(holds, what):
    if not holds:
        raise Wrong(what)


def message(number, action):
    return f"MEGACO/1 [127.0.0.1]:2945 Transaction={number}{{{action}}}"


class Trial:
    """Sessions of one controller and one caller, on the same ports."""

    def __init__(self, folder):
        self.folder, self.numbers = folder, iter(range(1000, 10**9))
        self.control, self.base = free_ports(SLOTS)
        self.controller, self.caller = udp(), udp()
        self.source = "%s:%d" % self.controller.getsockname()
        actions = ("Context=${%s,%s}" % (ADD % self.caller.getsockname()[1], ADD % 9),
                   "Context=1{Topology{RTP/1,RTP/2,isolate}}",
                   "Context=1{%s}" % ADD % 9,
                   "Context=1{Modify=RTP/3{Media{LocalControl{Mode=ReceiveOnly}}}}",
                   "Context=1{Subtract=RTP/2{Audit{}}}")
        self.messages = [message(number, action) for number, action in enumerate(actions, 1)]
        self.options = ("--control-port", str(self.control), "--base-port", str(self.base), "--slots", str(SLOTS))
        # The answers of a gateway whose calls don't fail, and its answers to an audit before and after each.
        self.answers, self.audits = [], []
        with self.serving(self.path("reference")) as gateway:
            self.audits.append(self.audit(gateway))
            for text in self.messages:
                self.answers.append(self.ask(gateway, text))
                self.audits.append(self.audit(gateway))
        if "Error" in "".join(self.answers) or len(set(self.audits)) < len(self.audits):
            sys.exit(f"wrong without a refused call: {self.answers} {self.audits}")

    def path(self, name):
        return os.path.join(self.folder, name)

    def serving(self, journal, options=(), environment=None):
        return Serving(BRIDGE, journal, *self.options, *options, environment=environment)

    def ask(self, gateway, text):
        return gateway.ask(self.controller, self.control, text)

    def audit(self, gateway):
        answer = self.ask(gateway, message(next(self.numbers), AUDIT))
        return answer and answer.partition("{")[2]

    def packets(self, gateway):
        """How many packets the caller is sent in some ticks."""
        waiting(self.caller)
        gateway.run("tick\n" * TICKS)
        return len(waiting(self.caller))


class Session:
    """A session in which the call `at` of a kind fails, and then each of the kind `then`."""

    def __init__(self, trial, kind, then, options, at):
        self.trial, self.options = trial, options
        self.journal, self.mark = trial.path("journal.txt"), trial.path("told")
        # Whether the journal stays broken, or is renewed.
        self.breaks, self.renews = bool(then), kind == "sync"
        for path in (*glob.glob(self.journal + "*"), *glob.glob(self.mark)):
            os.remove(path)
        self.environment = dict(os.environ, LD_PRELOAD=LIBRARY, REFUSE=kind, REFUSE_AT=str(at), REFUSE_THEN=then,
                                REFUSE_PIECE=str(PIECE), REFUSE_TOLD=self.mark)

    def is_refused(self):
        return os.path.exists(self.mark)

    def run(self):
        """Returns whether a call was refused."""
        answered = 0
        with self.trial.serving(self.journal, self.options, self.environment) as gateway:
            if gateway.is_ready:
                answered = self.converse(gateway)
                if self.is_refused():
                    # Enough ticks for another append.
                    gateway.run("tick\n" * 10)
                wanted = [""] if not self.is_refused() else [FULL, FULL + UNRENEWED] if self.breaks else [FULL + WORKS]
                status, errors = gateway.end()
                expect(status == 0 and errors in wanted, f"status {status} and errors {errors}")
            else:
                status, errors = gateway.end()
                expect(self.is_refused() and status == 3 and errors.startswith(f"journal {self.journal}: "), errors)
        self.go_on(answered)
        return self.is_refused()

    def converse(self, gateway):
        """Returns how many messages were answered."""
        answered, missed = 0, 0
        for text, wanted in zip(self.trial.messages, self.trial.answers):
            answer = self.trial.ask(gateway, text)
            if answer is None and not self.breaks:
                missed += 1
                gateway.run("tick\n" * (LOOK if self.renews else 1))
                answer = self.trial.ask(gateway, text)
            is_broken = self.breaks and self.is_refused()
            expect(answer == (None if is_broken else wanted), f"{text} is answered by {answer}")
            answered += answer is not None
            packets = self.trial.packets(gateway)
            expect(packets == (TICKS if answered else 0), f"{packets} packets in {TICKS} ticks")
            self.check_file(answered)
        expect(missed <= self.is_refused(), f"{missed} messages had to be repeated")
        return answered

    def check_file(self, answered):
        """Checks that the file, and the one before a renewal, have each answered message once, in whole lines. A message
        that couldn't be synced may be in both files."""
        lines = []
        for path in glob.glob(self.journal + "*"):
            with open(path) as file:
                text = file.read()
            expect(self.breaks and self.is_refused() or text.endswith("\n"), f"{path} ends within a line: {text[-50:]}")
            lines += text.split("\n")[:-1]
        for one in self.trial.messages[:answered]:
            found = lines.count(f"control {self.trial.source} {one.encode().hex()}")
            expect(found in range(1, 2 + self.renews), f"the journal has {found} lines for the answered {one}")

    def go_on(self, answered):
        """Checks a gateway that resumes from the journal."""
        trial = self.trial
        with trial.serving(self.journal) as gateway:
            expect(gateway.is_ready, "the next gateway doesn't start")
            known = trial.audit(gateway)
            expect(known == trial.audits[answered], f"{answered} answered, known: {known}")
            answers = [trial.ask(gateway, text) for text in trial.messages]
            expect(answers == trial.answers, f"answered {answers}, not {trial.answers}")
            expect(trial.audit(gateway) == trial.audits[-1], "another audit at the end")


def refuse(trial, kind, then, options):
    """Refuses one call after another, until a session has no such call. Returns how many there were."""
    at = 1
    while True:
        try:
            if not Session(trial, kind, then, options, at).run():
                return at - 1
        except Wrong as wrong:
            sys.exit(f"{' '.join(options)} {kind} {at} {then}: {wrong}")
        at += 1


def partial_line(trial):
    """A gateway that can't cut off a partial last line doesn't start, and leaves the file unchanged."""
    journal = trial.path("partial")
    with trial.serving(journal) as gateway:
        trial.packets(gateway)
    with open(journal, "a") as file:
        file.write("ti")
    with open(journal) as file:
        text = file.read()
    with trial.serving(journal, (), dict(os.environ, LD_PRELOAD=LIBRARY, REFUSE="cut", REFUSE_AT="1")) as gateway:
        ended = gateway.end()
    with open(journal) as file:
        is_same = file.read() == text
    if gateway.is_ready or ended[0] != 3 or not ended[1].startswith(f"journal {journal}: ") or not is_same:
        sys.exit(f"wrong: a partial line, the cut of which is refused: {ended}, unchanged: {is_same}")
    print("the first cut refused: the gateway doesn't start")


def main():
    end_on_signals()
    with tempfile.TemporaryDirectory() as folder:
        trial = Trial(folder)
        partial_line(trial)
        for options in ((), ("--sync",)):
            for kind, then in (("append", ""), ("append", "cut"), ("sync", "")):
                count = refuse(trial, kind, then, options)
                # Without the option, only the title is synced.
                if count == 0 or (kind, options) != ("sync", ()) and count == 1:
                    sys.exit(f"wrong: only {count} sessions of {kind} {' '.join(options)}")
                print(f"each {kind} refused{', and then each ' + then if then else ''}"
                      f"{', with --sync' if options else ''}: {count} sessions", flush=True)


main()
