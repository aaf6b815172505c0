"""Kills a gateway that often renews its journal, and makes each of its calls on files fail in turn.

usage: renewals.py BRIDGE LIBRARY [KILLS [SEED]]

LIBRARY is built from trials/refusals/refuse.c. KILLS is 2000 by default. The gateway (`serve --checkpoint-every 50`) is
killed before some write, sync, link, rename or the like. Files are written in small pieces, so a kill can fall between
any two bytes. The next gateway starts from the journal, and the controller repeats the request that wasn't answered.
Each answer has the same bytes as that of a gateway that is never killed. At the end, `heard` finds the same intervals in
all files of the journal as in the other gateway's journal.

Then each such call fails in turn, one in each session. The answers of a session have the same bytes, except that some
requests must be repeated while the journal can't be written, and a gateway that resumes knows all that was answered.
Exits with 1 if a check fails.
"""
import os
import random
import re
import subprocess
import sys
import tempfile
from collections import defaultdict
from glob import glob

from loopback import end_on_signals, free_ports, udp
from serving import Serving

BRIDGE, LIBRARY = sys.argv[1:3]
KILLS = int(sys.argv[3]) if len(sys.argv) > 3 else 2000
SEED = int(sys.argv[4]) if len(sys.argv) > 4 else 1
SLOTS, MEMBERS, BATCH = 16, 6, 2000
ADD = ("Add=${Media{LocalControl{Mode=%s},Local{v=0\nc=IN IP4 $\nm=audio $ RTP/AVP 0\n},"
       "Remote{v=0\nc=IN IP4 127.0.0.1\nm=audio %d RTP/AVP 0\n}}}")
MODES = ("SendReceive", "SendOnly", "ReceiveOnly", "Inactive")
WORDS = ("isolate", "oneway", "bothway")
# What a gateway reports that had no fault.
CONTINUES = re.compile("(journal .*: continues after [0-9]+ messages and [0-9]+ ticks\n)?")
# Enough ticks for another try after a renewal that failed.
MINUTE = 3100


def check(holds, what):
    if not holds:
        sys.exit(f"wrong: {what}")


class Requests:
    """Requests that change two conferences at random. Each is carried out if those before it were."""

    def __init__(self, seed):
        self.random, self.next, self.number = random.Random(seed), 1, 0
        self.members = {1: [], 2: []}

    def text(self, action):
        self.number += 1
        return f"MEGACO/1 [127.0.0.1]:2945 Transaction={self.number}{{{action}}}"

    def add(self, context):
        name = context if self.members[context] else "$"
        self.members[context].append(self.next)
        self.next += 1
        return f"Context={name}{{{ADD % (self.random.choice(MODES), self.random.randrange(1024, 60000))}}}"

    def edit(self, context):
        members, chosen = self.members[context], self.random.random()
        if chosen < 0.15 and len(members) > 2:
            one = members.pop(self.random.randrange(len(members)))
            return f"Context={context}{{Subtract=RTP/{one}{{Audit{{}}}}}}"
        if chosen < 0.5:
            one, two = self.random.sample(members, 2)
            return f"Context={context}{{Topology{{RTP/{one},RTP/{two},{self.random.choice(WORDS)}}}}}"
        if chosen < 0.9:
            one = self.random.choice(members)
            return f"Context={context}{{Modify=RTP/{one}{{Media{{LocalControl{{Mode={self.random.choice(MODES)}}}}}}}}}"
        return f"Context={context}{{ContextAudit{{Topology}},AuditValue=*{{Audit{{Media}}}}}}"

    def one(self):
        for context in (1, 2):
            if len(self.members[context]) < 2:
                return self.text(self.add(context))
        context = self.random.choice((1, 2))
        if len(self.members[context]) < MEMBERS and self.random.random() < 0.2:
            return self.text(self.add(context))
        return self.text(self.edit(context))


class Trial:
    """A controller, and the ports of all its gateways."""

    def __init__(self, folder):
        self.folder, self.controller = folder, udp()
        self.control, base = free_ports(SLOTS)
        self.options = ("--control-port", str(self.control), "--base-port", str(base), "--slots", str(SLOTS))

    def path(self, name):
        return os.path.join(self.folder, name)

    def serving(self, journal, options=(), faults=None):
        environment = dict(os.environ, LD_PRELOAD=LIBRARY, **faults) if faults else None
        return Serving(BRIDGE, journal, *self.options, *options, environment=environment)

    def ask(self, gateway, text):
        """Returns the answer to a request, which a tick follows."""
        answer = gateway.ask(self.controller, self.control, text)
        gateway.run("tick\n")
        return answer


def answered(trial, journal, requests):
    """The answers of a gateway that is never killed."""
    with trial.serving(journal) as gateway:
        answers = [trial.ask(gateway, text) for text in requests]
        check(gateway.end() == (0, ""), "a gateway that isn't killed reports an error")
    check(None not in answers, "a request isn't answered")
    return answers


def heard(files):
    """The intervals in a journal's files: for each talker and listener, the context of each, in order."""
    done = subprocess.run([BRIDGE, "heard", "--format", "csv", *files], capture_output=True, text=True)
    check(done.returncode == 0, f"heard: {done.returncode} {done.stderr}")
    found = defaultdict(list)
    rows = [line.split(",") for line in done.stdout.splitlines()]
    head, rows = rows[0], rows[1:]
    for row in rows:
        one = dict(zip(head, row))
        # The other rows are the gaps at restarts.
        if one["kind"] == "heard":
            found[one["listener"], one["talker"]].append(one["context"])
    return found


def files_of(journal):
    """The files of a journal, oldest first."""
    # Without the Z, 11.3 comes before 11.34.
    return [*sorted(glob(f"{journal}.2*"), key=lambda it: it.removesuffix("Z")), journal]


def kills(trial, seed):
    """Kills gateways of one journal again and again."""
    chosen, requests, journal, killed, place = random.Random(seed), Requests(seed), trial.path("killed.txt"), 0, 0
    texts = [requests.one() for _ in range(BATCH)]
    answers = answered(trial, trial.path("reference.txt"), texts)
    options = ("--checkpoint-every", "50", *(("--sync",) if seed % 2 else ()))
    while place < len(texts):
        faults = dict(REFUSE="file", REFUSE_KILLS="1", REFUSE_AT=str(int(2 ** chosen.uniform(0, 12))),
                      REFUSE_WRITES=str(chosen.choice((1, 7, 40, 300, 4096))))
        with trial.serving(journal, options, faults) as gateway:
            # Ticks that weren't in the journal are lost. They don't take time here, so none counts as missed.
            gateway.run("tick\n")
            while gateway.is_ready and place < len(texts):
                answer = trial.ask(gateway, texts[place])
                if answer is None:
                    break
                check(answer == answers[place], f"{texts[place]}\nanswered by {answer}\nand not by {answers[place]}")
                place += 1
            # A gateway that hasn't been killed ends as it should.
            status, errors = gateway.end()
            check(status == -9 or status == 0 and CONTINUES.fullmatch(errors), f"status {status}: {errors}")
            killed += status == -9
    names = files_of(journal)
    check(heard(names) == heard([trial.path("reference.txt")]), f"other intervals, seed {seed}")
    return killed, len(names)


class Session:
    """A session in which one call on a file fails."""

    def __init__(self, trial, kind, options, at):
        self.trial, self.options = trial, ("--checkpoint-every", "4", *options)
        self.journal, self.mark = trial.path("-".join((kind, str(at), *options)) + ".txt"), trial.path("told")
        if os.path.exists(self.mark):
            os.remove(self.mark)
        self.faults = dict(REFUSE=kind, REFUSE_AT=str(at), REFUSE_WRITES="64", REFUSE_TOLD=self.mark)

    def run(self, texts, answers):
        """Returns whether a call failed."""
        with self.trial.serving(self.journal, self.options, self.faults) as gateway:
            for text, wanted in zip(texts, answers) if gateway.is_ready else ():
                answer = self.trial.ask(gateway, text)
                if answer is None:
                    check(os.path.exists(self.mark), f"no answer to {text}, though no call failed")
                    gateway.run("tick\n" * MINUTE)
                    answer = self.trial.ask(gateway, text)
                check(answer == wanted, f"{text}\nanswered by {answer}\nand not by {wanted}")
            status, errors = gateway.end()
            check(status == (0 if gateway.is_ready else 3), f"status {status}: {errors}")
        is_refused = os.path.exists(self.mark)
        with self.trial.serving(self.journal, self.options) as gateway:
            check(gateway.is_ready, "the next gateway doesn't start")
            again = [self.trial.ask(gateway, text) for text in texts]
            check(again == answers, f"then answered {again}\nand not {answers}")
        return is_refused


def faults(trial, options):
    """Makes each call of each kind fail in turn."""
    requests = Requests(7)
    texts = [requests.one() for _ in range(14)]
    answers = answered(trial, trial.path(f"faults{len(options)}.txt"), texts)
    for kind in ("append", "sync", "cut", "link", "rename", "create"):
        at = 1
        while Session(trial, kind, options, at).run(texts, answers):
            at += 1
        print(f"each {kind} refused{', with --sync' if options else ''}: {at - 1} sessions", flush=True)


def main():
    end_on_signals()
    killed, files, seed = 0, 0, SEED
    while killed < KILLS:
        with tempfile.TemporaryDirectory() as folder:
            more, names = kills(Trial(folder), seed)
            killed, files, seed = killed + more, files + names, seed + 1
    print(f"{killed} kills, {(seed - SEED) * BATCH} requests, {files} files: nothing answered was forgotten or run twice, "
          "and heard finds the same intervals", flush=True)
    with tempfile.TemporaryDirectory() as folder:
        trial = Trial(folder)
        for options in ((), ("--sync",)):
            faults(trial, options)


main()
