"""Scripts of random events, whose output is compared with that of a model."""
import random
import re

from model import A, MODES, MU, SAMPLES, Gateway, decode
from programs import Commands, run

SLOTS = 8
SCRIPTS = 40
EVENTS = 120


def name(number):
    return "*" if number is None else f"RTP/{number}"


def descriptions(number, local, remote):
    """The Local and Remote of a termination, if it has them."""
    text = "" if local is None else f",Local{{v=0\\nc=IN IP4 $\\nm=audio $ RTP/AVP {local}\\n}}"
    if remote is not None:
        text += f",Remote{{v=0\\nc=IN IP4 192.0.2.{number}\\nm=audio 40000 RTP/AVP {remote}\\n}}"
    return text


class Script:
    """A random script, with the output that the model gives."""

    def __init__(self, seed):
        self.random, self.gateway = random.Random(seed), Gateway(SLOTS)
        self.lines, self.wanted = [], []
        for number in range(EVENTS):
            before = self.gateway.state()
            if self.random.random() < 0.5:
                self.command(number)
                self.wanted += self.gateway.changes(before)
            else:
                self.speak(number)
                self.lines.append("tick")
                self.wanted += self.gateway.tick()

    def command(self, number):
        """A request on any context and termination, which may not exist."""
        gateway, choice = self.gateway, self.random.choice
        contexts = [it for it, members in gateway.members.items() if members]
        context = choice([*contexts * 8, gateway.last_context + 1])
        members = gateway.members[context]
        target = choice([*members * 8, *gateway.terminations, gateway.last_termination + 1])
        entered = choice([None, *contexts * 2, context])
        to = "$" if entered is None else entered
        kind = choice(["add", "add", "modify", "move", "move", "subtract", "topology", "topology"])
        mode = choice([*MODES, *["SendReceive"] * 6])
        if kind == "add":
            local, remote = (choice([MU, A, MU, A, None]) for _ in range(2))
            described = descriptions(gateway.last_termination + 1, local, remote)
            text = f"{to}{{Add=${{Media{{LocalControl{{Mode={mode}}}{described}}}}}}}"
            fault = gateway.add(entered, mode, local, remote)
        elif kind == "modify":
            text = f"{context}{{Modify=RTP/{target}{{Media{{LocalControl{{Mode={mode}}}}}}}}}"
            fault = gateway.modify(context, target, mode)
        elif kind == "move":
            text, fault = f"{to}{{Move=RTP/{target}}}", gateway.move(entered, target)
        elif kind == "subtract":
            text, fault = f"{context}{{Subtract=RTP/{target}{{Audit{{}}}}}}", gateway.subtract(context, target)
        else:
            terms, words = [*members * 3, target, None], ["Isolate", "Oneway", "Oneway", "Bothway"]
            triples = [(choice(terms), choice(terms), choice(words)) for _ in range(self.random.randint(1, 3))]
            listed = ",".join(f"{name(one)},{name(other)},{word}" for one, other, word in triples)
            text, fault = f"{context}{{Topology{{{listed}}}}}", gateway.topology(context, triples)
        self.lines.append(f"say 10.0.0.9:2945 MEGACO/1 [10.0.0.9]:2945 Transaction={number + 1}{{Context={text}}}")
        self.wanted.append(f"reply {number + 1} error {fault}")

    def speak(self, sequence):
        """Most callers send a packet. Some packets are dropped, because of their source, type or length."""
        for it in self.gateway.terminations.values():
            law, source, length = self.random.choice([MU, A]) if it.local is None else it.local, it.number, 160
            kind = self.random.choice(["lost", "stray", "other type", "short", *["good"] * 26])
            if kind == "lost":
                continue
            if kind == "stray":
                source = 254
            elif kind == "other type":
                law = MU + A - law
            elif kind == "short":
                length = 159
            payload = self.random.randbytes(SAMPLES) * (160 // SAMPLES)
            sequence_of = it.ticks
            header = f"80{law:02x}{sequence_of:04x}{0:08x}{it.number:08x}"
            self.lines.append(f"rtp {30000 + 2 * it.slot} 192.0.2.{source}:40000 {header}{payload[:length].hex()}")
            is_stray = it.remote is not None and source != it.number
            if it.local == law and length == 160 and not is_stray:
                it.place(sequence_of, [decode(law, byte) for byte in payload[:SAMPLES]])


def found(line):
    """An output line in the model's form: a reply is reduced to its error."""
    reply = re.match(r"say 10\.0\.0\.9:2945 MEGACO/1 \[127\.0\.0\.1\]:2944\\nReply=([0-9]+){", line)
    if not reply:
        return line
    error = re.search("Error=([0-9]+)", line)
    return f"reply {reply[1]} error {error and int(error[1])}"


class RandomScripts(Commands):
    def test_output_is_that_of_the_model(self):
        for seed in range(SCRIPTS):
            with self.subTest(seed=seed):
                script = Script(seed)
                text = "".join(f"{line}\n" for line in script.lines)
                status, output, errors = run("replay", "--flows", f"--slots={SLOTS}", text=text)
                self.assertEqual((status, errors), (0, ""))
                self.assertEqual([found(line) for line in output.splitlines()], script.wanted)
