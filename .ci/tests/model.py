"""A model of a gateway, according to docs/PROFILE.md and the definitions: who hears whom, and what each listener is
sent."""
from bisect import bisect_right
from collections import defaultdict

MU, A = 0, 8
MODES = ("Inactive", "SendOnly", "ReceiveOnly", "SendReceive", "Loopback")
TALKS, LISTENS = ("ReceiveOnly", "SendReceive"), ("SendOnly", "SendReceive")
# A frame repeats its first samples, so that few have to be computed.
SAMPLES = 4
SILENCE = [0] * SAMPLES


def magnitudes(law, level):
    """The smallest magnitude of a level of G.711, and the decoded magnitude."""
    exponent, mantissa = divmod(level, 16)
    if law == MU:
        return (16 + mantissa << exponent + 3) - 132, ((8 * mantissa + 132) << exponent) - 132
    if exponent == 0:
        return 16 * mantissa, 16 * mantissa + 8
    return 16 + mantissa << exponent + 3, 16 * mantissa + 264 << exponent - 1


LEVELS = {law: [magnitudes(law, level) for level in range(128)] for law in (MU, A)}


def encode(law, sample):
    level = bisect_right(LEVELS[law], (abs(sample), 99999), 1) - 1
    if law == MU:
        return 127 - level if sample < 0 else 255 - level
    return level ^ 0x55 if sample < 0 else 128 + level ^ 0x55


def decode(law, byte):
    value = 255 - byte if law == MU else byte ^ 0x55
    size = LEVELS[law][value % 128][1]
    return -size if (value >= 128) == (law == MU) else size


class Termination:
    def __init__(self, number, slot, mode, local, remote):
        """Local and Remote are laws, or None."""
        self.number, self.slot, self.mode, self.local, self.remote = number, slot, mode, local, remote
        self.context, self.ticks, self.packets, self.has_sent = None, 0, 0, False
        # The play list: how many ticks it waits (None: it is idle), frames by number, the next number, the last frame.
        self.wait, self.frames, self.next, self.last = None, {}, 0, None

    def place(self, sequence, frame):
        """Places a frame that follows all earlier ones closely."""
        if self.wait is None:
            self.wait, self.frames, self.next, self.last = 2, {}, sequence, None
        self.frames[sequence] = frame

    def play(self):
        """Returns the frame of the next tick."""
        if self.wait:
            self.wait -= 1
        elif not self.frames:
            self.wait = self.last = None
        else:
            last, self.last = self.last, self.frames.pop(self.next, None)
            self.next += 1
            return self.last or [sample // 2 for sample in last or SILENCE]
        return SILENCE


class Gateway:
    """Each command returns an error number, or None."""

    def __init__(self, slots):
        self.slots, self.last_termination, self.last_context, self.ticks = slots, 0, 0, 0
        # The terminations by number, the members of each context, and pairs (talker, listener) that are muted.
        self.terminations, self.members, self.muted = {}, defaultdict(list), set()

    def talkers(self, listener):
        """The talkers whose speech flows to a listener."""
        if listener.mode not in LISTENS:
            return []
        others = [it for it in self.terminations.values() if it is not listener and it.context == listener.context]
        return [it for it in others if it.mode in TALKS and (it.number, listener.number) not in self.muted]

    def fault(self, context, number=None):
        if number is not None and number not in self.terminations:
            return 430
        if not (context is None or self.members[context]):
            return 411
        return 435 if number is not None and self.terminations[number].context != context else None

    def enter(self, it, context):
        """A context of None means a new one. At first, no pair with the newcomer is muted."""
        if context is None:
            context = self.last_context = self.last_context + 1
        it.context = context
        self.members[context].append(it.number)
        self.muted = {pair for pair in self.muted if it.number not in pair}

    def add(self, context, mode, local, remote):
        free = set(range(self.slots)) - {it.slot for it in self.terminations.values()}
        fault = self.fault(context)
        if fault or not free:
            return fault or 432
        number = self.last_termination = self.last_termination + 1
        self.terminations[number] = Termination(number, min(free), mode, local, remote)
        return self.enter(self.terminations[number], context)

    def modify(self, context, number, mode):
        fault = self.fault(context, number)
        if not fault:
            self.terminations[number].mode = mode
        return fault

    def subtract(self, context, number):
        fault = self.fault(context, number)
        if not fault:
            self.members[context].remove(number)
            del self.terminations[number]
        return fault

    def move(self, context, number):
        it = self.terminations.get(number)
        if it is None or it.context == context:
            return 433 if it else 430
        if fault := self.fault(context):
            return fault
        self.members[it.context].remove(number)
        return self.enter(it, context)

    def topology(self, context, triples):
        """Each triple has two numbers, or None for all members, and an association."""
        members = self.members[context]
        triples = [[members if it is None else [it] for it in pair] + [word] for *pair, word in triples]
        for one, other, word in triples if members else []:
            if not set(one + other) <= set(members):
                return 435
            if word == "Oneway" and set(one) & set(other):
                return 421
        for one, other, word in triples:
            for first, second in ((first, second) for first in one for second in other):
                (self.muted.add if word == "Isolate" else self.muted.discard)((first, second))
                (self.muted.discard if word == "Bothway" else self.muted.add)((second, first))
        return None if members else 411

    def state(self):
        """The context, mode, talkers and port of each termination."""
        found = self.terminations.values()
        talkers = {it.number: [f"RTP/{talker.number}" for talker in self.talkers(it)] for it in found}
        return {it.number: (it.context, it.mode, talkers[it.number], 30000 + 2 * it.slot) for it in found}

    def changes(self, before):
        """The changes since this state, as comments."""
        head, after = f"# {self.ticks} ticks: RTP/", self.state()
        lines = [f"{head}{number} ended" for number in before if number not in after]
        for number, (context, mode, talkers, port) in after.items():
            old_context, old_mode, old_talkers, _ = before.get(number, (None, None, [], None))
            if number not in before:
                lines.append(f"{head}{number} made in context {context} at port {port}")
            elif old_context != context:
                lines.append(f"{head}{number} moved to context {context}")
            if old_mode != mode:
                lines.append(f"{head}{number} mode {mode}")
            if old_talkers != talkers:
                lines.append(f"{head}{number} hears {' '.join(talkers) or 'nobody'}")
        return lines

    def tick(self):
        """Advances by 20 ms. Returns the packets as lines."""
        self.ticks += 1
        played = {it.number: it.play() for it in self.terminations.values()}
        return [line for it in self.terminations.values() for line in self.packets(it, played)]

    def packets(self, it, played):
        """The packet of a termination, if it sends."""
        it.ticks, had_sent = it.ticks + 1, it.has_sent
        it.has_sent = it.remote is not None and it.mode in (*LISTENS, "Loopback")
        if not it.has_sent:
            return []
        heard = [played[talker.number] for talker in ([it] if it.mode == "Loopback" else self.talkers(it))]
        mix = [max(-32768, min(32767, sum(samples))) for samples in zip(SILENCE, *heard)]
        payload = bytes(encode(it.remote, sample) for sample in mix) * (160 // SAMPLES)
        header = f"80{it.remote + 128 * (not had_sent):02x}{it.packets:04x}{160 * (it.ticks - 1):08x}{it.number:08x}"
        it.packets += 1
        return [f"rtp {30000 + 2 * it.slot} 192.0.2.{it.number}:40000 {header}{payload.hex()}"]
