"""Tries random joins, isolations, rules, roles, mutes, moves and failures, on two gateways with journals. Every second,
the gateways' own answers are compared with the rooms' rules and isolations, and with what each phone hears. The trial
keeps its own record of rules, roles, mutes and isolations. Only after a change that wasn't answered with 200 does it
read them from the controller.

usage: anything.py [MINUTES [SEED]]
With the same seed, the same changes are tried in the same order, but perhaps at other moments.
"""
import random
import signal
import sys
import time
import urllib.error

from lobby import Lobby, Phone, Phones, check, finish
from loopback import end_on_signals

PHONES, ROOMS, ROLES = 12, ["1", "2", "3"], ["customer", "agent", "coach"]
# The possible answers to a change if something else happened first.
RACES = (404, 409, 502, 503, 504)


PRESETS = {"plain": [], "lecture": [(False, {"role": "listener"}, "everyone")],
           "coaching": [(False, {"role": "coach"}, {"role": "customer"})], "monitored": [(False, {"role": "monitor"}, "everyone")]}


def matches(party, member):
    return party == "everyone" or party.get("role") == member["role"] or party.get("member") == member["id"]


def hears(listener, talker, rules):
    """The last rule that matches decides. A rule says whether the talker is heard, and names the talker and the
    listener."""
    return next((heard for heard, by, to in reversed(rules) if matches(by, talker) and matches(to, listener)), True)


class World:
    def __init__(self, lobby):
        self.lobby, self.changes, self.failures, self.last = lobby, 0, 0, None
        self.loop = Phones(self.phone(n) for n in range(PHONES))
        # The rules by room; room, role and mute by phone; and whether it isn't known if a change was made.
        self.rules, self.known, self.unsure = {room: [] for room in ROOMS}, {}, False

    def phone(self, n):
        return Phone(self.lobby, random.choice(ROOMS), 300 + 100 * n, 1500)

    def members(self):
        """All members, by the names of their phones, with their rooms."""
        return {name: (room, member) for room in ROOMS for name, member in self.lobby.members(room).items()}

    def ask(self, method, path, body=None):
        """Returns whether the change was made."""
        try:
            self.lobby.ask(method, path, body)
            return True
        except urllib.error.HTTPError as error:
            if error.code not in RACES:
                check(f"{method} {path} {body}: {error.code}", False)
            self.unsure = True
            return False

    def add(self, room, *rules):
        parties = [rule[1:] for rule in rules]
        self.rules[room] = [rule for rule in self.rules[room] if rule[1:] not in parties] + list(rules)

    def forget(self, member):
        """Rules that name a member end with his call, in each room."""
        self.rules = {room: [rule for rule in rules if {"member": member["id"]} not in rule] for room, rules in self.rules.items()}

    def change(self):
        self.changes += 1
        phone = random.choice(self.loop.phones)
        # A room that ended has no rules.
        there = self.lobby.ask("GET", "/rooms")["rooms"]
        self.rules = {room: self.rules[room] if room in there else [] for room in ROOMS}
        room, member = self.members().get(phone.name, (None, None))
        if member is None:
            self.call(phone)
            return
        own, act = {"member": member["id"]}, f"/members/{member['id']}"
        match random.choice(["isolate", "release", "oneway", "mute", "role", "move", "rules", "preset", "hang_up", "bye", "lock"]):
            case "isolate" | "release" as how:
                if self.ask("POST", f"{act}/{how}"):
                    self.known[phone.name]["isolated"] = how == "isolate"
            case "oneway":
                others = [m for r, m in self.members().values() if r == room and m["id"] != member["id"]]
                if others:
                    listener = random.choice(others)["id"]
                    if self.ask("POST", f"{act}/oneway", {"listener": listener}):
                        self.add(room, (True, own, {"member": listener}), (False, {"member": listener}, own))
            case "mute":
                muted = random.random() < 0.5
                if self.ask("POST", f"{act}/{'mute' if muted else 'unmute'}"):
                    self.known[phone.name]["muted"] = muted
            case "role":
                role = random.choice(ROLES)
                if self.ask("POST", f"{act}/role", {"role": role}):
                    self.known[phone.name]["role"] = role
            case "move":
                to = random.choice(ROOMS)
                if to != room and self.ask("POST", f"{act}/move", {"room": to}):
                    self.known[phone.name]["room"] = to
            case "rules":
                heard, talker, listener = random.random() < 0.5, *(random.choice(["everyone", {"role": random.choice(ROLES)}, own]) for _ in "tl")
                if self.ask("POST", f"/rooms/{room}/rules", {"rules": [{"hears": heard, "talker": talker, "listener": listener}]}):
                    self.add(room, (heard, talker, listener))
            case "preset":
                preset = random.choice(list(PRESETS))
                if self.ask("PUT", f"/rooms/{room}", {"preset": preset}):
                    self.rules[room] = PRESETS[preset]
            case "lock":
                self.ask("POST", f"/rooms/{room}/lock")
                self.ask("POST", f"/rooms/{room}/unlock")
            case "hang_up" | "bye" as how:
                if how == "bye":
                    phone.hang_up()
                    self.loop.run(5, lambda: phone.state == "ended")
                else:
                    self.ask("POST", f"{act}/hang_up")
                self.loop.run(5, lambda: phone.name not in self.members())
                self.forget(member)

    def call(self, phone):
        phone.number, phone.to_tag = 0, ""
        phone.call_id, phone.room = f"{random.random()}@trial", random.choice(ROOMS)
        self.known[phone.name] = {"room": phone.room, "role": "member", "muted": False, "isolated": False}
        phone.call()
        self.loop.run(5, lambda: phone.state != "new")

    def fail(self):
        """Ends a gateway or a process of the controller, or suspends a gateway for a while."""
        self.failures += 1
        self.last = "a gateway"
        gateway = random.choice(self.lobby.gateways)
        match random.choice(["comes back", "is lost", "is held up", "process", "process"]):
            case "comes back":
                gateway.kill()
                self.loop.run(random.uniform(0.05, 0.8))
                gateway.start()
            case "is lost":
                gateway.kill()
                self.loop.run(2.5)
                gateway.start()
            case "is held up":
                gateway.process.send_signal(signal.SIGSTOP)
                self.loop.run(random.uniform(0.2, 2.5))
                gateway.process.send_signal(signal.SIGCONT)
            case _:
                # If the process that evaluates this ended, so would the trial; if the store ended, so would the node.
                name, process = random.choice(self.lobby.processes())
                self.last = name
                self.lobby.evaluate(f'exit(list_to_pid("{process}"), kill).')
                self.loop.run(0.5)

    def wanted(self):
        """For each room, the context and the flows that the rules allow, by terminations; for each phone, whom it must
        hear."""
        rooms, heard = [], {phone.pitch: set() for phone in self.loop.phones}
        pitches = {phone.name: phone.pitch for phone in self.loop.phones}
        for name in self.lobby.ask("GET", "/rooms")["rooms"]:
            room = self.lobby.ask("GET", f"/rooms/{name}")
            if self.unsure:
                self.rules[name] = [(rule["hears"], rule["talker"], rule["listener"]) for rule in room["rules"]]
                self.known |= {m["caller"]: {"room": name, "role": m["role"], "muted": m["muted"], "isolated": m["isolated"]} for m in room["members"]}
            for member in room["members"]:
                member |= self.known[member["caller"]]
            pairs = [(talker, listener) for talker in room["members"] for listener in room["members"]
                     if talker is not listener and not talker["isolated"] and not listener["isolated"]
                     and hears(listener, talker, self.rules[name])]
            if not room["members"]:
                continue
            if any(member["room"] != name for member in room["members"]):
                raise KeyError(name)
            rooms.append((room["gateway"], room["context"], {(a["termination"], b["termination"]) for a, b in pairs},
                          {m["termination"] for m in room["members"]}))
            for talker, listener in pairs:
                if not talker["muted"]:
                    heard[pitches[listener["caller"]]].add(pitches[talker["caller"]])
        return rooms, heard

    def agrees(self):
        """Whether the gateways agree with the rules. If a room has a single member, there is nothing to compare."""
        try:
            rooms, self.heard = self.wanted()
            gateways = {gateway.name: gateway for gateway in self.lobby.gateways}
            return all(len(there) < 2 or flows == gateways[name].flows(context) for name, context, flows, there in rooms)
        except (OSError, KeyError):
            return False  # Something isn't there yet.

    def explain(self, pitches):
        """Prints what the controller and the gateways know about these phones' calls."""
        gateways = {gateway.name: gateway for gateway in self.lobby.gateways}
        members = self.members()
        for gateway in gateways.values():
            print(f"  {gateway.name} said: {(self.lobby.folder / f'{gateway.name}.log').read_text()[-1000:]}")
        for phone in self.loop.phones:
            if phone.pitch in pitches:
                room, member = members.get(phone.name, (None, {}))
                print(f"  {phone.pitch}: {phone.state}, sends to {phone.remote}, listens on {phone.rtp.getsockname()}, has just received "
                      f"{len(phone.heard)} packets; {room}: {member}")
                if room and "termination" in member:
                    about = self.lobby.ask("GET", f"/rooms/{room}")
                    print("   ", gateways[about["gateway"]].ask(f"Context={about['context']}{{AuditValue=RTP/{member['termination']}"
                                                                "{Audit{Media}}}").replace("\n", " "))

    def compare(self, limit):
        took = self.loop.run(limit, lambda: self.loop.run(0.05) and self.agrees())
        if not self.agrees():
            rooms, _ = self.wanted()
            check(f"after {took:.1f} s, a gateway has another topology: {rooms}", False)
        for _ in range(20):
            self.loop.forget()
            self.loop.run(0.15)
            ears = self.loop.matrix()
            wrong = {pitch: (ears.get(pitch, set()), whom) for pitch, whom in self.heard.items() if ears.get(pitch, set()) != whom}
            if not wrong:
                self.unsure = False
                return took
        self.explain(set().union(*({pitch} | (ears ^ whom) for pitch, (ears, whom) in wrong.items())))
        check(f"after {self.last}, phones hear others (pitch: (hears, should hear)): {wrong}", False)
        finish()


def main():
    end_on_signals()
    minutes = float(sys.argv[1]) if len(sys.argv) > 1 else 60
    seed = int(sys.argv[2]) if len(sys.argv) > 2 else random.randrange(1 << 32)
    random.seed(seed)
    print(f"seed {seed}", flush=True)
    with Lobby(gateways=2, journal=True, returns=1000) as lobby:
        world = World(lobby)
        end, times, shown, unsure = time.monotonic() + 60 * minutes, [], time.monotonic(), 0
        while time.monotonic() < end:
            began = time.monotonic()
            for _ in range(random.randint(1, 6)):
                world.change()
            failing = random.random() < 0.1
            if failing:
                world.fail()
            unsure += world.unsure
            times.append(world.compare(10 if failing else 5))
            world.loop.run(max(0, 1 - (time.monotonic() - began)))
            if time.monotonic() - shown > 60:
                shown = time.monotonic()
                print(f"{world.changes} changes, {world.failures} failures, {len(times)} comparisons, {unsure} of them unsure", flush=True)
        counts = {name: int(lobby.metric(f"lobby_{name}_total")) for name in
                  ("gateway_losses", "gateway_returns", "conferences_kept", "conferences_made_again", "topologies_repaired")}
        log = (lobby.folder / "log").read_text()
        check(f"{world.changes} changes, {world.failures} failures, {len(times)} comparisons ({unsure} unsure); the controller counts {counts}",
              len(times) > 0)
        print(f"{log.count('CRASH REPORT')} crash reports in the controller's log")
    finish()


main()
