"""Two controllers with keepalived, each in its own network namespace, and phones in a third one that talk through a
gateway all the time. One of the phones is isolated. Nodes are killed, stopped and cut off. Each time, the trial
measures how long nobody answers SIP at their address; the conference must continue with the same members and rules.

usage: two.py [KILLS]

It needs root, iproute2 and keepalived.
"""
import ctypes
import json
import os
import re
import shutil
import signal
import statistics
import subprocess
import sys
import tempfile
import time
import urllib.request
from pathlib import Path

from lobby import ROOT, TOKEN, Gateway, Phone, Phones, check, finish, loudness, until
from loopback import end_on_signals

VIP, OUTSIDE = "192.0.2.20", "192.0.2.10"
HUB, PHONES = "two-hub", "two-phones"
CALLERS, ISOLATED = 6, 0


def ip(*words):
    subprocess.run(["ip", *words], check=True)


def run_in(namespace, command, **more):
    return subprocess.Popen(["ip", "netns", "exec", namespace, *map(str, command)], **more)


class Node:
    """A host: a namespace with the network of phones and gateways, and one between the nodes."""

    def __init__(self, folder, number):
        self.number, self.name, self.folder = number, f"two-{number}", folder / str(number)
        self.folder.mkdir()
        ip("netns", "add", self.name)
        for kind, network in (("o", "192.0.2.2"), ("i", "10.0.0.2")):
            ip("link", "add", f"{kind}{number}", "netns", self.name, "type", "veth", "peer", "name", f"{kind}h{number}", "netns", HUB)
            ip("-n", HUB, "link", "set", f"{kind}h{number}", "master", f"lan{kind}", "up")
            ip("-n", self.name, "addr", "add", f"{network}{number}/24", "dev", f"{kind}{number}")
            ip("-n", self.name, "link", "set", f"{kind}{number}", "up")
        ip("-n", self.name, "link", "set", "lo", "up")
        self.process = self.keepalived = None

    def configure(self, control):
        text = (ROOT / "deploy/pair/lobby.config").read_text()
        text = re.sub(r"{gateways, \[.*?\]}", f'{{gateways, [#{{name => <<"g">>, address => {{{{192,0,2,10}}, {control}}}, '
                      'here => {192,0,2,20}}]}', text, flags=re.S)
        text = text.replace("{tokens, []}", f'{{tokens, [{{<<"{TOKEN}">>, operator}}]}}, {{max_calls_from, 1024}}')
        text = text.replace("/var/lib/lobbysorrel-controller/db", str(self.folder / "db")).replace("/run/lobbysorrel-controller", str(self.folder))
        if self.number == 2:
            text = text.replace("self => 'lobby@10.0.0.21', peer => 'lobby@10.0.0.22'", "self => 'lobby@10.0.0.22', peer => 'lobby@10.0.0.21'")
        (self.folder / "lobby.config").write_text(text)
        text = (ROOT / "deploy/pair/keepalived.conf").read_text().replace("interface eth0", f"interface o{self.number}")
        text = text.replace("/run/lobbysorrel-controller", str(self.folder))
        if self.number == 2:
            text = text.replace("192.0.2.21", "X").replace("192.0.2.22", "192.0.2.21").replace("X", "192.0.2.22")
        (self.folder / "keepalived.conf").write_text(text)

    def erl(self, command):
        built = Path(os.environ["REBAR_BASE_DIR"]) / "default/lib/lobby/ebin"
        return run_in(self.name, ["erl", "-noinput", "+sbwt", "none", "-start_epmd", "false", "-erl_epmd_port", "4370", "-pa", built,
                                  "-run", "lobby_app", command, self.folder / "lobby.config"],
                      stdin=subprocess.DEVNULL, stdout=open(self.folder / "log", "a"), stderr=subprocess.STDOUT, cwd=self.folder)

    def start(self):
        self.process = self.erl("run")

    def watch(self):
        self.keepalived = run_in(self.name, ["keepalived", "-n", "-l", "-f", self.folder / "keepalived.conf", "-p", self.folder / "k.pid",
                                             "-r", self.folder / "v.pid"], stdout=open(self.folder / "keepalived.log", "w"), stderr=subprocess.STDOUT)

    def signal(self, number):
        self.process.send_signal(number)

    def stop(self):
        """Stops the node, and waits until none of its threads runs: on a busy machine, that takes a moment."""
        self.signal(signal.SIGSTOP)
        tasks = Path(f"/proc/{self.process.pid}/task")
        until(lambda: all(") T " in (task / "stat").read_text() for task in tasks.iterdir()), step=0.001)

    def kill(self):
        self.process.kill()
        self.process.wait()

    def ended(self):
        return self.process.poll() is not None

    def has_address(self):
        shown = subprocess.run(["ip", "-n", self.name, "-4", "addr", "show", f"o{self.number}"], capture_output=True, text=True).stdout
        return f" {VIP}/" in shown

    def ready(self):
        try:
            return int((self.folder / "ready").read_text() or -254)
        except FileNotFoundError:
            return -254

    def cut(self, kind, up):
        """Connects or cuts a cable of this node: `o` to phones and gateways, or `i` to the other node."""
        ip("-n", HUB, "link", "set", f"{kind}h{self.number}", *(["master", f"lan{kind}"] if up else ["nomaster"]))


class Outside(Gateway):
    def options(self):
        return ["--address", OUTSIDE, "--controller", VIP]


class Address:
    """The properties of a controller that a phone needs."""
    host, sip = OUTSIDE, 5060


class Caller(Phone):
    """A phone that calls the address that one of the nodes has."""

    def __init__(self, pitch):
        super().__init__(Address, "100", pitch, 2000)
        self.pong, self.pinged, self.before = False, 0, 0

    def send(self, text):
        try:
            self.sip.sendto(text.encode(), (VIP, Address.sip))
        except OSError:
            pass  # Nobody has the address.

    def ping(self):
        """Sends OPTIONS in the call at intervals: only a node that knows the call answers with 200."""
        if time.monotonic() - self.pinged > 0.01:
            self.pinged = time.monotonic()
            self.request("OPTIONS")
        return self.pong

    def forget(self):
        """Answers to earlier requests don't count."""
        self.pong, self.before = False, self.number

    def received(self, text):
        ping = re.search(r"CSeq: (\d+) OPTIONS", text)
        if ping and text.startswith("SIP/2.0"):
            self.pong |= text.startswith("SIP/2.0 200") and int(ping[1]) > self.before
        else:
            super().received(text)


class Pair:
    """Both nodes, the gateway and the phones."""

    def __init__(self, folder):
        self.folder, self.nodes, self.gateway = folder, [], None
        for namespace in (HUB, PHONES):
            ip("netns", "add", namespace)
            ip("-n", namespace, "link", "set", "lo", "up")
        try:
            self.build()
        except BaseException:
            self.__exit__()
            raise

    def build(self):
        for bridge in ("lano", "lani"):
            ip("-n", HUB, "link", "add", "name", bridge, "type", "bridge")
            ip("-n", HUB, "link", "set", bridge, "up")
        ip("link", "add", "phones", "netns", PHONES, "type", "veth", "peer", "name", "phonesh", "netns", HUB)
        ip("-n", HUB, "link", "set", "phonesh", "master", "lano", "up")
        ip("-n", PHONES, "addr", "add", f"{OUTSIDE}/24", "dev", "phones")
        ip("-n", PHONES, "link", "set", "phones", "up")
        for number in (1, 2):
            self.nodes.append(Node(self.folder, number))
        enter(PHONES)
        self.gateway = Outside(self.folder, "g")
        for node in self.nodes:
            node.configure(self.gateway.port)

    def __enter__(self):
        return self

    def __exit__(self, *_):
        for node in self.nodes:
            if node.keepalived:
                node.keepalived.terminate()
        for process in [one for node in self.nodes for one in (node.keepalived, node.process)] + [self.gateway and self.gateway.process]:
            if process:
                process.kill() if process not in [node.keepalived for node in self.nodes] else None
                process.wait()
        for namespace in [node.name for node in self.nodes] + [PHONES, HUB]:
            ip("netns", "del", namespace)

    def begin(self):
        first, second = self.nodes
        created = first.erl("create").wait()
        first.start()
        second.start()
        ready = until(lambda: first.ready() == second.ready() == 0, 60)
        check(f"the first start: create ends with {created}, and both are ready", created == 0 and ready is not None)
        for node in self.nodes:
            node.watch()
        check("one has the address, and serves", until(lambda: self.serves(), 20) is not None)

    def holder(self):
        return next((node for node in self.nodes if node.has_address()), None)

    def other(self, node):
        return self.nodes[2 - node.number]

    def serves(self):
        try:
            return len(self.ask("/gateways")["gateways"]) == 1
        except OSError:
            return False

    def ask(self, path, method="GET", body=None):
        request = urllib.request.Request(f"http://{VIP}:8080{path}", method=method, headers={"Authorization": f"Bearer {TOKEN}"},
                                         data=None if body is None else json.dumps(body).encode())
        with urllib.request.urlopen(request, timeout=1) as answer:
            return json.loads(answer.read())


def enter(namespace):
    """Moves this process, and the processes that it starts later, into this network namespace."""
    libc = ctypes.CDLL(None, use_errno=True)
    with open(f"/run/netns/{namespace}", "rb") as file:
        if libc.setns(file.fileno(), 0x40000000) != 0:
            sys.exit(f"setns: {os.strerror(ctypes.get_errno())}")


class Conference:
    """Callers that talk all the time. The first one is isolated."""

    def __init__(self, pair):
        self.pair = pair
        self.phones = [Caller(400 + 300 * n) for n in range(CALLERS)]
        self.loop = Phones(self.phones)
        times = self.loop.call()
        self.isolated = self.phones[ISOLATED]
        room = pair.ask("/rooms/100")
        self.members = sorted(member["id"] for member in room["members"])
        self.context = room["context"]
        isolated = next(member["id"] for member in room["members"] if self.isolated.name in member["caller"])
        pair.ask(f"/members/{isolated}/isolate", "POST", {})
        others = {phone.pitch for phone in self.phones} - {self.isolated.pitch}
        self.right = {phone.pitch: others - {phone.pitch} if phone is not self.isolated else set() for phone in self.phones}
        self.loop.run(1)
        check(f"{len(times)} callers hear each other, but one", len(times) == CALLERS and self.loop.matrix() == self.right)

    def outage(self, fail, limit=15):
        """Does something. Returns how long it then takes until a node that knows the call answers, or None."""
        self.loop.run(0.5)
        self.loop.forget()
        caller = self.phones[1]
        start = time.monotonic()
        fail()
        caller.forget()
        self.loop.run(limit, caller.ping)
        return time.monotonic() - start if caller.pong else None

    def holds(self, what):
        """Checks that the conference has the same members and context, and each hears exactly whom he may. Prints the
        longest time between two packets."""
        self.loop.run(1.5)
        leaks = sum(loudness(payload, self.isolated.pitch) > 100 for phone in self.phones for _, payload in phone.heard)
        gaps = [later - earlier for phone in self.phones for (earlier, _), (later, _) in zip(phone.heard, phone.heard[1:])]
        room = self.pair.ask("/rooms/100")
        same = (sorted(member["id"] for member in room["members"]), room["context"]) == (self.members, self.context)
        terminations = self.pair.ask("/gateways")["gateways"][0]["terminations"]
        check(f"{what}: the same members and context: {same}; terminations: {terminations} of {CALLERS} callers and the controller; packets with the "
              f"isolated caller: {leaks}; the longest time between two packets: {max(gaps):.2f} s; each hears exactly whom he may: "
              f"{self.loop.matrix() == self.right}", same and terminations == CALLERS + 1 and leaks == 0 and self.loop.matrix() == self.right)


def again(pair, conference, node):
    """Starts a node that ended, and waits until it has the other node's data."""
    node.process.wait()
    conference.loop.run(0.1)
    node.start()
    return conference.loop.run(30, lambda: node.ready() == 0) < 30


def killed(pair, conference, kills):
    times = []
    for _ in range(kills):
        holder = pair.holder()
        times.append(conference.outage(holder.kill))
        check(f"killed: answered after {times[-1] and round(times[-1], 2)} s by the other node", times[-1] is not None and pair.other(holder).has_address())
        conference.holds("killed")
        check("it comes back as the standby", again(pair, conference, holder) and not holder.has_address())
    if all(times):
        check(f"{kills} kills: {statistics.median(times):.2f} s at the median, {max(times):.2f} at most", statistics.median(times) <= 0.5)


def stopped(pair, conference):
    holder = pair.holder()
    took = conference.outage(holder.stop)
    check(f"stopped: answered after {took and round(took, 2)} s by the other node", took is not None and pair.other(holder).has_address())
    conference.loop.run(1)
    holder.signal(signal.SIGCONT)
    conference.loop.run(3, holder.ended)
    check(f"continued: it ends itself, with status {holder.process.poll()}", holder.process.poll() == 3)
    conference.holds("continued")
    check("it comes back as the standby", again(pair, conference, holder))


def apart(pair, conference):
    """The nodes can't reach each other, but both reach phones and gateways."""
    holder = pair.holder()
    standby = pair.other(holder)
    conference.loop.forget()
    holder.cut("i", False)
    took = conference.loop.run(60, standby.ended)
    check(f"cut between the nodes: the standby ends itself after {took:.0f} s; the other one serves", standby.ended() and pair.serves() and holder.has_address())
    standby.start()
    conference.loop.run(4)
    check(f"started again, it isn't ready ({standby.ready()})", standby.ready() == -254)
    holder.cut("i", True)
    conference.holds("cut between the nodes")
    check("mended: it is the standby", conference.loop.run(60, lambda: standby.ready() == 0) < 60 and holder.has_address())


def unplugged(pair, conference, kinds, wait):
    """The node that serves loses a cable, or both."""
    holder = pair.holder()
    other = pair.other(holder)
    took = conference.outage(lambda: [holder.cut(kind, False) for kind in kinds])
    check(f"cut to phones and gateways ({'and to the other node' if len(kinds) > 1 else 'not to the other node'}): answered after "
          f"{took and round(took, 2)} s by the other node", took is not None and other.has_address())
    conference.loop.run(wait)
    conference.holds("cut off")
    for kind in kinds:
        holder.cut(kind, True)
    check(f"mended: the node that was cut off ends itself, with status {conference.loop.run(10, holder.ended) and holder.process.poll()}", holder.process.poll() == 3)
    conference.holds("mended")
    check("it comes back as the standby", again(pair, conference, holder) and other.has_address())


def both(pair, conference, order):
    """Both nodes are killed, and started again in this order."""
    conference.loop.run(4)  # What was written is on the disc.
    for node in pair.nodes:
        node.kill()
    start = time.monotonic()
    for node in order:
        node.start()
        conference.loop.run(2)
    conference.phones[1].forget()
    conference.loop.run(30, conference.phones[1].ping)
    check(f"both killed, {' and '.join(str(node.number) for node in order)} started again: answered {time.monotonic() - start:.1f} s after the first start",
          conference.phones[1].pong)
    check("both are ready", conference.loop.run(30, lambda: all(node.ready() >= 0 for node in pair.nodes)) < 30)
    conference.holds("both killed")


def main():
    end_on_signals()
    kills = int(sys.argv[1]) if len(sys.argv) > 1 else 10
    folder = Path(tempfile.mkdtemp())
    try:
        with Pair(folder) as pair:
            pair.begin()
            conference = Conference(pair)
            killed(pair, conference, kills)
            stopped(pair, conference)
            apart(pair, conference)
            unplugged(pair, conference, "o", 0)
            # Both serve, and the one that began later continues. Then a node is cut off for a longer time.
            unplugged(pair, conference, "oi", 1)
            unplugged(pair, conference, "oi", 12)
            both(pair, conference, pair.nodes)
            both(pair, conference, pair.nodes[::-1])
            for phone in conference.phones:
                phone.hang_up()
            conference.loop.run(5, lambda: all(phone.state == "ended" for phone in conference.phones))
            gone = until(lambda: pair.ask("/rooms")["rooms"] == [], 5)
            check(f"all hung up; no room is left after {gone and round(gone, 1)} s", gone is not None)
    finally:
        for log in folder.glob("*/log"):
            print(f"-- {log.parent.name}:\n" + "\n".join(line for line in log.read_text().splitlines() if "lobby:" in line or "rror" in line)[-3000:])
        shutil.rmtree(folder)
    finish()


main()
