"""A controller with gateways on 127.0.0.1, and phones that call it, for the trials."""
import json
import math
import os
import re
import select
import shutil
import socket
import statistics
import subprocess
import sys
import tempfile
import time
import urllib.error
import urllib.request
from pathlib import Path

from loopback import free_ports, udp
from tones import FRAME, RATE, SAMPLES

ROOT = Path(__file__).resolve().parents[2]
TOKEN = "a-token-for-trials"
SILENCE = bytes([0xFF]) * FRAME
# Erlang code that evaluates expressions in the controller's node, for trials that inspect it or end its processes.
INSIDE = """spawn(fun() ->
    {ok, Socket} = gen_udp:open(%d, [binary, {ip, {127, 0, 0, 1}}, {active, false}, {sndbuf, 262144}]),
    Loop = fun Loop() ->
        {ok, {Address, Port, Text}} = gen_udp:recv(Socket, 0),
        Value = try
            {ok, Tokens, _} = erl_scan:string(binary_to_list(Text)),
            {ok, Expressions} = erl_parse:parse_exprs(Tokens),
            element(2, erl_eval:exprs(Expressions, []))
        catch Class:Reason -> {Class, Reason}
        end,
        ok = gen_udp:send(Socket, Address, Port, io_lib:format("~0p", [Value])),
        Loop()
    end,
    Loop()
end)."""
TREE = """Tree = fun Tree(Sup, Path) -> lists:append([
    [{lists:flatten(io_lib:format("~s ~0p", [Path, if is_tuple(Id) -> element(1, Id); true -> Id end])), pid_to_list(Pid)}
     | case Type of supervisor -> Tree(Pid, io_lib:format("~s ~0p", [Path, if is_tuple(Id) -> element(1, Id); true -> Id end])); worker -> [] end]
    || {Id, Pid, Type, _} <- supervisor:which_children(Sup), is_pid(Pid)]) end, Tree(lobby_sup, "")."""
failed = []


def check(text, holds):
    """Prints the result of a check, and whether it is right."""
    print(f"{text}{'' if holds else ': WRONG'}", flush=True)
    if not holds:
        failed.append(text)


def finish():
    sys.exit(bool(failed))


def until(holds, limit=10, step=0.02):
    """Waits until something holds. Returns how many seconds that took, or None."""
    start = time.monotonic()
    while time.monotonic() - start < limit:
        if holds():
            return time.monotonic() - start
        time.sleep(step)
    return None


def spread(times):
    """Median and maximum of seconds, in milliseconds."""
    return f"{1000 * statistics.median(times):.1f} ms at the median, {1000 * max(times):.1f} at most"


def free_addresses(count):
    """Ports that are free for UDP and TCP."""
    held, ports = [], []
    while len(ports) < count:
        held.append(udp())
        listener = socket.socket()
        held.append(listener)
        try:
            listener.bind(held[-2].getsockname())
            ports.append(listener.getsockname()[1])
        except OSError:
            pass
    for one in held:
        one.close()
    return ports


class Gateway:
    """A gateway, with or without a journal."""
    starts = 0

    def __init__(self, folder, name, slots=80, journal=False):
        self.folder, self.name, self.slots, self.journal = folder, name, slots, journal
        self.port, self.base = self.ports(slots)
        self.start()

    def ports(self, slots):
        """The control port, and the first port for media."""
        return free_ports(slots)

    def options(self):
        return []

    def start(self):
        Gateway.starts += 1
        number = str(int(time.time()) % 2**31 + 1000 * Gateway.starts)
        options = ["--journal", str(self.folder / f"{self.name}.journal")] if self.journal else []
        first = self.folder / f"{self.name}.first"
        if not (self.journal and first.exists()):
            first.write_text(number)
            options += ["--first-context", number, "--first-termination", number]
        command = [os.environ.get("BRIDGE", ROOT / "dist/mg_bridge"), "live", "--control-port", str(self.port),
                   "--base-port", str(self.base), "--slots", str(self.slots), *options, *self.options()]
        policy = ["chrt", "-f", "10"] if subprocess.run(["chrt", "-f", "10", "true"], stderr=subprocess.DEVNULL).returncode == 0 else []
        self.log = open(self.folder / f"{self.name}.log", "a")
        self.process = subprocess.Popen(policy + command, stdin=subprocess.DEVNULL, stdout=subprocess.PIPE, stderr=self.log, text=True)
        if self.process.stdout.readline() != "ready\n":
            sys.exit(f"gateway {self.name}: status {self.process.wait()}")

    def kill(self):
        self.process.kill()
        self.process.wait()

    def ask(self, action):
        """Sends the gateway a request of another controller, and returns the answer."""
        with udp() as own:
            own.setblocking(True)
            own.settimeout(2)
            number = int.from_bytes(os.urandom(3), "big") + 1
            own.sendto(f"MEGACO/1 [127.0.0.1]:{own.getsockname()[1]}\nTransaction={number}{{{action}}}".encode(), ("127.0.0.1", self.port))
            return own.recv(65536).decode()

    def flows(self, context):
        """The open flows in a context, by terminations: (talker, listener)."""
        found = set()
        for one, other, how in re.findall(r"RTP/(\d+),RTP/(\d+),(\w+)", self.ask(f"Context={context}{{ContextAudit{{Topology}}}}")):
            found |= {(int(one), int(other))} if how != "Isolate" else set()
            found |= {(int(other), int(one))} if how == "Bothway" else set()
        return found


class Relay:
    """rtpengine."""

    def __init__(self, folder, port):
        self.words = ["rtpengine", "--foreground", "--log-stderr", "--config-file=none", f"--pidfile={folder}/pid", "--interface=inside/127.0.0.1",
                      "--interface=outside/127.0.0.2", f"--listen-ng=127.0.0.1:{port}", "--table=-1", "--delete-delay=0", "--log-level=4"]
        self.log = open(folder / "rtpengine.log", "a")
        self.start()

    def start(self):
        self.process = subprocess.Popen(self.words, stdin=subprocess.DEVNULL, stderr=self.log)

    def kill(self):
        self.process.kill()
        self.process.wait()

    close = kill


class Lobby:
    """Gateways and a controller."""
    host = "127.0.0.1"
    # All phones have one address, which is admitted like a proxy for many callers.
    limits = "{proxies, [{{127,0,0,1},32}]}"

    def __init__(self, gateways=1, journal=False, returns=0, slots=80, **options):
        self.folder = Path(tempfile.mkdtemp())
        self.gateways, self.process = [], None
        try:
            for n in range(gateways):
                self.gateways.append(self.gateway(n, slots, journal))
            self.configure(slots, returns, options)
            self.start()
        except BaseException:
            self.__exit__()
            raise

    def gateway(self, number, slots, journal):
        return Gateway(self.folder, f"g{number}", slots, journal)

    def configure(self, slots, returns, options):
        self.sip, self.http, self.inside = free_addresses(3)
        listed = ",\n ".join(f'#{{name => <<"{g.name}">>, address => {{{{127,0,0,1}},{g.port}}}, returns => {returns}, '
                             f'terminations => {slots}}}' for g in self.gateways)
        more = "".join(f", {{{key}, {value}}}" for key, value in options.items())
        (self.folder / "lobby.config").write_text(
            f"[{{lobby, [{{gateways, [{listed}]}}, {{sip, {{{{127,0,0,1}},{self.sip}}}}}, {self.limits}, "
            f"{{http, {{{{127,0,0,1}},{self.http}}}}}, {{tokens, [{{<<\"{TOKEN}\">>, operator}}]}}{more}]}}].")

    def __enter__(self):
        return self

    def __exit__(self, *_):
        for process in [g.process for g in self.gateways] + [self.process] * (self.process is not None):
            process.kill()
            process.wait()
        shutil.rmtree(self.folder)

    def start(self):
        built = Path(os.environ["REBAR_BASE_DIR"]) / "default/lib/lobby/ebin"
        self.process = subprocess.Popen(
            ["erl", "-noinput", "+sbwt", "none", "-pa", built, "-eval", INSIDE % self.inside, "-run", "lobby_app", "run", self.folder / "lobby.config"],
            stdin=subprocess.DEVNULL, stdout=open(self.folder / "log", "a"), stderr=subprocess.STDOUT, cwd=self.folder)
        if until(lambda: self.serving() == len(self.gateways), 20) is None:
            sys.exit(f"the controller doesn't start: {(self.folder / 'log').read_text()[-2000:]}")

    def evaluate(self, expressions):
        """Evaluates Erlang expressions in the controller's node, and returns the value as text."""
        with udp() as own:
            own.setblocking(True)
            own.settimeout(10)
            own.sendto(expressions.encode(), ("127.0.0.1", self.inside))
            return own.recv(65536).decode()

    def processes(self):
        """The application's processes: their names in the tree of supervisors, and their process ids."""
        return re.findall(r'{"(.*?)","(<.*?>)"}', self.evaluate(TREE))

    def ask(self, method, path, body=None):
        request = urllib.request.Request(f"http://127.0.0.1:{self.http}{path}", method=method, headers={"Authorization": f"Bearer {TOKEN}"},
                                         data=None if body is None else json.dumps(body).encode())
        with urllib.request.urlopen(request, timeout=35) as answer:
            text = answer.read()
        return json.loads(text) if answer.headers["Content-Type"] == "application/json" else text.decode()

    def serving(self):
        try:
            return len(self.ask("GET", "/gateways")["gateways"])
        except OSError:
            return 0

    def members(self, room):
        """The members of a room, by the names that they give themselves."""
        try:
            return {member["caller"]: member for member in self.ask("GET", f"/rooms/{room}")["members"]}
        except urllib.error.HTTPError:
            return {}

    def metric(self, name):
        return sum(float(value) for value in re.findall(rf"^{name}(?:{{.*}})? (\S+)$", self.ask("GET", "/metrics"), re.M))


def tone(pitch, loudness):
    """A frame of a tone. Pitches are multiples of 50 Hz, so that a frame has whole periods."""
    codes = sorted(range(256), key=lambda code: SAMPLES[code])
    def encoded(sample):
        low, high = 0, 255
        while high - low > 1:
            middle = (low + high) // 2
            low, high = (middle, high) if SAMPLES[codes[middle]] <= sample else (low, middle)
        return min(codes[low], codes[high], key=lambda code: abs(SAMPLES[code] - sample))
    return bytes(encoded(loudness * math.sin(2 * math.pi * pitch * n / RATE)) for n in range(FRAME))


def loudness(payload, pitch):
    """How loud a tone is in one packet. Tones whose pitches differ by multiples of 50 Hz don't disturb each other."""
    turn = 2 * math.cos(2 * math.pi * pitch / RATE)
    last = before = 0.0
    for code in payload:
        last, before = SAMPLES[code] + turn * last - before, last
    return 2 * math.sqrt(max(0.0, last * last + before * before - turn * last * before)) / FRAME


class Phone:
    """A caller. It answers requests, and keeps what it hears."""
    count = 0

    def __init__(self, lobby, room, pitch, amplitude=400):
        Phone.count += 1
        self.name, self.lobby, self.room, self.pitch = f"phone{Phone.count}", lobby, room, pitch
        self.host = lobby.host
        self.sip, self.rtp = udp(address=self.host), udp(address=self.host)
        self.frame = tone(pitch, amplitude)
        self.call_id, self.tag, self.number, self.to_tag = f"{os.urandom(6).hex()}@trial", os.urandom(4).hex(), 0, ""
        self.remote, self.sequence, self.heard, self.invited, self.state = None, 0, [], [], "idle"
        self.asked = None

    def description(self):
        return (f"v=0\r\no=- 1 1 IN IP4 {self.host}\r\ns=-\r\nc=IN IP4 {self.host}\r\nt=0 0\r\n"
                f"m=audio {self.rtp.getsockname()[1]} RTP/AVP 0\r\na=sendrecv\r\n")

    def request(self, method, body=""):
        self.number += method != "ACK"
        own, to = self.sip.getsockname()[1], f";tag={self.to_tag}" if self.to_tag else ""
        text = (f"{method} sip:{self.room}@{self.host}:{self.lobby.sip} SIP/2.0\r\n"
                  f"Via: SIP/2.0/UDP {self.host}:{own};branch=z9hG4bK{os.urandom(6).hex()};rport\r\nMax-Forwards: 70\r\n"
                  f"From: \"{self.name}\" <sip:{self.name}@{self.host}>;tag={self.tag}\r\nTo: <sip:{self.room}@{self.host}>{to}\r\n"
                  f"Call-ID: {self.call_id}\r\nCSeq: {self.number} {method}\r\nContact: <sip:{self.name}@{self.host}:{own}>\r\n"
                  f"Content-Type: application/sdp\r\nContent-Length: {len(body)}\r\n\r\n{body}")
        self.send(text)
        if method != "ACK":
            self.asked, self.again = (text, time.monotonic()), time.monotonic() + 0.5

    def send(self, text):
        self.sip.sendto(text.encode(), (self.host, self.lobby.sip))

    def call(self):
        self.state = "new"
        self.request("INVITE", self.description())

    def hang_up(self):
        self.state = "leaving"
        self.request("BYE")

    def received(self, text):
        now = time.monotonic()
        if text.startswith("SIP/2.0"):
            if self.state == "leaving":
                self.state = "ended" if "BYE" in re.search(r"CSeq: (.*)\r", text)[1] else "leaving"
            elif self.call_id not in text:
                pass
            elif text.startswith("SIP/2.0 200") and "INVITE" in re.search(r"CSeq: (.*)\r", text)[1]:
                self.to_tag = re.search(r"\r\nTo: .*;tag=(\S+)", text)[1]
                self.request("ACK")
                if self.state == "new":
                    self.state, self.answered = "talking", now - self.asked[1]
                self.learn(text)
            elif not text.startswith("SIP/2.0 1") and self.state == "new":
                self.state = text[8:11]
        elif not text.startswith("ACK"):
            kept = "".join(f"{name}: {re.search(rf'{name}: (.*)' + chr(13), text)[1]}\r\n" for name in ("Via", "From", "To", "Call-ID", "CSeq"))
            here = self.state == "talking" and self.call_id in text
            body = self.description() if here and text.startswith("INVITE") else ""
            self.send(f"SIP/2.0 {'200 OK' if here or text.startswith('BYE') else '481 Gone'}\r\n{kept}Contact: <sip:{self.name}@{self.host}:{self.sip.getsockname()[1]}>\r\n"
                      f"Content-Type: application/sdp\r\nContent-Length: {len(body)}\r\n\r\n{body}")
            if here and text.startswith("INVITE"):
                self.invited.append(now)
                self.learn(text)
            elif text.startswith("BYE") and self.call_id in text:
                self.state = "ended"

    def learn(self, text):
        media = re.search(r"c=IN IP4 (\S+).*m=audio (\d+) ", text, re.S)
        if media:
            self.remote = (media[1], int(media[2]))

    def talk(self):
        """Sends a packet, and repeats a request that has no answer."""
        if self.state in ("new", "leaving") and self.asked and time.monotonic() > self.again:
            self.again += 0.5
            self.send(self.asked[0])
        if self.state == "talking" and self.remote:
            self.sequence += 1
            header = bytes([0x80, 0]) + (self.sequence % 65536).to_bytes(2, "big") + (self.sequence * FRAME).to_bytes(4, "big")
            try:
                self.rtp.sendto(header + id(self).to_bytes(8, "big")[4:] + self.frame, self.remote)
            except OSError:
                pass  # Nobody has the port: the gateway is away.


class Phones:
    """Phones that are served by one loop."""

    def __init__(self, phones):
        self.phones, self.next = list(phones), time.monotonic()
        self.poll = select.epoll()
        self.of = {}
        for phone in self.phones:
            for one in (phone.sip, phone.rtp):
                self.poll.register(one, select.EPOLLIN)
                self.of[one.fileno()] = (phone, one)

    def run(self, seconds, done=lambda: False):
        """Lets the phones talk and hear for this many seconds, or until something is done. Returns how long that
        took."""
        start = time.monotonic()
        while time.monotonic() - start < seconds and not done():
            for number, _ in self.poll.poll(max(0, self.next - time.monotonic())):
                self.read(*self.of[number])
            if time.monotonic() >= self.next:
                self.next = max(self.next + 0.02, time.monotonic() - 0.1)
                for phone in self.phones:
                    phone.talk()
        return time.monotonic() - start

    def read(self, phone, one):
        for _ in range(20):
            try:
                data = one.recv(65536)
            except OSError:
                return
            if one is phone.sip:
                phone.received(data.decode())
            else:
                phone.heard.append((time.monotonic(), data[12:]))

    def call(self, pause=0.0):
        """Calls with all phones, one after the other. Returns the times from INVITE to 200."""
        for phone in self.phones:
            phone.call()
            self.run(10, lambda: phone.state != "new")
            self.run(pause)
        return [phone.answered for phone in self.phones if phone.state == "talking"]

    def forget(self):
        for phone in self.phones:
            phone.heard.clear()

    def matrix(self, which=-1):
        """Who hears whom in the last packets: the pitches, by listener."""
        return {phone.pitch: {other.pitch for other in self.phones if loudness(phone.heard[which][1], other.pitch) > 100}
                for phone in self.phones if phone.heard}
