"""Three baresips behind a NAT call a room through Kamailio and rtpengine, with the files in deploy/proxy: with RTP,
with SRTP over TCP, and with DTLS-SRTP and ICE, as a browser would. Each hears the others. One is isolated, and hears
nobody. A gateway is killed: on the other one, those who are not isolated hear each other. At the end, all calls end.

Each host is its own network namespace; the controller and the gateways share one. It needs root, and the Debian
packages kamailio, rtpengine-daemon, iptables and baresip-core.
"""
import os
import subprocess
import sys
import time

from baresips import Baresip
from lobby import ROOT, TOKEN, Gateway, Lobby, check, finish, until
from loopback import end_on_signals, udp

OUTSIDE, INSIDE, CONTROLLER, GATEWAY, NOBODY = "192.0.2.30", "10.0.0.30", "10.0.0.20", "10.0.0.10", "10.0.0.99"
ROUTER = "198.51.100.7"
RECIPE = ROOT / "deploy/proxy"
PHONES = {"rtp": (400, "192.168.1", ""), "srtp": (1000, "192.168.2", ";mediaenc=srtp-mand"),
          "dtls": (2000, "192.168.3", ";mediaenc=dtls_srtp;medianat=ice")}


def run(*words):
    subprocess.run(words, check=True)


class Host:
    """A host in its own network, which ends with a process. `own`: the host uses this trial's network instead."""

    def __init__(self, folder, own=False):
        self.folder, self.processes, self.prefix, self.number = folder, [], [], os.getpid()
        if not own:
            self.prefix = ["unshare", "--net"]
            self.number = self.start("sleep", "sleep", "infinity").pid
            until(lambda: os.readlink(f"/proc/{self.number}/ns/net") != os.readlink("/proc/self/ns/net"))
            self.prefix = ["nsenter", f"--net=/proc/{self.number}/ns/net"]
        self.run("ip", "link", "set", "lo", "up")

    def run(self, *words):
        run(*self.prefix, *words)

    def python(self, script):
        """The output of a Python script on this host."""
        return subprocess.run([*self.prefix, sys.executable, "-c", script], stdout=subprocess.PIPE, stderr=subprocess.DEVNULL).stdout

    def start(self, name, *words):
        """Starts a program that runs until the end."""
        process = subprocess.Popen([*self.prefix, *words], stdin=subprocess.DEVNULL, stdout=open(self.folder / name, "w"),
                                   stderr=subprocess.STDOUT, cwd=self.folder)
        self.processes.append(process)
        return process

    def end(self):
        for process in reversed(self.processes):
            process.terminate()
            process.wait()


def link(name, host, addresses, other, others):
    """A cable between two hosts, with the addresses of its ends: NAME0 and NAME1."""
    run("ip", "link", "add", f"{name}0", "netns", str(host.number), "type", "veth", "peer", "name", f"{name}1", "netns", str(other.number))
    for here, end, some in ((host, f"{name}0", addresses), (other, f"{name}1", others)):
        for address in some:
            here.run("ip", "address", "add", *address.split(), "dev", end)
        here.run("ip", "link", "set", end, "up")


class Inside(Gateway):
    def ports(self, slots):
        return 2944 + 2 * int(self.name), 30000 + 2 * slots * int(self.name)

    def options(self):
        return ["--address", GATEWAY, "--symmetric-rtp", "--controller", CONTROLLER]


class Proxied(Lobby):
    """Gateways, and a controller as in the recipe, in this network; the proxy; and the phones behind their router."""

    def __init__(self):
        self.hosts, self.asked = [], 0
        super().__init__(gateways=2)

    def __exit__(self, *_):
        for host in self.hosts:
            host.end()
        super().__exit__()

    def host(self):
        self.hosts.append(Host(self.folder))
        return self.hosts[-1]

    def gateway(self, number, slots, journal):
        if number == 0:
            self.connect()
        return Inside(self.folder, str(number), slots, journal)

    def connect(self):
        own, self.proxy, router = Host(self.folder, own=True), self.host(), self.host()
        link("in", own, [f"{address}/24" for address in (GATEWAY, CONTROLLER, NOBODY)], self.proxy, [f"{INSIDE}/24"])
        link("out", self.proxy, [f"{OUTSIDE} peer {ROUTER}"], router, [f"{ROUTER} peer {OUTSIDE}"])
        self.homes = {name: self.host() for name in PHONES}
        for name, (_, network, _) in PHONES.items():
            link(name, router, [f"{network}.1/24"], self.homes[name], [f"{network}.2/24"])
            self.homes[name].run("ip", "route", "add", "default", "via", f"{network}.1")
        router.run("sysctl", "-qw", "net.ipv4.ip_forward=1")
        # The router maps each socket behind it to a random port.
        router.run("iptables", "-t", "nat", "-A", "POSTROUTING", "-o", "out1", "-j", "MASQUERADE", "--random-fully")
        self.proxy.start("rtpengine.log", "rtpengine", "--foreground", "--log-stderr", "--pidfile", self.folder / "rtpengine.pid",
                         "--config-file", RECIPE / "rtpengine.conf")
        until(lambda: self.sessions() == 0)
        self.proxy.start("kamailio.log", "kamailio", "-DD", "-E", "-m", "32", "-M", "8", "-Y", self.folder, "-w", self.folder,
                         "-P", self.folder / "kamailio.pid", "-f", RECIPE / "kamailio.cfg")

    def configure(self, slots, returns, options):
        self.http = 8080
        with udp() as free:
            self.inside = free.getsockname()[1]
        text = (RECIPE / "lobby.config").read_text()
        (self.folder / "lobby.config").write_text(text.replace("{tokens, []}", f'{{tokens, [{{<<"{TOKEN}">>, operator}}]}}'))

    def sessions(self):
        """How many calls rtpengine has, by its own protocol. A request with the number of an earlier request gets that
        one's answer."""
        self.asked += 1
        said = self.proxy.python("import socket; s = socket.socket(socket.AF_INET, socket.SOCK_DGRAM); s.settimeout(2); "
                                 f"s.sendto(b'{self.asked} d7:command4:liste', ('127.0.0.1', 2223)); print(s.recv(65536).decode())").decode()
        _, found, rest = said.partition("callsl")
        count = 0 if found else None
        while found and rest[0] != "e":
            length, _, rest = rest.partition(":")
            rest, count = rest[int(length):], count + 1
        return count


def is_closed(lobby):
    """Whether requests that a phone addresses to other hosts reach nobody."""
    script = "import socket; s = socket.socket(socket.AF_INET, socket.SOCK_DGRAM); "
    for method, tag in (("INVITE", ""), ("OPTIONS", ""), ("BYE", ";tag=1"), ("INFO", ";tag=1"), ("ACK", ";tag=1")):
        text = (f"{method} sip:x%20@{NOBODY}:5060;alias={NOBODY}~5060~1 SIP/2.0\r\nVia: SIP/2.0/UDP 192.168.1.2:5099;branch=z9hG4bK{method}\r\n"
                f"Route: <sip:{INSIDE};lr>\r\nRoute: <sip:{NOBODY}:5060;lr>\r\nMax-Forwards: 9\r\nFrom: <sip:x@x>;tag=1\r\nTo: <sip:x@x>{tag}\r\n"
                f"Call-ID: {method}\r\nCSeq: 1 {method}\r\nContact: <sip:x@{NOBODY}:5060>\r\nContent-Length: 0\r\n\r\n")
        script += f"s.sendto({text.encode()!r}, ({OUTSIDE!r}, 5060)); "
    with udp(5060, NOBODY) as nobody:
        lobby.homes["rtp"].python(script)
        time.sleep(1.5)
        try:
            print(f"{NOBODY} got {nobody.recv(65536)}")
            return False
        except BlockingIOError:
            return True


def main():
    end_on_signals()
    if "PROXY_TRIAL" not in os.environ:
        os.execvpe("unshare", ["unshare", "--net", sys.executable, *sys.argv], {**os.environ, "PROXY_TRIAL": ""})
    with Proxied() as lobby:
        phones = [Baresip(lobby.folder, name, pitch, f"sip:100@{OUTSIDE}{';transport=tcp' if name == 'srtp' else ''}", 120, f"{network}.2",
                          account, lobby.homes[name].prefix) for name, (pitch, network, account) in PHONES.items()]
        took = until(lambda: len(lobby.members("100")) == 3, 20)
        calls = lobby.sessions()
        check(f"{len(lobby.members('100'))} callers after {took} s; rtpengine has {calls} calls", calls == 3)
        time.sleep(5)
        ids = {caller.partition("@")[0][4:]: member["id"] for caller, member in lobby.members("100").items()}
        lobby.ask("POST", f"/members/{ids['rtp']}/isolate")
        time.sleep(5)
        first = lobby.ask("GET", "/rooms/100")["gateway"]
        lobby.gateways[int(first) - 1].kill()
        moved = until(lambda: lobby.ask("GET", "/rooms/100")["gateway"] not in (first, None), 20)
        invited = until(lambda: all(phone.said("got re-INVITE") for phone in phones), 10)
        check(f"gateway {first} killed: the conference is on another one after {moved} s; all phones are re-invited: {invited is not None}",
              moved is not None and invited is not None)
        time.sleep(5)
        check("what a phone addresses to others than the controller reaches nobody", is_closed(lobby))
        lobby.ask("DELETE", "/rooms/100")
        closed = until(lambda: all(phone.said("session closed") for phone in phones), 10)
        check(f"hung up by HTTP: all phones have ended their calls after {closed} s", closed is not None)
        for phone in phones:
            phone.process.terminate()
            phone.process.wait()
        names = {pitch: name for name, (pitch, _, _) in PHONES.items()}
        others = {name: set(PHONES) - {name} for name in PHONES}
        alone = {"rtp": set(), "srtp": {"dtls"}, "dtls": {"srtp"}}
        # A recording begins up to a second and a half before the third phone joins.
        for what, start, end, wanted in (("plain", 2, 4.5, others), ("one isolated", 7.5, 9.5, alone), ("on the other gateway", -3.5, -1, alone)):
            heard = {phone.name: {names[pitch] for pitch in phone.heard(names, start, end)} for phone in phones}
            shown = "; ".join(f"{name} hears {' and '.join(sorted(heard[name])) or 'nobody'}" for name in PHONES)
            check(f"{what}: {shown}", heard == wanted)
        left = until(lambda: lobby.sessions() == 0, 60)
        check(f"rtpengine has forgotten all calls: {left is not None}", left is not None)
    finish()


main()
