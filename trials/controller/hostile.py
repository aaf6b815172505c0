"""Hostile senders during 200 calls: mutated messages of all kinds at 2,000 a second, messages that take a long time to
read, connections over TCP, TLS and HTTP that send nothing, part of a request or garbage, and floods of new connections,
among them browsers' offers by a link. They come from 20 addresses that may call. Meanwhile, callers talk, call and hang
up: none of them may lose a packet or wait longer than 200 ms.

usage: hostile.py [MINUTES]
The default is 60. It needs openssl and rtpengine.
"""
import contextlib
import os
import random
import re
import socket
import subprocess
import sys
import time

from lobby import Lobby, Phone, Phones, Relay, check, finish, free_addresses, spread
from garbage import changed, http, joining, sip, size
from loopback import end_on_signals

HOSTILE = [f"127.0.0.{n}" for n in range(2, 22)]
RATE, TICK, HELD = 2000, 0.01, 400
BOMBS = [("Contact", "<sip:a@b>", 5800), ("Contact", "<sip:a@b>", 140), ("Route", "<sip:a@b>", 780), ("Via", "SIP/2.0/UDP a", 140),
         ("Accept", "a", 150), ("Authorization", 'Digest a="b"', 140), ("Record-Route", "<sip:a@b;lr>", 70), ("To", '"' * 7800, 1)]


class Guarded(Lobby):
    """A controller with default limits on messages, higher ones on calls and rooms, and no checks of silent callers."""
    limits = ("{max_calls_from, 250}, {max_rooms_from, 40}, {silent_after, 3600000}, "
              "{tls, #{certificate => \"certificate.pem\", key => \"key.pem\", sip => {{127,0,0,1},%d}}}")

    def configure(self, slots, returns, options):
        self.tls, = free_addresses(1)
        subprocess.run(["openssl", "req", "-x509", "-newkey", "rsa:2048", "-nodes", "-subj", "/CN=lobby", "-keyout", "key.pem",
                        "-out", "certificate.pem"], cwd=self.folder, check=True, stderr=subprocess.DEVNULL)
        self.limits = self.limits % self.tls
        super().configure(slots, returns, options)


class Quiet(Phone):
    """A caller who is only in a call. Its received packets aren't read."""

    def talk(self):
        if self.state != "talking":
            super().talk()


class Listener(Phone):
    """A caller who counts received packets by their sequence numbers."""
    got, lost, last = 0, 0, None

    def count(self, data):
        number = int.from_bytes(data[2:4], "big")
        if self.last is not None:
            self.lost += (number - self.last - 1) % 65536
        self.got, self.last = self.got + 1, number


class Counted(Phones):
    """A loop that lets listeners count. For quiet callers, it reads only SIP, because their calls have to be
    refreshed."""

    def __init__(self, phones):
        super().__init__(phones)
        for phone in self.phones:
            if isinstance(phone, Quiet):
                self.poll.unregister(phone.rtp)

    def read(self, phone, one):
        if one is phone.sip or not isinstance(phone, Listener):
            return super().read(phone, one)
        for _ in range(20):
            try:
                phone.count(one.recv(2048))
            except OSError:
                return


class Target:
    """The parts of a controller that the senders need."""

    def __init__(self, sip, tls, http, link):
        self.sip, self.tls, self.http, self.link = int(sip), int(tls), int(http), link


def bomb(target):
    name, value, count = random.choice(BOMBS)
    return sip(target).replace(b"Max-Forwards: 70", f"{name}: {','.join([value] * count)}"[:63000].encode())


def datagram(target):
    kind = random.random()
    if kind < 0.5:
        return changed(sip(target))
    return bomb(target) if kind < 0.8 else sip(target) if kind < 0.9 else random.randbytes(random.randint(0, 1500))


def connection(target):
    """A connection that sends nothing, part of a request, or garbage."""
    port = random.choice([target.sip, target.tls, target.http])
    one = socket.socket()
    one.setblocking(False)
    try:
        one.bind((random.choice(HOSTILE), 0))
        one.connect_ex(("127.0.0.1", port))
    except OSError:
        pass
    text = sip(target) if port != target.http else http() if random.random() < 0.5 else joining(target.link)
    return one, random.choice([b"", text[:random.randint(1, len(text))], changed(text), random.randbytes(300), text,
                               b"PUT /rooms/x HTTP/1.1\r\nHost: x\r\nTransfer-Encoding: chunked\r\n\r\nfffffff\r\n" + bytes(20000)])


def attack(target):
    """Sends until the process is ended."""
    sockets = [socket.socket(socket.AF_INET, socket.SOCK_DGRAM) for _ in HOSTILE]
    for own, address in zip(sockets, HOSTILE):
        own.bind((address, 0))
    held, sent, count, start = [], 0, 0, time.monotonic()
    said = start
    while True:
        # On a busy machine, messages that weren't sent in time are skipped.
        due = int(RATE * (time.monotonic() - start)) - sent
        sent += due
        for _ in range(min(due, int(3 * RATE * TICK))):
            try:
                random.choice(sockets).sendto(datagram(target), ("127.0.0.1", target.sip))
                count += 1
            except OSError:
                pass
        if time.monotonic() > said + 10:
            print(count, flush=True)
            said = time.monotonic()
        held.append(connection(target))
        for one, text in random.sample(held, min(len(held), 20)):
            try:
                # Sends some texts slowly, byte by byte.
                one.send(text if random.random() < 0.3 else text[:1])
            except OSError:
                pass
        while len(held) > HELD:
            held.pop(random.randrange(len(held)))[0].close()
        time.sleep(TICK)


def below():
    """Under real-time scheduling, runs with a lower priority than the controller and the gateways, but a higher one
    than other programs, so that nothing is sent in bursts."""
    fifo = os.sched_getscheduler(0) == os.SCHED_FIFO
    os.sched_setscheduler(0, os.SCHED_FIFO if fifo else os.SCHED_OTHER, os.sched_param(int(fifo)))


@contextlib.contextmanager
def attacker(lobby, link):
    """A program that attacks."""
    process = subprocess.Popen([sys.executable, __file__, "attack", str(lobby.sip), str(lobby.tls), str(lobby.http), link],
                               stdout=open(lobby.folder / "sent", "w"),
                               preexec_fn=below)
    try:
        yield
    finally:
        process.kill()
        process.wait()


class Watch:
    """Calls that are made and ended during the attack, one after the other, and how long each answer took."""

    def __init__(self, lobby, loop):
        self.lobby, self.loop, self.times, self.failed, self.lost = lobby, loop, [], 0, 0

    def once(self):
        phone = Phone(self.lobby, "probe", 3000)
        self.loop.__init__([*self.loop.phones, phone])
        phone.call()
        self.loop.run(2, lambda: phone.state != "new")
        if phone.state == "talking":
            self.times.append(phone.answered)
        else:
            self.failed += 1
        phone.hang_up()
        self.loop.run(2, lambda: phone.state == "ended")
        self.failed += phone.state != "ended"
        self.loop.__init__(self.loop.phones[:-1])
        for one in (phone.sip, phone.rtp):
            one.close()


def main():
    end_on_signals()
    if sys.argv[1:2] == ["attack"]:
        attack(Target(*sys.argv[2:]))
    minutes = float(sys.argv[1]) if len(sys.argv) > 1 else 60
    port, = free_addresses(1)
    with Guarded(gateways=3, slots=100, rtpengine=f"{{{{127,0,0,1}},{port}}}") as lobby, contextlib.closing(Relay(lobby.folder, port)):
        # The controller's httpd can fail if it gets a request before it has started.
        before = (lobby.folder / "log").stat().st_size
        link = lobby.ask("POST", "/links", {"room": "joined", "role": "participant", "name": "x", "seconds": 86400})["link"]
        if os.sched_getscheduler(0) == os.SCHED_FIFO:
            # Gives this process a higher priority than the controller, so that the trial itself isn't late.
            os.sched_setscheduler(0, os.SCHED_FIFO, os.sched_param(os.sched_getparam(0).sched_priority + 1))
        quiet = [Quiet(lobby, f"{n // 10}", 400) for n in range(180)]
        listeners = [Listener(lobby, "talk", 400 + 50 * n, 4000) for n in range(20)]
        loop = Counted(quiet + listeners)
        # Calls no faster than one address is allowed to.
        loop.call(0.025)
        talking = [phone for phone in loop.phones if phone.state == "talking"]
        watch = Watch(lobby, loop)
        for _ in range(20):
            watch.once()
        loop.run(5)
        # Code that is loaded once is loaded here, before memory is measured.
        with attacker(lobby, link):
            loop.run(10)
        # Calls whose 200 wasn't acknowledged end after 32 s.
        loop.run(45)
        sizes = [size(lobby)]
        with attacker(lobby, link):
            start = time.monotonic()
            while time.monotonic() - start < 60 * minutes:
                since = time.monotonic()
                for phone in listeners:
                    phone.got = phone.lost = 0
                while time.monotonic() - since < min(60, 60 * minutes / 3):
                    watch.once()
                    loop.run(0.5)
                sizes.append(size(lobby))
                late = sum(t > 0.2 for t in watch.times)
                print(f"{(time.monotonic() - start) / 60:.1f} min: {sizes[-1][0] / 1e6:.1f} MB, {sizes[-1][1]} processes, {sizes[-1][2]} atoms; "
                      f"{len(watch.times)} calls, {late} answered later than 200 ms; lost packets: {sum(p.lost for p in listeners)} of "
                      f"{sum(p.got for p in listeners)}", flush=True)
                watch.lost += sum(phone.lost for phone in listeners)
        loop.run(45)
        sizes.append(size(lobby))
        rank = sorted(watch.times)[int(len(watch.times) * 0.99)]
        count = int((lobby.folder / "sent").read_text().split()[-1])
        print(f"{count} datagrams were sent: {count / (time.monotonic() - start - 45):.0f} a second")
        check(f"{len(talking)} of 200 called, and {len(watch.times)} more: {spread(watch.times)}, {1000 * rank:.1f} at 99 %; {watch.failed} failed",
              len(talking) == 200 and not watch.failed and max(watch.times) < 0.2)
        check(f"{watch.lost} packets were lost", watch.lost == 0)
        members = sum(len(lobby.ask("GET", f"/rooms/{room}")["members"]) for room in [*range(18), "talk"])
        check(f"{members} of 200 are still in their rooms", members == 200)
        grown = sizes[-1][0] / sizes[0][0]
        check(f"memory grew by {100 * grown - 100:.1f} % from before to after, processes by {sizes[-1][1] - sizes[0][1]}, atoms by {sizes[-1][2] - sizes[0][2]}",
              grown < 1.1 and sizes[-1][2] - sizes[0][2] < 500)
        log = (lobby.folder / "log").read_bytes()[before:].decode(errors="replace")
        crashes = re.findall(r"(?:CRASH|SUPERVISOR|ERROR) REPORT.*", log)
        check(f"{len(crashes)} crash reports in the log", not crashes)
        if crashes:
            at = log.index(crashes[0])
            print(log[max(0, at - 200):at + 1500])
    finish()


if __name__ == "__main__":
    main()
