"""Sends garbage to the SIP port over UDP and TCP, and to HTTP: random bytes, and real messages that were changed at
random. Meanwhile, a call must continue, and neither memory nor the number of processes may grow.

usage: garbage.py [ROUNDS]
"""
import random
import re
import socket
import sys
import time

from lobby import TOKEN, Lobby, Phone, Phones, check, finish
from loopback import end_on_signals, udp

DATAGRAMS, CONNECTIONS = 4000, 60


def changed(message):
    """A message with some bytes changed, left out or repeated."""
    data = bytearray(message)
    for _ in range(random.randint(1, 12)):
        at = random.randrange(len(data))
        match random.randrange(5):
            case 0: data[at] = random.randrange(256)
            case 1: del data[at:at + random.randint(1, 40)]
            case 2: data[at:at] = data[at:at + random.randint(1, 200)]
            case 3: data[at:at] = random.randbytes(random.randint(1, 20))
            case 4: data[at:at] = random.choice([b"\r\n\r\n", b"\r\n ", b";tag=", b"<sip:[::1]>", b"4294967296", b"-1", b"%00", b"\xff\xfe", b"," * 300])
        if not data:
            return b""
    return bytes(data[:65000])


def sip(lobby):
    """A valid message, each time from another caller."""
    method = random.choice(["INVITE", "ACK", "BYE", "CANCEL", "OPTIONS", "UPDATE", "REGISTER", "SIP/2.0"])
    first = "SIP/2.0 200 OK" if method == "SIP/2.0" else f"{method} sip:none@127.0.0.1:{lobby.sip} SIP/2.0"
    body = "v=0\r\no=- 1 1 IN IP4 127.0.0.1\r\ns=-\r\nc=IN IP4 127.0.0.1\r\nt=0 0\r\nm=audio 9 RTP/AVP 0\r\n"
    return (f"{first}\r\nVia: SIP/2.0/UDP 127.0.0.1:9;branch=z9hG4bK{random.random()};rport\r\nMax-Forwards: 70\r\n"
            f"From: <sip:x@127.0.0.1>;tag=a{random.random()}\r\nTo: <sip:none@127.0.0.1>\r\nCall-ID: {random.random()}\r\n"
            f"CSeq: 1 {method}\r\nContact: <sip:x@127.0.0.1:9>\r\nContent-Type: application/sdp\r\n"
            f"Content-Length: {len(body)}\r\n\r\n{body}").encode()


def http():
    method = random.choice(["GET", "PUT", "POST", "DELETE", "HEAD", "X"])
    path = random.choice(["/", "/rooms", "/rooms/%41", "/events", "/metrics", "/links", "/links/0", "/web", "/web/0", "/audit"])
    body = random.choice(['{"rules": []}', '{"rules": [{"hears": 1}]}', "{", "[" * 5000, '{"room": "A", "role": "b", "name": "c", "seconds": 9}'])
    return request(method, path, random.choice([TOKEN, "x"]), "application/json", body)


def joining(link):
    """A browser's request to join with a link."""
    body = ("v=0\r\no=- 1 1 IN IP4 127.0.0.1\r\ns=-\r\nt=0 0\r\na=group:BUNDLE 0\r\nm=audio 9 UDP/TLS/RTP/SAVPF 0 8\r\n"
            "c=IN IP4 0.0.0.0\r\na=ice-ufrag:abcd\r\na=ice-pwd:abcdefghijklmnopqrstuvwx\r\n"
            f"a=fingerprint:sha-256 {':'.join(['AB'] * 32)}\r\na=setup:actpass\r\na=mid:0\r\na=sendrecv\r\na=rtcp-mux\r\n")
    return request("POST", "/web", link, "application/sdp", body)


def request(method, path, token, form, body):
    return (f"{method} {path} HTTP/1.1\r\nHost: x\r\nAuthorization: Bearer {token}\r\nContent-Type: {form}\r\n"
            f"Content-Length: {len(body)}\r\n\r\n{body}").encode()


def connections(port, message):
    """Connections that send garbage; some of them wait, and some end at once."""
    held = []
    for _ in range(CONNECTIONS):
        one = socket.create_connection(("127.0.0.1", port), 2)
        one.settimeout(0.02)
        try:
            one.sendall(random.choice([random.randbytes(random.randint(1, 3000)), changed(message()), message()]))
            if random.random() < 0.5:
                one.recv(65536)
        except OSError:
            pass
        held.append(one)
        if len(held) > 20:
            held.pop(0).close()
    for one in held:
        one.close()


def size(lobby):
    """Bytes, processes and atoms of the node, after all processes have collected their garbage."""
    text = lobby.evaluate("[garbage_collect(P) || P <- processes()], {erlang:memory(total), erlang:system_info(process_count), "
                          "erlang:system_info(atom_count)}.")
    return [int(number) for number in re.findall(r"\d+", text)]


def main():
    end_on_signals()
    rounds = int(sys.argv[1]) if len(sys.argv) > 1 else 6
    with Lobby(t1=20, callers="[{{127,0,0,1},32}]") as lobby:
        phones = [Phone(lobby, "100", pitch, 4000) for pitch in (400, 1000)]
        loop = Phones(phones)
        loop.call()
        sizes = []
        for _ in range(rounds):
            for n in range(DATAGRAMS):
                with udp() as own:
                    message = random.choice([random.randbytes(random.randint(0, 1500)), changed(sip(lobby)), changed(sip(lobby))])
                    own.sendto(message, ("127.0.0.1", lobby.sip))
                if n % 20 == 0:
                    loop.run(0.005)
            connections(lobby.sip, lambda: sip(lobby))
            connections(lobby.http, http)
            # Calls whose 200 wasn't acknowledged end after 64 times t1.
            loop.run(4)
            sizes.append(size(lobby))
            print(f"{DATAGRAMS} datagrams, {2 * CONNECTIONS} connections: {sizes[-1][0] / 1e6:.1f} MB, {sizes[-1][1]} processes, "
                  f"{sizes[-1][2]} atoms; {len(lobby.ask('GET', '/rooms')['rooms'])} rooms", flush=True)
        loop.run(1)
        both = loop.matrix() == {400: {1000}, 1000: {400}}
        invited = [len(phone.invited) for phone in phones]
        grown = sizes[-1][0] / sizes[1][0]
        check(f"both callers hear each other: {both}; re-INVITEs: {invited}; from the second round to the last, memory grew by "
              f"{100 * grown - 100:.1f} %, processes by {sizes[-1][1] - sizes[1][1]}, atoms by {sizes[-1][2] - sizes[1][2]}",
              both and invited == [0, 0] and grown < 1.05 and abs(sizes[-1][1] - sizes[1][1]) <= 5 and sizes[-1][2] - sizes[1][2] < 50)
        crashes = (lobby.folder / "log").read_text().count("CRASH REPORT")
        check(f"{crashes} crash reports in the log", crashes == 0)
        if crashes:
            text = (lobby.folder / "log").read_text()
            print(text[text.index("CRASH REPORT"):][:1500])
    finish()


if __name__ == "__main__":
    main()
