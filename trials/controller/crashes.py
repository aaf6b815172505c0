"""Kills each process of the controller, one after the other, during calls of four people, one of whom is isolated. The
calls must continue, the isolated caller mustn't be heard, and the controller must answer again.
"""
from collections import Counter

from lobby import Lobby, Phone, Phones, check, finish, loudness
from loopback import end_on_signals, udp


def answers(lobby):
    """Whether the controller answers OPTIONS and HTTP, and has all members."""
    with udp() as own:
        own.setblocking(True)
        own.settimeout(0.2)
        own.sendto(f"OPTIONS sip:100@127.0.0.1 SIP/2.0\r\nVia: SIP/2.0/UDP 127.0.0.1:{own.getsockname()[1]};branch=z9hG4bKx;rport\r\n"
                   "From: <sip:x@127.0.0.1>;tag=x\r\nTo: <sip:100@127.0.0.1>\r\nCall-ID: x\r\nCSeq: 1 OPTIONS\r\n"
                   "Max-Forwards: 70\r\nContent-Length: 0\r\n\r\n".encode(), ("127.0.0.1", lobby.sip))
        try:
            return own.recv(65536).startswith(b"SIP/2.0 200") and lobby.serving() == 1 and len(lobby.members("100")) == 4
        except OSError:
            return False


def main():
    end_on_signals()
    with Lobby() as lobby:
        phones = [Phone(lobby, "100", pitch, 2000) for pitch in (400, 700, 1000, 1300)]
        loop = Phones(phones)
        loop.call()
        isolated = phones[0]
        lobby.ask("POST", f"/members/{lobby.members('100')[isolated.name]['id']}/isolate")
        others = {phone.pitch for phone in phones[1:]}
        right = {phone.pitch: others - {phone.pitch} for phone in phones[1:]} | {isolated.pitch: set()}
        loop.run(1)
        names = Counter(name for name, _ in lobby.processes())
        for name in names:
            before = dict(reversed(lobby.processes()))
            loop.forget()
            lobby.evaluate(f'exit(list_to_pid("{before[name]}"), kill).')
            took = loop.run(10, lambda: answers(lobby))
            loop.run(1.5)
            leaks = sum(loudness(payload, isolated.pitch) > 100 for phone in phones for _, payload in phone.heard)
            after = lobby.processes()
            again = Counter(other for other, _ in after) == names and before[name] not in [process for _, process in after]
            check(f"{name.strip()}: answers after {took:.2f} s; all are there again: {again}; packets with the isolated caller: {leaks}; each "
                  f"hears exactly the others: {loop.matrix() == right}", took < 5 and again and leaks == 0 and loop.matrix() == right)
        gateway, = lobby.ask("GET", "/gateways")["gateways"]
        check(f"after {len(names)} kills: {gateway['terminations']} terminations of 4 callers and the controller, "
              f"{gateway['contexts']} contexts", (gateway["terminations"], gateway["contexts"]) == (5, 2))
    finish()


main()
