"""Upgrades two gateways one after the other under 100 calls: each is drained, ended and started again, and then serves.
Two of ten callers in each room are isolated. Each caller sends his own tone, and the trial searches what each receives
for the others' tones: how long a caller doesn't hear another one, and whether anybody hears a caller whom he mustn't
hear.

usage: drain.py [ROUNDS]
"""
import sys
import time

from lobby import Lobby, Phone, Phones, check, finish, loudness
from loopback import end_on_signals

ROOMS, CALLERS, LOUD = 10, 10, 100


class Room:
    """Callers in a room. The first two are isolated."""

    def __init__(self, lobby, name):
        self.name = name
        self.phones = [Phone(lobby, name, 300 + 250 * n) for n in range(CALLERS)]

    def isolate(self, lobby):
        members = lobby.members(self.name)
        for phone in self.phones[:2]:
            lobby.ask("POST", f"/members/{members[phone.name]['id']}/isolate")

    def gap(self):
        """The longest time in which a caller hears nothing of another caller's tone, with 20 ms for each packet."""
        longest = 0
        for listener in self.phones[2:]:
            for talker in self.phones[2:]:
                if talker is not listener:
                    times = [when for when, payload in listener.heard if loudness(payload, talker.pitch) > LOUD]
                    longest = max([longest] + [later - sooner for sooner, later in zip(times, times[1:])])
        return longest - 0.02

    def leaks(self):
        """In how many packets an isolated caller was heard, or heard anybody."""
        pitches = [phone.pitch for phone in self.phones]
        return sum(any(loudness(payload, pitch) > LOUD / 2 for pitch in (pitches[:2] if phone not in self.phones[:2] else pitches))
                   for phone in self.phones for _, payload in phone.heard)


def gateway_of(lobby, room):
    return lobby.ask("GET", f"/rooms/{room.name}")["gateway"]


def wait(loop, holds, limit):
    """Lets the callers talk until something holds, which is checked every half second."""
    start = time.monotonic()
    while time.monotonic() - start < limit:
        loop.run(0.5)
        if holds():
            return time.monotonic() - start
    return None


def upgrade(lobby, gateway, rooms, loop):
    on = [room for room in rooms if gateway_of(lobby, room) == gateway.name]
    loop.forget()
    start = time.monotonic()
    lobby.ask("POST", f"/gateways/{gateway.name}/drain")
    took = wait(loop, lambda: any(g["name"] == gateway.name and g["terminations"] == 0 for g in lobby.ask("GET", "/gateways")["gateways"]), 30)
    loop.run(1)
    gaps = [room.gap() for room in on]
    leaked, packets = sum(room.leaks() for room in rooms), sum(len(phone.heard) for room in rooms for phone in room.phones)
    gateway.kill()
    loop.forget()
    gateway.start()
    lobby.ask("POST", f"/gateways/{gateway.name}/resume")
    serving = wait(loop, lambda: all(not g["draining"] for g in lobby.ask("GET", "/gateways")["gateways"]), 10)
    lost = max(room.gap() for room in rooms)
    talking = sum(phone.state == "talking" for room in rooms for phone in room.phones)
    members = sum(len(lobby.members(room.name)) for room in rooms)
    check(f"{gateway.name}: {len(on)} of {len(rooms)} rooms moved within {took and round(took, 1)} s; gaps {1000 * min(gaps, default=0):.0f} to "
          f"{1000 * max(gaps, default=0):.0f} ms; ended and started again: gaps {1000 * lost:.0f} ms at most; of {packets} packets, {leaked} have "
          f"somebody isolated; {talking} of {ROOMS * CALLERS} callers and {members} members are left",
          took is not None and serving is not None and leaked == 0 and talking == members == ROOMS * CALLERS and max(gaps, default=0) < 0.5 and lost < 0.1)
    return gaps


def main():
    end_on_signals()
    rounds = int(sys.argv[1]) if len(sys.argv) > 1 else 1
    with Lobby(gateways=2, slots=128) as lobby:
        rooms = [Room(lobby, f"{n}") for n in range(ROOMS)]
        loop = Phones([phone for room in rooms for phone in room.phones])
        loop.call()
        for room in rooms:
            room.isolate(lobby)
        loop.run(1)
        gaps = []
        for n in range(rounds):
            for gateway in lobby.gateways:
                gaps += upgrade(lobby, gateway, rooms, loop)
        print(f"{len(gaps)} moves of a room: gaps {1000 * sorted(gaps)[len(gaps) // 2]:.0f} ms at the median, {1000 * max(gaps):.0f} at most")
    finish()


main()
