"""Kills the gateway of 60 callers, each of whom sends his own tone, and finds out from the spectrum of what each
receives when they all hear each other again. Two of them are isolated: nobody may hear them, and they may hear nobody.

usage: failover.py [KILLS [journal]]

Without a journal, the conference is recreated on a second gateway. With a journal, the gateway is restarted 0.1 s after
the kill, as by its unit.
"""
import random
import sys
import time

from lobby import Lobby, Phone, Phones, check, finish, loudness, spread
from loopback import end_on_signals

CALLERS, LOUD = 60, 100


def heard_again(phones, isolated, killed):
    """When the last caller heard all others again. It is found by bisection, because each caller hears the others from
    some packet on."""
    last = 0
    others = [phone for phone in phones if phone not in isolated]
    for phone in others:
        wanted = [other.pitch for other in others if other is not phone]
        after = [(when, payload) for when, payload in phone.heard if when > killed + 0.06]
        if not after:
            return None
        low, high = 0, len(after) - 1
        while low < high:
            middle = (low + high) // 2
            if all(loudness(after[middle][1], pitch) > LOUD for pitch in wanted):
                high = middle
            else:
                low = middle + 1
        if not all(loudness(after[high][1], pitch) > LOUD for pitch in wanted):
            return None
        last = max(last, after[high][0])
    return last - killed


def leaks(phones, isolated):
    """In how many packets an isolated caller was heard, or heard anybody."""
    pitches = [phone.pitch for phone in isolated]
    leaked = 0
    for phone in phones:
        wrong = [other.pitch for other in phones if other is not phone][::7] if phone in isolated else pitches
        leaked += sum(any(loudness(payload, pitch) > LOUD / 2 for pitch in wrong) for _, payload in phone.heard)
    return leaked, sum(len(phone.heard) for phone in phones)


def calls(lobby):
    phones = [Phone(lobby, "100", 300 + 50 * n) for n in range(CALLERS)]
    loop = Phones(phones)
    times = loop.call()
    isolated = random.sample(phones, 2)
    members = lobby.members("100")
    for phone in isolated:
        lobby.ask("POST", f"/members/{members[phone.name]['id']}/isolate")
    loop.run(1)
    others = {phone.pitch for phone in phones if phone not in isolated}
    right = {phone.pitch: others - {phone.pitch} if phone not in isolated else set() for phone in phones}
    check(f"{len(times)} callers: INVITE to 200 in {spread(times)}; each hears exactly the others: {loop.matrix() == right}",
          len(times) == CALLERS and loop.matrix() == right)
    return phones, loop, isolated, right


def kill(lobby, loop, phones, isolated, right, journal):
    holder = next(g for g in lobby.gateways if g.name == lobby.ask("GET", "/rooms/100")["gateway"])
    loop.run(random.uniform(0.5, 1))
    loop.forget()
    invited = sum(len(phone.invited) for phone in phones)
    killed = time.monotonic()
    holder.kill()
    if journal:
        loop.run(0.1)
        holder.start()
    loop.run(2.5)
    took, (leaked, packets) = heard_again(phones, isolated, killed), leaks(phones, isolated)
    invited = sum(len(phone.invited) for phone in phones) - invited
    limit = 0.5 if journal else 0.8
    check(f"killed: all hear each other after {took and round(took, 2)} s, after {invited} re-INVITEs; of {packets} packets, "
          f"{leaked} have somebody isolated; each hears exactly the others: {loop.matrix() == right}",
          took is not None and took <= limit and leaked == 0 and loop.matrix() == right)
    if not journal:
        holder.start()
        loop.run(1.5)
    return took


def main():
    end_on_signals()
    kills = int(sys.argv[1]) if len(sys.argv) > 1 else 5
    for journal in (False, True) if len(sys.argv) < 3 else (True,):
        print(f"{'With' if journal else 'Without'} a journal:", flush=True)
        with Lobby(gateways=2, journal=journal, returns=2000 * journal) as lobby:
            phones, loop, isolated, right = calls(lobby)
            times = [kill(lobby, loop, phones, isolated, right, journal) for _ in range(kills)]
            known = [took for took in times if took is not None]
            if known:
                print(f"{len(known)} kills: {spread(known)}; the controller counts "
                      f"{lobby.metric('lobby_gateway_losses_total'):.0f} losses, {lobby.metric('lobby_gateway_returns_total'):.0f} "
                      f"returns, {lobby.metric('lobby_conferences_made_again_total'):.0f} conferences made again", flush=True)
    finish()


main()
