"""Three baresips call a room, each with a tone, and record what they hear: first each hears exactly the two others.
Then they are customer, agent and coach, and the customer doesn't hear the coach. Finally, the customer is isolated.

It needs the Debian package baresip-core.
"""
import time

from baresips import Baresip
from lobby import Lobby, check, finish, until
from loopback import end_on_signals

TONES = {"customer": 2000, "agent": 400, "coach": 1000}


def main():
    end_on_signals()
    with Lobby() as lobby:
        baresips = [Baresip(lobby.folder, name, pitch, f"sip:100@127.0.0.1:{lobby.sip}", 14) for name, pitch in TONES.items()]
        all_in = until(lambda: len(lobby.members("100")) == 3)
        began = time.monotonic()
        time.sleep(3)
        ids = {name: member["id"] for name, member in ((key.partition("@")[0][4:], m) for key, m in lobby.members("100").items())}
        for name in TONES:
            lobby.ask("POST", f"/members/{ids[name]}/role", {"role": name})
        lobby.ask("PUT", "/rooms/100", {"preset": "coaching"})
        coached = time.monotonic()
        time.sleep(3)
        start = time.monotonic()
        lobby.ask("POST", f"/members/{ids['customer']}/isolate")
        isolated = time.monotonic()
        took = isolated - start
        for baresip in baresips:
            baresip.process.wait()
        ended = time.monotonic()
        names = {pitch: name for name, pitch in TONES.items()}
        wanted = {"customer": {"agent", "coach"}, "agent": {"customer", "coach"}, "coach": {"customer", "agent"}}
        for what, since, to in (("plain", began + 1.5, coached - 0.5), ("coaching", coached + 1, isolated - 0.5),
                                ("the customer isolated", isolated + 1, ended - 1)):
            if what == "coaching":
                wanted["customer"] = {"agent"}
            elif what != "plain":
                wanted = {"customer": set(), "agent": {"coach"}, "coach": {"agent"}}
            said = {one.name: {names[pitch] for pitch in one.heard(names, since - ended, to - ended)} for one in baresips}
            shown = "; ".join(f"{name} hears {' and '.join(sorted(said[name])) or 'nobody'}" for name in TONES)
            check(f"{what}: {shown}", all_in is not None and said == wanted)
        print(f"isolated by HTTP in {1000 * took:.1f} ms", flush=True)
    finish()


main()
