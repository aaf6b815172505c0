"""Linphone calls a room in which a phone sends a tone: each hears the other. Then it holds the call, resumes it, and hangs
up.

It needs the Debian package linphone-cli, and a network namespace in which lo is the only interface, because Linphone
would give the address of another interface.
"""
import os
import subprocess
import wave
from math import pi, sin

from lobby import Lobby, Phone, Phones, check, finish, loudness
from loopback import end_on_signals, udp
from tones import RATE, level

OWN, OTHER = 400, 1000


class Linphone:
    """A linphonec with its own folder, and with files in place of a sound card."""

    def __init__(self, folder):
        self.tone, self.recorded = folder / "tone.wav", folder / "heard.wav"
        (folder / ".local/share/linphone").mkdir(parents=True)
        with wave.open(str(self.tone), "wb") as file:
            file.setparams((1, 2, RATE, 0, "NONE", ""))
            second = b"".join(round(8000 * sin(2 * pi * OWN * n / RATE)).to_bytes(2, "little", signed=True) for n in range(RATE))
            file.writeframes(60 * second)
        with udp() as free:
            port = free.getsockname()[1]
        (folder / "linphonerc").write_text(f"[sip]\nsip_port={port}\nsip_tcp_port=0\nsip_tls_port=0\n")
        self.process = subprocess.Popen(["linphonec", "-c", folder / "linphonerc"], env={**os.environ, "HOME": str(folder)}, text=True,
                                        stdin=subprocess.PIPE, stdout=open(folder / "log", "w"), stderr=subprocess.STDOUT)

    def say(self, command):
        self.process.stdin.write(f"{command}\n")
        self.process.stdin.flush()

    def heard(self):
        """Whether its recording has the other's tone."""
        samples = memoryview(self.recorded.read_bytes()[44:]).cast("h")
        return level(samples[-2 * RATE:-RATE], OTHER) > 0.02


def main():
    end_on_signals()
    with Lobby() as lobby:
        phone = Phone(lobby, "100", OTHER)
        phones = Phones([phone])
        phones.call()

        def direction():
            return next((member["direction"] for caller, member in lobby.members("100").items() if "linphone" in caller), None)

        def is_heard():
            return bool(phone.heard) and loudness(phone.heard[-1][1], OWN) > 1000

        linphone = Linphone(lobby.folder / "linphone")
        linphone.say("soundcard use files")
        linphone.say(f"record {linphone.recorded}")
        linphone.say(f"call sip:100@127.0.0.1:{lobby.sip}")
        phones.run(10, lambda: direction() == "sendrecv")
        linphone.say(f"play {linphone.tone}")
        phones.run(10, is_heard)
        check("the phone hears Linphone", is_heard())
        linphone.say("pause")
        phones.run(10, lambda: direction() == "sendonly" and not is_heard())
        check("held: it sends only, and the phone hears nobody", direction() == "sendonly" and not is_heard())
        linphone.say("resume")
        phones.run(10, lambda: direction() == "sendrecv" and is_heard())
        check("resumed: the phone hears Linphone", is_heard())
        phones.run(3)
        linphone.say("terminate")
        phones.run(10, lambda: direction() is None)
        check("it hung up: the room has one member", list(lobby.members("100")) == [phone.name])
        linphone.say("quit")
        linphone.process.wait(10)
        check("Linphone hears the phone", linphone.heard())
    finish()


main()
