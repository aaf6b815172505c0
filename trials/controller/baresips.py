"""Baresips for trials: each calls a room, plays a tone, and records what it hears. They need the Debian package
baresip-core."""
import subprocess
import wave
from math import pi, sin

from loopback import udp
from tones import RATE, level


class Baresip:
    """A baresip with its own folder, which calls a URI, and hangs up after this many seconds. `account` has additional
    parameters of its account, such as a kind of SRTP; `prefix` is a command that runs it, for example in another
    network."""

    def __init__(self, folder, name, pitch, uri, seconds, host="127.0.0.1", account="", prefix=()):
        self.folder, self.name = folder / name, name
        (self.folder / "recorded").mkdir(parents=True)
        with wave.open(str(self.folder / "tone.wav"), "wb") as file:
            file.setparams((1, 2, RATE, 0, "NONE", ""))
            second = b"".join(round(8000 * sin(2 * pi * pitch * n / RATE)).to_bytes(2, "little", signed=True) for n in range(RATE))
            file.writeframes(60 * second)
        with udp() as free:
            port = free.getsockname()[1]
        (self.folder / "contacts").write_text("")
        (self.folder / "accounts").write_text(f"<sip:{name}@{host}:{port}>;regint=0;audio_codecs=pcmu/8000/1;ptime=20{account}\n")
        modules = "".join(f"module {module}.so\n" for module in ("g711", "aufile", "aubridge", "sndfile", "srtp", "dtls_srtp", "ice"))
        (self.folder / "config").write_text(
            f"poll_method epoll\nsip_listen {host}:{port}\naudio_player aubridge,x\naudio_source aufile,{self.folder}/tone.wav\n"
            f"audio_alert aubridge,y\nrtp_ports {40000 + pitch}-{40048 + pitch}\njitter_buffer_delay 2-5\nnet_interface {host}\n"
            f"module_path /usr/lib/baresip/modules\nsnd_path {self.folder}/recorded\n{modules}"
            "module_tmp account.so\nmodule_app menu.so\n")
        self.process = subprocess.Popen([*prefix, "baresip", "-f", self.folder, "-n", host, "-e", f"/dial {uri}", "-t", str(seconds)],
                                        stdin=subprocess.DEVNULL, stdout=open(self.folder / "log", "w"), stderr=subprocess.STDOUT)

    def said(self, text):
        """Whether its log has this text."""
        return text in (self.folder / "log").read_text()

    def heard(self, pitches, start, end):
        """The pitches, out of these, that it heard between two times, in seconds of its recording. Negative times count
        from the recording's end."""
        file, = (self.folder / "recorded").glob("*dec.wav")
        samples = memoryview(file.read_bytes()[44:]).cast("h")[round(start * RATE):round(end * RATE)]
        return {pitch for pitch in pitches if level(samples, pitch) > 0.1}
