"""Two baresips call a room over TLS and hear each other. A third one calls over UDP. One is disconnected over HTTP,
and gets its BYE over its own connection.

It needs the Debian package baresip-core, and openssl.
"""
import subprocess
import time

from baresips import Baresip
from lobby import Lobby, check, finish, free_addresses, until
from loopback import end_on_signals

TONES = {"one": 400, "two": 1000, "three": 2000}


class Secured(Lobby):
    """A controller with a self-signed certificate."""

    def configure(self, slots, returns, options):
        self.tls, = free_addresses(1)
        subprocess.run(["openssl", "req", "-x509", "-newkey", "rsa:2048", "-nodes", "-subj", "/CN=lobby", "-keyout", "key.pem",
                        "-out", "certificate.pem"], cwd=self.folder, check=True, stderr=subprocess.DEVNULL)
        options["tls"] = '#{certificate => "certificate.pem", key => "key.pem", sip => {{127,0,0,1},%d}}' % self.tls
        super().configure(slots, returns, options)


def main():
    end_on_signals()
    with Secured() as lobby:
        # The controller's httpd can fail if it gets a request before it has started.
        before = (lobby.folder / "log").stat().st_size
        uris = {name: f"sip:100@127.0.0.1:{lobby.tls};transport=tls" for name in ("one", "two")} | {"three": f"sip:100@127.0.0.1:{lobby.sip}"}
        baresips = [Baresip(lobby.folder, name, pitch, uris[name], 12) for name, pitch in TONES.items()]
        all_in = until(lambda: len(lobby.members("100")) == 3)
        began = time.monotonic()
        time.sleep(4)
        ids = {key.partition("@")[0][4:]: member["id"] for key, member in lobby.members("100").items()}
        lobby.ask("POST", f"/members/{ids['one']}/hang_up")
        hung_up = time.monotonic()
        left = until(lambda: len(lobby.members("100")) == 2, 5)
        for baresip in baresips:
            baresip.process.wait()
        ended = time.monotonic()
        said = {one.name: one.heard(TONES.values(), began + 1.5 - ended, hung_up - 0.5 - ended) for one in baresips[1:]}
        check(f"three called, two of them over TLS: {all_in is not None}; who hears whom, by tones: {said}",
              said == {"two": {400, 2000}, "three": {400, 1000}})
        check(f"one is hung up: {left is not None}, and its log says so: {baresips[0].said('terminated') or baresips[0].said('closed')}",
              left is not None and (baresips[0].said("terminated") or baresips[0].said("closed")))
        log = (lobby.folder / "log").read_text()[before:]
        check("no crash report in the log", "CRASH REPORT" not in log)
    finish()


main()
