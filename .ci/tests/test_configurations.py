"""Configurations that a gateway refuses, and ports and files that it cannot have."""
from programs import FIRST, Commands, bound, ports


class Configurations(Commands):
    def test_bad(self):
        slots = "--slots must be from 1 to 256"
        base = "--base-port must be even and not 0, with room for --slots even ports"
        control = "--control-port must not be 0 or a media port"
        # A configuration is refused before a port is bound: this port is taken.
        taken = f"--control-port={FIRST}"
        with bound(FIRST):
            for words, wanted in (
                (["replay", "--slots", "0"], slots),
                (["replay", "--slots", "257"], slots),
                (["replay", "--base-port", "30001"], base),
                (["replay", "--base-port", "65530", "--slots", "4"], base),
                (["replay", "--control-port", "30000"], control),
                (["replay", "--first-termination", "0"], "--first-termination must be at least 1"),
                (["replay", "--first-context", "4294967294"], "--first-context must be from 1 to 4294967293"),
                (["serve", taken, "--slots", "0"], slots),
                (["live", taken, "--slots", "257"], slots),
                (["serve", taken, f"--base-port={FIRST + 3}"], base),
                (["live", taken, "--base-port", "65530"], base),
                (["serve", "--first-termination", "0"], "--first-termination must be at least 1"),
                (["live", "--first-context", "4294967294"], "--first-context must be from 1 to 4294967293"),
                (["serve", "--control-port", "0"], control),
                (["live", f"--base-port={FIRST}", f"--control-port={FIRST + 2}"], control),
            ):
                self.ends(2, "", f"bad configuration: {wanted}\n", *words, text="quit\n")

    def test_last_ports(self):
        self.ends(0, "", "", "replay", "--base-port", "65530", "--slots", "3")

    def test_taken_control_port(self):
        with bound(FIRST, FIRST + 2):
            wanted = f"cannot bind 127.0.0.1:{FIRST}: Address already in use (os error 98)\n"
            self.ends(5, "", wanted, "serve", *ports(0, 2), text="quit\n")

    def test_first_taken_media_port(self):
        with bound(FIRST + 6, FIRST + 4):
            wanted = f"cannot bind 127.0.0.1:{FIRST + 4}: Address already in use (os error 98)\n"
            self.ends(5, "", wanted, "serve", *ports(0, 3), text="quit\n")

    def test_file_for_metrics_that_cannot_be_written(self):
        wanted = "cannot write /proc/metrics.prom: "
        self.refuses(wanted, "live", *ports(0, 1), "--metrics", "/proc/metrics.prom", status=3)
