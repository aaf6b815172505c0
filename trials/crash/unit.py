"""The gateway as its unit runs it, for the trials of the journal."""
import subprocess
import sys
import time

from loopback import free_ports

# Seconds after which the unit starts a gateway that has exited.
RESTART = 0.1


class Unit:
    """A gateway with a journal. It is restarted after each kill."""

    def __init__(self, bridge, slots, journal, errors):
        self.control, base = free_ports(slots)
        self.words = [bridge, "live", "--control-port", str(self.control), "--base-port", str(base), "--slots", str(slots),
                      "--journal", journal]
        self.errors, self.start_at = errors, None
        self.start()

    def start(self):
        self.process = subprocess.Popen(self.words, stdout=subprocess.DEVNULL, stderr=self.errors)
        self.start_at = None

    def kill(self):
        self.process.kill()
        self.process.wait()
        self.start_at = time.monotonic() + RESTART

    def turn(self):
        """Starts the gateway when it is time. Returns whether it did."""
        if self.start_at is None:
            if self.process.poll() is not None:
                sys.exit(f"the gateway ended with status {self.process.returncode}")
            return False
        if time.monotonic() < self.start_at:
            return False
        self.start()
        return True
