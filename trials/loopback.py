"""Ports on 127.0.0.1 for the trials, and how trials end."""
import signal
import socket
import sys


def end_on_signals():
    """Makes SIGTERM and SIGHUP end the trial with an exception, so that the blocks that hold programs and files end,
    too."""
    for one in (signal.SIGTERM, signal.SIGHUP):
        signal.signal(one, lambda number, _: sys.exit(128 + number))


def udp(port=0, address="127.0.0.1"):
    """Returns a non-blocking UDP socket."""
    s = socket.socket(socket.AF_INET, socket.SOCK_DGRAM)
    s.bind((address, port))
    s.setblocking(False)
    return s


def free_ports(slots):
    """Returns a free control port, and a base port from which this many even ports are free."""
    for base in range(31000, 39000, 2 * slots + 2):
        try:
            for s in [udp(base + 2 * slot) for slot in range(slots + 1)]:
                s.close()
            return base + 2 * slots, base
        except OSError:
            pass
    sys.exit("no free ports")
