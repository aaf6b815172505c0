"""Starts ./lobby and ends it by SIGTERM, SIGINT, SIGHUP, and by killing the controller: no process may be left. It
must print who may call, and the gateway must accept packets only from a caller's own port.

It needs the ports of controller/lobby.config, so run it in a network namespace.
"""
import os
import re
import signal
import socket
import subprocess
import time

from lobby import ROOT, check, finish, until
from loopback import end_on_signals


def children(pid):
    """The processes below a process, by their commands."""
    found = {}
    for entry in os.listdir("/proc"):
        try:
            fields = open(f"/proc/{entry}/stat").read().rpartition(")") if entry.isdigit() else None
            if fields and int(fields[2].split()[1]) == pid:
                found[int(entry)] = open(f"/proc/{entry}/cmdline").read().replace("\0", " ")
                found |= children(int(entry))
        except OSError:
            pass
    return found


def free(port):
    """Whether the port is free."""
    with socket.socket(socket.AF_INET, socket.SOCK_DGRAM) as own:
        try:
            own.bind(("127.0.0.1", port))
            return True
        except OSError:
            return False


def running(pids):
    """The processes that have not ended. A process that has ended but wasn't waited for doesn't count."""
    def state(pid):
        try:
            return open(f"/proc/{pid}/stat").read().rpartition(")")[2].split()[0]
        except OSError:
            return "Z"
    return [pid for pid in pids if state(pid) != "Z"]


def started(end, what, expected):
    """Starts ./lobby, ends it, and checks that everything has ended."""
    process = subprocess.Popen([ROOT / "lobby"], stdout=subprocess.PIPE, stderr=subprocess.STDOUT, text=True, start_new_session=True)
    text = ""
    while "is in service" not in text:
        line = process.stdout.readline()
        if not line:
            break
        text += line
    below = children(process.pid)
    names = [name for name in ("mg_bridge", "beam") if any(name in command for command in below.values())]
    symmetric = any("--symmetric-rtp" in command for command in below.values() if "mg_bridge" in command)
    start = time.monotonic()
    end(process, below)
    try:
        status = process.wait(20)
    except subprocess.TimeoutExpired:
        status = None
    took = time.monotonic() - start
    # erl_child_setup ends a little later.
    until(lambda: not running(below), 1)
    left = running(below)
    check(f"{what}: status {status} after {took:.1f} s, {len(left)} of {len(below)} processes were left, ports are free: "
          f"{[free(port) for port in (2944, 5060)]}",
          status in expected and not left and free(2944) and free(5060) and names == ["mg_bridge", "beam"] and symmetric)
    for pid in running(below):
        os.kill(pid, signal.SIGKILL)
    return text


def one(name):
    """Returns a function that kills the process whose command contains this text."""
    def end(_, below):
        for pid, command in below.items():
            if name in command.split(" ")[0]:
                os.kill(pid, signal.SIGKILL)
    return end


def main():
    end_on_signals()
    text = started(lambda process, _: process.terminate(), "SIGTERM", [143])
    said = re.findall(r"calls to .*|the page is .*", text)
    print("\n".join(re.sub(r"token .*", "token ..", line) for line in said))
    check("it says who may call, and where the page is", len(said) == 2 and "from any address, without a password" in said[0]
          and "#" not in said[1])
    started(lambda process, _: os.killpg(process.pid, signal.SIGINT), "Ctrl-C", [130])
    started(lambda process, _: os.killpg(process.pid, signal.SIGHUP), "the terminal's end", [129])
    started(one("beam"), "the controller is killed", [137])
    finish()


main()
