"""A Debian system in a container, for the trial of the package."""
import ctypes
import os
import re
import subprocess
import sys
import time
from pathlib import Path

from gateways import CALLER, CONTROL, CONTROLLER, MEDIA, STRANGER

ADDRESSES = f"""[Unit]
Before=network-online.target
[Service]
Type=oneshot
ExecStart=sh -c 'for a in {MEDIA} {CONTROL} {CONTROLLER} {STRANGER} {CALLER}; do ip address add $a dev lo; done'
[Install]
WantedBy=network-online.target
"""
# What may differ after a purge: logs and caches of the system, and the trial's own files.
OTHERS = re.compile(r"/(dev|packages|proc|root|run|sys|tmp|var/(cache|lib/(apt|dpkg)|log|tmp))(/|$)")


def ran(*words):
    """Runs a command, which has to succeed, and returns its output."""
    done = subprocess.run(words, stdin=subprocess.DEVNULL, stdout=subprocess.PIPE, stderr=subprocess.STDOUT, text=True)
    if done.returncode:
        sys.exit(f"{' '.join(map(str, words))}: status {done.returncode}\n{done.stdout}")
    return done.stdout.strip()


class System:
    """A Debian system in a container. This process shares the container's network, so that its sockets are in there."""

    def __init__(self, debian, work, packages):
        self.debian, self.work, self.packages = debian, work, packages
        self.root, self.process, self.leader = work / "root", None, None

    def __enter__(self):
        for name in ("upper", "work", "root"):
            (self.work / name).mkdir()
        options = f"lowerdir={self.debian},upperdir={self.work}/upper,workdir={self.work}/work"
        ran("mount", "-t", "overlay", "overlay", "-o", options, self.root)
        wants = self.root / "etc/systemd/system/network-online.target.wants"
        wants.mkdir()
        (wants / "addresses.service").symlink_to("/etc/systemd/system/addresses.service")
        (wants.parent / "addresses.service").write_text(ADDRESSES)
        return self

    def __exit__(self, *_):
        self.power_off()
        ran("umount", self.root)

    def boot(self):
        """Boots the system, waits until everything has started, and enters its network."""
        # A systemd on this host gives the container a scope. Without it, the container stays in this process's control
        # group.
        scope = [] if Path("/run/systemd/system").exists() else ["--keep-unit"]
        self.process = subprocess.Popen(
            ["systemd-nspawn", "--quiet", "--register=no", *scope, "--private-network", "--link-journal=no", "--boot",
             "--console=pipe", "--machine=lobbysorrel-trial", f"--directory={self.root}",
             f"--bind-ro={self.packages}:/packages"],
            stdin=subprocess.DEVNULL, stdout=(self.work / "console").open("w"), stderr=subprocess.STDOUT)
        state, end = "", time.monotonic() + 60
        while state not in ("running", "degraded"):
            time.sleep(0.2)
            if self.process.poll() is not None or time.monotonic() > end:
                sys.exit(f"the container doesn't start: {(self.work / 'console').read_text()}")
            self.leader = self.first_process()
            state = self.tried("systemctl is-system-running").stdout.strip() if self.leader else ""
        with open(f"/proc/{self.leader}/ns/net") as network:
            if ctypes.CDLL(None, use_errno=True).setns(network.fileno(), 0):
                sys.exit(f"setns: {os.strerror(ctypes.get_errno())}")

    def first_process(self):
        """The container's systemd, once it runs. It must not be mistaken for the host's: this trial purges a package."""
        try:
            leader = Path(f"/proc/{self.process.pid}/task/{self.process.pid}/children").read_text().strip()
            apart = all(os.readlink(f"/proc/{leader}/ns/{kind}") != os.readlink(f"/proc/self/ns/{kind}")
                        for kind in ("mnt", "net", "pid"))
            return leader if apart and Path(f"/proc/{leader}/comm").read_text() == "systemd\n" else None
        except OSError:
            return None

    def power_off(self):
        if self.process is None:
            return
        self.process.terminate()
        try:
            self.process.wait(30)
        except subprocess.TimeoutExpired:
            self.process.kill()
            self.process.wait()

    def tried(self, script):
        """The result of a script in the system."""
        words = ["nsenter", f"--target={self.leader}", "--all", "--wd", "sh", "-ec", script]
        environment = {"PATH": "/usr/sbin:/usr/bin:/sbin:/bin", "LC_ALL": "C.UTF-8", "SYSTEMD_PAGER": ""}
        return subprocess.run(words, stdin=subprocess.DEVNULL, stdout=subprocess.PIPE, stderr=subprocess.STDOUT,
                              text=True, env=environment)

    def run(self, script):
        """Runs a script in the system, which has to succeed, and returns its output."""
        done = self.tried(script)
        if done.returncode:
            sys.exit(f"{script}: status {done.returncode}\n{done.stdout}")
        return done.stdout.strip()

    def show(self, unit, *names):
        """The properties of a unit."""
        said = self.run(f"systemctl show {unit} -p {','.join(names)}")
        found = dict(line.split("=", 1) for line in said.splitlines())
        return [found[name] for name in names]

    def rules(self):
        """Whether the firewall's rules are loaded."""
        return self.tried("nft list table inet lobbysorrel").returncode == 0

    def files(self):
        """The files of the system, without those that may differ."""
        found = set()
        for folder, folders, names in os.walk(self.root):
            inside = folder.removeprefix(str(self.root)) + "/"
            folders[:] = [name for name in folders if not OTHERS.match(inside + name)]
            found |= {inside + name for name in folders + names}
        return found
