"""Installs, upgrades and removes the controller's Debian package under systemd, and checks the effect on calls.

usage: package.py DEBIAN WORK

DEBIAN is a folder with a Debian system that has the packages that the controller's package depends on. It is booted in
a container, on an overlay in the folder WORK. Prints one line for each check, and exits with 1 if one fails.
"""
import re
import socket
import sys
from pathlib import Path
from types import SimpleNamespace
from urllib.request import Request, urlopen

from lobby import ROOT, Phone, Phones, check, finish, until
from gateways import both_alive, soon
from loopback import end_on_signals
from system import System, ran

DEBIAN, WORK = Path(sys.argv[1]), Path(sys.argv[2])
UNIT, CONFIG = "lobbysorrel-controller", "/etc/lobbysorrel/lobby.config"
HERE = "192.0.2.20"


def build(packages):
    """Builds both packages, the controller's twice, and the controller's with a higher version. Returns that
    version."""
    ran(ROOT / "deploy/package.sh", packages)
    built = [Path(ran(ROOT / "deploy/controller-package.sh", folder)) for folder in (packages, WORK / "again")]
    same = built[0].read_bytes() == built[1].read_bytes()
    said = ran("lintian", "--allow-root", "--fail-on", "none", built[0])
    tags = [line for line in said.splitlines() if re.match("[EW]: ", line)]
    check(f"built {built[0].name}, {built[0].stat().st_size:,} bytes; a second build has the same bytes: {same}; lintian: "
          f"{len(tags)} errors and warnings{''.join(f'; {tag}' for tag in tags)}", same and not tags)
    tree, version = WORK / "tree", ran("dpkg-deb", "-f", built[0], "Version") + "+trial"
    ran("dpkg-deb", "-R", built[0], tree)
    control = tree / "DEBIAN/control"
    control.write_text(re.sub("^Version: .*$", f"Version: {version}", control.read_text(), flags=re.M))
    ran("dpkg-deb", "--root-owner-group", "-b", tree, packages / f"{version}.deb")
    return version


class Caller:
    """Two phones in a room, in the container's network."""

    def __init__(self):
        lobby = SimpleNamespace(sip=5060, host=HERE)
        self.phones = [Phone(lobby, "100", pitch, 4000) for pitch in (400, 1000)]
        self.loop = Phones(self.phones)
        self.times = self.loop.call()

    def hear(self, seconds=1):
        """Whether both hear each other after this many seconds."""
        self.loop.run(seconds)
        return self.loop.matrix() == {400: {1000}, 1000: {400}}

    def invited(self):
        return [len(phone.invited) for phone in self.phones]

    def end(self):
        for phone in self.phones:
            phone.hang_up()
        self.loop.run(0.5)


def wrong_start(system, what, script, wanted, said):
    done = system.tried(f"{script}; systemctl restart {UNIT}")
    state, status, restarts = system.show(UNIT, "ActiveState", "ExecMainStatus", "NRestarts")
    told = soon(lambda: said in system.run(f"journalctl -u {UNIT} -o cat -n 30"), 3)
    check(f"{what}: start fails with {done.returncode}, then {state}, status {status}, restarts: {restarts}; the log says so: "
          f"{told}", done.returncode and (state, status, restarts) == ("failed", wanted, "0") and told)
    system.tried(f"systemctl reset-failed {UNIT}")


def port_in_use(system):
    """Another program has the HTTP port: the unit fails, and its keeper starts it once the port is free."""
    with socket.create_server(("127.0.0.1", 8080)):
        done = system.tried(f"systemctl start {UNIT}")
        failed = soon(lambda: system.show(UNIT, "ActiveState") == ["failed"], 60)
    serves = soon(lambda: system.show(UNIT, "ActiveState") == ["active"], 60)
    check(f"a port in use: start fails with {done.returncode}; then failed: {failed}; once the port is free, it is active: "
          f"{serves}", done.returncode and failed and serves)


def install(system):
    before = system.files()
    system.run("apt-get install -y --no-install-recommends /packages/lobbysorrel_*.deb /packages/lobbysorrel-controller_*.deb")
    wrong_start(system, "installed, but without a configuration", "true", "243", "credentials")
    system.run("cd /etc/lobbysorrel; for n in 1 2; do cp $n.env.example $n.env; done; systemctl enable --now lobbysorrel@1 "
               "lobbysorrel@2")
    copy = f"install -m 600 {CONFIG}.example {CONFIG}"
    wrong_start(system, "a configuration that is no Erlang", f"{copy}; echo '}}' >> {CONFIG}", "2", "syntax error")
    wrong_start(system, "a wrong value", f"{copy}; sed -i 's/returns => 1000/returns => -1/' {CONFIG}", "2",
                "returns must be a whole number from 0 to 20000, not -1")
    token = "s|{tokens, .*}|{tokens, [{<<\"sixteen bytes or more\">>, operator}]}|"
    system.run(f"{copy}; sed -i '{token}' {CONFIG}; systemctl enable {UNIT}")
    port_in_use(system)
    return before


def status(system):
    """The results of lobby-status with both gateways, with one, and without the controller."""
    statuses = [system.tried("lobby-status").returncode]
    system.run("systemctl stop lobbysorrel@2; sleep 3")
    missing = system.tried("lobby-status")
    system.run(f"systemctl start lobbysorrel@2; systemctl stop {UNIT}")
    statuses += [missing.returncode, system.tried("lobby-status").returncode]
    system.run(f"systemctl start {UNIT}")
    named = "gateway 2 at 10.0.0.10:2946: NOT in service" in missing.stdout
    check(f"lobby-status: statuses {', '.join(map(str, statuses))}; it names the gateway that is missing: {named}",
          statuses == [0, 1, 3] and named)


def service(system):
    serves = soon(lambda: "<<\"2\">> is in service" in system.run(f"journalctl -u {UNIT} -o cat"), 60)
    main, = system.show(UNIT, "MainPID")
    user = system.run(f"stat -c %u /proc/{main}")
    exposure = system.run(f"systemd-analyze security --no-pager {UNIT} | tail -n 1")
    check(f"the gateways answer: {both_alive()}; they serve the controller: {serves}; it runs as user {user}; {exposure.lstrip('→ ')}",
          serves and user != "0" and float(re.search(r": (\d+\.\d)", exposure)[1]) <= 2.0)


def changes(system):
    """A change is made, and the audit log has its lines."""
    main = system.show(UNIT, "MainPID")
    request = Request("http://127.0.0.1:8080/rooms/200", b'{"preset": "coaching"}', method="PUT",
                      headers={"Authorization": "Bearer sixteen bytes or more"})
    try:
        answer = urlopen(request, timeout=5).status
    except OSError as fault:
        answer = fault
    lines = system.tried("cd /var/lib/lobbysorrel-controller; grep -c PUT audit.jsonl; stat -c %a audit.jsonl").stdout.split()
    runs = system.show(UNIT, "MainPID") == main
    check(f"a change: {answer}; the audit log's lines about it, and its mode: {lines}; the controller still runs: {runs}",
          answer == 200 and lines == ["2", "600"] and runs)


def failures(system):
    caller = Caller()
    check(f"a call: INVITE to 200 in {max(caller.times):.3f} s; both hear each other: {caller.hear()}", caller.hear())
    system.run("kill -9 $(systemctl show lobbysorrel@1 -p MainPID --value) $(systemctl show lobbysorrel@2 -p MainPID --value)")
    check(f"both gateways killed: a second later both hear each other: {caller.hear()}, re-INVITEs: {caller.invited()}",
          caller.hear(0.1) and caller.invited() == [0, 0])
    system.run(f"kill -9 $(systemctl show {UNIT} -p MainPID --value)")
    heard = caller.hear()
    again = until(lambda: caller.loop.run(0.1) and caller.invited() == [1, 1], 60)
    check(f"the controller killed: both hear each other: {heard}; invited again {again and round(again + 1, 1)} s after it, as "
          f"the tables were kept; both hear each other: {caller.hear()}", heard and again is not None and caller.hear(0.1))
    caller.end()


def reboot(system):
    system.power_off()
    system.boot()
    serves = soon(lambda: system.tried(f"journalctl -b -u {UNIT} -o cat | grep -q '\"2\">> is in service'").returncode == 0, 60)
    caller = Caller()
    check(f"after a reboot: it serves: {serves}; a call: both hear each other: {caller.hear()}", serves and caller.hear())
    caller.end()


def upgrade(system, version):
    caller = Caller()
    system.run(f"apt-get install -y /packages/{version}.deb")
    now = system.run(f"dpkg-query -W -f '${{Version}}' {UNIT}")
    again = until(lambda: caller.loop.run(0.1) and min(caller.invited()) > 0, 60)
    check(f"upgrade to {now} during a call: both hear each other: {caller.hear()}; invited again: {again is not None}",
          now == version and caller.hear() and again is not None)
    caller.end()


def upgrade_gateways(system):
    """The gateways restart one after the other, and the call on one of them continues."""
    caller = Caller()
    heard = caller.hear()
    mains = [system.show(f"lobbysorrel@{name}", "MainPID") for name in "12"]
    system.run("apt-get install -y --reinstall /packages/lobbysorrel_*.deb")
    new = all(system.show(f"lobbysorrel@{name}", "MainPID") != main for name, main in zip("12", mains))
    caller.loop.run(1)
    check(f"upgrade of both gateways during a call: they restarted: {new}; both hear each other: {caller.hear()}; re-INVITEs: "
          f"{caller.invited()}", heard and new and caller.hear(0.1) and caller.invited() == [0, 0])
    caller.end()


def remove(system, before):
    system.run(f"apt-get remove -y {UNIT}")
    running = system.tried("cat /proc/[0-9]*/comm").stdout.split().count("beam.smp")
    kept = system.tried(f"ls {CONFIG} /var/lib/private/{UNIT}").returncode == 0
    check(f"removed: {running} controllers run; the configuration and the tables are kept: {kept}", not running and kept)
    system.run(f"apt-get purge -y {UNIT} lobbysorrel")
    left = sorted(system.files() - before)
    check(f"purged: {len(left)} files are left{''.join(f' {path}' for path in left)}", not left)


def main():
    end_on_signals()
    packages = WORK / "packages"
    packages.mkdir()
    version = build(packages)
    with System(DEBIAN, WORK, packages) as system:
        (system.root / "etc/systemd/system/addresses.service").write_text(
            (system.root / "etc/systemd/system/addresses.service").read_text().replace("for a in ", f"for a in {HERE} "))
        system.boot()
        before = install(system)
        service(system)
        changes(system)
        status(system)
        failures(system)
        upgrade(system, version)
        upgrade_gateways(system)
        reboot(system)
        remove(system, before)
    finish()


main()
