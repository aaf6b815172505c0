"""Installs, upgrades and removes the Debian package under systemd, and checks what two gateways do meanwhile.

usage: package.py DEBIAN WORK

DEBIAN is a folder with a Debian system. It is booted in a container, on an overlay in the folder WORK, with its own
network, which has the addresses of the package's examples. The commands are those of docs/OPERATING.md. Prints one line
for each check, and exits with 1 if one fails.
"""
import re
import sys
import time
from pathlib import Path

from gateways import CONTROL, HEARTBEAT, PORTS, STRANGER, Call, alive, ask, both_alive, soon
from loopback import end_on_signals
from system import System, ran

ROOT = Path(__file__).resolve().parents[2]
DEBIAN, WORK = Path(sys.argv[1]), Path(sys.argv[2])
# The bytes of the IP header for the classes CS5 and EF.
CS5, EF = 40 << 2, 46 << 2
STATE, METRICS = "/var/lib/lobbysorrel/1", "/run/lobbysorrel/1/gateway.prom"

failed = []


def check(text, holds):
    print(f"{text}{'' if holds else ': WRONG'}", flush=True)
    if not holds:
        failed.append(text)


def page_commands():
    """The blocks of commands in the page's section, without what needs a clone or a terminal."""
    section = (ROOT / "docs/OPERATING.md").read_text().partition("\n## Install as a service\n")[2].partition("\n## ")[0]
    found = re.findall(r"^```sh\n(.*?)^```$", section, re.M | re.S)
    if len(found) != 2:
        sys.exit("docs/OPERATING.md doesn't have two blocks of commands in \"Install as a service\"")
    return [re.sub(r"^(deploy/package.sh|editor|journalctl) .*\n", "", text, flags=re.M) for text in found]


def build(packages):
    """Builds the package twice, and another with a higher version. Returns that version."""
    built = [Path(ran(ROOT / "deploy/package.sh", folder)) for folder in (packages, WORK / "again")]
    same = built[0].read_bytes() == built[1].read_bytes()
    check(f"built {built[0].name}, {built[0].stat().st_size:,} bytes; a second build has the same bytes: {same}", same)
    said = ran("lintian", "--allow-root", "--fail-on", "none", built[0])
    tags = [line for line in said.splitlines() if re.match("[EW]: ", line)]
    check(f"lintian: {len(tags)} errors and warnings{''.join(f'; {tag}' for tag in tags)}", not tags)
    tree, version = WORK / "tree", ran("dpkg-deb", "-f", built[0], "Version") + "+trial"
    ran("dpkg-deb", "-R", built[0], tree)
    control = tree / "DEBIAN/control"
    control.write_text(re.sub("^Version: .*$", f"Version: {version}", control.read_text(), flags=re.M))
    with (tree / "etc/lobbysorrel/1.env.example").open("a") as example:
        example.write(f"# Upgrade {version}.\n")
    ran("dpkg-deb", "--root-owner-group", "-b", tree, packages / f"{version}.deb")
    return version


def install(system, command):
    system.run("systemctl enable --now nftables")
    before = system.files()
    system.run(f"cp /packages/lobbysorrel_*.deb /tmp; {command}")
    units = system.run("systemctl list-units --all --plain --no-legend 'lobbysorrel*.service'")
    check(f"installed: {len(system.files() - before)} files and folders; no gateway runs: {not units}", not units)
    pages = [system.tried(f"man --warnings {program} | wc -l") for program in ("mg_bridge", "mg_pace")]
    check(f"manual pages: {pages[0].stdout.strip()} and {pages[1].stdout.strip()} lines",
          all(re.fullmatch(r"\d\d+\n", page.stdout) for page in pages))
    wrong_start(system, "without options", "1", None, "2", "there is no file /etc/lobbysorrel/1.env")
    return before


def service(system, commands):
    system.run(commands)
    lives = both_alive()
    check(f"two gateways started; both answer a heartbeat: {lives}", lives)
    unit = system.run("systemd-analyze security --no-pager lobbysorrel@1 | tail -n 1")
    exposure = float(re.search(r": (\d+\.\d)", unit).group(1))
    check(f"systemd-analyze security: {exposure}", exposure <= 1.5)
    main, = system.show("lobbysorrel@1", "MainPID")
    scheduling = system.run(f"chrt -p {main}")
    user = system.run(f"stat -c %u /proc/{main}")
    policy, priority = re.findall(": (.*)", scheduling)
    check(f"it runs with {policy}, priority {priority}, as user {user}",
          (policy, priority) == ("SCHED_FIFO", "10") and user != "0")
    state = system.run(f"stat -L -c '%u %a' {STATE}; head -n 1 {STATE}/journal.txt")
    check(f"the journal's folder has its user's number and mode {state.split()[1]}",
          state.startswith(f"{user} 700\n# mg_bridge replay "))


def firewall(system):
    answer, stamp = ask(HEARTBEAT, PORTS["1"])
    call = Call()
    _, speech, size = call.packet()
    call.end()
    check(f"classes: answers {stamp >> 2} (CS5), speech {speech >> 2} (EF), {size} bytes",
          (stamp, speech, size) == (CS5, EF, 172))
    answer, _ = ask(HEARTBEAT, PORTS["1"], 0.3, STRANGER)
    dropped = re.findall(r"counter packets (\d+)", system.run("nft list chain inet lobbysorrel input"))
    check(f"a stranger: {'answer' if answer else 'no answer'}; the firewall dropped {dropped[0]} message",
          answer is None and dropped[0] == "1")
    check_it = f"mg_bridge check {CONTROL}:{PORTS['1']}"
    checks = [system.tried(f"{who}{check_it}").returncode == 0 for who in ("", "setpriv --reuid=65534 ")]
    check(f"checks from the gateway's host: by root: {checks[0]}; by others: {checks[1]}", checks == [True, False])
    kept = []
    for action in ("reload", "restart"):
        system.run(f"systemctl {action} nftables")
        kept.append(soon(system.rules))
    check(f"after a reload and a restart of nftables.service, the rules are loaded: {kept[0]}, {kept[1]}", all(kept))
    file, kept = "/etc/lobbysorrel/gateway.nft", []
    rules = system.run("nft -s list table inet lobbysorrel")
    system.run(f"cp {file} /tmp/rules; echo broken >> {file}")
    done = system.tried("systemctl restart lobbysorrel-firewall")
    kept.append(system.tried("nft -s list table inet lobbysorrel").stdout.strip() == rules)
    system.run("systemctl restart nftables")
    kept.append(soon(lambda: system.tried("nft -s list table inet lobbysorrel").stdout.strip() == rules))
    check(f"a restart with a broken file fails with {done.returncode}; the rules are as before: {kept[0]}, also after a "
          f"restart of nftables.service: {kept[1]}", done.returncode and all(kept))
    system.run(f"cp /tmp/rules {file}; systemctl restart lobbysorrel-firewall")


def logged(system, unit, *texts):
    """Whether the last lines of a unit's log have these texts, or will soon."""
    def holds():
        said = system.run(f"journalctl -u {unit} -o cat -n 12")
        return all(text in said for text in texts)
    return soon(holds, 3)


def wrong_start(system, what, name, options, status, said):
    """Starts a gateway that can't serve. The start must fail, the unit must have failed, and its log must say why."""
    unit = f"lobbysorrel@{name}"
    if options is not None:
        system.run(f"echo '{options}' > /etc/lobbysorrel/{name}.env")
    done = system.tried(f"systemctl start {unit}")
    listed = unit in system.run("systemctl --failed --plain --no-legend")
    found, restarts = system.show(unit, "ExecMainStatus", "NRestarts")
    told = logged(system, unit, said)
    check(f"{what}: start fails with {done.returncode}; among the failed units: {listed}; status {found}; restarts: "
          f"{restarts}; the log says why: {told}",
          done.returncode and listed and found == status and restarts == "0" and told)
    system.tried(f"systemctl stop {unit}; systemctl reset-failed {unit}")


def lines(system, name):
    """How many lines the log has of a unit and its keeper."""
    return int(system.run(f"journalctl -u lobbysorrel@{name} -u lobbysorrel-keeper@{name} -o cat | wc -l"))


def wrong_starts(system):
    ports = "--control-port 2948 --base-port 32000"
    wrong_start(system, "a wrong option", "3", "OPTIONS=--slots 0", "2", "bad configuration: --slots")
    wrong_start(system, "a misspelt name", "3", f"OPTION={ports}", "2", "line 1 sets neither OPTIONS nor DRAIN")
    wrong_start(system, "an address of another host", "3", f"OPTIONS={ports} --address 192.0.2.77", "5", "cannot bind")
    wrong_start(system, "a control port in use", "3", "OPTIONS=--control-address 10.0.0.10", "5", "already in use")
    wrong_start(system, "a media port in use", "3", "OPTIONS=--control-port 2948 --address 192.0.2.10", "5", "already in use")
    system.run("echo hello > /var/lib/lobbysorrel/3/journal.txt")
    wrong_start(system, "a wrong journal", "3", f"OPTIONS={ports}", "6", "isn't the title of a journal")
    system.run("rm /var/lib/lobbysorrel/3/journal.txt")


def tried_again(system):
    """A unit whose address is missing is started again after growing pauses, and serves once the address is there."""
    system.run("echo 'OPTIONS=--address 192.0.2.77 --control-port 2948 --base-port 32000' > /etc/lobbysorrel/3.env")
    before = lines(system, "3")
    system.tried("systemctl start lobbysorrel@3")
    time.sleep(25)
    said = system.run("journalctl -u lobbysorrel-keeper@3 -o cat -n 99")
    pauses = [int(pause) for pause in re.findall(r"it is started again in (\d+) s", said)][-5:]
    many = lines(system, "3") - before
    check(f"an address that is missing: pauses of {', '.join(map(str, pauses))} s; {many} lines in 25 s",
          pauses[:4] == [1, 2, 4, 8] and many < 80)
    system.run("ip address add 192.0.2.77 dev lo")
    serves = soon(lambda: system.show("lobbysorrel@3", "ActiveState") == ["active"], 20)
    check(f"once the address is there: it serves: {serves}", serves)
    system.run("systemctl stop lobbysorrel@3; ip address del 192.0.2.77 dev lo; rm /etc/lobbysorrel/3.env")
    keeper, = system.show("lobbysorrel-keeper@3", "ActiveState")
    check(f"after a stop, its keeper is {keeper}", keeper == "inactive")


def full_disk(system):
    """A gateway whose disk is full continues. A gateway that can't start because of the disk is started when there is
    space."""
    folder, space = "/var/lib/private/lobbysorrel/3", "dd if=/dev/zero of=/var/lib/private/lobbysorrel/3/fill bs=1k"
    system.run("echo 'OPTIONS=--control-port 2948 --base-port 32000' > /etc/lobbysorrel/3.env")
    system.run(f"mkdir -p {folder}; mount -t tmpfs -o size=64k tmpfs {folder}; systemctl start lobbysorrel@3")
    main = system.show("lobbysorrel@3", "MainPID")
    system.tried(space)
    # The file still has some room in its last block, which ticks take a minute and a half to fill.
    answered = int(system.run("n=0; while mg_bridge check 127.0.0.1:2948 > /dev/null 2>&1; do n=$((n + 1)); done; echo $n"))
    time.sleep(10)
    fails = system.tried("! grep -q '^lobbysorrel_journal_appends_failed_total.* 0$' /run/lobbysorrel/3/gateway.prom").returncode == 0
    same = system.show("lobbysorrel@3", "MainPID") == main
    check(f"with a full disk: {answered} messages are answered, then none; appends fail: {fails}; it still runs: {same}",
          answered < 100 and fails and same)
    done = system.tried("systemctl restart lobbysorrel@3")
    failed = soon(lambda: system.show("lobbysorrel@3", "ActiveState", "ExecMainStatus") == ["failed", "3"], 20)
    system.run(f"rm {folder}/fill")
    serves = soon(lambda: system.show("lobbysorrel@3", "ActiveState") == ["active"], 20)
    check(f"a restart then fails with {done.returncode}, and the gateway with 3: {failed}; once there is space, it serves: "
          f"{serves}", done.returncode and failed and serves)
    system.run(f"systemctl stop lobbysorrel@3; umount {folder}; rm /etc/lobbysorrel/3.env")


def moved(system):
    """The keeper's metrics say whether the journal was moved."""
    metric = "grep -q '_age_seconds.* +Inf$' /run/lobbysorrel-keeper/1/unit.prom"
    system.run(f"mv {STATE}/journal.txt {STATE}/moved.txt")
    seen = soon(lambda: system.tried(metric).returncode == 0, 10)
    system.run(f"mv {STATE}/moved.txt {STATE}/journal.txt")
    gone = soon(lambda: system.tried(metric).returncode != 0, 10)
    check(f"a journal that was moved: the keeper's metrics say so: {seen}; and no longer, once it is back: {gone}",
          seen and gone)


def hang(system):
    """A gateway that hangs is killed and started again."""
    call = Call()
    main, = system.show("lobbysorrel@1", "MainPID")
    system.run(f"kill -STOP {main}")
    start = time.monotonic()
    again = soon(lambda: system.show("lobbysorrel@1", "MainPID")[0] not in ("0", main), 40)
    took, lives = time.monotonic() - start, soon(lambda: alive(PORTS["1"], 0.1))
    changed = call.changed()
    check(f"a gateway that hangs: it is started again after {took:.0f} s: {again}; answers: {lives}; changed in the call: "
          f"{changed}", again and lives and took < 25 and changed == "nothing")
    call.end()


def crashes(system):
    """If a gateway exits again and again, its unit fails, and is started again later."""
    for _ in range(8):
        main, = system.show("lobbysorrel@2", "MainPID")
        if main != "0":
            system.run(f"kill -KILL {main}")
        time.sleep(0.4)
    failed = logged(system, "lobbysorrel-keeper@2", "has failed: it is started again in")
    serves = soon(lambda: alive(PORTS["2"], 0.1), 20)
    check(f"a gateway that is killed 8 times in 3 s: it fails, and its keeper starts it later: {failed}; it serves again: "
          f"{serves}", failed and serves)


def revive(system, what, script):
    """Runs a script that makes the first gateway restart, during a call. Returns how long this took."""
    call = Call()
    start = time.monotonic()
    system.run(script)
    lives = soon(lambda: alive(PORTS["1"], 0.02))
    took, changed = time.monotonic() - start, call.changed()
    check(f"{what}: answers again after {took:.2f} s: {lives}; changed in the call: {changed}", lives and changed == "nothing")
    call.end()
    return took


def kill(system):
    took = revive(system, "kill -9", "kill -9 $(systemctl show lobbysorrel@1 -p MainPID --value)")
    restarts, = system.show("lobbysorrel@1", "NRestarts")
    check(f"systemd restarted it {restarts} time", took < 1 and restarts == "1")
    revive(system, "systemctl restart", "systemctl restart lobbysorrel@1")


def reboot(system):
    call = Call()
    system.power_off()
    system.boot()
    call.listen(call.port)
    lives, rules = both_alive(), system.rules()
    changed = call.changed()
    check(f"after a reboot: both answer: {lives}; the rules are loaded: {rules}; changed in the call: {changed}",
          lives and rules and changed == "nothing")
    call.end()


def counted(system, number):
    """Waits until the metrics of the first gateway count this many terminations."""
    if not soon(lambda: system.tried(f"grep -q '^lobbysorrel_terminations{{.*}} {number}$' {METRICS}").returncode == 0, 15):
        sys.exit(f"{METRICS} doesn't count {number} terminations")


def drain(system):
    options = "/etc/lobbysorrel/1.env"
    counted(system, 0)
    calls = [Call(), Call()]
    counted(system, 2)
    start = time.monotonic()
    system.run("systemctl stop lobbysorrel@1")
    took = time.monotonic() - start
    named = logged(system, "lobbysorrel@1", "2 terminations left", *(f"RTP/{call.termination} " for call in calls))
    check(f"a stop with two terminations took {took:.1f} s; the log names them: {named}", took < 2 and named)
    system.run(f"echo DRAIN=60 >> {options}; systemctl start lobbysorrel@1")
    soon(lambda: alive(PORTS["1"], 0.1))
    changed = calls[0].changed()
    counted(system, 2)
    check(f"after the next start, changed in a call: {changed}", changed == "nothing")
    system.run("systemctl stop --no-block lobbysorrel@1")
    time.sleep(3)
    state, lives = *system.show("lobbysorrel@1", "ActiveState"), alive(PORTS["1"])
    for call in calls:
        call.end()
    start = time.monotonic()
    ended = soon(lambda: system.show("lobbysorrel@1", "ActiveState", "Result") == ["inactive", "success"], 15)
    check(f"with DRAIN=60, it is {state} after 3 s, and answers: {lives}; it stopped {time.monotonic() - start:.1f} s after "
          f"they were subtracted: {ended}", state == "deactivating" and lives and ended)
    system.run(f"sed -i '/^DRAIN=/d' {options}; systemctl start lobbysorrel@1")


def new_journal(system):
    """Begins a new journal, and then another."""
    command = "/usr/lib/lobbysorrel/new-journal 1"
    soon(lambda: alive(PORTS["1"], 0.1))
    call = Call()
    counted(system, 1)
    done, changed = system.tried(command), call.changed()
    check(f"new-journal with a call: status {done.returncode}; changed in the call: {changed}",
          done.returncode == 1 and "is in use" in done.stdout and changed == "nothing")
    for _ in range(2):
        call.end()
        counted(system, 0)
        system.run(f"cp {STATE}/journal.txt /tmp/before")
        said = system.run(command).splitlines()[-1]
        # The old gateway may have appended ticks until it was stopped.
        old = system.tried(f"head -c $(stat -c %s /tmp/before) {said} | cmp - /tmp/before").returncode == 0
        soon(lambda: alive(PORTS["1"], 0.1))
        before, call = call, Call()
        check(f"new-journal: the old one is kept in {said}: {old}; RTP/{before.termination} is followed by "
              f"RTP/{call.termination}, context {before.context} by {call.context}",
              old and call.termination > before.termination and call.context > before.context)
    call.end()
    revive(system, "systemctl restart with the new journal", "systemctl restart lobbysorrel@1")


def reload(system):
    """A reload restarts the gateway only if it would start with the changed options."""
    options = "/etc/lobbysorrel/1.env"
    system.run(f"cp {options} /tmp/1.env; sed -i 's/^OPTIONS=/OPTIONS=--slots 4 /' {options}")
    call = Call()
    main = system.show("lobbysorrel@1", "MainPID")
    done = system.tried("systemctl reload lobbysorrel@1")
    reason = logged(system, "lobbysorrel@1", "line 1 has another --slots")
    same, changed = system.show("lobbysorrel@1", "MainPID") == main, call.changed()
    check(f"systemctl reload with a wrong option: status {done.returncode}; the reason is logged: {reason}; it still runs: "
          f"{same}; changed in the call: {changed}", done.returncode and reason and same and changed == "nothing")
    call.end()
    system.run(f"sed 's/^OPTIONS=/OPTIONS=--late 7 /' /tmp/1.env > {options}")
    restarts = "systemctl reload lobbysorrel@1; sleep 2"
    revive(system, "systemctl reload with another option", restarts)
    other = system.show("lobbysorrel@1", "MainPID") != main
    check(f"it was restarted: {other}", other)
    system.run(f"cp /tmp/1.env {options}; {restarts}")


def upgrade(system, version):
    system.run("echo 'DRAIN=600' >> /etc/lobbysorrel/1.env; systemctl restart lobbysorrel@1; systemctl stop lobbysorrel@2")
    files = "md5sum /etc/lobbysorrel/*.env /etc/lobbysorrel/*.nft"
    kept = system.run(files)
    main, = system.show("lobbysorrel@1", "MainPID")
    took = revive(system, "upgrade with DRAIN=600", f"apt-get install -y /packages/{version}.deb")
    now = system.run("dpkg-query -W -f '${Version}' lobbysorrel")
    new, = system.show("lobbysorrel@1", "MainPID")
    other, = system.show("lobbysorrel@2", "ActiveState")
    same, restarted = system.run(files) == kept, new not in ("0", main)
    check(f"upgrade to {now}: options and rules kept: {same}; the running gateway restarted: {restarted}; the stopped "
          f"one is {other}", now == version and same and restarted and other == "inactive" and took < 60)
    options = "/etc/lobbysorrel/1.env"
    system.run(f"sed -i '/^DRAIN=/d' {options}; systemctl restart lobbysorrel@1; systemctl start lobbysorrel@2")
    system.run(f"cp {options} /tmp/1.env; echo 'WRONG=1' >> {options}")
    main = system.show("lobbysorrel@2", "MainPID")
    done = system.tried(f"apt-get install -y --reinstall /packages/{version}.deb")
    state, same = *system.show("lobbysorrel@1", "ActiveState"), system.show("lobbysorrel@2", "MainPID") == main
    check(f"an upgrade after which the first gateway can't start: status {done.returncode}; the gateway: {state}; the other "
          f"one still runs: {same}", done.returncode == 0 and state == "failed" and same)
    system.run(f"cp /tmp/1.env {options}; systemctl restart lobbysorrel@1")


def remove(system, before):
    system.run("apt-get remove -y lobbysorrel")
    left = sorted(system.files() - before)
    units = system.run("systemctl list-units --plain --no-legend 'lobbysorrel*.service'")
    running = system.tried("cat /proc/[0-9]*/comm").stdout.split().count("mg_bridge")
    kept = [path for path in left if path.startswith("/etc/")]
    state = [path for path in left if re.match("/var/lib/(private/)?lobbysorrel(-firewall)?(/|$)", path)]
    rules = system.rules()
    check(f"removed: {running} gateways run; the rules are loaded: {rules}; kept in /etc: {' '.join(kept)}; kept of the "
          f"state: {len(state)} files and folders; others: {len(left) - len(kept) - len(state)}",
          not units and not running and not rules and len(left) == len(kept) + len(state)
          and "/etc/lobbysorrel/1.env" in kept and "/var/lib/private/lobbysorrel/1/journal.txt" in state)
    system.run("apt-get purge -y lobbysorrel")
    left = sorted(system.files() - before)
    check(f"purged: {len(left)} files are left{''.join(f' {path}' for path in left)}; lost: "
          f"{len(before - system.files())}", not left and before <= system.files())


def main():
    end_on_signals()
    packages = WORK / "packages"
    packages.mkdir()
    version = build(packages)
    install_commands, start_commands = page_commands()
    with System(DEBIAN, WORK, packages) as system:
        system.boot()
        print(f"booted Debian {system.run('cat /etc/debian_version')}, {system.run('systemctl --version | head -n 1')}: "
              f"{system.tried('systemctl is-system-running').stdout.strip()}", flush=True)
        before = install(system, install_commands)
        service(system, start_commands)
        firewall(system)
        wrong_starts(system)
        tried_again(system)
        kill(system)
        hang(system)
        full_disk(system)
        moved(system)
        reboot(system)
        drain(system)
        new_journal(system)
        reload(system)
        upgrade(system, version)
        crashes(system)
        remove(system, before)
    sys.exit(bool(failed))


main()
