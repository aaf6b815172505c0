"""Checks the file that `mg_bridge live --metrics` writes, and what Prometheus reads from it.

usage: metrics.py WORD ..

The words start mg_bridge, and the last one is its path. Two gateways write files, which a node_exporter reads every
second for a Prometheus with the rules in deploy/prometheus. The first gateway has 64 callers in four conferences. One
of the callers loses 1 packet in 25, and strangers send too. The second gateway is sent datagrams with each result. The
trial compares the metrics with what it sent, and then kills the first gateway. Prints a line for each check, and exits
with 1 if one fails.
"""
import re
import socket
import subprocess
import sys
import tempfile
import time
from pathlib import Path

from exposition import FAMILIES, Exposition
from gateway import ADD, Gateway
from load import STRIDE, Caller, Load, packet
from monitors import Prometheus, node_exporter

WORDS = sys.argv[1:]
RULES = Path(__file__).resolve().parents[2] / "deploy/prometheus/lobbysorrel.rules.yml"
CALLERS, CONFERENCES, SLOTS, LOST = 64, 4, 96, 25
# Seconds between two files, and how long the trial waits for one or for an alert.
PERIOD, PATIENCE = 5, 30
STRANGERS, INTRUDERS = 12, 9
LOAD_SECONDS, POLL_SECONDS, POLL_RATE = 25, 12, 1000
# A packet this many numbers back is too late, but not a jump.
LATE = 12
LOCAL = "Local{v=0\nc=IN IP4 $\nm=audio $ RTP/AVP 0\n},"
HELD = ("0.0.0.0", 4000)
# Alerts that also depend on how busy the machine is.
MACHINE = ("LobbysorrelTicksLate", "LobbysorrelPacketsUnsentLate")
missed = 0


def check(what, holds, text=""):
    """Prints a line for a check."""
    global missed
    missed += not holds
    print(f"{what}: {text or 'yes'}{'' if holds else ': MISSED'}", flush=True)


def differences(pairs):
    """Returns a text with the first names whose two values differ, which is empty if none do."""
    texts = [f"{name} is {found}, not {due}" for name, found, due in pairs if found != due]
    return ", ".join(texts[:3] + [f"and {len(texts) - 3} more"] * (len(texts) > 3))


def wait(holds, seconds=PATIENCE):
    """Waits until something holds, and returns the seconds that this took, or None if it took too long."""
    start = time.monotonic()
    while (now := time.monotonic() - start) < seconds:
        if holds():
            return now
        time.sleep(0.1)
    return None


class Metered(Gateway):
    """A gateway that writes its metrics to a file in its own folder. node_exporter's folder has a link to it."""

    def __init__(self, folder, links, slots, *options):
        folder.mkdir()
        self.file, self.link = folder / "gateway.prom", links / f"lobbysorrel-{folder.name}.prom"
        self.link.symlink_to(self.file)
        super().__init__(WORDS, slots, "--metrics", str(self.file), *options)

    def text(self):
        return self.file.read_text()

    def written(self):
        """When the file was written, or 0 without one."""
        return self.file.stat().st_mtime if self.file.exists() else 0

    def metrics(self, moment):
        """Returns the metrics of the first file that is written after this moment."""
        # A tenth of a second later, the gateway has received all earlier datagrams.
        if wait(lambda: self.written() > moment + 0.1, 3 * PERIOD) is None:
            sys.exit(f"{self.file} isn't written every {PERIOD} s")
        return Exposition(self.text())


def intrude(gateway, port):
    """Makes strangers send to the control port and to a caller's port."""
    with socket.socket(socket.AF_INET, socket.SOCK_DGRAM) as stranger:
        stranger.bind(("127.0.0.2", 0))
        for _ in range(STRANGERS):
            stranger.sendto(b"MEGACO/1 [127.0.0.2]:2945 Transaction=1{Context=*{}}", ("127.0.0.1", gateway.control))
        for number in range(INTRUDERS):
            stranger.sendto(packet(number), ("127.0.0.1", port))


def form(gateway):
    """Checks the form of the file."""
    said = subprocess.run(["promtool", "check", "metrics"], input=gateway.text(), capture_output=True, text=True)
    check("promtool check metrics", said.returncode == 0 and not said.stderr, said.stderr.strip() or "no complaint")
    faults = list(Exposition(gateway.text()).faults(gateway.name))
    check("families, types and labels", not faults, "; ".join(faults) or "as listed")
    version = subprocess.run([WORDS[-1], "--version"], capture_output=True, text=True).stdout.split()[1]
    found = list(Exposition(gateway.text()).values.get("info", {}).items())
    if missed:
        sys.exit("the file isn't as listed, so there are no further checks")
    check("version", found == [(version, 1)], version if found == [(version, 1)] else str(found))


def poll(gateway):
    """Reads the file again and again: it must be complete each time, and new every five seconds."""
    texts, absent, start = [], 0, time.monotonic()
    for n in range(POLL_SECONDS * POLL_RATE):
        time.sleep(max(0, start + n / POLL_RATE - time.monotonic()))
        try:
            text = gateway.text()
        except FileNotFoundError:
            absent += 1
            continue
        if not texts or text != texts[-1][1]:
            texts.append((time.monotonic(), text))
    rate = POLL_SECONDS * POLL_RATE / (time.monotonic() - start)
    cut = [text for _, text in texts if text[-1:] != "\n" or list(Exposition(text).faults(gateway.name))]
    check("whole files", not cut and not absent and rate > POLL_RATE / 2,
          f"{rate:.0f} reads a second found {len(texts)} texts, {len(cut)} of them cut, and {absent} times no file")
    # The first text was written before the first read.
    times = [at for at, _ in texts[1:]]
    periods = [later - earlier for earlier, later in zip(times, times[1:])]
    check("time between files", periods and all(abs(one - PERIOD) < 0.5 for one in periods),
          ", ".join(f"{one:.2f} s" for one in periods) or f"{len(texts)} files in {POLL_SECONDS} s")


def during(gateway, terminations):
    """Checks the gauges while all callers send."""
    metrics = gateway.metrics(time.time())
    pairs = [("contexts", metrics["contexts"], CONFERENCES),
             ("terminations", metrics["terminations"], len(terminations)),
             ("slots", metrics["slots"], SLOTS),
             ("callers_sending", metrics["callers_sending"], CALLERS),
             ("port_termination", metrics["port_termination"], {str(port): n for n, port in terminations})]
    check("gauges during the load", not differences(pairs), differences(pairs) or f"{len(terminations)} terminations")
    longest = metrics["step_seconds_max"]
    check("step_seconds_max", 0 < longest < 1, f"{1000 * longest:.1f} ms")


def after(gateway, load, metrics):
    """Checks the counters when the callers have stopped."""
    callers = load.callers
    ports = {str(caller.port): caller for caller in callers}
    sent = sum(caller.sent for caller in callers)
    found = metrics["port_packets_total"]
    pairs = [(f"port_packets_total of {port}", found.get(port), one.sent) for port, one in ports.items()]
    pairs += [("rtp_packets_total", sum(metrics["rtp_packets_total"].values()), sent)]
    check("received packets", not differences(pairs), differences(pairs) or f"{sent}, for each port as sent")
    found = metrics["port_packets_lost_total"]
    pairs = [(f"port_packets_lost_total of {port}", found.get(port), one.missing()) for port, one in ports.items()]
    lossy = next(one for one in callers if one.lost)
    text = f"{lossy.missing()} of port {lossy.port}, none of the others"
    check("lost packets", not differences(pairs), differences(pairs) or text)
    concealed = metrics["port_frames_concealed_total"]
    found, total = concealed.get(str(lossy.port), 0), metrics["frames_concealed_total"]
    check("concealed frames", total == sum(concealed.values()) and found > 0.8 * lossy.missing(),
          f"{found:.0f} of port {lossy.port}, {total:.0f} in all, {sum(concealed.values()):.0f} by ports")
    pairs = [("strangers_total", metrics["strangers_total"], {"control": STRANGERS, "media": INTRUDERS}),
             ("control_messages_total", metrics["control_messages_total"], gateway.asked),
             ("control_messages_unread_total", metrics["control_messages_unread_total"], 0),
             ("receives_failed_total", metrics["receives_failed_total"], 0)]
    check("strangers, messages, failures", not differences(pairs), differences(pairs) or f"{gateway.asked} messages")
    silence = gateway.written() - load.last
    found = [metrics["port_silence_seconds"].get(port, -1) for port in ports]
    check("port_silence_seconds", all(abs(one - silence) < 0.5 for one in found),
          f"{min(found):.2f} to {max(found):.2f} s, {silence:.2f} s after the last packets")


def ticks(earlier, later, seconds):
    """Checks the ticks of two files with these seconds between them."""
    count = later["ticks_total"] - earlier["ticks_total"]
    check("ticks_total", abs(count - seconds / STRIDE) <= 10, f"{count:.0f} in {seconds:.2f} s")
    delays = later["tick_delay_seconds_count"]
    check("tick_delay_seconds", delays == later["ticks_total"], f"{delays:.0f} of {later['ticks_total']:.0f} ticks")


def emptied(gateway, load):
    """Ends all calls, and checks the counters of sent datagrams, and the ports that are left."""
    before = gateway.metrics(time.time())["port_packets_total"]
    # A port without a termination is listed only if it received something.
    ports = {port: count for port, count in before.items() if count}
    gateway.end()
    load.end()
    metrics = gateway.metrics(time.time())
    received = sum(caller.received for caller in load.callers)
    unsent = metrics["datagrams_unsent_total"]
    pairs = [("contexts", metrics["contexts"], 0),
             ("terminations", metrics["terminations"], 0),
             ("port_termination", metrics["port_termination"], {}),
             ("port_packets_total", metrics["port_packets_total"], ports),
             ("datagrams_sent_total", metrics["datagrams_sent_total"], received + gateway.asked),
             ("refused", unsent["refused"], 0)]
    check("after the calls", not differences(pairs), differences(pairs) or f"{received} packets sent and received")
    check("unsent datagrams", unsent["held"] > LOAD_SECONDS / STRIDE, str(unsent))


def results(gateway):
    """Sends datagrams for each result to a gateway, and checks the counters."""
    caller, deaf = Caller(LOST), Caller()
    caller.port = gateway.conference([caller.remote])[0][1]
    # Without a Local, the answer has no port: the termination has the next one.
    gateway.ask("Context=1{%s}" % (ADD.replace(LOCAL, "") % deaf.remote))
    deaf.port, unheld = caller.port + 2, gateway.ports[-1]
    # Waits until a file counts the lost packets: then a late packet that lowered their number would be noticed.
    moment = time.time()
    while gateway.written() < moment + 1:
        caller.speak()
        time.sleep(STRIDE)
    caller.finish()
    caller.send(packet((caller.next - LATE) // LOST * LOST))
    # For each datagram: its result, the caller who sends it, its port, the datagram, and how often it is sent.
    odd = (("duplicate", caller, caller.port, packet(caller.next - 1), 2),
           ("no_termination", caller, unheld, packet(1), 3),
           ("no_local", deaf, deaf.port, packet(1), 5),
           ("not_rtp", caller, caller.port, b"\0", 6),
           ("payload_type", caller, caller.port, packet(caller.next, 8), 7),
           ("length", caller, caller.port, packet(caller.next, 0, 80), 8))
    for _, one, port, datagram, times in odd:
        for _ in range(times):
            one.socket.sendto(datagram, ("127.0.0.1", port))
    with socket.socket(socket.AF_INET, socket.SOCK_DGRAM) as stray:
        stray.bind(("127.0.0.2", 0))
        for _ in range(4):
            stray.sendto(packet(1), ("127.0.0.1", caller.port))
    found = dict(gateway.metrics(time.time())["rtp_packets_total"])
    accepted = sum(found.pop(name, 0) for name in ("started", "placed", "pushed"))
    due = {"late": 1, "stray": 4, **{name: times for name, _, _, _, times in odd}}
    pairs = [("started, placed and pushed", accepted, caller.sent), ("others", found, due)]
    check("rtp_packets_total", not differences(pairs), differences(pairs) or f"{accepted:.0f} accepted, {due}")


def falling(prometheus):
    """Checks that no counter falls, which Prometheus would take for a restart."""
    time.sleep(2)  # until the last files are scraped
    found = {labels["__name__"] for labels, _ in prometheus.query('last_over_time({__name__=~"lobbysorrel_.*"}[5m])')}
    names = sorted(name for name in found if name.endswith("_total"))
    fallen = [name for name in names if prometheus.query(f"resets({name}[5m]) > 0")]
    due = sum(kind == "counter" for _, kind in FAMILIES)
    check("counters that never fall", len(names) == due and not fallen, f"{len(names)}; fell: {fallen or 'none'}")


def scraped(prometheus, gateways):
    """Checks that Prometheus has the values of the files of all gateways."""
    def stored(name):
        return {labels["gateway"]: value for labels, value in prometheus.query(f"lobbysorrel_{name}")}

    names = ("terminations", "slots", "control_messages_total", "datagrams_sent_total")
    due = {name: {gateway.name: Exposition(gateway.text())[name] for gateway in gateways} for name in names}
    # Counters that rise differ for a second, so only gauges are compared.
    same = wait(lambda: stored("slots") == due["slots"] and stored("terminations") == due["terminations"], PERIOD)
    check("Prometheus has both gateways", same is not None and stored("contexts").keys() == due["slots"].keys(),
          f"terminations {sorted(stored('terminations').values())}")
    errors = [value for _, value in prometheus.query("node_textfile_scrape_error")]
    check("node_exporter's errors", errors == [0], str(errors))
    quantile = "histogram_quantile(0.999, sum by (gateway, le) (rate(lobbysorrel_tick_delay_seconds_bucket[20s])))"
    delays = {labels["gateway"]: value for labels, value in prometheus.query(quantile)}
    found = delays.get(gateways[0].name, -1)
    check("99.9 % of tick delays", found >= 0, f"within {1000 * found:.1f} ms")


def alert(prometheus, names, what, *labels):
    """Waits until exactly these alerts of these names fire, each given with the values of the labels."""
    def found():
        return {one for one in prometheus.firing(*labels) if one[0] in names}

    took = wait(lambda: found() == what)
    text = "too late" if took is None else f"after {took:.0f} s"
    check(f"alert {' and '.join(sorted(names))}", took is not None, f"{text}, for {sorted(found()) or 'nothing'}")


def ended(prometheus, gateway):
    """Kills a gateway, and waits for the alerts. Then deletes its file, as systemd does, and waits for others."""
    gateway.kill()
    alert(prometheus, {"LobbysorrelFileStale"}, {("LobbysorrelFileStale", str(gateway.link))}, "file")
    alert(prometheus, {"LobbysorrelNoTicks"}, {("LobbysorrelNoTicks", gateway.name)}, "gateway")
    gateway.file.unlink()
    alert(prometheus, {"LobbysorrelGone"}, {("LobbysorrelGone", gateway.name)}, "gateway")
    # For the link without a file.
    alert(prometheus, {"LobbysorrelNotScraped"}, {("LobbysorrelNotScraped",)})
    alert(prometheus, {"LobbysorrelFileStale", "LobbysorrelNoTicks"}, set(), "gateway")
    # Longer than the time that the rules look back.
    time.sleep(70)
    alert(prometheus, {"LobbysorrelGone"}, {("LobbysorrelGone", gateway.name)}, "gateway")
    gateway.link.unlink()
    alert(prometheus, {"LobbysorrelGone", "LobbysorrelNotScraped"}, set())


def trial(folder, log):
    links = folder / "node-exporter"
    links.mkdir()
    with (Metered(folder / "1", links, SLOTS, "--controller", "127.0.0.1", "--symmetric-rtp") as first,
          Metered(folder / "2", links, 8) as second,
          node_exporter(log, links) as exporter,
          Prometheus(log, folder, RULES, exporter.address) as prometheus):
        callers = [Caller(LOST if n == 0 else 0) for n in range(CALLERS)]
        terminations = []
        for n in range(CONFERENCES):
            members = callers[n::CONFERENCES]
            found = first.conference([one.remote for one in members])
            for one, (_, port) in zip(members, found):
                one.port = port
            terminations += found
        # A caller on hold: nothing is sent to him.
        number, port = re.search(r"RTP/(\d+).*?m=audio (\d+)", first.ask(f"Context=1{{{ADD % HELD}}}"), re.S).groups()
        terminations.append((int(number), int(port)))
        load, start = Load(callers), time.time()
        load.start()
        opened = first.metrics(time.time())
        opened_at = first.written()
        form(first)
        poll(first)
        during(first, terminations)
        intrude(first, callers[1].port)
        alert(prometheus, {"LobbysorrelPortLoss"}, {("LobbysorrelPortLoss", str(callers[0].port))}, "port")
        alert(prometheus, {"LobbysorrelControlStrangers"}, {("LobbysorrelControlStrangers", first.name)}, "gateway")
        scraped(prometheus, (first, second))
        time.sleep(max(0, start + LOAD_SECONDS - time.time()))
        load.hush()
        stopped = first.metrics(time.time())
        ticks(opened, stopped, first.written() - opened_at)
        after(first, load, stopped)
        emptied(first, load)
        results(second)
        falling(prometheus)
        ended(prometheus, first)
        others = {one for one in prometheus.firing("gateway") if one[0] not in MACHINE}
        check("other alerts at the end", not others, str(sorted(others)) if others else "none")


def main():
    with tempfile.TemporaryDirectory() as folder, open(Path(folder) / "log", "w") as log:
        trial(Path(folder), log)
    sys.exit(missed > 0)


main()
