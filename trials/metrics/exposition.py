"""Reads Prometheus' text format, and knows the metrics that a gateway writes."""
import re

RESULTS = ("started", "placed", "pushed", "duplicate", "late", "no_termination", "stray", "no_local", "not_rtp",
           "payload_type", "length")
BOUNDS = ("0.0005", "0.001", "0.002", "0.005", "0.01", "0.02", "0.05", "0.1", "0.5", "+Inf")
# Each family without its prefix, in the order of the file, with its type.
FAMILIES = (
    ("info", "gauge"),
    ("ticks_total", "counter"),
    ("tick_delay_seconds", "histogram"),
    ("step_seconds_max", "gauge"),
    ("contexts", "gauge"),
    ("terminations", "gauge"),
    ("slots", "gauge"),
    ("callers_sending", "gauge"),
    ("control_messages_total", "counter"),
    ("control_messages_unread_total", "counter"),
    ("rtp_packets_total", "counter"),
    ("datagrams_sent_total", "counter"),
    ("datagrams_unsent_total", "counter"),
    ("receives_failed_total", "counter"),
    ("strangers_total", "counter"),
    ("journal_lacking_ticks", "gauge"),
    ("journal_appends_failed_total", "counter"),
    ("journal_renewals_failed_total", "counter"),
    ("control_messages_unjournaled_total", "counter"),
    ("frames_concealed_total", "counter"),
    ("port_termination", "gauge"),
    ("port_packets_total", "counter"),
    ("port_packets_lost_total", "counter"),
    ("port_frames_concealed_total", "counter"),
    ("port_silence_seconds", "gauge"),
)
# The values of the label other than `gateway`, for families whose label always has the same values.
LABELS = {
    "rtp_packets_total": RESULTS,
    "datagrams_unsent_total": ("late", "held", "refused"),
    "strangers_total": ("control", "media"),
    "tick_delay_seconds_bucket": BOUNDS,
}
# The families that have the same ports. `port_termination` has only the ports that are held.
PORTS = ("port_packets_total", "port_packets_lost_total", "port_frames_concealed_total", "port_silence_seconds")
SAMPLE = re.compile(r'lobbysorrel_(\w+)\{((?:\w+="[^"]*",?)+)\} ([0-9.e+-]+)')


class Exposition:
    """The metrics in a gateway's file at one time."""

    def __init__(self, text):
        self.families, self.gateways, self.wrong = [], set(), []
        # For each family without its prefix: the values by the label other than `gateway`, or by None if there is no
        # such label.
        self.values = {}
        for line in text.splitlines():
            self.read(line)

    def read(self, line):
        if line.startswith("# TYPE lobbysorrel_"):
            name, kind = line.removeprefix("# TYPE lobbysorrel_").split(" ")
            self.families.append((name, kind))
        elif not line.startswith("# HELP lobbysorrel_"):
            sample = SAMPLE.fullmatch(line)
            if not sample:
                self.wrong.append(line)
                return
            name, labels, value = sample.groups()
            labels = dict(re.findall(r'(\w+)="([^"]*)"', labels))
            self.gateways.add(labels.pop("gateway", None))
            self.values.setdefault(name, {})[labels.popitem()[1] if labels else None] = float(value)

    def __getitem__(self, name):
        """The value of a series without a label, or those of each label."""
        values = self.values.get(name, {})
        return values[None] if None in values else values

    def faults(self, gateway):
        """Yields what differs from the lists above, in the file of the gateway with this label."""
        yield from (f"unreadable line: {line}" for line in self.wrong)
        if self.families != list(FAMILIES):
            yield f"families {sorted(set(FAMILIES) ^ set(self.families)) or 'in another order'}"
        if self.gateways != {gateway}:
            yield f"gateways {self.gateways}"
        for name, labels in LABELS.items():
            if tuple(self.values.get(name, ())) != labels:
                yield f"{name} has {list(self.values.get(name, ()))}"
        for name in PORTS[1:]:
            if self.values.get(name, {}).keys() != self.values.get(PORTS[0], {}).keys():
                yield f"{name} has other ports than {PORTS[0]}"
        buckets = list(self.values.get("tick_delay_seconds_bucket", {}).values())
        if buckets != sorted(buckets) or buckets[-1:] != [self["tick_delay_seconds_count"]]:
            yield f"tick_delay_seconds has buckets {buckets}"
