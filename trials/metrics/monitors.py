"""node_exporter and Prometheus on 127.0.0.1, for the trials of metrics."""
import json
import re
import socket
import subprocess
import sys
import time
import urllib.parse
import urllib.request

CONFIG = """\
global: {{scrape_interval: 1s, evaluation_interval: 1s}}
rule_files: [{rules}]
scrape_configs: [{{job_name: node, static_configs: [{{targets: ["{target}"]}}]}}]
"""
# The rules' times, and the shorter ones of a trial, in which Prometheus scrapes every second.
SHORTER = (
    (r"\[2m\]", "[12s]"), (r"\[5m\]", "[20s]"), (r"\[10m\]", "[20s]"), (r"\[1h\]", "[1m]"), (r"for: .*", "for: 2s"),
    (r"> 30$", "> 8"),
)


def free_address():
    """Returns an address on 127.0.0.1 with a free TCP port."""
    with socket.socket() as s:
        s.bind(("127.0.0.1", 0))
        return "127.0.0.1:%d" % s.getsockname()[1]


def get(url):
    with urllib.request.urlopen(url, timeout=5) as answer:
        return answer.read().decode()


class Monitor:
    """A program that answers HTTP requests. It is ready when `path` has status 200."""

    def __init__(self, log, path, *words):
        self.address = free_address()
        self.process = subprocess.Popen([*words, f"--web.listen-address={self.address}"], stdout=log, stderr=log)
        for _ in range(100):
            try:
                get(f"http://{self.address}{path}")
                return
            except OSError:
                time.sleep(0.1)
        self.process.kill()
        sys.exit(f"{words[0]} doesn't answer")

    def __enter__(self):
        return self

    def __exit__(self, *_):
        self.process.kill()
        self.process.wait()


def node_exporter(log, folder):
    """Starts a node_exporter that reads the files in a folder."""
    return Monitor(log, "/metrics", "prometheus-node-exporter", "--collector.disable-defaults", "--collector.textfile",
                   "--collector.time", f"--collector.textfile.directory={folder}")


class Prometheus(Monitor):
    """A Prometheus that scrapes node_exporter every second, and evaluates the rules with shorter times."""

    def __init__(self, log, folder, rules, target):
        text = rules.read_text()
        for pattern, shorter in SHORTER:
            text, changed = re.subn(pattern, shorter, text, flags=re.M)
            if not changed:
                sys.exit(f"{rules.name} has no {pattern}")
        short = folder / "short.rules.yml"
        short.write_text(text)
        config = folder / "prometheus.yml"
        config.write_text(CONFIG.format(rules=short, target=target))
        super().__init__(log, "/-/ready", "prometheus", f"--config.file={config}", f"--storage.tsdb.path={folder}/data")

    def ask(self, path, **values):
        answer = get(f"http://{self.address}/api/v1/{path}?{urllib.parse.urlencode(values)}")
        return json.loads(answer)["data"]

    def query(self, expression):
        """Returns the labels and the value of each sample."""
        result = self.ask("query", query=expression)["result"]
        return [(one["metric"], float(one["value"][1])) for one in result]

    def firing(self, *labels):
        """Returns the alerts that are firing: the name of each, with the values of these labels."""
        alerts = [one["labels"] for one in self.ask("alerts")["alerts"] if one["state"] == "firing"]
        return {(one["alertname"], *(one.get(label) for label in labels)) for one in alerts}
