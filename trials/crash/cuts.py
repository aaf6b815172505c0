"""Cuts a journal after its title and after each later byte, resumes each part, and compares the gateway with one that
replays the whole lines of that part.

usage: cuts.py BRIDGE

Exits with 1 at the first difference. A partial last line must be gone from the file.
"""
import os
import subprocess
import sys
import tempfile

from loopback import end_on_signals, free_ports, udp
from serving import exchange

BRIDGE = sys.argv[1]
AUDIT = ("MEGACO/1 [127.0.0.1]:2945 Transaction=99{Context=1{ContextAudit{Topology},"
         "AuditValue=*{Audit{Media,Statistics}}}}")
ADD = "Add=${Media{LocalControl{Mode=SendReceive},Remote{v=0\nc=IN IP4 127.0.0.1\nm=audio 9 RTP/AVP 0\n}}}"
EDITS = (
    f"Context=${{{ADD},{ADD},{ADD}}}",
    "Context=1{Topology{RTP/1,RTP/2,isolate}}",
    "Context=1{Modify=RTP/2{Media{LocalControl{Mode=ReceiveOnly}}}}",
    f"Context=1{{{ADD}}}",
    "Context=1{Topology{RTP/1,RTP/2,bothway,RTP/3,RTP/4,oneway}}",
    "Context=1{Subtract=RTP/3{Audit{}}}",
)


def title_of(lines):
    return lines[0].removeprefix("# mg_bridge replay ").split()


def uncounted(line):
    """The line, or as many `tick` lines as it counts."""
    return ["tick"] * int(line.removeprefix("ticks ")) if line.startswith("ticks ") else [line]


def audit_after(lines, source):
    """Returns the answer to the audit from a gateway that replays these lines."""
    message = AUDIT.replace("\\", "\\\\").replace("\n", "\\n")
    script = "\n".join([*(it for line in lines for it in uncounted(line)), f"say {source} {message}", ""])
    done = subprocess.run([BRIDGE, "replay", *title_of(lines)], input=script.encode(), stdout=subprocess.PIPE, check=True)
    answers = [line for line in done.stdout.decode().splitlines() if line.startswith("say ")]
    return answers[-1].split(" ", 2)[2].replace("\\r", "\r").replace("\\n", "\n")


def journal_of(folder, socket, control, base):
    """Makes a journal without dates, seals, and comments about missed ticks."""
    path = os.path.join(folder, "journal.txt")
    options = ["--control-port", str(control), "--base-port", str(base), "--slots", "8"]
    messages = [f"MEGACO/1 [127.0.0.1]:2945 Transaction={n + 1}{{{edit}}}" for n, edit in enumerate(EDITS)]
    # Each message has a session of its own, with ticks after it.
    for message in messages:
        status, errors, answers = exchange(BRIDGE, path, options, [message], socket, control, "tick\n" * 50)
        if status or not answers or "Error" in answers[0]:
            sys.exit(f"{status} {errors} {answers}")
    with open(path) as file:
        lines = [line for line in file.read().splitlines() if not line.startswith(("# time", "# sha256", "# missed"))]
    with open(path, "w") as file:
        file.write("\n".join(lines) + "\n")
    return path


def main():
    end_on_signals()
    folder = tempfile.TemporaryDirectory()
    control, base = free_ports(8)
    socket = udp()
    source = "%s:%d" % socket.getsockname()
    path = journal_of(folder.name, socket, control, base)
    with open(path, "rb") as file:
        whole = file.read()
    first = whole.index(b"\n") + 1
    wanted, part = {}, os.path.join(folder.name, "part.txt")
    for cut in range(first, len(whole) + 1):
        text = whole[:cut]
        lines = text[:text.rindex(b"\n")].decode().split("\n")
        with open(part, "wb") as file:
            file.write(text)
        if len(lines) not in wanted:
            wanted[len(lines)] = audit_after(lines, "127.0.0.1:2945")
        status, errors, answers = exchange(BRIDGE, part, [], [AUDIT], socket, control)
        if status or answers != [wanted[len(lines)]]:
            sys.exit(f"cut after byte {cut}: {status} {errors} {answers} in place of {wanted[len(lines)]}")
        with open(part, "rb") as file:
            if not file.read().startswith(text[:text.rindex(b"\n") + 1] + b"# counted ticks\n# sha256 "):
                sys.exit(f"cut after byte {cut}: the file isn't the whole lines and what followed")
    if len(set(wanted.values())) <= len(EDITS):
        sys.exit("gateways of different parts can't be told apart")
    print(f"{len(whole) + 1 - first} cuts of a journal of {len(wanted)} lines: each gateway is that of the whole lines")


main()
