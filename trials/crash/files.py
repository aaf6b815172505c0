"""Starts gateways with files that can't be journals, and with files that can.

usage: files.py BRIDGE

Needs root to run a gateway as another user. Exits with 1 if a check fails.
"""
import os
import random
import subprocess
import sys
import tempfile

from loopback import free_ports
from serving import exchange

BRIDGE, SLOTS = sys.argv[1], 4


def check(holds, what):
    if not holds:
        sys.exit(f"wrong: {what}")


def title(control, base, slots=SLOTS):
    return (f"# mg_bridge replay --address=127.0.0.1 --control-address=127.0.0.1 --control-port={control} "
            f"--base-port={base} --slots={slots} --first-termination=1 --first-context=1 --ssrc=7 --sequence=0 --timestamp=0\n")


def files(folder, control, base):
    """Files that aren't journals of this gateway are refused, and stay unchanged. A title, or a part of one, begins
    a journal."""
    options = ["--control-port", str(control), "--base-port", str(base), "--slots", str(SLOTS)]
    head = title(control, base)
    cases = {
        "comments": ("# one\n# two\n", "line 1 isn't the title of a journal"),
        "speech": ("hello\n", "line 1 isn't the title of a journal"),
        "other": (title(control, base, 3), "line 1 has another --slots"),
        "middle": (head + "tick\n" * 5 + "tock\n" + "tick\n", "line 7 isn't a line of a script"),
        "hex": (head + "control 127.0.0.1:9 4d454\n", "line 2 isn't a line of a script"),
        "zeros": (head + "tick\n" + "\0" * 40 + "\n", "line 3 isn't a line of a script"),
    }
    for name, (text, message) in cases.items():
        path = os.path.join(folder, name)
        with open(path, "w") as file:
            file.write(text)
        status, errors, _ = exchange(BRIDGE, path, options, [], None, control)
        check(status == 6 and errors == f"journal {path}: {message}\n", f"{name}: {status} {errors!r}")
        with open(path) as file:
            check(file.read() == text, f"{name} was changed")
    for name, text in {"empty": "", "cut": head[:40], "alone": head}.items():
        path = os.path.join(folder, name)
        with open(path, "w") as file:
            file.write(text)
        status, errors, _ = exchange(BRIDGE, path, options, [], None, control)
        check(status == 0, f"{name}: {status} {errors!r}")
    status, errors, _ = exchange(BRIDGE, folder, options, [], None, control)
    check(status == 3 and "Is a directory" in errors, f"a folder: {status} {errors!r}")
    path = os.path.join(folder, "none", "journal.txt")
    status, errors, _ = exchange(BRIDGE, path, options, [], None, control)
    check(status == 3 and "No such file or directory" in errors, f"no folder: {status} {errors!r}")
    print(f"{len(cases) + 5} files: each is refused with its own message, or begins or continues a journal")


def flips(folder, control, base):
    """A journal in which a bit was flipped before the last seal is refused."""
    path = os.path.join(folder, "flipped")
    words = [BRIDGE, "serve", "--journal", path, "--control-port", str(control), "--base-port", str(base), "--slots", str(SLOTS)]

    def serve(text):
        done = subprocess.run(words, input=text, capture_output=True)
        return done.returncode, done.stderr.decode()

    for _ in range(4):
        check(serve(b"tick\n" * 30 + b"quit\n")[0] == 0, "no journal")
    with open(path, "rb") as file:
        whole = file.read()
    last = whole.rindex(b"# sha256 ")
    chosen = random.Random(1)
    reasons = {}
    for _ in range(300):
        at, bit = chosen.randrange(last), chosen.randrange(8)
        changed = bytearray(whole)
        changed[at] ^= 1 << bit
        with open(path, "wb") as file:
            file.write(changed)
        status, errors = serve(b"quit\n")
        check(status == 6, f"bit {bit} of byte {at}: {status} {errors!r}")
        with open(path, "rb") as file:
            check(file.read() == changed, f"bit {bit} of byte {at}: the file was changed")
        reason = "a seal" if "is a wrong seal" in errors else "a line"
        reasons[reason] = reasons.get(reason, 0) + 1
    print("300 journals with a flipped bit: all refused,", ", ".join(f"{n} because of {it}" for it, n in sorted(reasons.items())))


def locked(folder, control, base):
    """Another user can't open the file."""
    path = os.path.join(folder, "locked")
    with open(path, "w") as file:
        file.write(title(control, base))
    os.chmod(path, 0o600)
    os.chmod(folder, 0o755)
    done = subprocess.run(["setpriv", "--reuid=65534", "--regid=65534", "--clear-groups", BRIDGE, "serve", "--journal", path],
                          input=b"quit\n", capture_output=True)
    check(done.returncode == 3 and b"Permission denied" in done.stderr, f"permission: {done}")
    print("a file without permission is refused")


def main():
    with tempfile.TemporaryDirectory() as folder:
        control, base = free_ports(SLOTS)
        files(folder, control, base)
        flips(folder, control, base)
        locked(folder, control, base)


main()
