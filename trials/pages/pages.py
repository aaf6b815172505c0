"""Runs those commands in pages that need no network, and compares their output with what the pages show.

usage: pages.py [--try] PAGE ..

Such a command is an `sh` block that begins with `dist/mg_bridge` or `demo/hear`. Its output must be one of the blocks
that follow it, up to the next `sh` block. Exits with 1 if one differs. If the machine is too busy for `demo/hear`, it
is skipped. With --try, `rt try` runs the sources in place of dist/mg_bridge: nothing is proved, a command takes about a
minute, and `demo/hear` is left out.
"""
import re
import subprocess
import sys


def blocks(page):
    """The blocks of a page, each with its language."""
    return re.findall(r"^```(\w*)\n(.*?)^```$", page, re.M | re.S)


def commands(page):
    """Each command that needs no network, with the blocks that follow it."""
    found = blocks(page)
    for i, (language, text) in enumerate(found):
        if language == "sh" and re.match(r"(dist/mg_bridge|demo/hear)\s", text):
            following = []
            for other, shown in found[i + 1:]:
                if other == "sh":
                    break
                following.append(shown)
            yield text.strip(), following


# The text that demo/hear prints before a second attempt, and its exit status if that couldn't be judged, either.
AGAIN, BUSY = "It is tried once again.\n\n", 3
# The function that replaces `dist/mg_bridge`.
TRY = 'mg_bridge() { (cd crates/mg_bridge && rt try -- "$@"); }\n'


def main():
    words = sys.argv[1:]
    unproved = "--try" in words
    wrong = 0
    for path in [word for word in words if word != "--try"]:
        with open(path) as page:
            for command, shown in commands(page.read()):
                if unproved and command.startswith("demo/hear"):
                    continue
                typed = TRY + command.replace("dist/mg_bridge", "mg_bridge") if unproved else command
                run = subprocess.run(["bash", "-c", typed], stdout=subprocess.PIPE, stderr=subprocess.PIPE, text=True)
                # If there was a second attempt, only its output counts.
                holds = run.stdout.rpartition(AGAIN)[2] in shown
                skipped = command.startswith("demo/hear") and run.returncode == BUSY
                wrong += not holds and not skipped
                result = "as shown" if holds else "skipped" if skipped else "NOT as shown"
                print("%s: %s: %s" % (path, result, command), flush=True)
                if not holds:
                    print(run.stdout + run.stderr)
    sys.exit(wrong > 0)


main()
