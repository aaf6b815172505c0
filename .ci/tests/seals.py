"""Seals: comments with the SHA-256 of the text from the seal before them on."""
import hashlib
import re


def part(text):
    """The part of a text that its next seal covers: all from the line of its last seal on."""
    return text[text.rfind("\n# sha256 ") + 1 :]


def seal_of(text):
    """The seal of a part."""
    return f"# sha256 {hashlib.sha256(text.encode()).hexdigest()}\n"


def seal(text):
    """The seal after a text."""
    return seal_of(part(text))


def is_seal(line):
    """Whether a line is a seal, right or wrong."""
    return line.startswith("# sha256 ") and line.endswith("\n")


def sealed(text, minute=3000):
    """A recording with a seal after the ticks of each minute, and one after its last line, if that is complete. None is
    added next to a seal."""
    found, ticks = "", 0
    for line in text.splitlines(keepends=True):
        if ticks == minute:
            ticks = 0
            if not is_seal(line):
                found += seal(found)
        found += line
        ticks += line == "tick\n"
    last = found[found.rfind("\n", 0, -1) + 1 :]
    if last.endswith("\n") and not is_seal(last):
        found += seal(found)
    return found


def right_seals(text):
    """For each seal in a text, whether it is right."""
    seals = re.finditer("^# sha256 .*\n", text, re.MULTILINE)
    return [text[it.start() : it.end()] == seal(text[: it.start()]) for it in seals]
