"""Writes the files of the package that come from pages: manual pages, bash completions and the Debian changelog.

usage: derived.py FOLDER VERSION SECONDS

FOLDER gets mg_bridge.1, mg_pace.1, mg_bridge.bash, mg_pace.bash and changelog. They come from the help texts
(docs/help), the table of exit statuses (docs/OPERATING.md) and CHANGELOG.md. SECONDS since 1970 are their date.
"""
import calendar
import re
import sys
import textwrap
import time
from pathlib import Path

ROOT = Path(__file__).resolve().parent.parent
FOLDER, VERSION, SECONDS = Path(sys.argv[1]), sys.argv[2], int(sys.argv[3])
MAINTAINER = "Lobbysorrel maintainers <maintainers@users.noreply.lobbysorrel.example>"
FILES = {
    "/etc/lobbysorrel/NAME.env": "Options of the gateway that the unit `lobbysorrel@NAME` runs (`mg_bridge live`).",
    "/etc/lobbysorrel/*.example": "Examples of options and firewall rules.",
    "/run/lobbysorrel/NAME/gateway.prom": "Metrics of the gateway that the unit `lobbysorrel@NAME` runs.",
    "/run/lobbysorrel-keeper/NAME/unit.prom": "Metrics of the unit `lobbysorrel@NAME` itself.",
    "/var/lib/lobbysorrel/NAME/journal.txt": "Journal of the gateway that the unit `lobbysorrel@NAME` runs.",
    "/usr/share/doc/lobbysorrel/OPERATING.md": "How to install, secure and monitor a gateway.",
}
PACE_STATUSES = "With 0 after `--ticks` ticks or when nothing reads its output any more. With 2, 3 or 4 for the same " \
                "reasons as mg_bridge(1)."
COMPLETION = """\
# Completes the words of {program} in bash.
_{program}() {{
    local word=$2 words
    case $3 in
        *[\\<\\>]{files})
            compopt -o filenames
            mapfile -t COMPREPLY < <(compgen -f -- "$word")
            return
            ;;
{values}
        *)
            case $COMP_CWORD:${{COMP_WORDS[1]}} in
{commands}
            esac
            ;;
    esac
    mapfile -t COMPREPLY < <(compgen -W "$words" -- "$word")
}}
complete -F _{program} {program}
"""


class Help:
    """What a program or subcommand prints for --help."""

    def __init__(self, name):
        text = (ROOT / "docs/help" / f"{name}.txt").read_text()
        self.summary = text.partition("\n")[0]
        self.usage = re.search(r"^Usage: \S+ ?(.*)$", text, re.M).group(1)
        self.commands = sorted(set(re.findall(r"^  (\w+)  +\S", text, re.M)) - {"help"})
        # Each option: its short form, its long form, the kind of its value, and the text.
        self.options = re.findall(r"^ +(?:(-\w), )?(--[\w-]+)(?: <(\w+)>)?  +(\S.*)$", text, re.M)

    def names(self):
        """The names of the options."""
        return [name for short, long, _, _ in self.options for name in (long, short) if name]

    def taking(self, value):
        """The options with this kind of value."""
        return {long for _, long, of, _ in self.options if of == value}


def roff(text):
    """A text in the language of manual pages."""
    text = text.replace("\\", "\\e").replace("-", "\\-").replace("–", "\\(en")
    text = re.sub(r"\*\*(.*?)\*\*|`(.*?)`", lambda bold: f"\\fB{bold[1] or bold[2]}\\fR", text)
    return re.sub(r"^([.'])", r"\\&\1", text)


def options(of):
    """The options of a help text, as paragraphs of a manual page."""
    for short, long, value, text in of.options:
        names = ", ".join(roff(f"`{name}`") for name in (short, long) if name)
        yield f".TP\n{names}{f' {chr(92)}fI{value}{chr(92)}fR' if value else ''}\n{roff(text)}"


def statuses():
    """The table of exit statuses, as paragraphs of a manual page."""
    section = (ROOT / "docs/OPERATING.md").read_text().partition("\n## Exit statuses\n")[2]
    rows = re.findall(r"^\| (\d) \| ?(.*?) ?\| (.*) \|$", section, re.M)
    if not rows:
        sys.exit("docs/OPERATING.md has no table of exit statuses")
    for status, error, text in rows:
        yield f".TP\n.B {status}\n{roff(text)}." + (f"\nOn standard error: {roff(error)}" if error else "")


def manual(program, see, exits):
    """The manual page of a program."""
    top, date = Help(program), time.strftime("%Y-%m-%d", time.gmtime(SECONDS))
    short = re.sub(r"^An? ", "", top.summary)
    yield f'.TH {program.upper()} 1 "{date}" "Lobbysorrel {VERSION}" "User Commands"'
    yield f".SH NAME\n{program} \\- {roff(short[0].lower() + short[1:])}"
    yield ".SH SYNOPSIS"
    yield from (f".B {program} {name}\n{roff(Help(name).usage)}\n.br" for name in top.commands)
    yield f".B {program}\n{roff(top.usage)}"
    yield f".SH DESCRIPTION\n{roff(top.summary)}."
    if top.commands:
        yield ".SH COMMANDS"
    for name in top.commands:
        command = Help(name)
        yield f".SS {program} {name} {roff(command.usage)}\n{roff(command.summary)}."
        yield from options(command)
    yield ".SH OPTIONS"
    yield from options(top)
    yield ".SH EXIT STATUS"
    yield from exits
    if top.commands:
        yield ".SH FILES"
        yield from (f".TP\n.I {roff(path)}\n{roff(text)}" for path, text in FILES.items())
    yield f".SH SEE ALSO\n.BR {see} (1)"


def completion(program):
    """The bash completion of a program."""
    top = Help(program)
    helps = {name: Help(name) for name in top.commands}
    if helps:
        after = {"1:*": [*helps, "help", *top.names()], "*:help": helps}
        after |= {f"*:{name}": one.names() for name, one in helps.items()}
    else:
        after = {"*": top.names()}
    taken = (one.taking("FILE") for one in (top, *helps.values()))
    files = "".join(f" | {option}" for option in sorted(set().union(*taken)))
    values = []
    # After an option with an address, this machine's addresses are proposed; after an option with a number, nothing is.
    for value, words in ("ADDRESS", "$(hostname -I | tr ' ' '\\n' | grep -v :)"), ("NUMBER", ""):
        taking = sorted(set().union(*(one.taking(value) for one in (top, *helps.values()))))
        values += [f"        {' | '.join(taking)}) words={words} ;;"] * bool(taking)
    return COMPLETION.format(
        program=program,
        files=files,
        values="\n".join(values),
        commands="\n".join(f"                {case}) words='{' '.join(words)}' ;;" for case, words in after.items()),
    )


def changelog():
    """The changelog in Debian's form. Only the newest version has the build's date."""
    text = (ROOT / "CHANGELOG.md").read_text()
    releases = re.findall(r"^## (\S+), (.*)\n((?:(?!## ).*\n)*)", text, re.M)
    if not releases or releases[0][0] != VERSION:
        sys.exit(f"CHANGELOG.md doesn't begin with version {VERSION}")
    for version, date, body in releases:
        seconds = SECONDS if version == VERSION else calendar.timegm(time.strptime(date, "%Y-%m-%d"))
        yield f"lobbysorrel ({version}) unstable; urgency=medium\n"
        for part, items in re.findall(r"^### (.*)\n((?:(?!### ).*\n?)*)", body, re.M):
            yield f"  [ {part} ]"
            for item in re.findall(r"^- (.*\n(?:  .*\n?)*)", items, re.M):
                yield textwrap.fill(" ".join(item.split()), 78, initial_indent="  * ", subsequent_indent="    ",
                                    break_on_hyphens=False)
            yield ""
        yield time.strftime(f" -- {MAINTAINER}  %a, %d %b %Y %H:%M:%S +0000", time.gmtime(seconds))


def main():
    pages = {
        "mg_bridge.1": "\n".join(manual("mg_bridge", "mg_pace", statuses())),
        "mg_pace.1": "\n".join(manual("mg_pace", "mg_bridge", [roff(PACE_STATUSES)])),
        "mg_bridge.bash": completion("mg_bridge"),
        "mg_pace.bash": completion("mg_pace"),
        "changelog": "\n".join(changelog()),
    }
    for name, text in pages.items():
        (FOLDER / name).write_text(text.rstrip("\n") + "\n")


main()
