#!/usr/bin/env python3
"""Completes lines of wqplan with man/wqplan.bash, in a folder with a few files.

OFFERED calls the function as bash does, with the words of a line of which the last one is being typed, and compares what it offers;
FILES_OFFERED does it for each file of each command. TYPED types a line and a TAB into a bash, and compares what then stands there. The
commands, the numbers and the names are those of docs/FORMAT.md, and the files of a command those of docs/tables/commands.txt.
"""

import os
import pathlib
import pty
import re
import select
import sys
import tempfile

ROOT = pathlib.Path(__file__).resolve().parents[2]
sys.path.append(str(ROOT / "tests" / "lib"))
import commands  # noqa: E402  (in tests/lib)
import programs  # noqa: E402  (there, too)

FORMAT = (ROOT / "docs/FORMAT.md").read_text()
COMPLETION = ROOT / "man/wqplan.bash"

FILES = ["a.wq", "b.wq", "out.plan", "old result", "sub/in.wq"]
SUB = ["sub"]
ALL = ["a.wq", "b.wq", "out.plan", "old result", "sub"]
RESULTS = ["out.plan", "old result"]

COMMANDS = re.findall(r"`wqplan\s(\w+)[^`]*`", re.search(r"The commands are (.*?)\. Each argument", FORMAT, re.S)[1])
# Those that are printed have a row with a name of its own; so have those of a `no`.
NUMBERS = re.findall(r"^\| (?:`no )?(\d+)[^|]*\| [A-Z][A-Za-z]+ \|", FORMAT, re.M)
NAMES = re.findall(r"^\| (?:`no )?\d+[^|]*\| ([A-Z][A-Za-z]+) \|", FORMAT, re.M)
FAULTS = re.findall(r"^\| `fault (\w+)` \|", FORMAT, re.M)
EXPLAIN = FORMAT.split("## The command `explain`\n")[1].split("\n## ")[0]
# The blank in one of them is typed with a backslash.
WORDS = [word.replace(" ", "\\ ") for word in re.findall(r"^\| `([a-z? ]+)` \|", EXPLAIN, re.M)]
DIRECTIVES = re.findall(r"`([\w?]+)`", re.search(r"^- a directive: (.*);$", EXPLAIN, re.M)[1])
EXPLAINED = NUMBERS + NAMES + FAULTS + WORDS + DIRECTIVES


def beginning(front, words):
    """Those of the words that begin so."""
    return [word for word in words if word.startswith(front)]


def files_offered():
    """Of each command the files that are offered for each of its files, and behind them none, where nothing else may come."""
    for name, row in commands.ROWS.items():
        most = len(commands.TEXTS_OF.get(name, []))
        for count in range(most):
            line = " ".join([name, *["a.wq", "b.wq", "out.plan"][:count]])
            yield f"{line} ", ALL
            yield f"{line} o", RESULTS
        if most == len(row["arguments"].split()):
            yield " ".join([name, *["a.wq", "b.wq", "out.plan"][:most], ""]), []


FILES_OFFERED = list(files_offered())

# A line behind `wqplan `, and what is offered for its last word.
OFFERED = [
    ("", [*COMMANDS, "help"]),
    *((name[:1], beginning(name[:1], [*COMMANDS, "help"])) for name in COMMANDS),
    ("x", []),
    ("-", ["--help", "--version"]),
    ("help ", COMMANDS),
    ("help plan ", []),
    ("explain ", EXPLAINED),
    *((f"explain {front}", beginning(front, EXPLAINED)) for front in ("Unk", "t", "s", "not", "6")),
    ("explain not", ["not\\ lawful"]),
    ("explain read ", []),
    ("explain 6 ", []),
    ("plan su", SUB),
    ("plan sub/", ["sub/in.wq"]),
    ("plan -", ["--help"]),
    ("run a.wq ", [str(number) for number in range(9)]),
    ("run a.wq 8", ["8"]),
    ("run a.wq 9", []),
    ("run a.wq 2 ", []),
    # A file of the shell's: where the command takes no more arguments, and where it takes none that is a file.
    ("plan a.wq > o", RESULTS),
    ("plan a.wq >o", RESULTS),
    ("plan a.wq > ", ALL),
    ("plan a.wq >", ALL),
    ("plan a.wq >> o", RESULTS),
    ("plan < a", ["a.wq"]),
    ("plan <", ALL),
    ("plan a.wq 2> o", RESULTS),
    ("plan a.wq 2>>o", RESULTS),
    ("explain 6 > o", RESULTS),
    ("explain > o", RESULTS),
    ("> o", RESULTS),
    ("help > o", RESULTS),
    ("plan a.wq > -", []),
    # It is no argument, and what follows is one, or none.
    ("> r r", beginning("r", COMMANDS)),
    ("> r ", [*COMMANDS, "help"]),
    ("2>r ", [*COMMANDS, "help"]),
    ("plan > out.plan ", ALL),
    ("plan > out.plan a.wq ", ALL),
    ("plan > out.plan a.wq b.wq ", []),
    ("plan a.wq > out.plan b.wq ", []),
    ("plan < a.wq ", ALL),
    ("check a.wq < b.wq o", RESULTS),
    ("deadlock a.wq < b.wq out.plan ", []),
    ("deadlock a.wq > out.plan 2> err b", ["b.wq"]),
    ("deadlock a.wq 2>err ", ALL),
    ("deadlock 2>err a.wq b.wq ", []),
    ("explain > out.plan 6", beginning("6", NUMBERS)),
    ("explain 6> out.plan 6", beginning("6", NUMBERS)),
    # A number that isn't of a file descriptor is an argument.
    ("explain 6 > out.plan ", []),
    ("explain 6 2> out.plan ", []),
    ("deadlock 2 > out.plan a.wq ", []),
    ("check a2>out.plan ", ALL),
    ("deadlock a2>out.plan a.wq ", []),
    ("deadlock 2 a.wq ", []),
    ("check 2 a.wq ", ALL),
    ("check 2 a.wq b.wq ", []),
    # What another command prints is one argument, and what stands in the parentheses is the shell's.
    ("check a.wq <(wqplan plan a.wq) b.wq ", []),
    ("deadlock 2 <(wqplan plan a.wq) ", []),
    ("check <(cat a.wq) ", ALL),
    ("check <(cat <(cat a.wq)) ", ALL),
    ("check <(cat <(cat a.wq) b", []),
    ("check a.wq <(cat b", []),
    ("check a.wq <(", []),
]

# What is typed before TAB, and the line behind it.
TYPED = [
    ("wqplan pl", "wqplan plan "),
    ("wqplan plan a", "wqplan plan a.wq "),
    ("wqplan plan su", "wqplan plan sub/"),
    ("wqplan plan ol", "wqplan plan old\\ result "),
    ("wqplan plan a.wq o", "wqplan plan a.wq o"),
    ("wqplan plan a.wq > ou", "wqplan plan a.wq > out.plan "),
    ("wqplan plan a.wq >ou", "wqplan plan a.wq >out.plan "),
    ("wqplan plan a.wq >>ou", "wqplan plan a.wq >>out.plan "),
    ("wqplan plan a.wq 2>ou", "wqplan plan a.wq 2>out.plan "),
    ("wqplan plan a.wq > su", "wqplan plan a.wq > sub/"),
    ("wqplan plan a.wq > ol", "wqplan plan a.wq > old\\ result "),
    ("wqplan plan a.wq > ~/su", "wqplan plan a.wq > ~/sub/"),
    ('wqplan plan a.wq > "ol', 'wqplan plan a.wq > "old result" '),
    ("wqplan plan <a", "wqplan plan <a.wq "),
    ("wqplan explain 5 > ou", "wqplan explain 5 > out.plan "),
    ("wqplan explain 5 > out.plan 6", "wqplan explain 5 > out.plan 6"),
    ("wqplan explain 5> out.plan 69", "wqplan explain 5> out.plan 69 "),
    ("LC_ALL=C wqplan explain 5 2>er 6", "LC_ALL=C wqplan explain 5 2>er 6"),
    ("LC_ALL=C wqplan explain 2>er 69", "LC_ALL=C wqplan explain 2>er 69 "),
    ("wqplan > out.plan pl", "wqplan > out.plan plan "),
    ("wqplan plan a.wq > out.plan b", "wqplan plan a.wq > out.plan b.wq "),
    ("wqplan check < out.plan a.wq b", "wqplan check < out.plan a.wq b.wq "),
    ("wqplan check a.wq <(cat b", "wqplan check a.wq <(cat b.wq "),
    ("wqplan check a.wq <(cat b.wq) o", "wqplan check a.wq <(cat b.wq) o"),
]

# The words into which bash 5.2 splits such a line. The last one is empty behind a space.
WORD = re.compile(r"[<>]+\(?|[^ <>]+|(?<= )$|^$")

# Calls the function that completes wqplan, and prints what it offers, a line each.
CALL = """
source "$1" && COMP_LINE="wqplan $2" && shift 2 && COMP_WORDS=(wqplan "$@") && COMP_CWORD=$#
call=$(complete -p wqplan) && call=${call#* -F } && "${call%% *}" wqplan "${!#}" "${COMP_WORDS[COMP_CWORD - 1]}"
[ "${#COMPREPLY[@]}" -eq 0 ] || printf '%s\\n' "${COMPREPLY[@]}"
"""

# Ctrl-x p writes the line as it stands, and says so.
SET_UP = """PS1= PS2=; bind 'set bell-style none'; source '{completion}'
bind -x '"\\C-xp": printf %s "$READLINE_LINE" >../line; echo D""ONE'; echo D""ONE
"""


def offered(line, folder):
    """What the function offers for this line, or what bash says against it."""
    call = ["bash", "-c", CALL, "bash", COMPLETION, line, *WORD.findall(line)]
    ran = programs.run(call, cwd=folder, capture_output=True, text=True)
    return sorted(ran.stdout.splitlines()) if ran.returncode == 0 and not ran.stderr else ran.stderr


class Shell:
    """A bash in a terminal, in a folder that is its home too."""

    def __init__(self, folder):
        self.folder = folder
        child, self.terminal = pty.fork()
        if child == 0:
            os.chdir(folder)
            own = {"HOME": str(folder), "TERM": "dumb", "INPUTRC": "/dev/null", "HISTFILE": "", "PATH": os.environ["PATH"]}
            os.execvpe("bash", ["bash", "--norc", "--noprofile", "-i"], own)
        self.send(SET_UP.format(completion=COMPLETION))

    def send(self, keys):
        """Types these, and waits for the next DONE."""
        os.write(self.terminal, keys.encode())
        printed = b""
        while b"DONE" not in printed:
            if not select.select([self.terminal], [], [], 30)[0]:
                sys.exit(f"completion: bash says nothing to {keys!r}, after {printed!r}")
            printed += os.read(self.terminal, 4096)

    def completed(self, typed):
        """The line behind TAB."""
        self.send(typed + "\t\x18p")
        os.write(self.terminal, b"\x15")
        return (self.folder.parent / "line").read_text()


def make_files(folder):
    """The files that are completed."""
    for name in FILES:
        path = folder / name
        path.parent.mkdir(parents=True, exist_ok=True)
        path.touch()


def main():
    failed = []
    with tempfile.TemporaryDirectory() as made:
        folder = pathlib.Path(made) / "home"
        make_files(folder)
        for line, wanted in FILES_OFFERED + OFFERED:
            found = offered(line, folder)
            if found != sorted(wanted):
                failed.append(f"wqplan {line}: wanted {sorted(wanted)}, found {found}")
        shell = Shell(folder)
        for typed, wanted in TYPED:
            found = shell.completed(typed)
            if found != wanted:
                failed.append(f"{typed}: wanted {wanted!r}, found {found!r}")
        os.close(shell.terminal)
    for case in failed:
        print("FAILED ", case)
    sys.exit(programs.counts_of("completion", len(FILES_OFFERED + OFFERED + TYPED) - len(failed), len(failed)))


main()
