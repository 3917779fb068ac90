#!/usr/bin/env python3
"""Compares man/wqplan.1 and man/wqplan.5 with docs/FORMAT.md, and answers their examples with the model of tests/model.

wqplan(1) has each command with its arguments, each exit status with what ends so, each fault, and how the first line of a diagnosis
begins and ends; wqplan(5) each directive, each line of a form, each refusal, each answer and each limit. Of these commands,
statuses, directives, lines, refusals and limits they have no others. The model prints no diagnoses, so no example shows one. Where
there is a groff, both pages are rendered, without a warning and within 80 columns.
"""

import pathlib
import re
import shutil
import sys
import tempfile

ROOT = pathlib.Path(__file__).resolve().parents[2]
sys.path.append(str(ROOT / "tests" / "lib"))
import programs  # noqa: E402  (in tests/lib)

FORMAT = (ROOT / "docs/FORMAT.md").read_text()
MESSAGES = (ROOT / "docs/MESSAGES.md").read_text()
# Where texts and their limits are described: not histories, nor what is worked out.
TEXTS = ["Lines, words and numbers", "Names", "Limits", "Certificates"]
FORMS = [
    "Plan texts", "Circle texts", "Run texts", "Certificates", "Refusals", "Plan texts around workqueues",
    "Circle and norescuer texts around workqueues",
]
# The words of steps.
STEPS = ["queue", "cancel", "start", "wait", "waitwq", "over", "overwq", "finish"]
# A drawing is a text of Graphviz, and no page shows it.
NOT_SHOWN = ["dot"]
# What the examples of wqplan(5) show, by section, and the files that a command of `$` reads.
OF_PLANS = "$ wqplan plan decl"
OF_CIRCLES = "$ (cat decl && echo ordered disk log) >ordered; wqplan plan ordered"
OF_PLANS_AROUND = "$ echo wq 0 cache >fixed; wqplan plan decl fixed"
OF_RUNS = "$ wqplan deadlock decl assign"
OF_UNSURE = "$ sed 's/^flush /flush? /' decl >unsure; wqplan hang unsure assign"
OF_COMPONENTS = "$ wqplan circles decl assign"
OF_REFUSALS = "$ (cat decl && echo flush disk data) >unknown; wqplan plan unknown"

# The program, as the shell of an example finds it.
MODEL = 'wqplan() { python3 -B "%s/$1.py" "$@"; }' % (ROOT / "tests/model")


def section(name, page=FORMAT):
    """The section of docs/FORMAT.md, or of another page, with this heading, of the second or third level."""
    return re.search(rf"^###? {re.escape(name)}\n(.*?)(?=^##|\Z)", page, re.M | re.S)[1]


def rows(name):
    """The rows of the tables in this section, without their heads: of each its cells."""
    tables = re.findall(r"^\|[- |]+\|\n((?:\|.*\n)+)", section(name), re.M)
    return [[cell.strip() for cell in row[1:-1].split(" | ")] for table in tables for row in table.splitlines()]


def quoted(text):
    """What stands in backticks."""
    return re.findall(r"`([^`]+)`", text.replace("\n", " "))


def figures(text):
    """The numbers with a comma in them."""
    return set(re.findall(r"\b\d+(?:,\d{3})+\b", text))


def plain(line):
    """A line of a page as it is read: without fonts, and of a macro its words."""
    macro = re.match(r"\.([A-Z]+) ?", line)
    if macro:
        words = re.findall(r'"([^"]*)"|(\S+)', line[macro.end():])
        line = ("" if len(macro[1]) > 1 else " ").join(a or b for a, b in words)
    line = re.sub(r"\\f[A-Z]|\\&", "", line)
    for escape, character in (("\\-", "-"), ("\\(ga", "`"), ("\\(ha", "^"), ("\\e", "\\")):
        line = line.replace(escape, character)
    return line


class Page:
    """A manual page: its sections, of each the lines of its source."""

    def __init__(self, name):
        self.name = name
        self.source = (ROOT / "man" / name).read_text()
        self.sections = {}
        for line in self.source.splitlines():
            heading = re.fullmatch(r"\.SH (.*)", line)
            if heading:
                lines = self.sections.setdefault(heading[1], [])
            elif line.startswith(".TH"):
                lines = []
            else:
                lines.append(line)

    def words(self, name):
        """What stands in a section, in one line."""
        return " ".join(plain(line) for line in self.sections[name] if not re.match(r"\.(?:TP|PP|RS|RE)\b", line))

    def text(self):
        """What stands in all of it, in one line."""
        return " ".join(map(self.words, self.sections))

    def tagged(self, name):
        """The entries of a section: of each its tag, and what is said of it."""
        entries, lines = [], self.sections[name]
        for number, line in enumerate(lines):
            if line.startswith(".TP"):
                said = []
                for below in lines[number + 2:]:
                    if re.match(r"\.(?:TP|PP|SS)\b", below):
                        break
                    said.append(plain(below))
                entries.append((plain(lines[number + 1]), " ".join(said)))
        return entries

    def tags(self, name):
        """The tags of a section."""
        return [tag for tag, _ in self.tagged(name)]

    def blocks(self, opening, closing):
        """The lines between two macros: of each block its section and its lines."""
        found = []
        for name, lines in self.sections.items():
            block = None
            for line in lines:
                if line == opening:
                    block = []
                    found.append((name, block))
                elif line == closing:
                    block = None
                elif block is not None:
                    block.append(plain(line))
        return found


class Count:
    """What passed, and what failed."""

    def __init__(self):
        self.passed = self.failed = 0

    def equal(self, name, wanted, found):
        if wanted == found:
            self.passed += 1
        else:
            self.failed += 1
            print(f"FAILED  {name}: wanted {wanted}, found {found}")

    def has(self, name, part, whole):
        """Whether the part stands somewhere in the whole, as words of it."""
        if re.search(rf"(?<!\w){re.escape(part)}(?!\w)", whole):
            self.passed += 1
        else:
            self.failed += 1
            print(f"FAILED  {name}: there is no {part}")


def commands():
    """The commands with their arguments, as docs/FORMAT.md lists them."""
    listed = re.search(r"The commands are (.*?)\. Each argument", FORMAT, re.S)[1]
    return [command.removeprefix("wqplan ") for command in quoted(listed)]


def codes():
    """The number and the name of each refusal, and of each `no` with what stands behind it."""
    refusals = [row[:2] for name in ("Refusals", "Refusals of certificates", "The command `run`") for row in rows(name)]
    sections = "The command `check`", "Certificates around workqueues"
    nos = [(row[0].strip("`"), row[1]) for section in sections for row in rows(section)]
    return [" ".join(row) for row in refusals], nos


def form_lines():
    """The lines of all forms: those of the blocks of docs/FORMAT.md, without what is said beside them."""
    lines = []
    answers = [f"The command `{command.split()[0]}`" for command in commands() if command.split()[0] not in NOT_SHOWN]
    for name in FORMS + [name for name in answers if f"## {name}\n" in FORMAT]:
        for block in re.findall(r"^```\n(.*?)^```", section(name), re.M | re.S):
            for line in block.splitlines():
                lines += re.split(r" \| ", re.split(r"  +", line)[0])
    return {line for line in lines if line != ".."}


def compare_commands(count, page):
    """wqplan(1) with the commands, exit statuses, faults and directives."""
    wanted = commands()
    synopsis = " ".join(map(plain, page.sections["SYNOPSIS"])).split(".br")
    synopsis = [" ".join(line.split()).removeprefix("wqplan ") for line in synopsis]
    count.equal("wqplan(1), SYNOPSIS", [*wanted, "help [COMMAND]"], synopsis)
    count.equal("wqplan(1), COMMANDS", [*wanted, "help [COMMAND], --help", "--version"], page.tags("COMMANDS"))
    statuses = [row for row in rows("Faults and exit statuses") if row[0].isdigit()]
    faults = [row[0].strip("`") for row in rows("Faults and exit statuses") if row[0].startswith("`")]
    count.equal("wqplan(1), EXIT STATUS", [row[0] for row in statuses], page.tags("EXIT STATUS"))
    for (status, ends), (_, said) in zip(statuses, page.tagged("EXIT STATUS")):
        for word in quoted(ends):
            if word not in dict(page.tagged("COMMANDS")) and word != "explain":
                count.has(f"wqplan(1), EXIT STATUS, {status}", word, said)
    for fault in faults:
        count.has("wqplan(1), EXIT STATUS, 3", fault, dict(page.tagged("EXIT STATUS")).get("3", ""))
    for form in re.findall(r"``(\S.*?\])``", section("Diagnoses", MESSAGES)):
        count.has("wqplan(1), DIAGNOSTICS", form, page.words("DIAGNOSTICS"))
    count.equal("wqplan(1), DECLARATION", directives(), page.tags("DECLARATION"))


def directives():
    """The lines of the directives."""
    return [row[0].strip("`") for row in rows("Directives")]


def compare_texts(count, page):
    """wqplan(5) with the directives, forms, refusals, answers and limits."""
    count.equal("wqplan(5), DECLARATIONS", directives(), page.tags("DECLARATIONS"))
    forms = {line for _, block in page.blocks(".nf", ".fi") for line in block}
    count.equal("wqplan(5): lines of forms", sorted(form_lines()), sorted(forms))
    steps = [line for line in form_lines() if line.split()[0] in STEPS]
    count.equal("wqplan(5), RUNS: steps", sorted(steps), sorted(page.tags("RUNS")))
    refusals, nos = codes()
    count.equal("wqplan(5), REFUSALS", refusals, page.tags("REFUSALS"))
    answers = [(tag, said.split(":")[0]) for tag, said in page.tagged("OTHER ANSWERS")]
    count.equal("wqplan(5), OTHER ANSWERS", nos, answers)
    for answer in ["yes K", "yes circle N", "safe", *(row[0].strip("`") for row in rows("The command `replay`"))]:
        count.has("wqplan(5), OTHER ANSWERS", answer, page.words("OTHER ANSWERS"))
    limits = [(limit, what) for what, limit in rows("Limits")]
    count.equal("wqplan(5), LIMITS", limits, page.tagged("LIMITS")[:len(limits)])
    wanted = set().union(*(figures(section(name)) for name in TEXTS))
    count.equal("wqplan(5): figures", sorted(wanted), sorted(figures(page.text())))
    most = re.search(r"plan has more than (\d+) workqueues", section("The command `run`"))[1]
    count.has("wqplan(5), LIMITS", f"at most {most} workqueues", page.words("LIMITS"))


def transcript(lines):
    """The commands of an example, each with what is printed."""
    commands = []
    for line in lines:
        if line.startswith("$ "):
            commands.append((line[2:], []))
        else:
            commands[-1][1].append(line)
    return commands


def answer_examples(count, name, examples):
    """Makes the commands of examples, one after the other, in a folder of their own. What `cat FILE` prints is that file."""
    with tempfile.TemporaryDirectory() as folder:
        for command, wanted in (step for lines in examples for step in transcript(lines)):
            if command.startswith("cat "):
                (pathlib.Path(folder) / command[4:]).write_text("".join(f"{line}\n" for line in wanted))
            else:
                ran = programs.run(["bash", "-c", f"{MODEL}\n{command}"], cwd=folder, capture_output=True, text=True)
                count.equal(f"{name}: {command}", wanted, (ran.stdout + ran.stderr).splitlines())


def examples_of_texts(page):
    """The examples of wqplan(5), as transcripts: a declaration and an assignment are files, the others are answers."""
    heads = {
        "DECLARATIONS": "$ cat decl", "ASSIGNMENTS": "$ cat assign",
        "PLANS": OF_PLANS, "CIRCLES": OF_CIRCLES, "RUNS": OF_RUNS, "PLANS AROUND WORKQUEUES": OF_PLANS_AROUND,
        "UNSURE LINES": OF_UNSURE, "COMPONENTS": OF_COMPONENTS, "REFUSALS": OF_REFUSALS,
    }
    return [[heads[name], *lines] for name, lines in page.blocks(".EX", ".EE")], set(heads)


def render(count, page):
    """The page as it is read in a terminal of 80 columns."""
    ran = programs.run(["groff", "-man", "-ww", "-Tascii", "-P-cbou", ROOT / "man" / page.name], capture_output=True, text=True)
    count.equal(f"{page.name}: warnings", "", ran.stderr)
    count.equal(f"{page.name}: more than 80 columns", [], [line for line in ran.stdout.splitlines() if len(line) > 80])


def main():
    count = Count()
    one, five = Page("wqplan.1"), Page("wqplan.5")
    compare_commands(count, one)
    compare_texts(count, five)
    answer_examples(count, "wqplan(1)", [lines for _, lines in one.blocks(".EX", ".EE")])
    examples, sections = examples_of_texts(five)
    count.equal("wqplan(5): sections with an example", sorted(sections), sorted({name for name, _ in five.blocks(".EX", ".EE")}))
    answer_examples(count, "wqplan(5)", examples)
    for page, other in ((one, "5"), (five, "1")):
        count.has(f"{page.name}, SEE ALSO", f"wqplan({other}", page.words("SEE ALSO"))
        if shutil.which("groff"):
            render(count, page)
    sys.exit(programs.counts_of("manual", count.passed, count.failed))


main()
