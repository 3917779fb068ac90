#!/usr/bin/env python3
"""Makes the tables of numbers, faults, words, commands and directives from docs/tables.

Usage: tests/docs/made.py [--check]

Without an argument these are written again: in crates/wq_explain the explanations (src/table.rt, words.rt) and the lists of what
is explained (specs/Explaining.antt); in crates/wqplan the commands with their
arguments (src/commands.rt, specs/Commands.antt), and what help says of statuses (src/statuses.rt); in
crates/wq_findings the words and forms of directives (src/guess.rt, declaration.rt); in crates/wq_names the messages (src/messages.rt,
specs/Messages.antt), in tests/DIAGNOSES.md the tables of these, and, if the words of one were changed, each page and each test that
shows it (SHOW_MESSAGES); the rows of the tables of docs/FORMAT.md that have them, its list
of commands and its sentences that list directives and faults; of man/wqplan.5 DECLARATIONS, the lists of REFUSALS and OTHER
ANSWERS, and the limits of docs/FORMAT.md in LIMITS; of man/wqplan.1 SYNOPSIS, COMMANDS, the directives, and what ends with 0 and 1;
in man/wqplan.bash the commands, their files, and the words behind `explain`; in docs/GUIDE.md the table of statuses and the ranges
of numbers; and the table of commands in README.md, where a row keeps its place. What is around them is written by hand, and stays.
With `--check` nothing is written: each file that differs is named, and the status is 1 where one does. tests/cli/explain.sh,
manual.py and completion.py take their lists from docs/FORMAT.md, and what goes through the commands takes them from
tests/lib/commands.py.
"""

import pathlib
import re
import subprocess
import sys
import textwrap

sys.dont_write_bytecode = True
ROOT = pathlib.Path(__file__).resolve().parents[2]
sys.path.append(str(ROOT / "tests" / "lib"))
from commands import TEXTS_OF, arguments_of  # noqa: E402  (in tests/lib)
import messages  # noqa: E402  (there, too)
from records import records  # noqa: E402  (there, too)

# How wide the lines of a list of short names are, and how long a short one is, with its comma.
CODE_WIDTH = 95
SHORT = 11
MAN_WIDTH = 78
SHELL_WIDTH = 119
PAGE_WIDTH = 100
EXPLAINED_WIDTH = 80
HELP_WIDTH = 80
RUST_WIDTH = 100
ARGUMENTS_WIDTH = 60
LONG_TEXT = 80
# The bytes for which a message has room where something stands in it, so that it seldom grows.
ROOM_OF_HOLE = 32
SPECS_WIDTH = 113
COUNTS = ["none", "one", "two", "three", "four", "five", "six", "seven", "eight", "nine"]
# Text, or `bold` or *italic*, with what stands directly behind it.
TOKEN = re.compile(r"(`[^`]+`|\*[^*]+\*)([,.;:]?)|(\S+)")


def titled(record):
    """The name of a record, and its line in a list."""
    if "number" in record:
        return record["name"], f"{record['number']} {record['name']}"
    if "directive" in record:
        return record["directive"], f"{record['directive']} directive"
    return (record["fault"], f"{record['fault']} fault") if "fault" in record else (record["word"], f"{record['word']} answer")


def listed(words, last):
    """Words of a list, as in: a, b or c."""
    *others, end = words
    return f"{', '.join(others)} {last} {end}" if others else end


def quoted(directives):
    """The words of these directives in backticks."""
    return [f"`{row['directive']}`" for row in directives]


def ranges(numbers):
    """Numbers, of which three or more that follow one another are a range, as in: 3 to 6, 9 and 12."""
    runs = []
    for number in sorted(numbers):
        if runs and runs[-1][-1] == number - 1:
            runs[-1].append(number)
        else:
            runs.append([number])
    return listed([part for run in runs for part in ([f"{run[0]} to {run[-1]}"] if len(run) > 2 else map(str, run))], "and")


def numbers_of(rows, key, value):
    """The numbers of the records in which this field has this value."""
    return ranges(int(row["number"]) for row in rows if row.get(key) == value)


def ends(commands, key):
    """What all commands print with status 0, which is `zero`, or with status 1: each of it once."""
    said = [cell for row in commands if key in row for cell in row[key].split(", ")]
    return listed(list(dict.fromkeys(said)), "or")


def shares(directives, key):
    """The directives that have this field, in one list those in which it is the same; in the order of the first ones."""
    alike = {}
    for row in directives:
        if key in row:
            alike.setdefault(row[key], []).append(row)
    return alike


def needs(directives):
    """What `wqplan explain 5` says that each directive needs."""
    said, before = [], None
    for what, rows in shares(directives, "needs").items():
        verb = "needs" if len(rows) == 1 else "need"
        said.append(" ".join([listed(quoted(rows), "and"), *([verb] if verb != before else []), what]))
        before = verb
    return f"{', '.join(said[:-1])}, and {said[-1]}"


def of_directives(directives):
    """What stands in a text in place of a word in braces."""
    few, fewer = shares(directives, "least"), {"1": "without a further word"}
    many = {most: quoted(rows) for most, rows in shares(directives, "most").items()}
    return {
        "count": COUNTS[len(directives)],
        "words": listed(quoted(directives), "or"),
        "all": listed(quoted(directives), "and"),
        "users": listed(quoted(row for row in directives if row["declares"] != "item"), "or"),
        "flushes": listed(quoted(row for row in directives if row["declares"] == "flushes"), "or"),
        "needs": needs(directives),
        "few": ", ".join(
            f"{listed(quoted(rows), 'or')} {fewer.get(least) or f'with fewer than {COUNTS[int(least)]}'}"
            for least, rows in few.items()),
        "many": ", ".join(
            f"{listed(words, 'or')} with more than {COUNTS[int(most)]}{'' if at else ' further word'}"
            for at, (most, words) in enumerate(many.items())),
        "many_after": ", or ".join(
            f"more than {COUNTS[int(most)]} after {listed(words, 'or')}" for most, words in many.items()),
    }


def filled(record, said):
    """The record with what is said in the place of words in braces."""
    def fill(text):
        return re.sub(r"\{(\w+)\}", lambda found: said[found[1]], text)

    for key in record.keys() & {"row", "man"}:
        record[key] = fill(record[key])
    for key in record.keys() & {"found", "mend"}:
        text = " ".join(record[key])
        if fill(text) != text:
            record[key] = wrapped(fill(text), EXPLAINED_WIDTH).splitlines()
    return record


class Parts:
    """The text of a file, parts of which are replaced."""

    def __init__(self, path):
        self.path = ROOT / path
        self.text = self.read()

    def read(self):
        """The text as it stands in the file; bytes that are no text are kept."""
        return self.path.read_bytes().decode(errors="surrogateescape")

    def write(self):
        self.path.write_bytes(self.text.encode(errors="surrogateescape"))

    def say(self, pattern, made):
        """Puts a sentence in the place of what this pattern finds in a paragraph, and breaks its lines again."""
        paragraphs = [found for found in re.finditer(r"(?:^.+\n)+", self.text, re.M)
                      if re.search(pattern, " ".join(found[0].split()))]
        if len(paragraphs) != 1:
            sys.exit(f"made: {self.path.relative_to(ROOT)}: {len(paragraphs)} paragraphs, and not one, have {pattern}")
        said = re.sub(pattern, lambda _: made, " ".join(paragraphs[0][0].split()))
        self.text = self.text[:paragraphs[0].start()] + wrapped(said, PAGE_WIDTH) + "\n" + self.text[paragraphs[0].end():]

    def say_anew(self, change):
        """Changes the text, and says whether it is another one now."""
        before, self.text = self.text, change(self.text)
        return self.text != before

    def replace(self, pattern, made):
        """Puts what is made in the place of all that this pattern finds, which is there once."""
        places = list(re.finditer(pattern, self.text, re.M))
        if len(places) != 1:
            sys.exit(f"made: {self.path.relative_to(ROOT)}: {len(places)} places, and not one, are found by {pattern}")
        self.text = self.text[:places[0].start()] + made + self.text[places[0].end():]


def constant(record):
    """The name of the constant with an explanation."""
    return re.sub(r"(?<=[a-z])(?=[A-Z])| ", "_", titled(record)[0]).replace("?", "_unsure").upper()


def explanation(record):
    """The constant with an explanation, as crates/wq_explain has it."""
    name, title = titled(record)
    text = [*record["found"], "", f'The rule: docs/FORMAT.md, "{record["rule"]}"', ""]
    if "see" in record:
        text += ["To see it:", *(f"    {line}" for line in record["see"]), ""]
    text += ["What to do:", *record["do"]] if "do" in record else ["To mend it:", *record["mend"]]
    body = "".join(line.replace("\\", "\\\\").replace('"', '\\"') + "\n" for line in text)
    number = f"Some({record['number']})" if "number" in record else "None"
    return (
        f"const {constant(record)}: Explanation = (\n    {number},\n    \"{name}\",\n    \"{title}\\n\",\n"
        f"    \"\\\n{body}\",\n);\n"
    )


def explanations(path, rows):
    """A file of crates/wq_explain with these explanations, and with the list of them as `rt fmt` writes it."""
    parts = Parts(path)
    parts.replace(r"^const (?:.*\n)*?(?=/// The explanations of)", "".join(explanation(row) + "\n" for row in rows))
    names = [f"{constant(row)}," for row in rows]
    if all(len(name) <= SHORT for name in names):
        names = textwrap.wrap(" ".join(names), CODE_WIDTH)
    made = "".join(f"    {line}\n" for line in names)
    parts.replace(r"\[Explanation; \d+\] = \[\n(?:.*\n)*?(?=\];$)", f"[Explanation; {len(rows)}] = [\n{made}")
    return parts


def cells(record):
    """The cells of a record's row in docs/FORMAT.md."""
    if "directive" in record:
        return [f"`{record['directive']} {record['names']}`", record["means"]]
    if "word" in record:
        return [f"`{record['word']}`", record["by"]]
    if "fault" in record:
        return [f"`fault {record['fault']}`", record["row"], record["output"]]
    if "line" in record:
        return [f"`{record['line']}`", record["name"], record["row"]]
    return [record["number"], record["name"], *([record["pass"]] if "pass" in record else []), record["row"]]


def form(command):
    """A command with its arguments."""
    return f"{command['command']} {command['arguments']}"


def words_needed(directives):
    """The sentence of docs/FORMAT.md with how many further words a line of each directive has."""
    said = []
    for row in directives:
        exactly = row["least"] == row.get("most")
        words = f"{'exactly' if exactly else 'at least'} {COUNTS[int(row['least'])]}"
        said.append(f"{'an' if row['directive'][0] in 'aeiou' else 'a'} `{row['directive']}` line {words}")
    said[0] = f"A{said[0][1:].replace(' line ', ' line has ')} further word"
    return f"{', '.join(said[:-1])}, and {said[-1]}."


def page(numbers, faults, words, commands, directives):
    """docs/FORMAT.md with its tables, of each its section, a cell of its head, and its rows; and with its lists in sentences."""
    names = dict.fromkeys(row["table"] for row in numbers)
    tables = [(name, "Name", [row for row in numbers if row["table"] == name]) for name in names]
    tables += [("Faults and exit statuses", "Cause", faults), ("The command `explain`", "Printed by", words)]
    tables += [("Directives", "Meaning", directives)]
    parts = Parts("docs/FORMAT.md")
    for name, cell, rows in tables:
        made = "".join(f"| {' | '.join(cells(row))} |\n" for row in rows)
        section = re.search(rf"^###? {re.escape(name)}\n(?:.*\n)*?(?=^##|\Z)", parts.text, re.M)
        table = re.search(rf"^\|.* {cell} \|.*\n\|[-|]+\|\n((?:\|.*\n)+)", section[0], re.M)
        start = section.start() + table.start(1)
        parts.text = parts.text[:start] + made + parts.text[start + len(table[1]):]
    parts.replace(r"^(?<=\| Status \| What happened \|\n\|---\|---\|\n)(?:\| [01] \|.*\n)+",
                  f"| 0 | {ends(commands, 'zero')} was printed |\n| 1 | {ends(commands, 'one')} was printed |\n")
    parts.replace(r"(?<=^- the name of a fault: ).*(?=;$)", listed([f"`{row['fault']}`" for row in faults], "or"))
    parts.replace(r"(?<=^- a directive: ).*(?=;$)", of_directives(directives)["words"])
    forms = [f"`wqplan {form(row)}`" for row in commands]
    parts.say(r"^The commands are .*?\.(?= Each)", f"The commands are {listed(forms, 'and')}.")
    parts.say(r"^An? `\w+` line has (?:exactly|at least) .*?\.(?= Each further word)", words_needed(directives))
    users = of_directives(directives)["users"]
    parts.say(r"(?<=All names on a ).*?(?= line are on `item` lines above it)", users)
    return parts


def readme(commands):
    """README.md with its table of commands. A row that is there keeps its place, and a new one comes last."""
    parts = Parts("README.md")
    rows = {}
    for row in commands:
        cells = [f"`wqplan {form(row)}`", row["purpose"], row.get("gives", row["zero"]), row.get("finds", row.get("one", ""))]
        rows[row["command"]] = f"| {' | '.join(cells)} |\n".replace("|  |", "| |")
    there = [word for word in re.findall(r"^\| `wqplan (\w+)", parts.text, re.M) if word in rows]
    parts.replace(r"(?:^\| `wqplan .*\n)+", "".join(rows[word] for word in dict.fromkeys([*there, *rows])))
    return parts


def guesses(directives):
    """crates/wq_findings/src/guess.rt with the words that others are likened to."""
    parts = Parts("crates/wq_findings/src/guess.rt")
    words = [f'"{row["directive"]}"' for row in directives]
    parts.replace(r'(?<=&\[)"item"[^\]]*', ", ".join(words))
    return parts


def findings(directives):
    """crates/wq_findings/src/declaration.rt with the directives, and with the form of each."""
    parts = Parts("crates/wq_findings/src/declaration.rt")
    sure = [row for row in directives if "unsure" not in row]
    parts.replace(r'(?<=Hint::Said\("a line begins with ).*(?="\),$)', of_directives(sure)["words"])
    for row in directives:
        parts.replace(rf'(?<= => "){re.escape(row["directive"])} NAME[^"]*(?=",$)', f'{row["directive"]} {row["names"]}')
    return parts


def wrapped(text, width):
    """The text in lines. What stands in backticks stays on one line."""
    kept = re.sub(r"`[^`]*`", lambda quoted: quoted[0].replace(" ", "\0"), text)
    lines = textwrap.wrap(kept, width, break_long_words=False, break_on_hyphens=False)
    return "\n".join(lines).replace("\0", " ")


def guide(numbers, commands):
    """docs/GUIDE.md with its table of statuses, and with the ranges of the numbers of refusals."""
    rows = [["Command", "0", "1", "2", "3"], ["---"] * 5]
    rows += [[f"`{row['command']}`", row["zero"], row.get("one", ""), "`refused ..`", "a fault"] for row in commands if row.get("table") != "none"]
    made = ["|---" * len(row) + "|" if row[0] == "---" else f"| {' | '.join(row)} |".replace("|  |", "| |") for row in rows]
    parts = Parts("docs/GUIDE.md")
    parts.replace(r"^\| Command \| 0 (?:.*\n)(?:\|.*\n)+", "".join(f"{row}\n" for row in made))
    parts.say(r"^\d+ to [\d, toand]+(?= are refusals of a declaration\.)", numbers_of(numbers, "table", "Refusals"))
    parts.say(r"\d+ to [\d, toand]+(?= are those of a plan, a circle,)", numbers_of(numbers, "table", "Refusals of certificates"))
    return parts


def entries(directives, text):
    """The entries of directives in a manual page."""
    made = []
    for row in directives:
        names = row["names"].replace("..", r"\fR..")
        made.append(f'.BI {row["directive"]} " {names}"\n{roff(row[text])}')
    return ".TP\n".join(made)


def tag(command):
    """The tag of a command in wqplan(1)."""
    words = command["arguments"].split()
    if all(word[0] != "[" for word in words):
        return f'.BI {command["command"]} " {command["arguments"]}"'
    marked = " ".join(re.sub(r"(\w+)", r"\\fI\1\\fR", word) for word in words)
    return f'.BR {command["command"]} " {marked}"'


def synopsis(commands, directives):
    """man/wqplan.1 with its synopsis, its commands, what ends with status 0 and 1, and its list of directives."""
    made = []
    for row in [*commands, {"command": "help", "arguments": "[COMMAND]"}]:
        needed = " ".join(word for word in row["arguments"].split() if word[0] != "[")
        missing = [word[1:-1] for word in row["arguments"].split() if word[0] == "["]
        lines = [f".B wqplan {row['command']}", *([f".I {needed}"] if needed else []), *(f".RI [ {word} ]" for word in missing)]
        made.append("".join(f"{line}\n" for line in lines))
    parts = Parts("man/wqplan.1")
    parts.replace(r"(?<=^\.SH SYNOPSIS\n)(?:.*\n)*?(?=\.SH)", ".br\n".join(made))
    entries_made = [f".TP\n{tag(row)}\n{roff(' '.join(row['man']))}" for row in commands]
    parts.replace(r"(?<=^\.SH COMMANDS\n)(?:.*\n)*?(?=\.TP\n\.BR help )", "".join(entries_made))
    for status, key, behind in (0, "zero", " was printed; or help or the version was."), (1, "one", " was printed."):
        said = ends(commands, key)
        made = f".B {status}\n{roff(said[0].upper() + said[1:] + behind)}"
        parts.replace(rf"(?<=^\.TP\n)\.B {status}\n(?:.*\n)*?(?=\.TP)", made)
    parts.replace(r'^\.BI item " NAME"\n(?:.*\n)*?(?=\.PP)', entries(directives, "brief"))
    return parts


def roff(text):
    """The lines of a text with `bold` and *italic*."""
    lines, plain = [], []

    def end():
        if plain:
            lines.extend(textwrap.wrap(" ".join(plain), MAN_WIDTH, break_on_hyphens=False))
            plain.clear()

    for marked, behind, word in TOKEN.findall(text):
        if word:
            plain.append(word)
            continue
        end()
        font, inner = ("B", marked[1:-1]) if marked[0] == "`" else ("I", marked[1:-1])
        if behind and " " in inner:
            inner = f'"{inner}"'
        lines.append(f".{font}R {inner} {behind}" if behind else f".{font} {inner}")
    end()
    return "".join(f"{line}\n" for line in lines)


def entry(record):
    """The entry of a number in wqplan(5), below its `.TP`."""
    if "line" not in record:
        return f".B {record['number']} {record['name']}\n{roff(record['man'])}"
    words = record["line"].split()
    tag = f'.BI "{" ".join(words[:2])}" " {" ".join(words[2:])}"' if words[2:] else f".B {record['line']}"
    return f"{tag}\n{roff(record['name'] + ': ' + record['man'])}"


def manual(numbers, directives):
    """man/wqplan.5 with its lists: of directives; of each section of docs/FORMAT.md, and of `check` two, of plans and circles."""
    parts = Parts("man/wqplan.5")
    parts.replace(r'^\.BI item " NAME"\n(?:.*\n)*?(?=\.PP)', entries(directives, "man"))
    above = roff(f"The names on a {of_directives(directives)['users']} line are on `item` lines above it. For example:")
    parts.replace(r"^The names on a\n(?:.*\n)*?(?=\.PP)", above)
    lines, items, groups = (numbers_of(numbers, "pass", name) for name in ("directives", "items", "groups"))
    passes = (
        f"Limits of bytes are judged first, in the whole text; then directives ({lines}), then items and flushes "
        f"({items}), then groups ({groups}). Of one kind the first line at fault is answered, and of its faults the one that "
        "comes first here."
    )
    parts.replace(r"^Limits of bytes are judged first, in the whole text;(?:.*\n)*?(?=\.PP)", roff(passes))
    limits = re.search(r"^## Limits\n\n\| What \| Limit \|\n.*\n((?:\|.*\n)+)", (ROOT / "docs/FORMAT.md").read_text(), re.M)[1]
    limits = [row[2:-2].split(" | ") for row in limits.splitlines()]
    made = ".TP\n".join(f".B {limit}\n{roff(what)}" for what, limit in limits)
    parts.replace(r"(?<=^What is as large as its limit is accepted\. Of a declaration:\n\.TP 14\n)(?:.*\n)*?(?=\.PP)", made)
    lists = {}
    for row in numbers:
        lists.setdefault((row["table"], row.get("of")), []).append(row)
    for rows in lists.values():
        first, rest = entry(rows[0]), "".join(f".TP\n{entry(row)}" for row in rows[1:])
        tag = re.escape(first.partition("\n")[0])
        parts.replace(rf"(?<=^\.TP 22\n){tag}\n(?:(?!\.PP|\.SH).*\n)*", first + rest)
    return parts


def completion(numbers, faults, words, directives, commands):
    """man/wqplan.bash with the commands, and with the words behind `explain`."""
    offered = [row["name"] for row in numbers] + [row["fault"] for row in faults]
    offered += [f"'{row['word']}'" if " " in row["word"] else row["word"] for row in words]
    offered += [row["directive"] for row in directives]
    indent = " " * 12
    made = f"{indent}local codes='{' '.join(row['number'] for row in numbers)}'\n"
    kept = " ".join(offered).replace("'not lawful'", "'not\0lawful'")
    for line in textwrap.wrap(kept, SHELL_WIDTH - len(indent) - len("codes+=' '"), break_on_hyphens=False):
        quote = '"' if "'" in line else "'"
        made += f"{indent}codes+={quote} {line}{quote}\n".replace("\0", " ")
    parts = Parts("man/wqplan.bash")
    parts.replace(r"^ +local codes=.*\n(?: +codes\+=.*\n)+", made)
    listed = " ".join(row["command"] for row in commands)
    parts.replace(r"(?<=compgen -W ')plan [a-z ]*(?= help')", listed)
    parts.replace(r"(?<=compgen -W ')plan (?:(?!help)[a-z ])*(?=')", listed)
    counts = {}
    for row in commands:
        needed, others = arguments_of(row)
        # (a NAME is no file; what has yet another argument is written by hand)
        if len(needed + others) == len(row["arguments"].replace("[NAME..]", "").split()):
            counts.setdefault(len(needed + others), []).append(row["command"])
    made = "".join(f"        {' | '.join(counts[count])}) files={count} ;;\n" for count in sorted(counts))
    parts.replace(r"^(?:        [a-z |]+\) files=\d ;;\n)+", made)
    return parts


# The forms of the arguments of commands, as variants of `FileForm` and `TailForm` in crates/wqplan/src/command_line.rt.
FILE_FORMS = {
    "": "Nothing",
    "[FILE] [FIXED]": "Input",
    "DECL": "One",
    "DECL CERT [FIXED]": "TwoOrThree Certificate",
    "DECL ASSIGN": "Two Assignment",
    "DECL [ASSIGN]": "OneOrTwo",
    "DECL ASSIGN RUN": "Three",
}
TAIL_FORMS = {"": "Nothing", "[NAME..]": "Names", "[HELPERS]": "Helpers", "[CODE]": "Word"}


def form_of(command):
    """The form of the files of a command, and of what stands behind them."""
    words = command["arguments"].split()
    tail = words.pop() if words[-1:] and words[-1] in TAIL_FORMS else ""
    files = " ".join(words)
    if files not in FILE_FORMS:
        sys.exit(f"commands.txt: {command['command']} has arguments of no form that FILE_FORMS in tests/docs/made.py knows")
    return FILE_FORMS[files], TAIL_FORMS[tail]


def verb(command):
    """The variant of `Verb` for a command."""
    return command["command"].capitalize()


def arms(values):
    """The arms of a match on `Verb`, for pairs of a variant and a value: one arm for all that have the same value."""
    alike = {}
    for name, value in values:
        alike.setdefault(value, []).append(f"Verb::{name}")
    made, indent = "", " " * 12
    for value, names in alike.items():
        pattern = " | ".join(names)
        if len(f"{indent}{pattern} =>") > RUST_WIDTH - 2:
            pattern = f"\n{indent}| ".join(names)
        line = f"{pattern} => {value},"
        if len(indent + line.splitlines()[-1]) > RUST_WIDTH:
            line = f"{pattern} => {{\n{indent}    {value}\n{indent}}}"
        made += f"{indent}{line}\n"
    return made


def method(name, doc, result, clause, values, lifetime=""):
    """A method of `Verb` that is a match on it."""
    head = f"    /// {doc}\n    pub(crate) fn {name}{lifetime}(self) -> {result}"
    head += f"\n        ensures {{ {clause} }}\n    {{\n" if clause else " {\n"
    return f"{head}        match self {{\n{arms(values)}        }}\n    }}\n"


def commands_source(commands):
    """crates/wqplan/src/commands.rt: the commands, and which arguments each has."""
    verbs = [verb(row) for row in commands]
    forms = [(verb(row), *form_of(row)) for row in commands]

    def of_files(form):
        word, _, second = form.partition(" ")
        return f"FileForm::{word}(Second::{second})" if second else f"FileForm::{word}"

    variants = "".join(f"    {name},\n" for name in verbs)
    listed_verbs = "".join(f"    Verb::{name},\n" for name in verbs)
    methods = [
        method("name", "The word by which it is called.", "&'a str", "result.now ≡ command_name self",
               [(verb(row), f'"{row["command"]}"') for row in commands], "<'a>"),
        """    /// The command that is called by this word.
    pub(crate) fn named(name: &str) -> Option<Verb>
        ensures { result ≡ verb_named name.now }
    {
        for verb in VERBS {
            if verb.name() == name {
                return Some(verb);
            }
        }
        None
    }
""",
        method("files", "Which files it has.", "FileForm", "result ≡ file_form self",
               [(name, of_files(files)) for name, files, _ in forms]),
        method("tail", "What may stand behind its files.", "TailForm", "result ≡ tail_form self",
               [(name, f"TailForm::{tail}") for name, _, tail in forms]),
        method("about", "What help says of it.", "&'a str", "", [(verb(row), f'"{row["help"]}"') for row in commands], "<'a>"),
        method("assignment", "What help says of its assignment.", "&'a str", "",
               [(verb(row), f'"{row["assign"]}"' if "assign" in row else "help::ASSIGN") for row in commands], "<'a>"),
        method("items", "What help says of its names.", "&'a str", "",
               [(verb(row), f'"{row["names"]}"' if "names" in row else "help::NAME") for row in commands], "<'a>"),
        method("statuses", "What long help says of its exit statuses.", "&'a str", "",
               [(verb(row), f"statuses::{row['command'].upper()}") for row in commands], "<'a>"),
    ]
    made = f"""/// A command.
#[derive(Clone, Copy, Debug, PartialEq, Eq)]
pub(crate) enum Verb {{
{variants}}}

/// All commands, in the order in which help lists them.
pub(crate) const VERBS: [Verb; {len(verbs)}] = [
{listed_verbs}];

impl Verb {{
""" + "\n".join(methods) + "}\n"
    parts = Parts("crates/wqplan/src/commands.rt")
    parts.replace(r"^/// A command\.\n(?:.*\n)*", made)
    return parts


def commands_specs(commands):
    """crates/wqplan/specs/Commands.antt: the same as definitions."""
    verbs = [verb(row) for row in commands]
    text, line = "", "verbs ="
    for name in [*verbs, "[]"]:
        link = f" ∷ {name}" if line.strip() not in ("verbs =", "") else f" {name}"
        if len(line + link) > SPECS_WIDTH:
            text, line = f"{text}{line}\n", "   "
        line += link
    blocks = [f"abbrev pub verbs : List Verb\n{text}{line}\n"]
    for name, doc, result, values in (
            ("command_name", "the word by which a command is called", "Text", [f'codes "{row["command"]}"' for row in commands]),
            ("file_form", "which files it has", "FileForm", [f"files.{form_of(row)[0]}" for row in commands]),
            ("tail_form", "what may stand behind its files", "TailForm", [f"tails.{form_of(row)[1]}" for row in commands])):
        lines = "".join(f"{name} {of} = {value}\n" for of, value in zip(verbs, values))
        blocks.append(f"-- {doc}\nabbrev pub {name} : Verb → {result}\n{lines}")
    blocks.insert(2, "-- the command that is called by this word\nabbrev pub verb_named : Text → Option Verb\n"
                     "verb_named name = find (λ verb. bytes_eq (command_name verb) name) verbs\n")
    parts = Parts("crates/wqplan/specs/Commands.antt")
    head = "use Rattle.wqplan.specs.declared.commands.Verb.TheVariants."
    uses, line = "", f"{head}{{"
    for name in verbs:
        if len(f"{line}, {name}}}") > SPECS_WIDTH + 5:
            uses, line = f"{uses}{line}}}\n", f"{head}{{"
        line += name if line.endswith("{") else f", {name}"
    parts.replace(r"(?:^use Rattle\.wqplan\.specs\.declared\.commands\.Verb\.TheVariants\..*\n)+", f"{uses}{line}}}\n")
    parts.replace(r"(?<=^-- all commands, in their order\n)(?:.*\n)*", "\n".join(blocks))
    return parts


def statuses_of(zero, one, two, faults):
    """The lines about exit statuses; `one` may be empty."""
    lines = [f"`fault {fault}`" for fault in faults]
    said = {"0": zero, "1": one, "2": two, "3": f"a fault: the last line of standard error is {listed(lines, 'or')}"}
    said["141"] = "nobody reads standard output any more"
    made = "Exit status:\n"
    for status, text in said.items():
        if text:
            lines = wrapped(text, HELP_WIDTH - 7).splitlines()
            made += f"  {status:3}  " + ("\n" + " " * 7).join(lines) + "\n"
    return made


def statuses(commands, faults):
    """crates/wqplan/src/statuses.rt: what long help says of exit statuses, of the program and of each command."""
    wrong = "the command line is wrong, and standard error says how"
    form = "the answer is `refused CODE line N`: a text isn't of its form"
    texts = [("PROGRAM", "the program", "`wqplan COMMAND --help` has those of one command. " + statuses_of(
        f"the answer is {ends(commands, 'zero')}; or help or the version was printed", f"the answer is {ends(commands, 'one')}",
        f"{form}, or a plan has too many workqueues to run; or the word to explain is none that has an explanation; or {wrong}",
        [row["fault"] for row in faults]))]
    for row in commands:
        one = f"the answer is {ends([row], 'one')}" if "one" in row else ""
        named = row["faults"].split(", ") if "faults" in row else ["memory", "read", "write"]
        said = statuses_of(f"the answer is {ends([row], 'zero')}", one, f"{row.get('two', form)}; or {wrong}", named)
        texts.append((row["command"].upper(), f"`{row['command']}`", said))
    made = ""
    for name, what, said in texts:
        explain = "" if name == "EXPLAIN" else ", `wqplan explain CODE` each number and word"
        end = wrapped(f"docs/FORMAT.md describes the texts and the answers{explain}.", HELP_WIDTH)
        made += f'/// Of {what}.\npub(crate) const {name}: &str = "\\\n{said}\n{end}";\n\n'
    parts = Parts("crates/wqplan/src/statuses.rt")
    parts.replace(r"(?<=^//! tests/docs/made\.py makes them from docs/tables/commands\.txt\.\n\n)(?:.*\n)*", made.rstrip("\n") + "\n")
    return parts


def explained(numbers, faults, words):
    """crates/wq_explain/specs/Explaining.antt with the numbers and the names that have an explanation."""
    parts = Parts("crates/wq_explain/specs/Explaining.antt")
    parts.replace(r"(?<=^numbers = ).*(?=$)", " ∷ ".join([*(row["number"] for row in numbers), "[]"]))
    lines = []
    for rows in numbers + faults, words:
        for row in rows:
            link = f'codes "{titled(row)[0]}"'
            if lines and row is not rows[0] and len(f"{lines[-1]} ∷ {link}") <= SPECS_WIDTH:
                lines[-1] += f" ∷ {link}"
            else:
                lines.append(f"    {'∷ ' if lines else ''}{link}")
    parts.replace(r"(?<=^names =\n)(?:    .*\n)+", "\n".join(lines) + " ∷ []\n")
    return parts


def joined(start, words, end, width, more):
    """Words with a space between two each, in as many lines as they need; each further one begins with `more`."""
    lines, line = [], start
    for word in words:
        if len(f"{line} {word}{end}") > width and line != start:
            lines.append(line)
            line = f"{more}{word}"
        else:
            line += f" {word}"
    return "\n".join([*lines, line + end]) + "\n"


def imports(start, names, end, width):
    """Lines that import these names."""
    lines, line = "", start
    for name in names:
        if len(f"{line}, {name}{end}") > width:
            lines, line = f"{lines}{line}{end}\n", start
        line += name if line == start else f", {name}"
    return f"{lines}{line}{end}\n"


def message_parts(row):
    """The texts and the holes of a message, in turn. A long text is two."""
    made = []
    for is_hole, part in messages.parts_of(row["says"]):
        at = part.rfind(" ", 0, LONG_TEXT) + 1
        made += [(is_hole, part)] if is_hole or len(part) <= LONG_TEXT else [(False, part[:at]), (False, part[at:])]
    return made


def message_of_holes(name, holes, parts):
    """The function that makes a message, as rt fmt lays it out."""
    head = f"pub fn {name}<A: Allocator + Copy>("
    result = ") -> Result<Vec<u8, A>, AllocError>\n"
    given = ["alloc: A", *(f"{hole}: &[u8]" for hole in holes)]
    made = f"{head}{', '.join(given)}{result}"
    if len(made) > RUST_WIDTH + 1:
        made = head + "\n" + "".join(f"    {one},\n" for one in given) + result
    clause = f"    ensures {{ IfOk result (λ words. words.items ≡ {name}"
    made += joined(clause, [f"{hole}.now" for hole in holes], ") }", SPECS_WIDTH, "        ")
    made += "{\n" + room_for(parts)
    for is_hole, part in parts:
        second = part if is_hole else f'b"{part}"'
        if len(f"&mut words, {second}") > ARGUMENTS_WIDTH:
            made += f"    put(\n        &mut words,\n        {second},\n    )?;\n"
        else:
            made += f"    put(&mut words, {second})?;\n"
    return made + "    Ok(words)\n}\n"


def room_for(parts):
    """The line that makes a vector with room for the texts, and for what usually stands between them."""
    room = sum(ROOM_OF_HOLE if is_hole else len(part) for is_hole, part in parts)
    return f"    let mut words = Vec::with_capacity(alloc, {room})?;\n"


def messages_source():
    """crates/wq_names/src/messages.rt: a function for each message of standard error, or a constant if nothing stands in it."""
    blocks = []
    for name, row in messages.MESSAGES.items():
        holes, parts = messages.holes_of(name), message_parts(row)
        doc = "".join(f"/// {line}\n" for line in wrapped(f"{row['doc'][0].upper()}{row['doc'][1:]}.", RUST_WIDTH - 4).splitlines())
        if holes:
            blocks.append(doc + message_of_holes(name, holes, parts))
        else:
            blocks.append(f'{doc}pub const {name.upper()}: &[u8] = b"{row["says"]}";\n')
    parts = Parts("crates/wq_names/src/messages.rt")
    named = [name for name in messages.MESSAGES if messages.holes_of(name)]
    uses = imports("ghost use Rattle.wq_names.specs.Messages.{", named, "};", SPECS_WIDTH)
    parts.replace(r"(?:^ghost use Rattle\.wq_names\.specs\.Messages\..*\n)+", uses)
    parts.replace(r"(?<=^use wq_text::put;\n\n)(?:.*\n)*", "\n".join(blocks))
    return parts


def messages_specs():
    """crates/wq_names/specs/Messages.antt: the same as definitions."""
    blocks = []
    for name, row in messages.MESSAGES.items():
        holes = messages.holes_of(name)
        words = ""
        for is_hole, part in message_parts(row):
            one = part if is_hole else f'codes "{part}"'
            words = f"({words}) ++ {one}" if "++" in words else f"{words} ++ {one}" if words else one
        line = " ".join([name, *holes, "=", words])
        if len(line) > SPECS_WIDTH:
            line = " ".join([name, *holes, "=\n   ", words.replace(') ++ codes "', ')\n    ++ codes "')])
        type_of = " → ".join(["List ℕ"] * (len(holes) + 1))
        shown = textwrap.fill(f'"{row["says"]}"', SPECS_WIDTH, initial_indent="-- ", subsequent_indent="-- ", break_on_hyphens=False)
        blocks.append(f"-- {row['doc']}\n{shown}\nabbrev pub {name} : {type_of}\n{line}\n")
    parts = Parts("crates/wq_names/specs/Messages.antt")
    parts.replace(r"(?<=^use Rattle\.std\.specs\.Prelude\.\{ℕ, List, ◌\+\+◌, codes\}\n\n)(?:.*\n)*", "\n".join(blocks))
    return parts


# Where pages and tests show messages.
SHOW_MESSAGES = ["README.md", "docs/*.md", "examples/*.md", "crates/test_cases/src", "tests/cli", "tests/DIAGNOSES.md",
                 "man/wqplan.1"]
# What has messages by hand, to tell if they change, and so isn't changed with them.
BY_HAND = [":!tests/cli/test_messages.py"]


def reworded(made):
    """Says messages anew, in what is made and in each other page and test that shows them, and gives those; if their words aren't what
    crates/wq_names/specs/Messages.antt says of them.
    """
    specs = (ROOT / "crates/wq_names/specs/Messages.antt").read_text()
    shown = re.findall(r'^-- "((?:.*\n-- )?.*)"\nabbrev pub (\w+) :', specs, re.M)
    old = {name: words.replace("\n-- ", " ") for words, name in shown}
    new = {name: row["says"] for name, row in messages.MESSAGES.items()}
    if all(old.get(name, words) == words for name, words in new.items()):
        return []
    there = {parts.path: parts for parts in made}
    listed = subprocess.run(["git", "ls-files", "--", *SHOW_MESSAGES, *BY_HAND], cwd=ROOT, stdout=subprocess.PIPE, text=True, check=True, timeout=60).stdout
    found = [there.get(ROOT / path) or Parts(path) for path in listed.splitlines()]
    return [parts for parts in found if parts.say_anew(lambda text: messages.reworded(text, old, new)) and parts.path not in there]


def diagnoses():
    """tests/DIAGNOSES.md: the rows of the tables of messages, which are those whose last column is WHAT."""
    parts = Parts("tests/DIAGNOSES.md")
    names = list(dict.fromkeys(row["table"] for row in messages.ROWS))
    tables = list(re.finditer(r"(?<=\| WHAT \|\n)(\|[-|]+\|\n)(?:\|.*\n)+", parts.text))
    assert len(tables) == len(names), f"made: tests/DIAGNOSES.md has {len(tables)} tables of messages, and not {len(names)}"
    for name, table in reversed(list(zip(names, tables))):
        rows = "".join(f"| {row['row']} | {messages.shown(row['what']).decode()} |\n" for row in messages.ROWS if row["table"] == name)
        parts.text = parts.text[:table.start()] + table[1] + rows + parts.text[table.end():]
    return parts


def main():
    if sys.argv[1:] not in ([], ["--check"]):
        sys.exit(__doc__)
    words, commands, directives = records("words.txt"), records("commands.txt"), records("directives.txt")
    for row in words:
        row["by"] = row["by"].replace("{commands}", ", ".join(f"`{name}`" for name in TEXTS_OF))
    rows = [filled(row, of_directives(directives)) for row in records("numbers.txt")]
    numbers = [row for row in rows if "number" in row]
    faults = [row for row in rows if "fault" in row]
    ascending = sorted(numbers, key=lambda row: int(row["number"]))
    made = [
        explanations("crates/wq_explain/src/table.rt", ascending + faults),
        explanations("crates/wq_explain/src/words.rt", words + directives),
        explained(ascending, faults, words + directives),
        commands_source(commands),
        commands_specs(commands),
        statuses(commands, faults),
        guesses(directives),
        findings(directives),
        page(numbers, faults, words, commands, directives),
        guide(numbers, commands),
        readme(commands),
        synopsis(commands, directives),
        manual(numbers, directives),
        completion(ascending, faults, words, directives, commands),
        messages_source(),
        messages_specs(),
        diagnoses(),
    ]
    made += reworded(made)
    # In it stand the words that pages show now. So it is written last: whoever is broken off may begin again.
    made.sort(key=lambda parts: parts.path.name == "Messages.antt")
    failed = 0
    for parts in made:
        if sys.argv[1:] and parts.text != parts.read():
            failed += 1
            print(f"FAILED  {parts.path.relative_to(ROOT)} isn't what tests/docs/made.py makes of docs/tables")
        elif not sys.argv[1:]:
            parts.write()
    print(f"made: {len(made) - failed} passed, {failed} failed")
    sys.exit(1 if failed else 0)


main()
