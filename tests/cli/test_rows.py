"""What wqplan prints, by the tables of rows/.

A row is texts and the answer of a command to them, in which ` / ` parts lines: the program must print just that, with the exit status
that goes with its first word, and to standard error what belongs to it and nothing else. The tables of a file there are its TABLES: of
each its name, the command and the rows. What is printed must be true: a plan or a circle is then given to `check`, and a run to
`replay`. A row's name is its table and its texts, with `_` for a blank and `/` for a line's end, as in

    python3 -m pytest tests/cli/test_rows.py -k deadlock-item_a/flush_a_a
"""

import collections
import importlib
import pathlib
import re

import drawings
import hangs
import named
import prefixes
import programs
import pytest
import repairs
import replays
import runs
import unsure
from commands import TEXTS_OF
from records import records
from standard_error import fits
from statuses import STATUS
from tables import short, text_of

# What the lines of each directive declare.
DECLARES = {row["directive"].encode(): row["declares"] for row in records("directives.txt")}

# `words` are those of the command line, in which a number stands for the file with this text, and `answers` those that are right. Of a
# long answer only the first line is compared. One that `complains` says something to standard error, whatever it is.
Row = collections.namedtuple("Row", "table words texts answers status is_long complains", defaults=(False, False))


def row(table, command, texts, *answers, behind=(), is_long=False):
    """A row; what comes behind the texts are words of the command line."""
    answers = [text_of(answer) for answer in answers]
    words = [command, *range(len(texts)), *behind]
    status = STATUS[answers[0].split()[0].decode()] if command != "repair" else repairs.status_of(answers[0].decode())
    return Row(table, words, [text_of(text) for text in texts], answers, status, is_long)


def rows_by_hand():
    """The rows as they stand in the tables."""
    for path in sorted(pathlib.Path(__file__).parent.glob("rows/*.py")):
        for table, command, rows in getattr(importlib.import_module(path.stem), "TABLES", []):
            yield from (row(table, command, texts, answer) for *texts, answer in rows)
    for text, rows in hangs.HANGS:
        yield from (row("hangs", "hang", [text, assignment], *ends) for assignment, ends in rows)
    for *texts, answer in hangs.LONG:
        yield row("the longest hangs", "hang", texts, answer, is_long=True)
    for *texts, answers in unsure.HANGS:
        yield row("unsure lines: hang", "hang", texts, *answers)
    for *texts, answer in unsure.LONG:
        yield row("unsure lines: the longest hangs", "hang", texts, answer, is_long=True)
    for text, assignment, words, answer in unsure.REPAIRS:
        yield row("unsure lines: repair", "repair", [text, assignment], answer, behind=words.split())
    for *texts, answers in drawings.SEVERAL:
        yield row("drawings of which several are right", "dot", texts, *answers)
    for *texts, asked in named.HELD:
        yield from (row("NAMEs of hang", "hang", texts, *answers, behind=words.split()) for words, answers in asked)
    for text, assignment, words, answer in named.LONG:
        yield row("NAMEs of hang, the longest", "hang", [text, assignment], answer, behind=words.split(), is_long=True)
    for *texts, asked in named.REPLAYS:
        yield from (row("NAMEs of replay", "replay", texts, answer, behind=words.split()) for words, answer in asked)
    for *texts, asked in named.CIRCLES:
        yield from (row("NAMEs of circles", "circles", texts, answer, behind=words.split()) for words, answer in asked)
    for text, assignment, words, answer in repairs.ROWS:
        yield row("repairs", "repair", [text, assignment], answer, behind=words)
    for text, answer in runs.LIMITS:
        yield row("limits of what is run with helpers", "run", [text], answer, behind=["8"])
    for words in runs.WRONG_HELPERS:
        yield Row("what is no number of helpers", ["run", 0, *words], [b"item a\n"], [b""], 2, complains=True)


def rows_made():
    """Rows that are made from tables which are shorter so."""
    for text, assignment, answer, steps in replays.STEPS:
        yield from step_rows([text, assignment], answer, steps.split(" / "))
    for text, rows in hangs.HANGS:
        for assignment, ends in rows:
            for run, end in ends.items():
                yield row("hangs that are replayed", "replay", [text, assignment, run], end)
                shorter = run_of(run.split(" / ")[1:-1])
                yield row("hangs without their last step", "replay", [text, assignment, shorter], "open")
    for *texts, asked in named.HELD:
        for words, answers in asked:
            for answer in answers:
                yield from replays_for_names(texts, words.split(), answer)
    for *texts, answers in unsure.HANGS:
        for answer in answers:
            if answer != "safe":
                yield row("unsure lines: hangs that are replayed", "replay", [*texts, answer], "deadlock", "stuck")
    for text, answer in runs.RUNS + runs.OTHERS:
        for helpers in runs.HELPERS:
            yield row("plans that are run with helpers", "run", [text], answer, behind=[helpers])
    for command, texts, fronts in prefixes.PREFIXES:
        yield from front_rows(command, [text_of(text) for text in texts], fronts)


def replays_for_names(texts, names, answer):
    """The rows of a run of `hang` with NAMEs, given back: it ends stuck for these, and not without its last step."""
    if answer != "safe" and not answer.startswith("refused"):
        yield row("runs for NAMEs that are replayed", "replay", [*texts, answer], "deadlock", "stuck", behind=names)
        before, run = answer.rsplit("run ", 1)
        yield row("runs for NAMEs without their last step", "replay", [*texts, before + run_of(run.split(" / ")[1:-1])], "open", behind=names)


def step_rows(texts, answer, steps):
    """A row for each step that may not be made, behind those before it that may, and one for all that may be made."""
    made = []
    for step in steps:
        run = made + [step.lstrip("!")]
        if step.startswith("!"):
            yield row("steps", "replay", texts + [run_of(run)], f"not lawful {len(run)}")
        else:
            made = run
    yield row("steps", "replay", texts + [run_of(made)], answer)


def run_of(steps):
    return " / ".join([f"run {len(steps)}"] + steps)


def front_rows(command, texts, fronts):
    """A row for each front of the last text. The ranges must cover them all, and in turn."""
    *before, whole = texts
    numbers = [number for first, last, _ in fronts for number in range(first, last + 1)]
    assert numbers == list(range(len(whole) + 1)), (command, whole)
    for first, last, answer in fronts:
        for number in range(first, last + 1):
            yield row(f"fronts of {command}", command, before + [whole[:number]], answer)


def own_workqueues(declaration):
    """The assignment that gives each group a workqueue of its own, numbered as the groups are."""
    lines = [line.split(b"#")[0].split() for line in declaration.splitlines()]
    items = [words[1] for words in lines if words[:1] and DECLARES.get(words[0]) == "item"]
    groups = {item: [item] for item in items}
    for words in lines:
        if words[:1] and DECLARES.get(words[0]) == "group":
            group = sorted(words[1:], key=items.index)
            groups.update({item: group for item in group})
    first = [item for item in items if groups[item][0] == item]
    return b"".join(b"wq %d %s\n" % (q, b" ".join(groups[item])) for q, item in enumerate(first))


def names_of(given):
    """The NAMEs behind the files of a row."""
    return [word for word in given.words[1:] if isinstance(word, str) and given.words[0] != "run"]


def rows_that_follow(rows):
    """What must be said of the plans, the circles and the runs that are printed."""
    for given in rows:
        texts, answer = given.texts, given.answers[0]
        if not answer or len(given.answers) > 1 or given.is_long:
            continue
        word, *rest = answer.split(maxsplit=2)
        fixed = texts[1:] if given.words[0] == "plan" else []
        if word == b"plan":
            yield row("plans that are checked", "check", [texts[0], answer, *fixed], b"yes %s\n" % rest[0])
        elif word == b"circle":
            yield row("circles that are checked", "check", [texts[0], answer, *fixed], b"yes circle %s\n" % rest[0])
            if not fixed:
                run = answer[answer.index(b"run "):]
                yield row("runs of circles", "replay", [texts[0], own_workqueues(texts[0]), run], "deadlock")
        elif word == b"norescuer" and fixed:
            yield row("norescuer texts that are checked", "check", [texts[0], answer, *fixed], "yes norescuer")
        elif word in (b"wq", b"norescuer"):
            yield row("repairs that are safe", "deadlock", [texts[0], answer], "safe")
            yield row("repairs that need no repair", "repair", [texts[0], answer], answer)
        elif word == b"run" and given.words[0] != "repair" and not names_of(given) or word == b"unsure" and given.words[0] == "deadlock":
            yield row("runs that are printed", "replay", texts + [answer], "deadlock")


def by_question(rows):
    """The rows by what is asked; of several that ask the same the first."""
    found = {}
    for given in rows:
        found.setdefault((*given.words, *given.texts), given)
    return found


def name(given):
    texts = b"-".join(given.texts)[:300].decode("ascii", "replace").rstrip("\n")
    behind = [word for word in given.words[1:] if isinstance(word, str)]
    return re.sub(r"[^\w./+-]+", "_", "-".join([given.table, texts.replace("\n", "/"), *behind]))[:90]


BY_HAND = list(rows_by_hand())
ROWS = by_question([*BY_HAND, *rows_made()]).values()
ROWS = by_question([*ROWS, *rows_that_follow(ROWS)]).values()


def test_each_row_stands_once():
    asked = collections.Counter((*given.words, *given.texts) for given in BY_HAND)
    assert [name(given) for given in BY_HAND if asked[*given.words, *given.texts] > 1] == []


def test_each_command_number_and_directive_has_a_row():
    commands = {given.words[0] for given in ROWS}
    firsts = [given.answers[0].split()[:2] for given in ROWS]
    numbers = {words[1].decode() for words in firsts if words[:1] in ([b"refused"], [b"no"])}
    accepted = [given.texts[0] for given in ROWS if given.status != 2 and len(given.texts[0]) < 1_000]
    directives = {line.split()[0] for text in accepted for line in text.splitlines() if line.split()}
    wanted = {record["number"] for record in records("numbers.txt") if "number" in record}
    assert (set(TEXTS_OF) - commands, wanted - numbers, set(DECLARES) - directives) == (set(), set(), set())


@pytest.mark.parametrize("given", ROWS, ids=name)
def test_row(program, tmp_path_factory, same, given):
    folder = tmp_path_factory.getbasetemp()
    with programs.files(folder, {str(number): text for number, text in enumerate(given.texts)}) as places:
        words = [places[word] if isinstance(word, int) else word for word in given.words]
        found = programs.ask([program, *words])
    asked = "\n".join([f"wqplan {' '.join(map(str, given.words))}", *map(short, given.texts)])
    printed = found.printed.partition(b"\n")[0] + b"\n" if given.is_long else found.printed
    wanted = printed if printed in given.answers else given.answers[0]
    same(asked, b"%swith status %d" % (wanted, given.status), b"%swith status %s" % (printed, str(found.status).encode()))
    names = names_of(given)
    belongs = bool(found.errors) if given.complains else fits(found.printed, found.errors, places, given.words[0], names)
    assert belongs, f"{asked}\n{found.printed.decode()}this doesn't belong on standard error:\n{found.errors.decode()}"
