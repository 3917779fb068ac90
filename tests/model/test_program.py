"""The program answers as the model does, which has a file for each command, as plan.py (models.py).

Of each command there are the cases at the limits of docs/FORMAT.md and at each place of small texts, and random ones (cases.py). The
bytes that are printed and the exit status must be the model's; what `hang` prints may be another run, if it is as good (hang.py), and
what `dot` draws the waits of one (dot.py). Standard error must have what belongs to the answer (tests/lib/standard_error.py), and right
reasons why workqueues can hang (reasons.py).

What the program prints is then given back to it: the plans and circles to `check`, the plans as assignments to `deadlock`, and the runs,
those behind circles too, to `replay`. It must stand by its answers: `yes`, `safe` and `deadlock`; of what `hang` prints the model says
which of `deadlock` and `stuck`, and `dot` must draw the waits of that run bold red. Where it prints `safe` by `circles`, it must print
it by `deadlock` too. What it prints by `repair` must be safe, and need no repair. And it must say the same, to the byte, of NAMEs that
must go on in whatever order they come, and however often.

A case that fails is shown with as few lines as fail (smallest.py). A test of a command fails, too, where some kind of answer or of
reason never came. Other random cases, and more of them:

    python3 -m pytest tests/model -k "test_program and repair" --seed 9 --cases 5000
"""

import collections
import os
import random
import re

import around
import dot
import notes
import programs
import pytest
import reasons
import reasons_for
import told_changes
import unrescued
from cases import COMMANDS, KINDS, MUST_GO_ON, WITHOUT, cases, kind_of
from commands import TEXTS_OF
from declaration import Refused, read_declaration, split_lines
from models import ANSWERS, agrees
from standard_error import HAS_FURTHER, STDIN, fits, note
from tables import short
from test_held import make_case

# How many random cases there are: fewer of `run`, which makes threads, of `hang`, whose answers are judged by other means, and of
# `repair`, whose answers are given back to three commands.
CASES = 2_000
FEWER = dict.fromkeys(("run", "hang", "repair"), 5)
# How many cases have their NAMEs in two orders.
ORDERS = 300
# The word behind the files of `run`, in turn.
HELPERS = [[], ["2"], ["8"], ["0"], ["1"], ["5"]]


def refusal_alone(text, line):
    """The number for which a declaration of this line alone is refused, at its place; None where it isn't."""
    try:
        read_declaration(b"\n" * (line - 1) + split_lines(text)[line - 1])
    except Refused as refused:
        return refused.code
    return None


def wrong_further(text, errors):
    """What is wrong with the further mistakes of a declaration: each is of another line, and those that a line has by itself it has
    where all other lines are blank.
    """
    heads = re.findall(rb"^[^ ].*?:(\d+):\d+: .*\[refused (\d+),", errors, re.M)
    alone = [(int(line), int(code)) for line, code in heads[1:] if code in (b"3", b"4", b"5", b"6", b"12")]
    is_right = len({line for line, _ in heads}) == len(heads) and all(refusal_alone(text, line) == code for line, code in alone)
    return None if is_right else "a further mistake is none"


def wrong_beside(command, files, texts, found):
    """What is wrong with the program's words on standard error beside its answer, or None: their form, and of reasons the words."""
    printed, _, errors = found
    if around.is_none(command, texts):
        files, texts = files[:-1], texts[:-1]
    if not fits(printed, errors, files, command, texts[len(TEXTS_OF[command]):]):
        return "standard error hasn't the form that belongs to this answer"
    if printed.startswith(b"refused ") and printed.split()[1] in HAS_FURTHER:
        return wrong_further(texts[0], errors)
    if printed.startswith((b"refused ", b"not lawful ")) or errors == note(files[0]):
        return None
    if command == "repair":
        return told_changes.wrong_with(files, texts[:2], texts[2:], printed, errors)
    behind = errors
    if printed.startswith(b"no "):
        lines = 1 if around.is_asked(command, texts) else reasons.BLOCK
        behind = errors.split(b"\n", lines)[lines]
    names = texts[len(TEXTS_OF[command]):]
    if names:
        others = unrescued.said_of(command, files, texts, printed)
        return reasons_for.wrong_with(command, files, texts[:len(TEXTS_OF[command])], names, printed, errors, others)
    try:
        last = notes.said_of(command, files, texts, printed) + unrescued.said_of(command, files, texts, printed)
        if not behind.endswith(last):
            return f"this belongs behind all else: {last!r}"
        behind = behind[:len(behind) - len(last)]
        wrong = reasons.wrong_with(command, files, texts, printed, behind)
        if wrong is None and command == "hang" and printed.startswith((b"run ", b"unsure ")) and not reasons.is_of_run(files, texts, printed, behind):
            wrong = "the reason isn't that of the run"
        return wrong
    except Refused:
        return "the texts are refused"


@pytest.fixture
def ask(program, tmp_path):
    """ask(command, texts, *words): the program's answer. Fails where what is on standard error doesn't belong to it."""

    def answer(command, texts, *words):
        named = {} if command == "plan" and len(texts) == 1 else dict(zip(TEXTS_OF[command], texts))
        with programs.files(tmp_path, named) as places:
            found = programs.ask([program, command, *places, *words, *names_behind(command, texts)], input=None if named else texts[0])
        wrong = None if found.is_late() else wrong_beside(command, [os.fsencode(place) for place in places] or [STDIN], texts, found)
        assert wrong is None, f"{asked(command, texts, *words)}\n{found.printed.decode()}standard error:\n{found.errors.decode()}{wrong}"
        return found

    return answer


def names_behind(command, texts):
    """The names of a command line, which are behind the texts of a case."""
    names = texts[len(TEXTS_OF[command]):]
    return ["--", *names] if any(name.startswith(b"-") and name != b"-" for name in names) else names


def asked(command, texts, *words):
    return "\n".join([f"wqplan {' '.join([command, *words])}", *map(short, texts)])


def questions(command, texts, printed):
    """What the program is asked about its own answer.

    Each question is a command, the texts for it, and the answer that must come.
    """
    head = printed.split(b"\n", 1)[0]
    if not head.startswith(b"refused ") and around.is_asked(command, texts):
        yield from around_questions(command, texts, printed)
        return
    if command == "plan" and head.startswith(b"plan "):
        yield "check", [texts[0], printed], (head.replace(b"plan", b"yes") + b"\n", 0)
        yield "deadlock", [texts[0], printed], (b"safe\n", 0)
    if command == "plan" and head.startswith(b"circle "):
        yield "check", [texts[0], printed], (b"yes " + head + b"\n", 0)
        own = [b"wq %d %s\n" % (number, b" ".join(members))
               for number, members in enumerate(read_declaration(texts[0]).groups)]
        steps = printed[printed.index(b"\nrun ") + 1:]
        yield "replay", [texts[0], b"".join(own), steps], (b"deadlock\n", 1)
    if command == "deadlock" and head.startswith((b"run ", b"unsure ")):
        yield "replay", [*texts, printed], (b"deadlock\n", 1)
    if command == "hang" and head.startswith((b"run ", b"unsure ")):
        files, names = texts[:2], texts[2:]
        yield "replay", [*files, printed, *names], ANSWERS["replay"](*files, printed, *names)
        if not names:
            yield "dot", texts, (dot.text_with_waits_of(printed, *texts), 0)
    if command == "repair" and head.startswith((b"wq ", b"norescuer ")):
        yield "deadlock", [texts[0], printed], (b"safe\n", 0)
        yield "repair", [texts[0], printed], (printed, 0)
    if command == "repair" and head.startswith(b"circle "):
        yield "check", [texts[0], printed], (b"yes " + head + b"\n", 0)
    if command == "circles" and head == b"safe" and len(texts) == 2:
        yield "deadlock", texts, (b"safe\n", 0)


def around_questions(command, texts, printed):
    """The same about an answer around workqueues."""
    if command != "plan":
        return
    text, fixed_text = texts
    head = printed.split(b"\n", 1)[0].replace(b"norescuer 1", b"norescuer")
    yield "check", [text, printed, fixed_text], (b"yes " + head.removeprefix(b"plan ") + b"\n", 0)
    declared = read_declaration(text)
    fixed = around.read_fixed(fixed_text, declared)
    if head.startswith(b"plan "):
        added = [line for line in printed.splitlines(keepends=True) if line.startswith(b"wq ")]
        yield "deadlock", [text, around.text_of(fixed) + b"".join(added)], (b"safe\n", 0)
    else:
        start = around.text_of(around.start_of(declared, fixed))
        yield "replay", [text, start, printed[printed.index(b"\nrun ") + 1:]], (b"deadlock\n", 1)


@pytest.fixture
def compare(ask, same):
    """compare(command, texts, *words): fails where the program answers otherwise than the model, or doesn't stand by its answer. Gives
    the kind of the answer, and the rows of the reasons.
    """

    def compared(command, texts, *words):
        wanted = ANSWERS[command](*texts)
        kind = kind_of(command, wanted)
        assert kind, f"the model's answer has no form: {wanted}"
        found = ask(command, texts, *words)
        if not agrees(command, texts, wanted, found[:2]):
            differs(same, command, texts, wanted, found)
        for question, other_texts, other in questions(command, texts, found.printed):
            stood = ask(question, other_texts)
            if stood[:2] != other:
                differs(same, question, other_texts, other, stood)
        return [kind, *reasons.rows_in(found.errors)]

    return compared


def differs(same, command, texts, wanted, found):
    same(asked(command, texts), b"%sstatus %d" % wanted, b"%sstatus %s" % (found[0], str(found[1]).encode()))


# The rows of the reasons that must come.
OF_GROUPS = [row for row in reasons.ROWS if row.startswith("group_")] + ["several parts"]
REASONS_OF = {"plan": ["beside a circle of plan", "beside a circle of plan, unsure"], "circles": OF_GROUPS}
REASONS_OF["deadlock"] = [row for row in reasons.ROWS if row not in REASONS_OF["plan"] + OF_GROUPS]


def test_each_command_has_cases():
    assert WITHOUT == []


@pytest.mark.parametrize("command", COMMANDS)
def test_program(compare, command, request):
    seed, count = request.config.getoption("--seed"), request.config.getoption("--cases") or CASES // FEWER.get(command, 1)
    came = collections.Counter()
    sure = request.config.getoption("--sure")
    for number, texts in enumerate(cases(command, seed, count, sure=sure, more=True)):
        words = HELPERS[number % len(HELPERS)] if command == "run" else []
        came.update(of_smallest(compare, command, texts, words))
    wanted = [kind for kind, _, _ in KINDS[command]] + REASONS_OF.get(command, [])
    wanted = [kind for kind in wanted if not (sure and "unsure" in kind)]
    never = [kind for kind in wanted if came[kind] == 0]
    assert not never or count < CASES // FEWER.get(command, 1), f"these never came: {never}; these did: {came}"


def tried(compare, command, texts, words):
    """What `compare` gives, and None; or None, and how it fails."""
    try:
        return compare(command, texts, *words), None
    except (AssertionError, pytest.fail.Exception) as failure:
        return None, str(failure)


def of_smallest(compare, command, texts, words):
    """What `compare` gives for the case; where it fails, it does so with the fewest lines that fail."""
    rows, wrong = tried(compare, command, texts, words)
    if wrong is not None:
        from smallest import smallest  # (which loads Hypothesis)

        count = len(TEXTS_OF[command])
        names = texts[count:]
        small = smallest(texts[:count], lambda some: tried(compare, command, [*some, *names], words)[1] is not None)
        pytest.fail(tried(compare, command, [*small, *names], words)[1] or wrong, pytrace=False)
    return rows


def in_two_orders(command, seed, number, sure):
    """The texts of a case, in which an item is held up if one can be; NAMEs; and the same, the last one first, and some several times.

    So each two of them come in both orders.
    """
    choose = random.Random(f"{seed} orders {number}")
    items = choose.randint(2, 6)
    unsure = choose.choice([0, 0, 1, 3])
    texts = make_case(choose, items, choose.randint(0, 2 * items), 0 if sure else unsure)
    names = choose.sample(read_declaration(texts[0]).items, choose.randint(2, items))
    if command == "replay":
        printed, status = ANSWERS["hang"](*texts, *names)
        texts = *texts, printed if status == 1 else b"run 0\n"
    return texts, names, [*names[::-1], *choose.choices(names, k=choose.randint(0, 3))]


@pytest.mark.parametrize("command", MUST_GO_ON)
def test_names_are_a_set(program, tmp_path, same, command, request):
    """In which order NAMEs come, and how often each, changes neither the answer, nor the status, nor what is said."""
    seed, count = request.config.getoption("--seed"), request.config.getoption("--cases") or ORDERS
    held = 0
    for number in range(count):
        texts, names, others = in_two_orders(command, seed, number, request.config.getoption("--sure"))
        with programs.files(tmp_path, dict(zip(TEXTS_OF[command], texts))) as places:
            first, second = (programs.ask([program, command, *places, *given]) for given in (names, others))
        words = b" ".join([*names, b"and then", *others]).decode()
        same(asked(command, texts, words), *(b"%sstatus %d\n%s" % answer for answer in (first, second)))
        held += first.status
    assert held > count // 3, f"in {held} of {count} cases an item is held up"
