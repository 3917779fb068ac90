"""Makes lines of the texts of other cases unsure, and puts faults of such lines into them.

The same seed makes the same ones. What the other makers make stays as it is, so that two programs of which one knows no unsure lines can
be asked the same.
"""

import random
import re

import deadlock
import hang
import plan
from declaration import FLUSH_LIMIT, SURE, Refused, is_name, read_declaration, split_words
from make_declarations import join, numbered_items
from readings import part

# Longer texts stay as they are: they are at a limit, which one byte more would pass.
LONG = 100_000
UNSURE = {sure: unsure for unsure, sure in SURE.items()}
FAULTS = [
    b"flush? a b c", b"flush? a", b"flush?", b"flushwq? a", b"flushwq? a b c", b"flush a b?", b"flush a? b", b"flush ?a b", b"flush? a b!",
    b"flush ? a b", b"? flush a b", b"? other a.c:3 f", b"?flush a b", b"? flushwq a b", b"?", b"item? a", b"ordered? a b", b"Flush? a b",
    b"flush?? a b", b"flush?a b", b"flushwqs? a b", b"flush? a zz", b"flushwq? zz a", b"flush?# a b", b"flush?\ta\x80 b",
]
# Of runs: in place of the first line, or somewhere in the unsure part.
FAULTS_OF_PARTS = [
    b"unsure", b"unsure 01", b"unsure -1", b"unsure 4096 4", b"unsure 16385", b"unsure 16384", b"unsure 99999999999", b"flush? a", b"flush? a b c",
    b"flush a b", b"flushwq a b", b"flush? zz zz", b"unsure 0", b"unsure?", b"run 0", b"arc? a b", b"plan 0",
]


def places_of_firsts(text):
    """By number the lines of a text, each with the place behind its first word, its words, and what is behind the line."""
    found = []
    for line in re.findall(rb"[^\n]*\n|[^\n]+", text):
        words = split_words(line.rstrip(b"\r\n"))
        found.append((line, line.index(words[0]) + len(words[0]) if words else 0, words))
    return found


def chosen(choose, candidates):
    """Which of these become unsure: all, every second one, only one, those of one kind, or some."""
    way = choose.randrange(6)
    if way == 0:
        return set(candidates)
    if way == 1:
        return set(candidates[::2])
    if way == 2:
        return set(choose.sample(candidates, min(1, len(candidates))))
    if way == 3:
        kind = choose.choice(sorted(UNSURE))
        return {candidate for candidate in candidates if candidate[2] == kind}
    share = choose.choice([0.2, 0.5, 0.8])
    return {candidate for candidate in candidates if choose.random() < share}


def one_by_one(line, behind, words):
    """The lines of a `flush` line with several targets, one for each. All of them have its comment."""
    rest = line[line.index(b"#"):] if b"#" in line else b"\n"
    return [b"%s %s %s %s" % (line[:behind], words[1], target, rest) for target in words[2:]]


def with_unsure_lines(choose, text):
    """The text, in which some of the lines of flushes are unsure. One with several targets becomes as many lines first."""
    if len(text) > LONG or not text.endswith(b"\n"):
        return text
    lines = []
    for line, behind, words in places_of_firsts(text):
        parted = words[:1] == [b"flush"] and 3 < len(words) < 20 and choose.random() < 0.7
        lines += one_by_one(line, behind, words) if parted else [line]
    found = places_of_firsts(b"".join(lines))
    candidates = [(number, behind, words[0]) for number, (line, behind, words) in enumerate(found)
                  if words and words[0] in UNSURE and len(words) == 3 and len(line) < 4_000]
    marks = {number: behind for number, behind, _ in chosen(choose, candidates)}
    return b"".join(line[:marks[number]] + b"?" + line[marks[number]:] if number in marks else line
                    for number, (line, _, _) in enumerate(found))


def with_fault(choose, text):
    """The text with a line more that is wrong, mostly, of names that it declares."""
    lines = text.splitlines(keepends=True)
    names = [words[1] for _, _, words in places_of_firsts(text) if words[:1] == [b"item"] and len(words) > 1 and is_name(words[1])]
    fault = choose.choice(FAULTS)
    if names and choose.random() < 0.7:
        fault = re.sub(rb"(?<= )[ab](?![\w.])", lambda _: choose.choice(names), fault)
    lines.insert(choose.randint(0, len(lines)), fault + b"\n")
    return b"".join(lines)


def unsure_text(choose, text):
    """A declaration with unsure lines, seldom with a fault of one."""
    text = with_unsure_lines(choose, text)
    return with_fault(choose, text) if len(text) < LONG and choose.random() < 0.08 else text


def run_in_front(choose, declared, run):
    """A run, with an unsure part in front, of the lines of any reading."""
    unsure = declared.unsure()
    kept = choose.choice([unsure, [], choose.sample(unsure, choose.randint(0, len(unsure)))])
    lines = part(declared, kept)
    lines[1:] = choose.sample(lines[1:], len(lines) - 1) if choose.random() < 0.3 else lines[1:]
    if choose.random() < 0.12:
        at = choose.randrange(len(lines))
        lines[at] = choose.choice(FAULTS_OF_PARTS)
    if choose.random() < 0.05:
        lines.insert(choose.randint(0, len(lines)), choose.choice([*lines, *FAULTS_OF_PARTS]))
    if choose.random() < 0.05:
        lines[0] = b"unsure %d" % choose.choice([0, 1, len(lines), len(lines) - 1, len(unsure) + 1])
    return join(*lines) + run


def run_printed(choose, texts):
    """What `hang` or `deadlock` prints, or a run as it may be made of that."""
    printed, status = choose.choice([hang, deadlock]).answer(*texts)
    if status != 1 or choose.random() < 0.5:
        return printed
    lines = printed.splitlines()
    at = next((at for at, line in enumerate(lines) if line.startswith(b"run ")), len(lines))
    head, steps = lines[:at], lines[at + 1:]
    way = choose.random()
    if way < 0.3:
        steps = steps[:-1]
    elif way < 0.5 and len(steps) > 1:
        steps.insert(choose.randrange(len(steps)), steps.pop(choose.randrange(len(steps))))
    elif way < 0.7:
        head = []
    elif len(head) > 1:
        del head[choose.randrange(1, len(head))]
        head[0] = b"unsure %d" % (len(head) - 1)
    return join(*head, b"run %d" % len(steps), *steps)


def unsure_case(command, seed, number, texts):
    """A case of a command, of which this is one without unsure lines."""
    choose = random.Random(f"{seed} unsure {command} {number}")
    text = unsure_text(choose, texts[0])
    others = list(texts[1:])
    try:
        declared = read_declaration(text)
        if command == "replay":
            others[1] = run_printed(choose, [text, others[0]]) if choose.random() < 0.5 else run_in_front(choose, declared, others[1])
        elif command == "check" and choose.random() < 0.3:
            others[0] = plan.answer(text)[0]
    except Refused:
        pass
    return [text, *others]


def limit_unsure_cases():
    """Declarations with unsure lines at the limits: what each is, and its text."""
    names = [line[5:] for line in numbered_items(4_096)]
    chain = [b"flush? %s %s" % pair for pair in zip(names, names[1:])]
    items = numbered_items(4_096)
    return [
        ("16,384 unsure flushes", join(b"item a", b"item b", *[b"flush? a b"] * FLUSH_LIMIT)),
        ("16,385 unsure flushes", join(b"item a", b"item b", *[b"flush? a b"] * FLUSH_LIMIT, b"flushwq? b a")),
        ("16,383 unsure flushes and two", join(b"item a", b"item b", *[b"flushwq? a b"] * (FLUSH_LIMIT - 1), b"flush a b b")),
        ("a chain of 4,096, all unsure", join(*items, *chain)),
        ("a circle of 4,096, all unsure", join(*items, *chain, b"flush? i4095 i0")),
        ("an unsure line of 4,096 bytes", b"item a\nflush? a a " + b"#" * 4_085 + b"\n"),
        ("an unsure line of 4,097 bytes", b"item a\nflush? a a " + b"#" * 4_086 + b"\n"),
    ]
