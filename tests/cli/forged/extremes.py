"""Texts of which something is as large as its limit, or one larger, under each command that reads them, and the longest answers.

The limits are those of "Limits" and "Certificates" in docs/FORMAT.md. A case is what it is, a command, and a function that makes
the texts: some are long, and only the process that asks about them makes them.
"""

import limits
from commands import given
from limits import name

MOST_DECLARATION = 1_048_576
MOST_LINE = 4_096
MOST_CERTIFICATE = 8_388_608
MOST_CERTIFICATE_LINE = 524_288

EMPTY = b"plan 0\nchain 0\n"
ONE = b"item a\n"
ITSELF = b"item a\nflush a a\n"
CIRCLE = b"circle 1\narc a a\n"
STEPS = b"run 3\nqueue a\nstart 0 a\nwait 0 a\n"


def comment(size):
    """A line of so many bytes, without its LF."""
    return b"#" + b"x" * (size - 1)


def filled(text, size, line):
    """The text, and comments behind it up to so many bytes, in lines of this many at most."""
    left = size - len(text)
    return text + (comment(line) + b"\n") * (left // (line + 1)) + comment(left % (line + 1))


def cases_of(what, texts, kind=None):
    """A case for each form of a command with these texts, each of which is bytes or a function that makes it."""
    for command, made in given(texts, kind):
        yield what, command, lambda made=made: [text() if callable(text) else text for text in made]


# ---- declarations

def two(flushes):
    return b"item a\nitem b\n" + b"flush a b\n" * flushes


# What it is, the declaration, and an assignment of it.
DECLARATIONS = [
    ("a declaration of 1,048,576 bytes", lambda: filled(two(1), MOST_DECLARATION, MOST_LINE), lambda: b"wq 0 b\nwq 1 a\n"),
    ("a declaration of 1,048,577 bytes", lambda: filled(two(1), MOST_DECLARATION + 1, MOST_LINE), lambda: b"wq 0 b\nwq 1 a\n"),
    ("a line of 4,096 bytes", lambda: ONE + comment(MOST_LINE) + b"\r\n", lambda: b"wq 0 a\n"),
    ("a line of 4,097 bytes", lambda: ONE + comment(MOST_LINE + 1) + b"\r\n", lambda: b"wq 0 a\n"),
    ("a flush line of 4,096 bytes", lambda: two(1) + b"flush a" + b" b" * 2_044 + b"\t\n", lambda: b"wq 0 a b\n"),
    ("a flush line of 4,097 bytes", lambda: two(1) + b"flush a" + b" b" * 2_045 + b"\n", lambda: b"wq 0 a b\n"),
    ("a name of 63 bytes", lambda: b"item %s\n" % (b"n" * 63), lambda: b"wq 0 %s\n" % (b"n" * 63)),
    ("a name of 64 bytes", lambda: b"item %s\n" % (b"n" * 64), lambda: b"wq 0 %s\n" % (b"n" * 64)),
    ("4,096 items", lambda: limits.items(4_096).encode(), lambda: on_one(4_096)),
    ("4,097 items", lambda: limits.items(4_097).encode(), lambda: on_one(4_097)),
    ("16,384 flushes", lambda: two(16_384), lambda: b"wq 0 a b\n"),
    ("16,385 flushes", lambda: two(16_385), lambda: b"wq 0 a b\n"),
    ("16,384 `flushwq` lines", lambda: two(0) + b"flushwq a b\n" * 16_384, lambda: b"wq 0 a b\n"),
    ("16,385 `flushwq` lines", lambda: two(0) + b"flushwq a b\n" * 16_385, lambda: b"wq 0 a b\n"),
    ("256 workqueues in a plan", lambda: chain(256), lambda: own(256)),
    ("257 workqueues in a plan", lambda: chain(257), lambda: own(257)),
]


def chain(count):
    """So many items, each of which flushes the next one."""
    return (limits.items(count) + limits.pairs("flush", [(i, i + 1) for i in range(count - 1)])).encode()


def own(count):
    """A workqueue for each of so many items."""
    return "".join(f"wq {i} {name(i)}\n" for i in range(count)).encode()


def on_one(count):
    return f"wq 0 {' '.join(map(name, range(count)))}\n".encode()


def declaration_cases():
    for what, text, assignment in DECLARATIONS:
        yield from cases_of(what, {"declaration": text, "answer": EMPTY, "assignment": assignment, "run": b"run 0\n"})


# ---- answers, assignments and runs

def queues(count):
    """So many `wq` lines, of which the last one has the item."""
    return b"".join(b"wq %d\n" % q for q in range(count))[:-1] + b" a\n"


def planned(count):
    """The same in a plan text."""
    return b"plan %d\n%schain 1\n" % (count, queues(count))


# What it is, and an assignment of the one item.
ASSIGNMENTS = [
    ("an assignment of 8,388,608 bytes", lambda: filled(b"wq 0 a\n", MOST_CERTIFICATE, MOST_CERTIFICATE_LINE)),
    ("an assignment of 8,388,609 bytes", lambda: filled(b"wq 0 a\n", MOST_CERTIFICATE + 1, MOST_CERTIFICATE_LINE)),
    ("a line of 524,288 bytes", lambda: b"wq 0 a\n" + comment(MOST_CERTIFICATE_LINE)),
    ("a line of 524,289 bytes", lambda: b"wq 0 a\n" + comment(MOST_CERTIFICATE_LINE + 1)),
    ("a `wq` line of 524,288 bytes", lambda: b"wq 0" + b" " * (MOST_CERTIFICATE_LINE - 5) + b"a\r\n"),
    ("a `wq` line of 524,289 bytes", lambda: b"wq 0" + b" " * (MOST_CERTIFICATE_LINE - 4) + b"a\r\n"),
    ("4,096 workqueues", lambda: queues(4_096)),
    ("4,097 workqueues", lambda: queues(4_097)),
    ("4,096 workqueues in a plan text", lambda: planned(4_096)),
    ("4,097 workqueues in a plan text", lambda: planned(4_097)),
]


def assignment_cases():
    for what, text in ASSIGNMENTS:
        yield from cases_of(what, {"declaration": ITSELF, "assignment": text, "run": STEPS}, "assignment")


def arcs(count):
    return b"circle %d\n" % count + b"arc a a\n" * count


# What it is, a declaration, and an answer to it.
ANSWERS = [
    ("a run that fills an answer", ITSELF, lambda: limits.long_run(*limits.HANGS, before=CIRCLE)),
    ("a run that overfills an answer", ITSELF, lambda: limits.long_run(*limits.HANGS, before=CIRCLE) + b"\n"),
    ("an answer of 8,388,608 bytes", ITSELF, lambda: filled(CIRCLE + STEPS, MOST_CERTIFICATE, MOST_CERTIFICATE_LINE)),
    ("an answer of 8,388,609 bytes", ITSELF, lambda: filled(CIRCLE + STEPS, MOST_CERTIFICATE + 1, MOST_CERTIFICATE_LINE)),
    ("a line of 524,288 bytes", b"", lambda: EMPTY + comment(MOST_CERTIFICATE_LINE)),
    ("a line of 524,289 bytes", b"", lambda: EMPTY + comment(MOST_CERTIFICATE_LINE + 1)),
    ("a `plan` line of 524,288 bytes", b"", lambda: b"plan" + b" " * (MOST_CERTIFICATE_LINE - 5) + b"0\nchain 0\n"),
    ("a `plan` line of 524,289 bytes", b"", lambda: b"plan" + b" " * (MOST_CERTIFICATE_LINE - 4) + b"0\nchain 0\n"),
    ("4,096 workqueues", ONE, lambda: planned(4_096)),
    ("4,097 workqueues", ONE, lambda: planned(4_097)),
    ("a chain of 4,096", ITSELF, lambda: b"plan 1\nwq 0 a\nchain 4096\n" + b"arc a a\n" * 4_095),
    ("a chain of 4,097", ITSELF, lambda: b"plan 1\nwq 0 a\nchain 4097\n" + b"arc a a\n" * 4_096),
    ("a circle of 4,096", ITSELF, lambda: arcs(4_096)),
    ("a circle of 4,097", ITSELF, lambda: arcs(4_097)),
    ("a circle of 4,096 and its run", ITSELF, lambda: arcs(4_096) + STEPS),
    ("a circle of none", ITSELF, lambda: arcs(0)),
]

# What it is, and a run of the item that flushes itself: as long as a text may be, and others, which are as long as they may be
# behind a circle, too.
LONG_RUNS = [
    ("a run of 8,388,608 bytes", lambda: filled(STEPS, MOST_CERTIFICATE, MOST_CERTIFICATE_LINE)),
    ("a run of 8,388,609 bytes", lambda: filled(STEPS, MOST_CERTIFICATE + 1, MOST_CERTIFICATE_LINE)),
    ("a run that fills its text", lambda: limits.long_run(*limits.HANGS)),
    ("a run that overfills its text", lambda: limits.long_run(*limits.HANGS) + b"\n"),
]
RUNS = [
    ("a step of 524,288 bytes", lambda: b"run 1\nqueue" + b"\t" * (MOST_CERTIFICATE_LINE - 6) + b"a\n"),
    ("a step of 524,289 bytes", lambda: b"run 1\nqueue" + b"\t" * (MOST_CERTIFICATE_LINE - 5) + b"a\n"),
    ("4,294,967,295 steps", lambda: b"run 4294967295\nqueue a\n"),
    ("4,294,967,296 steps", lambda: b"run 4294967296\nqueue a\n"),
]


def steps_on(queue):
    """Each step that names a workqueue, with this one."""
    return [b"run 1\n%s %d a\n" % (word, queue) for word in (b"start", b"wait", b"waitwq", b"over", b"overwq", b"finish")]


def run_cases(what, text, is_behind_a_circle):
    """The run by itself, and maybe behind a circle."""
    yield from cases_of(what, {"declaration": ITSELF, "assignment": b"wq 0 a\n", "run": text}, "run")
    if is_behind_a_circle:
        yield from cases_of(what, {"declaration": ITSELF, "answer": lambda: CIRCLE + text()}, "answer")


def certificate_cases():
    for what, declaration, text in ANSWERS:
        yield from cases_of(what, {"declaration": declaration, "answer": text}, "answer")
    for what, text in LONG_RUNS:
        yield from run_cases(what, text, False)
    for what, text in RUNS:
        yield from run_cases(what, text, True)
    for queue in 4_095, 4_096:
        for text in steps_on(queue):
            yield from run_cases(f"a step of workqueue {queue:,}", lambda text=text: text, True)


# ---- the longest answers

LONG_CHAIN = limits.chain(limits.long_name).encode()
LONG_PLAN = limits.chain_plan(limits.long_name).encode()
ROUND_RUN = limits.run(limits.CIRCLE_RUN).encode()


# What it is, and its texts: the declaration is that of all answers, and of the commands that need no other text.
LONGEST = [
    ("4,096 items in a chain, with names of 63 bytes", {"declaration": LONG_CHAIN, "answer": LONG_PLAN, "assignment": LONG_PLAN}),
    ("4,096 items in a circle",
     {"declaration": limits.ROUND_TEXT, "answer": limits.CIRCLE.encode(), "assignment": limits.OWN.encode(), "run": ROUND_RUN}),
    ("the longest run",
     {"declaration": limits.LONGEST_TEXT, "answer": limits.LONGEST_CIRCLE, "assignment": limits.LONGEST_LANES,
      "run": limits.LONGEST_RUN}),
]


def longest_cases():
    for what, texts in LONGEST:
        yield from cases_of(what, texts)


def cases():
    """All of them: those that take long first, so that no processor waits for the last one."""
    yield from certificate_cases()
    yield from longest_cases()
    yield from assignment_cases()
    yield from declaration_cases()
