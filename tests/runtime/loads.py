# Runs loads in many threads, and judges what is printed of each:
#
#     loads.py PROGRAM                  short loads, which take some seconds
#     loads.py PROGRAM SEEDS CALLS      for each seed one with rows for all calls and one with too few, without helpers and with 1, 3, 8
#
# PROGRAM is `test_runtime`. What its threads meet depends on their schedule, so no text is compared.
# `test_runtime stress` prints what each thread was answered, what each seat counted, what the closed
# runtime hands back, and each row of its history. These must fit together, and the rows must be a
# legal history by the model of tests/model, which was written from docs/RUNTIME.md. A program that
# takes too long is ended, and has failed: a wake-up may be lost.

import collections
import dataclasses
import itertools
import os
import pathlib
import re
import sys
import tempfile
import time

sys.dont_write_bytecode = True
ROOT = pathlib.Path(__file__).resolve().parents[2]
sys.path += [str(ROOT / folder) for folder in ("tests/model", "tests/lib", "bench")]
import book  # noqa: E402  (in tests/model)
import calls  # noqa: E402  (beside this file)
import certificate  # noqa: E402  (in tests/model)
import declaration  # noqa: E402  (in tests/model)
import measured  # noqa: E402  (in bench)
from programs import ask, counts_of, files, is_there  # noqa: E402  (in tests/lib)
from tables import Case, run_cases, text_of  # noqa: E402  (there, too)

# How long a program may take, in seconds, and how many calls of a caller give it one more. Where so
# many loads didn't end, the rest aren't run.
SECONDS = 60
CALLS_OF_A_SECOND = 1000
MOST_SLOW = 2

CALLERS = 4
HELPERS = [0, 1, 3, 8]
KINDS = ["queue", "cancel", "wait", "over", "ask", "told", "finish", "waitall", "overall", "asklane", "toldlane"]
ASKED = ["queue", "cancel", "flush", "sync", "wait", "flushwq", "waitall"]
REFUSALS = [60, 61, 62, 63, 64, 65, 66]
FULL, CLOSED, NO_ITEM = 60, 61, 66

# What each call may be refused with: by a body, by a caller, and by the last caller once it has
# destroyed the runtime. The other refusals of a call can't be met in a load.
BODY = {"queue": {60, 61, 66}, "cancel": {60, 66}, "wait": {62, 63}, "waitall": {62, 63}}
CALLER = {"queue": {60, 64, 66}, "cancel": {60, 66}, "flush": {60, 66}, "sync": {60, 66}, "flushwq": {60, 64}}
LATE = {"queue": {61, 66}, "flush": {60}, "flushwq": {60}}

# Sixteen items on eight workqueues, with flushes of both kinds and all lengths and two ordered pairs.
SIXTEEN = (
    " / ".join([
        *(f"item {name}" for name in "abcdefghijklmnop"), "ordered e f", "ordered o p",
        "flush c a", "flush d a b", "flushwq e c", "flush f d b", "flushwq f b", "flush g a", "flush h e", "flushwq h c", "flush h a",
        "flush i g", "flush j h f", "flushwq k i", "flushwq k j", "flush l b d", "flushwq l f", "flush l h", "flush m k",
        "flushwq n l", "flush n l a", "flush o m n", "flush p a c", "flushwq p e", "flush p g i", "flushwq p k", "flush p m",
    ]),
    "wq 0 a b / wq 1 c d / wq 2 e f / wq 3 g h / wq 4 i j / wq 5 k l / wq 6 m n / wq 7 o p",
)

# A chain of as many items as a runtime may have workqueues.
NAMES = [f"i{k}" for k in range(256)]
CHAIN = (
    " / ".join([*(f"item {name}" for name in NAMES),
                *(f"flush {above} {below}" for below, above in itertools.pairwise(NAMES))]),
    " / ".join(f"wq {k} {name}" for k, name in enumerate(NAMES)),
)

# A declaration and an assignment, how many rows there are, and how many calls each caller makes.
SHORT = [
    (*calls.ONE, 2, 10),
    (*calls.ONE, 3, 0),
    (*calls.ONE, 3, 200),
    (*calls.ONE, 10_000, 500),
    (*calls.TWO, 4, 10),
    (*calls.TWO, 5, 200),
    (*calls.TWO, 1_000, 500),
    (*calls.TWO, 20_000, 500),
    (*calls.WHOLE, 4, 10),
    (*calls.WHOLE, 5, 200),
    (*calls.WHOLE, 20_000, 500),
    # Workqueues, and no item.
    ("", "wq 0 / wq 1", 200, 100),
    # No item and no workqueue.
    ("", "", 5, 10),
    # Workqueues that serve no item.
    ("item a / item b / flush b a a a", "wq 0 / wq 1 a / wq 2 b / wq 3", 20_000, 300),
    # Three items of one workqueue, which wait for a fourth.
    ("item a / item b / item c / item d / ordered b c d / flush b a / flush d a a",
     "wq 0 a / wq 1 b c d", 20_000, 300),
    (*CHAIN, 60_000, 50),
]

# The loads that are measured, as bench/runtime.py runs them, but short.
MEASURED = [
    ("rounds", 4, 4, 200), ("rounds", 1, 3, 50), ("storm", 8, 16, 50), ("storm", 256, 2, 20),
    ("fill", 3, 2, 4000), ("fill", 1, 1, 1), ("sleep", 2, 1, 5), ("sleep", 2, 1, 5, 8), ("sleep", 3, 4, 2, 2),
]

# What is answered before any thread starts: a runtime that isn't made.
REFUSED = [
    ("item a", calls.LANES_257, 16_777_217, "refused 69"),
    (*calls.SELF, 16_777_217, "refused 68"),
    (*calls.SELF, 5, "refused 67"),
    ("item a / item a", "nope", 5, "refused 7 line 2"),
    ("item a / item b", "wq 0 a", 5, "refused 41 line 0"),
]
# The same with nine helpers.
REFUSED_HELPERS = [
    ("item a", calls.LANES_257, 16_777_217, "refused 69"),
    (*calls.SELF, 16_777_217, "refused 68"),
    (*calls.SELF, 5, "refused 74"),
    (*calls.ONE, 5, "refused 74"),
]


class Odd(Exception):
    """Something else was printed than there should be."""


class Lines:
    """The lines that were printed, which are taken one after the other."""

    def __init__(self, text):
        *lines, end = text.decode("latin-1").split("\n")
        if end:
            raise Odd(f"the last line {end!r} doesn't end")
        self.left = iter(lines)
        self.next = next(self.left, "")

    def some(self, form):
        """The groups of the lines that follow and have this form, which may be none."""
        while match := re.fullmatch(form, self.next):
            yield match.groups()
            self.next = next(self.left, "")

    def one(self, form):
        """The groups of the next line, which must have this form."""
        match = re.fullmatch(form, self.next)
        if match is None:
            raise Odd(f"{self.next!r} where there should be {form!r}")
        self.next = next(self.left, "")
        return match.groups()

    def end(self):
        if self.next:
            raise Odd(f"{self.next!r} after the end")


def read_answers(lines, seat, when):
    """How often a thread was answered what: by the call, and True, False or the number of a refusal."""
    answers = collections.Counter()
    for call in ASKED:
        (counts,) = lines.one(rf"seat {seat} {when} {call}((?: \d+){{9}})")
        answers.update({(call, answer): int(count)
                        for answer, count in zip([True, False, *REFUSALS], counts.split()) if int(count)})
    return answers


def answered(counts, *asked, answers=(True, False)):
    """How often one of these calls was answered so."""
    return sum(counts[call, answer] for call in asked for answer in answers)


def may_be(counts, allowed):
    """Whether only these calls were made, and refused only so."""
    return all(call in allowed and (isinstance(answer, bool) or answer in allowed[call]) for call, answer in counts)


def made(counts, kind, *answers):
    """How many rows of a kind there are with these answers, whatever the item, where it is counted by all three."""
    return sum(count for (_, other, answer), count in counts.items() if other == kind and answer in answers)


@dataclasses.dataclass
class Printed:
    """What is printed of a load."""

    contexts: list  # of each rescuer and helper, its workqueue and its number; 0 is the rescuer's
    lanes: list  # of each of them, how many executions were finished, and how many of them with a fault
    callers: list  # what each answered
    said: list  # of each seat, what its thread was answered
    late: list  # of each caller, what it was answered once the runtime was destroyed
    seats: list  # of each seat, what it counted
    agree: str
    made: collections.Counter  # what was counted in all
    total: int
    idle: str
    free: int
    rows: bytes

    @classmethod
    def read(cls, text):
        lines = Lines(text)
        lines.one(r"nanoseconds \d+")
        served = [[int(number or 0) for number in numbers]
                  for numbers in lines.some(r"lane (\d+)(?: helper (\d+))? finished (\d+) faults (\d+)")]
        contexts, lanes = [(q, h) for q, h, _, _ in served], [(finished, faults) for _, _, finished, faults in served]
        callers = [answer for (answer,) in lines.some(r"caller (.+)")]
        said, late = [], []
        for seat in range(len(lanes) + len(callers)):
            said.append(read_answers(lines, seat, "said"))
            if seat >= len(lanes):
                late.append(read_answers(lines, seat, "late"))
        seats = [collections.Counter() for _ in said]
        for seat, item, kind, yes, no in lines.some(r"seat (\d+) made (lane \d+|\S+) (\S+) (\d+) (\d+)"):
            seats[int(seat)] += collections.Counter({(item, kind, True): int(yes), (item, kind, False): int(no)})
        (agree,) = lines.one(r"agree (.+)")
        sums = collections.Counter()
        for item, kind, answer, count in lines.some(r"made (lane \d+|\S+) (\S+) (yes|no) (\d+)"):
            sums[item, kind, answer == "yes"] += int(count)
        (total,), (idle,) = lines.one(r"total (\d+)"), lines.one(r"idle (.+)")
        (free,), (count,) = lines.one(r"free (\d+)"), lines.one(r"rows (\d+)")
        rows = [row for (row,) in lines.some(r"([0-9a-f]{24})")]
        lines.end()
        if len(rows) != int(count):
            raise Odd(f"{len(rows)} rows where there should be {count}")
        return cls(contexts, lanes, callers, said, late, seats, agree, sums, int(total), idle, int(free),
                   bytes.fromhex("".join(rows)))

    def refused(self):
        """How often each refusal was met."""
        counts = sum(self.said + self.late, collections.Counter())
        return {code: answered(counts, *ASKED, answers=[code]) for code in REFUSALS}


class History:
    """The rows of a history, judged by the model and counted."""

    def __init__(self, declared, assignment, text, helpers):
        self.length, self.fault, replay = book.judge(declared, assignment, text, helpers)
        self.is_idle = replay.is_idle()
        self.made = collections.Counter()
        self.of_context = collections.defaultdict(collections.Counter)  # what only a rescuer or a helper makes
        if self.fault is None:
            for at in range(0, len(text), book.ROW_BYTES):
                self.note(declared, book.unpacked(text[at:at + book.ROW_BYTES]))

    def note(self, declared, row):
        if row.event == "start":
            return
        counted = declared.items[row.item].decode("latin-1") if row.event in book.WITH_ITEM else f"lane {row.lane}"
        what = counted, row.event, row.yes
        self.made[what] += 1
        if row.event in book.OF_LANE:
            self.of_context[row.lane, row.helper][what] += 1


@dataclasses.dataclass
class Load:
    """A load, and the texts that it is made of."""

    declared: str
    assigned: str
    rows: int
    calls: int
    seed: int
    helpers: int = 0

    def faults_of_body(self, number, printed, history):
        """What isn't so of a rescuer or a helper and its body."""
        said, seat, context = printed.said[number], printed.seats[number], printed.contexts[number]
        finished, faults = printed.lanes[number]
        who = f"workqueue {context[0]}" + (f", helper {context[1]}" if context[1] else "")
        if faults or not may_be(said, BODY):
            yield f"the body of {who} was answered what it can't be"
        for kind in "queue", "cancel", "wait", "waitall":
            if any(made(seat, kind, answer) != said[kind, answer] for answer in (True, False)):
                yield f"the seat of {who} counts other answers to {kind}"
        ends = [made(seat, kind, True) for kind in ("over", "overall", "finish")]
        if ends != [answered(said, "wait"), answered(said, "waitall"), finished]:
            yield f"the seat of {who} counts other ends"
        if any(made(seat, kind, True, False) for kind in ("ask", "told", "asklane", "toldlane")):
            yield f"the seat of {who} counts asks"
        if history.of_context[context] != {what: count for what, count in seat.items() if what[1] in book.OF_LANE}:
            yield f"the rows of {who} aren't those that its seat counts"

    def contexts(self, declared, assignment):
        """The rescuer of each workqueue and its helpers: a workqueue with an ordered group of two has none."""
        state = book.State(declared, assignment, self.helpers)
        return [context for q in range(assignment.count) for context in state.contexts_of(q)]

    def faults_of_caller(self, number, printed):
        """What isn't so of a caller."""
        seat = printed.seats[len(printed.lanes) + number]
        said, late = printed.said[len(printed.lanes) + number], printed.late[number]
        both = said + late
        if printed.callers[number] != "ok" or not may_be(said, CALLER) or not may_be(late, LATE):
            yield f"caller {number} was answered what it can't be"
        if said.total() != self.calls:
            yield f"caller {number} made {said.total()} calls"
        for answer in True, False:
            if made(seat, "queue", answer) != both["queue", answer]:
                yield f"the seat of caller {number} counts other answers to queue"
            if made(seat, "cancel", answer) != answered(both, "cancel", "sync", answers=[answer]):
                yield f"the seat of caller {number} counts other answers to cancel"
            if made(seat, "ask", answer) < both["flush", answer]:
                yield f"the seat of caller {number} counts too few asks"
        asks = made(seat, "ask", True, False)
        if asks != answered(both, "flush", "sync") or made(seat, "told", True) != made(seat, "ask", True):
            yield f"the seat of caller {number} counts other waits"
        if made(seat, "asklane", True, False) != answered(both, "flushwq"):
            yield f"the seat of caller {number} counts other waits for workqueues"
        if any(seat[what, "toldlane", True] != seat[what, "asklane", True] for what, _, _ in seat):
            yield f"the seat of caller {number} counts other ends of waits for a workqueue"
        if any(made(seat, kind, True, False) for kind in ("wait", "over", "finish", "waitall", "overall")):
            yield f"the seat of caller {number} counts what only a rescuer does"

    def faults_of_end(self, printed, items, lanes):
        """What isn't so of the caller that destroyed the runtime, which must be just one."""
        late = [answers for answers in printed.late if answers]
        if len(late) != 1:
            yield f"{len(late)} callers destroyed the runtime"
            return
        if late[0]["queue", CLOSED if items else NO_ITEM] != 1:
            yield "an item was queued after destroy"
        if late[0]["flush", True] or late[0].total() != 1 + items + lanes:
            yield "something was unfinished after destroy"

    def faults(self, printed, must_be_full):
        """What doesn't fit together in what is printed."""
        declared = declaration.read_declaration(text_of(self.declared))
        assignment = certificate.read_assignment(text_of(self.assigned), declared)
        if printed.contexts != self.contexts(declared, assignment) or len(printed.callers) != CALLERS:
            yield "somebody is missing"
            return
        history = History(declared, assignment, printed.rows, self.helpers)
        if history.fault is not None:
            yield f"row {history.length} isn't legal: {history.fault}"
            return
        for number in range(len(printed.contexts)):
            yield from self.faults_of_body(number, printed, history)
        for number in range(CALLERS):
            yield from self.faults_of_caller(number, printed)
        yield from self.faults_of_end(printed, len(declared.items), assignment.count)
        if not sum(printed.seats, collections.Counter()) == printed.made == history.made or printed.agree != "true":
            yield "the seats, the runtime and the rows have other counts"
        if printed.total != printed.made.total():
            yield "the sum of all counts is another one"
        if any(made(printed.made, kind, False) for kind in ("over", "told", "finish", "overall", "toldlane")):
            yield "what is always true was false"
        if not history.is_idle or printed.idle != "true":
            yield "something is unfinished"
        if history.length + printed.free != self.rows:
            yield "rows are kept for nothing"
        if must_be_full is not None and bool(printed.refused()[FULL]) != must_be_full:
            yield "60 was never met" if must_be_full else "60 was met"

    def run(self, program, must_be_full=None):
        """Runs it. Returns whether all is as it must be, or None where it didn't end in time, and what is said of it."""
        seconds = SECONDS + self.calls // CALLS_OF_A_SECOND
        begun = time.monotonic()
        texts = {"declaration": text_of(self.declared), "assignment": text_of(self.assigned)}
        words = ["helpers", str(self.helpers)] if self.helpers else []
        words += ["stress", *texts, *map(str, (self.rows, self.seed, self.calls))]
        with tempfile.TemporaryDirectory(prefix="loads_") as folder, files(folder, texts):
            found = ask([program, *words], cwd=folder, timeout=seconds)
        if found.is_late():
            return None, f"it didn't end within {seconds} s"
        took = f"{time.monotonic() - begun:.2f} s"
        if found.status or found.errors:
            return False, f"{took}: status {found.status}, {found.printed[-400:]!r}, standard error {found.errors!r}"
        try:
            printed = Printed.read(found.printed)
        except Odd as odd:
            return False, f"{took}: {odd}"
        faults = list(self.faults(printed, must_be_full))
        return not faults, f"{took}: " + "; ".join([*faults, put(printed)])


def put(printed):
    """One line with the counts of a load: of each kind yes and no, and of each refusal."""
    counts = " ".join(f"{kind} {made(printed.made, kind, True)}+{made(printed.made, kind, False)}" for kind in KINDS)
    refused = " ".join(f"{code}:{count}" for code, count in printed.refused().items())
    return f"rows {len(printed.rows) // book.ROW_BYTES} free {printed.free}, {counts}, refused {refused}"


def long_loads(seeds, each):
    """For each seed and each number of helpers a load with rows for all calls, and one with too few."""
    for seed, helpers in itertools.product(range(1, seeds + 1), HELPERS):
        for name, rows, must_be_full in [
            ("rows for all", min(16_777_216, 40 * each + 100), False),
            ("too few rows", each + 100, True),
        ]:
            yield f"seed {seed}, helpers {helpers}, {name}", Load(*SIXTEEN, rows, each, seed, helpers), must_be_full


def short_loads():
    for number, load in enumerate(SHORT, start=1):
        for seed, helpers in (1, 0), (4_294_967_295, 0), (1, 1), (2, 3), (3, 8):
            yield f"short load {number}, seed {seed}, helpers {helpers}", Load(*load, seed, helpers), None
    yield from long_loads(3, 1000)


def run_loads(program, loads):
    """Runs loads, and prints a line of each. Returns the exit status."""
    passed = failed = slow = 0
    for name, load, must_be_full in loads:
        is_good, said = load.run(program, must_be_full)
        slow += is_good is None
        passed, failed = passed + bool(is_good), failed + (not is_good)
        print(f"{'ok     ' if is_good else 'FAILED '} {name}, {said}", flush=True)
        if slow == MOST_SLOW:
            print("the other loads aren't run, since these didn't end")
            break
    return counts_of("loads", passed, failed)


def run_measured(program):
    """Runs the loads that are measured, up to one that fails. Returns the exit status."""
    with measured.Texts() as texts:
        for passed, words in enumerate(MEASURED):
            load = measured.Load(*words)
            try:
                figures = measured.run(program, texts, load, SECONDS)
                said, is_good = f"{load}: {', '.join(figures.text().splitlines())}", figures.is_as_asked(load)
            except measured.Failed as fault:
                said, is_good = str(fault), False
            print(f"{'ok     ' if is_good else 'FAILED '} {said}")
            if not is_good:
                return counts_of("measured loads", passed, 1)
    return counts_of("measured loads", len(MEASURED), 0)


def cases():
    """What is answered without a load."""
    for declared, assigned, rows, answer in REFUSED:
        texts = [text_of(declared), text_of(assigned)]
        yield Case("loads that don't begin", ["stress", 0, 1, str(rows), "1", "10"], texts, text_of(answer), 2)
        yield Case("loads that don't begin", ["bench", 0, 1, str(rows), "rounds", "1", "10"], texts, text_of(answer), 2)
    for declared, assigned, rows, answer in REFUSED_HELPERS:
        texts = [text_of(declared), text_of(assigned)]
        words = ["helpers", "9", "stress", 0, 1, str(rows), "1", "10"]
        yield Case("loads that don't begin", words, texts, text_of(answer), 2)
    # A wrong command line prints nothing to standard output; a file that isn't there is a fault.
    for words in [
        ["stress"], ["stress", 0, 0, "1", "1"], ["stress", 0, 0, "1", "1", "x"], ["stress", 0, 0, "1", "x", "1"],
        ["stress", 0, 0, "x", "1", "1"], ["stress", 0, 0, "1", "1", "4294967296"],
        ["stress", 0, 0, "1", "1", "1", "1"],
        ["bench"], ["bench", 0, 0, "1", "rounds", "1"], ["bench", 0, 0, "1", "turns", "1", "1"],
        ["bench", 0, 0, "1", "rounds", "65536", "1"], ["bench", 0, 0, "1", "rounds", "1", "x"],
        ["bench", 0, 0, "1", "fill", "1", "1", "1"],
    ]:
        yield Case("command lines", words, [b""], b"", 2, complains=True)
    for words in ["stress", 0, "nowhere", "1", "1", "1"], ["bench", "nowhere", 0, "1", "storm", "1", "1"]:
        yield Case("faults", words, [b""], b"", 3, complains=True)


def main(arguments):
    if len(arguments) not in (1, 3):
        print("usage: loads.py PROGRAM [SEEDS CALLS]", file=sys.stderr)
        return 2
    if not is_there("loads", arguments[0]):
        return 1
    program = os.path.realpath(arguments[0])
    if len(arguments) == 3:
        return run_loads(program, long_loads(*map(int, arguments[1:])))
    return max(run_cases("loads", [program], list(cases())), run_measured(program), run_loads(program, short_loads()))


if __name__ == "__main__":
    sys.exit(main(sys.argv[1:]))
