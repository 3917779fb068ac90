"""All readings of small declarations with unsure lines, and all runs of each, gone through: the model's answers are what is found.

Declarations are made up with both kinds of flushes, `ordered` groups and unsure lines, each with an assignment in which some workqueues
may have no rescuer. Of each reading all states are gone through by the number of steps that lead to them (test_search.py), without
helpers, with one and with two for each workqueue, so that the fewest steps of a run that ends stuck are known of each. Each test puts a
law of docs/FORMAT.md, "Unsure lines", to all of them. More of them, and the program's answers in place of the model's:

    python3 -m pytest tests/model/test_unsure.py --cases 640 --ask-program
"""

import dataclasses
import functools
import random
import re

import certificate
import programs
import pytest
from commands import TEXTS_OF
from declaration import read_declaration
from make_declarations import join
from models import ANSWERS
from readings import part, reading, readings
from test_laws import cost, demand, parted, second_runs, text_of_reading
from test_search import (
    Steps, assignment_text, ends, ends_with, in_one_order, is_deadlock, is_hang, is_stuck, numbered, partitions, waits_of,
)

DECLARATIONS = 60
HELPERS = (0, 1, 2)
# The numbers of items and of flushes, each as often as it stands here.
SIZES = [(1, 1), (1, 2), (2, 1), (2, 2), (2, 2), (2, 3), (2, 3), (2, 4), (3, 2), (3, 3), (3, 3)]
# With two helpers three items with three flushes take their time: of those only every so many.
LARGE = 3
ONE_OF = 4
SHARES = [0.3, 0.5, 0.7, 1]


@dataclasses.dataclass
class Case:
    """A declaration, its text, and workqueues for its groups."""

    text: bytes
    parts: list
    bare: frozenset
    helpers: tuple

    def __post_init__(self):
        self.declared = read_declaration(self.text)
        self.assignment_text = assignment_text(self.declared, self.parts, self.bare)
        self.assignment = certificate.read_assignment(self.assignment_text, self.declared)
        self.readings = list(readings(self.declared))
        self.ordered = {self.parts[number] for number, group in enumerate(self.declared.groups) if len(group) > 1}

    def own(self, kept):
        """A reading."""
        return reading(self.declared, kept)

    def steps(self, kept, helpers=0):
        """The table of the steps of a reading."""
        return Steps(waits_of(self.own(kept)), self.assignment.workqueue_of, self.ordered, helpers)

    @functools.cached_property
    def fewest(self):
        """Of each reading the fewest steps of a run that ends stuck, or None. With helpers they are the same."""
        found = {}
        for kept in self.readings:
            rows, numbers = numbered(waits_of(self.own(kept)), self.assignment.workqueue_of, self.ordered)
            bare = frozenset(numbers[number] for number in self.bare if number in numbers)
            stuck, _ = ends(rows, frozenset([bare]), True)
            found[kept] = stuck.get(bare)
            for helpers in self.helpers:
                helped = found[kept] if helpers == 0 else ends_with(rows, frozenset([bare]), helpers, True).get(bare)
                demand(helped == found[kept], f"{helpers} helpers change nothing")
        return found

    def answer(self, command, *others):
        return ANSWERS[command](self.text, self.assignment_text, *others)


def make_declaration(choose):
    """The bytes of a small declaration."""
    count, flush_count = choose.choice(SIZES)
    names = [b"a", b"b", b"c"][:count]
    lines = [b"item " + name for name in names]
    if choose.random() < 0.3:
        lines.append(b"ordered " + b" ".join(choose.sample(names, choose.randint(1, count))))
    whole, share = choose.choice([0, 0.5, 1]), choose.choice(SHARES)
    pairs = [(choose.choice(names), choose.choice(names)) for _ in range(flush_count)]
    if choose.random() < 0.4:
        pairs = [*zip(names, names[1:] + names[:1]), *pairs[count:]]
    flushes = []
    for pair in pairs:
        directive = b"flushwq" if choose.random() < whole else b"flush"
        mark = b"?" if choose.random() < share else b""
        flushes.append(b"%s%s %s %s" % (directive, mark, *pair))
    if not any(b"?" in line for line in flushes):
        flushes[0] = flushes[0].replace(b" ", b"? ", 1)
    if choose.random() < 0.15:
        flushes.append(flushes[0])
    return join(*lines, *flushes)


def make_case(seed, number):
    choose = random.Random(f"{seed} unsure {number}")
    text = make_declaration(choose)
    declared = read_declaration(text)
    parts = list(range(len(declared.groups))) if choose.random() < 0.4 else choose.choice(list(partitions(len(declared.groups))))
    bare = frozenset(number for number in range(max(parts) + 1) if choose.random() < choose.choice([0, 0.25, 0.5]))
    is_large = len(declared.items) >= LARGE and len(declared.flushes) >= LARGE and number % ONE_OF
    return Case(text, parts, bare, HELPERS[:2] if is_large else HELPERS)


@functools.cache
def cases_of(seed, count):
    return [make_case(seed, number) for number in range(count)]


def of_program(program, folder, command, *texts):
    """The program's answer, as the model would give it."""
    with programs.files(folder, dict(zip(TEXTS_OF[command], texts))) as places:
        return programs.ask([program, command, *places])[:2]


@pytest.fixture(autouse=True)
def asked(request, tmp_path, monkeypatch):
    """With --ask-program it is the program that answers, and not the model."""
    if request.config.getoption("--ask-program"):
        program = request.getfixturevalue("program")
        for command in ("plan", "replay", "deadlock", "hang", "circles"):
            monkeypatch.setitem(ANSWERS, command, functools.partial(of_program, program, tmp_path, command))


@pytest.fixture
def look(request):
    """look(law): puts a law, a function of a case, to each case."""
    seed, count = request.config.getoption("--seed"), request.config.getoption("--cases") or DECLARATIONS

    def at_each(law):
        for case in cases_of(seed, count):
            try:
                law(case)
            except AssertionError as failure:
                pytest.fail(f"{case.text.decode()}{case.assignment_text.decode()}{failure}", pytrace=False)

    return at_each


def lines_of(case, kept):
    return [case.declared.flush_line(place) for place in sorted(kept)]


# What is printed ---------------------------------------------------------------------------------


def test_safe_is_printed_exactly_where_no_run_of_any_reading_ends_stuck(look):
    def law(case):
        hangs = any(steps is not None for steps in case.fewest.values())
        for command in "hang", "deadlock":
            demand((case.answer(command) == (b"safe\n", 0)) == (not hangs), f"{command} says whether some reading hangs")
        demand((case.answer("circles") == (b"safe\n", 0)) == (not hangs), "circles says so, too")

    look(law)


def test_no_reading_that_keeps_fewer_lines_hangs(look):
    def law(case):
        found = [len(kept) for kept, steps in case.fewest.items() if steps is not None]
        for command in "hang", "deadlock":
            printed, status = case.answer(command)
            demand(status == (1 if found else 0), "the status says whether some reading hangs")
            demand(not found or printed.startswith(b"unsure %d\n" % min(found)), f"{command} prints as few lines as can be")

    look(law)


def test_no_run_of_a_reading_that_keeps_as_few_lines_has_fewer_steps(look):
    def law(case):
        printed, status = case.answer("hang")
        if status == 1:
            lines, run = parted(printed)
            fewest = min(steps for kept, steps in case.fewest.items() if len(kept) <= len(lines) and steps is not None)
            demand(run.startswith(b"run %d\n" % fewest), f"the fewest steps are {fewest}")

    look(law)


def test_what_is_printed_ends_stuck_in_its_reading_and_in_each_that_keeps_more(look):
    def law(case):
        for command in "hang", "deadlock":
            printed, status = case.answer(command)
            if status == 0:
                continue
            kept, steps = certificate.read_run_and_part(printed, case.declared)
            for other in case.readings:
                if kept <= other:
                    tables = [case.steps(other, helpers) for helpers in case.helpers]
                    demand(is_hang(tables, case.assignment.count, case.bare, steps), f"{command}: it ends stuck where {lines_of(case, other)} are kept")
            if command == "deadlock":
                demand(is_deadlock(case.steps(kept), case.assignment.count, case.bare, steps), "it deadlocks in its reading")
                demand(case.answer("replay", printed) == (b"deadlock\n", 1), "and replay says so")
            else:
                demand(case.answer("replay", printed)[0] in (b"deadlock\n", b"stuck\n"), "replay says that it ends stuck")
            demand(case.answer("replay", parted(printed)[1])[1] == 1, "without its unsure part it ends stuck, too")

    look(law)


def test_the_page_and_the_text_have_the_same_readings(look):
    def law(case):
        for kept in case.readings:
            text = text_of_reading(case.declared, lines_of(case, kept))
            highest, _ = certificate.read_run_and_part(join(*part(case.declared, kept), b"run 0"), case.declared)
            own, read = case.own(highest), read_declaration(text)
            demand((own.flushes, own.directive_of) == (read.flushes, read.directive_of), "a reading is what the text is then")

    look(law)


# The laws ----------------------------------------------------------------------------------------


def test_u1_a_run_of_a_reading_is_a_run_of_each_that_keeps_more_and_ends_stuck_in_both_or_in_neither(look):
    def law(case):
        for kept in case.readings:
            for other in case.readings:
                if kept < other and len(other) == len(kept) + 1:
                    for helpers in case.helpers[:2]:
                        look_at_states(case, kept, other, helpers)

    look(law)


def look_at_states(case, kept, other, helpers):
    """Each state of a reading is one of another one, in which each of its steps leads to the same state."""
    fewer, more = case.steps(kept, helpers), case.steps(other, helpers)
    first = fewer.begin(case.assignment.count)
    seen, left = {first}, [first]
    while left:
        state = left.pop()
        steps, others = fewer.all_steps(state), dict(more.all_steps(state))
        demand(all(others.get(step) == behind for step, behind in steps), "each step of a reading may be made where more is kept, and does the same")
        both = [is_stuck(state, list(table.executions(state)), case.bare) for table in (fewer, more)]
        demand(both[0] == both[1], "both are stuck, or neither")
        new = {in_one_order(behind) if helpers > 1 else behind for _, behind in steps} - seen
        seen |= new
        left += new


def test_u2_safe_is_where_all_lines_are_kept_and_for_sure_is_where_none_is(look):
    def law(case):
        safe = {kept for kept, steps in case.fewest.items() if steps is None}
        demand((len(safe) == len(case.readings)) == (frozenset(case.declared.unsure()) in safe), "safe in all is safe where all are kept")
        demand((not safe) == (frozenset() not in safe), "for sure is where the reading that keeps none hangs")
        demand((not safe) == case.answer("hang")[0].startswith(b"unsure 0\n"), "unsure 0 is for sure")

    look(law)


def test_u3_what_circles_leaves_out_makes_no_difference(look):
    def law(case):
        printed = re.findall(rb"^arc\? (\S+ \S+)$", case.answer("circles")[0], re.M)
        for place in case.declared.unsure():
            if b" ".join(case.declared.flushes[place]) not in printed:
                for kept in case.readings:
                    same = (case.fewest[kept - {place}] is None) == (case.fewest[kept | {place}] is None)
                    demand(same, f"{case.declared.flush_line(place)!r} makes no difference where {lines_of(case, kept)} are kept")

    look(law)


def test_u4_the_fewest_lines_then_the_fewest_steps_are_those_of_a_walk_of_all_flushes(look):
    def law(case):
        walks = [cost(case.declared, *walk) for walk in second_runs(case.declared, case.assignment)]
        found = [(len(kept), steps) for kept, steps in case.fewest.items() if steps is not None]
        demand(min(walks, default=None) == min(found, default=None), "the least walk is the least run")

    look(law)


def decided(case, place, is_so):
    """The text where the unsure line of this place is decided."""
    lines = case.text.splitlines()
    numbers = [number for number, line in enumerate(lines) if line.startswith(b"flush")]
    number = numbers[place]  # (each line is one flush)
    lines[number:number + 1] = [lines[number].replace(b"?", b"", 1)] if is_so else []
    return join(*lines)


def fewest_lines(text, assignment):
    """What `hang` prints: None of what is safe, or how many unsure lines, 0 where the declaration has none."""
    printed, status = ANSWERS["hang"](text, assignment)
    return None if status == 0 else len(parted(printed)[0])


def test_u5_a_decision_changes_what_it_may(look):
    def law(case):
        printed, _ = case.answer("hang")
        before = fewest_lines(case.text, case.assignment_text)
        kept, _ = certificate.read_run_and_part(printed, case.declared) if before is not None else (None, None)
        for place in case.declared.unsure():
            denied, agreed = (fewest_lines(decided(case, place, is_so), case.assignment_text) for is_so in (False, True))
            if before is None:
                demand((denied, agreed) == (None, None), "safe stays so")
            elif before == 0:
                demand((denied, agreed) == (0, 0), "what hangs for sure goes on doing so")
            else:
                demand(denied is None or denied >= before, "a line that isn't so makes no fewer lines enough")
                demand(agreed in (before, before - 1), "one that is so makes as many enough, or one fewer")
                demand(place not in kept or agreed == before - 1, "one of those that are printed makes one fewer enough")
            if kept is not None and place not in kept:
                demand(ANSWERS["replay"](decided(case, place, False), case.assignment_text, printed)[1] == 1, "the run stays one that ends stuck")

    look(law)


def test_u5_what_makes_no_difference_goes_on_making_none(look):
    def law(case):
        def matter(text):
            printed = ANSWERS["circles"](text, case.assignment_text)[0]
            return set(re.findall(rb"^arc\? (\S+ \S+)$", printed, re.M))

        for place in case.declared.unsure():
            for is_so in False, True:
                demand(matter(decided(case, place, is_so)) <= matter(case.text), "no line comes to matter by a decision")

    look(law)


def test_u6_a_reading_needs_all_workqueues_of_the_plan_where_it_can_keep_the_chain(look):
    def law(case):
        printed, status = ANSWERS["plan"](case.text)
        if status == 1:
            return
        count = int(printed.split()[1])
        sure = {flush for place, flush in enumerate(case.declared.flushes) if not case.declared.is_unsure(place)}
        arcs = [tuple(line.split()[1:]) for line in printed.splitlines() if line.startswith(b"arc ")]
        doubted = sum(arc not in sure for arc in arcs)
        of_none = workqueues_needed(case, frozenset())
        for size in range(len(case.declared.unsure()) + 1):
            needed = [workqueues_needed(case, kept) for kept in case.readings if len(kept) == size]
            demand(all(of_none <= number <= count for number in needed), "no reading needs more than the plan, or fewer than where none is kept")
            demand((count in needed) == (size >= doubted), f"a reading that keeps {size} needs {count} exactly if the chain has no more unsure")

    look(law)


def workqueues_needed(case, kept):
    """The smallest number of workqueues on which this reading is safe, looked for among all assignments."""
    text = text_of_reading(case.declared, lines_of(case, kept))
    own = read_declaration(text)
    return min(max(parts, default=-1) + 1 for parts in partitions(len(own.groups))
               if ANSWERS["deadlock"](text, assignment_text(own, parts, frozenset()))[1] == 0)


def test_each_kind_of_case_is_there(look):
    kinds = set()

    def kinds_of(case):
        number = fewest_lines(case.text, case.assignment_text)
        kinds.add("safe" if number is None else f"unsure {min(number, 2)}")
        directives = {directive for directive in case.declared.directive_of if directive.endswith(b"?")}
        kinds.update({f"{number} {directive.decode()}" for directive in directives if number})
        kinds.update(["bare"] if case.bare and number else [])
        kinds.update(["ordered"] if case.ordered and number else [])

    look(kinds_of)
    demand({"safe", "unsure 0", "unsure 1", "unsure 2", "1 flush?", "1 flushwq?", "bare", "ordered"} <= kinds, f"only these are there: {kinds}")
