"""All runs of small declarations, gone through: the program's answers, and the model's, are what is found.

Of random small declarations all assignments are looked at, up to the numbers of the workqueues. Of each assignment all states are gone
through that steps lead to, by the rules of docs/FORMAT.md, "Steps", without any notion of a circle. `deadlock` must answer `safe` where
no run ends stuck, and where one deadlocks a run that does; `plan` must have as many workqueues as the smallest assignment by which no run
ends stuck, and a circle where there is none. Of the smaller declarations all runs with one and with two helpers are gone through, too:
some run ends stuck exactly where one without helpers does.

Of some declarations the states are gone through by the number of steps that lead to them. So the first one in which a run ends stuck
says how many steps the shortest of these runs has: `hang` must answer `safe`, or such a run of that many steps. With helpers no run that
ends stuck has fewer. The program is asked for one of eight assignments, and the model for all of them.

All this is so whichever workqueues have no rescuer: of some declarations each assignment is looked at with each set of such workqueues.
"""

import functools
import itertools
import random

import certificate
import programs
import pytest
from certificate import read_run
from declaration import Refused, read_declaration
from make_declarations import join
from models import ANSWERS
from steps import State
from test_laws import EXECUTIONS, demand

ONE_OF = 8

# The numbers of items and of flushes of a declaration, each as often as it stands here. All states
# of the larger ones take their time.
SIZES = [(1, 1), (1, 2), (2, 1), (2, 2), (2, 3), (2, 4), (3, 1), (3, 2), (3, 3), (3, 4), (3, 4),
         (4, 2), (4, 3), (4, 3), (4, 4), (4, 4)]

# With so many helpers a run ends stuck where one does without them. That is looked at where there are no more items and flushes than
# these.
HELPERS = (1, 2)
HELPED_ITEMS = 3
HELPED_FLUSHES = 3

# States ------------------------------------------------------------------------------------------
# There is no end to the numbers of entries and marks, so they are left out of a state. The pending
# entries of a workqueue stand in the order of their numbers anyway. An item has at most two
# unfinished entries: one runs, and one is pending, which has the higher number. So all that a mark
# says of an item is how many of these have a number below it, and this is kept, for each item of
# which the wait is: for a whole workqueue these are all its items. An entry that is queued later
# has a number that isn't below the mark.
#
# A state has a pair for each workqueue: the items of its pending entries, and what runs in each of
# its contexts, the rescuer's first, or None. What runs is the item, the count of its waits, and
# while it waits the word and the target of its wait, and the pairs of an item and a number for
# which it waits: the one or two entries of the item with the lowest numbers. Else None and no pair.
#
# A step is as certificate.py reads it; that of a helper has the number of the helper behind it.


def replaced(state, workqueue, pending, contexts):
    return state[:workqueue] + ((pending, contexts),) + state[workqueue + 1:]


def with_context(contexts, number, running):
    return contexts[:number] + (running,) + contexts[number + 1:]


def runs(contexts, item):
    """Whether the item runs in one of these contexts."""
    for running in contexts:
        if running is not None and running[0] == item:
            return True
    return False


def without(state, item, number):
    """The state in which no wait is for an entry of the item any longer, one that is gone.

    The number is its place, from 1, among the unfinished entries of its item.
    """
    for workqueue, (pending, contexts) in enumerate(state):
        for context, running in enumerate(contexts):
            if running is not None and any(other == item and count >= number for other, count in running[3]):
                entries = ((other, count - (other == item)) for other, count in running[3])
                left = (*running[:3], tuple((other, count) for other, count in entries if count))
                contexts = with_context(contexts, context, left)
                state = replaced(state, workqueue, pending, contexts)
    return state


def in_one_order(state):
    """The state in which the helpers of each workqueue are numbered by what they run.

    Runs that differ in the numbers of helpers alone end in the same way.
    """
    return tuple((pending, contexts[:1] + tuple(sorted(contexts[1:], key=repr))) for pending, contexts in state)


def waits_of(declared):
    """By item, the waits that it declares, in order of place: each the word of its step and its target."""
    waits = {item: [] for item in declared.items}
    for (item, target), directive in zip(declared.flushes, declared.directive_of):
        waits[item].append((b"wait" if directive.rstrip(b"?") == b"flush" else b"waitwq", target))
    return waits


class Steps:
    """The table of the steps, of the items with these waits, under an assignment.

    Each workqueue but those that are ordered has so many helpers.
    """

    def __init__(self, waits, workqueue_of, ordered=(), helpers=0):
        self.waits, self.workqueue_of = waits, workqueue_of
        self.ordered, self.helpers = ordered, helpers
        self.items_on = {workqueue: [item for item in workqueue_of if workqueue_of[item] == workqueue]
                         for workqueue in set(workqueue_of.values())}

    def begin(self, count):
        """The state without entries, of so many workqueues."""
        return tuple(((), (None,) * (1 if number in self.ordered else 1 + self.helpers)) for number in range(count))

    def unfinished(self, state, item):
        """How many entries of the item are unfinished."""
        pending, contexts = state[self.workqueue_of[item]]
        return (item in pending) + runs(contexts, item)

    def waited_for(self, state, wait):
        """The entries that a wait that begins now is for."""
        word, target = wait
        items = [target] if word == b"wait" else self.items_on[self.workqueue_of[target]]
        entries = [(item, self.unfinished(state, item)) for item in items]
        return tuple((item, count) for item, count in entries if count)

    def queueings(self, state):
        """Each `queue` that may be made, with the state behind it."""
        for item, workqueue in self.workqueue_of.items():
            pending, contexts = state[workqueue]
            if item not in pending:
                behind = replaced(state, workqueue, pending + (item,), contexts)
                yield (b"queue", None, item), behind

    def cancellations(self, state):
        """Each `cancel` that may be made, with the state behind it."""
        for item, workqueue in self.workqueue_of.items():
            pending, _ = state[workqueue]
            if item in pending:
                left = tuple(other for other in pending if other != item)
                behind = without(state, item, self.unfinished(state, item))
                yield (b"cancel", None, item), replaced(behind, workqueue, left, behind[workqueue][1])

    def starts(self, state, workqueue, context, items):
        """The starts of these pending items in a context."""
        pending, contexts = state[workqueue]
        for item in items:
            left = tuple(other for other in pending if other != item)
            running = with_context(contexts, context, (item, 0, None, ()))
            yield named(b"start", workqueue, item, context), replaced(state, workqueue, left, running)

    def helper_starts(self, state):
        """Each `start` of a helper that may be made, with the state behind it."""
        for workqueue, (pending, contexts) in enumerate(state):
            able = [item for item in pending if not runs(contexts, item)]
            for context in range(1, len(contexts)):
                if contexts[context] is None:
                    yield from self.starts(state, workqueue, context, able)

    def executions(self, state):
        """Each other step of the workqueues that may be made, with the state behind it."""
        for workqueue, (pending, contexts) in enumerate(state):
            if contexts[0] is None and pending:
                able = (item for item in pending if not runs(contexts, item))
                yield from self.starts(state, workqueue, 0, itertools.islice(able, 1))
            for context, running in enumerate(contexts):
                if running is not None:
                    yield from self.steps_of(state, workqueue, context)

    def steps_of(self, state, workqueue, context):
        """Each step of what runs in this context."""
        pending, contexts = state[workqueue]
        item, made, wait, entries = contexts[context]

        def with_running(running):
            return replaced(state, workqueue, pending, with_context(contexts, context, running))

        if wait is not None:
            word, target = wait
            if not entries:
                over = b"over" if word == b"wait" else b"overwq"
                yield named(over, workqueue, target, context), with_running((item, made, None, ()))
            return
        yield named(b"finish", workqueue, item, context), without(with_running(None), item, 1)
        if made < len(self.waits[item]):
            for other in set(self.waits[item]):
                word, target = other
                waiting = item, made + 1, other, self.waited_for(state, other)
                yield named(word, workqueue, target, context), with_running(waiting)

    def all_steps(self, state):
        return [*self.executions(state), *self.helper_starts(state), *self.queueings(state), *self.cancellations(state)]


def named(word, workqueue, name, context):
    """A step of a context."""
    return (word, workqueue, name) if context == 0 else (word, workqueue, name, context)


# Searches ----------------------------------------------------------------------------------------


def numbered(waits, workqueue_of, ordered):
    """The workqueue of each item, whether that is ordered, and the waits, where items and workqueues are numbers in
    place of names; and by the number of each workqueue its number there.

    Of all orders of the items it is the one that makes these the least. So it is the same for all assignments that differ in names,
    in the order of the items and in the numbers of the workqueues alone: their runs are the same but for these.
    """

    def in_order(items):
        number = {item: at for at, item in enumerate(items)}
        workqueues = {}  # their numbers, in the order of their first items
        return tuple((workqueues.setdefault(workqueue_of[item], len(workqueues)), workqueue_of[item] in ordered,
                      tuple((word, number[target]) for word, target in waits[item])) for item in items), workqueues

    return min(map(in_order, itertools.permutations(waits)), key=lambda found: found[0])


def steps_of_rows(rows, helpers):
    """The steps of items as `numbered` answers them, and how many workqueues there are."""
    waits = {item: waits for item, (_, _, waits) in enumerate(rows)}
    workqueue_of = {item: workqueue for item, (workqueue, _, _) in enumerate(rows)}
    ordered = {workqueue for workqueue, is_ordered, _ in rows if is_ordered}
    return Steps(waits, workqueue_of, ordered, helpers), 1 + max(workqueue_of.values(), default=-1)


# Which workqueues have no rescuer matters for no step, but for where a run ends stuck. So one search finds for several
# sets of such workqueues whether some run ends stuck.


@functools.cache
def ends(rows, sets, by_length):
    """For which of these sets some run without helpers ends stuck, each with the fewest steps of one, and for which some run deadlocks."""
    steps, count = steps_of_rows(rows, 0)
    return stuck_runs(steps, count, sets, by_length), sets_of_deadlocks(steps, count, sets)


@functools.cache
def ends_with(rows, sets, helpers, by_length):
    """For which of these sets some run with so many helpers ends stuck, each with the fewest steps of one."""
    return stuck_runs(*steps_of_rows(rows, helpers), sets, by_length)


def is_stuck(state, executions, bare):
    """Whether a run that ends in this state, in which these steps may be made, ends stuck.

    The workqueues in `bare` have no rescuer.
    """
    unfinished = {number for number, (pending, contexts) in enumerate(state) if pending or any(contexts)}
    return not unfinished <= bare and all(step[0] == b"start" and step[1] in bare for step, _ in executions)


def stuck_runs(steps, count, sets, by_length):
    """For which of these sets some run ends stuck: by set, how few steps such a run has, if the states are gone through by length, which
    takes longer; else 0. Items are queued and cancelled at any time, however often.
    """
    first = steps.begin(count)
    seen = {first}
    left = [first]
    others = set(sets)
    found = {}
    length = 0
    while left and others:
        level, left = (left, []) if by_length else ([left.pop()], left)
        for state in level:
            executions = list(steps.executions(state))
            found |= {bare: length for bare in others if is_stuck(state, executions, bare)}
            others -= found.keys()
            new = {behind for _, behind in executions}
            new.update(behind for _, behind in steps.helper_starts(state))
            new.update(behind for _, behind in steps.queueings(state))
            new.update(behind for _, behind in steps.cancellations(state))
            new = set(map(in_one_order, new)) if steps.helpers > 1 else new
            new -= seen
            seen |= new
            left += new
            if not others:
                break
        length += 1 if by_length else 0
    return found


def is_as_declared(steps, state, step):
    """Whether a run in which each execution flushes as declared makes this step."""
    word, workqueue, name = step
    if word not in (b"wait", b"waitwq", b"finish"):
        return True
    item, made, _, _ = state[workqueue][1][0]
    waits = steps.waits[item]
    if word == b"finish":
        return made == len(waits)
    return (word, name) == waits[made]


def sets_of_deadlocks(steps, count, sets):
    """For which of these sets some run deadlocks: each item is queued once, and none is cancelled."""
    first = steps.begin(count), frozenset(steps.waits)
    seen = {first}
    left = [first]
    others = set(sets)
    while left and others:
        state, not_queued = left.pop()
        executions = list(steps.executions(state))
        if not not_queued:
            others -= {bare for bare in others if is_stuck(state, executions, bare)}
        new = {(behind, not_queued) for step, behind in executions
               if is_as_declared(steps, state, step)}
        new |= {(behind, not_queued - {step[2]}) for step, behind in steps.queueings(state)
                if step[2] in not_queued}
        new -= seen
        seen |= new
        left += new
    return sets - others


def is_deadlock(steps, count, bare, run):
    """Whether this run deadlocks: whether it is one of those that sets_of_deadlocks looks for."""
    state = steps.begin(count)
    for step in run:
        behind = dict(steps.all_steps(state))
        if step not in behind or not is_as_declared(steps, state, step):
            return False
        state = behind[step]
    queued = [name for word, _, name in run if word == b"queue"]
    once = sorted(queued) == sorted(steps.waits) and all(word != b"cancel" for word, _, _ in run)
    return once and is_stuck(state, list(steps.executions(state)), bare)


def is_hang(all_steps, count, bare, run):
    """Whether this is a run that ends stuck, where these workqueues have no rescuer, by each of these tables of the steps, which differ
    in the helpers alone.
    """
    for steps in all_steps:
        state = steps.begin(count)
        for step in run:
            behind = dict(steps.all_steps(state))
            if step not in behind or step[0] == b"start" and step[1] in bare:
                return False
            state = behind[step]
        if not is_stuck(state, list(steps.executions(state)), bare):
            return False
    return True


# Declarations and assignments --------------------------------------------------------------------


def make_declaration(choose):
    """The bytes of a small declaration."""
    count, flush_count = choose.choice(SIZES)
    names = [b"a", b"b", b"c", b"d"][:count]
    lines = [b"item " + name for name in names]
    choose.shuffle(lines)

    left = choose.sample(names, choose.choice([0, 0, 0, count, choose.randint(0, count)]))
    while left:
        size = choose.randint(1, len(left))
        lines.append(b"ordered " + b" ".join(left[:size]))
        del left[:size]

    downward = choose.random() < 0.7
    whole = choose.choice([0, 0.5, 0.5, 1])
    for _ in range(flush_count):
        item, target = choose.choice(names), choose.choice(names)
        if downward and count > 1:
            item, target = sorted(choose.sample(names, 2))
        directive = b"flushwq" if choose.random() < whole else b"flush"
        lines.append(b"%s %s %s" % (directive, item, target))
    return join(*lines)


def partitions(count):
    """Each partition of so many groups: by group, the number of its part.

    The parts are numbered in the order of their first groups.
    """
    if count == 0:
        yield []
        return
    for parts in partitions(count - 1):
        for part in range(max(parts, default=-1) + 2):
            yield parts + [part]


def all_sets(count):
    """All sets of so many workqueues: those that may have no rescuer."""
    return [frozenset(found) for size in range(count + 1) for found in itertools.combinations(range(count), size)]


def assignment_text(declared, parts, bare):
    """The text of the assignment by which each group is on the workqueue of its part."""
    lines = [(b"norescuer %d" if number in bare else b"wq %d") % number for number in range(max(parts, default=-1) + 1)]
    for members, part in zip(declared.groups, parts):
        lines[part] += b"".join(b" " + name for name in members)
    return join(*lines)


# The comparison ----------------------------------------------------------------------------------


def printed_run_deadlocks(declared, steps, count, bare, printed):
    try:
        return is_deadlock(steps, count, bare, read_run(printed, declared))
    except Refused:
        return False


def printed_run_hangs(declared, all_steps, count, bare, fewest, printed):
    try:
        run = read_run(printed, declared)
    except Refused:
        return False
    return len(run) == fewest and is_hang(all_steps, count, bare, run)


def is_helped(declared):
    """Whether the runs with helpers are gone through, too."""
    return len(declared.items) <= HELPED_ITEMS and len(declared.flushes) <= HELPED_FLUSHES


def look_at_assignment(ask, turn, text, declared, parts, sets, by_length):
    """Of each set of workqueues without a rescuer whether no run ends stuck, and what is wrong with the answers of `deadlock` and `hang`,
    or None. `hang` is asked for if `by_length`; whenever it is the turn of 0, not the model alone.
    """
    count = max(parts, default=-1) + 1
    workqueue_of = {name: parts[group] for name, group in declared.group_of.items()}
    waits = waits_of(declared)
    ordered = {workqueue_of[group[0]] for group in declared.groups if len(group) > 1}
    steps = Steps(waits, workqueue_of)
    rows, numbers = numbered(waits, workqueue_of, ordered)
    set_of = {bare: frozenset(numbers[number] for number in bare) for bare in sets}
    all_of = frozenset(set_of.values())
    all_stuck, all_deadlocks = ends(rows, all_of, by_length)
    with_helpers = [Steps(waits, workqueue_of, ordered, helpers) for helpers in (0, *HELPERS)]
    for bare in sets:
        fewest = all_stuck.get(set_of[bare])
        stuck, deadlocks = fewest is not None, set_of[bare] in all_deadlocks
        assignment = assignment_text(declared, parts, bare)
        printed, status = ask("deadlock", [text, assignment])
        is_safe = (printed, status) == (b"safe\n", 0)
        is_run = status == 1 and printed_run_deadlocks(declared, steps, count, bare, printed)
        difference = None
        if is_safe != (not stuck) or is_run != deadlocks:
            difference = (f"deadlock, {assignment!r}: some run ends stuck: {stuck}, some run deadlocks: "
                          f"{deadlocks}, the answer: {printed!r}, status {status}")
        elif is_helped(declared):
            for helpers in HELPERS:
                helped = ends_with(rows, all_of, helpers, by_length).get(set_of[bare])
                if helped != fewest:
                    difference = f"{assignment!r}: the fewest steps that end stuck: {fewest}; with {helpers} helpers: {helped}"
        whoms = (ask_model, ask) if by_length and next(turn) == 0 else (ask_model,) if by_length else ()
        for whom in whoms:
            printed, status = whom("hang", [text, assignment])
            right = status == 1 and printed_run_hangs(declared, with_helpers, count, bare, fewest, printed)
            if not (right if stuck else (printed, status) == (b"safe\n", 0)):
                difference = f"hang, {assignment!r}: the fewest steps that end stuck: {fewest}, the answer: {printed!r}, status {status}"
        yield not stuck, difference


def look_at_declaration(ask, turn, text, without, by_length):
    """How many assignments were looked at, and how many of them with helpers, too; and what is wrong with the answers.

    If `without`, each assignment is looked at with each set of workqueues without a rescuer.
    """
    declared = read_declaration(text)
    wrong = []
    counts = []
    looked = 0
    for parts in partitions(len(declared.groups)):
        count = max(parts, default=-1) + 1
        sets = all_sets(count) if without else [frozenset()]
        for bare, (is_safe, difference) in zip(sets, look_at_assignment(ask, turn, text, declared, parts, sets, by_length)):
            looked += 1
            if is_safe and not bare:
                counts.append(count)
            if difference:
                wrong.append(difference)
    printed, status = ask("plan", [text])
    head = b"plan %d\n" % min(counts) if counts else b"circle "
    if not printed.startswith(head) or status != (0 if counts else 1):
        wrong.append(f"plan: {head!r} is wanted, the answer: {printed!r}, status {status}")
    return looked, looked if is_helped(declared) else 0, wrong


def ask_model(command, texts):
    return ANSWERS[command](*texts)


@pytest.fixture
def ask(program, tmp_path):
    """ask(command, texts): the program's answer."""

    def answer(command, texts):
        with programs.files(tmp_path, dict(zip("dar", texts))) as places:
            return programs.ask([program, command, *places])[:2]

    return answer


# Of each test how many declarations there are, from which number on, and whether each assignment is looked at with each set of workqueues
# without a rescuer, and the states are gone through by length.
PROGRAM = [(0, 40, True, True), (40, 60, False, True), *((first, 100, False, False) for first in range(100, 600, 100))]
MODEL = [(0, 5, True, True), (5, 20, False, True), (25, 25, False, False)]
WALKS = 250


@pytest.mark.parametrize("first, count, without, by_length", PROGRAM)
def test_program_by_search(ask, request, first, count, without, by_length):
    turn = itertools.cycle(range(ONE_OF))
    search(ask, turn, f"{request.config.getoption('--seed')} search", range(first, first + count), without, by_length)


@pytest.mark.parametrize("first, count, without, by_length", MODEL)
def test_model_by_search(request, first, count, without, by_length):
    search(ask_model, itertools.repeat(1), f"{request.config.getoption('--seed')} model", range(first, first + count), without, by_length)


def search(ask, turn, seed, numbers, without, by_length):
    """Fails where an answer is wrong, of a declaration with as few lines as fail."""

    def wrong_of(text):
        try:
            _, _, wrong = look_at_declaration(ask, turn, text, without, by_length)
        except Refused:
            return []
        return wrong

    for number in numbers:
        text = make_declaration(random.Random(f"{seed} {number}"))
        if wrong_of(text):
            from smallest import smallest  # (which loads Hypothesis)

            small, = smallest([text], lambda some: wrong_of(*some))
            pytest.fail("\n".join([small.decode(), *wrong_of(small)]), pytrace=False)


def test_both_machines_allow_the_same_steps(request):
    for number in range(WALKS):
        look_at_walk(random.Random(f"{request.config.getoption('--seed')} walk {number}"))


def look_at_walk(choose):
    """The states here allow the same steps as those of the model, on a random way."""
    declared = read_declaration(make_declaration(choose))
    parts = choose.choice(list(partitions(len(declared.groups))))
    count = max(parts, default=-1) + 1
    workqueue_of = {name: parts[group] for name, group in declared.group_of.items()}
    helpers = choose.choice([0, 0, 1, 2, 8])
    ordered = {workqueue_of[group[0]] for group in declared.groups if len(group) > 1}
    bare = frozenset(number for number in range(count) if choose.random() < 0.3)
    state = State(declared, certificate.Assignment(workqueue_of, count, bare), helpers)
    steps = Steps(waits_of(declared), workqueue_of, ordered, helpers)
    found = steps.begin(count)
    all_steps = [(word, None, name) for word in (b"queue", b"cancel") for name in declared.items]
    all_steps += [named(word, number, name, context) for word in EXECUTIONS
                  for number in range(count) for name in declared.items for context in range(helpers + 2)]
    for _ in range(60):
        behind = dict(steps.all_steps(found))
        may = [step for step in all_steps if state.may(step[:3], *step[3:])]
        demand(sorted(map(repr, may)) == sorted(map(repr, behind)), "both allow the same steps")
        demand(state.is_stuck() == is_stuck(found, list(steps.executions(found)), bare), "both are stuck")
        starts = {named(*step, helper) for step, helper in state.helper_starts()}
        demand(starts == {step for step, _ in steps.helper_starts(found)}, "both have the same starts of helpers")
        step = choose.choice(may)
        state.make(step[:3], *step[3:])
        found = behind[step]
