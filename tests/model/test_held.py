"""Who is held up, by all runs of small declarations: `hang` with NAMEs answers as few steps as a run has that ends stuck for them.

Of random small declarations, each under a random assignment in which some workqueues have no rescuer, all states are gone through that
steps lead to, by the rules of docs/FORMAT.md, "Steps", by the number of steps that lead to them: by the machine of test_search.py, without
any notion of a walk, a circle or a way. The first state in which an entry of an item is unfinished, and no step may be made but those
that nobody is sure to make, says how many steps hold this item up. Where there are more states than MOST, all is looked at that was
found by then: an item that `hang` says is held up in that many steps isn't in fewer, and one that was found isn't safe.

So it is with one helper and with two, of declarations that are smaller, and of each reading of such as have unsure lines. The laws of
"What must go on" are put to the model, of larger declarations.
"""

import random

import certificate
import circles
import pytest
from declaration import read_declaration
from hang import least_cost, wrong_with
from held import cost_of_held, least_held
from make_declarations import join
from models import ANSWERS
from readings import reading, readings
from test_laws import demand
from test_search import Steps, in_one_order, waits_of
from walks import UNSURE

MOST = 25_000
DECLARATIONS = 60
LAWS = 1_500


# All runs ----------------------------------------------------------------------------------------


def is_held(steps, state, bare, item, executions):
    """Whether a run that ends in this state, in which these steps may be made, ends stuck for the item."""
    return steps.unfinished(state, item) > 0 and all(step[0] == b"start" and step[1] in bare for step, _ in executions)


def fewest_steps(steps, count, bare, most=MOST):
    """By item how few steps a run has that ends stuck for it; and to which number of steps all runs were gone through, or None where
    these are all that there are.
    """
    first = steps.begin(count)
    seen, left, found = {first}, [first], {}
    length = 0
    while left:
        if len(seen) > most:
            return found, length - 1
        level, left = left, []
        for state in level:
            executions = list(steps.executions(state))
            for item in steps.waits:
                if item not in found and is_held(steps, state, bare, item, executions):
                    found[item] = length
            new = {behind for _, behind in [*executions, *steps.helper_starts(state), *steps.queueings(state), *steps.cancellations(state)]}
            new = set(map(in_one_order, new)) if steps.helpers > 1 else new
            new -= seen
            seen |= new
            left += new
        length += 1
        if len(found) == len(steps.waits):
            return found, length
    return found, None


# Declarations and assignments --------------------------------------------------------------------


def make_case(choose, items, flushes, unsure=0):
    """The bytes of a small declaration, and of an assignment of it."""
    names = [b"a", b"b", b"c", b"d", b"e", b"f", b"g", b"h"][:items]
    lines = [b"item " + name for name in names]
    groups = [[name] for name in names]
    if items > 1 and choose.random() < 0.2:
        pair = choose.sample(names, 2)
        lines.append(b"ordered " + b" ".join(pair))
        groups = [pair, *([name] for name in names if name not in pair)]
    for at in range(flushes):
        directive = choose.choice([b"flush", b"flush", b"flushwq"]) + (b"?" if at < unsure else b"")
        lines.append(b"%s %s %s" % (directive, choose.choice(names), choose.choice(names)))
    count = choose.randint(1, len(groups))
    at = [choose.randrange(count) for _ in groups]
    words = [b"norescuer" if choose.random() < 0.2 else b"wq" for _ in range(count)]
    on = [b"".join(b" " + name for group, number in zip(groups, at) if number == workqueue for name in group) for workqueue in range(count)]
    return join(*lines), join(*(b"%s %d%s" % (word, number, names) for number, (word, names) in enumerate(zip(words, on))))


def steps_of(declared, assignment, helpers):
    ordered = {assignment.workqueue_of[group[0]] for group in declared.groups if len(group) > 1}
    return Steps(waits_of(declared), assignment.workqueue_of, ordered, helpers)


def steps_held(declared, assignment, name):
    """How many steps the model says hold the item up, or None."""
    walk = least_held(declared, assignment, [name])
    return None if walk is None else cost_of_held(declared, assignment, walk)


def wrong_by_all_runs(declared, assignment, helpers, most=MOST):
    """What is wrong with the model's answers, or None."""
    found, through = fewest_steps(steps_of(declared, assignment, helpers), assignment.count, assignment.bare, most)
    for name in declared.items:
        wanted, answer = found.get(name), steps_held(declared, assignment, name)
        if wanted != answer and (wanted is not None or through is None or answer is not None and answer <= through):
            return f"{name} with {helpers} helpers: by all runs {wanted}, the model's {answer}"
    return None


@pytest.mark.parametrize("part", range(8))
def test_all_runs(request, part):
    seed = request.config.getoption("--seed")
    for number in range(part * DECLARATIONS // 8, (part + 1) * DECLARATIONS // 8):
        choose = random.Random(f"{seed} held {number}")
        items = choose.choice([1, 2, 2, 3, 3, 3, 4, 4])
        text, assigned = make_case(choose, items, choose.randint(0, items + 2))
        declared = read_declaration(text)
        assignment = certificate.read_assignment(assigned, declared)
        for helpers in (0, 1, 2) if items < 3 else (0, choose.choice([1, 2])):
            wrong = wrong_by_all_runs(declared, assignment, helpers)
            demand(wrong is None, f"{text.decode()}{assigned.decode()}{wrong}")


def test_all_readings(request):
    """The fewest unsure lines of a reading that holds an item up, and of those the fewest steps."""
    seed = request.config.getoption("--seed")
    for number in range(DECLARATIONS // 2):
        choose = random.Random(f"{seed} held unsure {number}")
        items = choose.choice([2, 3, 3])
        text, assigned = make_case(choose, items, items + 1, choose.randint(1, 3))
        declared = read_declaration(text)
        assignment = certificate.read_assignment(assigned, declared)
        least, deepest = {}, {}
        for kept in readings(declared):
            found, through = fewest_steps(steps_of(reading(declared, kept), assignment, 0), assignment.count, assignment.bare)
            for name in declared.items:
                if name in found:
                    least[name] = min(least.get(name, (99, 0)), (len(kept), found[name]))
                elif through is not None:
                    deepest[name] = min(deepest.get(name, 99), through)
        for name in declared.items:
            walk = least_held(declared, assignment, [name])
            answer = None if walk is None else divmod(cost_of_held(declared, assignment, walk), UNSURE)
            is_deep = name in deepest and (answer is None or answer[1] > deepest[name])
            demand(answer == least.get(name) or is_deep, f"{text.decode()}{assigned.decode()}{name}: {least.get(name)}, the model's {answer}")


# Laws --------------------------------------------------------------------------------------------


def cases_of(request, what):
    seed = request.config.getoption("--seed")
    for number in range(request.config.getoption("--cases") or LAWS):
        choose = random.Random(f"{seed} {what} {number}")
        items = choose.randint(1, 8)
        text, assigned = make_case(choose, items, choose.randint(0, 2 * items), choose.choice([0, 0, 1, 3]))
        declared = read_declaration(text)
        yield choose, text, assigned, declared, certificate.read_assignment(assigned, declared)


def cost(declared, assignment, names):
    walk = least_held(declared, assignment, names)
    return None if walk is None else cost_of_held(declared, assignment, walk)


def no_less(one, other):
    """Whether what costs as much as `one` costs no less than `other`, where nothing costs as None."""
    return one is None or other is not None and one >= other


def test_all_with_a_rescuer_are_as_none(request):
    for _, text, assigned, declared, assignment in cases_of(request, "all"):
        names = [name for name in declared.items if assignment.workqueue_of[name] not in assignment.bare]
        if names:
            plain = ANSWERS["hang"](text, assigned)
            least = least_cost(declared, assignment, []) if plain[1] else None
            demand(cost(declared, assignment, names) == least, f"{text.decode()}{assigned.decode()}")


def test_several_are_as_the_best_of_them(request):
    for choose, text, assigned, declared, assignment in cases_of(request, "several"):
        names = choose.sample(declared.items, choose.randint(1, len(declared.items)))
        all_costs = [found for found in (cost(declared, assignment, [name]) for name in names) if found is not None]
        demand(cost(declared, assignment, names) == min(all_costs, default=None), f"{text.decode()}{assigned.decode()}{names}")
        demand(ANSWERS["hang"](text, assigned, *names) == ANSWERS["hang"](text, assigned, *reversed(names), names[0]), "order and number")


def test_each_run_is_one_of_those_that_may_be_printed(request):
    for choose, text, assigned, declared, assignment in cases_of(request, "form"):
        names = choose.sample(declared.items, choose.randint(1, len(declared.items)))
        printed, status = ANSWERS["hang"](text, assigned, *names)
        if status == 1:
            wrong = wrong_with(declared, assignment, least_cost(declared, assignment, names), printed, names)
            demand(wrong is None, f"{text.decode()}{assigned.decode()}{names}{printed.decode()}{wrong}")
            demand(ANSWERS["replay"](text, assigned, printed, *names)[1] == 1, "replay")


def test_neighbours_are_held_up_alike(request):
    for _, text, assigned, declared, assignment in cases_of(request, "one"):
        by_workqueue = {}
        for name in declared.items:
            by_workqueue.setdefault(assignment.workqueue_of[name], []).append(cost(declared, assignment, [name]))
        for workqueue, costs in by_workqueue.items():
            if workqueue not in assignment.bare:
                alike = all(found is None for found in costs) or None not in costs and max(costs) - min(costs) <= 1
                demand(alike, f"{text.decode()}{assigned.decode()}{workqueue} {costs}")


def test_no_rescuer_less_makes_it_safe(request):
    for choose, text, assigned, declared, assignment in cases_of(request, "bare"):
        fewer = certificate.Assignment(assignment.workqueue_of, assignment.count, assignment.bare | {choose.randrange(assignment.count)})
        for name in declared.items:
            if least_held(declared, assignment, [name]) is not None:
                demand(least_held(declared, fewer, [name]) is not None, f"{text.decode()}{assigned.decode()}{name} {fewer.bare}")


def test_circles_says_safe_where_hang_does(request):
    for choose, text, assigned, declared, assignment in cases_of(request, "circles"):
        names = choose.sample(declared.items, choose.randint(1, len(declared.items)))
        printed, _ = ANSWERS["circles"](text, assigned, *names)
        demand((printed == b"safe\n") == (ANSWERS["hang"](text, assigned, *names) == (b"safe\n", 0)), f"{text.decode()}{assigned.decode()}{names}")


def test_what_isnt_printed_makes_no_difference(request):
    """A flush that `circles` doesn't print may be left out; and one of a walk is printed, on a way, on a circle, or to no rescuer."""
    for choose, text, assigned, declared, assignment in cases_of(request, "without"):
        name = choose.choice(declared.items)
        arcs, to_none, ways = circles.held_up(declared, assignment, [name])
        printed = {place for places in [*arcs, to_none, ways] for place in places}
        kept = [line for line in text.splitlines() if not line.startswith(b"flush")]
        kept += [declared.flush_line(place) for place in sorted(printed)]
        left = read_declaration(join(*kept))
        demand(cost(left, assignment, [name]) == cost(declared, assignment, [name]), f"{text.decode()}{assigned.decode()}{name}")
        walk = least_held(declared, assignment, [name])
        demand(walk is None or set(walk.places) <= printed, f"{text.decode()}{assigned.decode()}{name} {walk}")


def test_who_waits_for_one_held_up_is_held_up(request):
    for _, text, assigned, declared, assignment in cases_of(request, "wait"):
        for item, target in declared.flushes:
            if assignment.workqueue_of[item] not in assignment.bare:
                more, less = cost(declared, assignment, [item]), cost(declared, assignment, [target])
                demand(less is None or more is not None and more % UNSURE <= more, f"{text.decode()}{assigned.decode()}{item} {target}")
                if less is not None and not declared.unsure():
                    demand(more <= less + 3, f"{text.decode()}{assigned.decode()}{item} {target}: {more} {less}")
