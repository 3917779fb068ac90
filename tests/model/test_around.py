"""All assignments that keep FIXED, of small declarations: what the model plans around FIXED is what is found.

Of random small declarations, each with a random FIXED, all assignments that keep FIXED are looked at, up to the numbers of new
workqueues, and of each all states that steps lead to (test_search.py), without any notion of a chain or a circle. `plan` must have as
many new workqueues as the smallest by which no run ends stuck, and a circle or a norescuer text where there is none; and by each that has
fewer, and there by each, some run deadlocks.

Larger random cases are asked for laws: what `plan` prints is right by `check`, `deadlock` and `replay`.

    python3 -m pytest tests/model/test_around.py --seed 9 --cases 2000
"""

import collections

import around
import check
import deadlock
import make_around
import plan
import pytest
import replay
from certificate import Assignment
from declaration import read_declaration
from make_declarations import join
from test_laws import demand
from test_search import ends, numbered, partitions, waits_of

CASES = 300


def number_of_cases(request):
    return request.config.getoption("--cases") or CASES


# All assignments ---------------------------------------------------------------------------------


def verdict(declared, assignment):
    """Whether some run ends stuck, and whether some deadlocks, by all states."""
    ordered = {assignment.workqueue_of[members[0]] for members in declared.groups if len(members) > 1}
    rows, number = numbered(waits_of(declared), assignment.workqueue_of, ordered)
    bare = frozenset(number[workqueue] for workqueue in assignment.bare if workqueue in number)
    stuck, deadlocks = ends(rows, frozenset([bare]), False)
    return bare in stuck, bare in deadlocks


def keeping(declared, fixed):
    """All assignments that keep FIXED, however the new workqueues are numbered, with no empty one among these."""
    free = around.free_groups(declared, fixed)
    for parts in partitions(len(free)):
        workqueue_of = dict(fixed.workqueue_of)
        for group, part in zip(free, parts):
            workqueue_of.update((name, fixed.count + part) for name in declared.groups[group])
        count = max(parts, default=-1) + 1
        yield count, Assignment(workqueue_of, fixed.count + count, fixed.bare)


def look_at_all(text, fixed_text):
    """The kind of the answer."""
    declared = read_declaration(text)
    fixed = around.read_fixed(fixed_text, declared)
    printed, status = plan.answer(text, fixed_text)
    word, number = printed.split()[:2]
    found = [(count, *verdict(declared, assignment)) for count, assignment in keeping(declared, fixed)]
    fewest = min((count for count, is_stuck, _ in found if not is_stuck), default=None)
    if status == 1:
        demand(fewest is None, "a circle or a norescuer text is printed where each assignment hangs")
    else:
        demand(fewest == int(number), "as many new workqueues as the fewest of a safe assignment")
        planned = deadlock.certificate.read_assignment(fixed_text + wq_lines(printed), declared)
        demand(verdict(declared, planned) == (False, False), "no run of the plan ends stuck")
    demand(all(deadlocks for count, _, deadlocks in found if fewest is None or count < fewest), "each with fewer deadlocks")
    return b"plan 0" if printed.startswith(b"plan 0\n") else word


def test_all_assignments(request):
    kinds = collections.Counter()
    seed = request.config.getoption("--seed")
    for number in range(number_of_cases(request)):
        text, fixed_text = make_around.random_around_case(f"{seed} all", number, 4, 4)
        try:
            kinds[look_at_all(text, fixed_text)] += 1
        except AssertionError as law:
            pytest.fail(f"{law}\n{text.decode()}---\n{fixed_text.decode()}---\n{plan.answer(text, fixed_text)[0].decode()}", pytrace=False)
    print(dict(kinds))
    assert set(kinds) == {b"plan", b"plan 0", b"circle", b"norescuer"}, "some kind of answer never came"


# Laws --------------------------------------------------------------------------------------------


def wq_lines(printed):
    return b"".join(line for line in printed.splitlines(keepends=True) if line.startswith(b"wq "))


def text_of(declared, assignment):
    """The text of an assignment."""
    names = [[] for _ in range(assignment.count)]
    for name in declared.items:
        names[assignment.workqueue_of[name]].append(name)
    return make_around.fixed_text(names, assignment.bare)


def look_at_laws(text, fixed_text):
    declared = read_declaration(text)
    fixed = around.read_fixed(fixed_text, declared)
    start = around.start_of(declared, fixed)
    printed, status = plan.answer(text, fixed_text)
    lines = printed.splitlines()
    head = lines[0].split()
    yes = {b"plan": b"yes %s\n" % head[1], b"circle": b"yes circle %s\n" % head[1], b"norescuer": b"yes norescuer\n"}[head[0]]
    demand(check.answer(text, printed, fixed_text) == (yes, 0), "what plan answers is right")
    if status == 0:
        whole = fixed_text + wq_lines(printed)
        demand(deadlock.answer(text, whole) == (b"safe\n", 0), "FIXED and the new lines are safe")
        none_left, _ = plan.answer(text, whole)
        demand(none_left.startswith(b"plan 0\n"), "with the new lines in FIXED nothing is left to plan")
        count = sum(line.startswith(b"arc ") for line in lines)
        demand(lines[-1 - count].split() == [b"chain", b"%d" % (count + 1 if head[1] != b"0" else 0)], "N counts the workqueues on the chain")
        look_at_fewer(text, fixed_text, int(head[1]))
    else:
        at = printed.index(b"\nrun ") + 1
        demand(check.answer(text, printed[:at], fixed_text) == (yes, 0), "so it is without its run")
        demand(replay.answer(text, text_of(declared, start), printed[at:]) == (b"deadlock\n", 1), "its run deadlocks in the start")
    look_at_none(text, declared)
    return head[0]


def look_at_fewer(text, fixed_text, count):
    """Taking a line out of FIXED, with its items, takes no workqueue away from what is needed, and adds at most its groups."""
    lines = fixed_text.splitlines()
    word, number, *names = lines[-1].split()
    groups = {read_declaration(text).group_of[name] for name in names}
    printed, status = plan.answer(text, join(*lines[:-1]))
    if word == b"wq":
        demand(status == 0, "without its last workqueue there is a plan, too")
        demand(int(printed.split()[1]) <= count + len(groups), "and it has at most its groups more")


def look_at_none(text, declared):
    """Planning around nothing is planning, but for the `order` line, whose numbers rise."""
    lines, status = around.planned_text(declared, Assignment({}, 0))
    wanted, _ = plan.planned_text(declared)
    if status == 0:
        order = lines.pop(1 + int(lines[0].split()[1]))
        demand(order == b" ".join([b"order", *(b"%d" % number for number in range(int(lines[0].split()[1])))]), "the order is by numbers")
    demand(lines == wanted, "planning around nothing is planning")
    printed = plan.answer(text)
    demand(plan.answer(text, b"# none\n") == printed, "an empty FIXED is none")
    demand(check.answer(text, printed[0], b"") == check.answer(text, printed[0]), "for check, too")


def test_laws(request):
    kinds = collections.Counter()
    seed = request.config.getoption("--seed")
    for number in range(number_of_cases(request)):
        text, fixed_text = make_around.random_around_case(f"{seed} laws", number)
        try:
            kinds[look_at_laws(text, fixed_text)] += 1
        except AssertionError as law:
            pytest.fail(f"{law}\n{text.decode()}---\n{fixed_text.decode()}---\n{plan.answer(text, fixed_text)[0].decode()}", pytrace=False)
    print(dict(kinds))
    assert set(kinds) == {b"plan", b"circle", b"norescuer"}, "some kind of answer never came"


# Answers of check --------------------------------------------------------------------------------


def test_each_answer_comes(request):
    """Of texts with mistakes each refusal and each reason comes."""
    found = collections.Counter()
    seed = request.config.getoption("--seed")
    for number in range(5 * number_of_cases(request)):
        printed, _ = check.answer(*make_around.random_check_case(seed, number))
        words = printed.split()
        found[b" ".join(words[:2]) if words[0] != b"yes" or not words[1].isdigit() else b"yes"] += 1
        found[b"plan " + b" ".join(plan.answer(*make_around.random_plan_case(seed, number))[0].split()[:2])] += 1
    print(dict(found))
    wanted = {b"yes", b"yes circle", b"yes norescuer", b"no 50", b"no 51", b"no 52", b"no 53", b"no 54", b"no 55"}
    wanted |= {b"refused %d" % code for code in (40, 41, 42, 43)} | {b"plan refused %d" % code for code in (40, 41, 42, 43)}
    assert not wanted - set(found), wanted - set(found)
