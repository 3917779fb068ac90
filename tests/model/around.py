"""A model of `wqplan plan DECL FIXED` and `wqplan check DECL CERT FIXED`, where FIXED has a workqueue.

It plans what is new around workqueues that stay as they are, as docs/FORMAT.md asks for in "Planning around workqueues". plan.py and
check.py are the model of the two commands, and take FIXED here; see plan.py for what the model is.
"""

import dataclasses
import sys

sys.dont_write_bytecode = True
import certificate  # noqa: E402  (beside this file)
from certificate import BAD_CERT_LINE, GROUP_SPLIT, HAS_RESCUER, NOT_ALL_ITEMS, NUMBER_OUT_OF_RANGE  # noqa: E402
from certificate import ARC_LIMIT, WORKQUEUE_LIMIT, Assignment, CircleText, Lines, WqLines, must  # noqa: E402
from chains import chain_lengths  # noqa: E402
from circle import led_to_no_rescuer  # noqa: E402
from deadlock import circle_of, deadlocking_run, run_text  # noqa: E402
from declaration import Refused, read_declaration  # noqa: E402
from steps import end_of_run  # noqa: E402
from walks import among_rescuers  # noqa: E402


# FIXED -------------------------------------------------------------------------------------------


class FixedLines(WqLines):
    """The lines of FIXED."""

    def end(self):
        """Behind the last of these lines. Returns the workqueues of FIXED, with the items that are on them."""
        for members in self.declaration.groups:
            must(len({name in self.workqueue_of for name in members}) == 1, GROUP_SPLIT, 0)
        must(self.count + len(self.declaration.groups) - len(self.groups) <= WORKQUEUE_LIMIT, NUMBER_OUT_OF_RANGE, 0)
        return Assignment(self.workqueue_of, self.count, frozenset(self.bare), self.called)


def read_fixed(text, declared):
    """FIXED. Returns an assignment in which items may be missing."""
    lines = Lines(text)
    if lines.first_word() == b"plan":
        count = certificate.read_head(lines, b"plan", 0, WORKQUEUE_LIMIT)
        wq_lines = FixedLines(declared, [b"wq"])
        for _ in range(count):
            wq_lines.read(lines)
        fixed = wq_lines.end()
        chain = certificate.read_head(lines, b"chain", 0, ARC_LIMIT)
        certificate.read_arcs(lines, declared, max(chain - 1, 0))
    else:
        wq_lines = FixedLines(declared, HAS_RESCUER)
        while lines.first_word() in HAS_RESCUER:
            wq_lines.read(lines)
        fixed = wq_lines.end()
    lines.end()
    return fixed


def is_asked(command, texts):
    """Whether a command with these texts, of which none is refused, plans or checks around a workqueue."""
    without = {"plan": 1, "check": 2}.get(command, len(texts))
    return len(texts) > without and read_fixed(texts[-1], read_declaration(texts[0])).count > 0


def is_none(command, texts):
    """Whether one of these texts is FIXED, and has no workqueue: then the answer is as without it."""
    try:
        return len(texts) > {"plan": 1, "check": 2}.get(command, len(texts)) and not is_asked(command, texts)
    except Refused:
        return False


def free_groups(declared, fixed):
    """The numbers of the groups of which FIXED has no item."""
    return [group for group, members in enumerate(declared.groups) if members[0] not in fixed.workqueue_of]


def with_new(declared, fixed, workqueue_of_group, count):
    """FIXED and this many new workqueues, where free groups are on these."""
    workqueue_of = dict(fixed.workqueue_of)
    for group, number in workqueue_of_group.items():
        workqueue_of.update((name, number) for name in declared.groups[group])
    return Assignment(workqueue_of, fixed.count + count, fixed.bare, fixed.called)


def start_of(declared, fixed):
    """The start."""
    free = free_groups(declared, fixed)
    return with_new(declared, fixed, {group: fixed.count + number for number, group in enumerate(free)}, len(free))


def text_of(assignment):
    """The workqueues of an assignment, in which items may be missing, as a text."""
    on = [[] for _ in range(assignment.count)]
    for name, number in assignment.workqueue_of.items():
        on[number].append(name)
    words = [[b"norescuer" if number in assignment.bare else b"wq", b"%d" % number, *names] for number, names in enumerate(on)]
    return b"".join(b" ".join(line) + b"\n" for line in words)


# Plan texts around workqueues --------------------------------------------------------------------


def waiting_workqueues(declared, assignment):
    """For each workqueue the set of those that it waits for, of those with a rescuer."""
    waits_for = [set() for _ in range(assignment.count)]
    for place in among_rescuers(declared, assignment):
        here, there = (assignment.workqueue_of[name] for name in declared.flushes[place])
        waits_for[here].add(there)
    return waits_for


def chain_around(declared, fixed, start, height):
    """The chain: the places of the flushes that it follows."""
    most = max((height[number] for number in range(fixed.count, start.count)), default=0)
    if most == 0:
        return []
    on = [[] for _ in range(start.count)]  # of each workqueue the places of the arcs that a chain may follow there
    for place in among_rescuers(declared, start):
        here, there = (start.workqueue_of[name] for name in declared.flushes[place])
        if height[there] == height[here] - (here >= fixed.count):
            on[here].append(place)

    def end_of(place):
        return start.workqueue_of[declared.flushes[place][1]]

    # With how few unsure flushes a chain leads on from a workqueue. It ends at a new one of height 1.
    fewest = {}

    def with_rest(place):
        return declared.is_unsure(place) + fewest[end_of(place)]

    def is_end(number):
        return number >= fixed.count and height[number] == 1

    for beginning in range(start.count):
        wanted = [beginning] if height[beginning] > 0 else []
        while wanted:
            number = wanted[-1]
            unknown = [] if is_end(number) else [end_of(place) for place in on[number] if end_of(place) not in fewest]
            if unknown:
                wanted += unknown
            else:
                fewest[wanted.pop()] = 0 if is_end(number) else min(map(with_rest, on[number]))
    number = min((number for number in range(fixed.count, start.count) if height[number] == most),
                 key=lambda number: (fewest[number], number))
    followed = []
    while not is_end(number):
        followed.append(min(on[number], key=lambda place: (with_rest(place), place)))
        number = end_of(followed[-1])
    return followed


def plan_around(declared, fixed, start):
    """The assignment that is planned, and the places of the flushes of the chain."""
    height = chain_lengths(waiting_workqueues(declared, start), lambda number: number >= fixed.count)
    free = free_groups(declared, fixed)
    at = {group: fixed.count + height[fixed.count + number] - 1 for number, group in enumerate(free)}
    count = max((number - fixed.count + 1 for number in at.values()), default=0)
    return with_new(declared, fixed, at, count), chain_around(declared, fixed, start, height)


def order_of(declared, assignment):
    """The workqueues with a rescuer in the order that is printed."""
    length = chain_lengths(waiting_workqueues(declared, assignment))
    return sorted((number for number in range(assignment.count) if number not in assignment.bare),
                  key=lambda number: (length[number], number))


def plan_text(declared, fixed, start):
    planned, chain = plan_around(declared, fixed, start)
    count = planned.count - fixed.count
    names = [[] for _ in range(planned.count)]
    for name in declared.items:
        names[planned.workqueue_of[name]].append(name)
    lines = [b"plan %d" % count]
    lines += [b" ".join([b"wq %d" % number, *names[number]]) for number in range(fixed.count, planned.count)]
    lines.append(b" ".join([b"order", *(b"%d" % number for number in order_of(declared, planned))]))
    lines.append(b"chain %d" % (len(chain) + 1 if count else 0))
    return lines + [b"arc %s %s" % declared.flushes[place] for place in chain]


def planned_text(declared, fixed):
    """The lines of the answer of `plan`, and the status."""
    start = start_of(declared, fixed)
    to_none = led_to_no_rescuer(declared, start)
    circle = circle_of(declared, start)
    if to_none:
        lines = [b"norescuer 1", b"arc %s %s" % declared.flushes[to_none[0]]]
    elif circle:
        lines = [b"circle %d" % len(circle), *(b"arc %s %s" % arc for arc in circle)]
    else:
        return plan_text(declared, fixed, start), 0
    return lines + run_text(deadlocking_run(declared, start)), 1


# Certificates around workqueues ------------------------------------------------------------------


@dataclasses.dataclass
class PlanText:
    """A plan text around workqueues."""

    assignment: Assignment  # FIXED, and the new workqueues
    order: list
    chain: int
    arcs: list  # pairs of names


@dataclasses.dataclass
class NoRescuerText:
    """A norescuer text, and the run that stands behind it, or None."""

    arc: tuple
    steps: list


def read_order(lines, count):
    line, words = lines.take()
    must(words[0] == b"order", BAD_CERT_LINE, line)
    order = [certificate.read_number(word, line) for word in words[1:]]
    must(all(number < count for number in order), NUMBER_OUT_OF_RANGE, line)
    return order


def read_plan_text(lines, declared, fixed):
    count = certificate.read_head(lines, b"plan", 0, WORKQUEUE_LIMIT - fixed.count)
    wq_lines = WqLines(declared, [b"wq"])
    wq_lines.count = fixed.count
    wq_lines.workqueue_of = dict(fixed.workqueue_of)
    wq_lines.groups = {declared.group_of[name] for name in fixed.workqueue_of}
    for _ in range(count):
        wq_lines.read(lines)
    must(len(wq_lines.workqueue_of) == len(declared.items), NOT_ALL_ITEMS, 0)
    assignment = Assignment(wq_lines.workqueue_of, wq_lines.count, fixed.bare)
    order = read_order(lines, assignment.count)
    chain = certificate.read_head(lines, b"chain", 0, ARC_LIMIT)
    arcs = certificate.read_arcs(lines, declared, max(chain - 1, 0))
    lines.end()
    return PlanText(assignment, order, chain, arcs)


def read_norescuer_text(lines, declared):
    certificate.read_head(lines, b"norescuer", 1, 1)
    arc, = certificate.read_arcs(lines, declared, 1)
    return NoRescuerText(arc, None if lines.at_end() else certificate.read_run_lines(lines, declared))


def read_answer(text, declared, fixed):
    """A PlanText, a CircleText or a NoRescuerText."""
    lines = Lines(text)
    if lines.first_word() == b"circle":
        return certificate.read_circle_text(lines, declared)
    if lines.first_word() == b"norescuer":
        return read_norescuer_text(lines, declared)
    return read_plan_text(lines, declared, fixed)


def first_bad_arc(declared, start, arcs, before):
    """The number, from 1, of the first arc that doesn't join, or None. The arc before the first is `before`, or none where it is None."""
    flushes = set(declared.flushes)
    for number, (item, target) in enumerate(arcs, start=1):
        ends = [start.workqueue_of[item], start.workqueue_of[target]]
        if (item, target) not in flushes or not start.bare.isdisjoint(ends):
            return number
        if before is not None and ends[0] != start.workqueue_of[before[1]]:
            return number
        before = (item, target)
    return None


def falls(assignment, order, item, target):
    here, there = assignment.workqueue_of[item], assignment.workqueue_of[target]
    place = [order.index(number) if number in order else len(order) for number in (here, there)]
    return here in assignment.bare or there not in assignment.bare and place[1] < place[0]


def check_plan_text(declared, fixed, start, text):
    """The line of the answer to a plan text."""
    # A workqueue's place doesn't change if those that are listed again are left out.
    order = list(dict.fromkeys(text.order))
    for item, target in declared.flushes:
        if not falls(text.assignment, order, item, target):
            return b"no 50 %s %s" % (item, target)
    on_chain = [start.workqueue_of[name] for name in [*(item for item, _ in text.arcs[:1]), *(target for _, target in text.arcs)]]
    new = sum(number >= fixed.count for number in on_chain) if text.arcs else text.chain
    count = text.assignment.count - fixed.count
    if new != count:
        return b"no 52"
    if text.chain == 1 and not free_groups(declared, fixed):
        return b"no 51 0"
    at = first_bad_arc(declared, start, text.arcs, None)
    return b"yes %d" % count if at is None else b"no 51 %d" % at


def check_text(declared, fixed, text):
    """The line of the answer."""
    start = start_of(declared, fixed)
    if isinstance(text, PlanText):
        return check_plan_text(declared, fixed, start, text)
    if isinstance(text, CircleText):
        at = first_bad_arc(declared, start, text.arcs, text.arcs[-1])
        no, yes = at and b"no 53 %d" % at, b"yes circle %d" % len(text.arcs)
    else:
        ends = [start.workqueue_of[name] in start.bare for name in text.arc]
        no, yes = text.arc not in declared.flushes or ends != [False, True], b"yes norescuer"
        no = no and b"no 55"
    if no:
        return no
    runs = text.steps is None or end_of_run(declared, start, text.steps) == "deadlock"
    return yes if runs else b"no 54"
