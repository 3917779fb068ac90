"""A model of `wqplan circles DECL [ASSIGN] [NAME..]`.

It prints all flushes that lie on a circle or lead to no rescuer, as docs/FORMAT.md asks for in "The command `circles`".
It looks, workqueue by workqueue, which others it leads to and which lead to it. See plan.py for what the model is.
"""

import sys

sys.dont_write_bytecode = True
import certificate  # noqa: E402  (beside this file)
import declaration  # noqa: E402
from certificate import Assignment  # noqa: E402
from circle import led_to_no_rescuer, what_remains  # noqa: E402
from command_line import answer_texts  # noqa: E402
from declaration import Refused  # noqa: E402


def own_workqueues(declared):
    """The assignment that gives each group a workqueue of its own, numbered as the groups are."""
    return Assignment(declared.group_of, len(declared.groups))


def waiting(declared, assignment):
    """For each workqueue those that it waits for, and for each those that wait for it. All of them have a rescuer."""
    waits_for = [set() for _ in range(assignment.count)]
    waited_by = [set() for _ in range(assignment.count)]
    for item, target in declared.flushes:
        here, there = assignment.workqueue_of[item], assignment.workqueue_of[target]
        if here in assignment.bare or there in assignment.bare:
            continue
        waits_for[here].add(there)
        waited_by[there].add(here)
    return waits_for, waited_by


def led_to(workqueue, waits_for):
    """Which workqueues lead where: those that this one leads to."""
    found = set()
    wanted = [workqueue]
    while wanted:
        further = waits_for[wanted.pop()] - found
        found |= further
        wanted += further
    return found


def components(declared, assignment):
    """Components: the set of the workqueues of each, by the lowest one."""
    waits_for, waited_by = waiting(declared, assignment)
    # Only a workqueue that leads to a circle and that a circle leads to can be in one. The others are left out first,
    # since there may be thousands of them.
    left = what_remains(waits_for) & what_remains(waited_by)
    found = []
    for workqueue in sorted(left):
        if not any(workqueue in component for component in found):
            component = led_to(workqueue, waits_for) & led_to(workqueue, waited_by)
            if component:
                found.append(component)
    return found


def arcs_on_circles(declared, assignment):
    """The places of the arcs of each component, in the order in which they are printed."""
    found = components(declared, assignment)
    component_of = {workqueue: number for number, component in enumerate(found) for workqueue in component}
    arcs = [[] for _ in found]
    for place, (item, target) in enumerate(declared.flushes):
        number = component_of.get(assignment.workqueue_of[item])
        if number is not None and number == component_of.get(assignment.workqueue_of[target]):
            arcs[number].append(place)
    return arcs


def circles_text(declared, arcs, to_none, ways=()):
    """The lines that are printed, of the places of the arcs of each component, of those that lead to no rescuer, and of ways."""
    if not arcs and not to_none:
        return [b"safe"]
    parts = [(b"component", places) for places in arcs]
    parts += [(word, places) for word, places in ((b"norescuer", to_none), (b"ways", ways)) if places]
    lines = [b"components %d" % len(arcs)]
    for word, places in parts:
        lines.append(b"%s %d" % (word, len(places)))
        lines += [b"%s %s %s" % (b"arc?" if declared.is_unsure(place) else b"arc", *declared.flushes[place]) for place in places]
    return lines


def held_up(declared, assignment, names):
    """Circles that hold up NAMEs: the places of the arcs of each component that is printed, of the flushes that lead to no rescuer, and of
    the ways.
    """
    waits_for, _ = waiting(declared, assignment)
    all_led = [led_to(workqueue, waits_for) | {workqueue} for workqueue in range(assignment.count)]
    named = {assignment.workqueue_of[name] for name in names} - assignment.bare
    led = set().union(*(all_led[workqueue] for workqueue in named))
    ends = [(assignment.workqueue_of[item], assignment.workqueue_of[target]) for item, target in declared.flushes]
    arcs = [places for places in arcs_on_circles(declared, assignment) if ends[places[0]][0] in led]
    to_none = [place for place in led_to_no_rescuer(declared, assignment) if ends[place][0] in led]
    hold = {ends[place][0] for places in [*arcs_on_circles(declared, assignment), led_to_no_rescuer(declared, assignment)] for place in places}
    printed = set(to_none).union(*arcs)
    ways = [place for place, (here, there) in enumerate(ends)
            if place not in printed and here in led and there not in assignment.bare and all_led[there] & hold]
    return arcs, to_none, ways


def lines_for(declared, assignment, names):
    """The lines that are printed with NAMEs."""
    arcs, to_none, ways = held_up(declared, assignment, names)
    if not arcs and not to_none and any(assignment.workqueue_of[name] in assignment.bare for name in names):
        return [b"components 0"]
    return circles_text(declared, arcs, to_none, ways)


def read_texts(declaration_text, assignment_text):
    """The declaration, and the assignment or None where no text of one is given. Raises Refused."""
    declared = declaration.read_declaration(declaration_text)
    if assignment_text is None:
        return declared, None
    return declared, certificate.read_assignment(assignment_text, declared)


def answer(declaration_text, assignment_text=None, *names):
    """The bytes of the answer, and the exit status (Faults and exit statuses)."""
    try:
        declared, assignment = read_texts(declaration_text, assignment_text)
        declaration.look_up(declared, names)
    except Refused as refused:
        return refused.answer()
    assignment = assignment or own_workqueues(declared)
    if names:
        lines = lines_for(declared, assignment, names)
        return b"".join(line + b"\n" for line in lines), 0 if lines == [b"safe"] else 1
    lines = circles_text(declared, arcs_on_circles(declared, assignment), led_to_no_rescuer(declared, assignment))
    return b"".join(line + b"\n" for line in lines), 0 if lines == [b"safe"] else 1


def main(arguments):
    """The exit status."""
    if len(arguments) not in (2, 3) or arguments[0] != "circles":
        print("usage: circles.py circles DECL [ASSIGN]", file=sys.stderr)
        return 2
    return answer_texts(answer, arguments[1:], (declaration.TEXT_LIMIT, certificate.TEXT_LIMIT))


if __name__ == "__main__":
    sys.exit(main(sys.argv[1:]))
