# A model of `wqplan plan [FILE [FIXED]]`: a small plain program that reads a declaration and prints the
# answer that docs/FORMAT.md asks for. It was written from docs/FORMAT.md alone, by someone who had
# not read the sources, the specifications or the proofs. So it is an opinion from outside the
# proofs: where it and the program differ, one of them has read the page wrongly, or the page is
# unclear. It goes for plain reading, and not for speed. Each part names the section of
# docs/FORMAT.md that it is from.
#
# declaration.py beside it reads declarations; check.py, replay.py, deadlock.py, circles.py, dot.py and
# run.py are the model of the other commands. test_program.py compares the program with them.

import sys

sys.dont_write_bytecode = True
import around  # noqa: E402  (beside this file)
import certificate  # noqa: E402
from certificate import Assignment  # noqa: E402
from chains import chain_lengths  # noqa: E402
from circle import arcs_of, find_circle  # noqa: E402
from deadlock import deadlocking_run, run_text  # noqa: E402
from command_line import answer_texts  # noqa: E402
from declaration import TEXT_LIMIT, Refused, read_declaration  # noqa: E402


def workqueues_of_plan(declaration):
    """Plan texts: the workqueue of each group, by its number. There is no circle."""
    waits_for = [set() for _ in declaration.groups]
    for item, target in declaration.flushes:
        waits_for[declaration.group_of[item]].add(declaration.group_of[target])
    return {group: length - 1 for group, length in chain_lengths(waits_for).items()}


def chain_of(declaration, workqueue):
    """Plan texts: the places of the flushes that the chain follows."""
    group_of = declaration.group_of
    # Of each group the places of its arcs that lead one workqueue lower, and by how many unsure flushes a chain leads from it to
    # workqueue 0. Those on lower workqueues are found first.
    lower = {group: [] for group in workqueue}
    for place, (item, target) in enumerate(declaration.flushes):
        if workqueue[group_of[target]] == workqueue[group_of[item]] - 1:
            lower[group_of[item]].append(place)
    unsure = {}

    def with_rest(place):
        return declaration.is_unsure(place) + unsure[group_of[declaration.flushes[place][1]]]

    for group in sorted(workqueue, key=workqueue.get):
        unsure[group] = min(map(with_rest, lower[group]), default=0)
    highest = max(workqueue.values(), default=0)
    group = min((group for group in workqueue if workqueue[group] == highest), key=lambda group: (unsure[group], group), default=None)
    followed = []
    while group is not None and lower[group]:
        followed.append(min(lower[group], key=lambda place: (with_rest(place), place)))
        group = group_of[declaration.flushes[followed[-1]][1]]
    return followed


def plan_text(declaration):
    """Plan texts."""
    workqueue = workqueues_of_plan(declaration)
    count = max(workqueue.values(), default=-1) + 1
    names = [[] for _ in range(count)]
    for name in declaration.items:
        names[workqueue[declaration.group_of[name]]].append(name)
    lines = [b"plan %d" % count]
    for number in range(count):
        lines.append(b"wq %d %s" % (number, b" ".join(names[number])))
    lines.append(b"chain %d" % count)
    return lines + [b"arc %s %s" % declaration.flushes[place] for place in chain_of(declaration, workqueue)]


def circle_text(declaration, circle):
    """Circle texts. `circle` has the arcs of the circle in order."""
    lines = [b"circle %d" % len(circle)]
    lines += [b"arc %s %s" % (item, target) for item, target in circle]
    own = Assignment(declaration.group_of, len(declaration.groups))
    return lines + run_text(deadlocking_run(declaration, own, [item for item, _ in circle]))


def answer(text, fixed_text=None):
    """The bytes of the answer to the text, and the exit status (Faults and exit statuses)."""
    try:
        declaration = read_declaration(text)
        fixed = None if fixed_text is None else around.read_fixed(fixed_text, declaration)
    except Refused as refused:
        return refused.answer()
    lines, status = planned_text(declaration) if fixed is None or fixed.count == 0 else around.planned_text(declaration, fixed)
    return b"".join(line + b"\n" for line in lines), status


def planned_text(declaration):
    """The lines of the answer, and the status."""
    group_of = declaration.group_of
    arcs = arcs_of(declaration.flushes, group_of, len(declaration.groups))
    circle = find_circle(arcs, group_of)
    if circle:
        return circle_text(declaration, circle), 1
    return plan_text(declaration), 0


def main(arguments):
    """The exit status."""
    if len(arguments) not in (1, 2, 3) or arguments[0] != "plan":
        print("usage: plan.py plan [FILE [FIXED]]", file=sys.stderr)
        return 2
    return answer_texts(answer, arguments[1:] or [None], (TEXT_LIMIT, certificate.TEXT_LIMIT))


if __name__ == "__main__":
    sys.exit(main(sys.argv[1:]))
