# A model of `wqplan deadlock DECL ASSIGN`. It says that an assignment is safe, or else prints the
# run by which the items hang, as docs/FORMAT.md asks for in "Deadlocking runs" and "The command
# `deadlock`". See plan.py for what the model is.

import collections
import heapq
import sys

sys.dont_write_bytecode = True
import certificate  # noqa: E402  (beside this file)
import declaration  # noqa: E402
from circle import arcs_of, find_circle, led_to_no_rescuer  # noqa: E402
from command_line import answer_texts  # noqa: E402
from declaration import Refused  # noqa: E402
from readings import part, reading  # noqa: E402
from steps import RESCUER, State  # noqa: E402
from walks import UNSURE, cost_of_walk, least_walk, unsure_of  # noqa: E402


def circle_of(declared, assignment):
    """Deadlocking runs, 1: the arcs of the circle of workqueues with a rescuer, or none."""
    with_rescuer = [flush for flush in declared.flushes
                    if not any(assignment.workqueue_of[name] in assignment.bare for name in flush)]
    arcs = arcs_of(with_rescuer, assignment.workqueue_of, assignment.count)
    return find_circle(arcs, assignment.workqueue_of)


def queued_first(declared, assignment):
    """Deadlocking runs, 1: the items that are queued first. There are none where the assignment is safe."""
    to_none = led_to_no_rescuer(declared, assignment)
    arcs = [declared.flushes[to_none[0]]] if to_none else circle_of(declared, assignment)
    return list(dict.fromkeys(item for item, _ in arcs))


def step_as_declared(state, workqueue):
    """Deadlocking runs, 3: the step that the workqueue can make as declared, or None."""
    entry = state.running.get((workqueue, RESCUER))
    if entry is None:
        pending = state.pending[workqueue]
        return (b"start", workqueue, pending[0].item) if pending and workqueue not in state.bare else None
    if entry.target is not None:
        step = (entry.over, workqueue, entry.target)
        return step if state.may(step) else None
    waits = state.waits[entry.item]
    if entry.waits < len(waits):
        word, target = waits[entry.waits]
        return word, workqueue, target
    return b"finish", workqueue, entry.item


def deadlocking_run(declared, assignment, first=None):
    """The steps of the deadlocking run. There is none where the assignment is safe.

    `first` has the items that are queued first, if they aren't those of the circle that is found here.
    """
    first = first or queued_first(declared, assignment)
    if not first:
        return []
    state = State(declared, assignment)
    others = [item for item in declared.items if item not in first]
    steps = [(b"queue", None, item) for item in first + others]
    for step in steps:
        state.make(step)

    # A workqueue that can't make a step can't before some item has finished: the one for which it waits,
    # or the last one on the workqueue for which it waits. Only then it is looked at again. So `able` has
    # all workqueues that can make a step.
    able = list(range(assignment.count))
    waiting = collections.defaultdict(list)  # by such an item, the other workqueues that wait for it
    while able:
        workqueue = heapq.heappop(able)
        step = step_as_declared(state, workqueue)
        if step is None:
            if (workqueue, RESCUER) in state.running:
                entry = state.running[workqueue, RESCUER]
                waiting[state.waited_for(entry.over, entry.target)[-1].item].append(workqueue)
            continue
        state.make(step)
        steps.append(step)
        heapq.heappush(able, workqueue)
        if step[0] == b"finish":
            for other in waiting.pop(step[2], []):
                heapq.heappush(able, other)
    return steps


def run_text(steps):
    """Run texts. The lines of a run text that is printed."""
    lines = [b"run %d" % len(steps)]
    for word, workqueue, name in steps:
        words = [word, name] if workqueue is None else [word, b"%d" % workqueue, name]
        lines.append(b" ".join(words))
    return lines


def answer(declaration_text, assignment_text):
    """The bytes of the answer, and the exit status (Faults and exit statuses)."""
    try:
        declared = declaration.read_declaration(declaration_text)
        assignment = certificate.read_assignment(assignment_text, declared)
    except Refused as refused:
        return refused.answer()
    if not queued_first(declared, assignment):
        return b"safe\n", 0
    return text_of(declared, assignment, unsure_of(declared, least_walk(declared, assignment))), 1


def text_of(declared, assignment, kept):
    """What is printed where these are the lines of the unsure part."""
    lines = part(declared, kept) if declared.unsure() else []
    lines += run_text(deadlocking_run(reading(declared, kept), assignment))
    return b"".join(line + b"\n" for line in lines)


def is_right(texts, wanted, found):
    """Whether an answer that isn't the model's, which is `wanted`, is right, too: that of another unsure part that `hang` may print."""
    if wanted[1] != 1 or found[1] != 1:
        return False
    declared = declaration.read_declaration(texts[0])
    assignment = certificate.read_assignment(texts[1], declared)
    try:
        kept, _ = certificate.read_run_and_part(found[0], declared)
    except Refused:
        return False
    return kept is not None and may_be_kept(declared, assignment, kept) and found[0] == text_of(declared, assignment, kept)


def may_be_kept(declared, assignment, kept):
    """Whether these are the lines of an unsure part that `hang` may print."""
    least = least_walk(declared, assignment)
    if least is None:
        return False
    if len(least) == 1 and least[0] in led_to_no_rescuer(declared, assignment):
        return kept == unsure_of(declared, least)
    own = reading(declared, kept)
    found = least_walk(own, assignment)
    return found is not None and cost_of_walk(declared, assignment, least) == UNSURE * len(kept) + cost_of_walk(own, assignment, found)


def main(arguments):
    """The exit status."""
    if len(arguments) != 3 or arguments[0] != "deadlock":
        print("usage: deadlock.py deadlock DECL ASSIGN", file=sys.stderr)
        return 2
    return answer_texts(answer, arguments[1:], (declaration.TEXT_LIMIT, certificate.TEXT_LIMIT))


if __name__ == "__main__":
    sys.exit(main(sys.argv[1:]))
