# A model of `wqplan hang DECL ASSIGN [NAME..]`. It says that an assignment is safe, or else prints a run that ends stuck, of a reading that keeps
# the fewest unsure lines, and of these one that has the fewest steps, as docs/FORMAT.md asks for in "The command `hang`". Where several
# runs have that few of both, and none of them is of a flush that leads to no rescuer, the page doesn't say which one is printed:
# `wrong_with` says whether another run is as good. With NAMEs it prints a run by which one of them is held up. See plan.py for what the
# model is.

import os
import re
import sys

sys.dont_write_bytecode = True
import certificate  # noqa: E402  (beside this file)
import declaration  # noqa: E402
from command_line import answer_texts  # noqa: E402
from deadlock import run_text  # noqa: E402
from declaration import WAIT, Refused  # noqa: E402
from held import Walk, cost_of_held, least_held, run_of_held  # noqa: E402
from readings import part, reading  # noqa: E402
from steps import State, end_of_run  # noqa: E402
from walks import (  # noqa: E402
    UNSURE, cost_of_walk, is_circle, least_to_no_rescuer, least_walk, leads_to_none, run_of_circle, run_of_walk, run_to_no_rescuer, unsure_of,
    wait_of,
)

# How many helpers the runs are looked at with that are said to end stuck with any number of them.
HELPERS = (0, 8)

WAITS = tuple(WAIT.values())
NUMBER = rb"(?:0|[1-9][0-9]*)"
PART = rb"(?:unsure " + NUMBER + rb"\n(?:flush(?:wq)?\? [!-~]+ [!-~]+\n)*)?"
RUN = re.compile(PART + rb"run " + NUMBER + rb"\n(?:(?:queue [!-~]+|(?:start|wait|waitwq) " + NUMBER + rb" [!-~]+)\n)*")


# Whether a run is as good ------------------------------------------------------------------------


def ends_stuck(declared, assignment, steps, helpers, names=()):
    """Whether these are a run of the first contexts, with so many helpers beside them, that ends stuck for NAMEs, if there are any."""
    state = State(declared, assignment, helpers)
    for step in steps:
        if not state.may(step):
            return False
        state.make(step)
    return state.is_stuck(names)


def waits_in(declared, steps):
    """The waits of a run, each with its item; None where these aren't declared, or some item starts and doesn't wait."""
    every = {wait_of(declared, place) for place in range(len(declared.flushes))}
    starts = [name for word, _, name in steps if word == b"start"]
    made = [(word, name) for word, _, name in steps if word in WAITS]
    waits = [(word, item, target) for item, (word, target) in zip(starts, made)]
    return waits if len(starts) == len(made) and set(waits) <= every else None


def has_form(declared, assignment, steps):
    """Whether it is the run of a circular wait, or of a flush that leads to no rescuer."""
    waits = waits_in(declared, steps)
    if waits is None:
        return False
    if is_circle(waits, assignment) and steps == run_of_circle(waits, assignment):
        return True
    return len(waits) == 1 and leads_to_none(waits[0], assignment) and steps == run_to_no_rescuer(waits[0], assignment)


def leads_on(declared, assignment, walk):
    """Whether these places are a walk for the NAMEd item."""
    workqueue_of, bare = assignment.workqueue_of, assignment.bare
    if workqueue_of[walk.named] in bare:
        return walk.places == []
    if walk.places == []:
        return False
    items, targets = zip(*(declared.flushes[place] for place in walk.places))
    following = [workqueue_of[item] for item in items[1:]]
    if workqueue_of[items[0]] != workqueue_of[walk.named] or bare & {workqueue_of[item] for item in items}:
        return False
    if following != [workqueue_of[target] for target in targets[:-1]]:
        return False
    last = workqueue_of[targets[-1]]
    return last in bare if walk.meets is None else last == workqueue_of[items[walk.meets]]


def has_form_for(declared, assignment, names, steps):
    """Whether it is the run of a walk for these NAMEs."""
    waits = waits_in(declared, steps)
    if waits is None:
        return False
    place_of = {wait_of(declared, place): place for place in range(len(declared.flushes))}
    places = [place_of[wait] for wait in waits]
    return any(leads_on(declared, assignment, walk) and run_of_held(declared, assignment, walk) == steps
               for name in names for meets in [None, *range(len(places))] for walk in [Walk(name, places, meets)])


def ends_as_declared(declared, steps):
    """replay: whether the answer to it is `deadlock`."""
    queued = {name for word, _, name in steps if word == b"queue"}
    first = {}
    for place, (item, _) in enumerate(declared.flushes):
        first.setdefault(item, wait_of(declared, place))
    item = None
    for word, _, name in steps:
        if word == b"start":
            item = name
        elif word in WAITS and (word, item, name) != first[item]:
            return False
    return queued == set(declared.items)


def wrong_with(declared, assignment, least, printed, names=()):
    """What is wrong with the run that is printed, or None where it may be: `least` is what a least walk costs."""
    if not RUN.fullmatch(printed):
        return "it is no run text with steps that may be there"
    try:
        kept, steps = certificate.read_run_and_part(printed, declared)
    except Refused:
        return "it is no run text of this declaration"
    if (kept is None) != (not declared.unsure()):
        return "it has an unsure part exactly where the declaration has an unsure line"
    lines = [] if kept is None else part(declared, kept)
    if lines != printed.splitlines()[:len(lines)]:
        return "the lines of the unsure part are in order of place"
    kept = kept or frozenset()
    if divmod(least, UNSURE) != (len(kept), len(steps)):
        return f"it has {len(kept)} unsure lines and {len(steps)} steps in place of {divmod(least, UNSURE)}"
    if names:
        return wrong_with_held(reading(declared, kept), assignment, names, steps)
    to_none = least_to_no_rescuer(declared, assignment)
    if to_none is not None and cost_of_walk(declared, assignment, [to_none]) == least:
        if (kept, steps) != (unsure_of(declared, [to_none]), run_of_walk(declared, assignment, [to_none])):
            return "it isn't the run of the flush of least place that leads to no rescuer"
    return wrong_with_run(declared, assignment, kept, steps)


def wrong_with_run(declared, assignment, kept, steps):
    """What is wrong with these steps as a run of the reading that keeps these lines, or None."""
    own = reading(declared, kept)
    if any(word == b"start" and workqueue in assignment.bare for word, workqueue, _ in steps):
        return "it has a `start` on a workqueue without a rescuer"
    for helpers in HELPERS:
        if not ends_stuck(own, assignment, steps, helpers):
            return f"it isn't lawful, or doesn't end stuck, with {helpers} helpers"
    if not has_form(own, assignment, steps):
        return "it is neither the run of a circular wait nor of a flush that leads to no rescuer"
    if kept and not first_is_unsure(declared, kept, steps):
        return "the flush of its first item is unsure"
    if end_of_run(own, assignment, steps) != ("deadlock" if ends_as_declared(own, steps) else "stuck"):
        return "`replay` answers the other of `deadlock` and `stuck`"
    return None


def wrong_with_held(own, assignment, names, steps):
    """What is wrong with these steps of a reading as a run by which one of these NAMEs is held up, or None."""
    if any(word == b"start" and workqueue in assignment.bare for word, workqueue, _ in steps):
        return "it has a `start` on a workqueue without a rescuer"
    for helpers in HELPERS:
        if not ends_stuck(own, assignment, steps, helpers, names):
            return f"it isn't lawful, or doesn't end stuck for NAMEs, with {helpers} helpers"
    if not has_form_for(own, assignment, names, steps):
        return "it is no run of a walk for NAMEs"
    if end_of_run(own, assignment, steps, names) not in ("deadlock", "stuck"):
        return "`replay` answers `open`"
    return None


def first_is_unsure(declared, kept, steps):
    """Whether the first item waits by an unsure flush, one of those that are kept."""
    (_, _, item), (word, _, target) = [step for step in steps if step[0] == b"start" or step[0] in WAITS][:2]
    return (word, item, target) in [wait_of(declared, place) for place in kept]


def is_right(texts, wanted, found):
    """Whether an answer that isn't the model's, which is `wanted`, is right, too: a run that is as good."""
    if wanted[1] != 1 or found[1] != 1:
        return False
    declared = declaration.read_declaration(texts[0])
    assignment = certificate.read_assignment(texts[1], declared)
    names = texts[2:]
    return wrong_with(declared, assignment, least_cost(declared, assignment, names), found[0], names) is None


def least_cost(declared, assignment, names):
    """What a least walk costs, which there is."""
    if names:
        return cost_of_held(declared, assignment, least_held(declared, assignment, names))
    return cost_of_walk(declared, assignment, least_walk(declared, assignment))


# The answer --------------------------------------------------------------------------------------


def text_of_walk(declared, places, steps):
    """What is printed of the walk with these places, and of its run."""
    lines = part(declared, unsure_of(declared, places)) if declared.unsure() else []
    return b"".join(line + b"\n" for line in lines + run_text(steps))


def answer(declaration_text, assignment_text, *names):
    """The bytes of the answer, and the exit status (Faults and exit statuses)."""
    try:
        declared = declaration.read_declaration(declaration_text)
        assignment = certificate.read_assignment(assignment_text, declared)
        declaration.look_up(declared, names)
    except Refused as refused:
        return refused.answer()
    if names:
        walk = least_held(declared, assignment, names)
        return (b"safe\n", 0) if walk is None else (text_of_walk(declared, walk.places, run_of_held(declared, assignment, walk)), 1)
    places = least_walk(declared, assignment)
    if places is None:
        return b"safe\n", 0
    return text_of_walk(declared, places, run_of_walk(declared, assignment, places)), 1


def main(arguments):
    """The exit status."""
    if len(arguments) < 3 or arguments[0] != "hang":
        print("usage: hang.py hang DECL ASSIGN [NAME..]", file=sys.stderr)
        return 2
    behind = arguments[4:] if arguments[3:4] == ["--"] else arguments[3:]
    names = [os.fsencode(name) for name in behind]
    return answer_texts(lambda *texts: answer(*texts, *names), arguments[1:3], (declaration.TEXT_LIMIT, certificate.TEXT_LIMIT))


if __name__ == "__main__":
    sys.exit(main(sys.argv[1:]))
