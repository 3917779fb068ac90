"""The machine of docs/FORMAT.md, "Steps", that a kernel's results are compared with: that of tests/model, which was
written from that page alone, and which tests/run.sh compares with wqplan.
"""

import pathlib
import sys

sys.dont_write_bytecode = True
sys.path.append(str(pathlib.Path(__file__).resolve().parents[2] / "tests" / "model"))
from certificate import Refused, read_assignment, read_run  # noqa: E402
from deadlock import deadlocking_run, run_text  # noqa: E402
from declaration import read_declaration  # noqa: E402
from steps import RESCUER, State  # noqa: E402

__all__ = [
    "RESCUER",
    "Refused",
    "State",
    "deadlocking_run",
    "make_as_declared",
    "may_be_cancelled",
    "overs_of",
    "read_assignment",
    "read_declaration",
    "read_run",
    "run_text",
    "steps_in_a_shortage",
    "where_items_are",
]


def overs_of(state):
    """The items that wait, and whose wait may be over."""
    return {
        entry.item
        for (workqueue, helper), entry in state.running.items()
        if entry.target is not None and state.may((entry.over, workqueue, entry.target), helper)
    }


def steps_in_a_shortage(state):
    """Each step that may be made while rescuers alone execute work: what has none doesn't start."""
    return (step for step in state.rescuer_steps() if step[0] != b"start" or step[1] not in state.bare)


def step_as_declared(state, context):
    """The step that this context can make as declared, or None ("Deadlocking runs", 3). A helper takes the first
    entry, too.
    """
    workqueue = context[0]
    entry = state.running.get(context)
    if entry is None:
        first = state.first_to_start(workqueue)
        return first and (b"start", workqueue, first.item)
    waits = state.waits[entry.item]
    if entry.target is not None:
        step = entry.over, workqueue, entry.target
    elif entry.waits < len(waits):
        word, target = waits[entry.waits]
        step = word, workqueue, target
    else:
        step = b"finish", workqueue, entry.item
    return step if state.may(step, context[1]) else None


def make_as_declared(state, workqueues):
    """Lets the contexts of these workqueues make steps as declared until none can."""
    contexts = [context for workqueue in workqueues for context in state.contexts_of(workqueue)]
    able = True
    while able:
        able = False
        for context in contexts:
            step = step_as_declared(state, context)
            if step is not None:
                state.make(step, context[1])
                able = True


def may_be_cancelled(state, item):
    """Whether its entry is pending, and nobody waits for it by flush_work: a kernel lets such a waiter go later than
    the model.
    """
    entry = state.pending_of.get(item)
    return entry is not None and not any(
        (other.over, other.target) == (b"over", item) and other.mark > entry.number
        for other in state.running_of.values()
    )


def where_items_are(state):
    """By the number of each unfinished item where it is, as the module prints it. A wait that may be over is over in
    a kernel.
    """
    number_of = {item: number for number, item in enumerate(state.targets)}
    overs = overs_of(state)
    where = {number: "p" for item, number in number_of.items() if item in state.pending_of}
    for item, entry in state.running_of.items():
        wait = ""
        if entry.target is not None and item not in overs:
            wait = ("w" if entry.over == b"over" else "W") + str(number_of[entry.target])
        where[number_of[item]] = where.get(number_of[item], "") + "r" + wait
    return where
