# Makes the steps of a run, for the model in check.py, replay.py and deadlock.py: docs/FORMAT.md,
# "Steps".

import collections
import dataclasses

from declaration import WAIT

# The step by which a wait is over, by the one that makes it.
OVER = {b"wait": b"over", b"waitwq": b"overwq"}


@dataclasses.dataclass
class Entry:
    item: bytes
    number: int
    waits: int = 0
    target: bytes = None  # while it waits
    mark: int = None  # while it waits
    over: bytes = None  # while it waits, the word of the step by which the wait is over


# The first context of a workqueue, its rescuer, or a worker where it has none; its helpers are numbered from 1.
RESCUER = 0


class State:
    """State, the table of the steps, and those of helpers. A step is as certificate.py reads it, and the helper that makes it,
    if one does, comes beside it.
    """

    def __init__(self, declaration, assignment, helpers=0):
        # By item its flushes in order of place: the target of each, and the word of its wait with the target.
        self.targets = {item: [] for item in declaration.items}
        self.waits = {item: [] for item in declaration.items}
        for (item, target), directive in zip(declaration.flushes, declaration.directive_of):
            self.targets[item].append(target)
            self.waits[item].append((WAIT[directive], target))
        self.declared = {item: frozenset(waits) for item, waits in self.waits.items()}
        self.workqueue_of = assignment.workqueue_of
        self.bare = assignment.bare  # the workqueues without a rescuer
        self.helpers = helpers  # of each workqueue that isn't ordered
        self.ordered = {assignment.workqueue_of[group[0]] for group in declaration.groups if len(group) > 1}
        self.workqueues = range(assignment.count)
        self.next_number = 0
        self.pending = collections.defaultdict(list)  # by workqueue
        self.pending_of = {}  # by item, its pending entry: there is never more than one
        self.running = {}  # by context, a workqueue and RESCUER or a helper: what runs there
        self.running_of = {}  # the same by item: no item ever runs in two contexts

    def contexts_of(self, workqueue):
        """The contexts of the workqueue, in order."""
        is_ordered = workqueue in self.ordered or workqueue not in self.workqueues
        return [(workqueue, helper) for helper in range(1 if is_ordered else 1 + self.helpers)]

    def unfinished(self, item):
        """The entries of the item that are pending or run, in the order of their numbers."""
        entries = [self.running_of[item]] if item in self.running_of else []
        return entries + ([self.pending_of[item]] if item in self.pending_of else [])

    def unfinished_on(self, workqueue):
        """The entries that run or are pending on the workqueue, in the order of their numbers."""
        running = [self.running[context] for context in self.contexts_of(workqueue) if context in self.running]
        return sorted(running + self.pending[workqueue], key=lambda entry: entry.number)

    def first_to_start(self, workqueue):
        """The first pending entry whose item doesn't run in any context, or None."""
        return next((entry for entry in self.pending[workqueue] if entry.item not in self.running_of), None)

    def waited_for(self, word, target):
        """The unfinished entries that a wait for this target is for, where this step ends it."""
        return self.unfinished(target) if word == b"over" else self.unfinished_on(self.workqueue_of[target])

    def may(self, step, helper=RESCUER):
        """May be made where."""
        word, workqueue, name = step
        if word == b"queue":
            return name not in self.pending_of
        if word == b"cancel":
            return name in self.pending_of
        if helper != RESCUER and (workqueue, helper) not in self.contexts_of(workqueue):
            return False
        entry = self.running.get((workqueue, helper))
        if word == b"start":
            if entry is not None:
                return False
            if helper != RESCUER:
                return name in self.pending_of and self.workqueue_of[name] == workqueue and name not in self.running_of
            first = self.first_to_start(workqueue)
            return first is not None and first.item == name
        if entry is None:
            return False
        if word in (b"wait", b"waitwq"):
            declared = (word, name) in self.declared[entry.item]
            return entry.target is None and declared and entry.waits < len(self.targets[entry.item])
        if word in (b"over", b"overwq"):
            return (entry.over, entry.target) == (word, name) and all(
                other.number >= entry.mark for other in self.waited_for(word, name)
            )
        return entry.target is None and entry.item == name  # finish

    def make(self, step, helper=RESCUER):
        """What it does. The step may be made."""
        word, workqueue, name = step
        context = workqueue, helper
        if word == b"queue":
            self.pending_of[name] = Entry(name, self.next_number)
            self.pending[self.workqueue_of[name]].append(self.pending_of[name])
            self.next_number += 1
        elif word == b"cancel":
            self.pending[self.workqueue_of[name]].remove(self.pending_of.pop(name))
        elif word == b"start":
            entry = self.pending_of.pop(name)
            self.pending[workqueue].remove(entry)
            self.running[context] = self.running_of[name] = entry
        elif word in (b"wait", b"waitwq"):
            entry = self.running[context]
            entry.target, entry.mark, entry.over = name, self.next_number, OVER[word]
            entry.waits += 1
        elif word in (b"over", b"overwq"):
            entry = self.running[context]
            entry.target = entry.mark = entry.over = None
        else:
            del self.running[context], self.running_of[name]

    def steps_of(self, workqueue, helper):
        """Each step of what this context runs that may be made, `finish` and those of waits."""
        entry = self.running.get((workqueue, helper))
        if entry is None:
            return
        steps = [(entry.over, workqueue, entry.target)] if entry.target is not None else []
        steps.append((b"finish", workqueue, entry.item))
        steps += [(word, workqueue, target) for word, target in dict.fromkeys(self.waits[entry.item])]
        yield from (step for step in steps if self.may(step, helper))

    def rescuer_steps(self):
        """Each step of the first contexts, `start`, `finish` and those of waits, that may be made."""
        for workqueue in sorted(set(self.workqueue_of.values())):
            yield from self.steps_of(workqueue, RESCUER)
            first = self.first_to_start(workqueue)
            if first is not None and (workqueue, RESCUER) not in self.running:
                yield b"start", workqueue, first.item

    def helper_steps(self):
        """Each step of the helpers but `start` that may be made, with its helper."""
        for workqueue, helper in sorted(self.running):
            if helper != RESCUER:
                yield from ((step, helper) for step in self.steps_of(workqueue, helper))

    def helper_starts(self):
        """Each `start` of a helper that may be made, with its helper."""
        for item, entry in self.pending_of.items():
            for workqueue, helper in self.contexts_of(self.workqueue_of[item]):
                step = b"start", workqueue, item
                if helper != RESCUER and self.may(step, helper):
                    yield step, helper

    def forced_steps(self):
        """Each step that may be made, with its helper or RESCUER.

        Left out are `queue`, `cancel`, the `start` of a helper, and each `start` on a workqueue without a rescuer.
        """
        for step in self.rescuer_steps():
            word, workqueue, _ = step
            if word != b"start" or workqueue not in self.bare:
                yield step, RESCUER
        yield from self.helper_steps()

    def is_stuck(self, names=()):
        """An entry of a NAMEd item is unfinished, and no step is forced. Without NAMEs, an entry on a workqueue with a rescuer."""
        of = names or [item for item in self.targets if self.workqueue_of[item] not in self.bare]
        return any(map(self.unfinished, of)) and next(self.forced_steps(), None) is None


def end_of_run(declaration, assignment, steps, names=()):
    """How the run ends: `deadlock`, `stuck` or `open`; or the number of the first unlawful step."""
    state = State(declaration, assignment)
    queued = {item: 0 for item in declaration.items}
    as_declared = True
    for number, step in enumerate(steps, start=1):
        if not state.may(step):
            return number
        word, workqueue, name = step
        if word == b"queue":
            queued[name] += 1
        elif word == b"cancel":
            as_declared = False
        elif word in WAIT.values() or word == b"finish":
            entry = state.running[workqueue, RESCUER]
            waits = state.waits[entry.item]
            if word == b"finish":
                as_declared = as_declared and entry.waits == len(waits)
            elif (word, name) != waits[entry.waits]:
                as_declared = False
        state.make(step)
    if not state.is_stuck(names):
        return "open"
    if as_declared and all(count == 1 for count in queued.values()):
        return "deadlock"
    return "stuck"
