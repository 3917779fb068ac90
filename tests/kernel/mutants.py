"""Wrong machines: each is that of tests/model/steps.py but for one rule of docs/FORMAT.md, "Steps". What a kernel did
must refuse each.
"""

import sys
from pathlib import Path

sys.path.append(str(Path(__file__).resolve().parents[1] / "model"))
from steps import State  # noqa: E402  (in tests/model)

LATER = 1 << 40  # a mark above all numbers


class LastInFirstOut(State):
    """The rescuer starts the last pending entry."""

    def first_to_start(self, workqueue):
        return next((entry for entry in reversed(self.pending[workqueue]) if entry.item not in self.running_of), None)


class FlushReturnsAtOnce(State):
    """flush_work waits for nothing."""

    def waited_for(self, word, target):
        return [] if word == b"over" else super().waited_for(word, target)


class FlushWaitsForWhatRuns(State):
    """flush_work waits for the running entry alone."""

    def waited_for(self, word, target):
        running = [self.running_of[target]] if target in self.running_of else []
        return running if word == b"over" else super().waited_for(word, target)


class FlushWaitsForWhatIsPending(State):
    """flush_work waits for the pending entry alone, as long as it is pending."""

    def waited_for(self, word, target):
        pending = [self.pending_of[target]] if target in self.pending_of else []
        return pending if word == b"over" else super().waited_for(word, target)


class FlushWaitsForLaterEntries(State):
    """flush_work waits for what is queued after its call, too."""

    def make(self, step, helper=0):
        super().make(step, helper)
        if step[0] == b"wait":
            self.running[step[1], helper].mark = LATER


class FlushwqWaitsForLaterEntries(State):
    """flush_workqueue waits for what is queued after its call, too."""

    def make(self, step, helper=0):
        super().make(step, helper)
        if step[0] == b"waitwq":
            self.running[step[1], helper].mark = LATER


class FlushwqWaitsForItsItem(State):
    """flush_workqueue waits for the item alone that the declaration names."""

    def waited_for(self, word, target):
        return self.unfinished(target)


class FlushwqIgnoresItsCaller(State):
    """flush_workqueue of the caller's own workqueue doesn't wait for the caller."""

    def may(self, step, helper=0):
        word, workqueue, target = step
        entry = self.running.get((workqueue, helper))
        if word != b"overwq" or entry is None or (entry.over, entry.target) != (word, target):
            return super().may(step, helper)
        return all(other is entry or other.number >= entry.mark for other in self.waited_for(word, target))


class OrderedIsNot(State):
    """An ordered workqueue has helpers, as any other."""

    def contexts_of(self, workqueue):
        return [(workqueue, helper) for helper in range(1 + self.helpers)]


class EachHasARescuer(State):
    """Each workqueue has a rescuer, whatever its line says."""

    def __init__(self, *words):
        super().__init__(*words)
        self.bare = frozenset()


class NobodyWaitsForWhatHasNoRescuer(State):
    """Waits for what is on a workqueue without a rescuer are over at once."""

    def waited_for(self, word, target):
        return [] if self.workqueue_of[target] in self.bare else super().waited_for(word, target)


MUTANTS = (
    LastInFirstOut,
    FlushReturnsAtOnce,
    FlushWaitsForWhatRuns,
    FlushWaitsForWhatIsPending,
    FlushWaitsForLaterEntries,
    FlushwqWaitsForLaterEntries,
    FlushwqWaitsForItsItem,
    FlushwqIgnoresItsCaller,
    OrderedIsNot,
    EachHasARescuer,
    NobodyWaitsForWhatHasNoRescuer,
)
