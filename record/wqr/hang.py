"""What hung when the record ended: the items that still slept, those that were queued and hadn't started, and the circles
of these."""

from dataclasses import dataclass
from typing import Iterator, Optional

from .causes import FLUSHERS
from .history import History, Queueing, Sleep, Workqueue
from .items import Item, Items, kind_of
from .sites import Sites

# An item that was queued so shortly before the end, in nanoseconds, may just not have had its turn.
SHORTLY = 10**9
ORDERED = 1 << 17


@dataclass(eq=False)
class Open:
    """A sleep that hadn't ended, and what it is for: by the call that flushes, or since waits at this place were for that
    before."""

    sleep: Sleep
    item: Item
    targets: list[Item]
    is_exact: bool


@dataclass(frozen=True)
class Step:
    """An item sleeps, and waits for `target`. That is asleep itself, or is queued to a workqueue where it hasn't
    started."""

    sleeper: Open
    target: Item
    waits_on: Optional[Queueing]


class Hang:
    def __init__(self, items: Items, sites: Sites, chosen: list[Item]) -> None:
        self.items, self.sites = items, sites
        self.history: History = items.history
        self.places: dict[tuple[int, ...], str] = {}
        about = set(chosen)
        self.open = [self.opened(sleep) for sleep in self.history.open_sleeps if items.item_of(sleep.run) in about]
        functions, kinds = {item.key.function for item in chosen}, {item.kind for item in chosen}
        self.waiting = [
            one
            for one in self.history.waiting
            if self.history.end - one.time >= SHORTLY
            and (one.function in functions or kind_of(one.workqueue.name) in kinds)
        ]

    # Who waits for what -----------------------------------------------------------------------------

    def opened(self, sleep: Sleep) -> Open:
        item = self.items.item_of(sleep.run)
        call = sleep.call
        if call is not None and self.items.causes.has(sleep.stack, FLUSHERS):
            called = self.called(call.function, call.workqueue)
            return Open(sleep, item, called, True)
        return Open(sleep, item, self.before(sleep, item), False)

    def called(self, function: int, workqueue: Optional[Workqueue]) -> list[Item]:
        """The items of a function, or all on a workqueue."""
        every = self.items.items.values()
        if function:
            return [item for item in every if item.key.function == function and not item.key.level]
        return [item for item in every if workqueue and workqueue.address in item.workqueues]

    def before(self, sleep: Sleep, item: Item) -> list[Item]:
        """For which items this one waited at this place before, where that is exact, or else perhaps."""
        place = self.place(sleep.stack)
        found: dict[bool, dict[Item, None]] = {True: {}, False: {}}
        for edge in self.items.edges.values():
            if edge.source.key.function == item.key.function and edge.source.kind == item.kind:
                for fact in edge.facts:
                    if fact.call is None and self.place(fact.stack) == place:
                        found[fact.is_exact][edge.target] = None
        return list(found[True] or found[False])

    def place(self, stack: tuple[int, ...]) -> str:
        """What is cited for a stack. (Records have few stacks, and many sleeps.)"""
        if stack not in self.places:
            self.places[stack] = self.sites.cited(stack)
        return self.places[stack]

    def queued(self, item: Item) -> Iterator[Queueing]:
        """Where an item is queued and hasn't started. (Of one that never ran it isn't known on which workqueue it is.)"""
        for one in self.waiting:
            if one.function == item.key.function and (kind_of(one.workqueue.name) == item.kind or not item.runs):
                yield one

    def holds_up(self, one: Queueing) -> Iterator[Open]:
        """Who sleeps in the rescuer of a workqueue, or on it if it executes one item at a time."""
        for sleeper in self.open:
            is_on = sleeper.sleep.run.workqueue == one.workqueue
            if self.is_in_rescuer(sleeper.sleep, one.workqueue) or is_on and is_one_at_a_time(one.workqueue):
                yield sleeper

    def is_in_rescuer(self, sleep: Sleep, workqueue: Workqueue) -> bool:
        """By the thread's name: that of the workqueue, or kworker/R- and that; 15 letters are kept. (What it executes
        stands behind a +.)"""
        name = self.thread(sleep)
        return name in (workqueue.name[:15], f"kworker/R-{workqueue.name}"[:15], f"kworker/R-{workqueue.name}")

    def thread(self, sleep: Sleep) -> str:
        return self.history.names.get(sleep.pid, "?").partition("+")[0]

    # Circles ----------------------------------------------------------------------------------------

    def steps(self, sleeper: Open) -> Iterator[tuple[Step, Open]]:
        """What comes behind a sleeper: each step, and the sleeper to which it leads."""
        for target in sleeper.targets:
            for one in self.queued(target):
                for other in self.holds_up(one):
                    yield Step(sleeper, target, one), other
            for other in self.open:
                if other.item.key.function == target.key.function and other.item.kind == target.kind:
                    if other is not sleeper:
                        yield Step(sleeper, target, None), other

    def circles(self) -> list[list[Step]]:
        """A shortest circle through each sleeper, each circle once."""
        found: list[list[Step]] = []
        known: set[frozenset[int]] = set()
        for sleeper in self.open:
            circle = self.circle_through(sleeper)
            key = frozenset(id(step.sleeper) for step in circle)
            if circle and key not in known:
                known.add(key)
                found.append(circle)
        return found

    def circle_through(self, start: Open) -> list[Step]:
        ways: list[tuple[Open, list[Step]]] = [(start, [])]
        seen: set[int] = set()
        while ways:
            sleeper, way = ways.pop(0)
            for step, other in self.steps(sleeper):
                if other is start:
                    return [*way, step]
                if id(other) not in seen:
                    seen.add(id(other))
                    ways.append((other, [*way, step]))
        return []


def is_one_at_a_time(workqueue: Workqueue) -> bool:
    return workqueue.max_active == 1 or bool(workqueue.flags & ORDERED)
