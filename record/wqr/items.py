"""Items: executions by their function and workqueue. Those of one function that waited for one another are items apart,
and so are those of workqueues of one name, where an item of one waited for one of another."""

import collections
import re
from dataclasses import dataclass, field
from typing import Iterator, Optional

from .causes import Causes, Fact
from .history import History, Kind, Queueing, Run, Workqueue

# Deeper than this nobody splits items that waited for one another.
DEEPEST = 4
LONGEST_NAME = 63


@dataclass(frozen=True)
class ItemKey:
    function: int
    kind: str  # what its workqueues are called, without numbers
    instance: Optional[int]  # the address of the workqueue, where it matters
    level: int


@dataclass(frozen=True)
class Place:
    """From where an item was queued."""

    stack: tuple[int, ...]
    in_interrupt: bool
    by_function: int  # of the item that queued it, or 0


@dataclass(eq=False)
class Item:
    key: ItemKey
    function: str
    module: str
    name: str
    runs: int = 0
    is_kthread_work: bool = False
    workqueues: dict[int, Workqueue] = field(default_factory=dict)
    places: collections.Counter[Place] = field(default_factory=collections.Counter)

    @property
    def kind(self) -> str:
        return self.key.kind


@dataclass(eq=False)
class Edge:
    """All that is known of one item's waits for another, or for its workqueue."""

    source: Item
    target: Item
    is_whole: bool
    facts: list[Fact] = field(default_factory=list)

    @property
    def exact(self) -> list[Fact]:
        """What is known by a call, or since an item ended the wait that hadn't started when it began."""
        return [fact for fact in self.facts if fact.is_exact]

    @property
    def shown(self) -> list[Fact]:
        """What is counted: what is exact, or if nothing is, what is guessed."""
        return self.exact or self.facts

    @property
    def guesses(self) -> int:
        return len(self.facts) - len(self.exact)

    @property
    def longest(self) -> int:
        return max(fact.slept for fact in self.shown)

    @property
    def slept(self) -> int:
        return sum(fact.slept > 0 for fact in self.shown)

    @property
    def is_never_queued(self) -> bool:
        return all(fact.is_never_queued for fact in self.facts)

    @property
    def is_sure(self) -> bool:
        """Exact at least once."""
        return bool(self.exact)


def kind_of(name: str) -> str:
    """What workqueues of one kind are called: xfs-conv/vda and xfs-conv/vdb, nbd0-recv and nbd1-recv."""
    return re.sub(r"\d+", "N", re.split("[/:]", name)[0])


class Items:
    def __init__(self, history: History, causes: Causes) -> None:
        self.history, self.causes = history, causes
        self.items: dict[ItemKey, Item] = {}
        self.edges: dict[tuple[Item, Item, bool], Edge] = {}
        self.instances: dict[str, list[int]] = collections.defaultdict(list)
        self.unresolved: list[Fact] = []  # flushes of workqueues on which nothing ran
        self.find_workqueues()
        self.apart = self.kinds_apart()
        self.find_levels()
        for run in history.runs:
            self.add_run(run)
        for queueing in history.queueings:
            self.add_place(queueing)
        for fact in causes.facts:
            self.add_fact(fact)
        self.tell_names_apart()

    # Which item a run is of -------------------------------------------------------------------------

    def find_workqueues(self) -> None:
        """A run whose queueing isn't in the record is on the workqueue on which its function usually is."""
        usual: dict[int, collections.Counter[Workqueue]] = collections.defaultdict(collections.Counter)
        for run in self.history.runs:
            if run.workqueue:
                usual[run.function][run.workqueue] += 1
        for run in self.history.runs:
            if run.workqueue is None and usual[run.function]:
                run.workqueue = usual[run.function].most_common(1)[0][0]

    def kind(self, run: Run) -> str:
        if run.is_kthread_work:
            return f"kthread_{self.history.names.get(run.pid, run.pid)}"
        return kind_of(run.workqueue.name) if run.workqueue else "unknown"

    def kinds_apart(self) -> set[str]:
        """The kinds of which an item on one workqueue waited for one on another."""
        return {
            self.kind(fact.run)
            for fact in self.exact()
            if fact.run.workqueue != fact.target.workqueue and self.kind(fact.run) == self.kind(fact.target)
        }

    def exact(self) -> Iterator[Fact]:
        """What is exact, of two executions."""
        for fact in self.causes.facts:
            if fact.target and fact.target is not fact.run and fact.is_exact:
                yield fact

    def family(self, run: Run) -> tuple[int, str, Optional[int]]:
        kind = self.kind(run)
        return run.function, kind, run.workqueue.address if kind in self.apart and run.workqueue else None

    def find_levels(self) -> None:
        same = [fact for fact in self.exact() if self.family(fact.run) == self.family(fact.target)]
        for _ in range(DEEPEST):
            for fact in same:
                fact.run.level = max(fact.run.level, min(fact.target.level + 1, DEEPEST))

    def item_of(self, run: Run) -> Item:
        key = ItemKey(*self.family(run), run.level)
        if key not in self.items:
            self.items[key] = self.new_item(key)
        return self.items[key]

    def new_item(self, key: ItemKey) -> Item:
        symbol = self.history.symbols.of(key.function)
        function = re.sub(r"[^A-Za-z0-9_]", "_", symbol.name) if not symbol.offset else f"unknown_{key.function:x}"
        name = function
        if key.instance is not None:
            name += f".{self.number(key)}"
        if key.level:
            name += ".waits" + (str(key.level) if key.level > 1 else "")
        return Item(key, function, symbol.module, name)

    def number(self, key: ItemKey) -> int:
        """Which of the workqueues of its kind it is on, in the order in which they came."""
        order = self.instances[key.kind]
        if key.instance not in order:
            order.append(key.instance)
        return order.index(key.instance) + 1

    def tell_names_apart(self) -> None:
        by_name = collections.defaultdict(list)
        for item in self.items.values():
            by_name[item.name].append(item)
        for same in by_name.values():
            if len(same) > 1:
                for item in same:
                    item.name += "." + re.sub(r"[^A-Za-z0-9_.-]", "_", item.kind)
        for item in self.items.values():
            item.name = item.name[:LONGEST_NAME]

    # What is known of items --------------------------------------------------------------------------

    def add_run(self, run: Run) -> None:
        item = self.item_of(run)
        item.runs += 1
        item.is_kthread_work |= run.is_kthread_work
        if run.workqueue:
            item.workqueues[run.workqueue.address] = run.workqueue

    def add_place(self, one: Queueing) -> None:
        by, stack = (one.armed.by, one.armed.stack) if one.armed else (one.by, one.stack)
        if stack:
            place = Place(stack, by.kind is Kind.INTERRUPT, by.run.function if by.kind is Kind.ITEM else 0)
            for item in self.items_of(one.function, one.workqueue):
                item.places[place] += 1

    def items_of(self, function: int, workqueue: Optional[Workqueue]) -> list[Item]:
        kind = kind_of(workqueue.name) if workqueue else None
        return [
            item
            for key, item in self.items.items()
            if key.function == function and key.kind == kind and key.instance in (None, workqueue.address)
        ]

    def add_fact(self, fact: Fact) -> None:
        target = self.target_of(fact)
        if target is None:
            self.unresolved.append(fact)
            return
        key = self.item_of(fact.run), target, fact.how.is_whole
        self.edges.setdefault(key, Edge(*key)).facts.append(fact)

    def target_of(self, fact: Fact) -> Optional[Item]:
        if fact.target is not None:
            return self.item_of(fact.target)
        if fact.call.function:
            return self.item_that_never_ran(fact.call.function)
        # Of a whole workqueue the item that ran most is named.
        on = [item for item in self.items.values() if fact.call.workqueue.address in item.workqueues]
        return max(on, key=lambda item: (item.runs, item.name), default=None)

    def item_that_never_ran(self, function: int) -> Item:
        """The item of a function, or one that is made for it."""
        known = [item for key, item in self.items.items() if key.function == function and not key.level]
        if known:
            return known[0]
        key = ItemKey(function, "unknown", None, 0)
        return self.items.setdefault(key, self.new_item(key))
