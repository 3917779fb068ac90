"""What was seen, beside what is declared."""

import collections
import re
from dataclasses import dataclass, field
from enum import Enum, IntEnum
from typing import Iterator, Optional

from csource.declaration import Dismissal

from . import says
from .causes import Fact, Wait
from .declaration import Drawing
from .declared import SYSTEM, Declared, DeclaredItem, DeclaredWait, dismisses, is_cited_at, is_cited_in, is_on
from .hang import Open
from .items import Edge, Item, kind_of
from .places import Frame

# How many frames of a stack are printed.
MOST_FRAMES = 14
# How many lines of the declaration are named for one wait.
MOST_LINES = 4


# What executes the items of grace periods: workqueues with rescuers of their own, or threads.
GRACE_PERIODS = re.compile(r"rcu_gp|rcu_par_gp|kthread_rcu_exp_(par_)?gp_kthread_worker.*")
IN_A_RESCUER = (
    "a grace period's items need no line: their workqueue has a rescuer (docs/GUIDE.md, section 2, (f) and (j))"
)
RCU = re.compile(r"synchronize_rcu(_expedited)?|rcu_barrier")
IN_A_THREAD = "a grace period's items need no line: they have a thread of their own (docs/GUIDE.md, section 2, (f))"


class Class(Enum):
    """What becomes of a wait that was seen. The values are the headings. `Perhaps`: it was for a lock, a thread was
    between, or what was waited for had always started."""

    HOLE = "seen, not declared"
    DISMISSED = "seen, but dismissed"
    IMPLIED = "seen, not declared, and follows from what is"
    UNSURE = "perhaps seen, not declared"
    DECLARED = "declared and seen"
    PERHAPS = "declared, and perhaps seen"


class Exactness(IntEnum):
    """How well the place where a wait was seen is the one that its line cites, from best to worst."""

    LINE = 0
    FUNCTION = 1
    ELSEWHERE = 2

    @property
    def words(self) -> str:
        return ("at the same line", "in the same function", "at another place")[self]


@dataclass(eq=False)
class Seen:
    """A wait that was seen, and what the declaration has of it."""

    edge: Edge
    frames: list[Frame]
    by: list[tuple[DeclaredWait, Exactness]] = field(default_factory=list)
    dismissal: Optional[Dismissal] = None  # of some place, or of all
    left: list[Fact] = field(default_factory=list)  # where nothing dismisses it
    is_implied: bool = False


class Comparison:
    def __init__(self, drawing: Drawing, declared: Declared) -> None:
        self.drawing, self.declared = drawing, declared
        self.reaches = self.closure()
        self.seen: dict[Class, list[Seen]] = {kind: [] for kind in Class}
        self.seen_waits: dict[DeclaredWait, Exactness] = {}
        self.perhaps: set[DeclaredWait] = set()
        self.confirmed: set[int] = set()  # lines that aren't sure, and were seen
        for edge in drawing.chosen.edges:
            if self.concerns(edge):
                one = self.judged(edge)
                self.seen[self.class_of(one)].append(one)
        self.perhaps -= self.seen_waits.keys()

    @property
    def has_hole(self) -> bool:
        return bool(self.seen[Class.HOLE])

    # What is declared -------------------------------------------------------------------------------

    def closure(self) -> dict[DeclaredItem, set[DeclaredItem]]:
        """For each item those that it waits for, and that these wait for."""
        found: dict[DeclaredItem, set[DeclaredItem]] = {item: set() for item in self.declared.items.values()}
        for wait in self.declared.waits:
            found[wait.source] |= {wait.target, *(self.declared.on_workqueue_of(wait.target) if wait.is_whole else [])}
        changed = True
        while changed:
            changed = False
            for item, targets in found.items():
                more = set().union(*(found[target] for target in targets)) - targets if targets else set()
                if more:
                    targets |= more
                    changed = True
        return found

    def covers(self, wait: DeclaredWait, edge: Edge) -> bool:
        """Whether a declared wait is one of this edge. One for a whole workqueue is one for each item there."""
        sources, targets = self.declared.of_item(edge.source), self.declared.of_item(edge.target)
        if wait.source not in sources:
            return False
        waited = [wait.target, *(self.declared.on_workqueue_of(wait.target) if wait.is_whole else [])]
        if edge.is_whole and not wait.is_whole:
            return False
        return any(target in waited for target in targets)

    # What was seen ----------------------------------------------------------------------------------

    def concerns(self, edge: Edge) -> bool:
        """Whether an edge is the declaration's business: an item of its own waits. (A wait for itself is none of two
        items.)"""
        is_own = edge.source is edge.target and not edge.is_whole
        return bool(self.declared.of_item(edge.source)) and not is_own and not edge.is_never_queued

    def judged(self, edge: Edge) -> Seen:
        frames = [frame for site in self.drawing.sites.ways_of_edge(edge) for frame in site.frames]
        found = Seen(edge, frames)
        for wait in self.declared.waits:
            if self.covers(wait, edge):
                exactness = self.exactness(wait, frames)
                found.by.append((wait, exactness))
                if self.confirms(edge, wait):
                    self.confirmed.add(wait.number)
                if edge.is_sure:
                    self.seen_waits[wait] = min(exactness, self.seen_waits.get(wait, exactness))
                else:
                    self.perhaps.add(wait)
        for fact in edge.facts:
            dismissal = self.dismissal_of(fact.stack)
            found.dismissal = found.dismissal or dismissal
            if not dismissal:
                found.left.append(fact)
        sources, targets = self.declared.of_item(edge.source), self.declared.of_item(edge.target)
        found.is_implied = any(target in self.reaches[source] for source in sources for target in targets)
        return found

    def confirms(self, edge: Edge, wait: DeclaredWait) -> bool:
        """Whether an edge decides an unsure line: it is exact, of the same kind, and at the place that the line cites."""
        if not wait.is_unsure or not edge.is_sure or edge.is_whole != wait.is_whole:
            return False
        frames = [frame for site in self.drawing.sites.ways(edge.exact) for frame in site.frames]
        return not wait.citations or self.exactness(wait, frames) is not Exactness.ELSEWHERE

    def dismissal_of(self, stack: tuple[int, ...]) -> Optional[Dismissal]:
        chain = self.drawing.sites.places.chain(stack)
        functions = self.drawing.history.symbols.names
        return next((one for one in self.declared.dismissals if dismisses(one, chain, functions)), None)

    @staticmethod
    def exactness(wait: DeclaredWait, frames: list[Frame]) -> Exactness:
        if is_cited_at(wait.citations, frames):
            return Exactness.LINE
        return Exactness.FUNCTION if is_cited_in(wait.citations, frames) else Exactness.ELSEWHERE

    def class_of(self, one: Seen) -> Class:
        if one.by:
            return Class.DECLARED if one.edge.is_sure else Class.PERHAPS
        if not one.left or self.reason(one.edge.target):
            return Class.DISMISSED
        if one.is_implied:
            return Class.IMPLIED
        return Class.HOLE if any(fact.is_exact for fact in one.left) else Class.UNSURE

    def reason(self, item: Item) -> str:
        """Why no wait for an item needs a line, or ""."""
        dismissed = self.declared.dismissed_item(item)
        if dismissed:
            return f"line {dismissed.number}: {dismissed}"
        if not GRACE_PERIODS.fullmatch(item.kind):
            return ""
        if item.is_kthread_work:
            return IN_A_THREAD
        has_rescuer = all(workqueue.has_rescuer for workqueue in item.workqueues.values())
        return IN_A_RESCUER if has_rescuer and item.workqueues else ""

    # What is printed --------------------------------------------------------------------------------

    def lines(self) -> Iterator[str]:
        yield from (f"# {line}" for line in self.drawing.head)
        for kind, found in self.seen.items():
            yield f"{kind.value}: {len(found)}"
            for one in sorted(found, key=lambda one: (one.edge.source.name, one.edge.target.name)):
                yield from self.seen_lines(kind, one)
        yield from self.item_lines()
        yield from self.quiet_lines()
        yield from self.hang_lines()

    def hang_lines(self) -> Iterator[str]:
        """What of the declaration still slept, with the declared waits that cite the place, what hadn't started, and the
        circles."""
        hang = self.drawing.hang
        circles = hang.circles()
        in_circles = {step.sleeper for circle in circles for step in circle}
        sleepers = [one for one in hang.open if one in in_circles or self.declared.of_item(one.item)]
        if sleepers:
            yield f"still asleep when the record ended: {len(sleepers)}"
        for sleeper in sleepers:
            yield f"  {self.drawing.open_words(sleeper)}"
            yield from self.cited_lines(sleeper)
        kinds = self.own_kinds()
        waiting = [one for one in hang.waiting if kind_of(one.workqueue.name) in kinds]
        if waiting:
            yield f"queued, and not started when the record ended: {len(waiting)}"
            yield from (f"  {self.drawing.waiting_words(one)}" for one in waiting)
        if circles:
            yield f"circles: {len(circles)}"
            yield from (f"  {self.drawing.circle_words(circle)}" for circle in circles)

    def cited_lines(self, sleeper: Open) -> Iterator[str]:
        """The declared waits of an item that still slept, at this place."""
        frames, sources = self.drawing.sites.frames(sleeper.sleep.stack), self.declared.of_item(sleeper.item)
        for wait in self.declared.waits:
            if wait.source in sources and is_cited_in(wait.citations, frames):
                yield f"      line {wait.number}: {wait}"

    def own_kinds(self) -> set[str]:
        """The workqueues of declared items, but for the system's, where everybody's are."""
        return {item.kind for item in self.drawing.chosen.items if self.declared.of_item(item)} - set(SYSTEM.values())

    def seen_lines(self, kind: Class, one: Seen) -> Iterator[str]:
        arrow = "=> all on the workqueue of" if one.edge.is_whole else "->"
        yield f"  {one.edge.source.name} {arrow} {one.edge.target.name}: {self.drawing.words(one.edge)}"
        if one.by:
            best = sorted(one.by, key=lambda row: (row[1], row[0].number))[:MOST_LINES]
            yield "      " + "; ".join(f"line {wait.number}: {exactness.words}" for wait, exactness in best)
            return
        yield from self.stack_lines(one)
        reason = self.reason(one.edge.target)
        if reason:
            yield f"      {reason}"
        elif one.dismissal:
            where = "" if kind is Class.DISMISSED else " (which isn't about all of these places)"
            yield f"      line {one.dismissal.number}: {one.dismissal}{where}"
        elif not self.declared.of_item(one.edge.target):
            yield f"      {one.edge.target.function}, on {one.edge.target.kind}, isn't declared"

    def stack_lines(self, one: Seen) -> Iterator[str]:
        for site in self.drawing.sites.ways(one.left or one.edge.facts)[:2]:
            yield f"      {site.count}: " + " < ".join(map(str, site.frames[:MOST_FRAMES]))

    def item_lines(self) -> Iterator[str]:
        lines = [*self.items_not_declared(), *self.items_that_never_ran(), *self.workqueues_that_differ()]
        yield f"items and workqueues that differ: {len(lines)}"
        yield from lines

    def items_not_declared(self) -> Iterator[str]:
        """Items that aren't declared and ran on a workqueue of declared ones, or were waited for by these."""
        on = self.own_kinds()
        waited = {one.edge.target for one in self.seen[Class.HOLE]}
        for item in self.drawing.chosen.items:
            if item.runs and not self.declared.of_item(item) and (item.kind in on or item in waited):
                dismissed = self.declared.dismissed_item(item)
                why = f"; line {dismissed.number}: {dismissed}" if dismissed else ""
                yield f"  not declared: {item.name}, on {item.kind}, ran {says.times(item.runs)}{why}"

    def items_that_ran(self) -> set[DeclaredItem]:
        return {
            declared
            for item in self.drawing.items.items.values()
            if item.runs
            for declared in self.declared.of_item(item)
        }

    def items_that_never_ran(self) -> Iterator[str]:
        ran, symbols = self.items_that_ran(), self.drawing.history.symbols
        for declared in self.declared.items.values():
            if declared not in ran:
                is_lacking = symbols.is_whole and declared.function not in symbols.names
                why = f": there was no function {declared.function}" if is_lacking else ""
                yield f"  never ran: {declared.name} (line {declared.number}){why}"

    def workqueues_that_differ(self) -> Iterator[str]:
        for item in self.drawing.chosen.items:
            same = self.declared.of_item(item)
            if not same or not item.runs or not all(declared.in_assignment for declared in same):
                continue
            names = " or ".join(dict.fromkeys(declared.name for declared in same))
            if not any(is_on(declared, item) for declared in same):
                wanted = " or ".join(dict.fromkeys(str(declared.workqueue) for declared in same))
                yield f"  {names} is assigned to {wanted}, and ran on {item.kind}"
            for workqueue in item.workqueues.values():
                if any(
                    is_on(d, item) and d.has_rescuer is not None and d.has_rescuer != workqueue.has_rescuer
                    for d in same
                ):
                    has = "a" if workqueue.has_rescuer else "no"
                    yield f"  {names}: the workqueue {workqueue.name} has {has} rescuer, and is assigned otherwise"

    def quiet_lines(self) -> Iterator[str]:
        """Sleeps that no item ended: beside what is dismissed, these confirm it."""
        told: dict[str, collections.Counter[str]] = collections.defaultdict(collections.Counter)
        for wait in self.drawing.quiet:
            item = self.drawing.items.item_of(wait.run)
            if self.declared.of_item(item):
                told[self.quiet_words(item, wait)][
                    says.ender(wait.by.kind, self.drawing.history.names.get(wait.by.pid, "?"))
                ] += 1
        yield f"sleeps that no item ended: {sum(sum(row.values()) for row in told.values())}"
        for words, row in sorted(told.items()):
            yield f"  {words}: ended by {', '.join(f'{by} ({count})' for by, count in row.most_common(4))}"

    def quiet_words(self, item: Item, wait: Wait) -> str:
        frames = self.drawing.sites.frames(wait.stack)
        dismissal = self.dismissal_of(wait.stack)
        if dismissal:
            return f"line {dismissal.number} says no wait at {dismissal.key}: {dismissal.why}"
        names = {declared.name for declared in self.declared.of_item(item)}
        for declared in self.declared.waits:
            if declared.source.name in names and is_cited_in(declared.citations, frames):
                return f"line {declared.number} cites this place for {declared.source.name} -> {declared.target.name}"
        is_rcu = any(RCU.fullmatch(frame.function) for frame in self.drawing.sites.places.chain(wait.stack))
        what = "a grace period, which needs no line (docs/GUIDE.md, section 2)" if is_rcu else "neither a wait nor dismissed"
        return f"{what}: {item.name} at {' < '.join(map(str, frames[:6]))}"


# Of one record or several -----------------------------------------------------------------------------


@dataclass
class Total:
    """What several records have seen together."""

    comparisons: list[Comparison]
    seen: dict[tuple[int, str], Exactness] = field(default_factory=dict)
    perhaps: set[tuple[int, str]] = field(default_factory=set)
    confirmed: set[int] = field(default_factory=set)

    def __post_init__(self) -> None:
        for comparison in self.comparisons:
            for wait, exactness in comparison.seen_waits.items():
                self.seen[wait.key] = min(exactness, self.seen.get(wait.key, exactness))
            self.perhaps |= {wait.key for wait in comparison.perhaps}
            self.confirmed |= comparison.confirmed
        self.perhaps -= self.seen.keys()

    @property
    def waits(self) -> list[DeclaredWait]:
        return self.comparisons[0].declared.waits

    def lines(self) -> Iterator[str]:
        if any(wait.is_unsure for wait in self.waits):
            yield f"unsure lines that were seen: {len(self.confirmed)}"
            yield from (f"  line {wait.number}: {wait}" for wait in self.waits if wait.number in self.confirmed)
        unseen = [wait for wait in self.waits if wait.key not in self.seen and wait.key not in self.perhaps]
        yield f"declared, never seen: {len(unseen)}"
        yield from (f"  line {wait.number}: {wait}" for wait in unseen)
        yield f"# {self.counts(len(unseen))}"

    def counts(self, unseen: int) -> str:
        exact = collections.Counter(self.seen.values())
        how = ", ".join(f"{exact[one]} {one.words}" for one in Exactness if exact[one])
        holes, dismissed = (
            len({(one.edge.source.name, one.edge.target.name) for each in self.comparisons for one in each.seen[kind]})
            for kind in (Class.HOLE, Class.DISMISSED)
        )
        return (
            f"{says.count(len(self.waits), 'wait')} declared: {len(self.seen)} seen ({how or 'none'}), {len(self.perhaps)} perhaps, "
            f"{unseen} never. {holes} seen and not declared, {dismissed} seen and dismissed."
        )
