"""A declaration and an assignment of what was recorded."""

import collections
from typing import Iterator

from . import says
from .causes import How, Wait
from .chosen import Chosen
from .hang import Hang, Open, Step
from .history import History, Kind, Queueing, Workqueue
from .items import Edge, Item, Items
from .sites import Sites, stacks_of
from .spelling import flush_line

# How many places one line cites.
MOST_PLACES = 4
MOST_SITES = 3
LONGEST_LINE = 4000
# How a flush line says what kind of wait it is (examples/README.md). The first that an edge has is said.
WORDS = {
    How.FLUSH: "flush",
    How.FLUSHWQ: "flushwq",
    How.DRAIN: "flushwq",
    How.CANCEL: "cancel",
    How.DONE: "done",
    How.BEFORE: "done",
    How.QUEUED: "done",
    How.SOCKET: "done",
    How.SHARED: "done",
    How.EARLY: "done",
    How.THROUGH: "done",
    How.LOCK: "lock",
}
FLAGS = {
    1 << 1: "WQ_UNBOUND",
    1 << 2: "WQ_FREEZABLE",
    1 << 3: "WQ_MEM_RECLAIM",
    1 << 4: "WQ_HIGHPRI",
    1 << 5: "WQ_CPU_INTENSIVE",
    1 << 7: "WQ_POWER_EFFICIENT",
    1 << 17: "ordered",
}


class Drawing:
    """The texts of a record."""

    def __init__(self, items: Items, chosen: Chosen, sites: Sites, head: list[str]) -> None:
        self.items, self.chosen, self.sites, self.head = items, chosen, sites, head
        self.history: History = items.history
        self.quiet = [wait for wait in items.causes.quiet if self.has(wait)]
        stacks = [stack for edge in chosen.edges for stack in stacks_of(edge)]
        stacks += [place.stack for item in chosen.items for place in item.places]
        stacks += [wait.stack for wait in self.quiet]
        stacks += [one.stack for one in [*self.history.open_sleeps, *self.history.waiting]]
        sites.learn(stacks)
        self.hang = Hang(items, sites, chosen.items)

    def has(self, wait: Wait) -> bool:
        return self.items.item_of(wait.run) in self.chosen.items

    # The declaration --------------------------------------------------------------------------------

    def declaration(self) -> str:
        blocks = [
            [f"# {line}" for line in self.head],
            list(self.item_lines()),
            list(self.flush_lines()),
            list(self.quiet_lines()),
            [f"# {line}" for line in self.hang_lines()],
        ]
        return "\n\n".join("\n".join(line[:LONGEST_LINE] for line in block) for block in blocks if block) + "\n"

    def item_lines(self) -> Iterator[str]:
        items = [item for item in self.chosen.items if item.runs]
        width = max((len(item.name) for item in items), default=0)
        for item in items:
            places = ", ".join(self.sites.of_queueing(item)[:MOST_PLACES])
            queued = f"{item.function}, queued to {item.kind}" + (f" at {places}" if places else "")
            yield f"item {item.name:{width}}  # {queued}; ran {says.times(item.runs)}"

    def flush_lines(self) -> Iterator[str]:
        width = 2 * max((len(item.name) for item in self.chosen.items), default=0) + 8
        for edge in self.chosen.edges:
            yield f"{self.line(edge):{width}}  # {self.words(edge)}"

    def line(self, edge: Edge) -> str:
        is_own = edge.source is edge.target and not edge.is_whole
        if edge.is_never_queued or not edge.target.runs:
            return f"# not queued: {edge.source.name} {edge.target.name}"
        return flush_line(edge.source.name, edge.target.name, edge.is_whole, edge.is_sure and not is_own)

    def words(self, edge: Edge) -> str:
        """Kind, places, and how the wait is known."""
        hows = {fact.how for fact in edge.facts}
        how = next(how for how in How if how in hows)
        places = ", ".join(site.words for site in self.sites.of_edge(edge)[:MOST_SITES])
        return "; ".join([f"{WORDS[how]} {places}", says.seen(edge), *self.remarks(edge, how)])

    def remarks(self, edge: Edge, how: How) -> Iterator[str]:
        if how is How.QUEUED:
            yield "it queues who ends the wait"
        if how is How.SOCKET:
            yield "it queues who ends the wait, or who only had the socket's lock"
        if how is How.SHARED:
            yield "it queues who ends the wait, as interrupts do, too"
        if how is How.EARLY:
            yield "it woke the waiter, which slept again"
        if how is How.BEFORE:
            yield "it had ended the wait already"
        threads = {self.history.names.get(fact.through, "?") for fact in edge.facts if fact.through is not None}
        if how is How.LOCK:
            yield "a lock: " + (
                f"its holder {', '.join(sorted(threads))} was woken by it"
                if threads
                else "it was the holder, and had started"
            )
        elif how is How.THROUGH:
            yield f"through {', '.join(sorted(threads))}, which it woke meanwhile"
        if edge.is_never_queued:
            yield "nobody queued this work_struct"
        elif not edge.target.runs:
            yield "it never ran"
        if how in (How.DONE, How.QUEUED) and not edge.is_sure:
            yield "it had always started before"
        ended = collections.Counter(
            self.sites.actor(fact.ender, fact.ended_in_interrupt)
            for fact in edge.facts
            if fact.ender and fact.how is How.DONE
        )
        if ended:
            yield f"ended at {ended.most_common(1)[0][0]}"

    def quiet_lines(self) -> Iterator[str]:
        counts: collections.Counter[tuple[str, str, str]] = collections.Counter()
        for wait in self.quiet:
            name = self.items.item_of(wait.run).name
            by = (
                "itself"
                if wait.by.run is wait.run
                else says.ender(wait.by.kind, self.history.names.get(wait.by.pid, "?"))
            )
            counts[name, self.sites.cited(wait.stack), by] += 1
        for (name, place, by), count in sorted(counts.items()):
            yield f"# no item: {name} slept at {place}, and {by} ended it, {says.times(count)}"

    # What hung ---------------------------------------------------------------------------------------

    def hang_lines(self) -> Iterator[str]:
        """The sleeps that hadn't ended, what hadn't started, and the circles: of a hang these are the waits
        themselves."""
        for sleeper in self.hang.open:
            yield f"open: {self.open_words(sleeper)}"
        for one in self.hang.waiting:
            yield f"not started: {self.waiting_words(one)}"
        for circle in self.hang.circles():
            yield f"circle: {self.circle_words(circle)}"

    def open_words(self, sleeper: Open) -> str:
        sleep = sleeper.sleep
        since = says.milliseconds(self.history.end - sleep.start)
        place, thread = self.sites.cited(sleep.stack), self.history.names.get(sleep.pid, "?")
        names = " and ".join(item.name for item in sleeper.targets)
        before = "it flushes" if sleeper.is_exact else "before, it waited there for"
        targets = f"; {before} {names}" if names else ""
        return f"{sleeper.item.name} still slept at {place}, for {since}, in the thread {thread}{targets}"

    def waiting_words(self, one: Queueing) -> str:
        since = says.milliseconds(self.history.end - one.time)
        return f"{self.history.symbols.function(one.function)} was queued to {one.workqueue.name} {since} before the end"

    def circle_words(self, circle: list[Step]) -> str:
        """From one who sleeps back to it."""
        behind = [step.sleeper for step in [*circle[1:], circle[0]]]
        parts = [self.step_words(step, other) for step, other in zip(circle, behind)]
        return f"{circle[0].sleeper.item.name} {', which '.join(parts)}"

    def step_words(self, step: Step, behind: Open) -> str:
        waits = f"waits for {step.target.name}"
        if step.waits_on is None:
            return waits
        name = step.waits_on.workqueue.name
        is_rescuer = self.hang.is_in_rescuer(behind.sleep, step.waits_on.workqueue)
        busy = f"the rescuer of {name} executes" if is_rescuer else f"{name} executes one at a time, now"
        return f"{waits}, which hasn't started: {busy} {behind.item.name}"

    # The assignment ---------------------------------------------------------------------------------

    def assignment(self) -> str:
        lines: dict[tuple[str, int], list[Item]] = collections.defaultdict(list)
        for item in self.chosen.items:
            if item.runs:
                lines[item.kind, item.key.instance or 0].append(item)
        rows = [f"# {self.head[0]}"]
        for number, (_, items) in enumerate(sorted(lines.items(), key=lambda row: row[0])):
            rows.append(self.assignment_line(number, items))
        return "\n".join(rows) + "\n"

    def assignment_line(self, number: int, items: list[Item]) -> str:
        known = {address: one for item in items for address, one in item.workqueues.items()}
        names = " ".join(sorted(item.name for item in items))
        if any(item.is_kthread_work for item in items):
            return f"wq {number} {names}  # {items[0].kind}: a kernel thread, ordered"
        if not known:
            return f"norescuer {number} {names}  # {items[0].kind}: it isn't known on which workqueue this was"
        word = "wq" if all(one.has_rescuer for one in known.values()) else "norescuer"
        one = next(iter(known.values()))
        several = f", {len(known)} of them" if len(known) > 1 else ""
        flags = ", ".join(flags_of(one))
        return f"{word} {number} {names}  # {items[0].kind}, {flags}, max_active {one.max_active}{several}"


def flags_of(workqueue: Workqueue) -> list[str]:
    return [name for bit, name in FLAGS.items() if workqueue.flags & bit] or ["no flags"]
