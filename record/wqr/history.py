"""What happened: which items ran in which threads, who queued them, where they slept, and who made them go on."""

import collections
import heapq
from dataclasses import dataclass, field
from enum import Enum
from typing import Iterable, Iterator, Optional

from .archive import PLACES, Archive
from .events import Event, Stream, formats_of
from .symbols import Symbols

BARRIER = "wq_barrier_func"


@dataclass(frozen=True)
class Workqueue:
    """A workqueue, as it was when something was queued to it or it was flushed."""

    address: int
    name: str
    flags: int
    has_rescuer: bool
    max_active: int


class Kind(Enum):
    ITEM = "an item"
    THREAD = "a thread"
    INTERRUPT = "an interrupt or a timer"


@dataclass(frozen=True)
class Agent:
    """Who did something."""

    kind: Kind
    pid: int
    run: Optional["Run"] = None


@dataclass(eq=False)
class Queueing:
    """An item was queued. `armed` is who set the timer, for delayed work."""

    work: int
    function: int
    workqueue: Workqueue
    time: int
    by: Agent
    stack: tuple[int, ...]
    armed: Optional["Arming"]

    @property
    def is_by_interrupt(self) -> bool:
        """Whether an interrupt queued it, or set the timer for it."""
        return (self.armed or self).by.kind is Kind.INTERRUPT


@dataclass(frozen=True)
class Arming:
    by: Agent
    stack: tuple[int, ...]


@dataclass(eq=False)
class Run:
    """One execution of an item. `level`: how deep it waited for executions of its own kind."""

    work: int
    function: int
    workqueue: Optional[Workqueue]
    pid: int
    start: int
    queueing: Optional[Queueing]
    is_barrier: bool
    end: Optional[int] = None
    level: int = 0
    is_kthread_work: bool = False


@dataclass(eq=False)
class Call:
    """A call that says itself what it waits for: flush, cancel, flushwq, drain."""

    run: Run
    how: str
    time: int
    stack: tuple[int, ...]
    work: int
    function: int
    workqueue: Optional[Workqueue]
    slept: int = 0


@dataclass(eq=False)
class Sleep:
    """An item slept. Without `end` it did so when the record ended; without `by` it isn't known who ended it."""

    run: Run
    start: int
    stack: tuple[int, ...]
    call: Optional[Call]
    end: Optional[int] = None
    by: Optional[Agent] = None
    by_stack: tuple[int, ...] = ()

    @property
    def pid(self) -> int:
        return self.run.pid


@dataclass(frozen=True)
class Waking:
    """Somebody woke a thread that isn't a worker."""

    pid: int
    time: int
    by: Agent


@dataclass(frozen=True)
class Completed:
    """wait_for_completion found that somebody had completed it before."""

    run: Run
    time: int
    stack: tuple[int, ...]
    by: Agent
    by_stack: tuple[int, ...]


@dataclass
class History:
    symbols: Symbols
    runs: list[Run] = field(default_factory=list)
    queueings: list[Queueing] = field(default_factory=list)
    sleeps: list[Sleep] = field(default_factory=list)
    open_sleeps: list[Sleep] = field(default_factory=list)
    waiting: list[Queueing] = field(default_factory=list)  # what hadn't started when the record ended
    calls: list[Call] = field(default_factory=list)
    wakings: dict[int, list[Waking]] = field(default_factory=lambda: collections.defaultdict(list))
    completed: list[Completed] = field(default_factory=list)
    names: dict[int, str] = field(default_factory=dict)
    workqueues: dict[int, Workqueue] = field(default_factory=dict)
    events: int = 0
    gaps: int = 0
    begin: int = 0
    end: int = 0
    barriers: set[int] = field(default_factory=set)  # functions of what a flush puts behind an item

    @staticmethod
    def of(archive: Archive) -> "History":
        symbols = Symbols(archive.text("kallsyms"), is_whole=PLACES not in archive.parts)
        formats = formats_of(archive.text("formats"))
        streams = [Stream(cpu, pages, formats) for cpu, pages in archive.pages().items()]
        events = heapq.merge(*(stream.events() for stream in streams), key=lambda event: event.time)
        history = Reader(symbols, archive.threads()).read(events)
        history.gaps = sum(len(stream.gaps) for stream in streams)
        return history

    def stacks(self) -> Iterator[tuple[int, ...]]:
        for queueing in self.queueings:
            yield queueing.stack
            if queueing.armed:
                yield queueing.armed.stack
        for sleep in [*self.sleeps, *self.open_sleeps]:
            yield sleep.stack
            yield sleep.by_stack
        for call in self.calls:
            yield call.stack
        for completed in self.completed:
            yield completed.stack
            yield completed.by_stack

    def addresses(self) -> set[int]:
        """All that is in a stack."""
        return {address for stack in set(self.stacks()) for address in stack}

    def functions(self) -> set[int]:
        """All work functions."""
        return {one.function for one in [*self.runs, *self.queueings, *self.calls]} | self.barriers


class Reader:
    """Goes through the events in their order."""

    def __init__(self, symbols: Symbols, names: dict[int, str]) -> None:
        self.history = History(symbols, names=names)
        self.running: dict[int, Run] = {}
        self.asleep: dict[int, Sleep] = {}
        self.queued: dict[int, Queueing] = {}
        self.waiting: dict[int, Queueing] = {}
        self.armed: dict[int, Arming] = {}
        self.calls: dict[int, Call] = {}
        self.done: dict[int, tuple[Agent, tuple[int, ...]]] = {}
        self.does = {
            "sleep": self.sleeps,
            "sched_waking": self.wakes,
            "queue": self.queues,
            "delayed": self.arms,
            "workqueue_execute_start": self.starts,
            "workqueue_execute_end": self.ends,
            "sched_kthread_work_execute_start": self.starts_in_kthread,
            "sched_kthread_work_execute_end": self.ends,
            "flush_work": self.flushes,
            "flush_wq": self.flushes,
            "drain_wq": self.flushes,
        }

    def read(self, events: Iterable[Event]) -> History:
        history = self.history
        for event in events:
            if not history.events:
                history.begin = event.time
            history.events += 1
            history.end = event.time
            self.do(event)
        history.open_sleeps = sorted(self.asleep.values(), key=lambda sleep: sleep.start)
        history.waiting = sorted(self.waiting.values(), key=lambda one: one.time)
        return history

    def do(self, event: Event) -> None:
        if event.name in self.does:
            self.does[event.name](event)
        elif event.name.startswith("wfc"):
            self.waits_for_completion(event)
        elif event.name.startswith("complete"):
            self.done[event.values["c"]] = self.agent(event), event.stack

    def agent(self, event: Event) -> Agent:
        if event.in_interrupt:
            return Agent(Kind.INTERRUPT, event.pid)
        run = self.running.get(event.pid)
        return Agent(Kind.ITEM, event.pid, run) if run else Agent(Kind.THREAD, event.pid)

    def workqueue(self, event: Event) -> Workqueue:
        value = event.values
        told = Workqueue(value["wq"], value["name"], value["flags"], value["rescuer"] != 0, value["max"])
        known = self.history.workqueues.get(told.address)
        if known is not None and known.name == told.name:
            return known
        self.history.workqueues[told.address] = told
        return told

    # What each event says ---------------------------------------------------------------------------

    def arms(self, event: Event) -> None:
        self.armed[event.values["work"]] = Arming(self.agent(event), event.stack)

    def queues(self, event: Event) -> None:
        work = event.values["work"]
        one = Queueing(
            work,
            event.values["func"],
            self.workqueue(event),
            event.time,
            self.agent(event),
            event.stack,
            self.armed.pop(work, None),
        )
        self.queued[work] = self.waiting[work] = one
        self.history.queueings.append(one)

    def starts(self, event: Event) -> None:
        work, function = event.values["work"], event.values["function"]
        self.waiting.pop(work, None)
        one = self.queued.get(work)
        if one is not None and one.function != function:
            one = None  # the queueing was missed, and an older one is of another function
        is_barrier = self.history.symbols.function(function) == BARRIER
        if is_barrier:
            self.history.barriers.add(function)
        self.begin(Run(work, function, one.workqueue if one else None, event.pid, event.time, one, is_barrier))

    def starts_in_kthread(self, event: Event) -> None:
        self.begin(
            Run(
                event.values["work"],
                event.values["function"],
                None,
                event.pid,
                event.time,
                None,
                False,
                is_kthread_work=True,
            )
        )

    def begin(self, run: Run) -> None:
        self.over(run.pid, run.start)
        self.running[run.pid] = run
        if not run.is_barrier:
            self.history.runs.append(run)

    def ends(self, event: Event) -> None:
        self.over(event.pid, event.time)

    def over(self, pid: int, time: int) -> None:
        """What ran in this thread has ended, and so has each of its sleeps."""
        self.wake(pid, time, None, ())
        self.calls.pop(pid, None)
        run = self.running.pop(pid, None)
        if run is not None:
            run.end = time

    def sleeps(self, event: Event) -> None:
        self.wake(event.pid, event.time, None, ())
        run = self.running.get(event.pid)
        if run is None:
            # It has run since before the record began.
            run = Run(event.values["work"], event.values["func"], None, event.pid, self.history.begin, None, False)
            self.begin(run)
        if not run.is_barrier:
            self.asleep[event.pid] = Sleep(run, event.time, event.stack, self.calls.get(event.pid))

    def wakes(self, event: Event) -> None:
        pid = event.values["pid"]
        self.history.names.setdefault(pid, event.values["comm"])
        if pid in self.asleep:
            self.wake(pid, event.time, self.agent(event), event.stack)
        elif pid not in self.running:
            self.history.wakings[pid].append(Waking(pid, event.time, self.agent(event)))

    def wake(self, pid: int, time: int, by: Optional[Agent], stack: tuple[int, ...]) -> None:
        sleep = self.asleep.pop(pid, None)
        if sleep is not None:
            sleep.end, sleep.by, sleep.by_stack = time, by, stack
            self.history.sleeps.append(sleep)

    def flushes(self, event: Event) -> None:
        value = event.values
        if value.get("cancel", 0) & 1:
            self.waiting.pop(value["work"], None)
        run = self.running.get(event.pid)
        if run is None or event.in_interrupt:
            return
        workqueue = self.workqueue(event) if "wq" in value else None
        how = {"flush_wq": "flushwq", "drain_wq": "drain"}.get(event.name) or (
            "cancel" if value["cancel"] & 1 else "flush"
        )
        call = Call(run, how, event.time, event.stack, value.get("work", 0), value.get("func", 0), workqueue)
        self.calls[event.pid] = call
        self.history.calls.append(call)

    def waits_for_completion(self, event: Event) -> None:
        run = self.running.get(event.pid)
        by, by_stack = self.done.pop(event.values["c"], (None, ()))
        if run and by and by.kind is Kind.ITEM and by.run is not run and not event.in_interrupt:
            self.history.completed.append(Completed(run, event.time, event.stack, by, by_stack))
