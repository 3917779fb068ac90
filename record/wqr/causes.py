"""Who was waited for: from each sleep of an item, and from each call that flushes, to facts, and how each is known.

    flush, cancel, flushwq, drain   the call says what it waits for
    done                            an item ended the sleep
    before                          an item had completed it already (recorded with --full)
    queued                          an item queued, during the sleep, who ended it
    socket                          the same of a sleep until something comes in at a socket
    early                           an item woke it, and it went on sleeping at the same place
    through                         a thread ended the sleep, and was itself woken by an item during the sleep
    lock                            an item had the lock, or who had it was woken by an item meanwhile
"""

import re
from bisect import bisect_left, bisect_right
from dataclasses import dataclass
from enum import Enum
from operator import attrgetter
from typing import Iterator, Optional

from .history import Agent, Call, History, Kind, Run, Sleep

# Who sleeps in one of these waits for a lock, and so for its holder, which has started.
LOCK = re.compile(
    r"rwsem_down_(read|write)_slowpath|__mutex_lock.*|___?down.*|__down.*"
    r"|down(_read|_write|_killable|_interruptible|_timeout)?|__lock_sock|__folio_lock.*|__?rt_mutex_.*slow.*"
    r"|__wait_on_bit_lock|bit_wait_lock|__percpu_down_read|percpu_rwsem_wait"
)
# The functions in which a call that flushes sleeps.
FLUSHERS = {"__flush_work", "__flush_workqueue", "drain_workqueue"}
# Who sleeps here waits for what comes in at a socket. An item that sends there has the socket's lock, and when it lets that
# go it hands on what came in meanwhile: it ends the sleep, and isn't what was waited for.
RECEIVERS = {"sk_wait_data"}
# In how many of the innermost functions of a stack a lock is looked for: behind them are callers.
INNERMOST = 14


class How(Enum):
    FLUSH = "flush"
    CANCEL = "cancel"
    FLUSHWQ = "flushwq"
    DRAIN = "drain"
    DONE = "done"
    BEFORE = "before"
    QUEUED = "queued"
    SOCKET = "socket"
    SHARED = "shared"
    EARLY = "early"
    THROUGH = "through"
    LOCK = "lock"

    @property
    def is_whole(self) -> bool:
        """Whether it is for all of a workqueue."""
        return self in (How.FLUSHWQ, How.DRAIN)

    @property
    def is_guess(self) -> bool:
        return self in (How.SOCKET, How.SHARED, How.EARLY, How.THROUGH, How.LOCK)


# What is in the order of these is looked up by them: long records have thousands for one thread, or one work_struct.
TIME, END, START = attrgetter("time"), attrgetter("end"), attrgetter("start")
CALLS = {how.value: how for how in (How.FLUSH, How.CANCEL, How.FLUSHWQ, How.DRAIN)}


@dataclass(eq=False)
class Fact:
    """An item waited for another one. Without a target it is known by its function or its workqueue alone: no execution
    of it was seen. `asleep`: when the sleep began that was ended so. `had_started`: the target ran already by then.
    `through`: the thread between them."""

    run: Run
    how: How
    time: int
    slept: int
    stack: tuple[int, ...]
    target: Optional[Run] = None
    call: Optional[Call] = None
    ender: tuple[int, ...] = ()
    ended_in_interrupt: bool = False
    through: Optional[int] = None
    is_never_queued: bool = False
    asleep: int = 0

    @property
    def had_started(self) -> bool:
        return self.target is not None and self.target.start <= max(self.time, self.asleep)

    @property
    def is_exact(self) -> bool:
        """Known by a call, or since an item ended the wait that hadn't started when it began."""
        return not self.how.is_guess and not self.is_never_queued and (self.call is not None or not self.had_started)


@dataclass(eq=False)
class Wait:
    """The sleeps of an item at one place, one behind the other: who was woken too early sleeps again. It may be several
    waits as well, which a stack doesn't tell. So who ended the last sleep is surely waited for only if it hadn't
    started when the first sleep began that it ended."""

    sleeps: list[Sleep]
    is_lock: bool

    @property
    def run(self) -> Run:
        return self.sleeps[0].run

    @property
    def start(self) -> int:
        return self.sleeps[0].start

    @property
    def end(self) -> Optional[int]:
        return self.sleeps[-1].end

    @property
    def by(self) -> Optional[Agent]:
        return self.sleeps[-1].by

    @property
    def stack(self) -> tuple[int, ...]:
        return self.sleeps[0].stack

    def first_ended_by(self, by: Agent) -> Sleep:
        return next(sleep for sleep in self.sleeps if sleep.by and sleep.by.pid == by.pid and sleep.by.run is by.run)


class Causes:
    def __init__(self, history: History) -> None:
        self.history = history
        self.facts: list[Fact] = []
        self.quiet: list[Wait] = []  # waits that no item ended, as far as it is known
        self.unseen = 0  # sleeps of which it isn't known who ended them
        self.sleeps_of: dict[int, list[Sleep]] = {}
        for sleep in history.sleeps:
            self.sleeps_of.setdefault(sleep.pid, []).append(sleep)
        self.runs_of_work: dict[int, list[Run]] = {}
        for run in history.runs:
            self.runs_of_work.setdefault(run.work, []).append(run)
        for runs in self.runs_of_work.values():
            runs.sort(key=START)  # (what ran when the record began is known later)
        self.ever_queued = {one.work for one in history.queueings}
        self.queued_by_interrupts = {(one.work, one.function) for one in history.queueings if one.is_by_interrupt}
        for wait in self.waits():
            self.explain(wait)
        for call in history.calls:
            self.facts.append(self.of_call(call))
        for one in history.completed:
            fact = Fact(one.run, How.BEFORE, one.time, 0, one.stack, one.by.run, ender=one.by_stack)
            self.facts.append(fact)

    # Waits ------------------------------------------------------------------------------------------

    def has(self, stack: tuple[int, ...], names: set[str]) -> bool:
        return any(self.history.symbols.function(address) in names for address in stack)

    def is_lock(self, stack: tuple[int, ...]) -> bool:
        return any(LOCK.fullmatch(self.history.symbols.function(address)) for address in stack[:INNERMOST])

    def waits(self) -> Iterator[Wait]:
        """The waits of items, but for those inside calls that flush, which are added to the calls."""
        for sleeps in self.sleeps_of.values():
            same: list[Sleep] = []
            for sleep in sleeps:
                is_in_call = sleep.call is not None and self.has(sleep.stack, FLUSHERS)
                if same and (is_in_call or sleep.run is not same[0].run or sleep.stack != same[0].stack):
                    yield Wait(same, self.is_lock(same[0].stack))
                    same = []
                if is_in_call:
                    sleep.call.slept += sleep.end - sleep.start
                else:
                    same.append(sleep)
            if same:
                yield Wait(same, self.is_lock(same[0].stack))

    # Calls ------------------------------------------------------------------------------------------

    def of_call(self, call: Call) -> Fact:
        target = self.last_run(call) if call.function else None
        fact = Fact(call.run, CALLS[call.how], call.time, call.slept, call.stack, target, call)
        fact.is_never_queued = bool(call.function) and target is None and call.work not in self.ever_queued
        return fact

    def last_run(self, call: Call) -> Optional[Run]:
        """The execution that a flush waited for, or the last one before."""
        runs = self.runs_of_work.get(call.work, [])
        at = bisect_right(runs, call.time + call.slept, key=START)
        return runs[at - 1] if at else None

    # Sleeps -----------------------------------------------------------------------------------------

    def explain(self, wait: Wait) -> None:
        if wait.by is None:
            self.unseen += 1
            return
        found = list(self.of_lock(wait) if wait.is_lock else self.of_end(wait))
        found = [fact for fact in found if fact.target is not wait.run]
        if not found:
            self.quiet.append(wait)
        self.facts += found

    def fact(self, wait: Wait, how: How, target: Run, sleep: Sleep, through: Optional[int] = None) -> Fact:
        slept = wait.end - wait.start
        is_interrupt = sleep.by is not None and sleep.by.kind is Kind.INTERRUPT
        fact = Fact(wait.run, how, wait.start, slept, wait.stack, target, None, sleep.by_stack, is_interrupt, through)
        fact.asleep = wait.first_ended_by(wait.by).start
        return fact

    def of_end(self, wait: Wait) -> Iterator[Fact]:
        last = wait.sleeps[-1]
        receives = self.has(wait.stack, RECEIVERS)
        for how, target, through in self.behind(wait.by, wait.start, wait.end, How.DONE):
            how = How.SOCKET if receives and how is How.QUEUED else how
            yield self.fact(wait, how, target, last, through)
        named = {id(wait.by.run)}
        for sleep in wait.sleeps[:-1]:
            if (
                sleep.by
                and sleep.by.kind is Kind.ITEM
                and id(sleep.by.run) not in named
                and not sleep.by.run.is_barrier
            ):
                named.add(id(sleep.by.run))
                yield self.fact(wait, How.EARLY, sleep.by.run, sleep)

    def of_lock(self, wait: Wait) -> Iterator[Fact]:
        """The holder has started. What matters is what it was woken by meanwhile."""
        last = wait.sleeps[-1]
        if wait.by.kind is Kind.ITEM and not wait.by.run.is_barrier:
            yield self.fact(wait, How.LOCK, wait.by.run, last)
            sleeps = self.sleeps_of.get(wait.by.pid, [])
            first, behind = bisect_right(sleeps, wait.start, key=END), bisect_left(sleeps, wait.end, key=END)
            for sleep in sleeps[first:behind]:
                if sleep.by and sleep.by.kind is Kind.ITEM and not sleep.by.run.is_barrier:
                    yield self.fact(wait, How.LOCK, sleep.by.run, last, wait.by.pid)
        elif wait.by.kind is Kind.THREAD:
            for _, target, through in self.through(wait.by, wait.start, wait.end):
                yield self.fact(wait, How.LOCK, target, last, through)

    def behind(self, by: Agent, start: int, end: int, how: How) -> Iterator[tuple[How, Run, Optional[int]]]:
        """The items without which `by` would not have done at `end` what it did, as far as that began after `start`.
        This isn't sure where interrupts queue the same, too, as they do for a connection: there whoever sends queues
        what also receives."""
        seen: set[int] = set()
        while by.kind is Kind.ITEM and id(by.run) not in seen and not by.run.is_barrier:
            seen.add(id(by.run))
            yield how, by.run, None
            one = by.run.queueing
            if one is None or one.time <= start:
                return
            is_shared = how is How.SHARED or (one.work, one.function) in self.queued_by_interrupts
            by, end, how = one.by, one.time, How.SHARED if is_shared else How.QUEUED
        if by.kind is Kind.THREAD:
            yield from self.through(by, start, end)

    def through(self, by: Agent, start: int, end: int) -> Iterator[tuple[How, Run, Optional[int]]]:
        """The items that woke a thread between these times."""
        seen: set[int] = set()
        wakings = self.history.wakings.get(by.pid, [])
        first, behind = bisect_right(wakings, start, key=TIME), bisect_left(wakings, end, key=TIME)
        for waking in reversed(wakings[first:behind]):
            if waking.by.kind is Kind.ITEM and id(waking.by.run) not in seen and not waking.by.run.is_barrier:
                seen.add(id(waking.by.run))
                yield How.THROUGH, waking.by.run, by.pid
