"""Which frame of a stack a comment cites: the first one that isn't the machinery of waiting, waking and queueing."""

import collections
import re
from dataclasses import dataclass
from typing import Iterable

from .causes import Fact
from .items import Edge, Item
from .places import Frame, Places

# Files whose code makes a sleep, and isn't where somebody decided to wait.
MACHINERY = re.compile(
    r"(kernel/(sched|workqueue|locking|time|trace|rcu|events|kthread|kprobes|fork|softirq)"
    r"|include/|lib/|arch/|block/bio\.c)"
)
# The same by their names, for what has no file, and in files that have other code too.
SLEEPERS = re.compile(
    r"kprobe_.*|ftrace_.*|trace_.*|do_trace_event_raw_event_.*|__traceiter_.*|wq_worker_sleeping|__pfx_.*"
    r"|asm_.*|__?schedule|schedule(_.*)?|io_schedule.*|__wait_for_common|wait_for_completion.*"
    r"|wait_for_common.*|try_to_wake_up|__wake_up.*|wake_up.*|autoremove_wake_function|default_wake_function"
    r"|woken_wake_function|prepare_to_wait.*|bit_wait.*|__wait_on_bit.*|out_of_line_wait_on_bit.*"
    r"|var_wake_function|wake_bit_function|swake_up.*|complete.*|mutex_.*|__mutex_.*|down(_.*)?|__down.*"
    r"|up(_.*)?|rwsem_.*|rt_mutex.*|preempt_schedule.*|__cond_resched|ttwu_.*|wait_woken|__flush_work.*"
    r"|flush_work|flush_delayed_work|flush_workqueue|drain_workqueue|__queue_work|queue_work_on"
    r"|queue_delayed_work_on|mod_delayed_work_on|__queue_delayed_work|delayed_work_timer_fn"
    r"|__cancel_work_(timer|sync)|cancel_(delayed_)?work_sync|call_timer_fn|__run_timers|__flush_workqueue"
    r"|destroy_workqueue|ret_from_fork.*|kthread|worker_thread|rescuer_thread|process_one_work"
    r"|process_scheduled_works|kthread_worker_fn|msleep|usleep_range.*"
)
INTERRUPTS = ("asm_", "handle_softirqs", "__do_softirq", "do_softirq", "__irq_exit_rcu", "call_timer_fn")
# How many more frames are named, each of another folder.
MORE = 2


@dataclass(frozen=True)
class Site:
    """A place where items waited, and the frames from there outwards."""

    cited: str
    frames: tuple[Frame, ...]
    count: int

    @property
    def words(self) -> str:
        """The place, and from which other folders it was come to."""
        return ", from ".join([self.cited, *from_folders(self.frames)])


def is_machinery(frame: Frame) -> bool:
    return bool(SLEEPERS.fullmatch(frame.function)) or bool(frame.file and MACHINERY.match(frame.file))


def from_folders(frames: tuple[Frame, ...]) -> list[str]:
    folders, found = {frames[0].file.rpartition("/")[0]} if frames else set(), []
    for frame in frames:
        folder = frame.file.rpartition("/")[0]
        if folder and folder not in folders and not is_machinery(frame):
            folders.add(folder)
            found.append(str(frame))
    return found[:MORE]


class Sites:
    def __init__(self, places: Places) -> None:
        self.places = places

    def learn(self, stacks: Iterable[tuple[int, ...]]) -> None:
        self.places.learn({address for stack in stacks for address in stack})

    def frames(self, stack: tuple[int, ...]) -> list[Frame]:
        """The frames outside the machinery, the innermost first."""
        return [frame for frame in self.places.chain(stack) if not is_machinery(frame)]

    def cited(self, stack: tuple[int, ...]) -> str:
        frames = self.frames(stack)
        if frames:
            return str(frames[0])
        chain = self.places.chain(stack)
        return str(chain[0]) if chain else "a place that wasn't recorded"

    def of_edge(self, edge: Edge) -> list[Site]:
        """Where the source waited, the place of the most waits first."""
        return in_order(merged(self.ways_of_edge(edge)))

    def ways_of_edge(self, edge: Edge) -> list[Site]:
        """The same, each way by which such a place was come to for itself."""
        return self.ways(edge.facts)

    def ways(self, facts: Iterable[Fact]) -> list[Site]:
        counts: collections.Counter[tuple[Frame, ...]] = collections.Counter()
        for fact in facts:
            counts[tuple(self.frames(fact.stack))] += 1
        sites = [
            Site(str(frames[0]) if frames else "a place that wasn't recorded", frames, n)
            for frames, n in counts.items()
        ]
        return in_order(sites)

    def of_queueing(self, item: Item) -> list[str]:
        """From where an item was queued."""
        counts: collections.Counter[str] = collections.Counter()
        for place, count in item.places.items():
            counts[self.actor(place.stack, place.in_interrupt, place.by_function)] += count
        return [cited for cited, _ in sorted(counts.items(), key=lambda row: (-row[1], row[0]))]

    def actor(self, stack: tuple[int, ...], in_interrupt: bool, by_function: int = 0) -> str:
        """Where somebody queued or woke. In an interrupt, what it interrupted doesn't count."""
        names = [self.places.symbols.function(address) for address in stack]
        is_timer = "delayed_work_timer_fn" in names
        if in_interrupt:
            end = next((at for at, name in enumerate(names) if name.startswith(INTERRUPTS)), len(stack))
            stack = stack[:end]
        frames = self.frames(stack)
        if frames:
            return str(frames[0]) + (" (in an interrupt)" if in_interrupt else "")
        if is_timer:
            return "a timer"
        if in_interrupt:
            return "an interrupt"
        return (
            f"{self.places.symbols.function(by_function)}, by a tail call"
            if by_function
            else "a place that wasn't recorded"
        )


def in_order(sites: list[Site]) -> list[Site]:
    return sorted(sites, key=lambda site: (-site.count, site.cited))


def merged(sites: list[Site]) -> list[Site]:
    """Sites that cite the same place are one; it has the frames of the most frequent."""
    by_place: dict[str, Site] = {}
    for site in sorted(sites, key=lambda site: -site.count):
        known = by_place.get(site.cited)
        by_place[site.cited] = Site(
            site.cited, known.frames if known else site.frames, site.count + (known.count if known else 0)
        )
    return list(by_place.values())


def stacks_of(edge: Edge) -> Iterable[tuple[int, ...]]:
    for fact in edge.facts:
        yield fact.stack
        yield fact.ender
