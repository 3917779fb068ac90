"""Histories that are made up: functions and events, as a kernel tells them."""

import pathlib
from dataclasses import dataclass, field

from wqr.archive import Archive
from wqr.causes import Causes
from wqr.chosen import Chosen
from wqr.declaration import Drawing
from wqr.events import Event
from wqr.history import History, Reader
from wqr.items import Items
from wqr.places import Places
from wqr.sites import Sites
from wqr.symbols import Symbols

# Functions, a page apart each.
NAMES = (
    "a_work b_work c_work d_work wait_here wait_there wake_here queue_here schedule wq_worker_sleeping "
    "process_one_work __flush_work "
    "__flush_workqueue wq_barrier_func __mutex_lock __queue_work xfs_file_fsync "
    "nvmet_tcp_io_work call_usermodehelper_exec_work synchronize_rcu sk_wait_data"
).split()
AT = {name: 0x1000 * (number + 1) for number, name in enumerate(NAMES)}
SYMBOLS = "".join(f"{at:016x} t {name}\n" for name, at in AT.items())


def stack(*names: str) -> tuple[int, ...]:
    """A stack with these functions, the innermost first."""
    return tuple(AT[name] + 0x10 for name in names)


def sleeping(*names: str) -> tuple[int, ...]:
    return stack("wq_worker_sleeping", "schedule", *names, "process_one_work")


@dataclass
class Made:
    """Events are added in their order, each a microsecond after the one before, and later after `pause`."""

    events: list[Event] = field(default_factory=list)
    names: dict[int, str] = field(default_factory=dict)
    paused: int = 0

    def add(
        self, name: str, by: int, in_interrupt: bool = False, at: tuple[int, ...] = (), /, **values: object
    ) -> "Made":
        time = self.paused + 1000 * (len(self.events) + 1)
        self.events.append(Event(time, 0, name, by, in_interrupt, values, at))
        return self

    def pause(self, seconds: int) -> "Made":
        self.paused += seconds * 10**9
        return self

    def queue(
        self, pid: int, work: int, function: str, wq: int = 1, name: str = "", rescuer: int = 1, timer: bool = False
    ) -> "Made":
        at = stack("__queue_work", "queue_here")
        name = name or {1: "w", 2: "v", 3: "u"}[wq]
        return self.add(
            "queue", pid, timer, at, wq=wq, name=name, flags=8, rescuer=rescuer, max=256, work=work, func=AT[function]
        )

    def start(self, pid: int, work: int, function: str) -> "Made":
        return self.add("workqueue_execute_start", pid, work=work, function=AT[function])

    def end(self, pid: int, work: int, function: str) -> "Made":
        return self.add("workqueue_execute_end", pid, work=work, function=AT[function])

    def run(self, pid: int, work: int, function: str) -> "Made":
        return self.start(pid, work, function).end(pid, work, function)

    def sleep(self, pid: int, work: int, function: str, *where: str) -> "Made":
        return self.add(
            "sleep", pid, False, sleeping(*(where or ("wait_here",)), function), work=work, func=AT[function]
        )

    def wake(self, by: int, pid: int, in_interrupt: bool = False) -> "Made":
        return self.add("sched_waking", by, in_interrupt, pid=pid, comm=self.names.get(pid, f"thread{pid}"))

    def flush(self, pid: int, work: int, function: str, cancel: int = 0) -> "Made":
        return self.add(
            "flush_work", pid, False, stack("__flush_work", "wait_there"), work=work, func=AT[function], cancel=cancel
        )

    # What is made of them ---------------------------------------------------------------------------

    def history(self) -> History:
        return Reader(Symbols(SYMBOLS, is_whole=True), dict(self.names)).read(iter(self.events))

    def causes(self) -> Causes:
        return Causes(self.history())

    def drawing(self) -> Drawing:
        causes = self.causes()
        items = Items(causes.history, causes)
        places = Places(causes.history.symbols, None, "")
        return Drawing(items, Chosen.of(items, None), Sites(places), ["a head"])

    def flushes(self) -> list[str]:
        """The lines of the declaration that say who waits for whom, without their comments; and unsure ones."""
        lines = self.drawing().declaration().splitlines()
        found = [
            line.split("  #")[0].strip() for line in lines if line.startswith(("flush", "# flush", "# not queued"))
        ]
        return sorted(found)

    def comment(self, line: str) -> str:
        """The comment of a line."""
        lines = self.drawing().declaration().splitlines()
        return next(found.split("  # ", 1)[1] for found in lines if found.startswith(line))


def archive_of(parts: dict[str, str]) -> Archive:
    return Archive(pathlib.Path("made"), {name: text.encode() for name, text in parts.items()})
