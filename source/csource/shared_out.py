"""Many small tasks in several processes, which begin them while this one does something else."""

import contextlib
import marshal
import os
import select
from typing import Any, Callable, Generic, Sequence, TypeVar

Task = TypeVar("Task")
Made = TypeVar("Made")
# With fewer tasks than this for each, a process isn't worth its beginning.
LEAST = 4
# The number of a task, as it stands in the list of those that are left; and how many numbers a pipe holds for sure.
WIDTH = 4
MOST = 4096 // WIDTH
# The processes of this one that haven't been seen to end, and the work that isn't finished.
_begun: set[int] = set()
_unfinished: "set[Shared[Any, Any]]" = set()


class Shared(Generic[Task, Made]):
    """What `make` makes of each task, with which other processes begin at once: plain lists, dictionaries, texts, numbers.

    Each of them takes the next task of those that are left. When there are none it hands over what it has made, and
    then does what comes `after`, for which only `wait_for_all` waits. None says anything: what fails in one of them is
    made in this process again, and fails there.
    """

    def __init__(
        self, tasks: Sequence[Task], processes: int, make: Callable[[Task], Made], after: Callable[[int], None]
    ) -> None:
        self.tasks = tasks
        self.processes = min(processes, len(tasks))
        self.make = make
        self.made: dict[int, Made] = {}
        # the numbers of the tasks that are left, from which each process takes one at a time: where there are many tasks,
        # it stands for the later ones, too, that are so far behind it
        self.step = min(len(tasks), MOST)
        self.left, filled = os.pipe()
        os.write(filled, b"".join(number.to_bytes(WIDTH, "little") for number in range(self.step)))
        os.close(filled)
        _unfinished.add(self)
        self.results = [os.memfd_create("made") for _ in range(self.processes)]
        # (all have closed their end of it: all that was made is there)
        self.done, ends = os.pipe()
        for process, result in enumerate(self.results):
            begin(lambda process=process, result=result: self.run(ends, result, lambda: after(process)), self.done)
        os.close(ends)

    def run(self, ends: int, result: int, after: Callable[[], None]) -> None:
        """In one of the processes."""
        with contextlib.suppress(Exception):
            while self.make_next():
                pass
        write_all(result, marshal.dumps(self.made))
        os.close(ends)
        after()

    def make_next(self) -> bool:
        """Makes what comes next of the tasks that are left. False if none is."""
        data = os.read(self.left, WIDTH)
        for number in range(int.from_bytes(data, "little"), len(self.tasks), self.step) if data else ():
            self.made[number] = self.make(self.tasks[number])
        return bool(data)

    def is_done(self) -> bool:
        """Whether the other processes are through."""
        poll = select.poll()
        poll.register(self.done, select.POLLIN)
        return bool(poll.poll(0))

    def give_up(self) -> None:
        """Lets nobody begin with another task."""
        while os.read(self.left, WIDTH * MOST):
            pass

    def finish(self, say: Callable[[int], None]) -> list[Made]:
        """What was made of each task. `say` gets the number of tasks that this process has done itself."""
        try:
            while self.make_next():
                say(len(self.made))
            self.collect()
        finally:
            self.close()
        for number, task in enumerate(self.tasks):
            if number not in self.made:
                self.made[number] = self.make(task)
        return [self.made[number] for number in range(len(self.tasks))]

    def collect(self) -> None:
        """Takes what the other processes have made, when they have."""
        while os.read(self.done, 1):
            pass
        for result in self.results:
            data = os.pread(result, os.fstat(result).st_size, 0)
            if data:
                self.made.update(marshal.loads(data))

    def close(self) -> None:
        _unfinished.discard(self)
        for descriptor in (self.left, self.done, *self.results):
            os.close(descriptor)


def write_all(to: int, data: bytes) -> None:
    view = memoryview(data)
    while view:
        view = view[os.write(to, view) :]


def nothing(_: int) -> None:
    """What comes after, where nothing does."""


def share_out(
    tasks: Sequence[Task],
    jobs: int,
    make: Callable[[Task], Made],
    say: Callable[[int], None],
    after: Callable[[int], None] = nothing,
) -> list[Made]:
    """What `make` makes of each task, in up to `jobs` processes, of which this is one."""
    return begin_with(tasks, jobs, make, after).finish(say)


def begin_with(
    tasks: Sequence[Task], jobs: int, make: Callable[[Task], Made], after: Callable[[int], None] = nothing
) -> Shared[Task, Made]:
    """Tasks for up to `jobs` processes, of which this is one."""
    jobs = max(1, min(jobs, len(tasks) // LEAST))
    return Shared(tasks, jobs - 1, make, after)


def begin(work: Callable[[], None], *unneeded: int) -> None:
    """A process for some work. It says nothing, and leaves what the end of this program has to do to this one."""
    child = os.fork()
    if child:
        _begun.add(child)
        return
    try:
        for descriptor in unneeded:
            os.close(descriptor)
        work()
    finally:
        os._exit(0)


def wait_for_all() -> None:
    """Until all processes that were begun have ended. They begin with no other task: nobody asks for it any more."""
    for shared in _unfinished:
        shared.give_up()
    while _begun:
        child = _begun.pop()
        with contextlib.suppress(ChildProcessError):
            os.waitpid(child, 0)
