"""Loads that are measured: how `test_runtime bench` is asked for one, and what comes of it.

The peers of bench/peers are called with a load as `str(load)` writes it, and print the lines of `fixed`.
"""

import collections
import contextlib
import dataclasses
import os
import re
import signal
import subprocess
import tempfile

# Rows of a round at most: a queueing, a start, a finish, and two of a flush that has to wait.
ROWS_OF_A_ROUND = 5
# Items of each workqueue whose bodies sleep: one for its rescuer, and one for each of eight helpers.
SLEEPERS = 9


class Failed(Exception):
    """A program didn't do what it was asked for."""


@dataclasses.dataclass(frozen=True)
class Load:
    """So many workqueues and callers, what each caller does how often, and how many helpers each workqueue has.

    Of `fill` it is how many rows there are in place of how often. The peers have no helpers.
    """

    kind: str
    lanes: int
    callers: int
    count: int
    helpers: int = 0

    def __str__(self):
        return f"{self.kind} {self.lanes} {self.callers} {self.count}"

    def items(self):
        """At least one for each workqueue and one for each caller."""
        return SLEEPERS * self.lanes if self.kind == "sleep" else max(self.lanes, self.callers)

    def rounds(self):
        """How many queueings there are, and flushes; of `fill` at most."""
        return self.callers * self.count * (self.items() if self.kind == "sleep" else 1)

    def rows(self):
        return self.count if self.kind == "fill" else ROWS_OF_A_ROUND * self.rounds()


class Texts:
    """A folder for the declarations and the assignments of loads, which is gone at the end."""

    def __enter__(self):
        self.folder = tempfile.TemporaryDirectory(prefix="measured_")
        return self

    def __exit__(self, *_):
        self.folder.cleanup()

    def path(self, name, lines):
        """The path of the text of this name, which is written where it isn't there yet."""
        path = os.path.join(self.folder.name, name)
        if not os.path.exists(path):
            with open(path, "w") as file:
                file.writelines(f"{line}\n" for line in lines)
        return path

    def words(self, load):
        """What asks for a load, behind the program's name: items that flush nothing, on the workqueues in turn."""
        items = range(load.items())
        declaration = self.path(f"items_{len(items)}", (f"item i{i}" for i in items))
        lanes = (" ".join(["wq", str(q), *(f"i{i}" for i in items[q::load.lanes])]) for q in range(load.lanes))
        assignment = self.path(f"lanes_{len(items)}_{load.lanes}", lanes)
        front = ["helpers", str(load.helpers)] if load.helpers else []
        return [*front, "bench", declaration, assignment, str(load.rows()), load.kind, str(load.callers), str(load.count)]


class Figures:
    """What is printed of a load: `fixed` is the same each time, `figures` depends on the schedule."""

    def __init__(self, load, text):
        made = collections.Counter()
        lines = collections.defaultdict(list)
        for line in text.splitlines():
            if match := re.fullmatch(r"made \S+ (\S+) (yes|no) (\d+)", line):
                made[match[1], match[2]] += int(match[3])
            else:
                word, _, rest = line.partition(" ")
                lines[word].append(rest)
        try:
            self.read(load, made, lines)
        except (IndexError, ValueError):
            raise Failed(f"{load}: {text[-400:]}") from None

    def read(self, load, made, lines):
        def both(kind):
            return made[kind, "yes"] + made[kind, "no"]

        is_matched = made["queue", "yes"] == made["finish", "yes"] + made["cancel", "yes"]
        self.has_refused = lines["caller"] != ["ok"] * load.callers or \
            any("finished" not in lane or not lane.endswith("faults 0") for lane in lines["lane"])
        if load.kind == "fill":
            self.fixed = {"rows": int(lines["rows"][0]), "free": int(lines["free"][0])}
        else:
            self.fixed = {"queueings": both("queue"), "flushes": both("ask")}
        self.fixed |= {"matched": str(is_matched).lower(), "agree": lines["agree"][0], "idle": lines["idle"][0]}
        self.figures = {
            "queued": made["queue", "yes"], "finished": made["finish", "yes"], "asked": both("ask"),
            "waited": made["told", "yes"], "events": int(lines["rows"][0]), "nanoseconds": int(lines["nanoseconds"][0]),
        }

    def is_as_asked(self, load):
        """Whether everything was done, nothing was refused, and the counts fit together."""
        done = load.rounds()
        wanted = {"rows": load.count, "free": 0} if load.kind == "fill" else {"queueings": done, "flushes": done}
        return not self.has_refused and self.fixed == wanted | {"matched": "true", "agree": "true", "idle": "true"}

    def text(self):
        """The lines that are the same each time, as the peers print them."""
        return "".join(f"{name} {count}\n" for name, count in self.fixed.items())


def run(program, texts, load, seconds):
    """What is printed of a load by the program of this repository, which may take so many seconds."""
    try:
        ran = subprocess.run([program, *texts.words(load)], stdin=subprocess.DEVNULL, capture_output=True, text=True,
                             timeout=seconds)
    except subprocess.TimeoutExpired:
        raise Failed(f"{load} didn't end within {seconds} s") from None
    if ran.returncode or ran.stderr:
        raise Failed(f"{load} ends with status {ran.returncode}: {ran.stdout[-400:]}{ran.stderr}")
    return Figures(load, ran.stdout)


class Limit:
    """Kills a process that takes longer than so many seconds."""

    def __init__(self, process, seconds):
        self.process, self.seconds, self.is_over = process, seconds, False

    def kill(self, *_):
        self.is_over = True
        with contextlib.suppress(ProcessLookupError):
            os.kill(self.process, signal.SIGKILL)

    def __enter__(self):
        signal.signal(signal.SIGALRM, self.kill)
        signal.alarm(self.seconds)
        return self

    def __exit__(self, *_):
        signal.alarm(0)
