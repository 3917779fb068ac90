"""What the scripts of this folder share that time commands on several texts: the largest declarations, and the runs.

A case is a name, a command, the paths of its texts, its exit status and its answer.
"""

import os
import random
import subprocess
import tempfile
import time

ITEMS = 4096
FLUSHES = 16384
RUNS = 5
TIME = "/usr/bin/time"


def declaration(flushes):
    """All items, and of each flush one line."""
    lines = [f"item i{i:04}\n" for i in range(ITEMS)]
    lines += [f"flush i{source:04} i{target:04}\n" for source, target in flushes]
    return "".join(lines)


def chain():
    """The flushes of a chain, each item's flush of the next one four times, and four of the last item's from the first."""
    return [(i, i + 1) for i in range(ITEMS - 1) for _ in range(4)] + [(0, ITEMS - 1)] * 4


def random_flushes():
    numbers = random.Random(1)
    return [tuple(sorted(numbers.sample(range(ITEMS), 2))) for _ in range(FLUSHES)]


def own_workqueues():
    """A workqueue for each item, in the order of their declaration."""
    return "".join(f"wq {i} i{i:04}\n" for i in range(ITEMS))


def run_text(steps):
    return f"run {len(steps)}\n" + "".join(steps)


def plan_of(program, path):
    """The plan that is printed, with the number of its workqueues."""
    text = subprocess.run([program, "plan", path], check=True, capture_output=True, text=True).stdout
    return text, int(text.split(maxsplit=2)[1])


class Texts:
    """A folder for the texts of the cases, which is gone at the end."""

    def __enter__(self):
        self.folder = tempfile.TemporaryDirectory()
        return self

    def __exit__(self, *_):
        self.folder.cleanup()

    def written(self, name, text):
        path = os.path.join(self.folder.name, name.replace(" ", "_"))
        with open(path, "w") as file:
            file.write(text)
        return path


def run(program, command, paths, status, answer):
    """One run: its wall time in seconds, its peak memory in MiB, and whether it ended so and printed this answer."""
    with tempfile.TemporaryFile() as out, tempfile.NamedTemporaryFile("r") as peak:
        words = [program, command] + paths
        if os.access(TIME, os.X_OK):
            words = [TIME, "-q", "-f", "%M", "-o", peak.name] + words
        begun = time.perf_counter()
        child = os.fork()
        if child == 0:
            os.dup2(out.fileno(), 1)
            os.execv(words[0], words)
        _, ended, usage = os.wait4(child, 0)
        seconds = time.perf_counter() - begun
        # The last line is the number. Without TIME it is no less than this interpreter's own memory.
        kib = int(peak.read().split()[-1]) if words[0] == TIME else usage.ru_maxrss
        out.seek(0)
        answered = os.waitstatus_to_exitcode(ended) == status and out.read() == answer
    return seconds, kib / 1024, answered


def all_within(program, cases, most_seconds, most_mib):
    """Runs each case RUNS times and prints the least time and the most memory. Says whether all kept within these."""
    kept = True
    width = max(len(name) for name, *_ in cases)
    for name, command, paths, status, answer in cases:
        runs = [run(program, command, paths, status, answer.encode()) for _ in range(RUNS)]
        seconds = min(seconds for seconds, _, _ in runs)
        mib = max(mib for _, mib, _ in runs)
        answered = all(answered for _, _, answered in runs)
        good = seconds <= most_seconds and mib <= most_mib and answered
        kept = kept and good
        first = answer.split("\n", 1)[0]
        remark = "" if good else "  FAILED" if answered else f"  FAILED: not {first}"
        print(f"{name:{width}} {seconds:7.3f} s {mib:7.1f} MiB{remark}")
    return kept
