#!/usr/bin/env bash
# Times `wqplan plan` on the largest declarations: wall time and peak memory of each run, beside an empty text's.
#
# Usage: bench/plan.sh [PROGRAM], from the root of the repository; PROGRAM is crates/wqplan/out/wqplan where none is
# named. Ends with 1 where a run takes more than 0.5 s or 32 MiB, or doesn't print a plan or a circle, as it should.
set -euo pipefail

program=${1:-crates/wqplan/out/wqplan}
if [[ ! -x $program ]]; then
    echo "$program is no program: build it first" >&2
    exit 2
fi

exec python3 - "$program" <<'PYTHON'
import os
import random
import sys
import tempfile
import time

MOST_SECONDS = 0.5
MOST_MIB = 32
ITEMS = 4096
FLUSHES = 16384
GROUPS = 512
RUNS = 5
TIME = "/usr/bin/time"


def declaration(flushes, groups=()):
    """All items, of each group one line with its items, and of each flush one line."""
    lines = [f"item i{i:04}\n" for i in range(ITEMS)]
    lines += ["ordered" + "".join(f" i{item:04}" for item in group) + "\n" for group in groups]
    lines += [f"flush i{source:04} i{target:04}\n" for source, target in flushes]
    return "".join(lines)


def chain():
    return declaration((i, i + 1) for i in range(ITEMS - 1))


def circle():
    return declaration((i, (i + 1) % ITEMS) for i in range(ITEMS))


def slow_chain():
    """A chain whose items each flush the last item three times before the next item."""
    last = ITEMS - 1
    return declaration(flush for i in range(last) for flush in [(i, last)] * 3 + [(i, i + 1)])


def slow_circle():
    """A circle of all items but the last, each of which flushes the last item three times before the next one."""
    last = ITEMS - 1
    return declaration(flush for i in range(last) for flush in [(i, last)] * 3 + [(i, (i + 1) % last)])


def random_flushes(groups=()):
    numbers = random.Random(1)
    return declaration((sorted(numbers.sample(range(ITEMS), 2)) for _ in range(FLUSHES)), groups)


def single_groups():
    """The groups of one item each, all of them on `ordered` lines."""
    return random_flushes([item] for item in range(ITEMS))


def large_groups():
    """Groups of as many items each, shuffled, and flushes that each lead from a group to a later one of these."""
    numbers = random.Random(2)
    items = list(range(ITEMS))
    numbers.shuffle(items)
    groups = [items[group::GROUPS] for group in range(GROUPS)]
    pairs = (sorted(numbers.sample(range(GROUPS), 2)) for _ in range(FLUSHES))
    flushes = [(numbers.choice(groups[source]), numbers.choice(groups[target])) for source, target in pairs]
    return declaration(flushes, groups)


def random_circles():
    numbers = random.Random(3)
    return declaration(numbers.choices(range(ITEMS), k=2) for _ in range(FLUSHES))


def run(program, path, status, first):
    """One run: its wall time in seconds, its peak memory in MiB, and whether it ended so and printed such an answer."""
    with tempfile.TemporaryFile() as answer, tempfile.NamedTemporaryFile("r") as peak:
        command = [program, "plan", path]
        if os.access(TIME, os.X_OK):
            command = [TIME, "-q", "-f", "%M", "-o", peak.name] + command
        begun = time.perf_counter()
        child = os.fork()
        if child == 0:
            os.dup2(answer.fileno(), 1)
            # The empty text has a note on standard error.
            os.dup2(os.open(os.devnull, os.O_WRONLY), 2)
            os.execv(command[0], command)
        _, ended, usage = os.wait4(child, 0)
        seconds = time.perf_counter() - begun
        # The last line is the number. Without TIME it is no less than this interpreter's own memory.
        kib = int(peak.read().split()[-1]) if command[0] == TIME else usage.ru_maxrss
        answer.seek(0)
        answered = os.waitstatus_to_exitcode(ended) == status and answer.readline().split()[:1] == [first]
    return seconds, kib / 1024, answered


PLAN = (0, b"plan")
CIRCLE = (1, b"circle")
CASES = [
    ("empty text", PLAN, ""),
    ("chain of 4,096 items", PLAN, chain()),
    ("chain of 4,096 items, 16,380 flushes", PLAN, slow_chain()),
    ("4,096 items, 16,384 random flushes", PLAN, random_flushes()),
    ("4,096 groups of 1, 16,384 flushes", PLAN, single_groups()),
    ("512 groups of 8, 16,384 flushes", PLAN, large_groups()),
    ("circle of 4,096 items", CIRCLE, circle()),
    ("circle of 4,095 items, 16,380 flushes", CIRCLE, slow_circle()),
    ("16,384 random flushes, with circles", CIRCLE, random_circles()),
]


def main():
    program = os.path.abspath(sys.argv[1])
    kept = True
    with tempfile.TemporaryDirectory() as folder:
        for name, (status, first), text in CASES:
            path = os.path.join(folder, "declaration")
            with open(path, "w") as file:
                file.write(text)
            runs = [run(program, path, status, first) for _ in range(RUNS)]
            seconds = min(seconds for seconds, _, _ in runs)
            mib = max(mib for _, mib, _ in runs)
            answered = all(answered for _, _, answered in runs)
            good = seconds <= MOST_SECONDS and mib <= MOST_MIB and answered
            kept = kept and good
            remark = "" if good else "  FAILED" if answered else f"  FAILED: no {first.decode()}"
            print(f"{name:38} {seconds:7.3f} s {mib:7.1f} MiB{remark}")
    sys.exit(0 if kept else 1)


main()
PYTHON
