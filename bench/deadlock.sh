#!/usr/bin/env bash
# Times `wqplan deadlock` on the largest declarations and assignments: wall time and peak memory of each run.
#
# Usage: bench/deadlock.sh [PROGRAM], from the root of the repository; PROGRAM is crates/wqplan/out/wqplan where none is
# named. Ends with 1 where a run takes more than 1 s or 64 MiB, or doesn't answer as it should.
set -euo pipefail

program=${1:-crates/wqplan/out/wqplan}
if [[ ! -x $program ]]; then
    echo "$program is no program: build it first" >&2
    exit 2
fi

PYTHONPATH=$(dirname "$0") exec python3 -B - "$program" <<'PYTHON'
import os
import random
import sys

from measure import FLUSHES, ITEMS, Texts, all_within, chain, declaration, own_workqueues, run_text

MOST_SECONDS = 1
MOST_MIB = 64
HALF = ITEMS // 2
LAST = ITEMS - 1


def workqueues(*items_of):
    return "".join(f"wq {q}" + "".join(f" i{i:04}" for i in items) + "\n" for q, items in enumerate(items_of))


def two():
    """The first half of the items on one workqueue, and the second half on another."""
    return workqueues(range(HALF), range(HALF, ITEMS))


def reversed_workqueues():
    """A workqueue for each item, the last item's first."""
    return workqueues(*([i] for i in reversed(range(ITEMS))))


def queued(items):
    return [f"queue i{i:04}\n" for i in items]


def started(q, i, targets):
    """An item starts and waits for its targets in turn. No wait but the last one lasts."""
    steps = [f"start {q} i{i:04}\n"]
    for target in targets:
        steps += [f"wait {q} i{target:04}\n", f"over {q} i{target:04}\n"]
    return steps


def falling():
    """Flushes from the second half of the items to the first."""
    numbers = random.Random(4)
    return [(numbers.randrange(HALF, ITEMS), numbers.randrange(HALF)) for _ in range(FLUSHES)]


def flushes_of_one():
    """The first item of the second half flushes items of the first half in turn, and then its neighbour."""
    return [(HALF, place % HALF) for place in range(FLUSHES - 1)] + [(HALF, HALF + 1)]


def run_of_one():
    """The first half comes to its end, then the one item goes through its flushes up to the last one."""
    steps = queued([HALF, *range(HALF), *range(HALF + 1, ITEMS)])
    for i in range(HALF):
        steps += [f"start 0 i{i:04}\n", f"finish 0 i{i:04}\n"]
    return steps + started(1, HALF, [target for _, target in flushes_of_one()])[:-1]


def circle():
    """Each item flushes the next one four times, and the last one the first."""
    return [(i, (i + 1) % ITEMS) for i in range(ITEMS) for _ in range(4)]


def run_of_circle():
    """Each item starts and waits for the next one."""
    return queued(range(ITEMS)) + [
        step for i in range(ITEMS) for step in started(i, i, [(i + 1) % ITEMS])[:-1]
    ]


def run_of_halves():
    """On two workqueues the first item of each waits for the one behind it."""
    return queued(range(ITEMS)) + started(0, 0, [1])[:-1] + started(1, HALF, [HALF + 1])[:-1]


def chain_and_circle():
    """The first two items flush each other. Each of the others flushes the next one four times, and the third one the
    last one ten times more."""
    flushes = [(0, 1), (1, 0)]
    flushes += [(i, i + 1) for i in range(2, LAST) for _ in range(4)]
    return flushes + [(2, LAST)] * 10


def targets_in_chain(i):
    return [] if i == LAST else [i + 1] * 4 + ([LAST] * 10 if i == 2 else [])


def run_that_waits():
    """On workqueues of their own: each item starts and waits, and then those of the chain end from the last one on."""
    steps = queued(range(ITEMS)) + started(0, 0, [1])[:-1] + started(1, 1, [0])[:-1]
    rest = []
    for i in range(2, ITEMS):
        own = started(i, i, targets_in_chain(i)) + [f"finish {i} i{i:04}\n"]
        steps += own[:2]
        rest = own[2:] + rest
    return steps + rest


def run_to_the_end():
    """The same on workqueues the other way round: each item of the chain finds its target finished."""
    # The circle is walked from the lower workqueue on, so its item is queued first.
    steps = queued([1, 0, *range(2, ITEMS)])
    for i in reversed(range(2, ITEMS)):
        steps += started(LAST - i, i, targets_in_chain(i)) + [f"finish {LAST - i} i{i:04}\n"]
    return steps + started(LAST - 1, 1, [0])[:-1] + started(LAST, 0, [1])[:-1]


def main():
    program = os.path.abspath(sys.argv[1])
    own = own_workqueues()
    with Texts() as texts:
        cases = []
        for name, flushes, assignment, steps in [
            ("2 workqueues, safe", falling(), two(), None),
            ("2 workqueues, hanging at once", circle(), two(), run_of_halves()),
            ("2 workqueues, hanging at the last flush", flushes_of_one(), two(), run_of_one()),
            ("4,096 workqueues, safe", chain(), own, None),
            ("4,096 workqueues, all in a circle", circle(), own, run_of_circle()),
            ("4,096 workqueues, a chain that waits", chain_and_circle(), own, run_that_waits()),
            ("4,096 workqueues, a chain to its end", chain_and_circle(), reversed_workqueues(), run_to_the_end()),
        ]:
            assert len(flushes) == FLUSHES
            paths = [texts.written(f"{name}, declaration", declaration(flushes)), texts.written(name, assignment)]
            answer = run_text(steps) if steps else "safe\n"
            what = f"{name}, {len(steps)} steps" if steps else name
            cases.append((what, "deadlock", paths, 1 if steps else 0, answer))
        kept = all_within(program, cases, MOST_SECONDS, MOST_MIB)
    sys.exit(0 if kept else 1)


main()
PYTHON
