#!/usr/bin/env bash
# Times `wqplan check` and `wqplan replay` on the largest texts: wall time and peak memory of each run.
#
# Usage: bench/check.sh [PROGRAM], from the root of the repository; PROGRAM is crates/wqplan/out/wqplan where none is
# named. Ends with 1 where a run takes more than 0.5 s or 64 MiB, or doesn't answer as it should.
set -euo pipefail

program=${1:-crates/wqplan/out/wqplan}
if [[ ! -x $program ]]; then
    echo "$program is no program: build it first" >&2
    exit 2
fi

PYTHONPATH=$(dirname "$0") exec python3 -B - "$program" <<'PYTHON'
import os
import sys

from measure import FLUSHES, ITEMS, Texts, all_within, chain, declaration, own_workqueues, plan_of, random_flushes, run_text

MOST_SECONDS = 0.5
MOST_MIB = 64


def run_to_the_end(flushes):
    """Each item is queued, and runs to its end with all its flushes, the last one first: none has to wait."""
    waits = [[] for _ in range(ITEMS)]
    for source, target in flushes:
        waits[source].append(target)
    steps = [f"queue i{i:04}\n" for i in range(ITEMS)]
    for i in reversed(range(ITEMS)):
        steps.append(f"start {i} i{i:04}\n")
        for target in waits[i]:
            steps += [f"wait {i} i{target:04}\n", f"over {i} i{target:04}\n"]
        steps.append(f"finish {i} i{i:04}\n")
    return steps


def run_that_waits(flushes):
    """Each item is queued and starts, and waits for its first target; then they end from the last one on."""
    waits = [[] for _ in range(ITEMS)]
    for source, target in flushes:
        waits[source].append(target)
    steps = [f"queue i{i:04}\n" for i in range(ITEMS)]
    for i in range(ITEMS):
        steps.append(f"start {i} i{i:04}\n")
        if waits[i]:
            steps.append(f"wait {i} i{waits[i][0]:04}\n")
    for i in reversed(range(ITEMS)):
        if waits[i]:
            steps.append(f"over {i} i{waits[i][0]:04}\n")
        for target in waits[i][1:]:
            steps += [f"wait {i} i{target:04}\n", f"over {i} i{target:04}\n"]
        steps.append(f"finish {i} i{i:04}\n")
    return steps


def main():
    program = os.path.abspath(sys.argv[1])
    cases = []
    with Texts() as texts:
        own = texts.written("lanes", own_workqueues())
        for name, flushes in [("chain", chain()), ("random flushes", random_flushes())]:
            assert len(flushes) == FLUSHES
            declared = texts.written(name, declaration(flushes))
            plan, number = plan_of(program, declared)
            planned = texts.written(f"plan of {name}", plan)
            cases.append((f"check: {name}, {number} workqueues", "check", [declared, planned], 0, f"yes {number}\n"))
            for kind, steps in [("to its end", run_to_the_end(flushes)), ("that waits", run_that_waits(flushes))]:
                assert len(steps) == 3 * ITEMS + 2 * FLUSHES
                paths = [declared, own, texts.written(f"{name} {kind}", run_text(steps))]
                cases.append((f"replay: {name}, {len(steps)} steps, {kind}", "replay", paths, 0, "open\n"))
        kept = all_within(program, cases, MOST_SECONDS, MOST_MIB)
    sys.exit(0 if kept else 1)


main()
PYTHON
