"""Runs inputs that were made to take long (bench/worst.py), and compares the processor time and the instructions of each with those
of `plan` on the longest declaration of bench/peers/inputs.py, in the same run. A run that `replay` reads is as long as that
declaration may be, an eighth of the longest run, so that like is compared with like; bench/worst takes the longest ones.

Usage: tests/cli/worst.py PROGRAM. Of the processor time the least of some runs counts. Where a case takes too long, it is run again, since
other work on the machine may have been at fault. Instructions don't depend on that; they are counted once, by valgrind, where there
is one. That takes fifty times as long as a run, so no case is begun after SECONDS, and those that are left are named. Ends with 1
where a case takes more than MOST times as long or as many instructions, or ends as it must not.
"""

import os
import re
import shutil
import sys
import tempfile
import time

sys.dont_write_bytecode = True
TOP = os.path.realpath(os.path.join(os.path.dirname(__file__), "..", ".."))
sys.path[:0] = [os.path.join(TOP, *names) for names in (["bench"], ["bench", "peers"], ["tests", "lib"])]
import inputs  # noqa: E402  (in bench/peers)
import programs  # noqa: E402  (in tests/lib)
import worst  # noqa: E402  (in bench)

MOST = 20
RUNS = 3
TRIES = 4
# Counting begins no further case after so many seconds, and is given up after so many for one case.
SECONDS = 60
SECONDS_FOR_ONE = 120
# Commands and names of the cases whose last text is refused at its last line.
REFUSED = {
    ("replay", "an assignment below empty lines, refused at its last line"),
    ("check", "a plan below comments, refused at its last line"),
}
# Commands and names of all cases: where the lengths of queues, the targets of an item, waiting workqueues or names that
# were chosen for their hash once made a run take seconds, where names of workqueues that are shared were found in the square of their
# number, and where a text has millions of lines that hold no word.
CASES = {
    ("plan", "2,046 wait for the last of 2,048"),
    ("plan", "3,094 wait for the last of a group of 1,000"),
    ("plan", "3,094 wait for the whole workqueue of a group of 1,000"),
    *((command, worst.COLLIDING) for command in ("plan", "check", "deadlock", "hang", "repair", "replay", "circles", "dot", "run")),
    ("repair", "a chain, one workqueue, half may move"),
    ("plan", "the longest names"),
    ("check", "2,046 wait for the last of 2,048"),
    ("circles", "2,046 wait for the last of 2,048"),
    ("dot", "2,046 wait for the last of 2,048"),
    ("deadlock", "2,046 workqueues wait for the last of 2,048 items"),
    ("deadlock", "2,046 workqueues wait for the whole of one with 2,048 items"),
    ("deadlock", "16,384 waits of both kinds, of 2,046 workqueues for one"),
    ("replay", "2,046 workqueues wait for the whole of one with 2,048 items"),
    ("replay", "waits for the last of 16,384 targets"),
    ("replay", "waits for the last of 16,384 targets of both kinds"),
    ("replay", "the last of 4,096 entries cancelled and queued"),
    ("replay", "4,096 entries rotated"),
    ("check", "a plan below lines of a space, with an item that isn't above its target"),
    ("deadlock", "only the last of 16,384 flushes leads to no rescuer, 2,048 workqueues without a rescuer"),
    ("replay", "16,384 flushes of workqueues lead to no rescuer, one workqueue without a rescuer"),
    ("circles", "16,384 flushes lead to no rescuer, 2,048 workqueues without a rescuer"),
    ("dot", "16,384 flushes lead to no rescuer, 2,048 named workqueues without a rescuer"),
    ("dot", "16,384 flushes lead to no rescuer, names that differ at the end"),
    ("hang", "flushes of the next 512, 2,048 workqueues, all unsure"),
    ("hang", "3 workqueues around, each item flushes the next one, all unsure"),
    ("hang", "layers, one workqueue, every second unsure"),
    ("hang", "random flushes with circles, own workqueues, every second unsure"),
    ("hang", "16,384 flushes lead to no rescuer, 2,048 workqueues without a rescuer, all unsure"),
    ("hang", "a chain, one workqueue, one unsure"),
    ("hang", "one is behind another on each of 2,048 workqueues, and such a one NAMEd, with NAMEs"),
    ("hang", "flushes of the next 512, 2,048 workqueues, with NAMEs"),
    ("hang", "one is behind another on each of 2,048 workqueues, every second item, with NAMEs"),
    ("circles", "layers, 64 workqueues, every other without a rescuer, with NAMEs"),
    ("plan", "a circle of all, every second stays"),
    ("plan", "a chain, every second stays, the last one first"),
    ("check", "a chain, every second stays"),
} | REFUSED


def least(program, folder, command, names, runs):
    """The least processor time of so many runs, and the statuses with which they ended."""
    ended = [worst.run(program, folder, command, names) for _ in range(runs)]
    return min(seconds for seconds, _, _, _ in ended), {status for _, _, status, _ in ended}


def is_quick(program, folder, ordinary, command, names, ends):
    """Whether a case takes at most MOST times as long as the ordinary text, and ends with one of these statuses."""
    for _ in range(TRIES):
        base, _ = least(program, folder, "plan", [ordinary], RUNS)
        seconds, statuses = least(program, folder, command, names, RUNS)
        if not statuses <= ends:
            return False, f"statuses {sorted(statuses)}"
        if seconds <= MOST * base:
            return True, f"{seconds:.3f} s, {seconds / base:.1f} times"
    return False, f"{seconds:.3f} s, {seconds / base:.1f} times"


def instructions(program, folder, command, names):
    """All instructions of one run, or None where they aren't counted."""
    words = ["valgrind", "--tool=cachegrind", "--cache-sim=no", "--cachegrind-out-file=/dev/null", program, command, *names]
    found = re.search(rb"I +refs: +([0-9,]+)", programs.ask(words, cwd=folder, timeout=SECONDS_FOR_ONE).errors)
    return int(found[1].replace(b",", b"")) if found else None


class Counting:
    """Counts the instructions of cases, as long as there is time, and remembers which cases it left out."""

    def __init__(self, program, folder, ordinary):
        self.program, self.folder = program, folder
        self.begun = time.monotonic()
        self.base = instructions(program, folder, "plan", [ordinary]) if shutil.which("valgrind") else None
        self.left_out = []

    def judge(self, command, name, names):
        """Whether a case takes at most MOST times as many instructions as the ordinary text. One that is left out does."""
        if self.base is None or time.monotonic() - self.begun > SECONDS:
            self.left_out.append(f"{command}: {name}")
            return True, "instructions not counted"
        count = instructions(self.program, self.folder, command, names)
        if count is None:
            return False, f"instructions not counted within {SECONDS_FOR_ONE} s"
        return count <= MOST * self.base, f"{count / 1e6:.1f} million instructions, {count / self.base:.1f} times"

    def summary(self):
        """What was counted, in a line."""
        if not self.left_out:
            return f"instructions of all cases were counted, in {time.monotonic() - self.begun:.0f} s"
        if self.base is None:
            return "no instructions were counted: there is no valgrind, or it doesn't run"
        return f"instructions were not counted of these, after {SECONDS} s: {'; '.join(self.left_out)}"


def main():
    if not programs.is_there("worst", *sys.argv[1:]):
        sys.exit(1)
    program = os.path.abspath(sys.argv[1])
    chosen, failed = [], 0
    with tempfile.TemporaryDirectory() as path:
        folder = worst.Folder(path)
        ordinary = folder.write(inputs.longest_text())
        for command, name, names in worst.cases(worst.Program(program), path, folder.write, worst.MOST_DECLARATION):
            if (command, name) in CASES:
                chosen.append((command, name, names))
        counting = Counting(program, path, ordinary)
        for command, name, names in chosen:
            ends = {2} if (command, name) in REFUSED else {0, 1}
            is_good, said = is_quick(program, path, ordinary, command, names, ends)
            takes_few, counted = counting.judge(command, name, names)
            good = is_good and takes_few
            failed += not good
            print(f"{'ok      ' if good else 'FAILED  '}{command}: {name}: {said}; {counted}")
    left = CASES - {(command, name) for command, name, _ in chosen}
    for command, name in sorted(left):
        print(f"FAILED  {command}: {name}: there is no such case")
    failed += len(left)
    print(counting.summary())
    sys.exit(programs.counts_of("worst", len(CASES) - failed, failed))


main()
