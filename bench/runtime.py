"""What bench/runtime measures once the programs are built. Each argument is NAME=WORDS, the first one that of this repository.

A peer is called with a load, KIND LANES CALLERS COUNT [figures]; the program of this repository as measured.py says.
"""

import os
import subprocess
import sys

import measured  # beside this file
from measured import Load

OURS = "test_runtime"
# The peers that this repository's program is compared with. The first has a condition variable for each workqueue and each item, and
# wakes only where somebody may go on, as `wq_api` does; the second has one for all, and each event wakes all.
COMPARED = ["each", "every", "crossbeam"]
RUNS = 12
# Below this many seconds the start of the threads would weigh too much.
LEAST = 0.25
LANES = [1, 4, 64, 256]
STORMS = [4, 64, 256]
CALLERS = 16
MILLION = 1_000_000
FILLS = [MILLION, 2 * MILLION, 4 * MILLION, 8 * MILLION, 16_777_216]
FILL_RUNS = 2
FILLED = [OURS, "every"]
# Workqueues whose bodies sleep for a millisecond, how many helpers each has, and how often all items are queued and flushed.
SLEEPS = [4, 64]
HELPERS = [0, 8]
WAVES = 20
SLEEP_RUNS = 3
MOST_ROWS = 16_777_216
SAMPLES = [
    Load("rounds", 1, 1, 500), Load("rounds", 4, 4, 200), Load("rounds", 64, 3, 50), Load("rounds", 256, 2, 20),
    Load("storm", 8, 16, 50), Load("storm", 3, 2, 400), Load("fill", 1, 1, 5000), Load("fill", 3, 2, 4000),
]
# How many times as long as the first of these a round may take.
MOST_RATIO = 1.3
# A run that takes longer is ended: a wake-up may be lost.
SECONDS = 600


class Place:
    """Where programs run: on all processors; or on one, at a priority above all others where this is allowed."""

    def __init__(self, name, processors, options):
        self.name = name
        self.processors = processors
        self.options = options

    def enter(self):
        os.sched_setaffinity(0, self.processors)


def places():
    everywhere = os.sched_getaffinity(0)
    options = {"scheduler": (os.SCHED_FIFO, os.sched_param(1))}
    name = "one processor, at real-time priority"
    try:
        os.waitpid(os.posix_spawn("/bin/true", ["true"], {}, **options), 0)
    except OSError:
        options, name = {}, "one processor, shared with whatever else runs"
    return Place(name, {max(everywhere)}, options), Place("all processors", everywhere, {})


class Program:
    """A program that is measured: that of this repository, or a peer."""

    def __init__(self, name, words, texts):
        self.name, self.own_words, self.texts = name, words, texts

    def words(self, load, *options):
        if self.name == OURS:
            return self.own_words + self.texts.words(load)
        return self.own_words + str(load).split() + list(options)

    def fixed(self, load):
        """The lines of a load that are the same each time."""
        try:
            if self.name == OURS:
                return measured.run(self.own_words[0], self.texts, load, SECONDS).text()
            run = subprocess.run(self.words(load), capture_output=True, text=True, timeout=SECONDS)
        except (measured.Failed, subprocess.TimeoutExpired) as fault:
            sys.exit(f"{self.name}: {fault}")
        if run.returncode != 0:
            sys.exit(f"{self.name} ends with status {run.returncode} on {load}: {run.stdout}{run.stderr}")
        return run.stdout

    def nanoseconds(self, load, text):
        """The wall time that a run printed, in which nothing was refused."""
        if self.name == OURS:
            figures = measured.Figures(load, text)
            if not figures.is_as_asked(load):
                sys.exit(f"{self.name} prints on {load}:\n{figures.text()}")
            return figures.figures["nanoseconds"]
        return int(dict(line.rsplit(" ", 1) for line in text.splitlines())["nanoseconds"])


class Run:
    """One run: its wall time as it printed it, and what the system says of it."""

    def __init__(self, place, program, load):
        place.enter()
        read, write = os.pipe()
        output = [(os.POSIX_SPAWN_DUP2, write, 1)]
        words = program.words(load, "figures")
        child = os.posix_spawn(words[0], words, {}, file_actions=output, **place.options)
        os.close(write)
        with measured.Limit(child, SECONDS) as limit, open(read) as lines:
            text = lines.read()
            _, status, usage = os.wait4(child, 0)
        if limit.is_over:
            sys.exit(f"{program.name} didn't end within {SECONDS} s on {load}")
        if status != 0:
            sys.exit(f"{program.name} ends with status {os.waitstatus_to_exitcode(status)} on {load}: {text}")
        self.wall = program.nanoseconds(load, text)
        self.processor = (usage.ru_utime + usage.ru_stime) * 1e9
        self.switches = usage.ru_nvcsw + usage.ru_nivcsw


class Least:
    """The least of several runs, each figure by itself."""

    def __init__(self, runs, units):
        self.wall = min(run.wall for run in runs) / units
        self.processor = min(run.processor for run in runs) / units
        self.switches = min(run.switches for run in runs) / units


def compare(programs):
    """All programs print the same counts of small loads."""
    for load in SAMPLES:
        answers = {name: program.fixed(load) for name, program in programs.items()}
        for name, answer in answers.items():
            if answer != answers[OURS]:
                sys.exit(f"{name} prints other counts than {OURS} of {load}:\n{answer}\n{answers[OURS]}")
    print(f"{len(SAMPLES)} small loads: {', '.join(programs)} print the same counts")


def calibrated(place, program, kind, lanes, callers):
    """So many rounds of each caller that a run takes long enough."""
    count = 100
    while True:
        run = Run(place, program, Load(kind, lanes, callers, count))
        more = count * 2 if run.wall < LEAST * 1e9 / 4 else int(count * max(1, LEAST * 1.2e9 / run.wall))
        more = min(more, MOST_ROWS // (5 * callers))
        if run.wall >= LEAST * 1e9 or more <= count:
            return count
        count = more


def measure(place, programs, kind, lanes, callers):
    """Of each program the least figures of a round, the programs in turn."""
    counts = {name: calibrated(place, program, kind, lanes, callers) for name, program in programs.items()}
    runs = {name: [] for name in programs}
    for _ in range(RUNS):
        for name, program in programs.items():
            runs[name].append(Run(place, program, Load(kind, lanes, callers, counts[name])))
    return {name: Least(runs[name], counts[name] * callers) for name in programs}


def row(name, cells):
    print(f"{name:26}" + "".join(f"{cell:>12}" for cell in cells), flush=True)


def number(count):
    return f"{count:,.0f}" if count >= 100 else f"{count:.2f}"


def ratio(least, peer, field):
    return getattr(least[OURS], field) / getattr(least[peer], field)


def tables(programs, found, titles):
    for field, title in titles.items():
        print(f"\n{title} (the least of {RUNS} runs, the programs in turn)")
        peers = [peer for peer in COMPARED if peer in programs]
        row("load", [*programs, *(f"/ {peer}" for peer in peers)])
        for name, least in found.items():
            row(name, [*(number(getattr(least[program], field)) for program in programs), *(f"{ratio(least, peer, field):.2f}" for peer in peers)])


def rounds(place, programs):
    """The figures of a round, load by load."""
    loads = [(f"{lanes} lanes, 1 caller", "rounds", lanes, 1) for lanes in LANES]
    loads += [(f"storm, {lanes} lanes", "storm", lanes, CALLERS) for lanes in STORMS]
    return {name: measure(place, programs, kind, lanes, callers) for name, kind, lanes, callers in loads}


def fills(place, programs):
    """How the time grows with the rows of a history."""
    print(f"\nFilled histories, 1 lane and 1 caller, {place.name}: nanoseconds of a row (the least of {FILL_RUNS} runs, the programs in turn)")
    names = [name for name in FILLED if name in programs]
    row("rows", names)
    found = {}
    for rows in FILLS:
        runs = {name: [] for name in names}
        for _ in range(FILL_RUNS):
            for name in names:
                runs[name].append(Run(place, programs[name], Load("fill", 1, 1, rows)))
        found[rows] = {name: Least(runs[name], rows) for name in names}
        row(f"{rows:,}", [number(found[rows][name].processor) for name in names])
    row("last / first", [f"{found[FILLS[-1]][name].processor / found[FILLS[0]][name].processor:.2f}" for name in names])


def sleeps(place, program):
    """What helpers bring where bodies sleep."""
    print(f"\nBodies that sleep for a millisecond, {measured.SLEEPERS} items for each workqueue, {place.name}: microseconds and"
          f" context switches of an execution, and how many end in a second (the least of {SLEEP_RUNS} runs)")
    row("load", ["wall", "processor", "switches", "a second", "/ no helpers"])
    for lanes in SLEEPS:
        alone = None
        for helpers in HELPERS:
            load = Load("sleep", lanes, 1, WAVES, helpers)
            least = Least([Run(place, program, load) for _ in range(SLEEP_RUNS)], load.rounds())
            alone = alone or least.wall
            figures = [least.wall / 1e3, least.processor / 1e3, least.switches, 1e9 / least.wall]
            row(f"{lanes} lanes, {helpers} helpers", [*map(number, figures), f"{alone / least.wall:.2f}"])


def goals(found, field):
    for peer in COMPARED[:1]:
        for name, least in found.items():
            if peer in least:
                quotient = ratio(least, peer, field)
                print(f"{name:26} {quotient:6.2f} of {peer:6} at most {MOST_RATIO}: {'met' if quotient <= MOST_RATIO else 'missed'}")


def measure_all(programs):
    compare(programs)
    one, everywhere = places()
    alone = rounds(one, programs)
    tables(programs, alone, {
        "processor": f"Processor time of a round in nanoseconds, {one.name}",
        "switches": f"Context switches of a round, {one.name}",
    })
    fills(one, programs)
    print(f"\nGoals, processor time, {one.name}")
    goals(alone, "processor")
    busy = rounds(everywhere, programs)
    tables(programs, busy, {
        "wall": f"Wall time of a round in nanoseconds, {everywhere.name}",
        "processor": f"Processor time of a round in nanoseconds, all threads together, {everywhere.name}",
        "switches": f"Context switches of a round, {everywhere.name}",
    })
    print(f"\nGoals, wall time, {everywhere.name}")
    goals(busy, "wall")
    sleeps(everywhere, programs[OURS])


def main():
    with measured.Texts() as texts:
        named = (argument.split("=", 1) for argument in sys.argv[1:])
        measure_all({name: Program(name, words.split(), texts) for name, words in named})


main()
