"""Asks the workqueue code of Linux itself: do kernels do what the program and the model say? By kernel/, whose
README.md says how.

    main.py PROGRAM

On Linux 6.1, with one CPU, while no worker can be created: all examples under their assignments and plans; the worked
rows of `deadlock` (tests/cli/rows/deadlocks.py), with the answers that stand there; random declarations under their
plans and under unsafe assignments; random runs, driven; and both with workqueues without a rescuer. Then random
declarations and long chains with memory enough, and safe declarations on two CPUs. On Linux 6.12 fewer of these. On
both the situations of kernel/cases. Each wrong machine of mutants.py must be refused by something that 6.1 did; and so
must what is no shortage, or not the right one, a kernel and an answer in which each workqueue has a rescuer, and each
of 500 outcomes from which events are removed.

Where QEMU or a kernel can't be had, it says so, and skips what needs it: that is no failure. It takes some two
minutes of processor time once the cache of kernel/ has what it needs.
"""

import copy
import dataclasses
import os
import pathlib
import random
import re
import shutil
import subprocess
import sys
import tempfile

sys.dont_write_bytecode = True
ROOT = pathlib.Path(__file__).resolve().parents[2]
for folder in ("kernel/lib", "tests/lib", "tests/cli/rows"):
    sys.path.append(str(ROOT / folder))
import cases  # noqa: E402  (in kernel/lib, as are the next five)
import guest  # noqa: E402
import model  # noqa: E402
import packages  # noqa: E402
import pinned  # noqa: E402
import program  # noqa: E402
import random_cases  # noqa: E402
from deadlocks import DEADLOCKS  # noqa: E402  (in tests/cli/rows)
from mutants import MUTANTS  # noqa: E402  (beside this file)
from programs import counts_of, is_there  # noqa: E402  (in tests/lib)
from tables import text_of  # noqa: E402  (there, too)

SECONDS = 600
counts = {True: 0, False: 0}


def tell(passed, name, why=""):
    """Counts one that passed or failed."""
    counts[bool(passed)] += 1
    print(f"{'ok     ' if passed else 'FAILED '} {name}{f': {why}' if not passed and why else ''}", flush=True)


# The cases ----------------------------------------------------------------------------------------


def declaration_of(path):
    """The declaration of an example; the lines of NAME.MORE.wq belong at the end of NAME.wq."""
    first = path.with_name(f"{path.name.split('.')[0]}.wq")
    return first.read_bytes() + (path.read_bytes() if path != first else b"")


def example_cases(choose, letters):
    """All examples: each assignment of a declaration, and its plan, with the printed run, and in 3 or 4 orders. An
    assignment in which workqueues have no rescuer is tried as if they had one, too.
    """
    examples = ROOT / "examples"
    for path in sorted(examples.rglob("*.assign")):
        name = path.name.split(".")[0]
        places = path.with_name(f"{name}.wq"), path.parent / f"{path.parent.name}.wq"
        declaration = next(place for place in places if place.exists())
        asked = program.Asked(f"{path.name}: ", [declaration, path], letters, choose)
        yield from asked.cases(3)
        if asked.assignment.bare:
            texts = [declaration, re.sub(rb"^norescuer", b"wq", asked.texts[1], flags=re.MULTILINE)]
            yield from program.Asked(f"{path.name}, with rescuers: ", texts, letters, choose).cases(1)
    for path in sorted(examples.rglob("*.wq")):
        declaration = declaration_of(path)
        plan = program.plan_of(declaration)
        if plan:
            asked = program.Asked(f"{path.name}, its plan: ", [declaration, plan], letters, choose)
            if not asked.is_safe:
                raise guest.Fault(f"{path}: its plan isn't safe")
            yield from asked.cases(3)


def row_cases(choose, letters):
    """The worked rows, whose answers were found by hand: `safe`, in two orders, or a run, driven, and in its order."""
    for text, rows in DEADLOCKS:
        for assignment, answer in rows:
            asked = program.Asked(f"{text} | {assignment}: ", [text_of(text), text_of(assignment)], letters, choose)
            asked.is_safe = answer == "safe"
            asked.steps = [] if asked.is_safe else model.read_run(text_of(answer), asked.declaration)
            yield from asked.cases(1 if asked.is_safe else 0)


def unsafe_assignment(choose, text, name, letters):
    """A random assignment that isn't safe, where one is found."""
    declared = model.read_declaration(text)
    for _ in range(10):
        asked = program.Asked(name, [text, random_cases.assignment_text(choose, declared)], letters, choose)
        if not asked.is_safe:
            return asked
    return None


def bare_assignments(choose, text, name, letters):
    """A safe random assignment and one that isn't, where they are found. In each a workqueue has no rescuer."""
    declared = model.read_declaration(text)
    found = {}
    for _ in range(10):
        assignment = random_cases.assignment_text(choose, declared, random_cases.WITHOUT_RESCUER)
        # (the model says which of them to take)
        hangs = bool(model.deadlocking_run(declared, model.read_assignment(assignment, declared)))
        if b"norescuer" in assignment and hangs not in found:
            found[hangs] = program.Asked(name, [text, assignment], letters, choose)
    return list(found.values())


def bare_sets(choose, count, letters, weather="short"):
    """Random declarations on workqueues of which some have no rescuer: in 2 orders, and driven by the printed run."""
    for number in range(count):
        text = random_cases.declaration_text(choose)
        for asked in bare_assignments(choose, text, f"without a rescuer {number}: ", letters):
            yield from asked.cases(1, 1, weather)


def random_sets(choose, count, letters, weather="short"):
    """Random declarations: the plan in 3 orders, and an unsafe assignment, driven by the printed run, and free."""
    for number in range(count):
        text = random_cases.declaration_text(choose)
        plan = program.plan_of(text)
        if plan:
            yield from program.Asked(f"random {number}, its plan: ", [text, plan], letters, choose).cases(2, 1, weather)
        asked = unsafe_assignment(choose, text, f"random {number}: ", letters)
        if asked:
            yield from asked.cases(1, 1, weather)


def random_runs(choose, count, letters, without_rescuer=0):
    """Random runs, with queueings of items that run, and any waits."""
    for number in range(count):
        text = random_cases.declaration_text(choose, 5, 8)
        assignment = random_cases.assignment_text(choose, model.read_declaration(text), without_rescuer)
        asked = program.Asked(f"random run {number}: ", [text, assignment], letters, choose)
        steps = random_cases.run_steps(choose, asked.declaration, asked.assignment, choose.randint(8, 40))
        case = asked.driven_case("driven", steps)
        *_, state = case.states()
        said = (
            program.ask("replay", *asked.texts, b"".join(line + b"\n" for line in model.run_text(steps)))
            .decode()
            .strip()
        )
        if (said == "open") == state.is_stuck() or said.startswith("not lawful"):
            tell(False, case.name, f"wqplan replay says {said}, the model {'stuck' if state.is_stuck() else 'open'}")
        yield case


def chain_cases(choose):
    """A chain of items on one workqueue, each of which waits for the next: with memory enough all end, if as many
    workers can be created. (The declaration isn't safe.)
    """
    for count in (10, 40):
        names = [f"i{number}" for number in range(count)]
        lines = [f"item {name}" for name in names] + [f"flush {one} {next_}" for one, next_ in zip(names, names[1:])]
        texts = ["".join(line + "\n" for line in lines).encode(), f"wq 0 {' '.join(names)}\n".encode()]
        for kind in "pu":
            asked = program.Asked(f"a chain of {count}, {kind}: ", texts, kind, choose)
            for case in asked.free_cases(1, 1):
                case.must = "end"
                yield case


def safe_cases(choose, count, letters, cpus):
    """Plans of random declarations, whose items are queued on any CPU."""
    for number in range(count):
        text = random_cases.declaration_text(choose)
        plan = program.plan_of(text)
        if plan:
            yield from program.Asked(f"two CPUs, {number}: ", [text, plan], letters, choose).free_cases(0, cpus)


def bare_safe_cases(choose, count, letters, cpus):
    """The same of safe assignments in which a workqueue has no rescuer."""
    for number in range(count):
        text = random_cases.declaration_text(choose)
        for asked in bare_assignments(choose, text, f"two CPUs, without a rescuer {number}: ", letters):
            if asked.is_safe:
                yield from asked.free_cases(0, cpus)


# The kernels --------------------------------------------------------------------------------------


def judged(kernel, sets, cpus=1, weather="short", beside=lambda made: []):
    """Has a kernel run sets of cases, by what they are, and counts of each whether it does what model and program say.

    All cases are handed back. Those that `beside` makes of them are run in the same guests; nothing is said of them.
    """
    sets = {what: list(made) for what, made in sets.items()}
    made = [case for part in sets.values() for case in part]
    cases.run(kernel, made + beside(made), cpus, weather)
    for what, part in sets.items():
        wrong = [(case, why) for case in part if (why := case.judge())]
        for case, why in wrong[:10]:
            print(f"FAILED  Linux {kernel.version}: {case.name}: {why}")
        ended = sum(case.ended() for case in part if case.outcome)
        runs = sum(isinstance(case, cases.DrivenCase) for case in part)
        told = f"{len(part)} cases, of which {runs} driven; {ended} end, {len(part) - ended} hang or stand still"
        tell(not wrong and len(part) > 3, f"Linux {kernel.version}, {what}: {told}", f"{len(wrong)} differ")
    return made


def compare_mutants(made):
    """Each wrong machine must be refused by some case."""
    for mutant in MUTANTS:
        refusing = [case.name for case in made if case.judge(mutant)]
        tell(refusing, f"a wrong model is noticed: {mutant.__name__}: by {len(refusing)} cases, such as {refusing[:1]}")


# What is taken out of the events of an outcome, in words, and whether an event is. (module/cases.c, print_events)
REMOVED = {
    "all events": lambda letter: True,
    "each queueing": lambda letter: letter == "q",
    "each start": lambda letter: letter == "s",
    "each finish": lambda letter: letter == "f",
    "each wait": lambda letter: letter in cases.WAITING,
    "the end of each wait": lambda letter: letter == "o",
    "each mark of a step": lambda letter: letter == "|",
}


def without(case, events):
    """The case, with an outcome that has these events alone."""
    case = copy.copy(case)
    case.outcome = copy.copy(case.outcome)
    case.outcome.events = events
    return case


def try_removed(made, choose):
    """Of 500 cases that agree each must differ if some of what happened is missing: all events of a kind, or one."""
    made = [case for case in made if case.outcome.events and not case.judge()]
    made = choose.sample(made, min(500, len(made)))
    for what, is_removed in REMOVED.items():
        tried = [case for case in made if any(is_removed(event[0]) for event in case.outcome.events)]
        kept = [[event for event in case.outcome.events if not is_removed(event[0])] for case in tried]
        told = sum(bool(without(case, events).judge()) for case, events in zip(tried, kept))
        tell(tried and told == len(tried), f"{what} removed: told in {told} of {len(tried)} outcomes")
    told = 0
    for case in made:
        events = list(case.outcome.events)
        del events[choose.randrange(len(events))]
        told += bool(without(case, events).judge())
    tell(made and told == len(made), f"any one event removed: told in {told} of {len(made)} outcomes")


def try_pinned(kernel):
    made = pinned.all_cases()
    pinned.run(kernel, made)
    for case in made:
        why = case.judge_series(kernel.series)
        tell(not why, f"Linux {kernel.version}: {case.name}", why)


def try_self_check(kernel, made):
    """What is no shortage is refused; and so is a case in which somebody else than the rescuer executes an item."""
    asked = program.Asked("", [b"item a\n", b"wq 0 a\n"], "p", random.Random(1))
    commands = cases.commands_of(list(asked.cases(0)), "short")
    for name, wrong in (
        ("workers can be created", commands.replace("threads-max 1\n", "")),
        ("no blockers", commands.replace("blockers\n", "")),
    ):
        try:
            guest.run(kernel, wrong)
            tell(False, f"the self-check refuses: {name}", "it didn't")
        except guest.Fault as fault:
            tell(str(fault).startswith("error"), f"the self-check refuses: {name}", str(fault))
    for case in [case for case in made if case.weather == "plenty" and not case.judge()][:3]:
        case = copy.copy(case)
        case.weather = "short"
        tell("somebody else" in case.judge(), f"this doesn't pass in a shortage: {case.name}", case.judge())


class Rescued(cases.Setting):
    """Each workqueue is made with a rescuer, whatever the assignment says."""

    def commands(self):
        return (re.sub(r"^(wq \S+) 0", r"\1 1", line) for line in super().commands())


def wants_rescuer(case):
    """Whether it hangs, and wouldn't if each workqueue had a rescuer."""
    declaration, assignment = case.setting.declaration, case.setting.assignment
    rescued = dataclasses.replace(assignment, bare=frozenset())
    return bool(assignment.bare) and bool(model.deadlocking_run(declaration, assignment)) and not model.deadlocking_run(
        declaration, rescued)


def with_rescuers(made):
    """Some cases that hang for want of a rescuer, for a kernel in which each workqueue has one."""
    found = [copy.copy(case) for case in made if wants_rescuer(case)][:30]
    for case in found:
        case.setting = Rescued(case.setting.declaration, case.setting.assignment, case.setting.kinds)
        case.must = None
    return found


def try_without_rescuers(made, rescued):
    """Of cases that hang for want of a rescuer neither `safe` passes, nor a kernel that has one for each workqueue."""
    made = [copy.copy(case) for case in made if case.weather == "short" and wants_rescuer(case) and not case.ended()]
    for case in made:
        case.must = "end"
    taken = [case.name for case in made if "must end" not in case.judge()]
    told = f"{len(made)} cases that hang for want of a rescuer, such as {made[0].name if made else 'none'}"
    tell(made and not taken, f"`safe` is refused of {told}", taken)
    taken = [case.name for case in rescued if not case.judge()]
    tell(rescued and not taken, f"a kernel that has rescuers for all is refused in {len(rescued)} cases", taken)


def try_command(series):
    """kernel/judge: its statuses, and its last line."""
    examples = ROOT / "examples"
    cancelled = {
        "d.wq": "item a\nitem b\nflush a b\n",
        "d.assign": "wq 0 a b\n",
        "bare.assign": "wq 0 a\nnorescuer 1 b\n",
        "bare.run": "run 2\nqueue b\nstart 1 b\n",
        "safe.assign": "norescuer 0 a\nwq 1 b\n",
        "d.run": "run 5\nqueue a\nstart 0 a\nqueue b\nwait 0 b\ncancel b\n",
        "bad.run": "run 1\nstart 0 a\n",
        "many.wq": "".join(f"item i{number}\n" for number in range(257)),
        "many.assign": "".join(f"wq {number} i{number}\n" for number in range(257)),
        "waits.wq": "".join(f"item i{number}\n" for number in range(66)) + "flush i65 i0\n" * 65,
        "waits.assign": "".join(f"wq {number} i{number}\n" for number in range(66)),
    }
    with tempfile.TemporaryDirectory() as folder:
        for name, text in cancelled.items():
            pathlib.Path(folder, name).write_text(text)
        for status, last, words in (
            (0, "nothing hangs", ["d.wq", "safe.assign", "--orders", "1"]),
            (1, "hangs", [examples / "xfs.wq", examples / "xfs.assign", "--orders", "0"]),
            (2, "not lawful 1", ["d.wq", "d.assign", "bad.run"]),
            (2, "refused 41 line 0", ["d.wq", "/dev/null"]),
            (2, "", ["many.wq", "many.assign"]),
            (2, "", ["waits.wq", "waits.assign"]),
            (2, "", ["d.wq", "bare.assign", "bare.run"]),
            (2, "", ["d.wq", "d.assign", "--orders", "-1"]),
            (3, "", ["d.wq", "nothing.there"]),
            (3, "", ["d.wq", "d.assign", "--keep-log", "nothing/there"]),
            # The known difference: the model lets the flush of a cancelled entry go at once.
            (4, "differs", ["d.wq", "d.assign", "d.run"]),
        ):
            ended = subprocess.run(
                [ROOT / "kernel" / "judge", *words, "--kernel", series],
                cwd=folder,
                capture_output=True,
                text=True,
                stdin=subprocess.DEVNULL,
                timeout=SECONDS,
            )
            found = ended.returncode, (ended.stdout.splitlines() or [""])[-1]
            is_told = (ended.stdout or ended.stderr) and "Traceback" not in ended.stderr
            name = f"kernel/judge {' '.join(map(str, words[-2:]))} ends with {status} {last}"
            tell(found == (status, last) and is_told, name, f"{found} {ended.stderr}")


def main(arguments):
    if not is_there("kernel", *arguments):
        return 1
    os.environ["WQPLAN"] = os.path.realpath(arguments[0])
    letters = program.LETTERS
    why = packages.missing("6.1")
    if why and os.geteuid() == 0 and shutil.which("apt-get"):
        # (a new machine has no lists of packages)
        subprocess.run(["apt-get", "update", "-q"], stdout=subprocess.DEVNULL, stderr=subprocess.DEVNULL, timeout=600, check=False)
        why = packages.missing("6.1")
    if why:
        print(f"skipped kernel: {why}")
        return 0
    kernel = guest.kernel_of("6.1")
    # Each has random numbers of its own: the random cases stay the same if an example or a row comes to it.
    examples, rows, sets, runs, plenty, two, later, bare = (random.Random(f"kernel {number}") for number in range(8))
    sets = {
        "the examples": example_cases(examples, letters["mixed"]),
        "the worked rows": row_cases(rows, letters["per-cpu"]),
        "random declarations": random_sets(sets, 40, letters["mixed"]),
        "random runs": random_runs(runs, 40, letters["mixed"]),
        "without rescuers": bare_sets(bare, 20, letters["mixed"]),
        "random runs without rescuers": random_runs(bare, 20, letters["mixed"], random_cases.WITHOUT_RESCUER),
    }
    rescued = []
    made = judged(kernel, sets, beside=lambda made: rescued.extend(with_rescuers(made)) or rescued)
    sets = {
        "with memory enough": random_sets(plenty, 12, letters["mixed"], "plenty"),
        "with memory enough, without rescuers": bare_sets(bare, 6, letters["mixed"], "plenty"),
        "with memory enough, chains": chain_cases(plenty),
    }
    made += judged(kernel, sets, weather="plenty")
    sets = {
        "two CPUs": safe_cases(two, 20, letters["mixed"], 2),
        "two CPUs, without rescuers": bare_safe_cases(bare, 10, letters["mixed"], 2),
    }
    judged(kernel, sets, cpus=2)
    compare_mutants(made)
    try_removed(made, random.Random("removed"))
    try_pinned(kernel)
    try_self_check(kernel, made)
    try_without_rescuers(made, rescued)
    try_command("6.1")
    why = packages.missing("6.12")
    if why:
        print(f"skipped kernel 6.12: {why}")
    else:
        kernel = guest.kernel_of("6.12")
        sets = {
            "the examples": example_cases(later, letters["mixed"]),
            "random declarations": random_sets(later, 15, letters["mixed"]),
            "random runs": random_runs(later, 15, letters["mixed"]),
            "without rescuers": bare_sets(bare, 10, letters["mixed"]),
            "random runs without rescuers": random_runs(bare, 10, letters["mixed"], random_cases.WITHOUT_RESCUER),
        }
        judged(kernel, sets)
        try_pinned(kernel)
    return counts_of("kernel", counts[True], counts[False])


if __name__ == "__main__":
    sys.exit(main(sys.argv[1:]))
