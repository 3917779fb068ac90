# Shows that each call of a runtime which wakes others does so:
#
#     wakes.py TEST_RUNTIME
#
# `test_runtime calls` has some calls fall asleep, each in a thread of its own, and makes a call that has to wake them, while nothing
# else happens. Where it doesn't, nobody ever does: the program is ended after ten seconds, and the call is named. No answer
# depends on time: a call that comes too late to fall asleep is answered all the same, and its round shows nothing. A call of which no
# round shows anything has failed.
#
# And it shows that none of these calls has the lock while it wakes others: its thread is stopped just then, and who is woken goes on;
# that a queueing wakes one context, and not all nine of a workqueue: who is woken in vain sleeps again, which the kernel counts; and
# that whoever waits takes no processor time while nothing happens, as who looks again and again does.
# All was worked out by hand from docs/RUNTIME.md. It takes some seconds.

import collections
import concurrent.futures
import dataclasses
import os
import pathlib
import re
import resource
import subprocess
import sys
import tempfile
import time

sys.dont_write_bytecode = True
sys.path.append(str(pathlib.Path(__file__).resolve().parents[1] / "lib"))
from programs import ask, counts_of, heeded, is_there, started  # noqa: E402  (in tests/lib)
from tables import short, text_of  # noqa: E402  (there, too)
from traced import KernelCall, may_trace, traced  # noqa: E402

# How often each is tried, how long a program may take, in seconds, and how many run at a time: they sleep nearly all the time.
ROUNDS = 20
SECONDS = 10
WORKERS = 40

# How often a call is stopped while it wakes others, at most, and how long those have to go on meanwhile, in seconds.
STOPS = 3
STOPPED = 5

# How often an entry is queued and waited for while eight helpers and the rescuer sleep, and how often all threads together may fall asleep
# for each. The body sleeps once, who executes it and who waits for it once or twice: it is three times, and eleven where all nine are woken.
QUEUEINGS = 300
MOST_SLEEPS = 6

# Calls that wait until the program is killed, one of each group of sleepers, and the main thread with them: `a` runs, and
# its next entry is pending. For so long, in seconds, it is watched whether they take processor time, and so many times:
# while the program starts, it does.
ASLEEP = "asleep flush a / asleep flushwq 0 / asleep help next 0 1 / asleep destroy"
WAITING = f"queue 0 a / next 0 / queue 0 a / {ASLEEP} / flush a"
WATCHED = 0.5
WATCHES = 16

# Items on four workqueues. An entry of `b` stays pending behind one of `a` that runs; `c` waits for either, and `d` for their whole
# workqueue. There are 256 condition variables for those who wait for items (docs/DECISIONS.md, "Runtimes"), which `z`, item 256, and
# `a`, item 0, share. The others are never queued.
OTHERS = [f"x{number}" for number in range(4, 256)]
DECLARED = " / ".join([*(f"item {name}" for name in [*"abcd", *OTHERS, "z"]), "flush c a b", "flushwq d a"])
ASSIGNED = f"wq 0 a b / wq 1 c / wq 2 d / wq 3 z {' '.join(OTHERS)}"
A_RUNS = "queue 0 a: true / next 0: a"
B_IS_BEHIND = f"{A_RUNS} / queue 0 b: true"
C_RUNS = "queue 1 c: true / next 1: c"
D_RUNS = "queue 2 d: true / next 2: d"
Z_RUNS = "queue 3 z: true / next 3: z"
A_ENDS = "finish 0 a: ok / destroy: ok"
HELPED_A = "queue 0 a: true / help next 0 1: a"
HELPED_A_ENDS = "help finish 0 1 a: ok / destroy: ok"
BOTH_END = f"finish 1 c: ok / {A_ENDS}"
EIGHT_HELPERS = " / ".join(f"help next 0 {helper}: none" for helper in range(1, 9))


@dataclasses.dataclass
class Wake:
    """A call that wakes, who sleeps until then, and lines with their answers: of the calls before, of those that sleep, of the call that
    wakes them, and of those after. A call that comes too late to fall asleep may have the answer after the `|`, or is told by what is
    counted: `counted` is what it says of those that slept."""

    call: str
    sleepers: str
    before: str
    asleep: str
    waking: str
    after: str
    counted: str = ""
    helpers: int = 0  # how many each workqueue has
    shared: bool = False  # whether the answers of those that sleep are shared out among them in any way

    def name(self):
        return f"{self.call} wakes {self.sleepers}"

    def words(self):
        """The words of the command line before the texts."""
        return [*(["helpers", str(self.helpers)] if self.helpers else []), "calls"]

    def parts(self):
        """The lines and their answers, each part by itself, in the order of the text."""
        for part in self.before, self.asleep, self.waking, self.after:
            yield [line.split(": ") for line in part.split(" / ")] if part else []

    def text(self):
        before, asleep, waking, after = self.parts()
        asleep = [(f"asleep {line}", answer) for line, answer in asleep]
        return text_of(" / ".join([*(line for line, _ in [*before, *asleep, *waking, *after]), "close 99"]))

    def printed(self):
        """What is printed, as a regular expression. The answers of those that slept have groups, and so has what is counted."""
        before, asleep, waking, after = self.parts()
        any_of_them = "|".join(answer for _, answer in asleep)
        lines = [f"{line} {answer}" for line, answer in [*before, *waking]]
        lines += [f"asleep {line} ({any_of_them if self.shared else answer})" for line, answer in asleep]
        lines += [f"{line} {answer}" for line, answer in after]
        return "".join(f"{line}\n" for line in [*lines, "close 99 ok", "agree true"]).encode() + b"((?s:.*))"

    def is_shared_out(self, answers):
        """Whether each answer that is to be shared out was given once."""
        if not self.shared:
            return True
        _, asleep, _, _ = self.parts()
        left = [answer.decode() for answer in answers[:-1]]
        for _, wanted in asleep:
            given = [answer for answer in wanted.split("|") if answer in left]
            if not given:
                return False
            left.remove(given[0])
        return True

    def is_late(self, answers):
        """Whether one of those that were to sleep had nothing left to wait for."""
        _, asleep, _, _ = self.parts()
        *answers, counts = (answer.decode() for answer in answers)
        wanted = [answer.split("|")[0] for _, answer in asleep]
        if self.shared:
            answers, wanted = sorted(answers), sorted(wanted)
        return answers != wanted or bool(self.counted) and self.counted not in counts.splitlines()


WAKES = [
    Wake("queue_work", "a rescuer", "", "next 0: a", "queue 0 a: true", A_ENDS),
    Wake("cancel_work", "two callers that flush the item", B_IS_BEHIND,
         "flush b: true|false / flush b: true|false", "cancel b: true", A_ENDS),
    Wake("cancel_work", "a body that waits for the item", f"{B_IS_BEHIND} / {C_RUNS}",
         "wait 1 b: true|false", "cancel b: true", BOTH_END),
    Wake("cancel_work", "two callers that destroy", "queue 0 b: true", "destroy: ok / destroy: ok", "cancel b: true", ""),
    Wake("cancel_work_sync", "two callers that flush the item", B_IS_BEHIND,
         "flush b: true|false / flush b: true|false", "sync b: true", A_ENDS),
    Wake("cancel_work_sync", "a body that waits for the item", f"{B_IS_BEHIND} / {C_RUNS}",
         "wait 1 b: true|false", "sync b: true", BOTH_END),
    Wake("cancel_work_sync", "two callers that destroy", "queue 0 b: true", "destroy: ok / destroy: ok", "sync b: true", ""),
    Wake("finish_work", "two callers that flush the item", A_RUNS,
         "flush a: true|false / flush a: true|false", "finish 0 a: ok", "destroy: ok"),
    Wake("finish_work", "two callers in cancel_work_sync of the item", A_RUNS,
         "sync a: false / sync a: false", "finish 0 a: ok", "destroy: ok", "made a told yes 2"),
    Wake("finish_work", "a body that waits for the item", f"{A_RUNS} / {C_RUNS}",
         "wait 1 a: true|false", "finish 0 a: ok", "finish 1 c: ok / destroy: ok"),
    Wake("finish_work", "two callers that destroy", A_RUNS, "destroy: ok / destroy: ok", "finish 0 a: ok", ""),
    Wake("finish_work", "two callers that destroy, on another workqueue", C_RUNS, "destroy: ok / destroy: ok", "finish 1 c: ok", ""),
    Wake("destroy", "the rescuers of two workqueues", "", "next 0: none / next 1: none", "destroy: ok", ""),
    Wake("finish_work", "two callers that flush the workqueue", A_RUNS,
         "flushwq 0: ok / flushwq 0: ok", "finish 0 a: ok", "destroy: ok", "made lane 0 toldlane yes 2"),
    Wake("finish_work", "two callers that flush another workqueue", C_RUNS,
         "flushwq 1: ok / flushwq 1: ok", "finish 1 c: ok", "destroy: ok", "made lane 1 toldlane yes 2"),
    Wake("cancel_work", "two callers that flush the workqueue", "queue 0 b: true",
         "flushwq 0: ok / flushwq 0: ok", "cancel b: true", "destroy: ok", "made lane 0 toldlane yes 2"),
    Wake("cancel_work_sync", "two callers that flush the workqueue", "queue 0 b: true",
         "flushwq 0: ok / flushwq 0: ok", "sync b: true", "destroy: ok", "made lane 0 toldlane yes 2"),
    Wake("finish_work", "a body that waits for the whole workqueue", f"{A_RUNS} / {D_RUNS}",
         "waitall 2 a: true|false", "finish 0 a: ok", "finish 2 d: ok / destroy: ok"),
    Wake("cancel_work", "a body that waits for the whole workqueue", f"queue 0 b: true / {D_RUNS}",
         "waitall 2 a: true|false", "cancel b: true", "finish 2 d: ok / destroy: ok"),
    Wake("cancel_work_sync", "a body that waits for the whole workqueue", f"queue 0 b: true / {D_RUNS}",
         "waitall 2 a: true|false", "sync b: true", "finish 2 d: ok / destroy: ok"),
    # A finish of `a` wakes them first, and they sleep again.
    Wake("finish_work", "two callers that flush an item which shares its variable with another that has ended", f"{A_RUNS} / {Z_RUNS}",
         "flush z: true|false / flush z: true|false / finish 0 a: ok", "finish 3 z: ok", "destroy: ok"),
    # Two threads that sleep in one context, and a queueing beside them: its entry goes to one of them. The next queueing wakes the other,
    # which is refused, since that entry still runs. (Where the queueing beside them comes too late, the items change places.)
    Wake("queue_work", "a thread that sleeps in a context where another thread has started an entry", "",
         "next 0: b|a / next 0: refused 64 / queue 0 b: true", "queue 0 a: true",
         "finish 0 b: (?:ok|refused 64) / finish 0 a: (?:ok|refused 64) / next 0: (?:a|b)"
         " / finish 0 b: (?:ok|refused 64) / finish 0 a: (?:ok|refused 64) / destroy: ok", shared=True),
    # With a helper on each workqueue. Who is idle sleeps while the item of what is pending runs elsewhere.
    Wake("queue_work", "a helper", "", "help next 0 1: a", "queue 0 a: true", HELPED_A_ENDS, helpers=1),
    Wake("help_finish_work", "a rescuer, for whom the item's next entry is pending", f"{HELPED_A} / queue 0 a: true",
         "next 0: a", "help finish 0 1 a: ok", A_ENDS, helpers=1),
    Wake("finish_work", "a helper, for whom the item's next entry is pending", f"{A_RUNS} / queue 0 a: true",
         "help next 0 1: a", "finish 0 a: ok", HELPED_A_ENDS, helpers=1),
    Wake("queue_work", "a rescuer, behind an entry whose item a helper runs", f"{HELPED_A} / queue 0 a: true",
         "next 0: b", "queue 0 b: true", f"finish 0 b: ok / cancel a: true / {HELPED_A_ENDS}", helpers=1),
    Wake("help_finish_work", "two callers that flush the item", HELPED_A,
         "flush a: true|false / flush a: true|false", "help finish 0 1 a: ok", "destroy: ok", helpers=1),
    Wake("help_finish_work", "two callers that flush the workqueue", HELPED_A,
         "flushwq 0: ok / flushwq 0: ok", "help finish 0 1 a: ok", "destroy: ok", "made lane 0 toldlane yes 2", helpers=1),
    Wake("help_finish_work", "a body of a rescuer that waits for the item", f"{HELPED_A} / {C_RUNS}",
         "wait 1 a: true|false", "help finish 0 1 a: ok", "finish 1 c: ok / destroy: ok", helpers=1),
    Wake("finish_work", "a body of a helper that waits for the item", f"{A_RUNS} / queue 1 c: true / help next 1 1: c",
         "help wait 1 1 a: true|false", "finish 0 a: ok", "help finish 1 1 c: ok / destroy: ok", helpers=1),
    Wake("cancel_work", "a body of a helper that waits for the item", f"{B_IS_BEHIND} / queue 1 c: true / help next 1 1: c",
         "help wait 1 1 b: true|false", "cancel b: true", f"help finish 1 1 c: ok / {A_ENDS}", helpers=1),
    Wake("help_finish_work", "a body of a helper that waits for the whole workqueue", f"{HELPED_A} / queue 2 d: true / help next 2 1: d",
         "help waitall 2 1 a: true|false", "help finish 0 1 a: ok", "help finish 2 1 d: ok / destroy: ok", helpers=1),
    Wake("help_finish_work", "two callers that destroy", HELPED_A, "destroy: ok / destroy: ok", "help finish 0 1 a: ok", "", helpers=1),
    Wake("destroy", "the rescuers and helpers of two workqueues", "",
         "next 0: none / help next 0 1: none / next 1: none / help next 1 1: none", "destroy: ok", "", helpers=1),
    # Eight that end at once: whoever wakes one of them, and then another one, leaves six asleep.
    Wake("destroy", "a rescuer and eight helpers", "", f"next 0: none / {EIGHT_HELPERS}", "destroy: ok", "", helpers=8),
]

LOST = f"it didn't end within {SECONDS} s, so a wake-up is lost"


def tried(program, files, wake):
    """What comes of a round: None where it is as it should be, `late` where it also shows nothing, or what is wrong."""
    found = ask([program, *wake.words(), *files], timeout=SECONDS)
    if found.is_late():
        return LOST
    match = re.fullmatch(wake.printed(), found.printed)
    if match is None or found.status or found.errors or not wake.is_shared_out(match.groups()):
        return f"status {found.status}, {short(found.printed)}, standard error {short(found.errors)}"
    return "late" if wake.is_late(match.groups()) else None


def goes_on(waker):
    """Whether one of those that a call wakes goes on while the thread that makes it is stopped there; None if nobody slept. It makes
    this call after a nap, and is stopped at the end of that, too, until all others sleep."""
    if not waker.after(KernelCall.sleeps) or not waker.come_true(waker.others_sleep, STOPPED):
        return False
    there = len(waker.threads())
    if there == 1:
        return None
    return waker.after(KernelCall.wakes) and waker.come_true(lambda: len(waker.threads()) < there, STOPPED)


def stopped(program, files, wake):
    """What is wrong with a call that wakes others, and is stopped while it does so, or None."""
    came = collections.Counter()
    while came[False] < STOPS and came[None] < ROUNDS:
        with traced([program, *wake.words(), *files], timeout=3 * SECONDS) as waker:
            came[goes_on(waker)] += 1
        if came[True]:
            return None
    return f"nobody does in {came[False]} rounds, and nobody slept in {came[None]}"


def sleeps():
    """How often the programs that have ended fell asleep, all threads together."""
    return resource.getrusage(resource.RUSAGE_CHILDREN).ru_nvcsw


def queueings(program, setting):
    """What is wrong with how many are woken by queueings, or None."""
    before = sleeps()
    found = ask([program, "helpers", "8", "bench", *setting, "100000", "sleep", "1", str(QUEUEINGS)])
    each = (sleeps() - before) / QUEUEINGS
    if found.status or b"\ncaller ok\n" not in found.printed:
        return f"status {found.status}, {short(found.printed)}"
    return f"{each:.1f} times for each queueing a thread fell asleep" if each > MOST_SLEEPS else None


def taken(process):
    """How much processor time a process has taken, in ticks of the kernel, and how many threads it has."""
    fields = pathlib.Path(f"/proc/{process.pid}/stat").read_text().rpartition(")")[2].split()
    return int(fields[11]) + int(fields[12]), int(fields[17])


def waiting(program, setting, text):
    """What is wrong with calls that wait while nothing happens, or None: once all threads are there, they take no
    processor time, twice in a row (at first they wait for one another)."""
    every = 1 + WAITING.count("asleep")
    words = [program, "helpers", "1", "calls", *setting, text]
    with started(words, stdout=subprocess.DEVNULL, stderr=subprocess.DEVNULL) as process:
        quiet = 0
        for _ in range(WATCHES):
            before, threads = taken(process)
            time.sleep(WATCHED)
            if process.poll() is not None:
                return f"they don't wait: status {process.returncode}"
            quiet = quiet + 1 if threads == every and taken(process)[0] == before else 0
            if quiet == 2:
                return None
        return f"{threads} threads of {every}, and they take processor time"


def main(arguments):
    if not is_there("wakes", *arguments):
        return 1
    program = os.path.realpath(arguments[0])
    passed = 0
    with tempfile.TemporaryDirectory(prefix="wakes_") as folder, concurrent.futures.ThreadPoolExecutor(WORKERS) as pool:

        def file(name, text):
            place = pathlib.Path(folder, name)
            place.write_bytes(text)
            return str(place)

        setting = [file("declaration", text_of(DECLARED)), file("assignment", text_of(ASSIGNED)), "1000"]
        texts = [(wake, file(f"{number}", wake.text())) for number, wake in enumerate(WAKES)]
        rounds = [[pool.submit(tried, program, [*setting, text], wake) for _ in range(ROUNDS)] for wake, text in texts]
        for wake, tries in zip(WAKES, rounds):
            came = collections.Counter(round.result() for round in tries)
            good, late = came.pop(None, 0), came.pop("late", 0)
            if not good and not came:
                came["it came too late to sleep"] = late
            for why, times in came.items():
                print(f"FAILED  {wake.name()}: in {times} of {ROUNDS} rounds {why}", flush=True)
            if not came:
                passed += 1
                print(f"ok      {wake.name()}: {good} rounds" + (f", and {late} too late to sleep" if late else ""), flush=True)
        stops = [pool.submit(stopped, program, [*setting, text], wake) for wake, text in (texts if may_trace() else [])]
        for wake, stop in zip(WAKES, stops):
            meanwhile = f"{wake.name()}, who can go on meanwhile"
            print(f"FAILED  {meanwhile}: {stop.result()}" if stop.result() else f"ok      {meanwhile}", flush=True)
            passed += stop.result() is None
        if not stops:
            print("left    who is woken can go on meanwhile: no program may be traced here", flush=True)
        wrong = queueings(program, [file("one", text_of("item a")), file("only", text_of("wq 0 a"))])
        print(f"FAILED  queue_work wakes one of nine contexts: {wrong}" if wrong else f"ok      queue_work wakes one of nine contexts: {QUEUEINGS} times")
        passed += wrong is None
        wrong = waiting(program, setting, file("waiting", text_of(WAITING)))
        waits = "whoever waits takes no processor time"
        print(f"FAILED  {waits}: {wrong}" if wrong else f"ok      {waits}")
        passed += wrong is None
    return counts_of("wakes", passed, len(WAKES) + len(stops) + 2 - passed)


if __name__ == "__main__":
    # Only the main thread may say how signals are heeded, and programs are started in others.
    with heeded():
        sys.exit(main(sys.argv[1:]))
