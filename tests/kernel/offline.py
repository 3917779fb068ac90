#!/usr/bin/env python3
"""What kernel/ says and refuses without a guest: what comments mean, limits, a console of which lines are lost, and
recorded consoles from which events are removed.

    offline.py PROGRAM

It takes seconds, and needs neither QEMU nor a kernel.
"""

import itertools
import os
import pathlib
import random
import re
import subprocess
import sys
import tempfile

sys.dont_write_bytecode = True
ROOT = pathlib.Path(__file__).resolve().parents[2]
for folder in ("kernel/lib", "tests/lib"):
    sys.path.append(str(ROOT / folder))
import comments  # noqa: E402  (in kernel/lib, as is the next one)
import guest  # noqa: E402
import program  # noqa: E402
import recorded  # noqa: E402  (beside this)
from programs import counts_of, is_there  # noqa: E402  (in tests/lib)

counts = {True: 0, False: 0}


def equal(name, wanted, found):
    counts[wanted == found] += 1
    if wanted != found:
        print(f"FAILED  {name}: wanted {wanted!r}, found {found!r}")


# By the comment of a workqueue's line its letter (kernel/lib/cases.py, KINDS): lines of the examples, and of drafts.
COMMENTS = {
    "": "p",
    "md, md.c:9748 md_init": "p",
    "nvme_tcp_wq, tcp.c:2838 nvme_tcp_init_module, WQ_HIGHPRI": "h",
    "nbd0-recv, nbd.c:1828 nbd_dev_add, WQ_HIGHPRI, WQ_UNBOUND, one for each device": "g",
    "writeback, mm/backing-dev.c:236 default_bdi_init, WQ_UNBOUND, one for all disks": "u",
    "xfs-buf, xfs_super.c:528 xfs_init_mount_workqueues, max_active 1": "1",
    "xfs-cil, xfs_log_cil.c:1844 xlog_cil_init, max_active 4": "p",
    "a, b.c:1 f, max_active 16": "p",
    "dmz_rwq, dm-zoned-reclaim.c:577 dmz_ctr_reclaim, ordered": "o",
    "dm-integrity-wait, dm-integrity.c:4369 dm_integrity_ctr, WQ_UNBOUND with max_active 1, so ordered": "o",
    "a, b.c:1 f, max_active 1 (ordered in Linux 6.1, not in 6.12), WQ_MEM_RECLAIM, WQ_UNBOUND": "v",
    "a, b.c:1 f, max_active 1, WQ_MEM_RECLAIM, WQ_UNBOUND": "v",
    "ordered, b.c:1 make_ordered, WQ_MEM_RECLAIM": "p",
    "a, b.c:1 f, a kthread_worker: ordered, a thread of its own": "o",
    "system_wq, kernel/workqueue.c:6067 workqueue_init_early": "p",
    "system_unbound_wq, no rescuer": "u",
    "a, b.c:1 f, NO WQ_MEM_RECLAIM: no rescuer, WQ_UNBOUND": "u",
}


def try_comments():
    for comment, letter in COMMENTS.items():
        equal(f"the kind of `{comment}`", letter, comments.kind_of(comment))
    text = b"wq 0 a # x\nnorescuer 2 b # y, c.c:1 f, WQ_UNBOUND\nplan 3\nwq 1 c # z, c.c:2 g, ordered\n"
    equal("kinds of an assignment", (["p", "o", "u"], True), comments.kinds(text, 3))
    equal("kinds of an assignment that says none", (["p"], False), comments.kinds(b"wq 0 a # x\n", 1))
    text = b"item a\nitem b\nflush a b b # done x.c:1 f\nflushwq a b # done\nflush b a # undone\n\tflush b a #done\n"
    equal("the flushes that are done", frozenset({0, 1, 4}), comments.done_flushes(text))
    for name, places in (("nvme-auth", {0, 2}), ("md", {0, 1, 2, 3}), ("dm-snapshot", {0, 3})):
        text = (ROOT / f"examples/{name}.wq").read_bytes()
        equal(f"{name}: the flushes that are done", places, comments.done_flushes(text))


def try_readings():
    """Which unsure lines the items of a kernel make."""
    text = b"item a\nitem b\nflush a b\nflush? b a  # done\nflush?  b a\nflushwq? a b\n"
    sure = text.replace(b"? ", b" ")
    equal("a safe one makes all", sure, program.reading(text, b"safe\n"))
    equal("one that hangs for sure, none", b"item a\nitem b\nflush a b\n\n\n\n", program.reading(text, b"unsure 0\nrun 0\n"))
    kept = b"item a\nitem b\nflush a b\nflush b a  # done\n\nflushwq a b\n"
    answer = b"unsure 2\nflush? b a\nflushwq? a b\nrun 1\nqueue a\n"
    equal("those of the unsure part", kept, program.reading(text, answer))
    equal("without unsure lines", sure, program.reading(sure, b"run 1\nqueue a\n"))


CONSOLE = """[    1.000000] wqjudge: 1 ready
[    2.000000] wqjudge: 2 at 0
[    3.000000] wqjudge: 3 state 0 run done
------------[ cut here ]------------
[    3.100000] workqueue: WQ_MEM_RECLAIM q0:work_fn [wqjudge] is flushing !WQ_MEM_RECLAIM q1:work_fn [wqjudge]
[    3.200000] WARNING: CPU: 0 PID: 88 at kernel/workqueue.c:2663 check_flush_dependency+0x10d/0x120
[    3.300000] Modules linked in: wqjudge(O)
[    4.000000] wqjudge: 4 part 0 end 0:rw1
[    4.000000] wqjudge: 5 state 0 end hung 1:p
[    5.000000] wqjudge: 6 events 0 q0 q1 s0R w0.1
[    6.000000] wqjudge: 7 busy Showing busy workqueues
[    6.000000] wqjudge: 8 busy workqueue q0: flags=0x8
== q0+q0
    [<0>] flush_work+0x5c/0x90
    [<0>] work_fn+0x16f/0x320 [wqjudge]
[    6.000000] wqjudge: 9 listed
[    7.000000] wqjudge: 10 bye
"""


def fault_of(console):
    """What is wrong with a console, or nothing."""
    try:
        guest.read_outcomes(console)
        return ""
    except guest.Fault as fault:
        return str(fault)


def try_console():
    outcomes, others = guest.read_outcomes(CONSOLE)
    found = outcomes[0]
    equal("states", {"run": (True, {}), "end": (False, {0: "rw1", 1: "p"})}, found.states)
    events = [("q", 0, None, None), ("q", 1, None, None), ("s", 0, None, "R"), ("w", 0, 1, None)]
    equal("events", events, found.events)
    equal("busy", ["Showing busy workqueues", "workqueue q0: flags=0x8"], found.busy)
    equal("stacks", {"q0+q0": ["flush_work+0x5c/0x90", "work_fn+0x16f/0x320 [wqjudge]"]}, found.stacks)
    equal("the kernel's words", ["workqueue", "WARNING"], [said.split(":")[0] for said in found.kernel_says])
    equal("other lines", ["ready", "bye"], others)
    lines = CONSOLE.splitlines(keepends=True)
    ours = [number for number, line in enumerate(lines) if "wqjudge: " in line]
    for number in ours[:-1]:
        without = "".join(lines[:number] + lines[number + 1 :])
        equal(f"without `{lines[number].strip()}`", True, "lost" in fault_of(without))
    equal("a damaged line", True, "damaged" in fault_of(CONSOLE.replace("s0R", "s0[ 5.1]R")))


# So many ways to remove events from the recorded console of a kernel are tried.
WAYS = 500


def kept(console, events):
    """The console, and of its events those whose numbers, counted from its start, aren't among these."""
    numbers = itertools.count()

    def line_without(line):
        head, case, *words = line.groups()
        told = [word for word in words[0].split() if next(numbers) not in events]
        return " ".join([f"{head}events {case}", *told])

    return re.sub(r"(?m)^(.*wqjudge: \d+ )events (\d+)( .*)$", line_without, console)


def events_of(console):
    """Of each case the numbers of its events, and each event as it is printed."""
    found, numbers = {}, itertools.count()
    for case, words in re.findall(r"(?m)^.*wqjudge: \d+ events (\d+)( .*)$", console):
        found.setdefault(int(case), []).extend((next(numbers), word) for word in words.split())
    return found


def ways_of(console, choose):
    """Ways to remove events: each event alone, all of a case that begin with one letter, all of a case, and random
    ones. Each has the case that it is about.
    """
    ways = []
    for case, events in events_of(console).items():
        numbers = [number for number, _ in events]
        letters = sorted({word[0] for _, word in events})
        ways += [(case, {number}) for number in numbers]
        ways += [(case, {number for number, word in events if word[0] == letter}) for letter in letters]
        ways += [(case, set(numbers))]
        ways += [(case, set(choose.sample(numbers, choose.randint(1, len(numbers))))) for _ in range(5)]
    return ways


def try_removed():
    """Each recorded case is as it must be, and differs if any of what happened in it is missing."""
    files = sorted(recorded.CONSOLES.glob("*.json"))
    equal("recorded consoles", ["6.1.json", "6.12.json"], [path.name for path in files])
    for path in files:
        made, console = recorded.read(path)
        found = [recorded.judged(case, number, console) for number, case in enumerate(made)]
        equal(f"{path.name}: what the judge says", [""] * len(made), found)
        choose = random.Random(path.name)
        tried = choose.sample(ways_of(console, choose), WAYS)
        told = 0
        for number, events in tried:
            why = recorded.judged(made[number], number, kept(console, events))
            told += bool(why)
            equal(f"{path.name}: events {sorted(events)} removed from {made[number].name}", True, bool(why))
        print(f"{path.name}: events removed: the judge tells {told} of {len(tried)}")


# A call of the judge, which is refused before anything boots: its files, its words, and what it says.
MANY = "".join(f"item i{number}\n" for number in range(65))
REFUSED = {
    "257 items": (
        "".join(f"item i{number}\n" for number in range(257)),
        "wq 0 " + " ".join(f"i{number}" for number in range(257)) + "\n",
        [],
        "257 items; at most 256",
    ),
    "257 workqueues": (
        "item a\n",
        "wq 0 a\n" + "".join(f"wq {number}\n" for number in range(1, 257)),
        [],
        "257 workqueues; at most 256",
    ),
    "65 waits": (MANY + "flush i64 i0\n" * 65, f"wq 0 {' '.join(MANY.split()[1::2])}\n", [], "65 waits; at most 64"),
    "too many events": (
        MANY + "".join(f"flush i{number}{' i64' * 32}\n" for number in range(64)),
        "".join(f"wq {number} i{number}\n" for number in range(65)),
        [],
        "up to 4291 events",
    ),
    "kinds that are too few": (
        "item a\nitem b\n",
        "wq 0 a\nwq 1 b\n",
        ["--kinds", "p"],
        "2 workqueues, but --kinds names 1",
    ),
    "a kind that isn't there": ("item a\n", "wq 0 a\n", ["--kinds", "x"], "--kinds"),
    "both": ("item a\n", "wq 0 a\n", ["--kinds", "p", "--kind", "unbound"], "not allowed with"),
    "a C file with another name": ("item a\n", "wq 0 a\n", ["--write-c", "a-b.c"], "--write-c"),
}


def judge(folder, declaration, assignment, *words):
    (folder / "d.wq").write_text(declaration)
    (folder / "d.assign").write_text(assignment)
    command = [ROOT / "kernel/judge", "d.wq", "d.assign", *words]
    return subprocess.run(command, cwd=folder, capture_output=True, text=True, timeout=120, check=False)


def try_refusals():
    with tempfile.TemporaryDirectory() as folder:
        folder = pathlib.Path(folder)
        for name, (declaration, assignment, words, said) in REFUSED.items():
            ended = judge(folder, declaration, assignment, *words)
            equal(f"{name}: status", 2, ended.returncode)
            equal(f"{name}: {said}", True, said in ended.stderr and ended.stderr.count("\n") < 40)
        # A file that isn't the judge's stays as it is. Its own is written again.
        (folder / "driver.c").write_text("int x;\n")
        words = "item a\n", "wq 0 a\n", "--write-c"
        ended = judge(folder, *words, "driver.c")
        equal("a C file that is there", (2, "int x;\n"), (ended.returncode, (folder / "driver.c").read_text()))
        equal("a C file", [0, 0], [judge(folder, *words, "new.c").returncode for _ in range(2)])
        # A run of 2,100 steps is no longer kept whole either.
        (folder / "long.run").write_text("run 2100\n" + "queue a\ncancel a\n" * 1050)
        ended = judge(folder, "item a\n", "wq 0 a\n", "long.run")
        equal("a long run", (2, True), (ended.returncode, "up to 4203 events" in ended.stderr))


def main(arguments):
    if not is_there("kernel_offline", *arguments):
        return 1
    os.environ["WQPLAN"] = os.path.realpath(arguments[0])
    try_comments()
    try_readings()
    try_console()
    try_removed()
    try_refusals()
    return counts_of("kernel_offline", counts[True], counts[False])


if __name__ == "__main__":
    sys.exit(main(sys.argv[1:]))
