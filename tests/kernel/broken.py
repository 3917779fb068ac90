#!/usr/bin/env python3
"""Modules that are broken in one place: does kernel/judge notice?

    broken.py PROGRAM

Each of BROKEN is an edit of kernel/module. All are built into one module, and a command chooses which of them is so. Of
each a case of a small declaration must differ, or one of the judge's own must fail; without any all pass. One needs a
guest of its own: that in which there is no shortage.

Where QEMU or a kernel can't be had, it says so, and skips what needs it: that is no failure. It takes half a minute of
processor time.
"""

import dataclasses
import os
import pathlib
import random
import shutil
import sys
import tempfile

sys.dont_write_bytecode = True
ROOT = pathlib.Path(__file__).resolve().parents[2]
for folder in ("kernel/lib", "tests/lib"):
    sys.path.append(str(ROOT / folder))
import cases  # noqa: E402  (in kernel/lib, as are the next four)
import controls  # noqa: E402
import guest  # noqa: E402
import packages  # noqa: E402
import program  # noqa: E402
from programs import counts_of, is_there  # noqa: E402  (in tests/lib)

SERIES = "6.1"
counts = {True: 0, False: 0}


def tell(passed, name, why=""):
    """Counts one that passed or failed."""
    counts[bool(passed)] += 1
    print(f"{'ok     ' if passed else 'FAILED '} {name}{f': {why}' if not passed and why else ''}", flush=True)


@dataclasses.dataclass
class Edit:
    """A statement, or some, that stands in a file of the module once, and what takes its place."""

    file: str
    old: str
    new: str


WAIT = "cases.c"
# When no more is waited for.
SETTLING = """if (READ_ONCE(c->happened) != seen) {{
			seen = READ_ONCE(c->happened);
			left = looks;
		}} else if (left-- == {}) {{
			return false;
		}}"""
BROKEN = {
    "flush_work isn't called": [Edit(WAIT, "flush_work(&target->work);", ";")],
    "flush_workqueue is flush_work of the item": [
        Edit(WAIT, "flush_workqueue(target->q->wq);", "flush_work(&target->work);")
    ],
    "a completion is there at once": [Edit(WAIT, "wait_event(c->news, READ_ONCE(target->finished) >= times);", ";")],
    "each workqueue has a rescuer": [
        Edit(WAIT, "q = make_queue(kind, rescuer, max_active);", "q = make_queue(kind, true, max_active);")
    ],
    "all items are on the first workqueue": [Edit(WAIT, "it->q = c->queues[queue];", "it->q = c->queues[0];")],
    "pending items count as finished": [
        Edit(
            WAIT,
            "return work_pending(&it->work) || READ_ONCE(it->started) > READ_ONCE(it->finished);",
            "return READ_ONCE(it->started) > READ_ONCE(it->finished);",
        )
    ],
    "each item leaves out its last wait": [
        Edit(
            WAIT,
            "for (i = 0; i < it->nacts; i++)\n\t\t\tdo_act(it, it->acts[i]);",
            "for (i = 0; i < it->nacts - 1; i++)\n\t\t\tdo_act(it, it->acts[i]);",
        )
    ],
    "item 0 never finishes": [
        Edit(WAIT, "WRITE_ONCE(it->doing, IDLE);", "if (!it->number)\n\t\twait_event(c->news, false);")
    ],
    "starts aren't noted": [Edit(WAIT, "note(c, 's', it->number, -1, runs_here(it->q));", ";")],
    "the first item isn't queued": [
        Edit(
            WAIT,
            "accepted = queue_work_on(cpu, it->q->wq, &it->work);",
            "accepted = it->number && queue_work_on(cpu, it->q->wq, &it->work);",
        )
    ],
    "items act before all are queued": [
        Edit(WAIT, "wait_event(c->news, READ_ONCE(c->begun));", ";"),
        # (on one CPU nothing comes between the queueings, unless somebody sleeps there)
        Edit(
            WAIT,
            "note(it->c, accepted ? 'q' : 'Q', it->number, -1, 0);",
            "note(it->c, accepted ? 'q' : 'Q', it->number, -1, 0);\n\tmsleep(200);",
        ),
    ],
    "what hasn't happened after 40 ms doesn't happen": [Edit(WAIT, SETTLING.format("0"), SETTLING.format("looks - 1"))],
    "a work function is wrong": [Edit(WAIT, "it->task = current;", "it->task = current;\n\tBUG_ON(it->number == 1);")],
}
HIGHPRI = "workqueues per CPU are made with WQ_HIGHPRI"
BROKEN[HIGHPRI] = [
    Edit(
        WAIT,
        'q->wq = alloc_workqueue("%s", flags, max_active, name);',
        'q->wq = alloc_workqueue("%s", flags | WQ_HIGHPRI, max_active, name);',
    )
]
NO_SHORTAGE = "there is no shortage, and the module says that there is"
BROKEN[NO_SHORTAGE] = [
    Edit("shortage.c", "queue_blockers();\n\tquiet();", ";"),
    Edit("shortage.c", "return right;", "return true;"),
    Edit(WAIT, "if (!(current->flags & PF_WQ_WORKER))\n\t\treturn '?';", "return 'R';"),
]
NOTHING = "nothing is broken"
# The number of each, which the command `broken` takes; 0 is none.
NUMBERS = {name: number for number, name in enumerate([NOTHING, *BROKEN])}

# The place of the command in the module.
COMMAND = [
    ("wqjudge.h", "extern int looks;", "extern int looks, broken;"),
    ("main.c", "int looks = 75;", "int looks = 75, broken;"),
    (
        "main.c",
        '\tif (!strcmp(command, "busy"))',
        '\tif (!strcmp(command, "broken"))\n\t\treturn kstrtoint(line + at, 10, &broken);\n'
        '\tif (!strcmp(command, "busy"))',
    ),
]


def replace(folder, file, old, new):
    path = folder / file
    text = path.read_text()
    if text.count(old) != 1:
        raise guest.Fault(f"kernel/module/{file} has {text.count(old)} times: {old}")
    path.write_text(text.replace(old, new))


class Broken(packages.Kernel):
    """A kernel, and the module with all the edits."""

    def __init__(self, kernel, folder):
        super().__init__(kernel.series, kernel.release)
        self.folder = folder

    def module(self):
        return self.folder / "wqjudge.ko"

    def make(self):
        for file in packages.MODULE.iterdir():
            if file.suffix in (".c", ".h") or file.name == "Makefile":
                shutil.copy(file, self.folder)
        for words in COMMAND:
            replace(self.folder, *words)
        for name, edits in BROKEN.items():
            for edit in edits:
                both = f"if (broken == {NUMBERS[name]}) {{\n\t{edit.new}\n\t}} else {{\n\t{edit.old}\n\t}}"
                replace(self.folder, edit.file, edit.old, both)
        self.build(self.folder)


# Each wait of each kind, with the workqueue of d first as it should be, and then without a rescuer.
DECLARATION = b"item a\nitem b\nitem c\nitem d\nflush a b\nflush a c # done\nflushwq c d\n"
ASSIGNMENTS = b"wq 0 a\nwq 1 b\nwq 2 c\nwq 3 d\n", b"wq 0 a\nwq 1 b\nwq 2 c\nnorescuer 3 d\n"


def cases_for(name):
    """The judge's own cases, and those of the declaration."""
    made = []
    for text in ASSIGNMENTS:
        asked = program.Asked(f"{name}: ", [DECLARATION, text], "p", random.Random(name))
        made += controls.controls_for(asked.setting, "short") if asked.assignment.bare else []
        made += asked.cases(1)
    return made


def run(kernel, names):
    """Has a guest run the cases of these, by name."""
    tried = [(name, case) for name in names for case in cases_for(name)]
    queues = 0
    for _, case in tried:
        case.first_queue = queues
        queues += len(case.setting.kinds)
    # (a flag makes no difference to where the items are: the kernel's own list tells it)
    listed = [case for name, case in tried if name in (NOTHING, HIGHPRI)]
    number, lines = 0, []
    for line in cases.commands_of([case for _, case in tried], "short", listed).splitlines():
        if line.startswith(("case ", "at ")):
            number = NUMBERS[tried[int(line.split()[1])][0]]
            lines.append(f"broken {number}")
        elif line == "blockers":
            lines.append(f"broken {number if names == [NO_SHORTAGE] else 0}")
        lines.append(line)
    outcomes, _ = guest.run(kernel, "".join(line + "\n" for line in lines))
    made = {name: [] for name in names}
    for place, (name, case) in enumerate(tried):
        case.weather, case.outcome = "short", outcomes.get(place)
        made[name].append(case)
    return made


def main(arguments):
    if not is_there("kernel_broken", *arguments):
        return 1
    os.environ["WQPLAN"] = os.path.realpath(arguments[0])
    if why := packages.missing(SERIES):
        print(f"skipped kernel_broken: {why}")
        return 0
    with tempfile.TemporaryDirectory() as folder:
        kernel = Broken(guest.kernel_of(SERIES), pathlib.Path(folder))
        kernel.make()
        made = run(kernel, [name for name in NUMBERS if name != NO_SHORTAGE])
        made |= run(kernel, [NO_SHORTAGE])
    for name, tried in made.items():
        told = {case.name: why for case in tried if (why := case.judge())}
        what = f"{name}: {len(told)} of {len(tried)} cases tell"
        tell(not told if name == NOTHING else told, f"{what}, such as {next(iter(told.items()), 'none')}")
    return counts_of("kernel_broken", counts[True], counts[False])


if __name__ == "__main__":
    sys.exit(main(sys.argv[1:]))
