# The command `hang`: declarations, assignments of each, and the shortest runs that end stuck.
#
# The rules are those of "The command `hang`" in docs/FORMAT.md, from which each answer was worked out by
# hand. Where several runs are shortest, any of them may be printed: all of them stand here, each with
# what `replay` says of it.

from deadlocks import DEADLOCKS, REFUSALS

ITEMS = "item a / item b / item c / item d"
DEADLOCK, STUCK = "deadlock", "stuck"

# A declaration, and assignments of it, each with the runs that may be printed, and how each ends.
HANGS = [
    # An item that waits for itself, or for its own workqueue.
    ("item a / flush a a", [
        ("wq 0 a", {"run 3 / queue a / start 0 a / wait 0 a": DEADLOCK}),
        ("wq 0 / wq 1 a # x\r / ", {"run 3 / queue a / start 1 a / wait 1 a": DEADLOCK}),
        ("norescuer 0 / wq 1 a", {"run 3 / queue a / start 1 a / wait 1 a": DEADLOCK}),
    ]),
    ("item a / flushwq a a", [
        ("wq 0 a", {"run 3 / queue a / start 0 a / waitwq 0 a": DEADLOCK}),
    ]),
    ("item a / item b / flushwq a b", [
        # Who flushes the workqueue that it is on needs no other item there.
        ("wq 0 a b", {"run 3 / queue a / start 0 a / waitwq 0 b": STUCK}),
        # On a workqueue without a rescuer something must be there to be waited for.
        ("wq 0 a / norescuer 1 b", {"run 4 / queue a / queue b / start 0 a / waitwq 0 b": DEADLOCK}),
    ]),
    # Two items on one workqueue.
    ("item a / item b / flush a b", [
        ("wq 0 b a", {"run 4 / queue a / queue b / start 0 a / wait 0 b": DEADLOCK}),
        ("plan 1 / wq 0 a b / chain 1", {"run 4 / queue a / queue b / start 0 a / wait 0 b": DEADLOCK}),
        ("wq 0 a / norescuer 1 b", {"run 4 / queue a / queue b / start 0 a / wait 0 b": DEADLOCK}),
    ]),
    # The third has no part in it. `deadlock` queues it, too.
    ("item c / item a / item b / flush a b", [
        ("wq 0 c a b", {"run 4 / queue a / queue b / start 0 a / wait 0 b": STUCK}),
        ("wq 0 c / wq 1 b a", {"run 4 / queue a / queue b / start 1 a / wait 1 b": STUCK}),
        ("norescuer 0 b c / wq 1 a", {"run 4 / queue a / queue b / start 1 a / wait 1 b": STUCK}),
    ]),
    # Two items that flush each other: on one workqueue either of them may be the one that waits.
    ("item a / item b / flush a b / flush b a", [
        ("wq 0 a b", {
            "run 4 / queue a / queue b / start 0 a / wait 0 b": DEADLOCK,
            "run 4 / queue b / queue a / start 0 b / wait 0 a": DEADLOCK,
        }),
        ("wq 0 a / wq 1 b", {
            "run 6 / queue a / queue b / start 0 a / wait 0 b / start 1 b / wait 1 a": DEADLOCK,
            "run 6 / queue b / queue a / start 1 b / wait 1 a / start 0 a / wait 0 b": DEADLOCK,
        }),
        ("wq 0 a / norescuer 1 b", {"run 4 / queue a / queue b / start 0 a / wait 0 b": DEADLOCK}),
        ("norescuer 0 a / wq 1 b", {"run 4 / queue b / queue a / start 1 b / wait 1 a": DEADLOCK}),
    ]),
    # Either wait of a may be made; only the first is as declared.
    ("item a / item b / flush a b / flushwq a b / flush b a", [
        ("wq 0 a / wq 1 b", {
            "run 6 / queue a / queue b / start 0 a / wait 0 b / start 1 b / wait 1 a": DEADLOCK,
            "run 6 / queue b / queue a / start 1 b / wait 1 a / start 0 a / wait 0 b": DEADLOCK,
            "run 6 / queue a / queue b / start 0 a / waitwq 0 b / start 1 b / wait 1 a": STUCK,
            "run 6 / queue b / queue a / start 1 b / wait 1 a / start 0 a / waitwq 0 b": STUCK,
        }),
    ]),
    # Two workqueues that wait for each other. Each target is beside the item that waits there, and is queued behind both of these.
    (ITEMS + " / flush a c / flush b d", [
        ("wq 0 a d / wq 1 b c", {
            "run 8 / queue a / queue b / queue c / queue d / start 0 a / wait 0 c / start 1 b / wait 1 d": DEADLOCK,
            "run 8 / queue b / queue a / queue d / queue c / start 1 b / wait 1 d / start 0 a / wait 0 c": DEADLOCK,
        }),
        # Both flushes lead to another item of the same workqueue.
        ("wq 0 a c / wq 1 b d", {
            "run 4 / queue a / queue c / start 0 a / wait 0 c": STUCK,
            "run 4 / queue b / queue d / start 1 b / wait 1 d": STUCK,
        }),
    ]),
    # The same by `flushwq`: no target need be queued.
    (ITEMS + " / flushwq a c / flushwq b d", [
        ("wq 0 a d / wq 1 b c", {
            "run 6 / queue a / queue b / start 0 a / waitwq 0 c / start 1 b / waitwq 1 d": STUCK,
            "run 6 / queue b / queue a / start 1 b / waitwq 1 d / start 0 a / waitwq 0 c": STUCK,
        }),
    ]),
    (ITEMS + " / flushwq a c / flush b d", [
        ("wq 0 a d / wq 1 b c", {
            "run 7 / queue a / queue b / queue d / start 0 a / waitwq 0 c / start 1 b / wait 1 d": STUCK,
            "run 7 / queue b / queue a / queue d / start 1 b / wait 1 d / start 0 a / waitwq 0 c": STUCK,
        }),
    ]),
    # Of two flushes of one target the cheaper one, though it comes second.
    ("item a / item b / item c / flush a c / flushwq a c / flush b a", [
        ("wq 0 a / wq 1 b c", {
            "run 6 / queue a / queue b / start 0 a / waitwq 0 c / start 1 b / wait 1 a": STUCK,
            "run 6 / queue b / queue a / start 1 b / wait 1 a / start 0 a / waitwq 0 c": STUCK,
        }),
    ]),
    # Of two targets on one workqueue the one that waits itself.
    ("item a / item b / item c / flush a c b / flush b a", [
        ("wq 0 a / wq 1 c b", {
            "run 6 / queue a / queue b / start 0 a / wait 0 b / start 1 b / wait 1 a": STUCK,
            "run 6 / queue b / queue a / start 1 b / wait 1 a / start 0 a / wait 0 b": STUCK,
        }),
    ]),
    # A chain whose ends share a workqueue: only the last target is beside.
    ("item a / item b / item c / flush a b / flush b c", [
        ("wq 0 a c / wq 1 b", {
            "run 7 / queue a / queue b / queue c / start 0 a / wait 0 b / start 1 b / wait 1 c": DEADLOCK,
            "run 7 / queue b / queue a / queue c / start 1 b / wait 1 c / start 0 a / wait 0 b": DEADLOCK,
        }),
        ("plan 2 / wq 0 a c / wq 1 b / chain 2 / arc c a", {
            "run 7 / queue a / queue b / queue c / start 0 a / wait 0 b / start 1 b / wait 1 c": DEADLOCK,
            "run 7 / queue b / queue a / queue c / start 1 b / wait 1 c / start 0 a / wait 0 b": DEADLOCK,
        }),
    ]),
    # Two groups.
    (ITEMS + " / ordered a d / ordered b c / flush a b / flush c d", [
        ("wq 0 a d / wq 1 b c", {
            "run 8 / queue a / queue c / queue b / queue d / start 0 a / wait 0 b / start 1 c / wait 1 d": DEADLOCK,
            "run 8 / queue c / queue a / queue d / queue b / start 1 c / wait 1 d / start 0 a / wait 0 b": DEADLOCK,
        }),
    ]),
    # Three workqueues, with targets beside on two of them.
    ("item a / item b / item c / item d / item e / flush a b / flush c d / flush e a", [
        ("wq 0 a / wq 1 b c / wq 2 d e", {
            "run 11 / queue a / queue c / queue e / queue b / queue d / start 0 a / wait 0 b / start 1 c / wait 1 d / "
            "start 2 e / wait 2 a": DEADLOCK,
            "run 11 / queue c / queue e / queue a / queue d / queue b / start 1 c / wait 1 d / start 2 e / wait 2 a / "
            "start 0 a / wait 0 b": DEADLOCK,
            "run 11 / queue e / queue a / queue c / queue b / queue d / start 2 e / wait 2 a / start 0 a / wait 0 b / "
            "start 1 c / wait 1 d": DEADLOCK,
        }),
    ]),
    # A shorter circle behind a longer one.
    (ITEMS + " / flush a b / flush b a / flush c d", [
        ("wq 0 a / wq 1 b / wq 2 c d", {"run 4 / queue c / queue d / start 2 c / wait 2 d": STUCK}),
        ("wq 0 a / wq 1 b / wq 2 c / norescuer 3 d", {"run 4 / queue c / queue d / start 2 c / wait 2 d": STUCK}),
    ]),
    (ITEMS + " / flush a b / flush b a / flush c d / flush d d", [
        ("wq 0 a / wq 1 b / wq 2 c d", {"run 3 / queue d / start 2 d / wait 2 d": STUCK}),
    ]),
    # Two workqueues with both targets beside have 8 steps, three workqueues with none 9.
    (ITEMS + " / item p / item q / item r / flush p q / flush q r / flush r p / flush a c / flush b d", [
        ("wq 0 p / wq 1 q / wq 2 r / wq 3 a d / wq 4 b c", {
            "run 8 / queue a / queue b / queue c / queue d / start 3 a / wait 3 c / start 4 b / wait 4 d": STUCK,
            "run 8 / queue b / queue a / queue d / queue c / start 4 b / wait 4 d / start 3 a / wait 3 c": STUCK,
        }),
    ]),
    # A flush that leads to no rescuer has 4 steps, an item that waits for itself 3.
    ("item a / item b / item x / flush a x / flush b b", [
        ("wq 0 a / wq 1 b / norescuer 2 x", {"run 3 / queue b / start 1 b / wait 1 b": STUCK}),
        ("wq 0 a / norescuer 1 b x", {"run 4 / queue a / queue x / start 0 a / wait 0 x": STUCK}),
    ]),
    # Two of them: the run is that of the one of least place. Flushes from a workqueue without a rescuer don't matter.
    ("item a / item b / item x / flush x b / flush a x / flush b x", [
        ("wq 0 a / wq 1 b / norescuer 2 x", {
            "run 4 / queue a / queue x / start 0 a / wait 0 x": STUCK,
        }),
        ("norescuer 0 a / wq 1 b x", {
            "run 4 / queue x / queue b / start 1 x / wait 1 b": STUCK,
            "run 4 / queue b / queue x / start 1 b / wait 1 x": STUCK,
        }),
    ]),
    # A circle by way of a workqueue without a rescuer is none.
    ("item a / item b / item c / flush a b / flush b c / flush c a", [
        ("wq 0 a / norescuer 1 b / wq 2 c", {"run 4 / queue a / queue b / start 0 a / wait 0 b": STUCK}),
        ("wq 0 a / wq 1 b / wq 2 c", {
            "run 9 / queue a / queue b / queue c / start 0 a / wait 0 b / start 1 b / wait 1 c / start 2 c / wait 2 a": DEADLOCK,
            "run 9 / queue b / queue c / queue a / start 1 b / wait 1 c / start 2 c / wait 2 a / start 0 a / wait 0 b": DEADLOCK,
            "run 9 / queue c / queue a / queue b / start 2 c / wait 2 a / start 0 a / wait 0 b / start 1 b / wait 1 c": DEADLOCK,
        }),
    ]),
]


def ring(items, targets):
    """Items on as many workqueues, each of which flushes the next one, or, with targets, another item beside the next one."""
    names = ["%x" % number for number in range(items)]
    aims = [f"{name}.t" for name in names] if targets else names
    lines = [f"item {name}" for name in names + (aims if targets else [])]
    lines += [f"flush {name} {aims[(at + 1) % items]}" for at, name in enumerate(names)]
    return " / ".join(lines), " / ".join(f"wq {at} {name}" + (f" {aims[at]}" if targets else "") for at, name in enumerate(names))


# The longest runs, of which only the first line is compared: 3 steps for each item of the circle, and 1 for each other target.
LONG = [(*ring(4_096, False), "run 12288"), (*ring(2_048, True), "run 8192"), (*ring(100, True), "run 400")]

# What is safe for `deadlock` is so for `hang`, and so is what is refused.
SAFE = [(text, assignment, answer) for text, rows in DEADLOCKS for assignment, answer in rows if answer == "safe"]
OTHERS = [
    ("item a / flush a a", "norescuer 0 a", "safe"),
    ("item a / flushwq a a", "norescuer 0 a", "safe"),
    ("item a / item b / flush a b", "norescuer 0 a b", "safe"),
    ("item a / item b / flush a b", "norescuer 0 a / wq 1 b", "safe"),
    ("item a / item b / flush a b / flush b a", "norescuer 0 a / norescuer 1 b", "safe"),
]

# The tables of this file: of each its name, the command, and the rows, which are the texts and the answer.
TABLES = [
    ("assignments that hang nowhere", "hang", SAFE + OTHERS),
    ("refusals of hang", "hang", REFUSALS),
]
