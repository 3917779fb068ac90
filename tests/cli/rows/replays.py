# The command `replay`: declarations, assignments and runs, and how each run ends.
#
# The rules are those of "Certificates", "Steps" and "The command `replay`" in docs/FORMAT.md, from
# which each answer was worked out by hand.

# A declaration of two groups.
GROUPED = (
    "item a / item b / item c / item d / ordered a d / ordered b c / flush a b / flush c d"
)

# A declaration, an assignment and a run, of which one is refused, and the answer.
REFUSALS = [
    (GROUPED, "wq 0 a d / wq 1 b / wq 2 c", "nope", "refused 42 line 3"),
    (GROUPED, "wq 0 a d / wq 1 b", "nope", "refused 41 line 0"),
    (GROUPED, "wq 1 a d", "nope", "refused 43 line 1"),
    (GROUPED, "wq 0 a d / wq 1 b c", "nope", "refused 40 line 1"),
    (GROUPED, "wq 0 a d / wq 1 b c", "", "refused 40 line 0"),
    # The declaration before the assignment, and that before the run.
    ("item a / item a", "nope", "nope", "refused 7 line 2"),
    ("item a", "nope", "nope", "refused 41 line 0"),
    ("item a", "wq 0 a / nope", "nope", "refused 40 line 2"),
    ("item a", "wq 0 a", "nope", "refused 40 line 1"),
    ("item a", "wq 0 a", "run 1 / start 4096 a", "refused 43 line 2"),
    # Another first word ends the lines of an assignment.
    ("item a / item b", "wq 0 a / nope", "run 0", "refused 41 line 0"),
    ("item a / item b", "", "run 0", "refused 41 line 0"),
    ("item a", "norescuer 1 a", "nope", "refused 43 line 1"),
    ("item a", "plan 1 / norescuer 0 a / chain 1", "nope", "refused 40 line 2"),
    (GROUPED, "norescuer 0 a d / wq 1 b / norescuer 2 c", "nope", "refused 42 line 3"),
    ("item a / item b", "circle 1", "run 0", "refused 41 line 0"),
    ("", "circle 1", "run 0", "refused 40 line 1"),
    ("item a", "wq 0 a / wq 1 a", "run 0", "refused 41 line 2"),
    ("item a", "wq 0 a / wq 2", "run 0", "refused 43 line 2"),
    ("item a", "wq 0 b", "run 0", "refused 40 line 1"),
    ("item a", "wq 0 a / wq", "run 0", "refused 40 line 2"),
    # All lines of a plan text must have their form.
    ("item a", "plan 1 / wq 0 a", "run 0", "refused 40 line 0"),
    ("item a", "plan 1 / wq 0 a / chain 0 / wq 1", "run 0", "refused 40 line 4"),
    ("item a", "plan 2 / wq 0 a / chain 0", "run 0", "refused 40 line 3"),
    ("item a", "plan 0 / chain 0", "run 0", "refused 41 line 0"),
]

# A declaration and an assignment, and runs of these, each with its answer.
REPLAYS = [
    ("item a / item b / item c / flush a b / flush b c", "wq 0 a c / wq 1 b", [
        ("run 7 / queue a / queue b / queue c / start 0 a / wait 0 b / start 1 b / wait 1 c",
         "deadlock"),
        ("run 6 / queue a / queue b / queue c / start 0 a / wait 0 b / start 1 b", "open"),
        ("run 1 / start 0 a", "not lawful 1"),
        # It cancels.
        ("run 9 / queue a / cancel a / queue a / queue b / queue c / start 0 a / wait 0 b / "
         "start 1 b / wait 1 c",
         "stuck"),
        # It queues an item twice: the second time while it runs.
        ("run 8 / queue a / queue b / queue c / start 0 a / wait 0 b / start 1 b / wait 1 c / "
         "queue b",
         "stuck"),
    ]),
    # A whole plan text, whose chain is none, is an assignment too.
    ("item a / item b / item c / flush a b / flush b c",
     "plan 2 / wq 0 a c / wq 1 b / chain 2 / arc c a", [
        ("run 7 / queue a / queue b / queue c / start 0 a / wait 0 b / start 1 b / wait 1 c",
         "deadlock"),
    ]),
    ("item a / item b / flush a a", "wq 0 a b", [
        # It leaves an item out.
        ("run 3 / queue a / start 0 a / wait 0 a", "stuck"),
        ("run 4 / queue a / queue b / start 0 a / wait 0 a", "deadlock"),
        ("run 4 / queue a / start 0 a / wait 0 a / queue b", "deadlock"),
        # What is first on the list starts first.
        ("run 3 / queue b / queue a / start 0 a", "not lawful 3"),
        ("run 3 / queue b / queue a / start 0 b", "open"),
        # What is cancelled leaves the list.
        ("run 5 / queue b / queue a / cancel b / start 0 a / wait 0 a", "stuck"),
    ]),
    # An item is said to wait only for what was queued before it began to wait.
    ("item a / item b / flush a b", "wq 0 b / wq 1 a", [
        ("run 0", "open"),
        ("run 1 / queue a", "open"),
        ("run 2 / queue a / cancel a", "open"),
        ("run 2 / queue a / start 1 a", "open"),
        ("run 8 / queue a / queue b / start 1 a / wait 1 b / start 0 b / finish 0 b / over 1 b / "
         "finish 1 a",
         "open"),
        ("run 5 / queue a / start 1 a / wait 1 b / queue b / over 1 b", "open"),
        ("run 5 / queue a / queue b / start 1 a / wait 1 b / over 1 b", "not lawful 5"),
        ("run 6 / queue a / queue b / start 1 a / wait 1 b / start 0 b / over 1 b", "not lawful 6"),
        # Steps that may not be made, each where its rule says no.
        ("run 2 / queue a / queue a", "not lawful 2"),
        ("run 1 / cancel a", "not lawful 1"),
        ("run 3 / queue a / start 1 a / cancel a", "not lawful 3"),
        ("run 2 / queue a / start 0 a", "not lawful 2"),
        ("run 2 / queue a / start 2 a", "not lawful 2"),
        ("run 4 / queue a / start 1 a / queue a / start 1 a", "not lawful 4"),
        ("run 2 / queue a / wait 1 b", "not lawful 2"),
        ("run 3 / queue b / start 0 b / wait 0 a", "not lawful 3"),
        ("run 4 / queue a / start 1 a / wait 1 b / wait 1 b", "not lawful 4"),
        ("run 5 / queue a / start 1 a / wait 1 b / over 1 b / wait 1 b", "not lawful 5"),
        ("run 3 / queue a / start 1 a / over 1 b", "not lawful 3"),
        ("run 4 / queue a / start 1 a / wait 1 b / over 1 a", "not lawful 4"),
        ("run 4 / queue a / start 1 a / wait 1 b / finish 1 a", "not lawful 4"),
        ("run 3 / queue a / start 1 a / finish 1 b", "not lawful 3"),
        # The first of two.
        ("run 2 / start 0 b / cancel b", "not lawful 1"),
        ("run 4 / queue b / cancel a / queue b / cancel a", "not lawful 2"),
        # A run that is refused is not made.
        ("", "refused 40 line 0"),
        ("run 1", "refused 40 line 0"),
        ("run", "refused 40 line 1"),
        ("queue a", "refused 40 line 1"),
        ("circle 1 / arc a b", "refused 40 line 1"),
        ("run 1 / Queue a", "refused 40 line 2"),
        ("run 1 / queue c", "refused 40 line 2"),
        ("run 1 / finish a", "refused 40 line 2"),
        ("run 1 / queue a / queue b", "refused 40 line 3"),
        ("run 2 / start 0 a /  / nope", "refused 40 line 4"),
    ]),
    # Waits for a whole workqueue.
    ("item a / item b / item c / flushwq a b / flush c a", "wq 0 a / wq 1 b c", [
        ("run 7 / queue a / queue c / queue b / start 0 a / waitwq 0 b / start 1 c / wait 1 a", "deadlock"),
        ("run 6 / queue a / queue c / start 0 a / waitwq 0 b / start 1 c / wait 1 a", "stuck"),
        ("run 7 / queue a / queue b / queue c / start 0 a / waitwq 0 b / start 1 b / finish 1 b", "open"),
        ("run 9 / queue a / queue b / queue c / start 0 a / waitwq 0 b / start 1 b / finish 1 b / start 1 c / wait 1 a",
         "deadlock"),
        # What is queued behind the mark doesn't prolong the wait.
        ("run 5 / queue a / start 0 a / waitwq 0 b / queue c / overwq 0 b", "open"),
        ("run 5 / queue a / queue c / start 0 a / waitwq 0 b / overwq 0 b", "not lawful 5"),
        # Neither kind of wait stands for the other.
        ("run 3 / queue a / start 0 a / wait 0 b", "not lawful 3"),
        ("run 3 / queue c / start 1 c / waitwq 1 a", "not lawful 3"),
        ("run 4 / queue a / start 0 a / waitwq 0 b / over 0 b", "not lawful 4"),
        ("run 4 / queue c / start 1 c / wait 1 a / overwq 1 a", "not lawful 4"),
        # Nor does one for another item of the same workqueue.
        ("run 3 / queue a / start 0 a / waitwq 0 c", "not lawful 3"),
        ("run 4 / queue a / start 0 a / waitwq 0 b / overwq 0 c", "not lawful 4"),
        ("run 1 / waitwq a", "refused 40 line 2"),
        ("run 1 / waitwq 0 a b", "refused 40 line 2"),
        ("run 1 / waitwq 0 d", "refused 40 line 2"),
        ("run 1 / Overwq 0 a", "refused 40 line 2"),
        ("run 1 / overwq 4096 a", "refused 43 line 2"),
        ("run 1 / waitwq 4095 a", "not lawful 1"),
    ]),
    # The n-th wait is of the kind that the n-th flush has.
    ("item a / flush a a / flushwq a a", "wq 0 a", [
        ("run 3 / queue a / start 0 a / wait 0 a", "deadlock"),
        ("run 3 / queue a / start 0 a / waitwq 0 a", "stuck"),
    ]),
    ("item a / item b / flushwq a b / flush a a", "wq 0 a / wq 1 b", [
        ("run 8 / queue a / queue b / start 1 b / finish 1 b / start 0 a / waitwq 0 b / overwq 0 b / wait 0 a",
         "deadlock"),
        ("run 6 / queue a / queue b / start 1 b / finish 1 b / start 0 a / wait 0 a", "stuck"),
    ]),
    # Workqueues without items.
    ("item a / item b / flush a b", "wq 0 b # x /  / wq 1 / wq 2 a", [
        ("run 2 / queue a / start 2 a", "open"),
        ("run 2 / queue a / start 1 a", "not lawful 2"),
    ]),
    # The flushes of an execution are those that are declared, in their order.
    ("item a / item b / flush a b a", "wq 0 a / wq 1 b", [
        ("run 8 / queue a / queue b / start 1 b / finish 1 b / start 0 a / wait 0 b / over 0 b / "
         "wait 0 a",
         "deadlock"),
        ("run 6 / queue a / queue b / start 1 b / finish 1 b / start 0 a / wait 0 a", "stuck"),
    ]),
    # An execution that finishes made all of them.
    ("item a / item b / item c / flush a a / flush b c",
     "wq 0 a / wq 1 b / wq 2 c", [
        ("run 9 / queue a / queue b / queue c / start 0 a / wait 0 a / start 2 c / finish 2 c / "
         "start 1 b / finish 1 b",
         "stuck"),
        ("run 11 / queue a / queue b / queue c / start 0 a / wait 0 a / start 2 c / finish 2 c / "
         "start 1 b / wait 1 c / over 1 c / finish 1 b",
         "deadlock"),
        # The other workqueues can go on.
        ("run 5 / queue a / queue b / queue c / start 0 a / wait 0 a", "open"),
    ]),
    # Nobody is sure to start what is on workqueue 1. It may start all the same, and what runs there goes on.
    ("item a / item x / flush a x", "wq 0 a / norescuer 1 x", [
        ("run 4 / queue a / queue x / start 0 a / wait 0 x", "deadlock"),
        ("run 5 / queue a / queue x / start 0 a / wait 0 x / start 1 x", "open"),
        ("run 8 / queue a / queue x / start 0 a / wait 0 x / start 1 x / finish 1 x / over 0 x / finish 0 a", "open"),
        ("run 5 / queue x / start 1 x / queue a / start 0 a / wait 0 x", "open"),
        # What is queued again behind it is waited for, too, and isn't sure to start.
        ("run 7 / queue x / start 1 x / queue x / queue a / start 0 a / wait 0 x / finish 1 x", "stuck"),
        ("run 8 / queue x / start 1 x / queue x / queue a / start 0 a / wait 0 x / finish 1 x / start 1 x", "open"),
        # What was queued later isn't, nor what is pending no longer.
        ("run 4 / queue a / start 0 a / wait 0 x / queue x", "open"),
        ("run 5 / queue a / queue x / start 0 a / wait 0 x / cancel x", "open"),
        ("run 6 / queue x / queue a / start 0 a / wait 0 x / cancel x / queue x", "open"),
        # Nothing hangs where nothing is unfinished on workqueue 0.
        ("run 1 / queue x", "open"),
        ("run 5 / queue a / queue x / start 0 a / wait 0 x / over 0 x", "not lawful 5"),
        ("run 3 / queue x / start 1 x / start 1 x", "not lawful 3"),
        ("run 2 / queue x / start 0 x", "not lawful 2"),
    ]),
    ("item a / flush a a", "norescuer 0 a", [
        ("run 3 / queue a / start 0 a / wait 0 a", "open"),
        ("run 4 / queue a / start 0 a / wait 0 a / over 0 a", "not lawful 4"),
    ]),
    # Each waits for the other one, which runs: so the one on workqueue 0 never goes on.
    ("item a / item x / flush a x / flush x a", "wq 0 a / norescuer 1 x", [
        ("run 6 / queue a / queue x / start 0 a / start 1 x / wait 0 x / wait 1 a", "deadlock"),
        ("run 5 / queue a / queue x / start 0 a / start 1 x / wait 0 x", "open"),
        ("run 3 / queue x / start 1 x / wait 1 a", "open"),
    ]),
    # The whole workqueue of x, on which only y is unfinished.
    ("item x / item y / item a / flushwq a x", "norescuer 0 x y / wq 1 a", [
        ("run 4 / queue y / queue a / start 1 a / waitwq 1 x", "stuck"),
        ("run 5 / queue y / queue a / queue x / start 1 a / waitwq 1 x", "deadlock"),
        ("run 5 / queue y / start 0 y / queue a / start 1 a / waitwq 1 x", "open"),
    ]),
    ("", "", [
        ("run 0", "open"),
        ("run 1", "refused 40 line 0"),
    ]),
]

# A declaration, an assignment, how the steps end, and the steps. One behind a `!` may not be made where it stands, and isn't made.
STEPS = [
    # A running item is queued again, and only what is pending is cancelled.
    ("item a", "wq 0 a", "open",
     "!cancel a / !start 0 a / !finish 0 a / queue a / !queue a / cancel a / queue a / start 0 a / !cancel a / queue a / "
     "!start 0 a / cancel a / queue a / finish 0 a / !finish 0 a / start 0 a / queue a / finish 0 a"),
    # An item that waits for itself waits for the entry that runs, whatever is queued and cancelled after it.
    ("item a / flush a a", "wq 0 a", "stuck",
     "queue a / start 0 a / wait 0 a / !over 0 a / !finish 0 a / !wait 0 a / queue a / !over 0 a / cancel a / !over 0 a / "
     "!start 0 a"),
    # A wait is over when no entry below its mark is pending or runs. Later ones don't prolong it.
    ("item a / item b / flush a b", "wq 0 b / wq 1 a", "open",
     "queue b / queue a / start 1 a / wait 1 b / !over 1 b / !over 1 a / !over 0 b / start 0 b / !over 1 b / queue b / "
     "!over 1 b / finish 0 b / over 1 b / !over 1 b / !wait 1 b / finish 1 a"),
    # A cancellation ends a wait, even one on the workqueue of what waits.
    ("item a / item b / flush a b", "wq 0 a b", "open",
     "queue a / queue b / start 0 a / wait 0 b / !over 0 b / !start 0 b / !finish 0 a / cancel b / over 0 b / finish 0 a"),
    # Two waits of one entry, not in the declared order, and the second one for an item that is idle.
    ("item a / item b / item c / flush a b c", "wq 0 c / wq 1 b / wq 2 a", "open",
     "queue c / queue a / start 2 a / wait 2 c / !wait 2 b / !over 2 c / start 0 c / finish 0 c / !over 2 b / over 2 c / "
     "queue c / wait 2 b / over 2 b / !wait 2 c / finish 2 a / cancel c"),
    # One item may be waited for twice, where two flushes are declared. The second wait has a mark of its own.
    ("item a / item b / item c / flush a b c", "wq 0 c / wq 1 b / wq 2 a", "open",
     "queue a / start 2 a / wait 2 b / queue b / over 2 b / wait 2 b / !over 2 b / start 1 b / !over 2 b / finish 1 b / "
     "over 2 b / !wait 2 b / finish 2 a"),
    # An execution may finish early. It waits for nothing that its own item doesn't declare.
    ("item a / item b / item c / flush a b b / flush c a", "wq 0 b / wq 1 a / wq 2 c", "open",
     "queue a / start 1 a / !wait 1 c / !wait 1 a / wait 1 b / over 1 b / finish 1 a / queue c / start 2 c / !wait 2 b / "
     "finish 2 c"),
    # Workqueues that don't exist, or on which something else runs, waits or is waited for.
    ("item a / item b / flush a b", "wq 0 a / wq 1 b", "open",
     "!start 2 a / queue a / !start 2 a / !start 4095 a / !start 1 a / !start 0 b / !wait 0 b / start 0 a / !wait 2 b / "
     "!wait 1 b / !over 0 b / wait 0 b / !over 2 b / over 0 b / !finish 2 a / !finish 1 a / !finish 0 b / finish 0 a"),
    # A workqueue starts what was queued first, and a cancellation keeps the order of the others.
    ("item a / item b / item c / item d", "wq 0 a b c d", "open",
     "queue b / queue a / queue c / queue d / !start 0 a / cancel a / queue a / !start 0 c / start 0 b / !start 0 c / "
     "!finish 0 c / finish 0 b / !start 0 a / !start 0 d / start 0 c / finish 0 c / start 0 d"),
    # Items of one group are on its workqueue, and a workqueue may be empty.
    ("item a / item b / item c / ordered c a / flush b c", "wq 0 / wq 1 b / wq 2 / wq 3 a c", "open",
     "queue c / !start 0 c / !start 2 c / start 3 c / queue b / queue a / start 1 b / wait 1 c / !start 3 a / !over 1 c / "
     "finish 3 c / over 1 c / finish 1 b"),
    # A wait for a whole workqueue is over when no entry there below its mark is pending or runs, whichever item it is of.
    ("item a / item b / item c / flushwq a b", "wq 0 b c / wq 1 a", "open",
     "queue c / queue a / start 1 a / !wait 1 b / !waitwq 1 c / !waitwq 0 b / waitwq 1 b / !waitwq 1 b / !finish 1 a / "
     "!over 1 b / !overwq 1 b / queue b / start 0 c / !overwq 1 b / queue c / finish 0 c / !overwq 1 c / !overwq 0 b / "
     "overwq 1 b / !overwq 1 b / !waitwq 1 b / finish 1 a"),
    # Of two entries there one is cancelled and queued again behind the mark.
    ("item a / item b / item c / flushwq a b", "wq 0 b c / wq 1 a", "open",
     "queue c / queue b / queue a / start 1 a / waitwq 1 b / start 0 c / cancel b / !overwq 1 b / queue b / !overwq 1 b / "
     "finish 0 c / overwq 1 b / finish 1 a"),
    # An idle workqueue, and one that only has what was queued later.
    ("item a / item b / item c / flushwq a b / flushwq a c", "wq 0 b c / wq 1 a", "open",
     "queue a / start 1 a / waitwq 1 b / overwq 1 b / waitwq 1 c / queue b / start 0 b / queue c / overwq 1 c / "
     "!waitwq 1 b / finish 1 a"),
    # Whoever waits for the own workqueue waits for itself, whatever else is there.
    ("item a / item b / flushwq a b", "wq 0 a b", "stuck",
     "queue a / start 0 a / waitwq 0 b / !overwq 0 b / !finish 0 a / queue b / !start 0 b / cancel b / !overwq 0 b"),
    # Both kinds of wait for one item, not in the declared order.
    ("item a / item b / item c / flush a b / flushwq a b", "wq 0 b c / wq 1 a", "open",
     "queue c / queue a / start 1 a / waitwq 1 b / !over 1 b / !overwq 1 b / start 0 c / finish 0 c / !over 1 b / "
     "overwq 1 b / wait 1 b / !overwq 1 b / over 1 b / !wait 1 b / !waitwq 1 b / finish 1 a"),
    # Of the two waits one is for b alone.
    ("item a / item b / item c / flush a b / flushwq a b", "wq 0 b c / wq 1 a", "open",
     "queue c / queue a / start 1 a / wait 1 b / over 1 b / waitwq 1 b / !overwq 1 b / cancel c / overwq 1 b / finish 1 a"),
    # Two workqueues wait for each other. Both waits began at the same mark, and neither is over.
    ("item a / item b / item c / item d / flush a b / flush c d", "wq 0 a d / wq 1 b c", "deadlock",
     "queue a / queue c / queue b / queue d / start 0 a / wait 0 b / start 1 c / wait 1 d / !over 0 b / !over 1 d"),
    ("item a / item b / item c / item d / flush a b / flush c d", "wq 0 a d / wq 1 b c", "open",
     "!start 0 a / queue a / !queue a / queue b / start 0 a / !wait 0 d"),
    ("item a / item b / item c / item d / flush a b / flush c d", "wq 0 a d / wq 1 b c", "open",
     "queue b / cancel b / !cancel b"),
]

# The tables of this file: of each its name, the command, and the rows, which are the texts and the answer.
TABLES = [
    ("runs", "replay", [(text, assignment, *row) for text, assignment, rows in REPLAYS for row in rows]),
    ("refusals with runs", "replay", REFUSALS),
]
