# Runs on the machine: the steps that a book makes, what is printed for each, the rows, and the state that these leave.
#
# The rules are those of "Steps" in docs/FORMAT.md and of "Books" in docs/RUNTIME.md, from which each number of an
# entry, each mark and the work that is left was worked out by hand. Each book has 100 rows. The work left is 100,
# less the rows that are written, less the free ones. Which other steps may not be made on the way is in STEPS of
# tests/cli/rows/replays.py.

ROWS = 100

# A declaration and an assignment, each call with what is printed for it, the rows, and the replay of these.
MACHINES = [
    # A running item is queued again, and only what is pending is cancelled.
    ("item a", "wq 0 a", [
        ("queue a", "true free 97 busy open - -"),
        ("cancel a", "true free 98 idle open - -"),
        ("queue a", "true free 95 busy open - -"),
        ("start 0", "a free 95 busy open a -"),
        ("queue a", "true free 92 busy open a -"),
        ("cancel a", "true free 93 busy open a -"),
        ("queue a", "true free 90 busy open a -"),
        ("finish 0", "ok free 90 busy open - -"),
        ("start 0", "a free 90 busy open a -"),
        ("queue a", "true free 87 busy open a -"),
        ("finish 0", "ok free 87 busy open - -"),
    ], [
        "010100000000000000000000",
        "020100000000000000000000",
        "010100000000000001000000",
        "030100000000000001000000",
        "010100000000000002000000",
        "020100000000000002000000",
        "010100000000000003000000",
        "060100000000000001000000",
        "030100000000000003000000",
        "010100000000000004000000",
        "060100000000000003000000",
    ], "next 5 / lane 0 runs - waits - pending a"),
    # An item that waits for itself waits for the entry that runs, whatever is queued and
    # cancelled after it.
    ("item a / flush a a", "wq 0 a", [
        ("queue a", "true free 95 busy open - -"),
        ("start 0", "a free 95 busy open a -"),
        ("wait 0 a", "true free 95 busy open a a"),
        ("queue a", "true free 90 busy open a a"),
        ("cancel a", "true free 93 busy open a a"),
    ], [
        "010100000000000000000000",
        "030100000000000000000000",
        "040100000000000001000000",
        "010100000000000001000000",
        "020100000000000001000000",
    ], "next 2 / lane 0 runs a waits a pending"),
    # A wait is over when no entry below its mark is pending or runs. Later ones don't prolong it.
    ("item a / item b / flush a b", "wq 0 b / wq 1 a", [
        ("queue b", "true free 97 busy open - - - -"),
        ("queue a", "true free 92 busy open - - - -"),
        ("start 1", "a free 92 busy open - - a -"),
        ("wait 1 b", "true free 92 busy open - - a b"),
        ("start 0", "b free 92 busy open b - a b"),
        ("queue b", "true free 89 busy open b - a b"),
        ("finish 0", "ok free 89 busy open - - a b"),
        ("over 1", "true free 89 busy open - - a -"),
        ("finish 1", "ok free 89 busy open - - - -"),
    ], [
        "010101000000000000000000",
        "010100000000000001000000",
        "030100000100000001000000",
        "040101000100000002000000",
        "030101000000000000000000",
        "010101000000000002000000",
        "060101000000000000000000",
        "050101000100000002000000",
        "060100000100000001000000",
    ], "next 3 / lane 0 runs - waits - pending b / lane 1 runs - waits - pending"),
    # A cancellation ends a wait, even one on the workqueue of what waits.
    ("item a / item b / flush a b", "wq 0 a b", [
        ("queue a", "true free 95 busy open - -"),
        ("queue b", "true free 92 busy open - -"),
        ("start 0", "a free 92 busy open a -"),
        ("wait 0 b", "true free 92 busy open a b"),
        ("cancel b", "true free 93 busy open a b"),
        ("over 0", "true free 93 busy open a -"),
        ("finish 0", "ok free 93 idle open - -"),
    ], [
        "010100000000000000000000",
        "010101000000000001000000",
        "030100000000000000000000",
        "040101000000000002000000",
        "020101000000000001000000",
        "050101000000000002000000",
        "060100000000000000000000",
    ], "next 2 / lane 0 runs - waits - pending"),
    # Two waits of one entry, not in the declared order, and the second one for an item that is
    # idle.
    ("item a / item b / item c / flush a b c", "wq 0 c / wq 1 b / wq 2 a", [
        ("queue c", "true free 97 busy open - - - - - -"),
        ("queue a", "true free 90 busy open - - - - - -"),
        ("start 2", "a free 90 busy open - - - - a -"),
        ("wait 2 c", "true free 90 busy open - - - - a c"),
        ("start 0", "c free 90 busy open c - - - a c"),
        ("finish 0", "ok free 90 busy open - - - - a c"),
        ("over 2", "true free 90 busy open - - - - a -"),
        ("queue c", "true free 87 busy open - - - - a -"),
        ("wait 2 b", "false free 87 busy open - - - - a b"),
        ("over 2", "true free 87 busy open - - - - a -"),
        ("finish 2", "ok free 87 busy open - - - - - -"),
        ("cancel c", "true free 88 idle open - - - - - -"),
    ], [
        "010102000000000000000000",
        "010100000000000001000000",
        "030100000200000001000000",
        "040102000200000002000000",
        "030102000000000000000000",
        "060102000000000000000000",
        "050102000200000002000000",
        "010102000000000002000000",
        "040001000200000003000000",
        "050101000200000003000000",
        "060100000200000001000000",
        "020102000000000002000000",
    ], "next 3 / lane 0 runs - waits - pending / "
       "lane 1 runs - waits - pending / lane 2 runs - waits - pending"),
    # One item may be waited for twice, where two flushes are declared. The second wait has a mark
    # of its own.
    ("item a / item b / item c / flush a b c", "wq 0 c / wq 1 b / wq 2 a", [
        ("queue a", "true free 93 busy open - - - - - -"),
        ("start 2", "a free 93 busy open - - - - a -"),
        ("wait 2 b", "false free 93 busy open - - - - a b"),
        ("queue b", "true free 90 busy open - - - - a b"),
        ("over 2", "true free 90 busy open - - - - a -"),
        ("wait 2 b", "true free 90 busy open - - - - a b"),
        ("start 1", "b free 90 busy open - - b - a b"),
        ("finish 1", "ok free 90 busy open - - - - a b"),
        ("over 2", "true free 90 busy open - - - - a -"),
        ("finish 2", "ok free 90 idle open - - - - - -"),
    ], [
        "010100000000000000000000",
        "030100000200000000000000",
        "040001000200000001000000",
        "010101000000000001000000",
        "050101000200000001000000",
        "040101000200000002000000",
        "030101000100000001000000",
        "060101000100000001000000",
        "050101000200000002000000",
        "060100000200000000000000",
    ], "next 2 / lane 0 runs - waits - pending / "
       "lane 1 runs - waits - pending / lane 2 runs - waits - pending"),
    # An execution may finish early.
    ("item a / item b / item c / flush a b b / flush c a", "wq 0 b / wq 1 a / wq 2 c", [
        ("queue a", "true free 93 busy open - - - - - -"),
        ("start 1", "a free 93 busy open - - a - - -"),
        ("wait 1 b", "false free 93 busy open - - a b - -"),
        ("over 1", "true free 93 busy open - - a - - -"),
        ("finish 1", "ok free 95 idle open - - - - - -"),
        ("queue c", "true free 90 busy open - - - - - -"),
        ("start 2", "c free 90 busy open - - - - c -"),
        ("finish 2", "ok free 92 idle open - - - - - -"),
    ], [
        "010100000000000000000000",
        "030100000100000000000000",
        "040001000100000001000000",
        "050101000100000001000000",
        "060100000100000000000000",
        "010102000000000001000000",
        "030102000200000001000000",
        "060102000200000001000000",
    ], "next 2 / lane 0 runs - waits - pending / "
       "lane 1 runs - waits - pending / lane 2 runs - waits - pending"),
    # A wait for an item that is idle.
    ("item a / item b / flush a b", "wq 0 a / wq 1 b", [
        ("queue a", "true free 95 busy open - - - -"),
        ("start 0", "a free 95 busy open a - - -"),
        ("wait 0 b", "false free 95 busy open a b - -"),
        ("over 0", "true free 95 busy open a - - -"),
        ("finish 0", "ok free 95 idle open - - - -"),
    ], [
        "010100000000000000000000",
        "030100000000000000000000",
        "040001000000000001000000",
        "050101000000000001000000",
        "060100000000000000000000",
    ], "next 1 / lane 0 runs - waits - pending / lane 1 runs - waits - pending"),
    # A workqueue starts what was queued first, and a cancellation keeps the order of the others.
    ("item a / item b / item c / item d", "wq 0 a b c d", [
        ("queue b", "true free 97 busy open - -"),
        ("queue a", "true free 94 busy open - -"),
        ("queue c", "true free 91 busy open - -"),
        ("queue d", "true free 88 busy open - -"),
        ("cancel a", "true free 89 busy open - -"),
        ("queue a", "true free 86 busy open - -"),
        ("start 0", "b free 86 busy open b -"),
        ("finish 0", "ok free 86 busy open - -"),
        ("start 0", "c free 86 busy open c -"),
        ("finish 0", "ok free 86 busy open - -"),
        ("start 0", "d free 86 busy open d -"),
    ], [
        "010101000000000000000000",
        "010100000000000001000000",
        "010102000000000002000000",
        "010103000000000003000000",
        "020100000000000001000000",
        "010100000000000004000000",
        "030101000000000000000000",
        "060101000000000000000000",
        "030102000000000002000000",
        "060102000000000002000000",
        "030103000000000003000000",
    ], "next 5 / lane 0 runs d waits - pending a"),
    # Items of one group are on its workqueue, and a workqueue may be empty.
    ("item a / item b / item c / ordered c a / flush b c", "wq 0 / wq 1 b / wq 2 / wq 3 a c", [
        ("queue c", "true free 97 busy open - - - - - - - -"),
        ("start 3", "c free 97 busy open - - - - - - c -"),
        ("queue b", "true free 92 busy open - - - - - - c -"),
        ("queue a", "true free 89 busy open - - - - - - c -"),
        ("start 1", "b free 89 busy open - - b - - - c -"),
        ("wait 1 c", "true free 89 busy open - - b c - - c -"),
        ("finish 3", "ok free 89 busy open - - b c - - - -"),
        ("over 1", "true free 89 busy open - - b - - - - -"),
        ("finish 1", "ok free 89 busy open - - - - - - - -"),
    ], [
        "010102000000000000000000",
        "030102000300000000000000",
        "010101000000000001000000",
        "010100000000000002000000",
        "030101000100000001000000",
        "040102000100000003000000",
        "060102000300000000000000",
        "050102000100000003000000",
        "060101000100000001000000",
    ], "next 3 / lane 0 runs - waits - pending / "
       "lane 1 runs - waits - pending / lane 2 runs - waits - pending / lane 3 runs - waits - pending a"),
    # Two items wait for each other's whole workqueue.
    ("item a / item b / flushwq a b / flushwq b a", "wq 0 a / wq 1 b", [
        ("queue a", "true free 95 busy open - - - -"),
        ("queue b", "true free 90 busy open - - - -"),
        ("start 0", "a free 90 busy open a - - -"),
        ("start 1", "b free 90 busy open a - b -"),
        ("waitall 0 b", "true free 90 busy open a wq:b b -"),
        ("waitall 1 a", "true free 90 busy open a wq:b b wq:a"),
        ("over 0", "false free 90 busy open a wq:b b wq:a"),
        ("over 1", "false free 90 busy open a wq:b b wq:a"),
    ], [
        "010100000000000000000000",
        "010101000000000001000000",
        "030100000000000000000000",
        "030101000100000001000000",
        "090101000000000002000000",
        "090100000100000002000000",
    ], "next 2 / lane 0 runs a waits wq:b pending / lane 1 runs b waits wq:a pending"),
    # Two workqueues wait for each other. Both waits began at the same mark.
    ("item a / item b / item c / item d / flush a b / flush c d", "wq 0 a d / wq 1 b c", [
        ("queue a", "true free 95 busy open - - - -"),
        ("queue c", "true free 90 busy open - - - -"),
        ("queue b", "true free 87 busy open - - - -"),
        ("queue d", "true free 84 busy open - - - -"),
        ("start 0", "a free 84 busy open a - - -"),
        ("wait 0 b", "true free 84 busy open a b - -"),
        ("start 1", "c free 84 busy open a b c -"),
        ("wait 1 d", "true free 84 busy open a b c d"),
    ], [
        "010100000000000000000000",
        "010102000000000001000000",
        "010101000000000002000000",
        "010103000000000003000000",
        "030100000000000000000000",
        "040101000000000004000000",
        "030102000100000001000000",
        "040103000100000004000000",
    ], "next 4 / lane 0 runs a waits b pending d / lane 1 runs c waits d pending b"),
]
