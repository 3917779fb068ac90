# Books and histories with helpers: the calls that are made, what is printed for each, the rows, and how histories are judged.
#
# The rules are those of "Steps" in docs/FORMAT.md and of "Books" in docs/RUNTIME.md, from which each answer was
# worked out by hand. Each row of a table begins with the number of helpers.

ONE = ("item a", "wq 0 a")
TWO = ("item a / item b / flush a b", "wq 0 b / wq 1 a")
THREE = ("item a / item b / item c", "wq 0 a b c")
SHARED = ("item a / item b / ordered a b", "wq 0 a b")
WHOLE = ("item a / item b / item c / flushwq a b", "wq 0 b c / wq 1 a")

# The number of helpers, a declaration and an assignment, how many rows there are, each call with what is printed for it, and the
# rows that are written.
BOOKS = [
    # An item runs in one context at a time: its next entry waits for that.
    (1, *THREE, 20, [
        ("queue a", "true free 17 busy open - - - -"),
        ("queue b", "true free 14 busy open - - - -"),
        ("help start 0 1", "a free 14 busy open - - a -"),
        ("queue a", "true free 11 busy open - - a -"),
        ("start 0", "b free 11 busy open b - a -"),
        ("help start 0 1", "refused 64 free 11 busy open b - a -"),
        ("finish 0", "ok free 11 busy open - - a -"),
        ("start 0", "none free 11 busy open - - a -"),
        ("help start 0 2", "refused 64 free 11 busy open - - a -"),
        ("help finish 0 1", "ok free 11 busy open - - - -"),
        ("start 0", "a free 11 busy open a - - -"),
        ("help start 0 1", "none free 11 busy open a - - -"),
        ("finish 0", "ok free 11 idle open - - - -"),
    ], [
        "010100000000000000000000",
        "010101000000000001000000",
        "030100000000010000000000",
        "010100000000000002000000",
        "030101000000000001000000",
        "060101000000000001000000",
        "060100000000010000000000",
        "030100000000000002000000",
        "060100000000000002000000",
    ]),
    # An ordered workqueue has no helper.
    (1, *SHARED, 20, [
        ("help start 0 1", "refused 64 free 20 idle open - - - -"),
        ("queue a", "true free 17 busy open - - - -"),
        ("help start 0 1", "refused 64 free 17 busy open - - - -"),
        ("start 0", "a free 17 busy open a - - -"),
        ("help over 0 1", "refused 64 free 17 busy open a - - -"),
        ("help finish 0 1", "refused 64 free 17 busy open a - - -"),
        ("finish 0", "ok free 17 idle open - - - -"),
    ], ["010100000000000000000000", "030100000000000000000000", "060100000000000000000000"]),
    # A helper waits as its item declares, in as many rows as the rescuer.
    (1, *TWO, 5, [
        ("queue a", "true free 0 busy open - - - - - - - -"),
        ("help start 1 1", "a free 0 busy open - - - - - - a -"),
        ("help waitall 1 1 b", "refused 62 free 0 busy open - - - - - - a -"),
        ("help wait 1 1 a", "refused 62 free 0 busy open - - - - - - a -"),
        ("wait 1 b", "refused 64 free 0 busy open - - - - - - a -"),
        ("help over 1 1", "refused 64 free 0 busy open - - - - - - a -"),
        ("help wait 1 1 b", "false free 0 busy open - - - - - - a b"),
        ("help finish 1 1", "refused 64 free 0 busy open - - - - - - a b"),
        ("over 1", "refused 64 free 0 busy open - - - - - - a b"),
        ("help over 1 1", "true free 0 busy open - - - - - - a -"),
        ("help wait 1 1 b", "refused 63 free 0 busy open - - - - - - a -"),
        ("close", "ok free 0 busy closed - - - - - - a -"),
        ("finish 1", "refused 64 free 0 busy closed - - - - - - a -"),
        ("help finish 1 1", "ok free 0 idle closed - - - - - - - -"),
    ], [
        "010100000000000000000000",
        "030100000100010000000000",
        "040001000100010001000000",
        "050101000100010001000000",
        "060100000100010000000000",
    ]),
    # A wait for a whole workqueue is for what its helpers run, and not for what is queued later.
    (2, *WHOLE, 20, [
        ("queue c", "true free 17 busy open - - - - - - - - - - - -"),
        ("queue a", "true free 12 busy open - - - - - - - - - - - -"),
        ("help start 0 2", "c free 12 busy open - - - - c - - - - - - -"),
        ("help start 1 1", "a free 12 busy open - - - - c - - - a - - -"),
        ("help waitall 1 1 b", "true free 12 busy open - - - - c - - - a wq:b - -"),
        ("asklane 0", "waiting 2 free 10 busy open - - - - c - - - a wq:b - -"),
        ("queue c", "true free 7 busy open - - - - c - - - a wq:b - -"),
        ("start 0", "none free 7 busy open - - - - c - - - a wq:b - -"),
        ("help over 1 1", "false free 7 busy open - - - - c - - - a wq:b - -"),
        ("toldlane 0", "not yet free 7 busy open - - - - c - - - a wq:b - -"),
        ("help finish 0 2", "ok free 7 busy open - - - - - - - - a wq:b - -"),
        ("toldlane 0", "done free 7 busy open - - - - - - - - a wq:b - -"),
        ("help over 1 1", "true free 7 busy open - - - - - - - - a - - -"),
        ("help finish 1 1", "ok free 7 busy open - - - - - - - - - - - -"),
        ("over 1", "refused 64 free 7 busy open - - - - - - - - - - - -"),
    ], [
        "010102000000000000000000",
        "010100000000000001000000",
        "030102000000020000000000",
        "030100000100010001000000",
        "090101000100010002000000",
        "0b0100000000000002000000",
        "010102000000000002000000",
        "060102000000020000000000",
        "0c0100000000000002000000",
        "0a0101000100010002000000",
        "060100000100010001000000",
    ]),
    # There is no helper 0, none on a workqueue that isn't there, and no ninth one.
    (8, *ONE, 9, [
        ("queue a", "true free 6 busy open" + " - -" * 9),
        ("help start 0 0", "refused 64 free 6 busy open" + " - -" * 9),
        ("help start 0 9", "refused 64 free 6 busy open" + " - -" * 9),
        ("help start 0 255", "refused 64 free 6 busy open" + " - -" * 9),
        ("help start 1 1", "refused 64 free 6 busy open" + " - -" * 9),
        ("help start 65535 1", "refused 64 free 6 busy open" + " - -" * 9),
        ("help start 0 8", "a free 6 busy open" + " - -" * 8 + " a -"),
        ("queue a", "true free 3 busy open" + " - -" * 8 + " a -"),
        ("cancel a", "true free 4 busy open" + " - -" * 8 + " a -"),
        ("help finish 0 0", "refused 64 free 4 busy open" + " - -" * 8 + " a -"),
        ("help finish 0 8", "ok free 4 idle open" + " - -" * 9),
    ], [
        "010100000000000000000000",
        "030100000000080000000000",
        "010100000000000001000000",
        "020100000000000001000000",
        "060100000000080000000000",
    ]),
    # Without helpers none may start anything.
    (0, *ONE, 9, [
        ("queue a", "true free 6 busy open - -"),
        ("help start 0 1", "refused 64 free 6 busy open - -"),
    ], ["010100000000000000000000"]),
    # An empty workqueue is unordered, and nothing can be started there.
    (1, "item a", "wq 0 / wq 1 a", 9, [
        ("help start 0 1", "none free 9 idle open - - - - - - - -"),
        ("help start 0 2", "refused 64 free 9 idle open - - - - - - - -"),
        ("help start 1 1", "none free 9 idle open - - - - - - - -"),
    ], []),
]

# Lines that are mistakes, each as the only line of a book with one helper.
MISTAKES = [
    "help", "help start", "help start 0", "help start 0 256", "help start 0 00", "help start 0 -1", "help start 0 1 a",
    "help start 65536 1", "help wait 0 1", "help wait 0 a 1", "help wait 0 1 a a", "help over 0", "help over 0 1 a",
    "help finish 0 x", "help queue a 1", "help cancel a 1", "help ask a 1", "help asklane 0 1", "help told 0 1", "help close 1",
    "help help start 0 1", "help_start 0 1", "Help start 0 1", "help next 0 1", "start help 0 1", "start 0 1",
]

# The rows of three items on one workqueue: `a` and `b` are queued, a helper starts `b`, which isn't the first entry, and `b` is queued
# again. `a` is started and finished by the rescuer, then `b` by the helper, and then it is started by the rescuer.
QUEUE_A = "010100000000000000000000"
QUEUE_B = "010101000000000001000000"
HELP_B = "030101000000010001000000"
AGAIN_B = "010101000000000002000000"
START_A = "030100000000000000000000"
FINISH_A = "060100000000000000000000"
HELP_FINISH_B = "060101000000010001000000"
START_B = "030101000000000002000000"
APART = QUEUE_A + QUEUE_B + HELP_B + AGAIN_B

IDLE = "lane 0 helper 1 runs - waits -"
RUNS_B = "lane 0 helper 1 runs b waits -"
BOTH_PENDING = f"next 2 / lane 0 runs - waits - pending a b / {IDLE}"

# The number of helpers, a declaration and an assignment, and histories of these, each with what is printed.
JUDGEMENTS = [
    (1, *THREE, [
        (APART + START_A + FINISH_A + HELP_FINISH_B + START_B, f"legal 8 / next 3 / lane 0 runs b waits - pending / {IDLE}"),
        (QUEUE_A + QUEUE_B + HELP_B, f"legal 3 / next 2 / lane 0 runs - waits - pending a / {RUNS_B}"),
        # `b` runs already, so the rescuer may not start it, neither behind `a` nor by itself; and the helper that runs it starts nothing.
        (APART + START_B, f"refused 76 at 5 / next 3 / lane 0 runs - waits - pending a b / {RUNS_B}"),
        (APART + START_A + FINISH_A + START_B, f"refused 76 at 7 / next 3 / lane 0 runs - waits - pending b / {RUNS_B}"),
        (APART + "030100000000010000000000", f"refused 76 at 5 / next 3 / lane 0 runs - waits - pending a b / {RUNS_B}"),
        # The rescuer starts the first entry only.
        (QUEUE_A + QUEUE_B + "030101000000000001000000", f"refused 76 at 3 / {BOTH_PENDING}"),
        # A finish is of the context that runs the entry.
        (APART + "060101000000000001000000", f"refused 76 at 5 / next 3 / lane 0 runs - waits - pending a b / {RUNS_B}"),
        (APART + START_A + "060100000000010000000000",
         f"refused 76 at 6 / next 3 / lane 0 runs a waits - pending b / {RUNS_B}"),
        # A number that isn't that of the entry.
        (QUEUE_A + QUEUE_B + "030101000000010000000000", f"refused 76 at 3 / {BOTH_PENDING}"),
        # A helper that isn't there, and one that no row can name.
        (QUEUE_A + QUEUE_B + "030101000000020001000000", f"refused 76 at 3 / {BOTH_PENDING}"),
        (QUEUE_A + QUEUE_B + "030101000000080001000000", f"refused 76 at 3 / {BOTH_PENDING}"),
        (QUEUE_A + QUEUE_B + "030101000000090001000000", f"refused 75 at 3 / {BOTH_PENDING}"),
        (QUEUE_A + QUEUE_B + "030101000000ff0001000000", f"refused 75 at 3 / {BOTH_PENDING}"),
        (QUEUE_A + QUEUE_B + "030101000000010101000000", f"refused 75 at 3 / {BOTH_PENDING}"),
        # Events of no context name no helper.
        *((QUEUE_A + QUEUE_B + row, f"refused 75 at 3 / {BOTH_PENDING}") for row in [
            "010000000000010000000000", "020100000000010000000000", "070100000000010002000000", "080100000000010000000000",
            "0b0100000000010002000000", "0c0100000000010000000000",
        ]),
    ]),
    (0, *THREE, [
        (QUEUE_A + QUEUE_B + HELP_B, "refused 76 at 3 / next 2 / lane 0 runs - waits - pending a b"),
    ]),
    (1, *SHARED, [
        (QUEUE_A + "030100000000010000000000", f"refused 76 at 2 / next 1 / lane 0 runs - waits - pending a / {IDLE}"),
        (QUEUE_A + START_A, f"legal 2 / next 1 / lane 0 runs a waits - pending / {IDLE}"),
    ]),
    # A wait of a helper for a whole workqueue, while a helper of that one runs.
    (1, *WHOLE, [
        ("010102000000000000000000 010100000000000001000000 030102000000010000000000 030100000100010001000000"
         "090101000100010002000000",
         "legal 5 / next 2 / lane 0 runs - waits - pending / lane 0 helper 1 runs c waits - / "
         "lane 1 runs - waits - pending / lane 1 helper 1 runs a waits wq:b"),
        ("010102000000000000000000 010100000000000001000000 030102000000010000000000 030100000100010001000000"
         "090101000100010002000000 0a0101000100010002000000",
         "refused 76 at 6 / next 2 / lane 0 runs - waits - pending / lane 0 helper 1 runs c waits - / "
         "lane 1 runs - waits - pending / lane 1 helper 1 runs a waits wq:b"),
        ("010102000000000000000000 010100000000000001000000 030102000000010000000000 030100000100010001000000"
         "090101000100010002000000 060102000000010000000000 0a0101000100010002000000 060100000100010001000000",
         "legal 8 / next 2 / lane 0 runs - waits - pending / lane 0 helper 1 runs - waits - / "
         "lane 1 runs - waits - pending / lane 1 helper 1 runs - waits -"),
    ]),
]

# Command lines with `helpers` that are wrong, before the words of a book and before those of a history. The numbers are files.
WRONG = [["helpers"], ["helpers", "1"]] + [
    ["helpers", helpers, *words] for helpers in ["9", "256", "x", "01", "-1", ""]
    for words in (["book", 0, 0, "1", 0], ["check", 0, 0, 0])
] + [["helpers", "1", "helpers", "1", "check", 0, 0, 0], ["check", "helpers", "1", 0, 0, 0], ["helper", "1", "check", 0, 0, 0]]
