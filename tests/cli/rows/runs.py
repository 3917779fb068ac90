# The command `run`: declarations, and what is printed of their plans that were run.
#
# The rules are those of "The command `run`" in docs/FORMAT.md, from which each answer was worked out by
# hand: an item is on the workqueue of its plan, is queued once and finished once. A circle and a refusal
# are those of `plan`. With helpers all of this is the same.


def ran(*lanes):
    """What is printed where these items, each with its workqueue, are all that there are."""
    count = 1 + max((lane for _, lane in lanes), default=-1)
    items = [f"item {item} wq {lane} queued 1 cancelled 0 finished 1" for item, lane in lanes]
    return " / ".join([f"workqueues {count}", *items, "faults 0"])


# With so many helpers the same is printed, and these words are no number of helpers.
HELPERS = ["0", "2", "8"]
WRONG_HELPERS = [["9"], ["-1"], ["x"], ["2x"], [""], ["256"], ["1.0"], ["2", "3"]]

# Declarations that have a plan, and what is printed of it.
RUNS = [
    ("item a / item b / flush a b",
     "workqueues 2 / item a wq 1 queued 1 cancelled 0 finished 1 / "
     "item b wq 0 queued 1 cancelled 0 finished 1 / faults 0"),
    ("", "workqueues 0 / faults 0"),
    ("# nothing / ", "workqueues 0 / faults 0"),
    ("item a", "workqueues 1 / item a wq 0 queued 1 cancelled 0 finished 1 / faults 0"),
    # Without a flush all are on one workqueue, in the order of declaration.
    ("item b / item a / item c", ran(("b", 0), ("a", 0), ("c", 0))),
    # Two chains that meet, and an item beside them.
    ("item a / item b / item c / item d / flush a b / flush b c",
     ran(("a", 2), ("b", 1), ("c", 0), ("d", 0))),
    ("item a / item b / item c / item d / flush d b / flush c b / flush b a",
     ran(("a", 0), ("b", 1), ("c", 2), ("d", 2))),
    # Each flush is made as often as it is declared, on one line or on several.
    ("item a / item b / flush a b b b / flush a b", ran(("a", 1), ("b", 0))),
    ("item a / item b / item c / flush a b c b / flush b c c / flush a c",
     ran(("a", 2), ("b", 1), ("c", 0))),
    # Waits for a whole workqueue, on which other items are, too.
    ("item a / item b / item c / flushwq a b", ran(("a", 1), ("b", 0), ("c", 0))),
    ("item a / item b / item c / flushwq a b / flush c a", ran(("a", 1), ("b", 0), ("c", 2))),
    ("item a / item b / item c / item d / flushwq a b / flush c d", ran(("a", 1), ("b", 0), ("c", 1), ("d", 0))),
    ("item a / item b / item c / item d / flushwq a c / flushwq b a / flushwq d b",
     ran(("a", 1), ("b", 2), ("c", 0), ("d", 3))),
    # Waits of both kinds, in each order, once and more than once.
    ("item a / item b / flush a b / flushwq a b", ran(("a", 1), ("b", 0))),
    ("item a / item b / flushwq a b / flush a b", ran(("a", 1), ("b", 0))),
    ("item a / item b / flushwq a b / flush a b b / flushwq a b / flushwq a b", ran(("a", 1), ("b", 0))),
    ("item a / item b / item c / flushwq a c / flush a b / flushwq b c / flush b c / flushwq a b",
     ran(("a", 2), ("b", 1), ("c", 0))),
    # Groups.
    ("item a / item b / item c / ordered b c / flushwq a b", ran(("a", 1), ("b", 0), ("c", 0))),
    ("item a / item b / item c / item d / ordered a c / flushwq c b / flushwq d a",
     ran(("a", 1), ("b", 0), ("c", 1), ("d", 2))),
    ("item a / item b / item c / item d / ordered b c / flush a b / flush c d",
     ran(("a", 2), ("b", 1), ("c", 1), ("d", 0))),
    ("item a / item b / item c / ordered c a / flush c b", ran(("a", 1), ("b", 0), ("c", 1))),
    ("item a / item b / item c / ordered a b c", ran(("a", 0), ("b", 0), ("c", 0))),
    # Names that are words of the format.
    ("item item / item faults / item 7 / flush 7 item", ran(("item", 0), ("faults", 0), ("7", 1))),
    # Blanks, comments and carriage returns.
    (b"item a # x\r\n\titem\tb\r\n\r\n# \xff\r\nflush a b", ran(("a", 1), ("b", 0))),
]

# Declarations that have none, and what `plan` prints of them.
OTHERS = [
    ("item a / flush a a", "circle 1 / arc a a / run 3 / queue a / start 0 a / wait 0 a"),
    ("item a / item b / ordered a b / flush a b",
     "circle 1 / arc a b / run 4 / queue a / queue b / start 0 a / wait 0 b"),
    ("item a / item b / item c / flush a c b / flush b a",
     "circle 2 / arc a b / arc b a / run 11 / queue a / queue b / queue c / start 0 a / wait 0 c / "
     "start 1 b / wait 1 a / start 2 c / finish 2 c / over 0 c / wait 0 b"),
    ("item a / flushwq a a", "circle 1 / arc a a / run 3 / queue a / start 0 a / waitwq 0 a"),
    ("item a / item b / ordered a b / flushwq a b",
     "circle 1 / arc a b / run 4 / queue a / queue b / start 0 a / waitwq 0 b"),
    ("item a / flushwq a b", "refused 8 line 2"),
    ("item a / flush a b / item b", "refused 8 line 2"),
    ("item a / flush a zz / items b", "refused 4 line 3"),
    ("item a / item b / ordered a b / ordered b", "refused 11 line 4"),
    ("item a / item a", "refused 7 line 2"),
    ("item a b!", "refused 12 line 1"),
    ("item a!", "refused 6 line 1"),
    ("item", "refused 5 line 1"),
    (b"item \xc3\xa9", "refused 3 line 1"),
    (b"#" + b"x" * 4_096, "refused 2 line 1"),
    (b"\n" * 1_048_577, "refused 1 line 0"),
]


def chain(count):
    """So many items, each of which flushes the next one."""
    items = [f"item i{i}" for i in range(count)]
    return items + [f"flush i{i} i{i + 1}" for i in range(count - 1)]


def each_for_each(count):
    """So many items that each wait for each of as many others, by both kinds of wait in turn."""
    items = [f"item {x}{i}" for i in range(count) for x in "ab"]
    waits = [f"{'flushwq' if (i + j) % 2 else 'flush'} a{i} b{j}" for i in range(count) for j in range(count)]
    return items + waits


def beside(answer, item, lane):
    """The same answer with one item more, the last one."""
    return answer.replace("faults", f"item {item} wq {lane} queued 1 cancelled 0 finished 1 / faults")


TWO_ITEMS = "item a / item b"
CHAIN = " / ".join(chain(256))
RAN = ran(*((f"i{i}", 255 - i) for i in range(256)))

# An item that waits for itself beside a chain of 257, where each group has a workqueue of its own: all wait in
# turn, and then the last one finishes, and the others from the end of the chain to its front.
HANGS = [
    *(f"queue {item}" for item in ["a"] + [f"i{i}" for i in range(257)]),
    "start 0 a", "wait 0 a",
    *(step for i in range(256) for step in (f"start {i + 1} i{i}", f"wait {i + 1} i{i + 1}")),
    "start 257 i256", "finish 257 i256",
    *(step for i in range(255, -1, -1) for step in (f"over {i + 1} i{i + 1}", f"finish {i + 1} i{i}")),
]

# 256 workqueues, and one more.
LIMITS = [
    (CHAIN, RAN),
    (" / ".join(chain(257)), "refused 69 line 0"),
    (" / ".join(chain(4_096)), "refused 69 line 0"),
    # The same by waits for whole workqueues, and by both kinds in turn.
    (CHAIN.replace("flush", "flushwq"), RAN),
    (CHAIN.replace("flush i1", "flushwq i1"), RAN),
    (CHAIN + " / flushwq i0 i9", RAN),
    (" / ".join(chain(257)).replace("flush", "flushwq"), "refused 69 line 0"),
    (" / ".join(chain(257)) + " / flushwq i0 i9", "refused 69 line 0"),
    # As many waits as there may be, of one execution and of many, by `flush`, by `flushwq` and by both.
    (TWO_ITEMS + 16_384 * " / flush a b", ran(("a", 1), ("b", 0))),
    (TWO_ITEMS + 16_384 * " / flushwq a b", ran(("a", 1), ("b", 0))),
    (TWO_ITEMS + 8_192 * " / flush a b / flushwq a b", ran(("a", 1), ("b", 0))),
    (TWO_ITEMS + 8_192 * " / flush a b" + 8_192 * " / flushwq a b", ran(("a", 1), ("b", 0))),
    (TWO_ITEMS + 8_192 * " / flush a b / flushwq a b" + " / flushwq a b", "refused 10 line 16387"),
    (" / ".join(each_for_each(128)), ran(*((f"{x}{i}", lane) for i in range(128) for x, lane in [("a", 1), ("b", 0)]))),
    # An item beside the longest chain, and one that makes it longer.
    (CHAIN + " / item x / flush x i1 i255", beside(RAN, "x", 255)),
    (CHAIN + " / item x / flush x i1 i0 i255", "refused 69 line 0"),
    # A group is on the workqueue that its highest member needs.
    (CHAIN + " / item x / ordered x i7", beside(RAN, "x", 248)),
    # A fault and a circle come before the number of workqueues.
    (" / ".join(chain(257)) + " / flush x i0", "refused 8 line 514"),
    ("item a / flush a a / " + " / ".join(chain(257)),
     " / ".join(["circle 1", "arc a a", f"run {len(HANGS)}", *HANGS])),
    # Many items on one workqueue, and as many as there may be.
    (" / ".join(f"item i{i}" for i in range(1_000)), ran(*((f"i{i}", 0) for i in range(1_000)))),
    (" / ".join(f"item i{i}" for i in range(4_096)), ran(*((f"i{i}", 0) for i in range(4_096)))),
    # 2,000 items, of which each second one flushes the one before it.
    (" / ".join(f"item i{i} / item j{i} / flush j{i} i{i}" for i in range(1_000)),
     ran(*((f"{x}{i}", lane) for i in range(1_000) for x, lane in [("i", 0), ("j", 1)]))),
]

# The tables of this file: of each its name, the command, and the rows, which are the texts and the answer.
TABLES = [
    ("plans that are run", "run", RUNS),
    ("what isn't run", "run", OTHERS),
    ("limits of what is run", "run", LIMITS),
]
