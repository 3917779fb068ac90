# Texts of which something is as large as its limit, or one larger.
#
# The limits are those of "Limits" and "Certificates" in docs/FORMAT.md, from which each answer was
# worked out by hand. As in the other tables a `str` is lines that ` / ` parts, and `bytes` are bytes.


def name(i):
    return f"i{i:04}"


def long_name(i):
    """A name of 63 bytes."""
    return f"{'i' * 59}{i:04}"


def items(count, called=name):
    """The lines of so many items, each with an LF."""
    return "".join(f"item {called(i)}\n" for i in range(count))


def pairs(word, pairs_of_items, called=name):
    return "".join(f"{word} {called(i)} {called(j)}\n" for i, j in pairs_of_items)


def run(steps):
    return f"run {len(steps)}\n" + "".join(step + "\n" for step in steps)


def filled(text, size):
    """The text, and blank lines behind it up to so many bytes."""
    assert len(text) < size
    return text + b"\n" * (size - len(text))


EMPTY = "plan 0 / chain 0"
ONE = "plan 1 / wq 0 a / chain 1"
RUN_OF_ONE = "run 3 / queue a / start 0 a / wait 0 a"
RUN_OF_TWO = "run 6 / queue a / queue b / start 0 a / wait 0 b / start 1 b / wait 1 a"
CIRCLE_OF_TWO = "circle 2 / arc a b / arc b a / " + RUN_OF_TWO

# Declarations, and the plan, the circle or the refusal.
TEXTS = [
    (b"\n" * 1_048_576, EMPTY),
    (b"\n" * 1_048_577, "refused 1 line 0"),
    (b"x" * 1_048_577, "refused 1 line 0"),
    # Names.
    (b"item n", "plan 1 / wq 0 n / chain 1"),
    (b"item " + b"n" * 63, f"plan 1 / wq 0 {'n' * 63} / chain 1"),
    (b"item " + b"n" * 64, "refused 6 line 1"),
]

LINES = [
    # 4,096 bytes, and one more: a comment.
    (b"#" + b"x" * 4_095, EMPTY),
    (b"#" + b"x" * 4_095 + b"\n", EMPTY),
    (b"#" + b"x" * 4_095 + b"\r\n", EMPTY),
    (b"#" + b"x" * 4_095 + b"\r", "refused 2 line 1"),
    (b"#" + b"x" * 4_095 + b"\r\r\n", "refused 2 line 1"),
    (b"#" + b"x" * 4_096, "refused 2 line 1"),
    (b"#" + b"x" * 4_096 + b"\n", "refused 2 line 1"),
    (b"#" + b"x" * 4_096 + b"\r\n", "refused 2 line 1"),
    (b"#" + b"x" * 4_094 + b"\r\r\n", EMPTY),
    # The first of two, and a line whose CR is dropped above one whose CR isn't.
    (b"#\n#" + b"x" * 4_096 + b"\n#" + b"x" * 4_096, "refused 2 line 2"),
    (b"#\n#\n#" + b"x" * 4_096, "refused 2 line 3"),
    (b"#" + b"x" * 4_095 + b"\r\n#" + b"x" * 4_095 + b"\r", "refused 2 line 2"),
    # A blank line behind an item.
    (b"item a\n" + b" " * 4_096, ONE),
    (b"item a\n" + b" " * 4_096 + b"\n", ONE),
    (b"item a\n" + b" " * 4_096 + b"\r\n", ONE),
    (b"item a\n" + b" " * 4_097, "refused 2 line 2"),
    (b"item a\n" + b" " * 4_097 + b"\n", "refused 2 line 2"),
    (b"item a\n" + b" " * 4_097 + b"\r\n", "refused 2 line 2"),
    # A directive, and one that is none on a line above.
    (b"item" + b"\t" * 4_091 + b"a\r\n", ONE),
    (b"item" + b"\t" * 4_092 + b"a\r\n", "refused 2 line 1"),
    (b"nope\n" + b"x" * 4_097, "refused 2 line 2"),
]

ITEMS = [
    (items(4_096).encode(),
     f"plan 1\nwq 0 {' '.join(map(name, range(4_096)))}\nchain 1\n".encode()),
    (items(4_097).encode(), "refused 9 line 4097"),
    # The limit comes behind the other fault of its line, and before the faults of other lines.
    (items(4_096).encode() + b"item i0000\n", "refused 7 line 4097"),
    (items(4_096).encode() + b"item x\nitem i0000\n", "refused 9 line 4097"),
]

TWO_ITEMS = "item a / item b"

FLUSHES = [
    (TWO_ITEMS + 16_384 * " / flush a b", "plan 2 / wq 0 b / wq 1 a / chain 2 / arc a b"),
    (TWO_ITEMS + 16_385 * " / flush a b", "refused 10 line 16387"),
    (TWO_ITEMS + 16_383 * " / flush a b" + " / flush b a", CIRCLE_OF_TWO),
    # Each target counts.
    (TWO_ITEMS + 16_382 * " / flush a b" + " / flush b a a", CIRCLE_OF_TWO),
    (TWO_ITEMS + 16_382 * " / flush a b" + " / flush b a a a", "refused 10 line 16385"),
    (TWO_ITEMS + 16_383 * " / flush a b" + " / flush b a a / flush c a", "refused 10 line 16386"),
    # Waits for a whole workqueue count, too, one for each line.
    (TWO_ITEMS + 16_384 * " / flushwq a b", "plan 2 / wq 0 b / wq 1 a / chain 2 / arc a b"),
    (TWO_ITEMS + 16_385 * " / flushwq a b", "refused 10 line 16387"),
    (TWO_ITEMS + 16_382 * " / flush a b" + " / flushwq a b / flush a b", "plan 2 / wq 0 b / wq 1 a / chain 2 / arc a b"),
    (TWO_ITEMS + 16_383 * " / flush a b" + " / flushwq a b / flush a b", "refused 10 line 16387"),
    (TWO_ITEMS + 16_384 * " / flush a b" + " / flushwq a b", "refused 10 line 16387"),
    (TWO_ITEMS + 16_384 * " / flush a b" + " / flushwq a c", "refused 8 line 16387"),
    # The limit comes behind the other fault of its line.
    (TWO_ITEMS + 16_384 * " / flush a b" + " / flush b a c", "refused 8 line 16387"),
    # Sixteen lines of 1,024 targets, and one target more.
    ("item a" + 16 * (" / flush a" + 1_024 * " a"), "circle 1 / arc a a / " + RUN_OF_ONE),
    ("item a" + 15 * (" / flush a" + 1_024 * " a") + " / flush a" + 1_025 * " a",
     "refused 10 line 17"),
]

# All items, each of which flushes the next one.
NEXT = [(i, i + 1) for i in range(4_095)]


def chain(called):
    return items(4_096, called) + pairs("flush", NEXT, called)


def chain_plan(called):
    return (
        "plan 4096\n"
        + "".join(f"wq {q} {called(4_095 - q)}\n" for q in range(4_096))
        + "chain 4096\n"
        + pairs("arc", NEXT, called)
    )


CHAIN = chain(name)

# The same, and the last one flushes the first one: each item starts and waits for the next one.
ROUND = NEXT + [(4_095, 0)]
CIRCLE_RUN = [f"queue {name(i)}" for i in range(4_096)] + [
    step for i, j in ROUND for step in (f"start {i} {name(i)}", f"wait {i} {name(j)}")
]
CIRCLE = "circle 4096\n" + pairs("arc", ROUND) + run(CIRCLE_RUN)

# 512 groups of eight items, each eighth of all items in turn, of which the last one flushes the first
# item of the next group.
EIGHTHS = [[name(512 * eighth + group) for eighth in range(8)] for group in range(512)]
STEPS = [(group + 3_584, group + 1) for group in range(511)]
GROUPS = (
    items(4_096)
    + "".join("ordered " + " ".join(reversed(eighth)) + "\n" for eighth in EIGHTHS)
    + pairs("flush", STEPS)
)
GROUPS_PLAN = (
    "plan 512\n"
    + "".join(f"wq {q} {' '.join(EIGHTHS[511 - q])}\n" for q in range(512))
    + "chain 512\n"
    + pairs("arc", STEPS)
)

# The longest run: 4,096 items, of which all but a and z have names of 63 bytes, and 16,384 flushes, all
# by z, the last of which is of z itself. So z waits for itself when it has waited for all others, which are
# through by then, and only its last `over` and its `finish` are never made: 45,054 steps. A line of the
# declaration has 62 targets with long names and 25 times a; with more long ones it had too many bytes.
OTHERS = ["a"] + [long_name(i) for i in range(1, 4_095)]
FLUSHED = [long_name(1 + n % 4_094) if n % 87 < 62 else "a" for n in range(16_383)] + ["z"]
LONGEST = "".join(f"item {item}\n" for item in OTHERS + ["z"]) + "".join(
    f"flush z {' '.join(FLUSHED[at:at + 87])}\n" for at in range(0, 16_384, 87)
)


def longest_run(lane_of_other):
    """Its run where z is on workqueue 4,095 and the others, in turn, on these lower ones, or all on one."""
    return run(
        [f"queue {item}" for item in ["z"] + OTHERS]
        + [f"{step} {lane} {item}"
           for lane, item in zip(lane_of_other, OTHERS) for step in ("start", "finish")]
        + ["start 4095 z"]
        + [f"{step} 4095 {target}" for target in FLUSHED[:-1] for step in ("wait", "over")]
        + ["wait 4095 z"]
    )


LONGEST_TEXT = filled(LONGEST.encode(), 1_048_576)
LONGEST_CIRCLE = f"circle 1\narc z z\n{longest_run(range(4_095))}".encode()

LARGEST = [
    (CHAIN.encode(), chain_plan(name).encode()),
    (CHAIN.encode() + b"flush i4095 i0000\n", CIRCLE.encode()),
    (GROUPS.encode(), GROUPS_PLAN.encode()),
    # With names of 63 bytes.
    (chain(long_name).encode(), chain_plan(long_name).encode()),
    (LONGEST_TEXT, LONGEST_CIRCLE),
]

PLANS = TEXTS + LINES + ITEMS + FLUSHES + LARGEST

# Runs of one item, a, as long as a text may be: it is queued and cancelled again and again, which takes 17
# bytes each time, and then some last steps are made, three at most.
LARGEST_SIZE = 8_388_608
ROUNDS = 493_440
LAST = 2 * ROUNDS


def long_run(*last, before=b""):
    """Such a run with these steps at its end, behind these lines, as large as a text may be."""
    steps = b"queue a\ncancel a\n" * ROUNDS + b"".join(step + b"\n" for step in last)
    return filled(before + b"run %d\n%s" % (LAST + len(last), steps), LARGEST_SIZE)


# Certificates of the empty declaration, and the line that the checker answers.
ANSWER = b"plan 0\nchain 0\n"
EMPTY_CHECKS = [
    # A line of 524,288 bytes, and one more: a comment.
    (ANSWER + b"#" + b"x" * 524_287, "yes 0"),
    (ANSWER + b"#" + b"x" * 524_287 + b"\n", "yes 0"),
    (ANSWER + b"#" + b"x" * 524_287 + b"\r\n", "yes 0"),
    (ANSWER + b"#" + b"x" * 524_287 + b"\r", "refused 40 line 3"),
    (ANSWER + b"#" + b"x" * 524_288, "refused 40 line 3"),
    (ANSWER + b"#" + b"x" * 524_288 + b"\r\n", "refused 40 line 3"),
    # A line that is read, and one that isn't on a line above.
    (b"plan" + b" " * 524_283 + b"0\nchain 0\n", "yes 0"),
    (b"plan" + b" " * 524_284 + b"0\nchain 0\n", "refused 40 line 1"),
    (b"nope\n#" + b"x" * 524_287, "refused 40 line 1"),
    (b"nope\n#" + b"x" * 524_288, "refused 40 line 2"),
    # The one line of both is too long, but a text that is too long has no line.
    (b"x" * 8_388_608, "refused 40 line 1"),
    (b"x" * 8_388_609, "refused 40 line 0"),
]

# The same of an item that flushes itself: circles with runs that are as long as they may be. No run that
# cancels deadlocks. The last step stands in line LAST + 4.
ARCS = b"circle 1\narc a a\n"
HANGS = (b"queue a", b"start 0 a", b"wait 0 a")
ITSELF_CHECKS = [
    (filled(ARCS + b"run 3\n" + b"\n".join(HANGS) + b"\n", LARGEST_SIZE), "yes circle 1"),
    (long_run(before=ARCS), "no 54"),
    (long_run(*HANGS, before=ARCS), "no 54"),
    (long_run(*HANGS, before=ARCS) + b"\n", "refused 40 line 0"),
    (long_run(b"start 4096 a", before=ARCS), f"refused 43 line {LAST + 4}"),
    (long_run(b"nope", before=ARCS), f"refused 40 line {LAST + 4}"),
]
CHECKS = [
    ("", EMPTY_CHECKS),
    ("item a / flush a a", ITSELF_CHECKS),
    (LONGEST_TEXT, [
        (filled(LONGEST_CIRCLE, LARGEST_SIZE), "yes circle 1"),
        (filled(LONGEST_CIRCLE, LARGEST_SIZE + 1), "refused 40 line 0"),
        # Its last step is left out.
        (LONGEST_CIRCLE.replace(b"run 45054", b"run 45053")[:-len(b"wait 4095 z\n")], "no 54"),
    ]),
]


def workqueues(count):
    """An assignment of so many workqueues, of which only the last one has an item, a."""
    return " / ".join(f"wq {q}" for q in range(count)) + " a"


ITSELF = "item a / flush a a"
LONGEST_LANES = (
    "".join(f"wq {q}\n" for q in range(4_094)) + f"wq 4094 {' '.join(OTHERS)}\nwq 4095 z\n"
).encode()
LONGEST_RUN = longest_run([4_094] * 4_095).encode()

# A declaration, an assignment, a run, and how it ends.
REPLAYS = [
    ("item a", workqueues(4_096), "run 2 / queue a / start 4095 a", "open"),
    ("item a", workqueues(4_096), "run 2 / queue a / start 4094 a", "not lawful 2"),
    ("item a", workqueues(4_097), "run 0", "refused 43 line 4097"),
    # Runs that are as long as they may be, and one byte more. The last step stands in line LAST + 2.
    (ITSELF, "wq 0 a", long_run(), "open"),
    (ITSELF, "wq 0 a", long_run() + b"\n", "refused 40 line 0"),
    (ITSELF, "wq 0 a", long_run(b"queue a"), "open"),
    (ITSELF, "wq 0 a", long_run(*HANGS), "stuck"),
    (ITSELF, "wq 0 a", long_run(*HANGS) + b"\n", "refused 40 line 0"),
    (ITSELF, "wq 0 a", long_run(b"cancel a"), f"not lawful {LAST + 1}"),
    (ITSELF, "wq 0 a", long_run(b"start 4096 a"), f"refused 43 line {LAST + 2}"),
    (ITSELF, "wq 0 a", long_run(b"nope"), f"refused 40 line {LAST + 2}"),
    (LONGEST_TEXT, LONGEST_LANES, filled(LONGEST_RUN, LARGEST_SIZE), "deadlock"),
    (LONGEST_TEXT, LONGEST_LANES, filled(LONGEST_RUN, LARGEST_SIZE + 1), "refused 40 line 0"),
]

# The same of deadlocks, and all items that wait in a circle: on workqueues of their own, where each
# one starts and waits for the next one, and on one, where the first one alone starts.
OWN = "".join(f"wq {i} {name(i)}\n" for i in range(4_096))
ROUND_TEXT = CHAIN.encode() + b"flush i4095 i0000\n"
DEADLOCKS = [
    ("item a", workqueues(4_096), "safe"),
    ("item a", workqueues(4_097), "refused 43 line 4097"),
    ("item a / flush a a", workqueues(4_096), "run 3 / queue a / start 4095 a / wait 4095 a"),
    (CHAIN.encode(), OWN.encode(), "safe"),
    (ROUND_TEXT, OWN.encode(), run(CIRCLE_RUN).encode()),
    (ROUND_TEXT, f"wq 0 {' '.join(map(name, range(4_096)))}\n".encode(),
     run(CIRCLE_RUN[:4_098]).encode()),
    (LONGEST_TEXT, LONGEST_LANES, LONGEST_RUN),
]

# The tables of this file: of each its name, the command, and the rows, which are the texts and the answer.
TABLES = [
    ("limits of declarations", "plan", PLANS),
    ("limits of certificates", "check", [(text, *row) for text, rows in CHECKS for row in rows]),
    ("limits of assignments", "deadlock", DEADLOCKS),
    ("limits of runs", "replay", REPLAYS),
]
