# Histories that are judged: rows in hexadecimal digits, and what is printed.
#
# The rules are those of "Histories" in docs/FORMAT.md and "Judging a history" in docs/RUNTIME.md, from which each
# answer was worked out by hand.

QUEUE = "010100000000000000000000"
START = "030100000100000000000000"
WAIT = "040001000100000001000000"
OVER = "050101000100000001000000"
FINISH = "060100000100000000000000"
ASK = "070100000000000001000000"
CANCEL = "020100000000000000000000"
TOLD = "080100000000000001000000"

# The states of two workqueues.
NEW = "next 0 / lane 0 runs - waits - pending / lane 1 runs - waits - pending"
PENDING = "next 1 / lane 0 runs - waits - pending / lane 1 runs - waits - pending a"
RUNS = "next 1 / lane 0 runs - waits - pending / lane 1 runs a waits - pending"
WAITS = "next 1 / lane 0 runs - waits - pending / lane 1 runs a waits b pending"
DONE = "next 1 / lane 0 runs - waits - pending / lane 1 runs - waits - pending"

# The eight rows of a wait for a whole workqueue: `a` runs on workqueue 1, and waits for what is on that of `b`, which is `c`.
WHOLE_C = "010102000000000000000000"
WHOLE_A = "010100000000000001000000"
WHOLE_START = "030100000100000001000000"
WHOLE_WAIT = "090101000100000002000000"
WHOLE_START_C = "030102000000000000000000"
WHOLE_FINISH_C = "060102000000000000000000"
WHOLE_OVER = "0a0101000100000002000000"
WHOLE_FINISH = "060100000100000001000000"
WHOLE_RUNS = WHOLE_C + WHOLE_A + WHOLE_START
WHOLE_WAITS = WHOLE_RUNS + WHOLE_WAIT
WHOLE_ENDS = WHOLE_WAITS + WHOLE_START_C + WHOLE_FINISH_C

# What these rows leave: after the third, after the fourth and after the sixth.
RUNNING = "next 2 / lane 0 runs - waits - pending c / lane 1 runs a waits - pending"
WAITING = "next 2 / lane 0 runs - waits - pending c / lane 1 runs a waits wq:b pending"
ENDING = "next 2 / lane 0 runs - waits - pending / lane 1 runs a waits wq:b pending"

# An ask about workqueue 0 that waits for `c`, and its end; and what is left before and after `c` is cancelled.
LANE_ASK = "0b0100000000000001000000"
LANE_TOLD = "0c0100000000000001000000"
WHOLE_CANCEL = "020102000000000000000000"
ASKED = "next 1 / lane 0 runs - waits - pending c / lane 1 runs - waits - pending"
TOLD_OF = "next 1 / lane 0 runs - waits - pending / lane 1 runs - waits - pending"

# The states of one workqueue.
ONE_NEW = "next 0 / lane 0 runs - waits - pending"
ONE_PENDING = "next 1 / lane 0 runs - waits - pending a"
ONE_IDLE = "next 1 / lane 0 runs - waits - pending"

# A declaration and an assignment, and histories of these, each with what is printed.
JUDGEMENTS = [
    ("item a / item b / flush a b", "wq 0 b / wq 1 a", [
        (QUEUE + START + WAIT + OVER + FINISH, f"legal 5 / {DONE}"),
        ((QUEUE + START + WAIT + OVER + FINISH)[:-2], f"refused 75 at 5 / {RUNS}"),
        ("010100000000010000000000" + START + WAIT + OVER + FINISH, f"refused 75 at 1 / {NEW}"),
        (QUEUE + START + "040101000100000001000000" + OVER + FINISH, f"refused 76 at 3 / {RUNS}"),
        (QUEUE + START + WAIT + OVER, f"legal 4 / {RUNS}"),
        (QUEUE + START + WAIT + FINISH, f"refused 76 at 4 / {WAITS}"),
        (START, f"refused 76 at 1 / {NEW}"),
        ("020002000000000000000000", f"refused 76 at 1 / {NEW}"),
        ("", f"legal 0 / {NEW}"),
        (QUEUE, f"legal 1 / {PENDING}"),
        # A caller who asks, and is told: twice, of an ask with another mark or without `yes`, or while
        # the entry is pending.
        (QUEUE + ASK + CANCEL + TOLD, f"legal 4 / {DONE}"),
        (QUEUE + ASK + CANCEL + TOLD + TOLD, f"refused 76 at 5 / {DONE}"),
        (QUEUE + "070100000000000000000000" + CANCEL + TOLD, f"refused 76 at 2 / {PENDING}"),
        (QUEUE + "070000000000000001000000" + CANCEL + TOLD, f"refused 76 at 2 / {PENDING}"),
        (QUEUE + ASK + TOLD, f"refused 76 at 3 / {PENDING}"),
        # A faulty row before one that is none.
        (START + "00", f"refused 76 at 1 / {NEW}"),
        (QUEUE + "00" + START[2:], f"refused 75 at 2 / {PENDING}"),
        # What doesn't exist.
        ("010102000000000000000000", f"refused 76 at 1 / {NEW}"),
        ("010002000000000000000000", f"refused 76 at 1 / {NEW}"),
        ("070002000000000000000000", f"refused 76 at 1 / {NEW}"),
        ("080102000000000000000000", f"refused 76 at 1 / {NEW}"),
        (QUEUE + "030100000200000000000000", f"refused 76 at 2 / {PENDING}"),
        (QUEUE + START + "0400ffff0100000001000000", f"refused 76 at 3 / {RUNS}"),
        (QUEUE + START + "06010000ffff000000000000", f"refused 76 at 3 / {RUNS}"),
        ("0100ffff0000000000000000", f"refused 76 at 1 / {NEW}"),
        ("0101ffff0000000000000000", f"refused 76 at 1 / {NEW}"),
        ("0200ffff0000000000000000", f"refused 76 at 1 / {NEW}"),
        (QUEUE + "030102000100000000000000", f"refused 76 at 2 / {PENDING}"),
        (QUEUE + "03010000ffff000000000000", f"refused 76 at 2 / {PENDING}"),
        (QUEUE + START + "040002000100000001000000", f"refused 76 at 3 / {RUNS}"),
        (QUEUE + START + WAIT + "050102000100000001000000", f"refused 76 at 4 / {WAITS}"),
        (QUEUE + START + "060102000100000000000000", f"refused 76 at 3 / {RUNS}"),
        # Another workqueue, another item, another number.
        (QUEUE + "030100000000000000000000", f"refused 76 at 2 / {PENDING}"),
        (QUEUE + "030101000100000000000000", f"refused 76 at 2 / {PENDING}"),
        (QUEUE + "030100000100000001000000", f"refused 76 at 2 / {PENDING}"),
        (QUEUE + START + "040001000100000000000000", f"refused 76 at 3 / {RUNS}"),
        (QUEUE + START + "040100000100000001000000", f"refused 76 at 3 / {RUNS}"),
        (QUEUE + START + WAIT + "050101000100000000000000", f"refused 76 at 4 / {WAITS}"),
        (QUEUE + START + WAIT + "050100000100000001000000", f"refused 76 at 4 / {WAITS}"),
        (QUEUE + START + "060101000100000000000000", f"refused 76 at 3 / {RUNS}"),
        (QUEUE + START + "060100000100000001000000", f"refused 76 at 3 / {RUNS}"),
        # One wait more than declared.
        (QUEUE + START + WAIT + OVER + WAIT, f"refused 76 at 5 / {RUNS}"),
        # A finish before any wait.
        (QUEUE + START + FINISH, f"legal 3 / {DONE}"),
    ]),
    ("item a", "wq 0 a", [
        # An ask, and what it is told.
        (QUEUE + "070100000000000001000000" + "080100000000000000000000", f"legal 3 / {ONE_PENDING}"),
        (QUEUE + "070100000000000001000000" + "080100000000000001000000",
         f"refused 76 at 3 / {ONE_PENDING}"),
        (QUEUE + "070100000000000001000000" + "020100000000000000000000"
         + "0801000000000000ffffffff", f"legal 4 / {ONE_IDLE}"),
        (QUEUE + "070100000000000001000000" + "080100000000000000000000" * 2,
         f"refused 76 at 4 / {ONE_PENDING}"),
        ("080100000000000000000000", f"refused 76 at 1 / {ONE_NEW}"),
        ("070000000000000000000000" + "080100000000000000000000", f"refused 76 at 2 / {ONE_NEW}"),
        ("070100000000000000000000", f"refused 76 at 1 / {ONE_NEW}"),
        ("070000000000000001000000", f"refused 76 at 1 / {ONE_NEW}"),
        (QUEUE + "070000000000000001000000", f"refused 76 at 2 / {ONE_PENDING}"),
        # Queueings and cancellations that change nothing.
        ("010000000000000000000000", f"refused 76 at 1 / {ONE_NEW}"),
        (QUEUE + "010000000000000000000000", f"legal 2 / {ONE_PENDING}"),
        (QUEUE + "010000000000000001000000", f"refused 76 at 2 / {ONE_PENDING}"),
        (QUEUE + "010100000000000001000000", f"refused 76 at 2 / {ONE_PENDING}"),
        ("010100000000000001000000", f"refused 76 at 1 / {ONE_NEW}"),
        ("020000000000000000000000", f"legal 1 / {ONE_NEW}"),
        ("020100000000000000000000", f"refused 76 at 1 / {ONE_NEW}"),
        (QUEUE + "020000000000000000000000", f"refused 76 at 2 / {ONE_PENDING}"),
        (QUEUE + "020100000000000001000000", f"refused 76 at 2 / {ONE_PENDING}"),
        # 12 bytes that are no row: the event, `yes`, the workqueue, bytes 6 and 7.
        ("000100000000000000000000", f"refused 75 at 1 / {ONE_NEW}"),
        ("0d0100000000000000000000", f"refused 75 at 1 / {ONE_NEW}"),
        ("ff0100000000000000000000", f"refused 75 at 1 / {ONE_NEW}"),
        ("010200000000000000000000", f"refused 75 at 1 / {ONE_NEW}"),
        ("040200000000000000000000", f"refused 75 at 1 / {ONE_NEW}"),
        ("030000000000000000000000", f"refused 75 at 1 / {ONE_NEW}"),
        ("050000000000000000000000", f"refused 75 at 1 / {ONE_NEW}"),
        ("060000000000000000000000", f"refused 75 at 1 / {ONE_NEW}"),
        ("080000000000000000000000", f"refused 75 at 1 / {ONE_NEW}"),
        ("010100000100000000000000", f"refused 75 at 1 / {ONE_NEW}"),
        ("020000000001000000000000", f"refused 75 at 1 / {ONE_NEW}"),
        ("070000000100000000000000", f"refused 75 at 1 / {ONE_NEW}"),
        ("080100000100000000000000", f"refused 75 at 1 / {ONE_NEW}"),
        ("010100000000000100000000", f"refused 75 at 1 / {ONE_NEW}"),
        ("030000000100000000000000", f"refused 75 at 1 / {ONE_NEW}"),
        # A byte too few, and one too many.
        ("00", f"refused 75 at 1 / {ONE_NEW}"),
        (QUEUE[:-2], f"refused 75 at 1 / {ONE_NEW}"),
        (QUEUE + "00", f"refused 75 at 2 / {ONE_PENDING}"),
        # Digits of both kinds, and blanks.
        (" 0 1\t01 0000\r\n0000 0000 00000000\n", f"legal 1 / {ONE_PENDING}"),
        ("0801000000000000FFffFFFF", f"refused 76 at 1 / {ONE_NEW}"),
        # What is no text of digits.
        ("0", "mistake"),
        ("0g", "mistake"),
        (QUEUE + "#", "mistake"),
        (QUEUE + "\v\v", "mistake"),
    ]),
    ("item a / item b / item c / flushwq a b", "wq 0 b c / wq 1 a", [
        # A wait for a whole workqueue.
        (WHOLE_ENDS + WHOLE_OVER + WHOLE_FINISH, "legal 8 / next 2 / lane 0 runs - waits - pending / lane 1 runs - waits - pending"),
        (WHOLE_WAITS, f"legal 4 / {WAITING}"),
        (WHOLE_WAITS + WHOLE_START_C, "legal 5 / next 2 / lane 0 runs c waits - pending / lane 1 runs a waits wq:b pending"),
        # It isn't over while `c` is pending, nor while it runs.
        (WHOLE_WAITS + WHOLE_OVER, f"refused 76 at 5 / {WAITING}"),
        (WHOLE_WAITS + WHOLE_START_C + WHOLE_OVER,
         "refused 76 at 6 / next 2 / lane 0 runs c waits - pending / lane 1 runs a waits wq:b pending"),
        # It may be over where `b` was queued later.
        (WHOLE_ENDS + "010101000000000002000000" + WHOLE_OVER,
         "legal 8 / next 3 / lane 0 runs - waits - pending b / lane 1 runs a waits - pending"),
        # The other kind, another item, workqueue, answer or mark: of the wait, and of its end.
        (WHOLE_RUNS + "040001000100000002000000", f"refused 76 at 4 / {RUNNING}"),
        (WHOLE_RUNS + "090102000100000002000000", f"refused 76 at 4 / {RUNNING}"),
        (WHOLE_RUNS + "0901ffff0100000002000000", f"refused 76 at 4 / {RUNNING}"),
        (WHOLE_RUNS + "090101000000000002000000", f"refused 76 at 4 / {RUNNING}"),
        (WHOLE_RUNS + "090101000200000002000000", f"refused 76 at 4 / {RUNNING}"),
        (WHOLE_RUNS + "090001000100000002000000", f"refused 76 at 4 / {RUNNING}"),
        (WHOLE_RUNS + "090101000100000001000000", f"refused 76 at 4 / {RUNNING}"),
        (WHOLE_RUNS + "090101000100000000000000", f"refused 76 at 4 / {RUNNING}"),
        (WHOLE_RUNS + WHOLE_OVER, f"refused 76 at 4 / {RUNNING}"),
        (WHOLE_ENDS + "050101000100000002000000", f"refused 76 at 7 / {ENDING}"),
        (WHOLE_ENDS + "0a0102000100000002000000", f"refused 76 at 7 / {ENDING}"),
        (WHOLE_ENDS + "0a01ffff0100000002000000", f"refused 76 at 7 / {ENDING}"),
        (WHOLE_ENDS + "0a0101000000000002000000", f"refused 76 at 7 / {ENDING}"),
        (WHOLE_ENDS + "0a0101000200000002000000", f"refused 76 at 7 / {ENDING}"),
        (WHOLE_ENDS + "0a0101000100000001000000", f"refused 76 at 7 / {ENDING}"),
        (WHOLE_ENDS + "0a0101000100000000000000", f"refused 76 at 7 / {ENDING}"),
        (WHOLE_ENDS + WHOLE_FINISH, f"refused 76 at 7 / {ENDING}"),
        (WHOLE_WAITS + WHOLE_WAIT, f"refused 76 at 5 / {WAITING}"),
        # One wait more than declared, where nothing is on the workqueue any more.
        (WHOLE_ENDS + WHOLE_OVER + "090001000100000002000000",
         "refused 76 at 8 / next 2 / lane 0 runs - waits - pending / lane 1 runs a waits - pending"),
        # An ask about a workqueue, and its end: with the mark of the ask, and with any other number that is as good.
        (WHOLE_C + LANE_ASK + WHOLE_CANCEL + LANE_TOLD, f"legal 4 / {TOLD_OF}"),
        (WHOLE_C + LANE_ASK + WHOLE_CANCEL + "0c01000000000000ffffffff", f"legal 4 / {TOLD_OF}"),
        (WHOLE_C + LANE_ASK + "0c0100000000000000000000", f"legal 3 / {ASKED}"),
        (WHOLE_C + LANE_ASK + LANE_TOLD, f"refused 76 at 3 / {ASKED}"),
        (WHOLE_C + LANE_ASK + WHOLE_CANCEL + LANE_TOLD * 2, f"refused 76 at 5 / {TOLD_OF}"),
        (WHOLE_C + LANE_ASK * 2 + WHOLE_CANCEL + LANE_TOLD * 2, f"legal 6 / {TOLD_OF}"),
        # Of the other workqueue, which is idle; of one that doesn't exist; with another answer or number.
        (WHOLE_C + "0b0000000100000001000000", f"legal 2 / {ASKED}"),
        (WHOLE_C + "0b0100000100000001000000", f"refused 76 at 2 / {ASKED}"),
        (WHOLE_C + "0b0000000200000001000000", f"refused 76 at 2 / {ASKED}"),
        (WHOLE_C + "0b000000ffff000001000000", f"refused 76 at 2 / {ASKED}"),
        (WHOLE_C + "0b0000000000000001000000", f"refused 76 at 2 / {ASKED}"),
        (WHOLE_C + "0b0100000000000000000000", f"refused 76 at 2 / {ASKED}"),
        (WHOLE_C + "0b0100000000000002000000", f"refused 76 at 2 / {ASKED}"),
        (WHOLE_C + LANE_ASK + WHOLE_CANCEL + "0c0100000100000001000000", f"refused 76 at 4 / {TOLD_OF}"),
        (WHOLE_C + LANE_ASK + WHOLE_CANCEL + "0c0100000200000001000000", f"refused 76 at 4 / {TOLD_OF}"),
        # An ask about an item is no ask about its workqueue, nor one about the workqueue one about an item: of item 0 neither.
        (WHOLE_C + "070102000000000001000000" + WHOLE_CANCEL + LANE_TOLD, f"refused 76 at 4 / {TOLD_OF}"),
        (WHOLE_C + LANE_ASK + WHOLE_CANCEL + "080102000000000001000000", f"refused 76 at 4 / {TOLD_OF}"),
        (WHOLE_C + LANE_ASK + WHOLE_CANCEL + "080100000000000001000000", f"refused 76 at 4 / {TOLD_OF}"),
        # An ask that is answered no doesn't wait.
        ("0b0000000000000000000000" + "0c0100000000000000000000",
         "refused 76 at 2 / next 0 / lane 0 runs - waits - pending / lane 1 runs - waits - pending"),
        # What is no row: `yes` of ends, an item with an ask about a workqueue.
        (WHOLE_ENDS + "0a0001000100000002000000", f"refused 75 at 7 / {ENDING}"),
        (WHOLE_RUNS + "090201000100000002000000", f"refused 75 at 4 / {RUNNING}"),
        # A row of a helper, which the workqueue hasn't; one of a helper that no workqueue has is no row.
        (WHOLE_RUNS + "090101000100010002000000", f"refused 76 at 4 / {RUNNING}"),
        (WHOLE_RUNS + "090101000100090002000000", f"refused 75 at 4 / {RUNNING}"),
        (WHOLE_C + "0b0101000000000001000000", f"refused 75 at 2 / {ASKED}"),
        (WHOLE_C + "0b0100010000000001000000", f"refused 75 at 2 / {ASKED}"),
        (WHOLE_C + "0b0200000000000001000000", f"refused 75 at 2 / {ASKED}"),
        (WHOLE_C + LANE_ASK + WHOLE_CANCEL + "0c0000000000000001000000", f"refused 75 at 4 / {TOLD_OF}"),
        (WHOLE_C + LANE_ASK + WHOLE_CANCEL + "0c0101000000000001000000", f"refused 75 at 4 / {TOLD_OF}"),
        (WHOLE_C + LANE_ASK + WHOLE_CANCEL + "0c0100010000000001000000", f"refused 75 at 4 / {TOLD_OF}"),
        (WHOLE_C + LANE_ASK + WHOLE_CANCEL + "0c0100000000010001000000", f"refused 75 at 4 / {TOLD_OF}"),
        (WHOLE_C + "0d0100000000000001000000", f"refused 75 at 2 / {ASKED}"),
    ]),
    # Asks about workqueues where there is no item.
    ("", "wq 0 / wq 1", [
        ("0b0000000100000000000000" * 2, "legal 2 / next 0 / lane 0 runs - waits - pending / lane 1 runs - waits - pending"),
        ("0b0000000200000000000000", "refused 76 at 1 / next 0 / lane 0 runs - waits - pending / lane 1 runs - waits - pending"),
    ]),
    # Entries of a workqueue are shown in the order of their declaration.
    ("item a / item b / item c / ordered a b c", "wq 0 c b a", [
        ("010102000000000000000000" + "010100000000000001000000" + "010101000000000002000000"
         + "030102000000000000000000", "legal 4 / next 3 / lane 0 runs c waits - pending a b"),
    ]),
    ("", "", [
        ("", "legal 0 / next 0"),
        (QUEUE, "refused 76 at 1 / next 0"),
        ("030100000000000000000000", "refused 76 at 1 / next 0"),
        ("060100000000000000000000", "refused 76 at 1 / next 0"),
        ("0b0000000000000000000000", "refused 76 at 1 / next 0"),
        ("0c0100000000000000000000", "refused 76 at 1 / next 0"),
    ]),
    # Refusals of the texts that come before.
    ("items a", "nope", [("0", "refused 4 line 1")]),
    ("item a", "", [("0", "refused 41 line 0")]),
]
