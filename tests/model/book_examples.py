# Worked histories, which the model in book.py must answer as they stand here,
# and the program too:
#
#     book_examples.py
#
# drive_books.py goes through them before it compares anything. ` / ` parts lines.

import pathlib
import sys

sys.dont_write_bytecode = True
sys.path.append(str(pathlib.Path(__file__).resolve().parents[1] / "lib"))
import book  # noqa: E402  (beside this file)
from tables import text_of  # noqa: E402  (in tests/lib)

# The declaration, the assignment, the number of rows, and the lines of EVENTS, each with what is
# printed for it and the row that is written, or "".
ONE = ("item a", "wq 0 a")
TWO = ("item a / item b / flush a b", "wq 0 b / wq 1 a")
WHOLE = ("item a / item b / item c / flushwq a b", "wq 0 b c / wq 1 a")

TABLES = [
    (*ONE, 9, [
        ("queue a", "true free 6 busy open - -", "010100000000000000000000"),
        ("queue a", "false free 5 busy open - -", "010000000000000000000000"),
        ("start 0", "a free 5 busy open a -", "030100000000000000000000"),
        ("queue a", "true free 2 busy open a -", "010100000000000001000000"),
        ("ask a", "waiting 2 free 0 busy open a -", "070100000000000002000000"),
        ("told 0", "not yet free 0 busy open a -", ""),
        ("finish 0", "ok free 0 busy open - -", "060100000000000000000000"),
        ("told 0", "not yet free 0 busy open - -", ""),
        ("start 0", "a free 0 busy open a -", "030100000000000001000000"),
        ("finish 0", "ok free 0 idle open - -", "060100000000000001000000"),
        ("told 0", "done free 0 idle open - -", "080100000000000002000000"),
    ]),
    (*ONE, 100, [
        ("queue a", "true free 97 busy open - -", "010100000000000000000000"),
        ("cancel a", "true free 98 idle open - -", "020100000000000000000000"),
        ("cancel a", "false free 97 idle open - -", "020000000000000000000000"),
        ("queue a", "true free 94 busy open - -", "010100000000000001000000"),
        ("start 0", "a free 94 busy open a -", "030100000000000001000000"),
        ("cancel a", "false free 93 busy open a -", "020000000000000000000000"),
        ("queue a", "true free 90 busy open a -", "010100000000000002000000"),
        ("ask a", "waiting 3 free 88 busy open a -", "070100000000000003000000"),
        ("cancel a", "true free 89 busy open a -", "020100000000000002000000"),
        ("told 0", "not yet free 89 busy open a -", ""),
        ("finish 0", "ok free 89 idle open - -", "060100000000000001000000"),
        ("told 0", "done free 89 idle open - -", "080100000000000003000000"),
    ]),
    (*TWO, 5, [
        ("queue a", "true free 0 busy open - - - -", "010100000000000000000000"),
        ("queue b", "refused 60 free 0 busy open - - - -", ""),
        ("ask a", "refused 60 free 0 busy open - - - -", ""),
        ("start 1", "a free 0 busy open - - a -", "030100000100000000000000"),
        ("wait 1 b", "false free 0 busy open - - a b", "040001000100000001000000"),
        ("over 1", "true free 0 busy open - - a -", "050101000100000001000000"),
        ("finish 1", "ok free 0 idle open - - - -", "060100000100000000000000"),
    ]),
    (*TWO, 4, [("queue a", "refused 60 free 4 idle open - - - -", "")]),
    (*TWO, 100, [
        ("queue z", "refused 66 free 100 idle open - - - -", ""),
        ("queue a", "true free 95 busy open - - - -", "010100000000000000000000"),
        ("start 2", "refused 64 free 95 busy open - - - -", ""),
        ("start 1", "a free 95 busy open - - a -", "030100000100000000000000"),
        ("start 1", "refused 64 free 95 busy open - - a -", ""),
        ("wait 1 a", "refused 62 free 95 busy open - - a -", ""),
        ("over 1", "refused 64 free 95 busy open - - a -", ""),
        ("finish 0", "refused 64 free 95 busy open - - a -", ""),
        ("wait 1 b", "false free 95 busy open - - a b", "040001000100000001000000"),
        ("finish 1", "refused 64 free 95 busy open - - a b", ""),
        ("over 1", "true free 95 busy open - - a -", "050101000100000001000000"),
        ("wait 1 b", "refused 63 free 95 busy open - - a -", ""),
        ("close", "ok free 95 busy closed - - a -", ""),
        ("queue b", "refused 61 free 95 busy closed - - a -", ""),
        ("finish 1", "ok free 95 idle closed - - - -", "060100000100000000000000"),
    ]),
    (*TWO, 20, [
        ("start 0", "none free 20 idle open - - - -", ""),
        ("queue b", "true free 17 busy open - - - -", "010101000000000000000000"),
        ("queue a", "true free 12 busy open - - - -", "010100000000000001000000"),
        ("start 1", "a free 12 busy open - - a -", "030100000100000001000000"),
        ("wait 1 b", "true free 12 busy open - - a b", "040101000100000002000000"),
        ("over 1", "false free 12 busy open - - a b", ""),
        ("start 0", "b free 12 busy open b - a b", "030101000000000000000000"),
        ("queue b", "true free 9 busy open b - a b", "010101000000000002000000"),
        ("over 1", "false free 9 busy open b - a b", ""),
        ("finish 0", "ok free 9 busy open - - a b", "060101000000000000000000"),
        ("over 1", "true free 9 busy open - - a -", "050101000100000002000000"),
        ("finish 1", "ok free 9 busy open - - - -", "060100000100000001000000"),
        ("ask a", "idle free 8 busy open - - - -", "070000000000000003000000"),
    ]),
    (*WHOLE, 8, [
        ("queue c", "true free 5 busy open - - - -", "010102000000000000000000"),
        ("queue a", "true free 0 busy open - - - -", "010100000000000001000000"),
        ("start 1", "a free 0 busy open - - a -", "030100000100000001000000"),
        ("wait 1 b", "refused 62 free 0 busy open - - a -", ""),
        ("waitall 1 b", "true free 0 busy open - - a wq:b", "090101000100000002000000"),
        ("over 1", "false free 0 busy open - - a wq:b", ""),
        ("start 0", "c free 0 busy open c - a wq:b", "030102000000000000000000"),
        ("finish 0", "ok free 0 busy open - - a wq:b", "060102000000000000000000"),
        ("over 1", "true free 0 busy open - - a -", "0a0101000100000002000000"),
        ("finish 1", "ok free 0 idle open - - - -", "060100000100000001000000"),
    ]),
    (*WHOLE, 6, [
        ("asklane 2", "refused 64 free 6 idle open - - - -", ""),
        ("asklane 0", "idle free 5 idle open - - - -", "0b0000000000000000000000"),
        ("queue c", "true free 2 busy open - - - -", "010102000000000000000000"),
        ("asklane 0", "waiting 1 free 0 busy open - - - -", "0b0100000000000001000000"),
        ("toldlane 0", "not yet free 0 busy open - - - -", ""),
        ("start 0", "c free 0 busy open c - - -", "030102000000000000000000"),
        ("finish 0", "ok free 0 idle open - - - -", "060102000000000000000000"),
        ("toldlane 0", "done free 0 idle open - - - -", "0c0100000000000001000000"),
    ]),
]

# The same with helpers, whose number comes first.
THREE = ("item a / item b / item c", "wq 0 a b c")
SHARED = ("item a / item b / ordered a b", "wq 0 a b")

HELPED = [
    (1, *THREE, 20, [
        ("queue a", "true free 17 busy open - - - -", "010100000000000000000000"),
        ("queue b", "true free 14 busy open - - - -", "010101000000000001000000"),
        ("help start 0 1", "a free 14 busy open - - a -", "030100000000010000000000"),
        ("queue a", "true free 11 busy open - - a -", "010100000000000002000000"),
        ("start 0", "b free 11 busy open b - a -", "030101000000000001000000"),
        ("help start 0 1", "refused 64 free 11 busy open b - a -", ""),
        ("finish 0", "ok free 11 busy open - - a -", "060101000000000001000000"),
        ("start 0", "none free 11 busy open - - a -", ""),
        ("help start 0 2", "refused 64 free 11 busy open - - a -", ""),
        ("help finish 0 1", "ok free 11 busy open - - - -", "060100000000010000000000"),
        ("start 0", "a free 11 busy open a - - -", "030100000000000002000000"),
        ("help start 0 1", "none free 11 busy open a - - -", ""),
        ("finish 0", "ok free 11 idle open - - - -", "060100000000000002000000"),
    ]),
    (1, *SHARED, 20, [
        ("queue a", "true free 17 busy open - - - -", "010100000000000000000000"),
        ("help start 0 1", "refused 64 free 17 busy open - - - -", ""),
        ("start 0", "a free 17 busy open a - - -", "030100000000000000000000"),
    ]),
    (2, *WHOLE, 20, [
        ("queue c", "true free 17 busy open - - - - - - - - - - - -", "010102000000000000000000"),
        ("queue a", "true free 12 busy open - - - - - - - - - - - -", "010100000000000001000000"),
        ("help start 0 2", "c free 12 busy open - - - - c - - - - - - -", "030102000000020000000000"),
        ("help start 1 1", "a free 12 busy open - - - - c - - - a - - -", "030100000100010001000000"),
        ("help waitall 1 1 b", "true free 12 busy open - - - - c - - - a wq:b - -", "090101000100010002000000"),
        ("queue c", "true free 9 busy open - - - - c - - - a wq:b - -", "010102000000000002000000"),
        ("start 0", "none free 9 busy open - - - - c - - - a wq:b - -", ""),
        ("help over 1 1", "false free 9 busy open - - - - c - - - a wq:b - -", ""),
        ("help finish 0 2", "ok free 9 busy open - - - - - - - - a wq:b - -", "060102000000020000000000"),
        ("help over 1 1", "true free 9 busy open - - - - - - - - a - - -", "0a0101000100010002000000"),
        ("help finish 1 1", "ok free 9 busy open - - - - - - - - - - - -", "060100000100010001000000"),
        ("over 1", "refused 64 free 9 busy open - - - - - - - - - - - -", ""),
    ]),
]

# Judged histories: the declaration, the assignment, the bytes in hexadecimal, and what is printed.
FIVE = [
    "010100000000000000000000", "030100000100000000000000", "040001000100000001000000",
    "050101000100000001000000", "060100000100000000000000",
]
NOTHING = "lane 0 runs - waits - pending / lane 1 runs - waits - pending"
A_RUNS = "lane 0 runs - waits - pending / lane 1 runs a waits - pending"
A_WAITS = "lane 0 runs - waits - pending / lane 1 runs a waits b pending"
ASKED = "010100000000000000000000 070100000000000001000000 "
LANE_ASKED = "010100000000000000000000 0b0100000000000001000000 "

JUDGED = [
    (*TWO, "".join(FIVE), f"legal 5 / next 1 / {NOTHING}"),
    (*TWO, "".join(FIVE)[:-2], f"refused 75 at 5 / next 1 / {A_RUNS}"),
    (*TWO, "010100000000010000000000" + "".join(FIVE[1:]), f"refused 75 at 1 / next 0 / {NOTHING}"),
    (*TWO, "".join(FIVE[:2] + ["040101000100000001000000"] + FIVE[3:]),
     f"refused 76 at 3 / next 1 / {A_RUNS}"),
    (*TWO, "".join(FIVE[:3] + FIVE[4:]), f"refused 76 at 4 / next 1 / {A_WAITS}"),
    (*TWO, FIVE[1], f"refused 76 at 1 / next 0 / {NOTHING}"),
    (*TWO, "020002000000000000000000", f"refused 76 at 1 / next 0 / {NOTHING}"),
    (*TWO, "", f"legal 0 / next 0 / {NOTHING}"),
    (*ONE, ASKED + "080100000000000000000000",
     "legal 3 / next 1 / lane 0 runs - waits - pending a"),
    (*ONE, ASKED + "080100000000000001000000",
     "refused 76 at 3 / next 1 / lane 0 runs - waits - pending a"),
    (*ONE, ASKED + "020100000000000000000000" + "0801000000000000ffffffff",
     "legal 4 / next 1 / lane 0 runs - waits - pending"),
    # The same of an ask of the workqueue.
    (*ONE, LANE_ASKED + "0c0100000000000000000000",
     "legal 3 / next 1 / lane 0 runs - waits - pending a"),
    (*ONE, LANE_ASKED + "0c0100000000000001000000",
     "refused 76 at 3 / next 1 / lane 0 runs - waits - pending a"),
    (*ONE, LANE_ASKED + "080100000000000000000000",
     "refused 76 at 3 / next 1 / lane 0 runs - waits - pending a"),
    # A wait for a whole workqueue lasts.
    (*WHOLE, "010102000000000000000000 010100000000000001000000 030100000100000001000000 090101000100000002000000",
     "legal 4 / next 2 / lane 0 runs - waits - pending c / lane 1 runs a waits wq:b pending"),
]


# The same with one helper: the rows of the first four make a state, and the others come behind them.
HELPED_ROWS = [
    "010100000000000000000000", "010101000000000001000000", "030101000000010001000000", "010101000000000002000000",
    "030100000000000000000000", "060100000000000000000000", "060101000000010001000000", "030101000000000002000000",
]
RUN_APART = "lane 0 helper 1 runs b waits -"

HELPED_JUDGED = [
    (1, *THREE, "".join(HELPED_ROWS),
     "legal 8 / next 3 / lane 0 runs b waits - pending / lane 0 helper 1 runs - waits -"),
    (1, *THREE, "".join(HELPED_ROWS[:3]), f"legal 3 / next 2 / lane 0 runs - waits - pending a / {RUN_APART}"),
    (0, *THREE, "".join(HELPED_ROWS[:3]), "refused 76 at 3 / next 2 / lane 0 runs - waits - pending a b"),
    (1, *THREE, "".join(HELPED_ROWS[:4]) + "030101000000000002000000",
     f"refused 76 at 5 / next 3 / lane 0 runs - waits - pending a b / {RUN_APART}"),
    (1, *THREE, "".join(HELPED_ROWS[:6]) + "030101000000000002000000",
     f"refused 76 at 7 / next 3 / lane 0 runs - waits - pending b / {RUN_APART}"),
    (1, *THREE, "".join(HELPED_ROWS[:2]) + "030101000000020001000000",
     "refused 76 at 3 / next 2 / lane 0 runs - waits - pending a b / lane 0 helper 1 runs - waits -"),
    (1, *THREE, "".join(HELPED_ROWS[:2]) + "030101000000090001000000",
     "refused 75 at 3 / next 2 / lane 0 runs - waits - pending a b / lane 0 helper 1 runs - waits -"),
    (1, *SHARED, "010100000000000000000000 030100000000010000000000",
     "refused 76 at 2 / next 1 / lane 0 runs - waits - pending a / lane 0 helper 1 runs - waits -"),
]


def cases():
    """What each example is, the words of the command line, and what is printed, with the status.

    Among the words are the files as bytes.
    """
    tables = [(0, *table) for table in TABLES] + HELPED
    for number, (helpers, declared, assigned, row_count, lines) in enumerate(tables, start=1):
        rows = [row for _, _, row in lines if row]
        printed = [line for _, line, _ in lines] + [f"rows {len(rows)}"] + rows
        events = text_of(" / ".join(line for line, _, _ in lines))
        words = ["book", text_of(declared), text_of(assigned), str(row_count), events]
        yield f"the worked history {number}", book.with_helpers(helpers, words), (text_of(" / ".join(printed)), 0)
    judged = [(0, *history) for history in JUDGED] + HELPED_JUDGED
    for number, (helpers, declared, assigned, digits, printed) in enumerate(judged, start=1):
        words = ["check", text_of(declared), text_of(assigned), digits.encode()]
        status = 0 if printed.startswith("legal") else 1
        yield f"the judged history {number}", book.with_helpers(helpers, words), (text_of(printed), status)


def model_answer(words):
    """What the model prints, and its status. The words have one of the forms of the page."""
    helpers, (command, *further) = book.without_helpers(words)
    if command == "book":
        return book.answer_book(*further[:2], int(further[2]), further[3], helpers=helpers)
    return book.answer_check(*further, helpers)


def failures():
    """What is shown of each example that the model answers in another way."""
    return [
        f"{what}: wanted {page}, the model has {model_answer(words)}"
        for what, words, page in cases() if model_answer(words) != page
    ]


if __name__ == "__main__":
    failed = failures()
    print("\n".join(failed) or f"books: {len(list(cases()))} worked histories agree")
    sys.exit(1 if failed else 0)
