"""Declarations, and for each an answer, an assignment and a run of it, all of which are forged and cut off.

As in the tables of tests/cli/rows, ` / ` parts lines. Most are worked examples of tests/cli/rows/worked.py. What the program says of them is
compared with the model, so what is wrong stands here on purpose.
"""

import dataclasses

from tables import text_of


@dataclasses.dataclass
class Subject:
    """A declaration with what may stand beside it."""

    declaration: bytes
    answer: bytes
    assignment: bytes
    run: bytes


def subject(*texts):
    return Subject(*map(text_of, texts))


HANGS = "run 8 / queue a / queue c / queue b / queue d / start 0 a / wait 0 b / start 1 c / wait 1 d"

# Two items, of which one flushes the other, with their plan, and a run of it that comes to its end.
TWO = subject(
    "item a / item b / flush a b",
    "plan 2 / wq 0 b / wq 1 a / chain 2 / arc a b",
    "wq 0 b / wq 1 a",
    "run 8 / queue a / queue b / start 1 a / wait 1 b / start 0 b / finish 0 b / over 1 b / finish 1 a",
)
# Two groups that wait for each other.
GROUPS = subject(
    "item a / item b / item c / item d / ordered a d / ordered b c / flush a b / flush c d",
    "circle 2 / arc a b / arc c d / " + HANGS,
    "wq 0 a d / wq 1 b c",
    HANGS,
)
SUBJECTS = [
    TWO,
    GROUPS,
    # The same flushes without the groups, on workqueues that hang. The assignment of the plan doesn't.
    subject(
        "item a / item b / item c / item d / flush a b / flush c d",
        "plan 2 / wq 0 b d / wq 1 a c / chain 2 / arc a b",
        "wq 0 a d / wq 1 b c",
        HANGS,
    ),
    # A chain of three, and an answer whose last line isn't of its chain. On these workqueues it is safe.
    subject(
        "item a / item b / item c / item d / flush a b / flush b c",
        "plan 3 / wq 0 c d / wq 1 b / wq 2 a / chain 3 / arc a b / arc a b",
        "wq 0 c d / wq 1 b / wq 2 a",
        "run 4 / queue b / cancel b / queue d / start 0 d",
    ),
    # An item that waits for itself.
    subject(
        "item a / flush a a",
        "circle 1 / arc a a / run 3 / queue a / start 0 a / wait 0 a",
        "wq 0 a",
        "run 3 / queue a / start 0 a / wait 0 a",
    ),
    # An item that waits for the whole workqueue of another one, with its plan, on workqueues that hang; and one that waits for its own.
    subject(
        "item a / item b / item c / flushwq a b / flush c a",
        "plan 3 / wq 0 b / wq 1 a / wq 2 c / chain 3 / arc c a / arc a b",
        "wq 0 a / wq 1 b c",
        "run 10 / queue a / queue b / start 0 a / waitwq 0 b / start 1 b / queue c / finish 1 b / overwq 0 b / finish 0 a / start 1 c",
    ),
    subject(
        "item a / flushwq a a",
        "circle 1 / arc a a / run 3 / queue a / start 0 a / waitwq 0 a",
        "wq 0 a",
        "run 3 / queue a / start 0 a / waitwq 0 a",
    ),
    # Nothing, and a workqueue too many.
    subject("", "plan 1 / wq 0 / chain 1", "wq 0", "run 0"),
]
