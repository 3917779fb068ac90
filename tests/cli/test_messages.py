"""Who waits for whom, and where: messages in which items or workqueues could be exchanged, each written by hand for one small case.

The other tests read the words of docs/tables/messages.txt, or are changed with them by tests/docs/made.py. These aren't: an
item or a workqueue that changes its place in a message, there and so everywhere, is told here. What stands before a message on its
line (the file, the line and the column), and the line of the file below it, belong to tests/cli/diagnoses.

A case is a command, its texts (` / ` parts lines), and the messages, each as it must stand behind its place, in their order.

    python3 -m pytest tests/cli/test_messages.py -k behind
"""

import re

import programs
import pytest
from tables import text_of

PLACE = re.compile(rb"^[^ \n]+:\d+:\d+: (?:note: )?", re.MULTILINE)
CHAIN = "item a / item b / item c"

CASES = [
    # steps that aren't lawful
    ("replay", CHAIN, "wq 0 a b / wq 1 c", "run 3 / queue a / queue b / start 0 b", ["`b` isn't the first entry of workqueue 0, which is `a`"]),
    ("replay", f"{CHAIN} / flush a b", "wq 0 a / wq 1 b / wq 2 c", "run 5 / queue a / queue b / start 0 a / wait 0 b / finish 0 a",
     ["`a`, which runs on workqueue 0, waits for `b`"]),
    ("replay", f"{CHAIN} / flushwq a b", "wq 0 a / wq 1 b / wq 2 c", "run 5 / queue a / queue b / start 0 a / waitwq 0 b / finish 0 a",
     ["`a`, which runs on workqueue 0, waits for the workqueue of `b`"]),
    ("replay", f"{CHAIN} / flush a b", "wq 0 a / wq 1 b / wq 2 c", "run 3 / queue a / start 0 a / wait 0 c",
     ["`a`, which runs on workqueue 0, declares no flush of `c`"]),
    ("replay", f"{CHAIN} / flush a b", "wq 0 a / wq 1 b / wq 2 c", "run 3 / queue a / start 0 a / waitwq 0 b",
     ["`a`, which runs on workqueue 0, declares no `flushwq` of `b`"]),
    ("replay", f"{CHAIN} / flush a b", "wq 0 a / wq 1 b / wq 2 c", "run 5 / queue a / start 0 a / wait 0 b / over 0 b / wait 0 b",
     ["`a`, which runs on workqueue 0, has made all of its waits: 1"]),
    ("replay", f"{CHAIN} / flush a b", "wq 0 a / wq 1 b / wq 2 c", "run 3 / queue a / start 0 a / over 0 b",
     ["`a`, which runs on workqueue 0, doesn't wait"]),
    ("replay", f"{CHAIN} / flush a b", "wq 0 a / wq 1 b / wq 2 c", "run 5 / queue a / queue b / start 0 a / wait 0 b / over 0 b",
     ["an entry of `b` from before this wait is unfinished"]),
    ("replay", f"{CHAIN} / flushwq a b", "wq 0 a / wq 1 b c", "run 5 / queue a / queue c / start 0 a / waitwq 0 b / overwq 0 b",
     ["an entry from before this wait is unfinished on the workqueue of `b`"]),
    ("replay", CHAIN, "wq 0 a b / wq 1 c", "run 3 / queue a / start 0 a / finish 0 b", ["workqueue 0 runs `a`"]),
    ("replay", CHAIN, "wq 0 a b / wq 1 c", "run 2 / queue a / start 1 c", ["nothing is pending on workqueue 1"]),
    # circular waits on workqueues
    ("hang", f"{CHAIN} / flush a b / flush b a", "wq 0 c / wq 1 a / wq 2 b",
     ["can hang: `a`, on workqueue 1, waits for `b`, which waits on workqueue 2",
      "and `b`, on workqueue 2, waits for `a`, which waits on workqueue 1"]),
    ("hang", f"{CHAIN} / flush b b", "wq 0 a / wq 1 b / wq 2 c", ["can hang: `b`, on workqueue 1, waits for itself"]),
    ("hang", f"{CHAIN} / flush a b / flush c a", "wq 0 a / wq 1 b c",
     ["can hang: `a`, on workqueue 0, waits for `b`, which is behind `c` on workqueue 1",
      "and `c`, on workqueue 1, waits for `a`, which waits on workqueue 0"]),
    ("hang", f"{CHAIN} / flush b a", "wq 0 c / wq 1 a b", ["can hang: `b`, on workqueue 1, waits for `a`, which is behind it"]),
    ("hang", f"{CHAIN} / flushwq a b / flush c a", "wq 0 a / wq 1 b c",
     ["can hang: `a`, on workqueue 0, waits for all of workqueue 1, where `c` waits",
      "and `c`, on workqueue 1, waits for `a`, which waits on workqueue 0"]),
    ("hang", f"{CHAIN} / flushwq b a", "wq 0 c / wq 1 a b", ["can hang: `b`, on workqueue 1, waits for all of its workqueue"]),
    # waits for a workqueue without a rescuer
    ("hang", f"{CHAIN} / flush a b", "wq 0 a / wq 1 c / norescuer 2 b",
     ["can hang: `a`, on workqueue 0, waits for `b`, which nothing guarantees to run: workqueue 2 has no rescuer",
      "workqueue 2 has no rescuer"]),
    ("hang", f"{CHAIN} / flushwq a b", "wq 0 a / wq 1 c / norescuer 2 b",
     ["can hang: `a`, on workqueue 0, waits for the workqueue of `b`, which nothing guarantees to run: workqueue 2 has no rescuer",
      "workqueue 2 has no rescuer"]),
    # circular waits on any workqueues
    ("plan", f"{CHAIN} / flush a b / flush b a",
     ["can hang on any workqueues: `a` waits for `b`, which waits", "and `b` waits for `a`, which waits"]),
    ("plan", f"{CHAIN} / flush b b", ["can hang on any workqueues: `b` waits for itself"]),
    ("plan", f"{CHAIN} / ordered b c / flush a b / flush c a",
     ["can hang on any workqueues: `a` waits for `b`, which is behind `c`: they are `ordered`", "and `c` waits for `a`, which waits"]),
    ("plan", f"{CHAIN} / ordered a b / flush b a", ["can hang on any workqueues: `b` waits for `a`, which is behind it: they are `ordered`"]),
    ("plan", f"{CHAIN} / ordered b c / flushwq a b / flush c a",
     ["can hang on any workqueues: `a` waits for the workqueue of `b`, where `c` waits", "and `c` waits for `a`, which waits"]),
    ("plan", f"{CHAIN} / flushwq b b", ["can hang on any workqueues: `b` waits for its workqueue"]),
    # what a repair changes
    ("repair", f"{CHAIN} / flush a b", "wq 0 a b / wq 1 c",
     ["`b` moves from workqueue 0 to workqueue 1", "if it stayed: `a`, on workqueue 0, waits for `b`, which is behind it"]),
    ("repair", f"{CHAIN} / flush a b", "wq 0 c / wq 1 a / norescuer 2 b",
     ["workqueue 2 is given a rescuer",
      "without one: `a`, on workqueue 1, waits for `b`, which nothing guarantees to run: workqueue 2 has no rescuer",
      "workqueue 2 has no rescuer"]),
    ("repair", f"{CHAIN} / item d / ordered b c / flush a b / flush d b", "wq 0 a b c d",
     ["`b`, with 1 more of its group, moves from workqueue 0 to workqueue 1, a new one",
      "if it stayed: `a`, on workqueue 0, waits for `b`, which is behind it"]),
]


@pytest.mark.parametrize("case", CASES, ids=lambda case: f"{case[0]}-{case[-1][0]}")
def test_items_and_workqueues_stand_where_they_belong(program, tmp_path, case):
    command, *texts, messages = case
    for name, text in zip("dar", texts):
        (tmp_path / name).write_bytes(text_of(text))
    lines = programs.ask([program, command, *"dar"[: len(texts)]], cwd=tmp_path).errors.split(b"\n")
    told = [PLACE.sub(b"", line) for line in lines if PLACE.match(line)]
    assert [re.sub(r" \[not lawful \d+\]$", "", line.decode()) for line in told] == messages
