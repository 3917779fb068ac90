# Rows for `test_runtime helpers N`: how many helpers there are, and then what the rows of calls.py and crews.py have. All were worked
# out by hand from docs/RUNTIME.md and tests/FORMATS.md.

from crews import APART, ONE, TWO, WHOLE, served  # beside this file

# Two items of one workqueue, and the same where it runs one at a time.
TOGETHER = ("item a / item b", "wq 0 a b")
ORDERED = ("item a / item b / ordered a b", "wq 0 a b")
# 256 workqueues, of which two have an item, the 17th and the last one; and 17, of which each has one.
FAR = ("item a / item b", " / ".join(f"wq {q}{' a' * (q == 16)}{' b' * (q == 255)}" for q in range(256)))
MANY_LANES = (" / ".join(f"item i{q}" for q in range(17)), " / ".join(f"wq {q} i{q}" for q in range(17)))
THREE_LANES = ("item a / item b / item c / item d / ordered b c / flush d a", "wq 0 a / wq 1 b c / wq 2 d")

# The calls in one thread, as in calls.RUNTIMES.
RUNTIMES = [
    # An item runs in one context at a time: who is idle passes over it, and takes the next.
    (1, *TOGETHER, 100, [
        ("helpers 0", "1"),
        ("helpers 1", "0"),
        ("queue 0 a", "true"),
        ("queue 0 b", "true"),
        ("help next 0 1", "a"),
        ("next 0", "b"),
        ("queue 0 a", "true"),
        ("queue 0 a", "false"),
        ("next 0", "refused 64"),
        ("help next 0 1", "refused 64"),
        ("help next 0 2", "refused 64"),
        ("help next 0 0", "refused 64"),
        ("help next 1 1", "refused 64"),
        ("help finish 0 1 b", "refused 64"),
        ("help finish 0 0 b", "refused 64"),
        ("finish 0 a", "refused 64"),
        ("help finish 0 1 a", "ok"),
        ("help next 0 1", "a"),
        ("finish 0 b", "ok"),
        ("finish 0 a", "refused 64"),
        ("help finish 0 1 a", "ok"),
        ("destroy", "ok"),
        ("next 0", "none"),
        ("help next 0 1", "none"),
        ("counted a", "queued 2 cancelled 0 finished 2 total 7"),
        ("close 1", "ok"),
    ], [
        ("a", "queue", "yes", 2), ("a", "queue", "no", 1), ("a", "finish", "yes", 2), ("b", "queue", "yes", 1), ("b", "finish", "yes", 1),
    ], [
        "010100000000000000000000",
        "010101000000000001000000",
        "030100000000010000000000",
        "030101000000000001000000",
        "010100000000000002000000",
        "010000000000000000000000",
        "060100000000010000000000",
        "030100000000010002000000",
        "060101000000000001000000",
        "060100000000010002000000",
    ]),
    # The waits of what a helper runs: 64 in place of the rescuer's entry, 62 and 63 of its own.
    (2, *TWO, 100, [
        ("queue 1 a", "true"),
        ("help next 1 2", "a"),
        ("wait 1 b", "refused 64"),
        ("help wait 1 1 b", "refused 64"),
        ("help wait 1 3 b", "refused 64"),
        ("help wait 1 0 b", "refused 64"),
        ("help wait 2 1 b", "refused 64"),
        ("help wait 1 2 a", "refused 62"),
        ("help waitall 1 2 b", "refused 62"),
        ("help wait 1 2 b", "false"),
        ("help wait 1 2 b", "refused 63"),
        ("help finish 1 1 a", "refused 64"),
        ("help finish 1 2 a", "ok"),
        ("close 1", "ok"),
    ], [
        ("a", "queue", "yes", 1), ("a", "finish", "yes", 1), ("b", "wait", "no", 1), ("b", "over", "yes", 1),
    ], [
        "010100000000000000000000",
        "030100000100020000000000",
        "040001000100020001000000",
        "050101000100020001000000",
        "060100000100020000000000",
    ]),
    (8, *WHOLE, 100, [
        ("queue 1 a", "true"),
        ("help next 1 8", "a"),
        ("waitall 1 b", "refused 64"),
        ("help waitall 1 8 c", "refused 62"),
        ("help wait 1 8 b", "refused 62"),
        ("help waitall 1 8 b", "false"),
        ("help finish 1 8 a", "ok"),
        ("close 1", "ok"),
    ], [
        ("a", "queue", "yes", 1), ("a", "finish", "yes", 1), ("b", "waitall", "no", 1), ("b", "overall", "yes", 1),
    ], [
        "010100000000000000000000",
        "030100000100080000000000",
        "090001000100080001000000",
        "0a0101000100080001000000",
        "060100000100080000000000",
    ]),
    # Helpers of workqueues with larger numbers.
    (8, *FAR, 100, [
        ("helpers 16", "8"),
        ("helpers 255", "8"),
        ("queue 16 a", "true"),
        ("queue 255 b", "true"),
        ("help next 255 3", "b"),
        ("help next 16 8", "a"),
        ("help finish 255 8 b", "refused 64"),
        ("help finish 0 8 a", "refused 64"),
        ("help finish 255 3 b", "ok"),
        ("help finish 16 8 a", "ok"),
        ("help next 256 1", "refused 64"),
        ("close 1", "ok"),
    ], [
        ("a", "queue", "yes", 1), ("a", "finish", "yes", 1), ("b", "queue", "yes", 1), ("b", "finish", "yes", 1),
    ], [
        "010100000000000000000000",
        "010101000000000001000000",
        "03010100ff00030001000000",
        "030100001000080000000000",
        "06010100ff00030001000000",
        "060100001000080000000000",
    ]),
    # A workqueue with an ordered group of two has no helpers. One with nothing on it has them, and a group of one item isn't ordered.
    (3, *ORDERED, 100, [
        ("helpers 0", "0"),
        ("queue 0 a", "true"),
        ("queue 0 b", "true"),
        ("help next 0 1", "refused 64"),
        ("next 0", "a"),
        ("help finish 0 1 a", "refused 64"),
        ("finish 0 a", "ok"),
        ("cancel b", "true"),
        ("close 1", "ok"),
    ], [
        ("a", "queue", "yes", 1), ("a", "finish", "yes", 1), ("b", "queue", "yes", 1), ("b", "cancel", "yes", 1),
    ], [
        "010100000000000000000000",
        "010101000000000001000000",
        "030100000000000000000000",
        "060100000000000000000000",
        "020101000000000001000000",
    ]),
    (3, "item a / ordered a", "wq 0 a / wq 1", 5, [
        ("helpers 0", "3"), ("helpers 1", "3"), ("helpers 2", "0"), ("helpers 65535", "0"), ("close 1", "ok"),
    ], [], []),
    (0, *TOGETHER, 5, [("helpers 0", "0"), ("help next 0 1", "refused 64"), ("close 1", "ok")], [], []),
]

# The text of the calls, and all that is printed.
TEXTS = [
    *((1, *ONE, 5, line, "mistake line 1") for line in [
        "help", "help next", "help next 0", "help next a 1", "help next 0 a", "help next 0 1 a", "help next 0 256", "help next 65536 1",
        "help next 0 01", "help wait 0 1", "help wait 0 1 a a", "help waitall 0 1", "help finish 0 1", "help finish 0 1 a a", "help queue 0 1 a",
        "help start 0 1", "help destroy", "helpers", "helpers a", "helpers 0 0", "helpers 65536",
    ]),
    # Too many helpers, behind too many workqueues and too many rows, before an assignment that can deadlock.
    (9, *ONE, 5, "stop", "refused 74"),
    (255, *ONE, 5, "stop", "refused 74"),
    (9, "item a / flush a a", "wq 0 a", 5, "stop", "refused 74"),
    (9, *ONE, 16_777_217, "stop", "refused 68"),
    (9, "item a", " / ".join([*(f"wq {q}" for q in range(256)), "wq 256 a"]), 5, "stop", "refused 69"),
    (8, "item a / flush a a", "wq 0 a", 5, "stop", "refused 67"),
    (8, *ONE, 5, "helpers 0", "helpers 0 8"),
]

# Crews, as in crews.CREWS.
CREWS = [
    # A body for each rescuer and each helper, and no more.
    (1, *ONE, 10, "body", "refused 73 seats 0 bodies 1 callers 0", 1),
    (1, *ONE, 10, "body / body / body", "refused 73 seats 0 bodies 3 callers 0", 1),
    (2, *THREE_LANES, 10, " / ".join(["body"] * 6), "refused 73 seats 0 bodies 6 callers 0", 1),
    (2, *THREE_LANES, 10, " / ".join(["body"] * 7),
     "finished 0 faults 0 / lane 0 finished 0 faults 0 / lane 0 helper 1 finished 0 faults 0 / lane 0 helper 2 finished 0 faults 0"
     " / lane 1 finished 0 faults 0 / lane 2 finished 0 faults 0 / lane 2 helper 1 finished 0 faults 0"
     f" / lane 2 helper 2 finished 0 faults 0 / {' / '.join(['body code 0 seen true'] * 7)} / agree true / total 0 / rows 0", 0),
    (8, *ORDERED, 10, "body", f"{served((0, 0))} / body code 0 seen true / agree true / total 0 / rows 0", 0),
    (8, "", "", 10, "", "finished 0 faults 0 / agree true / total 0 / rows 0", 0),
    # What isn't run.
    (9, *ONE, 10, "body", "refused 74", 2),
    # What only a body does is left out by a caller; mistakes.
    (0, *ONE, 10, "body / caller / alone",
     f"{served((0, 0))} / body code 0 seen true / caller ok / caller seen true / agree true / total 0 / rows 0", 0),
    *((0, *ONE, 10, f"body / {deed}", "mistake line 2", 2) for deed in ["alone a", "alone 1"]),
]

# Reports, as in crews.REPORTS.
REPORTS = [
    (2, *ONE, 100, "body / fail 5 / body / fail 5 / body / fail 5 / caller / queue a / flush a / queue a / flush a / queue a",
     "workqueues 1 / item a wq 0 queued 3 cancelled 0 finished 3 / faults 3", 0),
]


def lanes(*contexts):
    """The lines of what contexts answered, as regular expressions: each with how many executions it finished, which none refuses."""
    return " / ".join(f"{context} finished {finished} faults 0" for context, finished in contexts)


def seen(bodies, callers):
    """The lines of bodies and callers that have seen what they looked for."""
    return " / ".join(["body code 0 seen true"] * bodies + ["caller ok"] * callers + ["caller seen true"] * callers)


def contexts(q, finished, helpers):
    """How many each context of workqueue Q, which has so many helpers, has finished."""
    return [(f"lane {q}", finished), *((f"lane {q} helper {helper}", finished) for helper in range(1, helpers + 1))]


def dawdles(times):
    """So many deeds of a body or a caller, after the line that begins it."""
    return " / dawdle" * times


# How often it is tried that bodies meet, that an item runs alone, and that it is queued again while it lingers; and that contexts end
# with the last entry of a closed runtime.
MEETS = 100
TIMES = 25
ENDS = 5

# Crews of which what is printed begins as this regular expression says.
MEETINGS = [
    # Two items of one workqueue run at once, in its rescuer and its helper: each waits until it has seen the other, and the caller.
    *[(1, *TOGETHER, 100, "body / meet / body / meet / caller / queue a / queue b / meet",
       f"finished 2 faults 0 / {lanes(('lane 0', 1), ('lane 0 helper 1', 1))} / {seen(2, 1)} / agree true / made a queue yes 1"
       " / made a finish yes 1 / made b queue yes 1 / made b finish yes 1 / total 4 / rows 6 / ")] * MEETS,
    # The first body is the rescuer's, and the second one the helper's.
    *[(1, *TOGETHER, 100, f"body / meet / {first} / body / meet / {second} / caller / queue a / queue b / meet",
       f"finished 2 faults 1 / lane 0 finished 1 faults {int(code > 0)} / lane 0 helper 1 finished 1 faults {int(other > 0)}"
       f" / body code {code} seen true / body code {other} seen true / caller ok / caller seen true / agree true / ")
      for first, second, code, other in [("fail 7", "seen 0", 7, 0), ("seen 0", "fail 7", 0, 7)]],
    # Nine items of one workqueue, in nine contexts.
    (8, " / ".join(f"item i{k}" for k in range(9)), "wq 0 " + " ".join(f"i{k}" for k in range(9)), 100,
     " / ".join(["body / meet"] * 9 + ["caller", *(f"queue i{k}" for k in range(9)), "meet"]),
     f"finished 9 faults 0 / {lanes(('lane 0', 1), *((f'lane 0 helper {h}', 1) for h in range(1, 9)))} / {seen(9, 1)} / agree true / "),
    # No item runs twice at a time, though two callers queue the items again and again.
    *[(3, *TOGETHER, 10_000,
       " / ".join(["body / alone"] * 4 + ["caller", *["queue a / queue b"] * 100, "caller", *["queue b / queue a / flush a"] * 100]),
       r"finished (\d+) faults 0 / " + lanes(("lane 0", r"\d+"), *((f"lane 0 helper {h}", r"\d+") for h in (1, 2, 3)))
       + f" / {seen(4, 2)} / agree true / made ")] * TIMES,
    # An item is queued again while it lingers, maybe in a helper, until the runtime is destroyed: it is finished as often as it was
    # queued, since who has nothing to start doesn't end while something is pending.
    *[(1, *ONE, 100, " / ".join(["body / linger", "body / linger", "caller / queue a", *["dawdle"] * 20, "queue a / destroy"]),
       rf"finished (\d) faults 0 / {lanes(('lane 0', '[012]'), ('lane 0 helper 1', '[012]'))} / {seen(2, 1)} / agree true"
       r" / made a queue yes \1 / (?:made a queue no 1 / )?made a finish yes \1 / ")] * TIMES,
    # The same with two helpers: after `destroy` two contexts sleep, since the item of what is pending runs in the third. One of them
    # starts it once the item has finished. Then nothing is pending, so that the other ends.
    *[(2, *ONE, 100, " / ".join([*["body / linger"] * 3, "caller / queue a", *["dawdle"] * 20, "queue a / destroy"]),
       rf"finished (\d) faults 0 / {lanes(('lane 0', '[012]'), ('lane 0 helper 1', '[012]'), ('lane 0 helper 2', '[012]'))} / {seen(3, 1)} / agree true"
       r" / made a queue yes \1 / (?:made a queue no 1 / )?made a finish yes \1 / ")] * TIMES,
    # And surely so where both contexts linger, once each has met the other, and one of their items is queued again.
    *[(1, *TOGETHER, 100, "body / meet / linger / body / meet / linger / caller / queue a / queue b / meet / queue a / destroy",
       rf"finished 3 faults 0 / {lanes(('lane 0', '[12]'), ('lane 0 helper 1', '[12]'))} / {seen(2, 1)} / agree true"
       " / made a queue yes 2 / made a finish yes 2 / made b queue yes 1 / made b finish yes 1 / ")] * TIMES,
    # Here the runtime is closed by `run_all` itself, once the caller has ended, and never again: `a` runs in one context of its workqueue,
    # and is pending behind that. The others sleep until it has finished; one of them starts it, and then the third one ends.
    # So it is with eight helpers, of which seven end then: more than two calls that wake one of them would wake.
    *[(helpers, *APART, 100,
       " / ".join([*["body" + dawdles(300)] * (helpers + 1), *["body"] * (helpers + 1), f"caller / queue a{dawdles(20)} / queue a"]),
       rf"finished [12] faults 0 / {lanes(*contexts(0, '[012]', helpers), *contexts(1, 0, helpers))} / {seen(2 * helpers + 2, 1)}"
       " / agree true / ") for helpers in (2, 8)] * ENDS,
    # The same, where a body of another workqueue cancels what is pending: then all ends that sleeps.
    *[(helpers, *APART, 100, " / ".join([*["body" + dawdles(600)] * (helpers + 1), *["body" + dawdles(200) + " / cancel a"] * (helpers + 1),
                                         f"caller / queue a{dawdles(20)} / queue a / queue b"]),
       rf"finished [123] faults 0 / {lanes(*contexts(0, '[012]', helpers), *contexts(1, '[01]', helpers))} / {seen(2 * helpers + 2, 1)}"
       " / agree true / ") for helpers in (2, 8)] * ENDS,
    # A body waits for an item that a helper of another workqueue runs, or its rescuer.
    (2, *TWO, 100, " / ".join(["body / dawdle"] * 3 + ["body / queue b / flush b / seen 1"] * 3 + ["caller / queue a / flush a"]),
     "finished 2 faults 0 / " + lanes(*((f"lane {q}{helper}", "[01]") for q in (0, 1) for helper in ("", " helper 1", " helper 2")))
     + f" / {seen(6, 1)} / agree true / made a queue yes 1 / "),
]

# Scripts, as in crews.SCRIPTS, with what is printed before `agree`.
SCRIPTS = [
    (2, *TWO, 12, r"finished 2 faults 0\n"
     + "".join(rf"lane {q}{helper} finished [01] faults 0\n" for q in (0, 1) for helper in ("", " helper 1", " helper 2"))
     + r"caller ok\ncaller ok\nagree true\nmade a queue yes 1\n"),
    (8, *APART, 12, r"finished 2 faults 0\n(?:lane \d(?: helper \d)? finished [01] faults 0\n){18}caller ok\ncaller ok\nagree true\n"),
    (1, *MANY_LANES, 200, r"finished 17 faults 0\n(?:lane \d+(?: helper 1)? finished [01] faults 0\n){34}caller ok\ncaller ok\nagree true\n"),
    (3, *ORDERED, 12, r"finished 2 faults 0\nlane 0 finished 2 faults 0\ncaller ok\ncaller ok\nagree true\n"),
]
