# Rows for `test_runtime crew`, `report` and `script`: a declaration, an assignment, how many rows there are, what the bodies and
# callers do, the answer, and the status. All were worked out by hand from docs/RUNTIME.md and tests/FORMATS.md.
#
# Where the schedule of the threads decides in which order rows stand, only what is printed before
# them is given: such rows are in MEETINGS.

ONE = ("item a", "wq 0 a")
TWO = ("item a / item b / flush a b", "wq 0 b / wq 1 a")
APART = ("item a / item b", "wq 0 a / wq 1 b")
THREE = ("item a / item b / item c / flush a c b", "wq 0 b c / wq 1 a")
WHOLE = ("item a / item b / item c / flushwq a b", "wq 0 b c / wq 1 a")

# Nothing is queued: what is printed of a runtime in which nothing happened.
NOTHING = "agree true / total 0 / rows 0"


def served(*lanes):
    """The first lines: of each lane how many executions were finished, and how many with a fault."""
    head = f"finished {sum(f for f, _ in lanes)} faults {sum(x for _, x in lanes)}"
    return " / ".join([head, *(f"lane {q} finished {f} faults {x}" for q, (f, x) in enumerate(lanes))])


CREWS = [
    # Nobody does anything.
    (*ONE, 10, "body", f"{served((0, 0))} / body code 0 seen true / {NOTHING}", 0),
    ("", "", 10, "", f"finished 0 faults 0 / {NOTHING}", 0),
    # A body for each lane, and no more.
    (*ONE, 10, "", "refused 73 seats 0 bodies 0 callers 0", 1),
    (*TWO, 10, "body / caller / queue a", "refused 73 seats 0 bodies 1 callers 1", 1),
    (*ONE, 10, "body / body", "refused 73 seats 0 bodies 2 callers 0", 1),
    # One execution: the body runs between its Start and its Finish.
    (*ONE, 10, "body / caller / queue a",
     f"{served((1, 0))} / body code 0 seen true / caller ok / caller seen true / agree true"
     " / made a queue yes 1 / made a finish yes 1 / total 2 / rows 3"
     " / 010100000000000000000000 / 030100000000000000000000 / 060100000000000000000000", 0),
    # What runs waits for an item that is idle.
    (*TWO, 10, "body / body / flush b / caller / queue a",
     f"{served((0, 0), (1, 0))} / body code 0 seen true / body code 0 seen true / caller ok / caller seen true"
     " / agree true / made a queue yes 1 / made a finish yes 1 / made b wait no 1 / made b over yes 1 / total 4"
     " / rows 5 / 010100000000000000000000 / 030100000100000000000000 / 040001000100000001000000"
     " / 050101000100000001000000 / 060100000100000000000000", 0),
    # The waits stand in the order in which the body made them.
    (*THREE, 10, "body / body / flush c / flush b / caller / queue a",
     f"{served((0, 0), (1, 0))} / body code 0 seen true / body code 0 seen true / caller ok / caller seen true"
     " / agree true / made a queue yes 1 / made a finish yes 1 / made b wait no 1 / made b over yes 1"
     " / made c wait no 1 / made c over yes 1 / total 6 / rows 7 / 010100000000000000000000"
     " / 030100000100000000000000 / 040002000100000001000000 / 050102000100000001000000"
     " / 040001000100000001000000 / 050101000100000001000000 / 060100000100000000000000", 0),
    # Too few rows for an execution and its wait.
    (*TWO, 4, "body / body / caller / queue a",
     f"{served((0, 0), (0, 0))} / body code 0 seen true / body code 0 seen true / caller refused 60"
     f" / caller seen true / {NOTHING}", 0),
    # Just enough. The body flushes what its item doesn't declare: 62 is its fault, and the execution is finished.
    (*TWO, 5, "body / body / flush a / caller / queue a",
     f"{served((0, 0), (1, 1))} / body code 0 seen true / body code 62 seen true / caller ok / caller seen true"
     " / agree true / made a queue yes 1 / made a finish yes 1 / total 2 / rows 3 / 010100000000000000000000"
     " / 030100000100000000000000 / 060100000100000000000000", 0),
    # It flushes once too often, an item that doesn't exist, and gives up by itself.
    (*TWO, 10, "body / body / flush b / flush b / caller / queue a",
     f"{served((0, 0), (1, 1))} / body code 0 seen true / body code 63 seen true / caller ok / caller seen true"
     " / agree true / made a queue yes 1 / made a finish yes 1 / made b wait no 1 / made b over yes 1 / total 4"
     " / rows 5 / 010100000000000000000000 / 030100000100000000000000 / 040001000100000001000000"
     " / 050101000100000001000000 / 060100000100000000000000", 0),
    (*ONE, 10, "body / flush nobody / caller / queue a",
     f"{served((1, 1))} / body code 62 seen true / caller ok / caller seen true / agree true"
     " / made a queue yes 1 / made a finish yes 1 / total 2 / rows 3"
     " / 010100000000000000000000 / 030100000000000000000000 / 060100000000000000000000", 0),
    (*ONE, 10, "body / fail 4294967295 / cancel a / caller / queue a",
     f"{served((1, 1))} / body code 4294967295 seen true / caller ok / caller seen true / agree true"
     " / made a queue yes 1 / made a finish yes 1 / total 2 / rows 3"
     " / 010100000000000000000000 / 030100000000000000000000 / 060100000000000000000000", 0),
    (*ONE, 10, "body / queue nobody / caller / queue a",
     f"{served((1, 1))} / body code 66 seen true / caller ok / caller seen true / agree true"
     " / made a queue yes 1 / made a finish yes 1 / total 2 / rows 3"
     " / 010100000000000000000000 / 030100000000000000000000 / 060100000000000000000000", 0),
    (*ONE, 10, "body / cancel a / cancel nobody / caller / queue a",
     f"{served((1, 1))} / body code 66 seen true / caller ok / caller seen true / agree true"
     " / made a queue yes 1 / made a cancel no 1 / made a finish yes 1 / total 3 / rows 4"
     " / 010100000000000000000000 / 030100000000000000000000 / 020000000000000000000000"
     " / 060100000000000000000000", 0),
    # What runs waits for a whole workqueue that is idle.
    (*WHOLE, 10, "body / body / flush_wq b / caller / queue a",
     f"{served((0, 0), (1, 0))} / body code 0 seen true / body code 0 seen true / caller ok / caller seen true"
     " / agree true / made a queue yes 1 / made a finish yes 1 / made b waitall no 1 / made b overall yes 1 / total 4"
     " / rows 5 / 010100000000000000000000 / 030100000100000000000000 / 090001000100000001000000"
     " / 0a0101000100000001000000 / 060100000100000000000000", 0),
    # In their order, each by its kind.
    ("item a / item b / item c / flush a c / flushwq a b", "wq 0 b c / wq 1 a", 10,
     "body / body / flush_wq b / flush c / caller / queue a",
     f"{served((0, 0), (1, 0))} / body code 0 seen true / body code 0 seen true / caller ok / caller seen true"
     " / agree true / made a queue yes 1 / made a finish yes 1 / made b waitall no 1 / made b overall yes 1"
     " / made c wait no 1 / made c over yes 1 / total 6 / rows 7 / 010100000000000000000000"
     " / 030100000100000000000000 / 090001000100000001000000 / 0a0101000100000001000000"
     " / 040002000100000001000000 / 050102000100000001000000 / 060100000100000000000000", 0),
    # It waits in the other kind, for another item of the workqueue, for one that doesn't exist, and once too often.
    *((*WHOLE, 10, f"body / body / {deed} / caller / queue a",
       f"{served((0, 0), (1, 1))} / body code 0 seen true / body code 62 seen true / caller ok / caller seen true"
       " / agree true / made a queue yes 1 / made a finish yes 1 / total 2 / rows 3 / 010100000000000000000000"
       " / 030100000100000000000000 / 060100000100000000000000", 0)
      for deed in ["flush b", "flush_wq c", "flush_wq a", "flush_wq nobody"]),
    (*TWO, 10, "body / body / flush_wq b / caller / queue a",
     f"{served((0, 0), (1, 1))} / body code 0 seen true / body code 62 seen true / caller ok / caller seen true"
     " / agree true / made a queue yes 1 / made a finish yes 1 / total 2 / rows 3 / 010100000000000000000000"
     " / 030100000100000000000000 / 060100000100000000000000", 0),
    (*WHOLE, 10, "body / body / flush_wq b / flush_wq b / caller / queue a",
     f"{served((0, 0), (1, 1))} / body code 0 seen true / body code 63 seen true / caller ok / caller seen true"
     " / agree true / made a queue yes 1 / made a finish yes 1 / made b waitall no 1 / made b overall yes 1 / total 4"
     " / rows 5 / 010100000000000000000000 / 030100000100000000000000 / 090001000100000001000000"
     " / 0a0101000100000001000000 / 060100000100000000000000", 0),
    # A body leaves out what only a caller does, and a caller what only a body does.
    (*WHOLE, 10, "body / flushwq 9 / body / flushwq 0 / caller / flush_wq nobody / queue a",
     f"{served((0, 0), (1, 0))} / body code 0 seen true / body code 0 seen true / caller ok / caller seen true"
     " / agree true / made a queue yes 1 / made a finish yes 1 / total 2 / rows 3 / 010100000000000000000000"
     " / 030100000100000000000000 / 060100000100000000000000", 0),
    # A caller flushes a workqueue, and one that doesn't exist.
    (*ONE, 10, "body / caller / flushwq 0 / flushwq 1 / cancel a",
     f"{served((0, 0))} / body code 0 seen true / caller refused 64 / caller seen true / agree true"
     " / made lane 0 asklane no 1 / total 1 / rows 1 / 0b0000000000000000000000", 0),
    # The body dawdles only once the caller has come to its `meet`, which is behind its `seen`.
    (*ONE, 10, "body / meet / dawdle / caller / queue a / seen 0 / seen 1 / meet",
     f"{served((1, 0))} / body code 0 seen true / caller ok / caller seen false / agree true"
     " / made a queue yes 1 / made a finish yes 1 / total 2 / rows 3"
     " / 010100000000000000000000 / 030100000000000000000000 / 060100000000000000000000", 0),
    (*ONE, 10, "body / caller / dawdle / dawdle / seen 2",
     f"{served((0, 0))} / body code 0 seen true / caller ok / caller seen true / {NOTHING}", 0),
    # `destroy` waits until what runs has ended.
    (*ONE, 10, "body / linger / caller / queue a / destroy",
     f"{served((1, 0))} / body code 0 seen true / caller ok / caller seen true / agree true"
     " / made a queue yes 1 / made a finish yes 1 / total 2 / rows 3"
     " / 010100000000000000000000 / 030100000000000000000000 / 060100000000000000000000", 0),
    # Callers stop at the first refusal.
    (*ONE, 10, "body / caller / flush a / cancel a / sync a / queue nobody / flush a",
     f"{served((0, 0))} / body code 0 seen true / caller refused 66 / caller seen true / agree true"
     " / made a cancel no 2 / made a ask no 2 / total 4 / rows 4 / 070000000000000000000000"
     " / 020000000000000000000000 / 070000000000000000000000 / 020000000000000000000000", 0),
    # Callers stand in their order, and what they answered stands in the same.
    (*ONE, 10, "body / caller / cancel a / caller / cancel nobody",
     f"{served((0, 0))} / body code 0 seen true / caller ok / caller refused 66 / caller seen true / caller seen true"
     " / agree true / made a cancel no 1 / total 1 / rows 1 / 020000000000000000000000", 0),
    # Nobody lingers, so `destroy` doesn't see it.
    (*ONE, 10, "body / caller / destroy / queue a",
     f"{served((0, 0))} / body code 0 seen true / caller refused 61 / caller seen false / {NOTHING}", 0),
    (*ONE, 2, "body / caller / sync a",
     f"{served((0, 0))} / body code 0 seen true / caller refused 60 / caller seen true / {NOTHING}", 0),
    # More seats are wanted than a runtime makes.
    (*ONE, 10, " / ".join(["body"] + ["caller"] * 65_535), "refused 70 seats 65535 bodies 1 callers 65535", 1),
    # What isn't run.
    (*ONE, 16_777_217, "body", "refused 68", 2),
    ("item a / flush a a", "wq 0 a", 10, "body", "refused 67", 2),
    # Mistakes of the input.
    (*ONE, 10, "flush a", "mistake line 1", 2),
    (*TWO, 5, "caller / queue a / boddy", "mistake line 3", 2),
    (*ONE, 10, "body / nothing", "mistake line 2", 2),
    (*ONE, 10, "body / # and / flush a a", "mistake line 3", 2),
    (*ONE, 10, "body a", "mistake line 1", 2),
    (*ONE, 10, "body / fail x", "mistake line 2", 2),
    (*ONE, 10, "body / fail 4294967296", "mistake line 2", 2),
    *((*ONE, 10, f"caller / {deed}", "mistake line 2", 2) for deed in [
        "flushwq", "flushwq a", "flushwq 65536", "flushwq 0 0", "flush_wq", "flush_wq a a", "dawdle a", "dawdle 1", "seen", "seen x",
        "seen 1 1",
    ]),
]

# What `run` prints of a plan that was run, here of what the deeds say.
REPORTS = [
    ("", "", 10, "", "workqueues 0 / faults 0", 0),
    (*ONE, 10, "body", "workqueues 1 / item a wq 0 queued 0 cancelled 0 finished 0 / faults 0", 0),
    # Three executions, each with a fault.
    (*ONE, 100, "body / fail 5 / caller / queue a / flush a / queue a / flush a / queue a",
     "workqueues 1 / item a wq 0 queued 3 cancelled 0 finished 3 / faults 3", 0),
    # `b` stays pending until the caller comes to its `meet`: the second queueing in a row and the second cancellation in a row say no,
    # and aren't counted. Nobody queues `d`. Two of three executions have a fault.
    ("item c / item a / item b / item d", "wq 0 a b / wq 1 c d", 100,
     "body / meet / fail 7 / body / meet"
     " / caller / queue c / queue a / queue b / queue b / cancel b / cancel b / queue b / meet",
     "workqueues 2 / item c wq 1 queued 1 cancelled 0 finished 1 / item a wq 0 queued 1 cancelled 0 finished 1"
     " / item b wq 0 queued 2 cancelled 1 finished 1 / item d wq 1 queued 0 cancelled 0 finished 0 / faults 2", 0),
    # A thousand executions with a fault, on two workqueues; and a thousand items.
    (*APART, 10_000, " / ".join(["body / fail 5 / body / fail 6 / caller", *["queue a / flush a"] * 600,
                                 "caller", *["queue b / flush b"] * 400]),
     "workqueues 2 / item a wq 0 queued 600 cancelled 0 finished 600 / item b wq 1 queued 400 cancelled 0 finished 400"
     " / faults 1000", 0),
    (" / ".join(f"item i{i}" for i in range(1_000)), " ".join(["wq 0", *(f"i{i}" for i in range(1_000))]), 10_000,
     " / ".join(["body / fail 5 / caller", *(f"queue i{i}" for i in range(1_000))]),
     " / ".join(["workqueues 1", *(f"item i{i} wq 0 queued 1 cancelled 0 finished 1" for i in range(1_000)), "faults 1000"]), 0),
    # What isn't run has no report.
    (*ONE, 10, "", "refused 73 seats 0 bodies 0 callers 0", 1),
    (*ONE, 16_777_217, "body", "refused 68", 2),
    (*ONE, 10, "body / nothing", "mistake line 2", 2),
]

# A hundred times a caller queues three items of a workqueue, flushes the workqueue, and sees whether all that was queued so far has
# ended: each execution dawdles.
ROUNDS = " / ".join(f"queue b / queue a / queue c / flushwq 0 / seen {3 * k}" for k in range(1, 101))

# How often it is tried that a body waits until the others of a workqueue have ended.
TIMES = 25

# What is printed begins as this regular expression says.
MEETINGS = [
    # When a caller has flushed a workqueue, all is finished that was queued there before.
    ("item a / item b / item c", "wq 0 a b c", 2_000, f"body / dawdle / caller / {ROUNDS}",
     f"{served((300, 0))} / body code 0 seen true / caller ok / caller seen true / agree true"
     " / made a queue yes 100 / made a finish yes 100 / made b queue yes 100 / made b finish yes 100"
     " / made c queue yes 100 / made c finish yes 100 / made lane 0 asklane "),
    # The same of a body that waits for a workqueue: its target ends first, and another item after it.
    *[(*WHOLE, 50, "body / dawdle / body / queue b / queue c / flush_wq b / seen 2 / caller / queue a / flush a",
       f"{served((2, 0), (1, 0))} / body code 0 seen true / body code 0 seen true / caller ok / caller seen true / agree true"
       " / made a queue yes 1 / made a ask (?:yes 1 / made a told yes|no) 1 / made a finish yes 1 / made b queue yes 1"
       " / made b finish yes 1 / made b waitall (?:yes|no) 1 / made b overall yes 1 / made c queue yes 1 / made c finish yes 1"
       r" / total (?:9 / rows 12|10 / rows 13) / ")] * TIMES,
    # What is queued later doesn't prolong it, though something is always on the workqueue: a caller flushes it, and a body waits
    # for it.
    (*ONE, 10_000_000, "body / queue a / caller / queue a / flushwq 0",
     r"finished (\d+) faults 1 / lane 0 finished \1 faults 1 / body code 61 seen true / caller ok / caller seen true"
     r" / agree true / made a queue yes \1 / made a finish yes \1 / made lane 0 asklane yes 1 / made lane 0 toldlane yes 1"
     r" / total \d+ / rows \d+ / "),
    (*WHOLE, 10_000_000, "body / queue b / body / flush_wq b / caller / queue b / queue a / flush a",
     r"finished \d+ faults 1 / lane 0 finished (\d+) faults 1 / lane 1 finished 1 faults 0 / body code 61 seen true"
     r" / body code 0 seen true / caller ok / caller seen true / agree true / made a queue yes 1"
     r" / made a ask (?:yes 1 / made a told yes|no) 1 / made a finish yes 1 / made b queue yes \1 / made b finish yes \1"
     r" / made b waitall yes 1 / made b overall yes 1 / total "),
    # Two bodies and two callers run at once: each waits until it has seen the other three.
    (*APART, 100, "body / meet / body / meet / caller / queue a / meet / caller / queue b / meet",
     f"{served((1, 0), (1, 0))} / body code 0 seen true / body code 0 seen true / caller ok / caller ok"
     " / caller seen true / caller seen true / agree true / made a queue yes 1 / made a finish yes 1"
     " / made b queue yes 1 / made b finish yes 1 / total 4 / rows 6 / "),
    # A body queues the other item.
    (*APART, 100, "body / queue b / meet / body / meet / caller / queue a / meet",
     f"{served((1, 0), (1, 0))} / body code 0 seen true / body code 0 seen true / caller ok / caller seen true"
     " / agree true / made a queue yes 1 / made a finish yes 1 / made b queue yes 1 / made b finish yes 1"
     " / total 4 / rows 6 / "),
    # A body that queues its own item in each execution goes on until the runtime is closed: then it is refused once.
    (*ONE, 10_000_000, "body / queue a / caller / queue a",
     r"finished (\d+) faults 1 / lane 0 finished \1 faults 1 / body code 61 seen true / caller ok / caller seen true"
     r" / agree true / made a queue yes \1 / made a finish yes \1 / total \d+ / rows \d+ / "),
    # A rescuer goes on after a fault.
    (*ONE, 100, "body / fail 5 / caller / queue a / flush a / queue a",
     f"{served((2, 2))} / body code 5 seen true / caller ok / caller seen true / agree true / made a queue yes 2"
     " / made a ask (?:yes 1 / made a told yes|no) 1 / made a finish yes 2 / total [56] / rows [78] / "),
    # And it counts each of them.
    (*ONE, 100, "body / fail 5 / caller / queue a / flush a / queue a / flush a / queue a",
     f"{served((3, 3))} / body code 5 seen true / caller ok / caller seen true / agree true / made a queue yes 3 / made a ask "),
    # What a caller flushes, another one cancels; what runs waits for what is queued again and again.
    (*TWO, 10_000, "body / body / flush b / caller / queue a / flush a / caller / queue b / flush b / cancel a",
     r"finished (\d+) faults 0 / lane 0 finished 1 faults 0 / lane 1 finished [01] faults 0 / body code 0 seen true"
     r" / body code 0 seen true / caller ok / caller ok / caller seen true / caller seen true / agree true / made "),
]

# What `test_runtime script` prints begins as this regular expression says. Each item is queued once, flushed once from
# outside, and by each that declares it; whether a flush had to wait is up to the schedule.
ASKED = r"made {0} ask (?:yes 1\nmade {0} told yes|no) 1\n"
FINISHED = "made {0} finish yes 1\n"
WAITED = r"made {0} wait (?:yes|no) 1\nmade {0} over yes 1\n"
WAITED_ALL = r"made {0} waitall (?:yes|no) 1\nmade {0} overall yes 1\n"


def item(name, waited=False, waited_all=False):
    """The counts of an item."""
    return (f"made {name} queue yes 1\n" + (WAITED.format(name) if waited else "")
            + ASKED.format(name) + FINISHED.format(name) + (WAITED_ALL.format(name) if waited_all else ""))


def rows_of(*rows):
    """These rows, in this order, and others between them."""
    return "(?s:" + "".join(rf".*\n{row}" for row in rows) + ")"


SCRIPTS = [
    (*TWO, 12, "finished 2 faults 0\nlane 0 finished 1 faults 0\nlane 1 finished 1 faults 0\ncaller ok\ncaller ok\nagree true\n"
     + item("a") + item("b", True) + r"total (?:8|9|10)\nrows (?:10|11|12)"
     + rows_of("010100000000", "030100000100", "040[01]01000100", "050101000100", "060100000100")),
    ("", "", 0, "finished 0 faults 0\ncaller ok\ncaller ok\nagree true\ntotal 0\nrows 0\n$"),
    # The scripted waits stand in the order of their flushes.
    (*THREE, 19, "finished 3 faults 0\nlane 0 finished 2 faults 0\nlane 1 finished 1 faults 0\ncaller ok\ncaller ok\nagree true\n"
     + item("a") + item("b", True) + item("c", True) + r"total \d+\nrows \d+"
     + rows_of("030100000100", "040[01]02000100", "050102000100", "040[01]01000100", "050101000100", "060100000100")),
    # A wait for a whole workqueue.
    (*WHOLE, 17, "finished 3 faults 0\nlane 0 finished 2 faults 0\nlane 1 finished 1 faults 0\ncaller ok\ncaller ok\nagree true\n"
     + item("a") + item("b", waited_all=True) + item("c") + r"total \d+\nrows \d+"
     + rows_of("030100000100", "090[01]01000100", "0a0101000100", "060100000100")),
    # The waits stand in the order of their flushes, each by its kind.
    ("item a / item b / item c / flush a c / flushwq a b / flush a b", "wq 0 b c / wq 1 a", 21,
     "finished 3 faults 0\nlane 0 finished 2 faults 0\nlane 1 finished 1 faults 0\ncaller ok\ncaller ok\nagree true\n"
     + item("a") + item("b", True, True) + item("c", True) + r"total \d+\nrows \d+"
     + rows_of("030100000100", "040[01]02000100", "050102000100", "090[01]01000100", "0a0101000100", "040[01]01000100",
               "050101000100", "060100000100")),
    # A flush that is declared twice is made twice.
    ("item a / item b / flush a b b", "wq 0 b / wq 1 a", 14,
     "finished 2 faults 0\nlane 0 finished 1 faults 0\nlane 1 finished 1 faults 0\ncaller ok\ncaller ok\nagree true\n"
     + item("a") + r"made b queue yes 1\n(?:made b wait yes [12]\n)?(?:made b wait no [12]\n)?made b over yes 2\n"),
]

# What `test_runtime script` prints where one caller makes the calls of a text: the whole of it as this regular expression says, with the
# status. The bodies make the declared flushes. Whether an item was still unfinished when it was asked about is up to the schedule.
ACTS = [
    # The waits of a body stand in the order of its flushes, and nobody else asks.
    (*THREE, 19, "queue a / flush a",
     "finished 1 faults 0\nlane 0 finished 0 faults 0\nlane 1 finished 1 faults 0\ncaller ok\nagree true\n"
     + item("a") + "made b wait no 1\nmade b over yes 1\nmade c wait no 1\nmade c over yes 1\n" + r"total [78]\nrows [89]"
     + rows_of("010100000000", "030100000100", "040002000100", "050102000100", "040001000100", "050101000100", "060100000100")
     + r"(?s:.*)$", 0),
    # A pending entry of an item is cancelled before its workqueue can start it, or not; each is queued once, and ends once.
    (*ONE, 100, "queue a / sync a",
     r"finished [01] faults 0\nlane 0 finished [01] faults 0\ncaller ok\nagree true\nmade a queue yes 1\n"
     r"(?:made a cancel yes 1\nmade a ask yes 1\nmade a told yes 1\ntotal 4\nrows 4|"
     r"made a cancel no 1\nmade a ask yes 1\nmade a told yes 1\nmade a finish yes 1\ntotal 5\nrows 6|"
     r"made a cancel no 1\nmade a ask no 1\nmade a finish yes 1\ntotal 4\nrows 5)(?:\n[0-9a-f]{24}){4,6}\n$", 0),
    # A workqueue is flushed: its item has made its wait by then.
    (*WHOLE, 19, "queue a / flushwq 1",
     "finished 1 faults 0\nlane 0 finished 0 faults 0\nlane 1 finished 1 faults 0\ncaller ok\nagree true\n"
     "made a queue yes 1\nmade a finish yes 1\nmade b waitall no 1\nmade b overall yes 1\n"
     "made lane 1 asklane (?:no 1\ntotal 5\nrows 6|yes 1\nmade lane 1 toldlane yes 1\ntotal 6\nrows 7)"
     + rows_of("010100000000", "030100000100", "090001000100", "0a0101000100", "060100000100") + r"(?s:.*)$", 0),
    (*ONE, 10, "flushwq 0 / flushwq 1 / flushwq 0",
     "finished 0 faults 0\nlane 0 finished 0 faults 0\ncaller refused 64\nagree true\nmade lane 0 asklane no 1\ntotal 1\n"
     "rows 1\n0b0000000000000000000000\n$", 0),
    # It stops at the first refusal.
    (*ONE, 10, "flush a / cancel a / sync a / queue nobody / flush a",
     "finished 0 faults 0\nlane 0 finished 0 faults 0\ncaller refused 66\nagree true\nmade a cancel no 2\nmade a ask no 2\ntotal 4\n"
     "rows 4\n070000000000000000000000\n020000000000000000000000\n070000000000000000000000\n020000000000000000000000\n$", 0),
    (*ONE, 2, "sync a / flush a",
     "finished 0 faults 0\nlane 0 finished 0 faults 0\ncaller refused 60\nagree true\ntotal 0\nrows 0\n$", 0),
    (*ONE, 10, "# nothing", "finished 0 faults 0\nlane 0 finished 0 faults 0\ncaller ok\nagree true\ntotal 0\nrows 0\n$", 0),
    # Mistakes of the input.
    (*ONE, 10, "queue a / meet", "mistake line 2\n$", 2),
    (*ONE, 10, "caller / queue a", "mistake line 1\n$", 2),
    (*ONE, 10, "queue a a", "mistake line 1\n$", 2),
    (*ONE, 10, "flushwq a", "mistake line 1\n$", 2),
    (*ONE, 10, "flush_wq a", "mistake line 1\n$", 2),
    (*ONE, 10, "dawdle", "mistake line 1\n$", 2),
    (*ONE, 10, "seen 0", "mistake line 1\n$", 2),
]
