"""What hung when a record ended, in histories that are made up."""

from made import Made
from test_compare import compared

WORKER, OTHER, PROCESS, RESCUER, SECOND = 10, 11, 90, 20, 21
A, B, C = 0x100, 0x200, 0x300


def waits(made: Made, function: str, work: int, wq: int, target: str, target_work: int, target_wq: int) -> Made:
    """An item waits for another one, in ordinary workers, and both end."""
    made.queue(PROCESS, work, function, wq=wq).start(WORKER, work, function).sleep(WORKER, work, function)
    made.queue(PROCESS, target_work, target, wq=target_wq).start(OTHER, target_work, target).wake(OTHER, WORKER)
    return made.end(OTHER, target_work, target).end(WORKER, work, function)


def hangs(made: Made, function: str, work: int, wq: int, rescuer: int) -> Made:
    """An item sleeps in a rescuer."""
    return made.queue(PROCESS, work, function, wq=wq).start(rescuer, work, function).sleep(rescuer, work, function)


def ended(made: Made) -> Made:
    """Two seconds later the record ends."""
    return made.pause(2).queue(PROCESS, 0x900, "d_work", wq=3)


def told(made: Made) -> list[str]:
    lines = ended(made).drawing().declaration().splitlines()
    return [line for line in lines if line.startswith(("# open", "# not started", "# circle"))]


OPEN = "# open: a_work still slept at wait_here+0x10, for 2.0 s, in the thread v"
WAITED = f"{OPEN}; before, it waited there for b_work"
NOT_STARTED = "# not started: b_work was queued to v 2.0 s before the end"


def test_a_rescuer_that_waits_for_what_only_it_would_execute_is_a_circle():
    made = hangs(waits(Made(names={RESCUER: "v"}), "a_work", A, 2, "b_work", B, 2), "a_work", A, 2, RESCUER)
    assert told(made.queue(PROCESS, B, "b_work", wq=2)) == [
        WAITED,
        NOT_STARTED,
        "# circle: a_work waits for b_work, which hasn't started: the rescuer of v executes a_work",
    ]


def test_a_rescuer_is_known_by_the_name_that_it_has_in_later_kernels():
    made = Made(names={RESCUER: "kworker/R-v+v"})
    made = hangs(waits(made, "a_work", A, 2, "b_work", B, 2), "a_work", A, 2, RESCUER).queue(PROCESS, B, "b_work", wq=2)
    assert told(made)[2].startswith("# circle: a_work waits for b_work")


def test_a_circle_through_two_rescuers_is_told_in_its_order():
    # a on w waits for b on v, and c, which v's rescuer executes, for a on w
    made = Made(names={RESCUER: "w", SECOND: "v"})
    waits(waits(made, "a_work", A, 1, "b_work", B, 2), "c_work", C, 2, "a_work", A, 1)
    hangs(hangs(made, "a_work", A, 1, RESCUER), "c_work", C, 2, SECOND)
    made.queue(PROCESS, B, "b_work", wq=2).queue(PROCESS, A + 1, "a_work", wq=1)
    assert [line for line in told(made) if "circle" in line] == [
        "# circle: a_work waits for b_work, which hasn't started: the rescuer of v executes c_work, "
        "which waits for a_work, which hasn't started: the rescuer of w executes a_work"
    ]


def test_who_sleeps_in_another_workqueues_rescuer_holds_up_nobody_here():
    made = hangs(waits(Made(names={RESCUER: "w"}), "a_work", A, 1, "b_work", B, 2), "a_work", A, 1, RESCUER)
    lines = told(made.queue(PROCESS, B, "b_work", wq=2))
    assert lines == [WAITED.replace("thread v", "thread w"), NOT_STARTED]


def test_where_nobody_waited_there_before_no_circle_is_guessed():
    made = hangs(Made(names={RESCUER: "v"}), "a_work", A, 2, RESCUER).queue(PROCESS, B, "b_work", wq=2)
    assert told(made) == [OPEN, NOT_STARTED]


def test_a_flush_says_itself_what_it_waits_for():
    made = Made(names={RESCUER: "v"}).queue(PROCESS, B, "b_work", wq=2).queue(PROCESS, A, "a_work", wq=2)
    made.start(RESCUER, A, "a_work").flush(RESCUER, B, "b_work")
    made.sleep(RESCUER, A, "a_work", "__flush_work", "wait_there")
    assert told(made) == [
        "# open: a_work still slept at wait_there+0x10, for 2.0 s, in the thread v; it flushes b_work",
        NOT_STARTED,
        "# circle: a_work waits for b_work, which hasn't started: the rescuer of v executes a_work",
    ]


def test_what_is_cancelled_or_was_just_queued_is_not_told_as_not_started():
    made = Made().queue(PROCESS, B, "b_work", wq=2).flush(PROCESS, B, "b_work", cancel=1).pause(2)
    made.queue(PROCESS, A, "a_work", wq=2).queue(PROCESS, C, "c_work", wq=2)
    lines = made.drawing().declaration().splitlines()
    assert not [line for line in lines if line.startswith("# not started")]


def test_the_line_that_declares_an_open_wait_is_named():
    declaration = "item a  # a_work, queued to v at x.c:1\nitem b  # b_work, queued to v at x.c:2\nflush a b  # done x.c:9 wait_here\n"
    made = hangs(waits(Made(names={RESCUER: "v"}), "a_work", A, 2, "b_work", B, 2), "a_work", A, 2, RESCUER)
    lines = list(compared(ended(made.queue(PROCESS, B, "b_work", wq=2)), declaration).lines())
    at = lines.index("still asleep when the record ended: 1")
    assert lines[at + 1 :] == [
        WAITED.replace("# open: ", "  "),
        "      line 3: a -> b",
        "queued, and not started when the record ended: 1",
        NOT_STARTED.replace("# not started: ", "  "),
        "circles: 1",
        "  a_work waits for b_work, which hasn't started: the rescuer of v executes a_work",
    ]
