"""What was seen beside what is declared, in histories that are made up."""

import pytest
from conftest import ROOT
from made import AT, Made
from test_causes import A, B, C, OTHER, PROCESS, THIRD, THREAD, WORKER, a_sleeps

from wqr.compare import Class, Comparison, Total
from wqr.confirmed import made_sure
from wqr.declared import Declared

EXAMPLES = ROOT / "examples"
ITEMS = "item a  # a_work, queued to w at x.c:1 queue_here\nitem b  # b_work, queued to v at x.c:2 queue_here\n"


def compared(made: Made, declaration: str, assignment: str = "") -> Comparison:
    drawing = made.drawing()
    return Comparison(drawing, Declared.of("made.wq", declaration, assignment, drawing.history.symbols))


def classes(comparison: Comparison) -> dict[str, list[str]]:
    return {
        kind.name: [f"{one.edge.source.name} {one.edge.target.name}" for one in found]
        for kind, found in comparison.seen.items()
        if found
    }


def b_wakes() -> Made:
    return a_sleeps().queue(PROCESS, B, "b_work", wq=2).start(OTHER, B, "b_work").wake(OTHER, WORKER)


def test_a_wait_that_is_not_declared_is_a_hole():
    comparison = compared(b_wakes(), ITEMS)
    assert classes(comparison) == {"HOLE": ["a_work b_work"]}
    assert comparison.has_hole


def test_a_wait_for_an_item_that_is_not_declared_is_a_hole():
    comparison = compared(b_wakes(), ITEMS.splitlines()[0])
    assert classes(comparison) == {"HOLE": ["a_work b_work"]}
    assert "      b_work, on v, isn't declared" in list(comparison.lines())


def test_a_declared_wait_is_seen():
    comparison = compared(b_wakes(), ITEMS + "flush a b  # done x.c:9 wait_here\n")
    assert classes(comparison) == {"DECLARED": ["a_work b_work"]}
    assert not comparison.has_hole
    assert "      line 3: in the same function" in list(comparison.lines())


def nvmet_loads_a_module() -> Made:
    io, starts = "nvmet_tcp_io_work", "call_usermodehelper_exec_work"
    made = Made().queue(PROCESS, A, io, name="nvmet_tcp_wq").start(WORKER, A, io)
    made.queue(WORKER, B, starts, wq=2, name="events_unbound", rescuer=0).sleep(WORKER, A, io)
    return made.start(OTHER, B, starts).wake(OTHER, WORKER).end(OTHER, B, starts).end(WORKER, A, io)


@pytest.mark.parametrize(
    "declarations, wanted", [(["nvmet-tcp"], "HOLE"), (["nvmet-tcp", "nvmet-tcp.module"], "DECLARED")]
)
def test_the_process_that_loads_a_module_is_a_hole_of_nvmet_tcp_without_the_lines_for_it(declarations, wanted):
    text = "".join((EXAMPLES / f"{name}.wq").read_text() for name in declarations)
    comparison = compared(nvmet_loads_a_module(), text, (EXAMPLES / "nvmet-tcp.assign").read_text())
    assert classes(comparison) == {wanted: ["nvmet_tcp_io_work call_usermodehelper_exec_work"]}


def by_two_ways() -> Made:
    """a_work waits in wait_here, called twice by queue_here, and once by wait_there."""
    made = Made()
    for caller in ("queue_here", "wait_there", "queue_here"):
        made.queue(PROCESS, A, "a_work").start(WORKER, A, "a_work").sleep(WORKER, A, "a_work", "wait_here", caller)
        made.queue(PROCESS, B, "b_work", wq=2).start(OTHER, B, "b_work").wake(OTHER, WORKER)
        made.end(OTHER, B, "b_work").end(WORKER, A, "a_work")
    return made


@pytest.mark.parametrize("caller", ["queue_here", "wait_there"])
def test_a_declared_wait_may_cite_any_way_to_the_place(caller):
    comparison = compared(by_two_ways(), f"{ITEMS}flush a b  # done x.c:9 {caller}\n")
    assert "      line 3: in the same function" in list(comparison.lines())


def test_each_way_to_a_place_is_told_with_its_own_count():
    lines = [line.split() for line in compared(by_two_ways(), ITEMS).lines() if " < " in line]
    told = {(row[0], row[3].partition("+")[0]) for row in lines}
    assert told == {("2:", "queue_here"), ("1:", "wait_there")}


def test_a_declared_wait_that_did_not_happen_is_named():
    lines = list(Total([compared(b_wakes(), ITEMS + "flush a b\nflush b a\n")]).lines())
    assert lines[:2] == ["declared, never seen: 1", "  line 4: b -> a"]
    assert lines[2].startswith(
        "# 2 waits declared: 1 seen (1 at another place), 0 perhaps, 1 never. 0 seen and not declared"
    )


def test_records_together_have_seen_what_one_of_them_has():
    other = Made().queue(PROCESS, B, "b_work", wq=2).start(WORKER, B, "b_work").sleep(WORKER, B, "b_work")
    other.queue(PROCESS, A, "a_work").start(OTHER, A, "a_work").wake(OTHER, WORKER)
    declaration = ITEMS + "flush a b\nflush b a\n"
    assert (
        next(Total([compared(b_wakes(), declaration), compared(other, declaration)]).lines())
        == "declared, never seen: 0"
    )


@pytest.mark.parametrize(
    "line", ["no wait: x.c wait_here schedule(): why not", "no wait: x.c wait_here wait_event(q): why not"]
)
def test_a_dismissed_wait_is_told_with_its_line(line):
    comparison = compared(b_wakes(), f"{ITEMS}# {line}\n")
    assert classes(comparison) == {"DISMISSED": ["a_work b_work"]}
    assert f"      line 3: # {line}" in list(comparison.lines())
    assert not comparison.has_hole


@pytest.mark.parametrize("call", ["queue_here(x)", "wait_there(x)"])
def test_a_dismissal_of_another_call_dismisses_nothing(call):
    # (the kernel has these functions, and they aren't on the stack)
    comparison = compared(b_wakes(), f"{ITEMS}# no wait: x.c wait_here {call}: why not\n")
    assert classes(comparison) == {"HOLE": ["a_work b_work"]}


def test_a_wait_at_two_places_of_which_one_is_dismissed_is_a_hole():
    text = f"{ITEMS}# no wait: x.c queue_here wait_here(): why not\n"
    comparison = compared(by_two_ways(), text)
    assert classes(comparison) == {"HOLE": ["a_work b_work"]}
    lines = list(comparison.lines())
    (place,) = [line for line in lines if " < " in line]
    assert "1: " in place and "wait_there" in place
    assert any(line.endswith("wait_here(): why not (which isn't about all of these places)") for line in lines)
    text += "# no wait: x.c wait_there wait_here(): why not\n"
    assert classes(compared(by_two_ways(), text)) == {"DISMISSED": ["a_work b_work"]}


def test_a_dismissal_of_an_fsync_holds_for_that_of_each_file_system():
    # (vfs_fsync ends with a call, so it isn't on the stack)
    made = Made().queue(PROCESS, A, "a_work").start(WORKER, A, "a_work")
    made.sleep(WORKER, A, "a_work", "wait_here", "xfs_file_fsync", "wait_there")
    made.queue(PROCESS, B, "b_work", wq=2).start(OTHER, B, "b_work").wake(OTHER, WORKER)
    assert classes(compared(made, f"{ITEMS}# no wait: x.c wait_there vfs_fsync(f): why not\n")) == {"DISMISSED": ["a_work b_work"]}


def test_a_dismissed_item_is_no_hole():
    comparison = compared(b_wakes(), ITEMS.splitlines()[0] + "\n# no item: x.c b_work: it waits for nothing\n")
    assert classes(comparison) == {"DISMISSED": ["a_work b_work"]}


def test_a_line_for_a_whole_workqueue_covers_each_item_of_it():
    declaration = ITEMS + "item c  # c_work, queued to v at x.c:2 queue_here\nflushwq a c\n"
    assert classes(compared(b_wakes(), declaration)) == {"DECLARED": ["a_work b_work"]}


def test_what_is_perhaps_a_wait_is_no_hole():
    made = (
        a_sleeps().queue(PROCESS, B, "b_work", wq=2).start(OTHER, B, "b_work").wake(OTHER, THREAD).wake(THREAD, WORKER)
    )
    assert classes(compared(made, ITEMS)) == {"UNSURE": ["a_work b_work"]}
    assert classes(compared(made, ITEMS + "flush a b\n")) == {"PERHAPS": ["a_work b_work"]}


def test_waits_of_items_that_are_not_declared_are_not_its_business():
    assert classes(compared(b_wakes(), ITEMS.splitlines()[1])) == {}


def test_a_wait_that_follows_from_others_is_told_as_that():
    declaration = ITEMS + "item c  # c_work, queued to u at x.c:3 queue_here\nflush a c\nflush c b\n"
    assert classes(compared(b_wakes(), declaration)) == {"IMPLIED": ["a_work b_work"]}


def test_items_of_a_grace_period_need_no_line():
    made = a_sleeps().queue(PROCESS, C, "c_work", wq=3, name="rcu_gp").start(THIRD, C, "c_work").wake(THIRD, WORKER)
    assert classes(compared(made, ITEMS)) == {"DISMISSED": ["a_work c_work"]}
    made = (
        a_sleeps()
        .queue(PROCESS, C, "c_work", wq=3, name="rcu_gp", rescuer=0)
        .start(THIRD, C, "c_work")
        .wake(THIRD, WORKER)
    )
    assert classes(compared(made, ITEMS)) == {"HOLE": ["a_work c_work"]}


def test_items_of_a_grace_period_in_a_thread_need_no_line():
    made = a_sleeps().add("sched_kthread_work_execute_start", THREAD, work=C, function=AT["c_work"])
    made.names[THREAD] = "rcu_exp_gp_kthread_worker"
    assert classes(compared(made.wake(THREAD, WORKER), ITEMS)) == {"DISMISSED": ["a_work c_work"]}


def test_of_an_item_that_never_ran_it_is_told_whether_the_kernel_has_its_function():
    lines = list(compared(b_wakes(), f"{ITEMS}item d  # d_work, queued to u\nitem e  # e_work, queued to u\n").lines())
    assert "  never ran: d (line 3)" in lines
    assert "  never ran: e (line 4): there was no function e_work" in lines


def test_an_item_on_another_workqueue_is_told():
    assignment = "wq 0 a  # z, x.c:5 make\nwq 1 b  # v, x.c:6 make\n"
    assert "  a is assigned to z, and ran on w" in list(compared(b_wakes(), ITEMS, assignment).lines())


def test_the_systems_workqueue_is_called_events_by_the_kernel():
    made = Made().queue(PROCESS, A, "a_work", name="events", rescuer=0).run(WORKER, A, "a_work")
    made.queue(PROCESS, C, "c_work", name="events", rescuer=0).run(WORKER, C, "c_work")
    lines = list(compared(made, ITEMS.splitlines()[0], "norescuer 0 a  # system_wq, kernel/workqueue.c:6067\n").lines())
    assert "items and workqueues that differ: 0" in lines


def test_a_rescuer_that_is_assigned_and_is_not_there_is_told():
    made = Made().queue(PROCESS, A, "a_work", rescuer=0).run(WORKER, A, "a_work")
    lines = list(compared(made, ITEMS, "wq 0 a  # w, x.c:5 make\nnorescuer 1 b  # v, x.c:6 make\n").lines())
    assert "  a: the workqueue w has no rescuer, and is assigned otherwise" in lines


def test_items_that_did_not_run_and_items_beside_them_are_told():
    made = (
        Made().queue(PROCESS, A, "a_work").run(WORKER, A, "a_work").queue(PROCESS, C, "c_work").run(OTHER, C, "c_work")
    )
    lines = list(compared(made, ITEMS).lines())
    assert "  never ran: b (line 2)" in lines
    assert "  not declared: c_work, on w, ran once" in lines


@pytest.mark.parametrize(
    "inside, wanted", [("synchronize_rcu", "a grace period, which needs no line"), ("wait_there", "neither a wait nor")]
)
def test_a_sleep_for_a_grace_period_is_told_as_that(inside, wanted):
    made = Made().queue(PROCESS, A, "a_work").start(WORKER, A, "a_work")
    made.sleep(WORKER, A, "a_work", inside, "wait_here").wake(OTHER, WORKER, in_interrupt=True)
    lines = list(compared(made, ITEMS).lines())
    assert lines[lines.index("sleeps that no item ended: 1") + 1].startswith(f"  {wanted}")


def test_a_sleep_that_an_interrupt_ended_confirms_its_dismissal():
    made = a_sleeps().wake(OTHER, WORKER, in_interrupt=True)
    lines = list(compared(made, f"{ITEMS}# no wait: x.c wait_here wait_event(q): an interrupt ends it\n").lines())
    (found,) = [line for line in lines if line.startswith("  line 3 says no wait at x.c wait_here wait_event(q): ")]
    assert found.endswith("an interrupt ends it: ended by an interrupt or a timer (1)")


def test_the_headings_are_all_there():
    lines = list(compared(b_wakes(), ITEMS).lines())
    assert all(any(line.startswith(f"{kind.value}: ") for line in lines) for kind in Class)


@pytest.mark.parametrize(
    "line, function",
    [
        ("item a_work  # delayed work, queued to w at x.c:1 f", "a_work"),
        ("item submit.lower  # a_work, queued to w at x.c:1 f", "a_work"),
        ("item a_work.merging  # queued to w at x.c:1 f", "a_work"),
        ("item connect  # xs_tcp_setup_socket, delayed work, queued to w at x.c:1 f", "xs_tcp_setup_socket"),
        ("item reader  # reads the socket, queued to w at x.c:1 f", "reader"),
    ],
)
def test_the_function_of_an_item_is_found(line, function):
    (item,) = Declared.of("made.wq", line, "", Made().history().symbols).items.values()
    assert item.function == function


def test_an_item_of_the_same_kind_has_the_same_function():
    text = "item up.lower  # a_work, queued to w\nitem up.upper  # the same of the upper one, queued to w\n"
    assert [item.function for item in Declared.of("made.wq", text, "", Made().history().symbols).items.values()] == [
        "a_work",
        "a_work",
    ]


# Unsure lines -----------------------------------------------------------------------------------------


def confirmed(made: Made, declaration: str) -> set[int]:
    return Total([compared(made, declaration)]).confirmed


def test_an_unsure_line_that_was_seen_at_its_place_is_confirmed():
    assert confirmed(b_wakes(), ITEMS + "flush? a b  # done x.c:9 wait_here\nflush? b a  # done x.c:9 wait_here\n") == {3}


def test_an_unsure_line_for_another_place_stays_unsure():
    assert confirmed(b_wakes(), ITEMS + "flush? a b  # done x.c:9 wait_there\n") == set()


def test_an_unsure_line_of_which_a_record_is_unsure_too_stays_unsure():
    made = Made().queue(PROCESS, A, "a_work").queue(PROCESS, B, "b_work", wq=2).start(OTHER, B, "b_work")
    made.start(WORKER, A, "a_work").sleep(WORKER, A, "a_work").wake(OTHER, WORKER)
    assert confirmed(made, ITEMS + "flush? a b\n") == set()


def test_a_wait_for_one_item_does_not_confirm_one_for_its_whole_workqueue():
    assert confirmed(b_wakes(), ITEMS + "flushwq? a b\n") == set()


def test_what_is_confirmed_loses_its_mark_and_nothing_else_changes():
    text = b"item a\r\n\n  flush?  a b # flush? x\xff\nflushwq? a b\nflush? a c\x0b\nflush a d # flush?"
    wanted = b"item a\r\n\n  flush  a b # flush? x\xff\nflushwq a b\nflush? a c\x0b\nflush a d # flush?"
    assert made_sure(text, {3, 4}) == wanted
    assert made_sure(text, set()) == text
