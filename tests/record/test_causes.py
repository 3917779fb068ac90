"""Who waited for whom, in histories that are made up. What is wanted follows from docs/WAITS.md, by hand."""

import time

import pytest
from made import Made, stack

WORKER, OTHER, THIRD, THREAD, PROCESS = 10, 11, 12, 50, 90
A, B, C, D = 0x100, 0x200, 0x300, 0x400


def a_sleeps() -> Made:
    """The item a runs, and sleeps."""
    made = Made(names={THREAD: "a_thread", PROCESS: "a_process", WORKER: "kworker/0:1"})
    return made.queue(PROCESS, A, "a_work").start(WORKER, A, "a_work").sleep(WORKER, A, "a_work")


def test_an_item_that_is_queued_later_and_wakes_is_waited_for():
    made = a_sleeps().queue(PROCESS, B, "b_work", wq=2).start(OTHER, B, "b_work").wake(OTHER, WORKER)
    assert made.flushes() == ["flush a_work b_work"]
    assert "done wait_here+0x10" in made.comment("flush a_work b_work")


def test_a_wait_for_an_item_that_had_started_is_not_sure():
    made = Made().queue(PROCESS, A, "a_work").queue(PROCESS, B, "b_work", wq=2).start(OTHER, B, "b_work")
    made.start(WORKER, A, "a_work").sleep(WORKER, A, "a_work").wake(OTHER, WORKER)
    assert made.flushes() == ["# flush? a_work b_work"]
    assert "had always started" in made.comment("# flush? a_work b_work")


def test_who_queues_what_ends_the_wait_is_waited_for_too():
    # ping, receive and pong of docs/WAITS.md: a waits for c, and only b, an item, queues c
    made = a_sleeps().queue(PROCESS, B, "b_work", wq=2).start(OTHER, B, "b_work").queue(OTHER, C, "c_work", wq=3)
    made.end(OTHER, B, "b_work").start(THIRD, C, "c_work").wake(THIRD, WORKER)
    assert made.flushes() == ["flush a_work b_work", "flush a_work c_work"]


def test_who_queues_what_wakes_a_reader_of_a_socket_is_not_sure():
    # (the item that woke it may only have had the socket's lock)
    made = Made().queue(PROCESS, A, "a_work").start(WORKER, A, "a_work").sleep(WORKER, A, "a_work", "sk_wait_data")
    made.queue(PROCESS, C, "c_work", wq=3).start(THIRD, C, "c_work").queue(THIRD, B, "b_work", wq=2)
    made.start(OTHER, B, "b_work").wake(OTHER, WORKER)
    assert made.flushes() == ["# flush? a_work c_work", "flush a_work b_work"]


def test_who_queues_what_interrupts_queue_too_is_not_sure():
    # (as one work_struct sends and receives at a connection: who sends queues what ends waits for an answer)
    made = Made().queue(PROCESS, C, "c_work", wq=3, timer=True).run(THIRD, C, "c_work")
    made.queue(PROCESS, A, "a_work").start(WORKER, A, "a_work").sleep(WORKER, A, "a_work")
    made.queue(PROCESS, D, "d_work").start(OTHER, D, "d_work").queue(OTHER, B, "b_work", wq=2).end(OTHER, D, "d_work")
    made.start(OTHER, B, "b_work").queue(OTHER, C, "c_work", wq=3).end(OTHER, B, "b_work")
    made.start(THIRD, C, "c_work").wake(THIRD, WORKER)
    assert made.flushes() == ["# flush? a_work b_work", "# flush? a_work d_work", "flush a_work c_work"]
    assert "as interrupts do, too" in made.comment("# flush? a_work b_work")


def test_who_ended_the_last_of_several_sleeps_and_had_started_before_it_is_not_sure():
    # (they may be several waits: for c, and then for what b holds)
    made = Made().queue(PROCESS, C, "c_work", wq=3).start(THIRD, C, "c_work")
    made.queue(PROCESS, A, "a_work").start(WORKER, A, "a_work").sleep(WORKER, A, "a_work")
    made.queue(PROCESS, B, "b_work", wq=2).start(OTHER, B, "b_work").wake(THIRD, WORKER)
    made.sleep(WORKER, A, "a_work").wake(OTHER, WORKER)
    assert made.flushes() == ["# flush? a_work b_work", "# flush? a_work c_work"]


def test_who_ended_each_of_several_sleeps_is_waited_for():
    made = a_sleeps().queue(PROCESS, B, "b_work", wq=2).start(OTHER, B, "b_work").wake(OTHER, WORKER)
    made.sleep(WORKER, A, "a_work").wake(OTHER, WORKER)
    assert made.flushes() == ["flush a_work b_work"]


def test_who_queued_before_the_wait_is_not_waited_for():
    made = Made().queue(PROCESS, B, "b_work", wq=2).start(OTHER, B, "b_work").queue(OTHER, C, "c_work", wq=3)
    made.queue(PROCESS, A, "a_work").start(WORKER, A, "a_work").sleep(WORKER, A, "a_work").end(OTHER, B, "b_work")
    made.start(THIRD, C, "c_work").wake(THIRD, WORKER)
    assert made.flushes() == ["flush a_work c_work"]


def test_a_thread_between_is_seen_through_but_not_sure():
    made = (
        a_sleeps().queue(PROCESS, B, "b_work", wq=2).start(OTHER, B, "b_work").wake(OTHER, THREAD).wake(THREAD, WORKER)
    )
    assert made.flushes() == ["# flush? a_work b_work"]
    assert "through a_thread" in made.comment("# flush? a_work b_work")


def test_a_thread_that_no_item_woke_is_told_as_a_thread():
    made = a_sleeps().wake(THREAD, WORKER)
    assert made.flushes() == []
    assert (
        "# no item: a_work slept at wait_here+0x10, and the thread a_thread ended it, once\n"
        in made.drawing().declaration()
    )


def test_an_interrupt_is_told_as_one():
    made = a_sleeps().wake(OTHER, WORKER, in_interrupt=True)
    assert made.flushes() == []
    assert "an interrupt or a timer ended it" in made.drawing().declaration()


def test_an_interrupt_in_an_item_is_not_that_item():
    made = a_sleeps().queue(PROCESS, B, "b_work", wq=2).start(OTHER, B, "b_work").wake(OTHER, WORKER, in_interrupt=True)
    assert made.flushes() == []


def test_a_lock_is_told_as_a_lock_and_what_woke_its_holder_too():
    made = Made(names={OTHER: "kworker/0:2"}).queue(PROCESS, B, "b_work", wq=2).start(OTHER, B, "b_work")
    made.sleep(OTHER, B, "b_work", "wait_there").queue(PROCESS, A, "a_work").start(WORKER, A, "a_work")
    made.sleep(WORKER, A, "a_work", "__mutex_lock", "wait_here")
    made.queue(PROCESS, C, "c_work", wq=3).start(THIRD, C, "c_work").wake(THIRD, OTHER).end(THIRD, C, "c_work").wake(
        OTHER, WORKER
    )
    assert made.flushes() == ["# flush? a_work b_work", "# flush? a_work c_work", "flush b_work c_work"]
    assert made.comment("# flush? a_work b_work").startswith("lock wait_here")
    assert "it was the holder" in made.comment("# flush? a_work b_work")
    assert "its holder kworker/0:2 was woken by it" in made.comment("# flush? a_work c_work")


@pytest.mark.parametrize("cancel, kind", [(0, "flush"), (1, "cancel")])
def test_a_flush_is_exact_even_if_nobody_slept(cancel, kind):
    made = Made().queue(PROCESS, B, "b_work", wq=2).run(OTHER, B, "b_work")
    made.queue(PROCESS, A, "a_work").start(WORKER, A, "a_work").flush(WORKER, B, "b_work", cancel).end(
        WORKER, A, "a_work"
    )
    assert made.flushes() == ["flush a_work b_work"]
    assert made.comment("flush a_work b_work").startswith(f"{kind} wait_there+0x10; seen once, slept 0")


def test_a_flush_of_what_nobody_queued_is_no_wait():
    made = Made().queue(PROCESS, A, "a_work").start(WORKER, A, "a_work").flush(WORKER, B, "b_work")
    assert made.flushes() == ["# not queued: a_work b_work"]


def test_the_sleep_in_a_flush_belongs_to_the_flush():
    made = Made().queue(PROCESS, B, "b_work", wq=2).queue(PROCESS, A, "a_work").start(WORKER, A, "a_work")
    made.flush(WORKER, B, "b_work").sleep(WORKER, A, "a_work", "__flush_work", "wait_there").run(OTHER, B, "b_work")
    made.start(OTHER, D, "wq_barrier_func").wake(OTHER, WORKER).end(WORKER, A, "a_work")
    assert made.flushes() == ["flush a_work b_work"]
    assert "slept 1" in made.comment("flush a_work b_work")


def test_a_flush_of_a_workqueue_names_an_item_of_it():
    made = Made().queue(PROCESS, B, "b_work", wq=2, name="v").run(OTHER, B, "b_work").queue(PROCESS, A, "a_work")
    made.start(WORKER, A, "a_work")
    made.add("flush_wq", WORKER, wq=2, name="v", flags=8, rescuer=1, max=256)
    assert made.flushes() == ["flushwq a_work b_work"]


def test_items_of_one_function_that_wait_for_one_another_are_split():
    # the upper array's flush waits for the lower one's (examples/md.md)
    made = a_sleeps().queue(PROCESS, B, "a_work").start(OTHER, B, "a_work").wake(OTHER, WORKER)
    assert made.flushes() == ["flush a_work.waits a_work"]


def test_workqueues_of_one_name_are_told_apart_where_items_wait_across():
    made = Made().queue(PROCESS, A, "a_work", wq=1, name="kcopyd").queue(PROCESS, B, "a_work", wq=2, name="kcopyd")
    made.start(WORKER, A, "a_work").sleep(WORKER, A, "a_work").start(OTHER, B, "a_work").wake(OTHER, WORKER)
    assert made.flushes() == ["flush a_work.1 a_work.2"]
    assignment = [line.split("  #")[0] for line in made.drawing().assignment().splitlines()[1:]]
    assert assignment == ["wq 0 a_work.1", "wq 1 a_work.2"]


def test_workqueues_of_one_name_are_one_where_nobody_waits_across():
    made = Made().queue(PROCESS, A, "a_work", wq=1, name="xfs-conv/vda").run(WORKER, A, "a_work")
    made.queue(PROCESS, B, "a_work", wq=2, name="xfs-conv/vdb").run(OTHER, B, "a_work")
    assert (
        made.drawing().assignment().splitlines()[1]
        == "wq 0 a_work  # xfs-conv, WQ_MEM_RECLAIM, max_active 256, 2 of them"
    )


def test_a_workqueue_without_a_rescuer_is_on_a_norescuer_line():
    made = Made().queue(PROCESS, A, "a_work", rescuer=0).run(WORKER, A, "a_work")
    assert made.drawing().assignment().splitlines()[1].startswith("norescuer 0 a_work  # w, ")


def test_who_is_woken_too_early_waits_for_the_last_one():
    made = a_sleeps().queue(PROCESS, B, "b_work", wq=2).start(OTHER, B, "b_work").wake(OTHER, WORKER)
    made.sleep(WORKER, A, "a_work").queue(PROCESS, C, "c_work", wq=3).start(THIRD, C, "c_work").wake(THIRD, WORKER)
    assert made.flushes() == ["# flush? a_work b_work", "flush a_work c_work"]


def test_what_is_exact_is_counted_apart_from_what_is_guessed():
    # (three waits, or one that b woke too early twice: the stacks don't tell)
    made = a_sleeps()
    for _ in range(2):
        made.queue(PROCESS, B, "b_work", wq=2).start(OTHER, B, "b_work").wake(OTHER, WORKER).end(OTHER, B, "b_work")
        made.sleep(WORKER, A, "a_work")
    made.queue(PROCESS, B, "b_work", wq=2).start(OTHER, B, "b_work").wake(OTHER, WORKER)
    assert "; seen once, perhaps 2 more, slept 1, longest " in made.comment("flush a_work b_work")


def test_what_is_guessed_alone_is_perhaps_seen():
    made = Made().queue(PROCESS, A, "a_work").queue(PROCESS, B, "b_work", wq=2).start(OTHER, B, "b_work")
    made.start(WORKER, A, "a_work").sleep(WORKER, A, "a_work").wake(OTHER, WORKER)
    assert "; perhaps seen once, slept 1, longest " in made.comment("# flush? a_work b_work")


def test_a_sleep_that_is_open_at_the_end_is_printed():
    made = a_sleeps().queue(PROCESS, B, "b_work", wq=2)
    assert (
        "# open: a_work still slept at wait_here+0x10, for 0.0 ms, in the thread kworker/0:1"
        in made.drawing().declaration()
    )


def test_an_item_that_has_run_since_before_the_record_is_one():
    made = (
        Made()
        .sleep(WORKER, A, "a_work")
        .queue(PROCESS, B, "b_work", wq=2)
        .start(OTHER, B, "b_work")
        .wake(OTHER, WORKER)
    )
    assert made.flushes() == ["flush a_work b_work"]


def test_a_delayed_item_is_queued_where_its_timer_was_armed():
    made = Made().add("delayed", PROCESS, False, stack("wait_there"), wq=1, work=A)
    made.queue(PROCESS, A, "a_work", timer=True).run(WORKER, A, "a_work")
    assert "queued to w at wait_there+0x10" in made.comment("item a_work")


def test_a_long_record_takes_time_in_proportion():
    # (10,000 waits through one thread, which an item woke each time; each wait was once compared with all of these)
    made = Made(names={THREAD: "a_thread", WORKER: "kworker/0:1"})
    for _ in range(10000):
        made.queue(PROCESS, A, "a_work").start(WORKER, A, "a_work").sleep(WORKER, A, "a_work")
        made.queue(PROCESS, C, "c_work", wq=3).start(THIRD, C, "c_work").wake(THIRD, THREAD).end(THIRD, C, "c_work")
        made.wake(THREAD, WORKER).end(WORKER, A, "a_work")
    begun = time.process_time()
    assert len(made.causes().facts) == 10000
    assert time.process_time() - begun < 4
