"""One small C file for each way in which code gets to a wait. What is expected was read off the C file."""

import pytest

from conftest import C_FILES


def test_callback_parameter(drafted):
    found = drafted("callback.c")
    assert found.items == {"cb_work": set(), "cb_other_work": set()}
    assert found.flushes == set()
    assert found.open == {("callback.c:4", "flush_work(&c->other_work)"): ({"cb_work"}, {"cb_other_work"})}


def test_table_of_operations(drafted):
    found = drafted("ops.c")
    assert found.open == {("ops.c:4", "wait_for_completion(&d->stopped)"): ({"ops_work"}, {"ops_end_work"})}
    assert found.flushes == set()


def test_declared_work(drafted):
    found = drafted("declared.c")
    assert found.items == {"declared_fn": {"system_wq"}, "declared_later_fn": {"system_unbound_wq"}}
    assert found.flushes == {("flush declared_later_fn declared_fn", "declared.c:11")}
    # it flushes the workqueue that it is on
    assert found.open == {("declared.c:4", "flush_scheduled_work()"): ({"declared_fn"}, {"declared_fn"})}


def test_percpu_ref(drafted):
    found = drafted("percpu_ref.c")
    assert found.flushes == set()
    assert found.open == {("percpu_ref.c:6", "flush_work(&p->io_work)"): ({"pr_stop_work"}, {"pr_io_work"})}


def test_kref(drafted):
    found = drafted("kref.c")
    assert found.items == {"kr_work": {"kr-stop"}, "kr_log_work": {"kr-log"}}
    assert found.flushes == set()
    assert found.open == {("kref.c:6", "destroy_workqueue(k->wq)"): ({"kr_work"}, {"kr_log_work"})}


def test_end_of_a_bio(drafted):
    """What bi_end_io calls ends waits, and isn't in reach of them: nothing there can sleep."""
    found = drafted("bio_end.c")
    assert found.flushes == set()
    assert found.open == {("bio_end.c:15", "wait_for_completion(&b->done)"): ({"be_send_work"}, {"be_answer_work"})}


def test_work_that_is_initialised_again(drafted):
    found = drafted("again.c")
    assert found.items == {"again_first": {"early"}, "again_second": {"late"}, "again_waits": set()}
    assert found.open == {("again.c:18", "flush_work(&a->work)"): ({"again_waits"}, {"again_first", "again_second"})}


def test_macro(drafted):
    found = drafted("macro.c")
    assert found.flushes == {("flush macro_work macro_ready_work", "macro.c:2")}
    assert found.open == {}


def test_static_functions_of_one_name(drafted):
    found = drafted("twin_a.c", "twin_b.c")
    assert set(found.items) == {"twin_work.twin_a", "twin_work.twin_b", "twin_end_a"}
    assert found.flushes == {("flush twin_work.twin_a twin_end_a", "twin_a.c:4")}
    assert found.open == {("twin_b.c:4", "drain_workqueue(t->wq)"): ({"twin_work.twin_b"}, set())}


def test_two_works_set_in_one_function(drafted):
    """Each has its function, and only the second is queued, by a helper."""
    found = drafted("two_inits.c")
    assert found.items == {"ti_first": set(), "ti_second": {"ti"}}
    assert found.flushes == {("flush ti_second ti_first", "two_inits.c:10")}
    assert found.open == {}


def test_pool_and_wait_queue(drafted):
    """GFP_NOWAIT doesn't sleep, and schedule() belongs to the wait queue that was entered before."""
    found = drafted("pool.c")
    assert found.flushes == {("flush pool_take_work pool_give_work", "pool.c:6")}
    assert found.open == {("pool.c:26,27", "prepare_to_wait(&p->wait)"): ({"pool_wait_work"}, set())}


def test_kthread_worker_and_function_variable(drafted):
    found = drafted("worker.c")
    assert found.items == {"worker_fn": {"worker-dev"}, "worker_stop_fn": set()}
    assert found.open == {("worker.c:4", "kthread_flush_worker(w->worker)"): ({"worker_stop_fn"}, {"worker_fn"})}


def test_flags(read):
    """As the calls give them: one in a variable, one not at all."""
    import pathlib

    def flags(file):
        workqueues = read(pathlib.Path(__file__).parent / "c", [file]).workqueues
        return {workqueues.name(made): workqueues.flags(made) for made in workqueues.made}

    # (which kernel it is of, nothing there says)
    perhaps = "max_active 1 (ordered in Linux 6.1, not in 6.12)"
    assert flags("two_inits.c") == {"ti": f"{perhaps}, WQ_MEM_RECLAIM, WQ_UNBOUND"}
    assert flags("kref.c") == {
        "kr-log": "ordered, WQ_MEM_RECLAIM",
        "kr-stop": "max_active 1, NO WQ_MEM_RECLAIM: no rescuer",
    }
    assert flags("again.c") == {"early": "WQ_MEM_RECLAIM", "late": "WQ_MEM_RECLAIM"}


def test_the_release_of_another_object(drafted):
    """put_device(&r->a_dev) calls what was assigned to this device's release, and not what was to another's."""
    found = drafted("released.c")
    assert {place for place, _ in found.open} == {"released.c:4", "released.c:14"}
    assert found.open["released.c:4", "flush_work(&rl->a_work)"][0] == {"rl_put_work"}


def test_a_c_file_that_is_included(drafted):
    """whole.c sees the static function of part.c; twin_a.c, which doesn't include it, would not."""
    assert drafted("whole.c", "part.c").flushes == {("flush whole_work whole_end", "part.c:4")}


def test_a_function_in_a_variable_outside_functions(drafted, wqsource, tmp_path):
    """hk_hook(h) and (*hk_other)(h) call what was put there; into hk_empty nothing was."""
    assert drafted("hook.c").open == {
        ("hook.c:8", "wait_for_completion(&h->done)"): ({"hk_work"}, {"hk_end"}),
        ("hook.c:13", "flush_work(&h->end_work)"): ({"hk_work"}, {"hk_end"}),
    }
    said = wqsource("draft", "--tree", C_FILES, "--cache", tmp_path, "hook.c").out
    assert "for no function of the files is known to stand there: *hk_empty\n" in said


def test_items_that_are_handed_on(read, wqsource, tmp_path):
    """The callers name what is queued, and some of them to which workqueue. What nobody calls queues nothing."""
    program = read(C_FILES, ["queuers.c"])
    found = {
        (item.function.name, program.workqueues.name(made), queueing.place.line, queueing.is_one_of_several)
        for item in program.items.items.values()
        for queueing in item.queueings
        for made in queueing.workqueues
    }
    assert found == {
        ("qu_first", "qu", 21, False),
        ("qu_second", "other", 28, False),
        ("qu_third", "qu", 38, False),
    }
    assert program.items.unknown_queueings == []


@pytest.mark.parametrize("files", [["inside.c"], ["inside.c", "inside.h"]])
def test_items_inside_a_struct_that_is_handed_on(drafted, read, files):
    """What holds one work_struct and is given to INIT_.._WORK is the item, and a pointer to it names it."""
    found = drafted(*files)
    assert found.items == {"in_found": {"disks"}, "in_lost": {"disks"}, "in_reset": {"events"}, "in_enable": {"events"}}
    assert found.flushes == {("flush in_reset in_enable", "inside.c:27")}
    items = read(C_FILES, files).items
    assert items.unknown_items == [] and items.unknown_queueings == []


@pytest.mark.parametrize("files", [["event.c"], ["event.c", "event.h"]])
def test_items_that_are_set_by_what_they_are_in(drafted, read, files):
    """INIT_SAS_EVENT is given the event, whose only member of such a struct is the item: also without its header."""
    found = drafted(*files)
    assert found.items == {"ev_found": {"events"}, "ev_lost": {"events"}, "ev_reset": {"events"}}
    assert found.flushes == {("flush ev_found ev_reset", "event.c:17")}
    items = read(C_FILES, files).items
    assert items.unknown_items == [] and items.unknown_queueings == []


def test_a_wait_in_a_helper(drafted):
    """Its callers' calls are the sites: each names what it waits for."""
    found = drafted("wrapper.c")
    assert found.flushes == {
        ("flush wr_first_work wr_read_work", "wrapper.c:16"),
        ("flush wr_second_work wr_written_work", "wrapper.c:23"),
    }
    assert found.open == {}


# What alloc_workqueue does with an unbound workqueue of one at a time: kernel/workqueue.c:4312 of 6.1.192, and what
# stands in its place in 6.12.117 (line 5723).
IMPLIED = """\
struct workqueue_struct *alloc_workqueue(const char *fmt, unsigned int flags, int max_active, ...)
{
	if ((flags & WQ_UNBOUND) && max_active == 1)
		flags |= __WQ_ORDERED;
}
"""
NOT_IMPLIED = """\
static struct workqueue_struct *__alloc_workqueue(const char *fmt, unsigned int flags, int max_active, va_list args)
{
	if ((flags & WQ_POWER_EFFICIENT) && wq_power_efficient)
		flags |= WQ_UNBOUND;
}
"""


@pytest.mark.parametrize("source,said", [(IMPLIED, "ordered"), (NOT_IMPLIED, "max_active 1")])
def test_an_unbound_workqueue_of_one_at_a_time(read, tmp_path, source, said):
    """In 6.1 it is ordered, in 6.12 only one that is made by alloc_ordered_workqueue or its like."""
    (tmp_path / "kernel").mkdir()
    (tmp_path / "kernel" / "workqueue.c").write_text(source)
    (tmp_path / "one.c").write_text(
        "int one_start(struct one *o)\n{\n"
        '\to->a = alloc_workqueue("a", WQ_UNBOUND | WQ_MEM_RECLAIM, 1);\n'
        '\to->b = alloc_ordered_workqueue("b", WQ_MEM_RECLAIM);\n'
        '\to->c = create_singlethread_workqueue("c");\n'
        '\to->d = create_freezable_workqueue("d");\n'
        '\to->e = alloc_workqueue("e", WQ_UNBOUND | WQ_MEM_RECLAIM, 2);\n'
        "\treturn 0;\n}\n"
    )
    workqueues = read(tmp_path, ["one.c"]).workqueues
    assert {workqueues.name(made): workqueues.flags(made).split(", ")[0] for made in workqueues.made} == {
        "a": said,
        "b": "ordered",
        "c": "ordered",
        "d": said,
        "e": "WQ_MEM_RECLAIM",
    }


def test_wait_queues_entered(drafted):
    """__add_wait_queue is a wait if the function sleeps after it, and else an entry whose function is called."""
    found = drafted("entered.c")
    assert found.open == {("entered.c:10,12", "__add_wait_queue(&e->wait)"): ({"en_sleeps"}, set())}
