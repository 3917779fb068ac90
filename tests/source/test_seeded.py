"""Mistakes in a declaration, and changes of a driver, each of which `audit` or `drift` must tell."""

import io

import pytest

from csource import audit, audit_text, drift, drift_text
from csource.declaration import Declaration

SOURCE = """\
static void sd_wait(struct sd *s)
{
	wait_for_completion(&s->logged);
}

static void sd_log(struct work_struct *work)
{
	struct sd *s = container_of(work, struct sd, log_work);

	complete(&s->logged);
}

static void sd_send(struct work_struct *work)
{
	struct sd *s = container_of(work, struct sd, send_work);

	sd_wait(s);
}

static void sd_retry(struct work_struct *work)
{
	struct sd *s = container_of(work, struct sd, retry_work);

	flush_work(&s->send_work);
	sd_wait(s);
}

void sd_start(struct sd *s)
{
	s->wq = alloc_workqueue("sd", WQ_MEM_RECLAIM, 0);
	s->log_wq = alloc_workqueue("sd_log", WQ_MEM_RECLAIM, 0);
	INIT_WORK(&s->log_work, sd_log);
	INIT_WORK(&s->send_work, sd_send);
	INIT_WORK(&s->retry_work, sd_retry);
	queue_work(s->log_wq, &s->log_work);
	queue_work(s->wq, &s->send_work);
	queue_work(s->wq, &s->retry_work);
}
"""
DECLARED = """\
item sd_log    # queued to sd_log
item sd_send   # queued to sd
item sd_retry  # queued to sd
flush sd_send sd_log    # done sd.c:3 sd_wait
flush sd_retry sd_send  # flush sd.c:24 sd_retry
flush sd_retry sd_log   # done sd.c:3 sd_wait
"""

# What is changed in the declaration, from what to what, and what `audit --each-item` has to say
IN_DECLARATION = {
    "a line that is gone while another item's cites its site": (
        "flush sd_retry sd_log   # done sd.c:3 sd_wait\n",
        "",
        "left, cited for other items: sd.c:3 sd_wait",
    ),
    "a line that is gone": ("flush sd_retry sd_send  # flush sd.c:24 sd_retry\n", "", "left: sd.c:24 sd_retry"),
    "a line that is only offered": ("flush sd_retry sd_send", "#flush sd_retry sd_send", "left: sd.c:24 sd_retry"),
    "a wrong workqueue": (
        "sd_send   # queued to sd\n",
        "sd_send   # queued to sd_log\n",
        "isn't queued to sd_log, but to sd",
    ),
    "a renamed item": ("sd_send", "sd_sent", "item sd_sent: neither its name nor its comment"),
    "another function": ("sd.c:24 sd_retry", "sd.c:24 sd_send", "the line is in sd_retry"),
    "another line": ("sd.c:24", "sd.c:34", "left: sd.c:24 sd_retry"),
    "a line behind the end": ("sd.c:24 sd_retry", "sd.c:240", "the file has 38 lines"),
    "an item that isn't declared any more": (
        "item sd_retry  # queued to sd\nflush sd_send",
        "flush sd_send",
        "not declared, on the workqueue of a declared item: sd_retry",
    ),
    "a call that is dismissed and isn't there": (
        "item sd_log ",
        "# no wait: sd.c sd_send sd_wait(other): a test\nitem sd_log ",
        "which isn't in reach",
    ),
}
# What is changed in the driver, and what `drift` has to say
IN_DRIVER = {
    "another workqueue": (
        "queue_work(s->wq, &s->send_work)",
        "queue_work(s->log_wq, &s->send_work)",
        "item sd_send: was queued to sd, now to sd_log",
    ),
    "no rescuer": (
        '("sd", WQ_MEM_RECLAIM, 0)',
        '("sd", 0, 0)',
        "workqueue sd: was WQ_MEM_RECLAIM; is NO WQ_MEM_RECLAIM",
    ),
    "a renamed work function": ("sd_send(", "sd_submit(", "item sd_send: its work function"),
    "one more wait": (
        "\tcomplete(&s->logged);\n",
        "\tcomplete(&s->logged);\n\tflush_work(&s->retry_work);\n",
        "new wait: sd.c:11 sd_log: flush_work(&s->retry_work)",
    ),
    "a wait that is gone": ("\tflush_work(&s->send_work);\n", "", "wait gone: sd.c:24 sd_retry"),
    "one more item": (
        "void sd_start(struct sd *s)\n{\n",
        "static void sd_more(struct work_struct *work)\n{\n}\n\nvoid sd_start(struct sd *s)\n{\n"
        "\tINIT_WORK(&s->more_work, sd_more);\n\tqueue_work(s->wq, &s->more_work);\n",
        "new item: sd_more (sd.c), queued to sd",
    ),
}


def changed(text, before, after):
    """The text with all of one in place of the other, which is there."""
    assert before in text
    return text.replace(before, after)


@pytest.fixture
def tree(tmp_path):
    """tree(name, text): a folder with the driver."""

    def make(name, text):
        (tmp_path / name).mkdir()
        (tmp_path / name / "sd.c").write_text(text)
        return tmp_path / name

    return make


def audited(program, text):
    """What `audit --each-item` prints, and whether nothing is left."""
    found, said = audit.Audit(Declaration.of("sd.wq", text), program, each_item=True), io.StringIO()
    audit_text.Printer(found, said).print()
    return " ".join(said.getvalue().split()), found.is_done


def drifted(old, new, text):
    """What `drift` prints, and whether it is silent."""
    found, said = drift.Drift(Declaration.of("sd.wq", text), old, new), io.StringIO()
    drift_text.Printer(found, said).print()
    return " ".join(said.getvalue().split()), found.is_silent(after_writing=False)


def test_without_a_mistake(tree, read):
    program = read(tree("old", SOURCE), ["sd.c"])
    said, is_done = audited(program, DECLARED)
    assert is_done and "left" not in said.replace("0 left", "").replace("0 cited sites left", "")
    assert drifted(program, program, DECLARED)[1]


@pytest.mark.parametrize("mistake", IN_DECLARATION)
def test_a_mistake_in_the_declaration(tree, read, mistake):
    before, after, told = IN_DECLARATION[mistake]
    said, is_done = audited(read(tree("old", SOURCE), ["sd.c"]), changed(DECLARED, before, after))
    assert told in said and not is_done


@pytest.mark.parametrize("change", IN_DRIVER)
def test_a_change_of_the_driver(tree, read, change):
    before, after, told = IN_DRIVER[change]
    new = tree("new", changed(SOURCE, before, after))
    said, is_silent = drifted(read(tree("old", SOURCE), ["sd.c"]), read(new, ["sd.c"]), DECLARED)
    assert told in said and not is_silent
