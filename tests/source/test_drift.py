"""Faults with a fixed seed, each of which `drift` must tell, and changes of which it must tell the new numbers."""

import re
import shutil

import pytest

import faults
from conftest import C_FILES, ROOT
from csource.declaration import Declaration
from csource.drift import Drift

FILES = ["rdisk.c", "callback.c", "pool.c", "two_inits.c", "macro.c", "ops.c"]
SEED = 20261128

DECLARATION = """\
# files: rdisk.c callback.c pool.c two_inits.c macro.c ops.c
item send       # rdisk_send, set at rdisk.c:43 rdisk_start
item log        # rdisk_log, set at rdisk.c:44 rdisk_start
item reconnect  # rdisk_reconnect, set at rdisk.c:45 rdisk_start
flush send log        # done rdisk.c:9 rdisk_send: wait_for_completion, ended by rdisk_log (19)
flush reconnect send  # flush rdisk.c:27 rdisk_reconnect
# no wait: rdisk.c rdisk_log submit_bio_wait(rd->record): an interrupt ends it
item cb_work
item cb_other_work
flush cb_work cb_other_work  # flush callback.c:4 cb_sleeps, by callback.c:16 cb_work
item pool_take_work
item pool_give_work
flush pool_take_work pool_give_work  # pool pool.c:6 pool_take_work, an element comes back at pool.c:16 pool_give_work
item ti_first
item ti_second
flush ti_second ti_first  # flush two_inits.c:10 ti_second
item macro_work
item macro_ready_work
flush macro_work macro_ready_work  # done macro.c:2 macro_wait, at macro.c:12 macro_work, by macro.c:20 macro_ready_work
item ops_work
item ops_end_work
flush ops_work ops_end_work  # done ops.c:4 ops_stop, at ops.c:20 ops_work, by ops.c:27 ops_end_work
"""

# What the work functions reach, by reading. None of them queues or waits through others.
REACHED = [
    ("rdisk.c", "rdisk_send"),
    ("rdisk.c", "rdisk_log"),
    ("rdisk.c", "rdisk_reconnect"),
    ("callback.c", "cb_work"),
    ("callback.c", "cb_apply"),
    ("callback.c", "cb_sleeps"),
    ("pool.c", "pool_take_work"),
    ("pool.c", "pool_give_work"),
    ("two_inits.c", "ti_first"),
    ("two_inits.c", "ti_second"),
    ("macro.c", "macro_work"),
    ("ops.c", "ops_stop"),
    ("ops.c", "ops_work"),
    ("ops.c", "ops_end_work"),
]
UNREACHED = [
    ("rdisk.c", "rdisk_receive"),
    ("rdisk.c", "rdisk_start"),
    ("pool.c", "pool_wait_work"),
    ("two_inits.c", "ti_start"),
    ("ops.c", "ops_start"),
]


@pytest.fixture
def trees(tmp_path):
    """Two equal trees."""
    for name in ("old", "new"):
        (tmp_path / name).mkdir()
        for file in FILES:
            shutil.copy(
                ROOT / "examples" / "rdisk" / file if file == "rdisk.c" else C_FILES / file, tmp_path / name / file
            )
    return tmp_path / "old", tmp_path / "new"


@pytest.fixture
def compare(read):
    def compared(old, new):
        return Drift(Declaration.of("x.wq", DECLARATION), read(old, FILES), read(new, FILES))

    return compared


def cited_lines():
    return sorted({(one.file, one.line) for one in Declaration.of("x.wq", DECLARATION).citations})


def told(drift):
    """What became of each cited line: {(file, line): (what, new line)}."""
    return {(found.file, found.citation.line): (now.what, now.line) for found, now in drift.lines}


def test_the_declaration_cites_what_it_says():
    """The lines were copied by hand: they have the calls that the comments mean."""
    assert len(cited_lines()) == 17
    for (file, line), call in {
        ("rdisk.c", 9): "wait_for_completion",
        ("callback.c", 4): "flush_work",
        ("pool.c", 6): "mempool_alloc",
        ("two_inits.c", 10): "flush_work",
        ("ops.c", 27): "complete",
        ("macro.c", 20): "wake_up",
    }.items():
        path = ROOT / "examples" / "rdisk" / file if file == "rdisk.c" else C_FILES / file
        assert call in faults.lines_of(path)[line - 1]


def test_a_tree_against_itself_is_silent(trees, compare, wqsource, tmp_path):
    drift = compare(*trees)
    assert set(told(drift).values()) == {("same", line) for _, line in cited_lines()}
    assert drift.is_silent(after_writing=False)
    (tmp_path / "x.wq").write_text(DECLARATION)
    ran = wqsource("drift", "--decl", tmp_path / "x.wq", "--old", trees[0], "--new", trees[1])
    assert [line for line in ran.out.splitlines() if not line.startswith("# ")] == [] and ran.status == 0


@pytest.mark.parametrize("at", range(17))
def test_a_changed_line_is_told(trees, compare, at):
    file, line = cited_lines()[at]
    faults.change(trees[1] / file, line, faults.chosen(SEED + at))
    found = told(compare(*trees))
    assert found.pop((file, line))[0] in ("changed", "elsewhere", "gone")
    assert {what for what, _ in found.values()} == {"same"}


@pytest.mark.parametrize("at", range(17))
def test_a_deleted_line_is_told(trees, compare, at):
    file, line = cited_lines()[at]
    faults.delete(trees[1] / file, line)
    found = told(compare(*trees))
    assert found.pop((file, line))[0] in ("changed", "elsewhere", "gone")
    # those below it in this file have moved up
    assert found == {(f, n): (("moved", n - 1) if f == file and n > line else ("same", n)) for f, n in found}


@pytest.mark.parametrize("at", range(17))
def test_moved_lines_have_their_new_numbers(trees, compare, at):
    file, line = cited_lines()[at]
    random = faults.chosen(SEED - at)
    above, count = random.randint(1, line), random.randint(1, 30)
    faults.insert_above(trees[1] / file, above, count)
    assert told(compare(*trees)) == {
        (f, n): (("moved", n + count) if f == file and n >= above else ("same", n)) for f, n in cited_lines()
    }


@pytest.mark.parametrize("at", range(len(REACHED)))
def test_a_wait_that_is_added_in_reach_is_told(trees, compare, at):
    file, function = REACHED[at]
    call = faults.chosen(SEED + at).choice(
        [
            "flush_work(&x->new_work)",
            "wait_event(x->queue, x->ready)",
            "mempool_alloc(x->pool, GFP_NOIO)",
            "vfs_fsync(x->file, 1)",
            "flush_workqueue(x->wq)",
            "cancel_delayed_work_sync(&x->new_work)",
            "wait_for_completion(&x->done)",
        ]
    )
    faults.add_wait(trees[1] / file, function, call)
    drift = compare(*trees)
    assert [(change.wait.key.file, change.wait.key.function, change.wait.key.call) for change in drift.appeared] == [
        (file, function, call.partition("(")[0])
    ]
    assert not drift.vanished and not drift.is_silent(after_writing=True)
    # the other way round it is a wait that is gone
    back = compare(*reversed(trees))
    assert [change.wait.key.function for change in back.vanished] == [function] and not back.appeared


@pytest.mark.parametrize("file,function", UNREACHED)
def test_a_wait_out_of_reach_is_none(trees, compare, file, function):
    faults.add_wait(trees[1] / file, function, "flush_work(&x->new_work)")
    drift = compare(*trees)
    assert not drift.appeared and not drift.vanished


def test_equal_lines_keep_their_order(tmp_path, read):
    """Two equal lines in one function, and a third one above them: each keeps its number apart from that."""
    for name, extra in (("old", ""), ("new", "\tcancel_work_sync(&q->third_work);\n")):
        (tmp_path / name).mkdir()
        (tmp_path / name / "q.c").write_text(
            "static void q_work(struct work_struct *work)\n{\n"
            + extra
            + "\tcancel_work_sync(&q->io_work);\n\tq_stop(q);\n"
            "\tcancel_work_sync(&q->io_work);\n}\n\n"
            "static void q_init(struct q *q)\n{\n\tINIT_WORK(&q->work, q_work);\n}\n"
        )
    declaration = Declaration.of("q.wq", "item q_work\n# q.c:3 q_work, 5 q_work\n")
    found = told(Drift(declaration, read(tmp_path / "old", ["q.c"]), read(tmp_path / "new", ["q.c"])))
    assert found == {("q.c", 3): ("moved", 4), ("q.c", 5): ("moved", 6)}


def test_workqueues_and_items(trees, compare):
    """An item goes to another workqueue, a workqueue loses a flag, an item comes, an item goes."""
    path = trees[1] / "rdisk.c"
    text = path.read_text()
    text = text.replace("queue_work(rd->wq, &rd->log_work)", "queue_work(rd->log_wq, &rd->log_work)")
    text = text.replace(
        'rd->wq = alloc_workqueue("rdisk", WQ_MEM_RECLAIM, 0);',
        'rd->wq = alloc_workqueue("rdisk", 0, 0);\n\trd->log_wq = alloc_workqueue("log", WQ_MEM_RECLAIM, 0);\n'
        "\tINIT_WORK(&rd->new_work, rdisk_new);\n\tqueue_work(rd->wq, &rd->new_work);",
    )
    path.write_text(
        "static void rdisk_new(struct work_struct *work)\n{\n}\n" + text.replace("rdisk_reconnect", "rdisk_renamed")
    )
    drift = compare(*trees)
    assert drift.requeued() == [("log", {"rdisk"}, {"log"})]
    # (send is queued by rdisk_renamed still, so it is on rdisk)
    assert drift.changed_flags() == [("rdisk", "WQ_MEM_RECLAIM", "NO WQ_MEM_RECLAIM: no rescuer")]
    assert drift.lost_items() == ["reconnect"]
    assert {function.name for function, _ in drift.new_items()} == {"rdisk_new", "rdisk_renamed"}


def test_write_changes_numbers_and_nothing_else(trees, wqsource, tmp_path):
    """The kept decisions stay as they are, and the new text fits the new tree."""
    for number, file in enumerate(FILES, 1):
        faults.insert_above(trees[1] / file, 1, number)
    declaration = tmp_path / "x.wq"
    declaration.write_text(DECLARATION)
    ran = wqsource("drift", "--write", "--decl", declaration, "--old", trees[0], "--new", trees[1])
    # (long lines are folded, and how long one is depends on the folder's name)
    assert ran.status == 0 and " ".join(ran.out.split()).count(": moved to line ") == 17
    after = declaration.read_text()
    number = re.compile(r"(?<=:)\d+|(?<=\()\d+(?=\))")
    assert number.sub("N", after) == number.sub("N", DECLARATION)
    moved = {(one.file, one.line) for one in Declaration.of("x.wq", after).citations}
    assert moved == {(file, line + FILES.index(file) + 1) for file, line in cited_lines()}
    ran = wqsource("drift", "--decl", declaration, "--old", trees[1], "--new", trees[1])
    assert ran.status == 0 and "17 cited lines: 17 same" in ran.out
    old = wqsource("audit", "--decl", tmp_path / "x.wq", "--tree", trees[1])
    assert "1 dismissed" in old.out


def test_a_dismissal_whose_call_is_gone_is_told(trees, wqsource, tmp_path):
    declaration = tmp_path / "x.wq"
    declaration.write_text(DECLARATION)
    path = trees[1] / "rdisk.c"
    path.write_text(path.read_text().replace("submit_bio_wait(rd->record)", "submit_bio_wait(rd->other)"))
    ran = wqsource("drift", "--decl", declaration, "--old", trees[0], "--new", trees[1])
    assert f"{declaration}:7: dismisses rdisk.c rdisk_log submit_bio_wait(rd->record), which is gone" in re.sub(
        r"\n +", " ", ran.out
    )
    assert ran.status == 1


def test_what_is_not_looked_into_is_not_compared(trees, wqsource, tmp_path):
    """`# not through:` holds in both trees; a function that is gone is told."""
    path = trees[1] / "callback.c"
    path.write_text(path.read_text().replace("\tflush_work(", "\tsubmit_bio_wait(c->bio);\n\tflush_work(", 1))
    path = trees[1] / "pool.c"
    path.write_text(path.read_text().replace("pool_wait_work", "pool_late_work"))
    declaration = tmp_path / "x.wq"
    declaration.write_text(DECLARATION)
    ran = wqsource("drift", "--decl", declaration, "--old", trees[0], "--new", trees[1])
    assert "new wait: callback.c:4 cb_sleeps: submit_bio_wait(c->bio)" in ran.out
    closed = "# not through: callback.c cb_sleeps: a test\n# not through: pool.c pool_wait_work: a test\n"
    declaration.write_text(DECLARATION + closed)
    ran = wqsource("drift", "--decl", declaration, "--old", trees[0], "--new", trees[1])
    assert "new wait:" not in ran.out and "wait gone:" not in ran.out
    number = DECLARATION.count("\n") + 2
    assert f"{declaration}:{number}: pool_wait_work is gone" in re.sub(r"\n +", " ", ran.out)


def test_a_line_in_no_function_that_was_parsed(tmp_path, read):
    """A macro makes the function in the new tree: the line is there, and its function isn't known."""
    for name, head in (("old", "static void hd_work(struct work_struct *ws)"), ("new", "HD_CALLBACK(hd_work)[]=")):
        (tmp_path / name).mkdir()
        (tmp_path / name / "h.c").write_text(
            head + "\n{\n\twait_for_completion(&hd.answer_of_the_disk);\n}\n\n"
            "void hd_init(struct hd *h)\n{\n\tINIT_WORK(&h->work, hd_work);\n}\n"
        )
    declaration = Declaration.of("h.wq", "item hd_work\n# h.c:3 hd_work\n")
    drift = Drift(declaration, read(tmp_path / "old", ["h.c"]), read(tmp_path / "new", ["h.c"]))
    assert [(now.what, now.text) for _, now in drift.lines] == [
        ("elsewhere", "the same line is at h.c:3, outside any function that could be parsed")
    ]


@pytest.mark.parametrize(
    "new,named",
    [
        ("static HD_CALLBACK(hd_work)\n{\n}\n\nvoid hd_init(void)\n{\n\tINIT_WORK(&hd, hd_work);\n}\n", "h.c:1"),
        ("/* hd_work was here */\nvoid hd_init(void)\n{\n}\n", ""),
    ],
)
def test_a_work_function_that_is_not_found_again(tmp_path, read, new, named):
    """What the new tree still names isn't gone."""
    old = "static void hd_work(struct work_struct *ws)\n{\n}\n\nvoid hd_init(void)\n{\n\tINIT_WORK(&hd, hd_work);\n}\n"
    for name, text in (("old", old), ("new", new)):
        (tmp_path / name).mkdir()
        (tmp_path / name / "h.c").write_text(text)
    drift = Drift(
        Declaration.of("h.wq", "item hd_work\n"), *(read(tmp_path / name, ["h.c"]) for name in ("old", "new"))
    )
    assert drift.lost_items() == ["hd_work"] and drift.named_at("hd_work") == named


def test_a_wait_that_is_gone(trees, wqsource, tmp_path):
    """Its name may be another one now: the output says so."""
    declaration = tmp_path / "x.wq"
    declaration.write_text(DECLARATION)
    path = trees[1] / "rdisk.c"
    path.write_text(path.read_text().replace("submit_bio_wait(rd->record)", "rdisk_own_call(rd->record)"))
    ran = wqsource("drift", "--decl", declaration, "--old", trees[0], "--new", trees[1])
    assert "wait gone: rdisk.c:18 rdisk_log: submit_bio_wait(rd->record)  [other]" in ran.out
    assert "# A wait is gone, or it is made by a name now that waits.txt hasn't.\n" in ran.out
