"""What was lost once, or taken for something else: names, flags, types, arguments. What is expected was read off the C."""

import os
import shutil

import pytest

from conftest import C_FILES, ROOT

RDISK = ROOT / "examples" / "rdisk"


# Workqueues


def lines_of(path):
    """The lines of a text that aren't comments, without their comments."""
    return [line.partition("#")[0].strip() for line in path.read_text().splitlines() if not line.startswith("#")]


def test_several_names_and_a_call_on_the_next_line(wqsource, drafted, tmp_path):
    """several.c:17 assigns the first of two variables of one declaration, and 18 begins what 19 calls."""
    assert drafted("several.c").items == {"sv_work": {"first"}, "sv_next_work": {"next"}}
    out = tmp_path / "out.assign"
    assert wqsource("draft", "--assign", out, "--tree", C_FILES, "several.c").status == 0
    assert lines_of(out) == ["wq 0 sv_work", "norescuer 1 sv_next_work"]
    assert "next, several.c:19 sv_start, NO WQ_MEM_RECLAIM" in out.read_text()


def test_work_that_runs_on_no_workqueue(drafted):
    """A task runs what init_task_work sets, and an interrupt what init_irq_work sets: the latter ends the wait."""
    found = drafted("task_work.c")
    assert found.items == {"tw_work": {"tw"}} and found.flushes == set()
    assert found.open == {("task_work.c:6", "wait_for_completion(&t->done)"): ({"tw_work"}, set())}


def test_whether_there_is_a_rescuer(read):
    """True and False only where each way says so."""
    workqueues = read(C_FILES, ["flags.c"]).workqueues
    assert {workqueues.name(made): workqueues.has_rescuer(made) for made in workqueues.made} == {
        "always": True,
        "sometimes": None,
        "given": None,
        "macro": True,
        "far": None,
        "perhaps": None,
        "bh": True,
        "never": False,
        "old": True,
        "more": False,
        "most": True,
        "kept": None,
        "one": False,
        "two": True,
    }
    for name, has_one in (("system_wq", False), ("system_bh_wq", True), ("kblockd", True), ("a_stranger", None)):
        assert workqueues.has_rescuer(name) is has_one


def test_flags_that_are_not_known(wqsource, tmp_path):
    """Neither `wq` nor `norescuer`: a reader decides."""
    (tmp_path / "g.c").write_text(
        "static void g_work(struct work_struct *work)\n{\n}\n\nvoid g_start(struct g *g, int flags)\n{\n"
        '\tg->wq = alloc_workqueue("g", flags, 0);\n\tINIT_WORK(&g->work, g_work);\n\tqueue_work(g->wq, &g->work);\n}\n'
    )
    out = tmp_path / "out.assign"
    assert wqsource("draft", "--assign", out, "--tree", tmp_path, "g.c").status == 0
    assert lines_of(out) == ["? wq 0 g_work"]
    (tmp_path / "g.wq").write_text("item g_work\n")
    said = wqsource("audit", "--decl", tmp_path / "g.wq", "--tree", tmp_path, "g.c").out
    assert "workqueues of which it isn't known whether they have a rescuer: g (g.c:7 g_start)" in said


def test_softirqs_execute_the_items_of_wq_bh(read):
    workqueues = read(C_FILES, ["flags.c"]).workqueues
    flags = {workqueues.name(made): workqueues.flags(made) for made in workqueues.made}
    assert flags["bh"] == "WQ_BH: softirqs execute its items" and "NO WQ_MEM_RECLAIM" in flags["never"]


def test_a_name_made_of_parts(read, tmp_path):
    """As drivers/md/dm-thin.c: "dm-" DM_MSG_PREFIX. If the macro isn't there, the variable says which it is."""
    for head, name in (('#define PREFIX "thin"\n', "dm-thin"), ("", "n->wq")):
        (tmp_path / "n.c").write_text(
            head + 'void n_start(struct n *n)\n{\n\tn->wq = alloc_workqueue("dm-" PREFIX, WQ_MEM_RECLAIM, 0);\n}\n'
        )
        workqueues = read(tmp_path, ["n.c"]).workqueues
        assert [workqueues.name(made) for made in workqueues.made] == [name]


# Items


def test_the_work_of_a_delayed_work(drafted):
    """poll is a delayed_work, so poll.work is its item; io is a struct of the driver, whose work is another item."""
    found = drafted("delayed.c")
    assert found.items == {"dw_poll": {"dw"}, "dw_io": {"dw"}, "dw_end": set()}
    assert found.flushes == {("flush dw_end dw_poll", "delayed.c:23"), ("flush dw_end dw_io", "delayed.c:24")}
    assert found.open == {}


@pytest.mark.parametrize("files", [("typed.c", "typed.h"), ("typed.c",)])
def test_a_type_from_its_definition(drafted, files):
    """call->type->work is of ty_type. That the file shows one struct with a `work` (ty_call) says nothing. The header is
    read for its structs though it isn't given."""
    assert drafted(*files).items == {"ty_first": {"ty"}, "ty_second": {"ty"}, "ty_third": {"ty"}}


def test_initialisers(read, tmp_path):
    """In arrays, nested, in compound literals, by place, with & and casts; a head of a function is none."""
    (tmp_path / "i.c").write_text(
        "struct ops { int n; void (*a)(void); struct { void (*b)(void); } sub; void (*many[2])(void); };\n"
        "static struct ops one = { .a = f1, .sub = { .b = f2 }, .many = { f3, &f4 } };\n"
        "static struct ops some[] = { [3] = { .a = (void *)f5 }, { 7, f6 } };\n"
        "static void (*table[])(void) = { f7, [2] = f8 };\n"
        "int head(struct ops *o)\n{\n\tuse(&(struct ops){ .sub.b = f9 });\n\treturn 0;\n}\n"
    )
    facts = read(tmp_path, ["i.c"]).facts
    assert {(one.struct, one.member, one.name) for one in facts.initialisers if one.name} == {
        ("ops", "a", "f1"),
        ("ops.sub", "b", "f2"),
        ("ops", "many", "f3"),
        ("ops", "many", "f4"),
        ("ops", "a", "f5"),
        ("ops", "a", "f6"),
        ("ops.sub", "b", "f9"),
    }
    assert [(left, right) for _, left, right in facts.assignments] == [(["table"], ["f7"]), (["table"], ["f8"])]


def test_declared_by_an_initialiser(drafted, tmp_path):
    """__WORK_INITIALIZER and its like make items, too."""
    (tmp_path / "w.c").write_text(
        "static void w_work(struct work_struct *work)\n{\n}\n\n"
        "static struct work_struct w_item = __WORK_INITIALIZER(w_item, w_work);\n\n"
        "void w_go(void)\n{\n\tschedule_work(&w_item);\n}\n"
    )
    assert drafted("w.c", tree=tmp_path).items == {"w_work": {"system_wq"}}


def test_a_variable_that_a_macro_declares(drafted, tmp_path):
    """As HISI_SAS_DECLARE_RST_WORK_ON_STACK: its `work` is that of its struct, and of no other one. The item stands in
    another macro, which the first one hands the variable."""
    (tmp_path / "m.h").write_text(
        "struct rst {\n\tstruct completion *done;\n\tstruct work_struct work;\n};\n\n"
        "#define RST_INIT(r, c) { \\\n\t.done = &c, \\\n\t.work = __WORK_INITIALIZER(r.work, m_reset), \\\n}\n\n"
        "#define RST_ON_STACK(x) \\\n\tDECLARE_COMPLETION_ONSTACK(c); \\\n\tstruct rst x = RST_INIT(x, c)\n"
    )
    (tmp_path / "m.c").write_text(
        '#include "m.h"\n\nstruct event {\n\tstruct work_struct work;\n};\n\n'
        "void m_reset(struct work_struct *work)\n{\n}\n\nstatic void m_event(struct work_struct *work)\n{\n}\n\n"
        'void m_start(struct m *m)\n{\n\tm->own = alloc_workqueue("own", 0, 0);\n'
        '\tm->events = alloc_workqueue("events", 0, 0);\n}\n\n'
        "void m_clear(struct m *m)\n{\n\tRST_ON_STACK(r);\n\n\tqueue_work(m->own, &r.work);\n}\n\n"
        "void m_tell(struct m *m, struct event *event)\n{\n\tINIT_WORK(&event->work, m_event);\n"
        "\tqueue_work(m->events, &event->work);\n}\n"
    )
    assert drafted("m.c", "m.h", tree=tmp_path).items == {"m_reset": {"own"}, "m_event": {"events"}}


LOST = """\
static void l_work(struct work_struct *work)
{
}

void l_start(struct l *l)
{
	l->wq = alloc_workqueue("l", WQ_MEM_RECLAIM, 0);
	l->idle_wq = alloc_workqueue("idle", WQ_MEM_RECLAIM, 0);
	INIT_WORK(&l->work, l_work);
	INIT_WORK(&l->far_work, l_far_work);
	queue_work(l->wq, &l->work);
	queue_work(l->wq, &l->strange->odd);
	queue_work(l->idle_wq, &l->strange->idle);
}
"""


def test_what_is_not_known_is_told_by_audit(wqsource, tmp_path):
    """An item without its function and a queueing without its item are left; the rest is said."""
    (tmp_path / "l.c").write_text(LOST)
    declared = tmp_path / "l.wq"
    declared.write_text("item l_work\n")
    ran = wqsource("audit", "--decl", declared, "--tree", tmp_path, "l.c")
    told = ran.out.splitlines()
    assert ran.status == 1
    at = told.index(
        "item not known: l.c:10 l_start: INIT_WORK(&l->far_work, l_far_work): its function isn't in these files"
    )
    assert told[at + 1] == "  # no item: l.c l_start: "
    assert "item not known: l.c:12 l_start: queue_work(l->wq, &l->strange->odd): what is queued isn't known" in told
    assert "what is queued to other workqueues isn't known: l.c:13 l_start" in told
    assert "workqueues without any item that is known: idle (l.c:8 l_start)" in told
    declared.write_text("item l_work\n# no item: l.c l_start: a test\n")
    ran = wqsource("audit", "--decl", declared, "--tree", tmp_path, "l.c")
    assert ran.status == 0 and "item not known" not in ran.out


def test_what_is_not_known_is_told_by_draft(wqsource, tmp_path):
    (tmp_path / "l.c").write_text(LOST)
    out = tmp_path / "out.assign"
    said = wqsource("draft", "--assign", out, "--tree", tmp_path, "l.c").out
    assert "? item l.c:10 l_start: INIT_WORK(&l->far_work, l_far_work): its function isn't in these files" in said
    assert "? queue l.c:13 l_start: queue_work(l->idle_wq, &l->strange->idle): what is queued isn't known" in said
    assert "idle (l.c:8 l_start)" in out.read_text()


# Arguments


@pytest.fixture
def folder(tmp_path):
    """A folder with the guide's driver, its declaration, and names that lead astray."""
    for name in ("rdisk.c", "rdisk.wq"):
        shutil.copy(RDISK / name, tmp_path / name)
    (tmp_path / "sub").mkdir()
    (tmp_path / "my disk.c").write_text("int x;\n")
    (tmp_path / "mine.assign").write_text("wq 0 send\n")
    (tmp_path / "link.assign").symlink_to("rdisk.c")
    (tmp_path / "none.wq").write_text("# nothing yet\n")
    (tmp_path / "colon.wq").write_text(
        (RDISK / "rdisk.wq").read_text() + "#no wait rdisk.c rdisk_log submit_bio_wait(rd->record): an interrupt\n"
    )
    return tmp_path


@pytest.mark.parametrize(
    "words,said",
    [
        (("draft", "--assign", "rdisk.c", "rdisk.c"), "rdisk.c: an output isn't a C file"),
        (("draft", "--force", "--assign", "new.h", "rdisk.c"), "new.h: an output isn't a C file"),
        (("draft", "--force", "--assign", "link.assign", "rdisk.c"), "link.assign: it is read, so it isn't overwritten"),
        (
            ("draft", "--assign", "mine.assign", "rdisk.c"),
            "mine.assign: it exists, and `wqsource` didn't write it; `--force` overwrites it",
        ),
        (("draft", "--assign", "sub", "rdisk.c"), "sub: a folder"),
        (("draft", "rdisk.c", "nothing*.c"), "nothing*.c: matches no file in ."),
        (("draft", "sub"), "sub: a folder: write 'sub/*.c'"),
        (("draft", "my disk.c"), "my disk.c: a `# files:` line can't name a file with a blank in its name"),
        (("draft", "--only", "rdisk_send", "rdisk.c"), "rdisk.c was taken for a function: write `--` before the files"),
        (("audit", "--decl", "rdisk.wq", "nothing*.c", "rdisk.c"), "nothing*.c: matches no file in ."),
        (("audit", "--decl", "rdisk.c", "rdisk.wq"), "rdisk.c: it declares no item: is this the right file?"),
        (("audit", "--decl", "none.wq", "rdisk.c"), "none.wq: it declares no item: is this the right file?"),
        (("audit", "--decl", "rdisk.wq", "rdisk.wq"), "rdisk.wq: no C file: its name ends with none of .c .h .S"),
        (("audit", "--decl", "colon.wq", "rdisk.c"), "colon.wq:8: `# no wait` without its colon: write `# no wait: ..`"),
        (("draft", "--assign", "no/new.assign", "rdisk.c"), "no/new.assign: no is no folder"),
        (("draft", "--cache", "rdisk.c", "rdisk.c"), "not a directory"),
        (("audit", "--decl", "nosuch.wq", "rdisk.c"), "nosuch.wq: no such file or directory"),
        (("audit", "--decl", "rdisk.wq", "--tree", "sub", RDISK / "rdisk.c"), "rdisk.c: not below sub: is it of"),
        (("drift", "--decl", "rdisk.c", "--old", ".", "--new", ".", "rdisk.c"), "rdisk.c: it declares no item"),
        (("drift", "--decl", "rdisk.wq", "--old", ".", "--new", ".", "no*.c"), "no*.c: matches no file in ."),
    ],
)
def test_faults(wqsource, folder, words, said):
    """Told as what they are, with status 3; nothing is written."""
    before = {path.name: path.read_bytes() for path in folder.iterdir() if path.is_file()}
    ran = wqsource(*words, cwd=folder)
    assert ran.status == 3 and ran.err.startswith("wqsource: ") and said in ran.err and ran.out == ""
    assert {path.name: path.read_bytes() for path in folder.iterdir() if path.is_file()} == before


def test_a_former_draft_is_overwritten(wqsource, folder):
    for words in (("--assign", "new.assign"), ("--assign", "new.assign"), ("--force", "--assign", "mine.assign")):
        assert wqsource("draft", *words, "rdisk.c", cwd=folder).status == 0
    assert lines_of(folder / "mine.assign") == lines_of(folder / "new.assign") != ["wq 0 send"]


def test_a_draft_that_was_changed_by_hand(wqsource, folder):
    """It isn't overwritten, unless --force says so; nor is one of which nothing says whether it was changed."""
    out = folder / "new.assign"
    assert wqsource("draft", "--assign", out, "rdisk.c", cwd=folder).status == 0
    drafted = out.read_text()
    without_sum = "".join(line for line in drafted.splitlines(True) if not line.startswith("# drafted: "))
    assert without_sum != drafted
    for changed in (drafted.replace("wq 0", "wq 1"), drafted + "# read\n", without_sum):
        out.write_text(changed)
        ran = wqsource("draft", "--assign", out, "rdisk.c", cwd=folder)
        assert ran.status == 3 and "a former draft that was changed since; `--force` overwrites it" in ran.err
        assert ran.out == "" and out.read_text() == changed
    assert wqsource("draft", "--force", "--assign", out, "rdisk.c", cwd=folder).status == 0
    assert out.read_text() == drafted


# The same text


@pytest.mark.parametrize("files", [("many.c",), ("again.c", "ops.c", "kref.c", "released.c", "callback.c", "typed.c")])
def test_the_same_text_each_time(wqsource, tmp_path, files):
    """Python gives sets another order in each run, unless it is told not to. many.c has five items that end one wait."""
    texts = set()
    declared = tmp_path / "x.wq"
    for seed in ("0", "1", "2", "3", "4"):
        env = {**os.environ, "PYTHONHASHSEED": seed}
        out = tmp_path / f"{seed}.assign"
        drafted = wqsource("draft", "--assign", out, "--tree", C_FILES, *files, env=env)
        assert drafted.status == 0
        if not declared.exists():
            declared.write_text("".join(line for line in drafted.out.splitlines(True) if line.startswith("item")))
        audited = wqsource("audit", "--paths", "--decl", declared, "--tree", C_FILES, *files, env=env)
        assert audited.status == 1
        texts.add((drafted.out, out.read_text(), audited.out))
    assert len(texts) == 1
