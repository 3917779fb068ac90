"""What `audit` leaves, and what decides it. The driver is rdisk.c of the guide, or a small C file."""

import re

import pytest

from conftest import C_FILES, ROOT

RDISK = ROOT / "examples" / "rdisk"
DECIDED = (RDISK / "rdisk.wq").read_text() + "# no wait: rdisk.c rdisk_log submit_bio_wait(rd->record): an interrupt\n"


@pytest.fixture
def audit(wqsource, tmp_path):
    """audit(text, files): the lines that aren't comments, continued ones in one, and the status."""

    def audited(text, *files, tree=RDISK, words=()):
        (tmp_path / "x.wq").write_text(text)
        ran = wqsource("audit", "--decl", tmp_path / "x.wq", "--tree", tree, *words, *files)
        # (after two seconds it says how far it is)
        assert all(line.startswith(("wqsource: reading", "wqsource: putting")) for line in ran.err.splitlines())
        said = re.sub(r"\n {4,}", " ", ran.out.replace(f"{tmp_path}/", ""))
        return said.splitlines(), ran.status

    return audited


def those(said, word):
    return [line for line in said if line.startswith(word)]


def test_nothing_left(audit):
    said, status = audit(DECIDED, "rdisk.c")
    assert status == 0 and not those(said, "left")
    assert "3 sites in reach: 2 cited, 1 dismissed, 0 left." in " ".join(line.removeprefix("# ") for line in said)


def test_a_wait_that_no_line_cites_is_left(audit):
    """With the way there, what it waits for, and the line that would dismiss it."""
    said, status = audit(DECIDED.replace("# rdisk.c:27 rdisk_reconnect: flush_work", ""), "rdisk.c")
    assert status == 1
    at = said.index("left: rdisk.c:27 rdisk_reconnect: flush_work(&rd->send_work)  [flush]")
    assert said[at + 1 : at + 4] == [
        "  in reach of reconnect",
        "  waits for send",
        "  # no wait: rdisk.c rdisk_reconnect flush_work(&rd->send_work): ",
    ]


def test_a_dismissal_is_kept_by_function_and_call(audit, tmp_path):
    """Lines that move don't matter to it; another call does, and then it is told."""
    text = (RDISK / "rdisk.c").read_text()
    (tmp_path / "rdisk.c").write_text("\n\n\n" + text)
    moved = re.sub(r"rdisk\.c:(\d+)", lambda match: f"rdisk.c:{int(match[1]) + 3}", DECIDED)
    said, status = audit(moved, "rdisk.c", tree=tmp_path)
    assert status == 0
    (tmp_path / "rdisk.c").write_text(text.replace("submit_bio_wait(rd->record)", "submit_bio_wait(rd->bio)"))
    said, status = audit(DECIDED, "rdisk.c", tree=tmp_path)
    assert status == 1
    assert those(said, "left") == ["left: rdisk.c:18 rdisk_log: submit_bio_wait(rd->bio)  [other]"]
    assert those(said, "x.wq") == [
        "x.wq:8: dismisses rdisk.c rdisk_log submit_bio_wait(rd->record), which isn't in reach"
    ]


def test_a_dismissed_call_is_not_followed(audit):
    """cb_work gets to the flush by cb_apply alone: to dismiss that call is to dismiss what it leads to."""
    items = "item cb_work\nitem cb_other_work\n"
    said, status = audit(items, "callback.c", tree=C_FILES)
    assert those(said, "left") == ["left: callback.c:4 cb_sleeps: flush_work(&c->other_work)  [flush]"] and status == 1
    assert "  in reach of cb_work, by cb_work:16 > cb_apply:9 *call" in said
    said, status = audit(
        items + "# no wait: callback.c cb_work cb_apply(c): it is never taken\n", "callback.c", tree=C_FILES
    )
    assert not those(said, "left") and status == 0


def test_citations_that_do_not_fit(audit):
    text = DECIDED.replace("rdisk.c:27 rdisk_reconnect", "rdisk.c:9 rdisk_reconnect")
    said, status = audit(text, "rdisk.c")
    assert those(said, "x.wq") == ["x.wq:7: cites rdisk.c:9 rdisk_reconnect: the line is in rdisk_send"] and status == 1
    for line, why in (("900", "the file has 56 lines"), ("2", "the line is empty")):
        said, status = audit(DECIDED + f"# rdisk.c:{line}\n", "rdisk.c")
        assert those(said, "x.wq") == [f"x.wq:9: cites rdisk.c:{line}: {why}"] and status == 1
    said, status = audit(DECIDED + "# other.c:7 f\n", "rdisk.c")
    assert "cited, but not among the files: other.c" in said and status == 0


def test_a_file_name_that_two_files_have(audit, tmp_path):
    for folder in ("a", "b"):
        (tmp_path / folder).mkdir()
        (tmp_path / folder / "x.c").write_text(
            f"static void {folder}_work(struct work_struct *work)\n{{\n\tflush_work(&{folder}.other);\n}}\n\n"
            f"void {folder}_init(void)\n{{\n\tINIT_WORK(&{folder}.work, {folder}_work);\n}}\n"
        )
    files = ("a/x.c", "b/x.c")
    said, status = audit("item a_work\n# x.c:3\n", *files, tree=tmp_path)
    assert those(said, "x.wq") == ["x.wq:2: cites x.c:3, which may be any of a/x.c b/x.c"] and status == 1
    # the function tells them apart, and so does the folder that a comment names
    for cited in ("# x.c:3 a_work\n", "# The files stand in a. x.c:3\n", "# a/x.c:3\n"):
        said, status = audit("item a_work\n" + cited, *files, tree=tmp_path)
        assert not those(said, "left") and not those(said, "x.wq") and status == 0, cited


def test_items(audit):
    """An item is its name, or the first work function of its comment; `.lower` and `.upper` are one function."""
    for text in (
        "item ti_second\n",
        "item b  # ti_second\n",
        "item ti_second.lower\nitem ti_second.upper\n",
        "item x.lower  # ti_second\nitem x.upper\n",
    ):
        said, status = audit(text, "two_inits.c", tree=C_FILES)
        assert those(said, "left") == ["left: two_inits.c:10 ti_second: flush_work(&t->first_work)  [flush]"]
        assert status == 1
    said, status = audit("item nobody  # ti_start\n", "two_inits.c", tree=C_FILES)
    assert those(said, "x.wq")[0].startswith(
        "x.wq:1: item nobody: neither its name nor its comment names a work function"
    )
    assert status == 1


def test_an_item_beside_a_declared_one(audit, tmp_path):
    """On a declared item's workqueue, and it waits: left, until a line dismisses it."""
    text = (RDISK / "rdisk.c").read_text()
    without = "\n".join(line for line in DECIDED.split("\n") if "reconnect" not in line)
    said, status = audit(without, "rdisk.c")
    assert (
        "not declared, on the workqueue of a declared item: rdisk_reconnect (rdisk.c), on rdisk, reaches 1 site" in said
    )
    assert "not declared, on other workqueues: " not in "".join(said) and status == 1
    said, status = audit(without + "# no item: rdisk.c rdisk_reconnect: it is never queued\n", "rdisk.c")
    assert not those(said, "not declared, on the workqueue") and status == 0
    # one that doesn't wait needs no decision
    (tmp_path / "rdisk.c").write_text(text.replace("\tflush_work(&rd->send_work);\n", "\n"))
    said, status = audit(without, "rdisk.c", tree=tmp_path)
    assert (
        "not declared, on the workqueue of a declared item: rdisk_reconnect (rdisk.c), on rdisk, reaches no site"
        in said
    )
    assert status == 0


def test_a_cited_site_that_other_items_reach(audit):
    """To look at, and nothing that is left: here receive calls nothing that waits."""
    said, status = audit(DECIDED.replace("flush send log   ", "flush receive log"), "rdisk.c")
    assert "cited for other items: rdisk.c:9 rdisk_send: wait_for_completion(&rd->log_written)" in said and status == 0
    said, status = audit(DECIDED, "rdisk.c")
    assert not those(said, "cited for other items")


def test_files_of_the_declaration(audit):
    said, status = audit("# files: rdisk.c\n" + DECIDED)
    assert status == 0
    said, status = audit("# files: rdis*.c\n" + DECIDED)
    assert status == 0


def test_locks_and_what_was_not_followed(audit, tmp_path):
    (tmp_path / "l.c").write_text(
        "static void l_work(struct work_struct *work)\n{\n\tmutex_lock(&l->lock);\n\tl_far_away(l);\n"
        "\tl->ops->end(l);\n\tkfree(l);\n}\n\nvoid l_init(struct l *l)\n{\n\tINIT_WORK(&l->work, l_work);\n}\n"
    )
    said, status = audit("item l_work\n", "l.c", tree=tmp_path)
    assert "locks in reach, which are waits if the holder waits: ?.lock (l.c:3 l_work)" in said
    assert "not followed, for the files don't have them: l_far_away" in said
    assert "not followed, for no function of the files is known to stand there: ->end" in said
    assert status == 0


def test_one_of_two_calls_of_a_function_is_dismissed(audit):
    """The other still leads there."""
    items = "item rl_late_work\n"
    first = "# no wait: released.c rl_late_work rl_put(r->parent): a test\n"
    second = "# no wait: released.c rl_late_work rl_put(r): a test\n"
    for text, left in ((items, 1), (items + first, 1), (items + second, 1), (items + first + second, 0)):
        said, status = audit(text, "released.c", tree=C_FILES)
        assert len(those(said, "left")) == left and status == int(left > 0), text


def test_stacked(audit):
    """With --stacked, or a comment that says so, submit_bio leads into the driver below."""
    items = "item st_work\nitem st_idle_work\n"
    below = "left: stacked.c:6 st_submit_bio: wait_event(s->idle)  [done]"
    said, _ = audit(items, "stacked.c", tree=C_FILES)
    assert those(said, "left") == ["left: stacked.c:17 st_work: submit_bio(s->bio)  [other]"]
    for text, words in ((items, ("--stacked",)), ("# stacked: a test\n" + items, ())):
        said, _ = audit(text, "stacked.c", tree=C_FILES, words=words)
        assert below in those(said, "left")
        assert "  may be ended by st_idle_work (stacked.c:24 st_idle_work)" in said


def test_cited_for_other_items_with_the_same_targets(audit):
    """An item whose own lines have the targets isn't named."""
    items = "item a  # wr_first_work\nitem b  # wr_first_work\nitem read  # wr_read_work\n"
    line = "flush a read  # done wrapper.c:16 wr_first_work\n"
    said, _ = audit(items + line, "wrapper.c", tree=C_FILES)
    assert "cited for other items: wrapper.c:16 wr_first_work: wr_wait(&w->read)" in said
    said, _ = audit(items + line + "flush b read\n", "wrapper.c", tree=C_FILES)
    assert not those(said, "cited for other items")


def test_a_line_that_is_gone_while_others_cite_its_site(audit):
    """With --each-item it is left for the item without a line, unless a line says that this one doesn't wait there."""
    items = "item a  # wr_first_work\nitem b  # wr_first_work\nitem read  # wr_read_work\n"
    site = "wrapper.c wr_first_work wr_wait(&w->read)"
    both = "flush a read  # done wrapper.c:16 wr_first_work\nflush b read  # done wrapper.c:16 wr_first_work\n"
    rest = "# no item: wrapper.c wr_second_work: a test\n# no item: wrapper.c wr_written_work: a test\n"
    gone = both.splitlines(True)[0]
    for text, status in (
        (both, 0),
        (gone, 1),
        (gone + f"# no wait of b: {site}: a test\n", 0),
        # another item; one that has a line; another call
        (gone + f"# no wait of read: {site}: a test\n", 1),
        (both + f"# no wait of b: {site}: a test\n", 1),
        (gone + "# no wait of b: wrapper.c wr_first_work wr_wait(&w->written): a test\n", 1),
        (gone + f"# no wait of b {site}: a test\n", 1),
    ):
        assert audit(items + rest + text, "wrapper.c", tree=C_FILES, words=("--each-item",))[1] == status, text
    said, status = audit(items + rest + gone, "wrapper.c", tree=C_FILES)
    assert status == 0 and those(said, "cited for other items")
    said, _ = audit(items + rest + gone, "wrapper.c", tree=C_FILES, words=("--each-item",))
    assert f"  # no wait of b: {site}: " in said and "1 cited site left for other items." in " ".join(said)


def test_a_dismissed_call_counts_though_its_function_was_reached_before(audit):
    """tw_work calls tw_wait itself (twice.c:13), and by tw_helper (twice.c:8): only the second call is dismissed."""
    items = "item tw_work\nitem tw_other\nflush tw_work tw_other  # twice.c:4 tw_wait\n"
    said, status = audit(items + "# no wait: twice.c tw_helper tw_wait(d): never taken\n", "twice.c", tree=C_FILES)
    assert status == 0 and not [line for line in said if "isn't in reach" in line]
    said, status = audit(items + "# no wait: twice.c tw_gone tw_wait(d): never taken\n", "twice.c", tree=C_FILES)
    assert status == 1 and [line for line in said if "isn't in reach" in line]
