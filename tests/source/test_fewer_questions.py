"""What is no question, or one question for many: cancels, lines that dismiss many, threads, disks, the network."""

import pytest

from conftest import C_FILES
from csource.declaration import Declaration
from csource.tables import Harmless, Waits


@pytest.fixture
def audited(wqsource, tmp_path):
    """audited(text, file): the lines of an audit of a declaration, and its status."""

    def run(text, file):
        (tmp_path / "x.wq").write_text(text)
        ran = wqsource("audit", "--decl", "x.wq", "--tree", C_FILES, file, cwd=tmp_path)
        return ran.out.splitlines(), ran.status

    return run


def left(said):
    return [line for line in said if line.startswith("left: ")]


# Cancels


def test_a_draft_of_cancels(drafted):
    """cc_first cancels an item that waits for cc_end, and one that waits for nothing; cc_third cancels cc_first. The wait of
    cc_asks isn't known, and is also that of cc_second, which cancels it."""
    found = drafted("cancels.c")
    assert found.flushes == {
        ("flush cc_waits cc_end", "cancels.c:10"),
        ("flush cc_first cc_end", "cancels.c:10"),
        ("flush cc_third cc_end", "cancels.c:10"),
    }
    assert found.open == {("cancels.c:21", "submit_bio_wait(c->bio)"): ({"cc_asks", "cc_second"}, set())}


WAITS = "item cc_waits\nitem cc_end\nflush cc_waits cc_end  # flush cancels.c:10 cc_waits\n"


@pytest.mark.parametrize(
    "text,places",
    [
        # what is cancelled isn't declared, and may wait; cc_idle in line 29 waits for nothing
        ("item cc_first\n", ["28"]),
        ("item cc_second\n", ["36"]),
        # it is declared, and who cancels has no line for what it waits for; then one
        (WAITS + "item cc_first\n", ["28"]),
        (WAITS + "item cc_first\nflush cc_first cc_end\n", []),
        # the wait of what is cancelled is dismissed
        ("item cc_second\n# no wait: cancels.c cc_asks submit_bio_wait(c->bio): an interrupt\n", []),
        # cited, as a line that is there to be safe
        ("item cc_second\nitem cc_asks\nflush cc_second cc_asks  # cancel cancels.c:36 cc_second\n", ["21"]),
    ],
)
def test_an_audit_of_cancels(audited, text, places):
    said, status = audited(text, "cancels.c")
    assert [line.split()[1].split(":")[1] for line in left(said)] == places and status == int(bool(places))


def test_what_a_cancel_waits_for_is_said(audited):
    said, _ = audited(WAITS + "item cc_first\n", "cancels.c")
    assert "  waits while cc_waits runs, and so for what that waits for: cc_end" in said


def test_an_item_that_cancels_itself(audited, drafted, wqsource, tmp_path):
    """It waits for itself: that stays a question."""
    (tmp_path / "s.c").write_text(
        "static void s_work(struct work_struct *work)\n{\n\tcancel_work_sync(&s->work);\n}\n\n"
        "void s_start(struct s *s)\n{\n\tINIT_WORK(&s->work, s_work);\n}\n"
    )
    assert drafted("s.c", tree=tmp_path).open == {("s.c:3", "cancel_work_sync(&s->work)"): ({"s_work"}, {"s_work"})}
    (tmp_path / "s.wq").write_text("item s_work\n")
    ran = wqsource("audit", "--decl", tmp_path / "s.wq", "--tree", tmp_path, "s.c")
    assert "left: s.c:3 s_work: cancel_work_sync(&s->work)  [cancel]" in ran.out and ran.status == 1


# Lines that dismiss many

DISK = "item dk_work\nitem dk_end\n"
SHUT = "# not through: disks.c dk_shut_down: only on exit\n"
IO = "# no wait: * * submit_bio*(*) lock_buffer(*): a disk ends it\n"


def test_many_are_dismissed(audited):
    """The four of lines 4, 5, 10 and 11, and what is behind dk_shut_down (16, 17)."""
    said, status = audited(DISK, "disks.c")
    assert "left: 4 sites of plain I/O, which an interrupt ends if no disk below is a stacked one" in said
    assert "  disks.c:4 dk_read: submit_bio(d->read), in reach of dk_work" in said
    offered = [line.strip() for line in said if line.startswith("  # no wait: * *")]
    assert offered == ["# no wait: * * submit_bio(*) lock_buffer(*) submit_bio_wait(*):"] and status == 1
    said, status = audited(DISK + IO, "disks.c")
    assert [line.split()[1] for line in left(said)] == ["disks.c:16", "disks.c:17"] and status == 1
    assert "x.wq:3: takes out 4 sites: " + IO.strip() in said
    said, status = audited(DISK + IO + SHUT, "disks.c")
    assert not left(said) and status == 0
    assert "x.wq:4: takes out 2 sites: " + SHUT.strip() in said


@pytest.mark.parametrize(
    "line,told",
    [
        ("# not through: disks.c dk_far: a test\n", "x.wq:3: dk_far isn't called in reach, or isn't in the files"),
        ("# no wait: * * submit_bh(*): a test\n", "x.wq:3: dismisses * * submit_bh(*), which isn't in reach"),
        ("# not through: disks.c dk_shut_down\n", "x.wq:3: the forms are"),
    ],
)
def test_lines_that_dismiss_nothing(audited, line, told):
    said, status = audited(DISK + line, "disks.c")
    assert any(text.startswith(told) for text in said) and status == 1


def test_forms_of_dismissals():
    def parts(line):
        found = Declaration.of("x.wq", line + "\n")
        return [(dismissal.key, dismissal.is_of_many) for dismissal in found.dismissals]

    assert parts("# no wait: a.c f g(x->y[2]): h(i): no") == [(("a.c", "f", "g", "x->y[2]"), False)]
    assert parts("# no wait: a.c f g(*x): no") == [(("a.c", "f", "g", "*x"), False)]
    assert parts("# no wait: a.c f g(*): no") == [(("a.c", "f", "g", "*"), True)]
    assert parts("# no wait: * f_* g(x), h(*): no") == [(("*", "f_*", "g", "x"), True), (("*", "f_*", "h", "*"), True)]
    assert parts("# no wait: fs/x/* * g(): no") == [(("fs/x/*", "*", "g", ""), True)]


def test_an_exact_dismissal_comes_first(audited):
    """Though it stands below: so each line is known to be needed."""
    exact = "# no wait: disks.c dk_read submit_bio(d->read): another reason\n"
    said, status = audited(DISK + SHUT + IO + exact, "disks.c")
    assert status == 0 and "x.wq:4: takes out 3 sites: " + IO.strip() in said


# Threads


@pytest.mark.parametrize(
    "comment,is_one",
    [("thread: whoever writes", True), ("a thread that writes", True), ("threaded", False), ("whatever thread", False)],
)
def test_an_item_that_is_a_thread(audited, comment, is_one):
    said, status = audited(f"{DISK}{IO}{SHUT}item writeback  # {comment}\nflush writeback dk_end\n", "disks.c")
    assert status == int(not is_one)
    assert ("threads: writeback" in said) is is_one


def test_the_function_of_a_thread(audited):
    """If its comment names it, its waits are sites."""
    said, status = audited(f"{DISK}{IO}{SHUT}item dk  # thread dk_thread\n", "disks.c")
    assert left(said) == ["left: disks.c:40 dk_thread: wait_for_completion(&d->ended)  [done]"] and status == 1


# Names


def test_the_network(audited, wqsource):
    """Softirqs end it as a rule, as docs/GUIDE.md says: said, and no question."""
    said, _ = audited(DISK, "disks.c")
    assert "softirqs of the network end these, as a rule: disks.c:27 dk_work: kernel_sendmsg(d->sock)" in said
    drafted = wqsource("draft", "--tree", C_FILES, "disks.c").out
    assert "#   kernel_sendmsg(d->sock) in dk_work\n" in drafted
    assert [line for line in drafted.splitlines() if line.startswith("?")] == [
        "? other disks.c:17 dk_shut_down: kthread_stop(d->thread)",
        "? io 4 sites of plain I/O, which an interrupt ends if no disk below is a stacked one",
    ]


def test_names_that_wait_for_nothing(audited):
    waits, harmless = Waits(), Harmless()
    for name in "skcipher_request_set_sync_tfm crypto_alloc_sync_skcipher dev_uc_sync".split():
        assert waits.kind(name).name == "never", name
    for name in "PageDirty SetPageDirty __builtin_return_address __alignof__ __ffs va_end brelse".split():
        assert harmless.has(name), name
    # these lock, or wait
    for name in "PageLock lock_page wait_on_page_writeback folio_wait_bit".split():
        assert not harmless.has(name), name
    said, _ = audited(DISK, "disks.c")
    assert not any(line.startswith("not followed") for line in said)
