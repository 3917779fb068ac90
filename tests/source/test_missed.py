"""Waits that were missed without a word, and faults in a declaration that weren't told. What is expected was read off the C."""

import pytest

from conftest import C_FILES


def test_loops_of_sleeps(drafted):
    """Lines 5, 11, 19 and 30 are in loops; 37 and 40 aren't, and the loop of 35 is over before. 47 is in none itself, but its
    call in line 54 is, and not that in 52."""
    found = drafted("poll.c")
    assert found.open == {
        ("poll.c:5", "msleep(1)"): ({"po_work"}, set()),
        ("poll.c:11", "usleep_range(10)"): ({"po_work"}, set()),
        ("poll.c:19", "ssleep(1)"): ({"po_work"}, set()),
        ("poll.c:30", "msleep(20)"): ({"po_work"}, set()),
        ("poll.c:54", "po_delay()"): ({"po_work"}, set()),
        ("poll.c:67", "async_synchronize_full()"): ({"po_work"}, set()),
    }


def test_calls_by_arrays_and_expressions(read, drafted, wqsource, tmp_path):
    """Those that the file has are followed; ar_pick's result and ar_far are told as not followed; (ar_size)(a) is a cast."""
    found = drafted("arrays.c")
    assert found.flushes == {("flush ar_work ar_end", "arrays.c:28")}
    assert {place for place, _ in found.open} == {"arrays.c:8", "arrays.c:13", "arrays.c:18", "arrays.c:23"}
    (tmp_path / "a.wq").write_text("item ar_work\nitem ar_end\n")
    told = wqsource("audit", "--decl", tmp_path / "a.wq", "--tree", C_FILES, "arrays.c").out
    assert "not followed, for the files don't have them: ar_far ar_pick\n" in told
    assert "not followed, for no function of the files is known to stand there: ar_pick(0)\n" in told


def test_flags_behind_a_question_mark(drafted):
    """mempool_alloc may sleep if one of its branches may: seeded.c:20."""
    assert ("seeded.c:20", "mempool_alloc(&s->pool)") in drafted("seeded.c").open


DECLARED = """\
item send   # sd_send, queued to first at seeded.c:30 sd_retry
item log    # sd_log, queued to second at seeded.c:38 sd_other
item retry  # sd_retry, queued to first at seeded.c:49 sd_start
item other  # sd_other, queued to second at seeded.c:50 sd_start
flush send log  # done seeded.c:13 sd_send
flush retry send  # done seeded.c:31 sd_retry
# no wait: seeded.c sd_log mempool_alloc(&s->pool): a test
"""


@pytest.fixture
def audited(wqsource, tmp_path):
    def run(text):
        (tmp_path / "s.wq").write_text(text)
        ran = wqsource("audit", "--decl", tmp_path / "s.wq", "--tree", C_FILES, "seeded.c")
        said = " ".join(ran.out.replace(str(tmp_path) + "/", "").split())
        return said, ran.status

    return run


def test_a_right_declaration(audited):
    said, status = audited(DECLARED)
    assert status == 0 and "look at" not in said and "s.wq:" not in said


@pytest.mark.parametrize(
    "old,new,told,status",
    [
        # a wrong target
        (
            "flush send log ",
            "flush send retry ",
            "look at s.wq:5: retry isn't among what may end seeded.c:13 sd_send, nor queues it: log",
            0,
        ),
        # the item that queues what ends the wait is right, too
        ("flush send log ", "flush send other log ", "", 0),
        # the wait of another item's line
        (
            "# done seeded.c:31 sd_retry",
            "# done seeded.c:13 sd_send",
            "look at s.wq:6: cites seeded.c:13 sd_send, which item retry doesn't reach",
            1,
        ),
        # cited and dismissed, where no other item is left for which it could be dismissed
        (
            "# no wait: seeded.c sd_log",
            "# no wait: seeded.c sd_send wait_for_completion(&s->logged): wrongly\n# no wait: seeded.c sd_log",
            "s.wq:5: cites seeded.c:13 sd_send, which line 7 dismisses, and no other item reaches it",
            1,
        ),
        # the comment of an item names another workqueue than the code
        ("queued to second at seeded.c:38", "queued to first at seeded.c:38", "item log isn't queued to first", 1),
    ],
)
def test_faults_that_are_told(audited, old, new, told, status):
    assert old in DECLARED
    said, ended = audited(DECLARED.replace(old, new))
    assert told in said and ended == status
    assert told or "look at" not in said


def test_cited_for_one_item_and_dismissed_for_another(audited):
    """That is what a dismissal of a cited site is for: said, and no fault."""
    both = DECLARED.replace("item other ", "item again  # sd_send\nitem other ").replace(
        "# no wait: ", "# no wait: seeded.c sd_send wait_for_completion(&s->logged): again comes later\n# no wait: ", 1
    )
    said, status = audited(both)
    assert "look at s.wq:6: cites seeded.c:13 sd_send, which line 8 dismisses for again" in said and status == 0
