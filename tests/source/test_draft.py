"""What a draft prints: its form is that of the examples, and it says what its files can't say."""

import re
import shutil
import sys

import pytest

from conftest import C_FILES, ROOT

sys.path.append(str(ROOT / "tests" / "docs"))

import citations  # noqa: E402
from csource import draft_text  # noqa: E402

MAKEFILE = "# SPDX-License-Identifier: GPL-2.0\nVERSION = 6\nPATCHLEVEL = 1\nSUBLEVEL = 192\nEXTRAVERSION =\n"


@pytest.fixture
def kernel(tmp_path):
    """kernel(file): a tree that looks like a kernel's, with this C file in drivers/x."""

    def made(file):
        (tmp_path / "Makefile").write_text(MAKEFILE)
        (tmp_path / "drivers" / "x").mkdir(parents=True, exist_ok=True)
        shutil.copy(C_FILES / file, tmp_path / "drivers" / "x" / file)
        return tmp_path

    return made


def test_the_form_is_that_of_the_examples(wqsource, kernel):
    """Every comment cites as examples/README.md says it, and the version and the folders are there."""
    for file in ("two_inits.c", "kblockd.c", "pool.c", "wrapper.c", "entered.c"):
        tree = kernel(file)
        ran = wqsource("draft", "--tree", tree, f"drivers/x/{file}")
        assert ran.status == 0 and "# Sources: Linux 6.1.192, drivers/x\n" in ran.out
        # (an item that the file doesn't queue has no workqueue, and a reader must find it)
        text = "".join(line for line in ran.out.splitlines(True) if "queued nowhere in these files" not in line)
        checked = citations.Places(file, text.removeprefix(text.partition("\n")[0] + "\n"))
        assert checked.wrong == [] and checked.version == "6.1.192" and checked.folders == ["drivers/x"], file


def test_item_and_flush_lines(wqsource, kernel):
    """To the byte, by hand."""
    lines = wqsource("draft", "--tree", kernel("two_inits.c"), "drivers/x/two_inits.c").out.splitlines()
    at = lines.index("item ti_first  # ti.first_work, queued nowhere in these files")
    assert lines[at : at + 6] == [
        "item ti_first  # ti.first_work, queued nowhere in these files",
        "#   set at two_inits.c:15 ti_set",
        "item ti_second  # ti.second_work, queued to ti at two_inits.c:32 ti_start",
        "#   set at two_inits.c:31 ti_start",
        "#   queued by code that no item reaches, from ti_start",
        "",
    ]
    assert "flush? ti_second ti_first  # flush two_inits.c:10 ti_second: flush_work" in lines


def test_without_a_makefile_there_is_no_version(wqsource):
    assert "# Sources:" not in wqsource("draft", "--tree", C_FILES, "two_inits.c").out


def test_a_site_of_several_lines(wqsource, kernel):
    """Each line is a place of its own."""
    out = wqsource("draft", "--tree", kernel("pool.c"), "drivers/x/pool.c").out
    assert "? done pool.c:26 pool_wait_work, pool.c:27 pool_wait_work: prepare_to_wait(&p->wait)\n" in out
    assert "#flush pool_wait_work TARGET  # done pool.c:26 pool_wait_work, pool.c:27 pool_wait_work\n" in out


def test_what_a_draft_offers_decides_nothing(wqsource, tmp_path):
    """A site whose `?` line is taken away is left, though the line that was offered cites it."""
    draft = wqsource("draft", "--tree", C_FILES, "pool.c").out
    kept = tmp_path / "x.wq"
    kept.write_text("".join(line for line in draft.splitlines(True) if not line.startswith("?")))
    ran = wqsource("audit", "--decl", kept, "--tree", C_FILES)
    assert "left: pool.c:26, 27 pool_wait_work: prepare_to_wait(&p->wait)  [done]" in ran.out and ran.status == 1
    text = kept.read_text().replace("#flush pool_wait_work TARGET ", "flush pool_wait_work pool_give_work ")
    kept.write_text(re.sub(r"^flush\?", "flush", text, flags=re.M))
    ran = wqsource("audit", "--decl", kept, "--tree", C_FILES)
    assert "left: " not in ran.out and ran.status == 0


def unsure_lines(text):
    """The unsure lines, without their comments, in order."""
    return [line.partition("#")[0].strip() for line in text.splitlines() if line.startswith(("flush?", "flushwq?"))]


def test_each_candidate_is_an_unsure_line(wqsource):
    """Of each item that reaches a site, and each that may end it: db_f and db_g cancel both, each maybe itself."""
    out = wqsource("draft", "--tree", C_FILES, "doubts.c").out
    assert not any(line.startswith(("?", "flush ", "flushwq ")) for line in out.splitlines())
    site = re.search(r"^#\? cancel doubts\.c:107 .*\n(?:#.*\n)+((?:flush.*\n)+)## no wait: (.*)$", out, re.M)
    assert site[1].splitlines() == [
        f"flush? {item} db_f  # cancel doubts.c:107 {site[2].split()[1]}" for item in ("db_f", "db_g")
    ]
    assert "flushwq? db_b db_rescue" in unsure_lines(out)
    assert out.endswith(f"# {out.count('item db_') - out.count('items db_')} items. {len(unsure_lines(out))} unsure lines, 0 lines to decide before.\n")


def test_of_a_workqueue_one_item_stands_for_all(wqsource):
    """What flushes a workqueue has one line, and not one for each item that is on it."""
    out = wqsource("draft", "--tree", C_FILES, "many.c").out
    assert [line for line in unsure_lines(out) if line.startswith("flushwq?")] == ["flushwq? mn_wait mn_red"]


def test_what_is_not_known_as_an_item(wqsource, tmp_path):
    """With --unknown a site without a candidate is a wait for an item on a workqueue without a rescuer."""
    plain = wqsource("draft", "--tree", C_FILES, "disks.c").out
    assert [line.split()[1] for line in plain.splitlines() if line.startswith("? ")] == ["other", "io"]
    out = tmp_path / "out.assign"
    said = wqsource("draft", "--unknown", "--assign", out, "--tree", C_FILES, "disks.c").out
    assert not any(line.startswith("?") for line in said.splitlines())
    assert "item unknown  # thread: what ends a wait and isn't known\n" in said
    assert re.search(r"^norescuer \d+ unknown  # ", out.read_text(), re.M)
    lines = [line for line in said.splitlines() if re.match(r"flush\? \w+ unknown  # done ", line)]
    # (one line for all plain I/O of an item)
    assert any("disks.c:17 dk_shut_down" in line for line in lines)
    assert [line.count("disks.c:") for line in lines if line.endswith(": plain I/O")] == [4]
    kept = tmp_path / "x.wq"
    kept.write_text(said)
    ran = wqsource("audit", "--decl", kept, "--tree", C_FILES)
    assert "left:" not in ran.out and ran.status == 1
    words = " ".join(ran.out.replace("\n# ", "\n").split())
    assert f"unsure: {len(unsure_lines(said))} lines are, from {kept}:" in words
    assert words.endswith(
        f" {len(unsure_lines(said))} lines are unsure: the status is 1 until each is decided. Nothing else is left."
    )


def test_an_item_that_is_called_unknown(wqsource, tmp_path):
    """What isn't known has another name then."""
    text = (C_FILES / "disks.c").read_text().replace("dk_work", "unknown")
    (tmp_path / "d.c").write_text(text)
    said = wqsource("draft", "--unknown", "--tree", tmp_path, "d.c").out
    assert "item unknown  # d" in said and "item unknown.0  # thread: " in said
    assert "flush? unknown unknown.0  # " in said


def test_functions_whose_callers_are_elsewhere(wqsource):
    """un_queue_rq waits twice, and no item of the file reaches it. un_commit_rqs waits for nothing, and un_work calls
    un_map_queues."""
    out = wqsource("draft", "--tree", C_FILES, "uncalled.c").out
    _, found, said = out.partition("# These stand in tables of operations and may wait, and no item of these files ")
    assert found and re.findall(r"^#   (\w+ \(.*)$", said, re.M) == [
        "un_queue_rq (blk_mq_ops.queue_rq): flush_work in un_queue_rq, and 1 more site"
    ]
    assert "stand in tables" not in wqsource("draft", "--tree", C_FILES, "ops.c").out


def test_a_workqueue_has_one_line(wqsource, tmp_path):
    """kblockd is reached by its variable and by kblockd_schedule_work."""
    out = tmp_path / "out.assign"
    assert wqsource("draft", "--assign", out, "--tree", C_FILES, "kblockd.c").status == 0
    assert [line for line in out.read_text().splitlines() if not line.startswith("#")] == [
        "wq 0 kb_first kb_second  # kblockd, kblockd.c:19 kb_init, WQ_MEM_RECLAIM"
    ]
    # without the call that makes it, it has its name
    assert wqsource("draft", "--assign", out, "--tree", C_FILES, "uncalled.c").status == 0
    assert "wq 0 un_work  # kblockd\n" in out.read_text()


def test_a_workqueue_without_a_rescuer(wqsource, tmp_path):
    """nr-plain is made without WQ_MEM_RECLAIM, and the kernel's own have no rescuer either."""
    out = tmp_path / "out.assign"
    assert wqsource("draft", "--assign", out, "--tree", C_FILES, "no_rescuer.c").status == 0
    assert [line for line in out.read_text().splitlines() if not line.startswith("#")] == [
        "wq 0 nr_kept  # nr-kept, no_rescuer.c:16 nr_init, WQ_MEM_RECLAIM",
        "norescuer 1 nr_plain  # nr-plain, no_rescuer.c:17 nr_init, NO WQ_MEM_RECLAIM: no rescuer, WQ_UNBOUND",
        "norescuer 2 nr_system  # system_wq, no rescuer",
    ]


def test_a_draft_of_stacked_drivers_says_so(wqsource, tmp_path):
    """Then `audit` follows the same calls, though its command line doesn't say it."""
    said = "# stacked: it was drafted with --stacked"
    assert said not in wqsource("draft", "--tree", C_FILES, "stacked.c").out
    text = wqsource("draft", "--stacked", "--tree", C_FILES, "stacked.c").out
    assert text.splitlines().count(said) == 1
    head, _, _ = text.partition("\nitem ")
    (tmp_path / "stacked.wq").write_text(f"{head}\nitem st_work\n")
    ran = wqsource("audit", "--decl", tmp_path / "stacked.wq", "--tree", C_FILES)
    assert "left: stacked.c:6 st_submit_bio: wait_event(s->idle)" in ran.out


def test_a_draft_that_is_too_long():
    """What `wqplan` refuses for its length has one byte more than docs/FORMAT.md, "Limits" allows."""
    assert not draft_text.is_too_long("#" * 1_048_575 + "\n")
    assert draft_text.is_too_long("#" * 1_048_576 + "\n")
    assert draft_text.is_too_long("\udcff" * 1_048_577) and not draft_text.is_too_long("\udcff" * 1_048_576)


def test_items_without_a_rescuer_are_a_question(wqsource):
    """Who waits on the reclaim path is seen in no file: it is asked once for all items that have none."""
    lines = wqsource("draft", "--tree", C_FILES, "no_rescuer.c").out.splitlines()
    asked = [line for line in lines if line.startswith("? reclaim")]
    assert asked == ["? reclaim nr_plain nr_system"]
    assert lines[lines.index(asked[0]) + 1].startswith("#   on workqueues without a rescuer: ")
    assert "? reclaim" not in wqsource("draft", "--tree", C_FILES, "doubts.c").out


def test_lines_that_cannot_happen_are_questions(drafted, wqsource):
    """A constant that excludes the way, a workqueue that no call makes, a last reference: no line, but a question."""
    found = drafted("doubts.c")
    assert found.flushes == {("flush db_a db_c", "doubts.c:50"), ("flush db_h db_e", "doubts.c:125")}
    assert found.open == {
        ("doubts.c:35", "destroy_workqueue(set->rescue)"): ({"db_b"}, {"db_rescue"}),
        ("doubts.c:45", "flush_work(&x->c_work)"): ({"db_a"}, {"db_c"}),
        ("doubts.c:73", "destroy_workqueue(x->other)"): ({"db_d"}, {"db_e"}),
        ("doubts.c:107", "cancel_work_sync(&x->f_work)"): ({"db_f", "db_g"}, {"db_f"}),
        ("doubts.c:109", "cancel_work_sync(&x->g_work)"): ({"db_f", "db_g"}, {"db_g"}),
    }
    out = wqsource("draft", "--tree", C_FILES, "doubts.c").out
    lines = out.splitlines()
    after = {line.split(": ")[1]: lines[at + 2] for at, line in enumerate(lines) if line.startswith("#? ")}
    assert after == {
        "destroy_workqueue(set->rescue)": "#   not sure: the arguments of all calls exclude that it was made",
        "flush_work(&x->c_work)": "#   not sure: the arguments exclude it",
        "destroy_workqueue(x->other)": "#   not sure: the last reference is dropped on the way",
        # (who cancels itself has no line anyway)
        "cancel_work_sync(&x->f_work)": "#   not sure for db_g: the arguments exclude it",
        "cancel_work_sync(&x->g_work)": "#   not sure for db_f: the arguments exclude it",
    }
    # (the shortest way is that of what it made itself)
    way = "from doubts.c:130 db_later, doubts.c:141 db_h"
    assert f"flush? db_h db_e  # flush doubts.c:125 db_destroy: flush_work, {way}\n" in out


def test_a_workqueue_that_one_call_makes(drafted):
    found = drafted("doubts.c", "doubts_made.c")
    assert ("flushwq db_b db_rescue", "doubts.c:35") in found.flushes


def named(text):
    """The items that a draft says to NAME behind `hang`."""
    words = " ".join(line.removeprefix("#").strip() for line in text.splitlines())
    found = re.search(r"NAME it behind `wqplan hang`: they are on workqueues with a rescuer where an item may wait: ([^.]*)\.", words)
    return found[1].split(", ") if found else []


def test_the_items_to_name(wqsource):
    """Those on a workqueue with a rescuer where one may wait: not where none does, nor on a workqueue without a rescuer."""
    assert named(wqsource("draft", "--tree", C_FILES, "two_inits.c").out) == ["ti_second"]
    assert named(wqsource("draft", "--tree", C_FILES, "no_rescuer.c").out) == []
