"""`scan` on a made-up tree, whose modules are one situation each (small_tree.py). What hangs is said there by hand."""

import os
import re

import pytest
import small_tree

from csource import extract, progress, scan, token_extract, tree_index
from csource.kbuild import Kbuild
from csource.survey import Survey, SurveyError

COUNTS = "# 23 calls make a workqueue: 19 with WQ_MEM_RECLAIM, 0 legacy, 4 without; 19 modules."


@pytest.fixture(scope="module")
def tree(tmp_path_factory):
    return small_tree.make(tmp_path_factory.mktemp("tree") / "linux")


@pytest.fixture(scope="module")
def results(tree, tmp_path_factory, wqplan):
    """What is found of each module."""
    cache = tmp_path_factory.mktemp("cache")
    said = progress.Progress()
    extractor = token_extract.TokenExtractor(cache, said, extract.Extractor(cache, 1, said))
    found = scan.TreeScan(tree, extractor, tree_index.TreeIndex.of(tree))
    return {unit.module.name: found.scan(unit) for unit in found.units()}


@pytest.fixture
def scanned(wqsource, wqplan, tree, tmp_path):
    """scanned(words ..): starts `wqsource scan`."""
    env = {**os.environ, "WQPLAN": wqplan}
    return lambda *words: wqsource("scan", tree, "--jobs", "1", "--cache", tmp_path / "cache", *words, env=env)


def test_modules(results):
    """Those that make a workqueue with a rescuer. `plain` makes one without."""
    assert set(results) == {
        "drivers/block/own",
        "drivers/block/arg",
        "drivers/block/zero",
        "drivers/block/ptr",
        "drivers/block/bare",
        "drivers/block/cancel",
        "drivers/block/through",
        "drivers/block/ends",
        "drivers/block/last",
        "drivers/block/undo",
        "drivers/block/took",
        "drivers/block/gave",
        "drivers/block/made",
        "drivers/block/older",
        "drivers/block/self",
        "drivers/block/peer",
        "drivers/block/every",
        "drivers/block/other",
        "drivers/nvme/core",
    }


def test_what_hangs_for_sure(results):
    rows = [row for result in results.values() for row in result.rows if row.is_sure]
    assert {(row.module, row.item, row.target, row.how) for row in rows} == small_tree.SURE


def test_what_depends(results):
    rows = [row for result in results.values() for row in result.rows if not row.is_sure]
    assert {(row.module, row.item, row.target, row.doubts) for row in rows} == small_tree.UNSURE


def test_workqueues(results):
    """Those with a rescuer, with their items."""
    found = {(one.name, one.items) for result in results.values() for one in result.workqueues}
    names = "own arg zero ptr bare cancel ends last undo took gave made older self peer every other".split()
    others = {(name, 2) for name in names}
    assert found == others | {("through", 3), ("ctrl-wq", 3)}


def test_kbuild(tree):
    """A module of several objects, some in another folder."""
    kbuild = Kbuild(tree)
    assert kbuild.module_of("drivers/nvme/main.c").name == "drivers/nvme/core"
    assert kbuild.named("drivers/nvme/core").files == ("drivers/nvme/main.c", "drivers/nvme/lib/more.c")
    assert kbuild.module_of("drivers/block/own.c").files == ("drivers/block/own.c",)
    assert kbuild.named("drivers/nvme").name == "drivers/nvme/core"
    assert kbuild.named("drivers/nvme/none") is None


def test_the_files_of_a_module(wqsource, tree, tmp_path):
    """Its own, then who is plugged in and who names its workqueue, then headers."""
    ran = wqsource("draft", "--module", "drivers/nvme/core", "--tree", tree, "--cache", tmp_path)
    assert re.findall(r"^# files: (.*)", ran.out, re.M) == [
        "drivers/nvme/main.c drivers/nvme/lib/more.c drivers/nvme/rdma.c drivers/nvme/tcp.c drivers/nvme/core.h"
    ]
    assert ran.status == 0 and "item rdma_reset " in ran.out
    for name in ("./drivers/nvme/core", "drivers//nvme/core/", tree / "drivers/nvme/core"):
        again = wqsource("draft", "--module", name, "--tree", tree, "--cache", tmp_path)
        assert (again.status, again.out) == (ran.status, ran.out)
    ran = wqsource("draft", "--module", "drivers/nvme/nothing", "--tree", tree, "--cache", tmp_path)
    assert ran.status == 3 and "no module of" in ran.err and "did you mean" not in ran.err


@pytest.mark.parametrize("name", ["drivers/nvme/cores", "drivers/nvm/core", "core", "drivers/core.ko"])
def test_the_nearest_names(wqsource, scanned, tree, tmp_path, name):
    ran = wqsource("draft", "--module", name, "--tree", tree, "--cache", tmp_path)
    assert ran.status == 3 and ran.err.endswith(": did you mean drivers/nvme/core?\n")
    ran = scanned("--module", name)
    assert ran.status == 3 and ran.err.endswith("with a rescuer: did you mean drivers/nvme/core?\n")


def test_a_library(wqsource, tree, tmp_path):
    """What a module calls is its own, through a library without work items, too; who else calls that isn't."""
    ran = wqsource("draft", "--module", "drivers/md/thin", "--tree", tree, "--cache", tmp_path)
    files = re.findall(r"^# files: (.*)", ran.out, re.M)
    assert files == ["drivers/md/thin.c drivers/md/library/library.c drivers/md/buffer.c drivers/md/library/library.h"]


@pytest.mark.parametrize("name", ["drivers/nvme/core", "drivers/md/thin", "drivers/block/own"])
def test_the_same_draft_by_several_processes(wqsource, tree, tmp_path, name):
    """The first one, while they look through the tree, and the next one, when all is in the cache."""
    drafts = [
        wqsource("draft", "--module", name, "--tree", tree, "--cache", tmp_path / jobs, "--jobs", jobs)
        for jobs in ("1", "4", "1", "4", "16")
    ]
    # (standard error may say how far it is)
    assert drafts[0].status == 0 and "\nitem " in drafts[0].out
    assert {draft[:2] for draft in drafts} == {drafts[0][:2]}


def test_what_is_printed(scanned):
    ran = scanned()
    assert ran.status == 1
    assert ran.out.startswith(COUNTS) and "Nothing here is proved." in ran.out
    heads = re.findall(r"^# (unread.*)", ran.out, re.M)
    assert heads == ["unread, for sure (8)", "unread, for want of a rescuer (1)"]
    assert "drivers/block/own  own  own_a -> all of it  flushwq drivers/block/own.c:" in ran.out
    assert "drivers/block/bare  bare  bare_a -> bare_c on slow  flush drivers/block/bare.c:" in ran.out
    assert (
        "# depends: 10 flush and flushwq lines in 10 modules (--unsure), 0 others in 0 modules (--unsure=all)" in ran.out
    )
    assert "not sure" not in ran.out and "not sure: a call by a pointer" in scanned("--unsure").out


def test_one_module(scanned):
    out = scanned("--module", "drivers/block/own").out
    assert "own_a" in out and "zero_a" not in out
    assert "own_a" in scanned("--module", "./drivers/block/own/").out
    ran = scanned("--module", "drivers/block/plain")
    assert ran.status == 3 and "no module of this name makes a workqueue with a rescuer" in ran.err


def test_verdicts(scanned, tmp_path, tree):
    """What was read isn't told again, till a function on its way is another one."""
    verdicts = tmp_path / "linux.txt"
    assert scanned("--verdicts", verdicts, "--write").status == 1
    text = verdicts.read_text()
    assert (
        len(re.findall(r"^wait ", text, re.M)) == 19 and len(re.findall(r"^    unread [0-9a-f]{12}$", text, re.M)) == 19
    )
    assert "wait own own own_a flushwq * | drivers/block/own.c own_a flush_workqueue(x->wq)\n" in text
    verdicts.write_text("# read by hand\n" + re.sub(r"unread ([0-9a-f]+)", r"can't happen \1: a test", text))
    ran = scanned("--verdicts", verdicts)
    assert ran.status == 0 and "# unread" not in ran.out
    assert "# read: 0 real, 9 can't happen, 0 not on the reclaim path; 0 verdicts no longer of their source" in ran.out
    ran = scanned("--verdicts", verdicts, "--stale")
    assert (ran.status, ran.out) == (0, "")
    own = tree / "drivers/block/own.c"
    before = own.read_text()
    own.write_text(before.replace("struct own *x = c", "/* comments don't count */\n\n\tstruct own *x = c"))
    assert scanned("--verdicts", verdicts, "--stale").status == 0
    own.write_text(before.replace("flush_workqueue(x->wq);", "flush_workqueue(x->wq);\n\tx->wq = NULL;"))
    ran = scanned("--verdicts", verdicts, "--stale")
    assert ran.status == 1 and "# stale: can't happen" in ran.out and "own_a" in ran.out and "zero_a" not in ran.out
    own.write_text(before.replace("\tflush_workqueue(x->wq);\n", ""))
    ran = scanned("--verdicts", verdicts, "--stale")
    assert ran.status == 1 and "# gone: own own own_a flushwq *" in ran.out
    ran = scanned("--verdicts", verdicts, "--stale", "--module", "drivers/block/own")
    assert ran.status == 1 and re.findall(r"^# gone: (\w+)", ran.out, re.M) == ["own"]
    own.write_text(before)
    assert verdicts.read_text().startswith("# read by hand\n")


def test_modules_that_were_not_scanned(scanned, tmp_path):
    """The scan of one module says nothing of the rows of others."""
    verdicts = tmp_path / "linux.txt"
    scanned("--verdicts", verdicts, "--write")
    verdicts.write_text(re.sub(r"unread ([0-9a-f]+)", r"can't happen \1: a test", verdicts.read_text()))
    own = "--verdicts", verdicts, "--module", "drivers/block/own"
    ran = scanned(*own, "--stale")
    assert (ran.status, ran.out) == (0, "")
    assert "0 of waits that are gone" in scanned(*own).out.replace("\n# ", " ")
    with verdicts.open("a") as file:
        for words, name in (
            ("own own own_b flush own_a", "own"),
            ("zero zero zero_b flush zero_a", "zero"),
            ("own own own_b flush other_a", "other"),
        ):
            file.write(f"wait {words} | drivers/block/{name}.c f flush_work(&x->w)\n    real 01: once\n")
    ran = scanned(*own, "--stale")
    assert (ran.status, ran.out.count("\n")) == (1, 1) and ran.out.startswith("# gone: own own own_b flush own_a ")
    assert "1 of waits that are gone" in scanned(*own).out.replace("\n# ", " ")
    assert scanned("--verdicts", verdicts, "--stale").out.count("# gone: ") == 3


def test_a_survey_that_is_none(tmp_path):
    for text in ("wait a b c flush d | e.c f g()\n", "hello\n", "wait a b c flush d | e.c f g()\n    perhaps -: no\n"):
        (tmp_path / "survey.txt").write_text(text)
        with pytest.raises(SurveyError):
            Survey.read(tmp_path / "survey.txt")


def test_unread_rows_that_are_gone(tmp_path):
    """A whole scan takes them out of the survey, and no other one; what was read stays."""
    text = "wait a q i flush j | e.c f g()\n    unread 0123\nwait b q i flush j | e.c f g()\n    real 0123: because\n"
    (tmp_path / "survey.txt").write_text(text)
    survey = Survey.read(tmp_path / "survey.txt")
    assert survey.text([]) == text
    assert survey.text([], is_whole=True) == text[text.index("wait b") :]
