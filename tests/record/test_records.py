"""Small records of Linux 6.1.192 beside the declarations of examples/, which were made by reading. What is wanted is
what these say: record/README.md has how the records were made."""

import json
import pathlib
import re
import subprocess
import tarfile

import pytest
from conftest import ROOT
from longer import lengthen

from wqr.archive import Archive, Unreadable
from wqr.causes import Causes
from wqr.chosen import Chosen
from wqr.compare import Class, Comparison
from wqr.declaration import Drawing
from wqr.declared import Declared
from wqr.history import History
from wqr.items import Items
from wqr.places import Places
from wqr.sites import Sites

RECORDS = pathlib.Path(__file__).resolve().parent / "records"
EXAMPLES = ROOT / "examples"
WQRECORD = ROOT / "record/wqrecord"


def drawing_of(name: str, *about: str) -> Drawing:
    archive = Archive.read(RECORDS / f"{name}.gz")
    history = History.of(archive)
    items = Items(history, Causes(history))
    places = Places(history.symbols, None, archive.release, archive.parts["places"])
    return Drawing(items, Chosen.of(items, list(about) or None), Sites(places), ["a head"])


def compared(name: str, example: str) -> Comparison:
    drawing = drawing_of(name)
    declared = Declared.read(EXAMPLES / f"{example}.wq", EXAMPLES / f"{example}.assign", drawing.history.symbols)
    return Comparison(drawing, declared)


def seen(comparison: Comparison) -> set[tuple[str, str, str]]:
    """The declared waits that were seen, and how well the place is the cited one."""
    return {(wait.source.name, wait.target.name, how.words) for wait, how in comparison.seen_waits.items()}


LINE = "at the same line"


@pytest.mark.parametrize(
    "record, example, wanted",
    [
        # The two waits of examples/md.md for a flush of the lower array, at md.c:602.
        ("md", "md", {("submit.upper", "submit.lower", LINE), ("submit.upper", "data.lower", LINE)}),
        # The two for superblocks, at md.c:8684.
        ("md-superblocks", "md", {("data.upper", "submit.lower", LINE), ("data.upper", "data.lower", LINE)}),
        # All but that of dm-zoned, which isn't there.
        (
            "dm-snapshot",
            "dm-snapshot",
            {
                ("do_work.merging", "do_work.other", LINE),
                ("do_work.other", "do_metadata.other", LINE),
                ("do_work.merging", "do_metadata.other", LINE),
            },
        ),
        # The circle of examples/nfs.md, and the flusher of a mount that ends.
        (
            "nfs",
            "nfs",
            {
                ("rpc_async.put", "rpc_async", LINE),
                ("rpc_async.put", "wb_workfn", LINE),
                ("put_release", "wb_workfn", LINE),
            },
        ),
    ],
)
def test_declared_waits_are_seen_at_the_cited_lines(record, example, wanted):
    comparison = compared(record, example)
    assert seen(comparison) == wanted
    assert comparison.seen[Class.HOLE] == []


def without(*starts: str) -> Declared:
    """examples/md.wq without its lines that begin so."""
    text = "\n".join(line for line in (EXAMPLES / "md.wq").read_text().splitlines() if not line.startswith(starts))
    return Declared.of("md.wq", text, (EXAMPLES / "md.assign").read_text(), drawing_of("md").history.symbols)


def test_a_record_that_ends_in_mds_hang_tells_its_circle():
    # What examples/md.md says of it: the rescuer of md sleeps in md_flush_request of the lower array, called by
    # submit_flushes of the upper one, and that of the lower one hasn't started.
    lines = list(compared("md-hang", "md").lines())
    at = lines.index("still asleep when the record ended: 1")
    assert lines[at + 1].startswith("  submit_flushes still slept at drivers/md/md.c:602 md_flush_request, for 10.5 s")
    assert lines[at + 2 : at + 4] == ["      line 19: submit.upper -> submit.lower", "      line 20: submit.upper -> data.lower"]
    assert lines[at + 4 : at + 6] == [
        "queued, and not started when the record ended: 1",
        "  submit_flushes was queued to md 10.6 s before the end",
    ]
    assert lines[at + 6 :] == [
        "circles: 1",
        "  submit_flushes waits for submit_flushes, which hasn't started: the rescuer of md executes submit_flushes",
    ]


def test_a_record_that_ends_in_nfs_hang_tells_its_circle():
    # What examples/nfs.md says of it: the rescuer of rpciod sleeps in _nfs4_proc_delegreturn, called by
    # nfs4_delegreturn_release, until a task has run that is queued to rpciod.
    comparison = compared("nfs-hang", "nfs")
    (sleeper,) = [one for one in comparison.drawing.hang.open if comparison.declared.of_item(one.item)]
    stack = [frame.function for frame in comparison.drawing.sites.places.chain(sleeper.sleep.stack)]
    assert {"_nfs4_proc_delegreturn", "nfs4_delegreturn_release", "rescuer_thread"} <= set(stack)
    lines = list(comparison.lines())
    assert "      line 40: rpc_async.put -> rpc_async" in lines
    assert lines[lines.index("circles: 1") + 1 :] == [
        "  rpc_async_schedule waits for rpc_async_schedule, which hasn't started: the rescuer of rpciod executes "
        "rpc_async_schedule"
    ]


def functions(found: list) -> set[tuple[str, str]]:
    return {(one.edge.source.function, one.edge.target.function) for one in found}


ABOVE_AND_BELOW = {("submit_flushes", "md_submit_flush_data"), ("submit_flushes", "submit_flushes")}


def test_a_declaration_that_lacks_lines_has_holes():
    comparison = Comparison(drawing_of("md"), without("flush submit.upper", "# no wait: md.c md_flush_request"))
    assert functions(comparison.seen[Class.HOLE]) == ABOVE_AND_BELOW


def test_what_another_item_may_do_without_a_wait_is_told_as_dismissed():
    # (the same place is dismissed for the lower items, and a record doesn't tell these apart)
    comparison = Comparison(drawing_of("md"), without("flush submit.upper"))
    assert functions(comparison.seen[Class.DISMISSED]) == ABOVE_AND_BELOW


def test_the_threads_that_end_dismissed_waits_are_told():
    lines = list(compared("md-superblocks", "md").lines())
    (found,) = [line for line in lines if "says no wait at md.c md_write_start" in line]
    assert "ended by the thread md0_raid1" in found


def test_workqueues_and_flags_are_those_of_the_kernel():
    # drivers/md/md.c:9748 md_init, net/sunrpc/sched.c:1283, 1287 rpciod_start, fs/nfs/inode.c:2405 nfsiod_start
    assert (
        "wq 0 md_submit_flush_data submit_flushes submit_flushes.waits  # md, WQ_MEM_RECLAIM, max_active 256\n"
        in drawing_of("md", "md_mod").assignment()
    )
    assignment = drawing_of("nfs", "nfs|nfsv4|sunrpc").assignment()
    for name in ("rpciod", "xprtiod", "nfsiod"):
        assert f"# {name}, WQ_UNBOUND, WQ_MEM_RECLAIM, max_active 256\n" in assignment
    # system_wq, which has no rescuer (kernel/workqueue.c:6067 workqueue_init_early)
    assert "norescuer 0 rpc_free_client_work xprt_destroy_cb  # events, no flags" in assignment


def test_an_items_places_are_where_the_source_queues_it():
    (item,) = [
        line
        for line in drawing_of("md", "md_mod").declaration().splitlines()
        if line.startswith("item submit_flushes ")
    ]
    assert "queued to md at drivers/md/md.c:628 md_flush_request" in item


def test_each_line_is_one_of_a_declaration():
    text = drawing_of("nfs").declaration()
    words = [line.partition("#")[0].split() for line in text.splitlines()]
    names = {row[1] for row in words if row[:1] == ["item"]}
    assert all(row[0] in ("item", "flush", "flushwq") and set(row[1:]) <= names for row in words if row)


# The command -------------------------------------------------------------------------------------------


def run(*words: object) -> subprocess.CompletedProcess[str]:
    return subprocess.run([WQRECORD, *map(str, words)], capture_output=True, text=True, timeout=600)


def test_compare_ends_with_0_where_nothing_is_missing():
    ended = run("compare", EXAMPLES / "md.wq", RECORDS / "md.gz", "--assign", EXAMPLES / "md.assign")
    assert (ended.returncode, ended.stderr) == (0, "")
    assert ended.stdout.splitlines()[-1].startswith(
        "# 4 waits declared: 2 seen (2 at the same line), 0 perhaps, 2 never."
    )


def test_compare_ends_with_1_where_a_wait_is_missing(tmp_path):
    (tmp_path / "md.wq").write_text("item submit  # submit_flushes, queued to md at md.c:628\n")
    ended = run("compare", tmp_path / "md.wq", RECORDS / "md.gz")
    assert ended.returncode == 1
    assert "seen, not declared: " in ended.stdout


def test_compare_writes_what_was_seen_as_sure(tmp_path):
    # The two waits of examples/md.md for a flush of the lower array were seen in this record, the other two not.
    text = (EXAMPLES / "md.wq").read_bytes()
    unsure = text.replace(b"\nflush ", b"\nflush? ")
    assert unsure.count(b"\nflush? ") == 4
    (tmp_path / "md.wq").write_bytes(unsure)
    words = tmp_path / "md.wq", RECORDS / "md.gz", "--assign", EXAMPLES / "md.assign"
    told = run("compare", *words).stdout
    assert "unsure lines that were seen: 2\n" in told
    assert (tmp_path / "md.wq").read_bytes() == unsure
    assert run("compare", *words, "--write").stdout == told
    wanted = unsure.replace(b"\nflush? submit.upper", b"\nflush submit.upper")
    assert (tmp_path / "md.wq").read_bytes() == wanted


def test_what_is_no_record_is_a_fault(tmp_path):
    (tmp_path / "no").write_text("nothing")
    ended = run("declare", tmp_path / "no")
    assert ended.returncode == 3
    assert "no record" in ended.stderr


def test_a_file_that_is_not_there_is_a_fault(tmp_path):
    ended = run("compare", tmp_path / "no.wq", RECORDS / "md.gz")
    assert (ended.returncode, ended.stderr) == (3, f"wqrecord: {tmp_path}/no.wq: No such file or directory\n")


@pytest.mark.parametrize("wrong", [EXAMPLES / "md.assign", RECORDS / "md.gz", "/dev/null"])
def test_what_declares_no_item_is_a_fault_and_no_answer(wrong):
    ended = run("compare", wrong, RECORDS / "md.gz")
    assert (ended.returncode, ended.stdout) == (3, "")
    assert f"{wrong}: it declares no item" in ended.stderr


def test_a_declaration_of_another_driver_is_a_fault(tmp_path):
    (tmp_path / "other.wq").write_text("item crypt  # kcryptd_crypt, queued to kcryptd at dm-crypt.c:1 kcryptd_queue\n")
    ended = run("compare", tmp_path / "other.wq", RECORDS / "md.gz")
    assert ended.returncode == 3
    assert f"{tmp_path}/other.wq: none of its items ran" in ended.stderr


@pytest.mark.parametrize("wrong", ["md.wq", "nfs.assign"])
def test_an_assignment_without_the_declared_items_is_a_fault(wrong):
    ended = run("compare", EXAMPLES / "md.wq", RECORDS / "md.gz", "--assign", EXAMPLES / wrong)
    assert (ended.returncode, ended.stdout) == (3, "")
    assert f"{EXAMPLES}/{wrong}: it assigns no item of {EXAMPLES}/md.wq" in ended.stderr


def test_a_pattern_that_matches_nothing_is_told_with_what_there_is():
    # (a module's file is md-mod.ko, and its name md_mod)
    told = run("declare", RECORDS / "md.gz", "--about", "md-mod", "--about", "md").stdout
    assert "# Nothing here matches --about md-mod.\n" in told
    assert re.search(r"^# Modules whose items ran: .*\bmd_mod\b", told, re.M)
    assert "--about md." not in told
    assert "Nothing here" not in run("declare", RECORDS / "md.gz", "--about", "md_mod").stdout


def test_a_wrong_pattern_is_a_wrong_command_line():
    ended = run("declare", RECORDS / "md.gz", "--about", "(")
    assert ended.returncode == 2
    assert "'(' is no regular expression" in ended.stderr


def test_what_cannot_be_seen_is_said_where_the_answer_is_read():
    for ended in (run("declare", RECORDS / "md.gz"), run("compare", EXAMPLES / "md.wq", RECORDS / "md.gz")):
        assert (
            "# What isn't here: what didn't happen while it was recorded; waits that were over at once" in ended.stdout
        )


def waits_seen(archive: Archive) -> dict[tuple[str, str], int]:
    """By two items how often the one was seen to wait for the other."""
    history = History.of(archive)
    edges = Items(history, Causes(history)).edges.values()
    return {(edge.source.name, edge.target.name): len(edge.exact) for edge in edges if edge.is_sure}


def test_a_long_record_has_the_same_waits_more_often():
    archive = Archive.read(RECORDS / "md.gz")
    short = waits_seen(archive)
    assert ("submit_flushes.waits", "md_submit_flush_data") in short
    lengthen(archive, 5 * len(archive.parts["cpu0.raw"]))
    long = waits_seen(archive)
    assert long.keys() == short.keys()
    # (what ran when a round began or ended is cut there)
    assert all(4 * short[names] < times <= 5 * short[names] for names, times in long.items())


def test_a_record_with_lost_events_says_so(tmp_path):
    archive = Archive.read(RECORDS / "md.gz")
    archive.parts["cpu0.stats"] = archive.parts["cpu0.stats"].replace(b"\noverrun: 0", b"\noverrun: 17")
    archive.write(tmp_path / "lost.gz")
    assert "# LOST: 17 events of cpu0 (overrun)." in run("declare", tmp_path / "lost.gz").stdout


def test_places_make_a_record_stand_alone(tmp_path):
    # (again, since this record has its places already)
    assert run("places", RECORDS / "md.gz", "--out", tmp_path / "again.gz").returncode == 0
    assert run("declare", tmp_path / "again.gz").stdout == run("declare", RECORDS / "md.gz").stdout
    assert json.loads(Archive.read(tmp_path / "again.gz").parts["places"]) == json.loads(
        Archive.read(RECORDS / "md.gz").parts["places"]
    )


def test_an_archive_without_its_parts_is_no_record(tmp_path):
    archive = Archive.read(RECORDS / "md.gz")
    del archive.parts["formats"]
    archive.write(tmp_path / "half")
    with pytest.raises(Unreadable):
        Archive.read(tmp_path / "half")


def test_a_compressed_record_that_is_cut_is_a_fault(tmp_path):
    (tmp_path / "cut.gz").write_bytes((RECORDS / "md.gz").read_bytes()[:7000])
    ended = run("declare", tmp_path / "cut.gz")
    assert (ended.returncode, len(ended.stderr.splitlines())) == (3, 1)
    assert f"{tmp_path}/cut.gz: it is damaged, or its end is missing" in ended.stderr


def test_a_compressed_record_with_a_wrong_byte_is_a_fault(tmp_path):
    data = bytearray((RECORDS / "md.gz").read_bytes())
    data[6000:6004] = b"\xff" * 4
    (tmp_path / "wrong.gz").write_bytes(data)
    ended = run("declare", tmp_path / "wrong.gz")
    assert (ended.returncode, len(ended.stderr.splitlines())) == (3, 1)
    assert f"{tmp_path}/wrong.gz: it is damaged" in ended.stderr


@pytest.mark.parametrize("beyond", [0, 100])
def test_a_record_that_is_cut_between_two_parts_is_a_fault(tmp_path, beyond):
    # (at the head of its last part, or in this: what is before it could be read)
    Archive.read(RECORDS / "md.gz").write(tmp_path / "whole")
    with tarfile.open(tmp_path / "whole") as archive:
        last = archive.getmembers()[-1]
    (tmp_path / "cut").write_bytes((tmp_path / "whole").read_bytes()[: last.offset + beyond])
    ended = run("declare", tmp_path / "cut")
    assert (ended.returncode, ended.stdout) == (3, "")
    assert f"{tmp_path}/cut: it is damaged, or its end is missing" in ended.stderr


@pytest.mark.parametrize("content", [b"", b"item submit\n"])
def test_what_is_no_record_is_told_in_a_line(tmp_path, content):
    (tmp_path / "no").write_bytes(content)
    assert run("declare", tmp_path / "no").stderr == (
        f"wqrecord: {tmp_path}/no: it is no record: neither tar nor tar.gz, or empty\n"
    )


def test_a_wrong_command_line_is_told():
    assert run("declare").returncode == 2
    assert run("records").returncode == 2
    assert run("run", "--", "true").returncode == 2
    assert run("stop").returncode == 2
