"""The command line: statuses, what is said where a tool is missing, progress, the cache."""

import io
import os
import signal
import subprocess
import time

import programs
import pytest

from conftest import HOW_FAR, ROOT
from csource import progress
from csource.tables import Idioms, TableError, Waits, pattern

RDISK = ROOT / "examples" / "rdisk"


def test_statuses(wqsource, tmp_path):
    assert wqsource().status == 2
    assert wqsource("look").status == 2
    assert wqsource("audit", "rdisk.c").status == 2
    ran = wqsource("--help")
    assert ran.status == 0 and "audit" in ran.out and "drift" in ran.out and "draft" in ran.out
    for words, said in (
        (("audit", "--decl", tmp_path / "none.wq", "--tree", RDISK, "rdisk.c"), "none.wq"),
        (("audit", "--decl", RDISK / "rdisk.wq", "--tree", RDISK, "none.c"), "none.c: no such file"),
        (("audit", "--decl", RDISK / "rdisk.wq", "--tree", tmp_path / "none", "rdisk.c"), "none: no such folder"),
        (
            ("audit", "--decl", RDISK / "rdisk.wq", "--tree", RDISK),
            "no file is given, and the declaration has no `# files:` line",
        ),
        (("draft", "--only", "nobody", "--tree", RDISK, "--", "rdisk.c"), "nobody"),
    ):
        ran = wqsource(*words)
        assert ran.status == 3 and said in ran.err and ran.out == "", words


def test_one_file_by_several_names(wqsource, tmp_path):
    """It is read once, and is called as it is from the top of the tree."""
    plain = wqsource("draft", "--tree", RDISK, "rdisk.c")
    assert plain.status == 0 and "# files: rdisk.c\n" in plain.out
    for names in (["./rdisk.c"], [RDISK / "rdisk.c"], ["rdisk.c", "./rdisk.c", f"{RDISK}//rdisk.c", f"{RDISK}/r*k.c"]):
        assert wqsource("draft", "--tree", RDISK, *names) == plain


def test_drift_to_what_is_no_other_tree(wqsource, tmp_path):
    """A folder that isn't there has lost no file, and a file beside itself hasn't changed."""
    for name in ("old", "new", "beside"):
        (tmp_path / name).mkdir()
        (tmp_path / name / "rdisk.c").write_bytes((RDISK / "rdisk.c").read_bytes())
    words = ("drift", "--decl", RDISK / "rdisk.wq", "--old", tmp_path / "old", "--new")
    ran = wqsource(*words, tmp_path / "none", "rdisk.c")
    assert ran == (3, "", f"wqsource: {tmp_path}/none: no such folder\n")
    ran = wqsource(*words, tmp_path / "new", tmp_path / "beside" / "rdisk.c")
    assert ran.status == 3 and f"{tmp_path}/beside/rdisk.c: not below {tmp_path}/old" in ran.err
    assert wqsource(*words, tmp_path / "new", tmp_path / "old" / "rdisk.c").status == 0
    (tmp_path / "new" / "rdisk.c").write_text("int nothing;\n")
    assert wqsource(*words, tmp_path / "new", tmp_path / "old" / "rdisk.c").status == 1


def test_an_interrupt(tmp_path):
    """^C goes to all processes of a terminal. The command ends by it, without a traceback."""
    (tmp_path / "bin").mkdir()
    spatch = tmp_path / "bin" / "spatch"
    spatch.write_text(f"#!/bin/sh\n: > {tmp_path}/began\nexec sleep 60\n")
    spatch.chmod(0o755)
    words = ["draft", "--facts", "coccinelle", "--cache", tmp_path / "cache", "--tree", RDISK, "rdisk.c"]
    environment = {**os.environ, "PATH": f"{spatch.parent}:{os.environ['PATH']}"}
    given = dict(env=environment, stdout=subprocess.PIPE, stderr=subprocess.PIPE)
    with programs.started([ROOT / "source" / "wqsource", *words], **given) as started:
        while not (tmp_path / "began").exists() and started.poll() is None:
            time.sleep(0.05)
        os.killpg(started.pid, signal.SIGINT)
        out, err = started.communicate()
    assert (started.returncode, out) == (-signal.SIGINT, b"") and b"Traceback" not in err


@pytest.mark.parametrize("to,status,said", [("closed", 141, ""), ("full", 3, "No space left on device")])
def test_output_that_is_not_taken(tmp_path, to, status, said):
    """No reader is no fault; a full disk is one. Python has nothing to add."""
    command = f"'{ROOT}/source/wqsource' draft --cache '{tmp_path}' --tree '{RDISK}' rdisk.c"
    scripts = {"closed": "{ sleep 1; COMMAND; echo $? >status; } | :", "full": "COMMAND >/dev/full; echo $? >status"}
    script = scripts[to].replace("COMMAND", command)
    ran = programs.run(["sh", "-c", script], cwd=tmp_path, stderr=subprocess.PIPE, text=True)
    assert int((tmp_path / "status").read_text()) == status
    errors = HOW_FAR.sub("", ran.stderr)
    assert said in errors and errors.count("\n") == (1 if said else 0)


def only(tmp_path, *programs):
    """A PATH with nothing but these."""
    folder = tmp_path / "bin"
    folder.mkdir()
    for name in programs:
        found = next(
            os.path.join(place, name)
            for place in os.environ["PATH"].split(":")
            if os.access(os.path.join(place, name), os.X_OK)
        )
        (folder / name).symlink_to(found)
    return {**os.environ, "PATH": str(folder)}


def test_without_python(wqsource, tmp_path):
    ran = wqsource("--help", env=only(tmp_path, "sh", "dirname", "readlink"))
    assert ran == (3, "", "wqsource: python3 isn't on the PATH: apt-get install python3\n")


def made_by_python(folder):
    """The files that Python keeps of what it made of sources."""
    return set(folder.rglob("*.pyc"))


def test_what_python_keeps(wqsource, tmp_path):
    """What it made of csource, beside the facts. What it made of its own modules it has elsewhere."""
    words = ("draft", "--tree", RDISK, "rdisk.c")
    env = {name: value for name, value in os.environ.items() if name != "PYTHONDONTWRITEBYTECODE"}
    beside = made_by_python(ROOT / "source")
    ran = wqsource(*words, env={**env, "XDG_CACHE_HOME": str(tmp_path / "a")})
    of_csource = {path.name.partition(".")[0] for path in made_by_python(tmp_path / "a" / "wqplan" / "python")}
    assert ran.status == 0 and {"command_line", "reader", "draft"} <= of_csource
    assert of_csource <= {path.stem for path in (ROOT / "source" / "csource").glob("*.py")}
    env.pop("XDG_CACHE_HOME", None)
    assert wqsource(*words, env={**env, "HOME": str(tmp_path / "b")}).out == ran.out
    assert made_by_python(tmp_path / "b" / ".cache" / "wqplan" / "python")
    without = {**env, "PYTHONDONTWRITEBYTECODE": "1", "HOME": str(tmp_path / "c")}
    assert wqsource(*words, env=without).out == ran.out and not made_by_python(tmp_path / "c")
    del env["HOME"]
    assert wqsource(*words, "--cache", tmp_path / "d", env=env).out == ran.out and not made_by_python(tmp_path / "d")
    assert made_by_python(ROOT / "source") == beside


def test_the_environment_of_python(wqsource):
    """It finds its own modules, whatever somebody else has told Python."""
    words = ("draft", "--tree", RDISK, "rdisk.c")
    for name, value in (("PYTHONSAFEPATH", "1"), ("PYTHONPATH", "/none"), ("PYTHONUNBUFFERED", "1")):
        assert wqsource(*words, env={**os.environ, name: value}).out == wqsource(*words).out != "", name


def test_without_coccinelle(wqsource, tmp_path):
    env = only(tmp_path, "sh", "dirname", "readlink")
    (tmp_path / "bin" / "python3").symlink_to("/usr/bin/python3")
    words = ("draft", "--cache", tmp_path / "cache", "--tree", RDISK, "rdisk.c")
    assert wqsource(*words, env=env).status == 0
    ran = wqsource(*words, "--facts", "coccinelle", env=env)
    assert (
        ran.status == 3
        and ran.err == "wqsource: spatch isn't on the PATH. It is Coccinelle's: apt-get install coccinelle\n"
    )


def test_a_spatch_that_fails(wqsource, tmp_path):
    folder = tmp_path / "bin"
    folder.mkdir()
    (folder / "spatch").write_text("#!/bin/sh\necho 'cannot go on' >&2\nexit 9\n")
    (folder / "spatch").chmod(0o755)
    ran = wqsource(
        "draft",
        "--facts",
        "coccinelle",
        "--cache",
        tmp_path / "cache",
        "--tree",
        RDISK,
        "rdisk.c",
        env={**os.environ, "PATH": f"{folder}:{os.environ['PATH']}"},
    )
    assert ran.status == 3 and ran.err == f"wqsource: spatch fails on {RDISK}/rdisk.c (9): cannot go on\n"
    assert not [path for path in (tmp_path / "cache").rglob("*") if path.is_file()]


def test_facts_are_kept_by_what_is_in_the_file(wqsource, tmp_path):
    """The same text at another place is read from the cache: no spatch is needed then."""
    words = ("draft", "--facts", "coccinelle", "--cache", tmp_path / "cache", "rdisk.c", "--tree")
    first = wqsource(*words, RDISK)
    assert first.status == 0
    (tmp_path / "rdisk.c").write_text((RDISK / "rdisk.c").read_text())
    folder = tmp_path / "bin"
    folder.mkdir()
    (folder / "spatch").write_text("#!/bin/sh\nexit 9\n")
    (folder / "spatch").chmod(0o755)
    env = {**os.environ, "PATH": f"{folder}:{os.environ['PATH']}"}
    again = wqsource(*words, tmp_path, env=env)
    assert again.status == 0 and again.out.splitlines()[3:] == first.out.splitlines()[3:]
    (tmp_path / "rdisk.c").write_text((RDISK / "rdisk.c").read_text() + "\n")
    assert wqsource(*words, tmp_path, env=env).status == 3


def test_a_relative_cache(wqsource, tmp_path):
    """It is meant from where the command runs, and not from the tree, where spatch runs."""
    ran = wqsource("draft", "--cache", "kept", "--tree", RDISK, "rdisk.c", cwd=tmp_path)
    assert ran.status == 0 and "item rdisk_send" in ran.out
    # The facts of the file, what it calls by its text alone, and the types of its headers.
    assert len([path for path in (tmp_path / "kept").rglob("*") if path.is_file()]) == 3


class Terminal(io.StringIO):
    def isatty(self):
        return True


@pytest.mark.parametrize(
    "to,wanted", [(io.StringIO(), "wqsource: two\n"), (Terminal(), "\rwqsource: two\r             \r")]
)
def test_progress(monkeypatch, to, wanted):
    """Nothing for two seconds; then a line, which a terminal loses again."""
    now = [100.0]
    monkeypatch.setattr(progress.time, "monotonic", lambda: now[0])
    said = progress.Progress(to)
    now[0] += 1.9
    said.say("one")
    assert to.getvalue() == ""
    now[0] += 0.2
    said.say("two")
    said.end()
    assert to.getvalue() == wanted


def test_tables(tmp_path):
    table = tmp_path / "waits.txt"
    table.write_text("# a comment\ndone/2  my_wait*   # another\nnever  my_*\nother  *\nnowait NOW\n")
    waits = Waits(table)
    assert (waits.kind("my_wait_long").name, waits.kind("my_wait").argument) == ("done", 1)
    assert waits.kind("my_other").name == "never" and waits.kind("x_my_other").name == "other"
    assert waits.is_nowait([["a", "|", "NOW"]]) and not waits.is_nowait([["a"]])
    assert waits.is_nowait(["x ? NOW : NOW".split()])
    for words in ("x ? NOW : LATER", "( x ? NOW : LATER ) | b", "a & ~ NOW", "x ? y ? NOW : b : NOW"):
        assert not waits.is_nowait([words.split()]), words
    for line in ("sleeps my_wait", "done/x my_wait"):
        table.write_text("never a\n" + line + "\n")
        with pytest.raises(TableError, match=r"waits.txt:2: "):
            Waits(table)
    table.write_text("member a b\n")
    with pytest.raises(TableError, match=r"waits.txt:1: "):
        Idioms(table)
    assert (
        pattern(["a*", "b"]).fullmatch("a_1")
        and not pattern(["a*", "b"]).fullmatch("b_1")
        and not pattern([]).fullmatch("")
    )


def test_kinds_of_the_kernels_calls():
    """The names of the guide's table of waits (docs/GUIDE.md, section 2), each of which is a site or a lock."""
    waits = Waits()
    wanted = {
        "flush": "flush_work flush_delayed_work flush_rcu_work kthread_flush_work",
        "flushwq": "flush_workqueue drain_workqueue destroy_workqueue kthread_flush_worker kthread_destroy_worker "
        "flush_scheduled_work",
        "done": "wait_for_completion wait_for_completion_io wait_for_completion_timeout wait_on_bit",
        "event": "wait_event wait_event_timeout wait_event_interruptible",
        "sleep": "schedule io_schedule schedule_timeout",
        "pool": "mempool_alloc bio_alloc_bioset",
        "cancel": "cancel_work_sync cancel_delayed_work_sync kthread_cancel_work_sync",
        "lock": "mutex_lock down down_read down_write",
        "other": "lock_page lock_buffer blk_mq_freeze_queue submit_bio submit_bio_wait filemap_fdatawrite "
        "invalidate_inode_pages2 truncate_pagecache iput schedule_on_each_cpu work_on_cpu vfs_fsync synchronize_srcu "
        "blk_mq_alloc_request dm_io blkdev_issue_flush kernel_sendmsg sb_start_write del_gendisk "
        "balance_dirty_pages_ratelimited generic_write_sync device_del bdi_unregister blkdev_zone_mgmt "
        "blk_zone_issue_zeroout async_synchronize_full",
        "enter": "__add_wait_queue __add_wait_queue_entry_tail",
        "poll": "msleep msleep_interruptible ssleep usleep_range fsleep schedule_hrtimeout_range",
        "never": "cancel_work cancel_delayed_work synchronize_rcu rcu_barrier mutex_trylock mutex_unlock "
        "bt_wait_ptr is_flush_rq poll_wait",
        "wake": "wake_up wake_up_process complete complete_all",
        "queue": "queue_work mod_delayed_work schedule_work queue_delayed_work kthread_queue_work "
        "kblockd_schedule_work",
        "item": "INIT_WORK INIT_DELAYED_WORK INIT_DEFERRABLE_WORK INIT_RCU_WORK INIT_WORK_ONSTACK kthread_init_work "
        "btrfs_init_work",
        "workqueue": "alloc_workqueue alloc_ordered_workqueue create_singlethread_workqueue kthread_create_worker",
    }
    found = {name: waits.kind(name).name for names in wanted.values() for name in names.split()}
    assert found == {name: kind for kind, names in wanted.items() for name in names.split()}


def test_bytes_that_are_no_utf_8(tmp_path):
    """What a declaration has of them is printed as it is, in a locale that is strict about them as well."""
    declared = (RDISK / "rdisk.wq").read_bytes() + b"flush no\xff log  # rdisk.c:18 rdisk_log\n"
    (tmp_path / "rdisk.wq").write_bytes(declared)
    ran = programs.run(
        [ROOT / "source" / "wqsource", "audit", "--decl", tmp_path / "rdisk.wq", "--tree", RDISK, "rdisk.c"],
        env={**os.environ, "PYTHONIOENCODING": "utf-8:strict"},
        capture_output=True,
    )
    assert (ran.returncode, HOW_FAR.sub("", ran.stderr.decode())) == (0, "")
    assert b"item no\xff doesn't reach" in b" ".join(ran.stdout.split())
