#!/usr/bin/env python3
"""Does wqrecord, in a guest with an unchanged kernel, see the waits that examples/ declares? And how does it end?

guests.py

On Linux 6.1: md, dm-snapshot and nfs are recorded, and compared with their declarations; and recorder.sh has recordings
end in all ways. Where QEMU, a kernel or a program of the guest can't be had, it says so, and skips what needs it: that
is no failure.

A later kernel in which a wait isn't seen any more fails this test: then the examples have to say so.
"""

import os
import pathlib
import re
import sys
import tempfile

sys.dont_write_bytecode = True
HERE = pathlib.Path(__file__).resolve().parent
ROOT = HERE.parents[1]
sys.path += [str(ROOT / "tests/lib"), str(ROOT / "record")]
from programs import counts_of, run  # noqa: E402  (in tests/lib)

from wqr.archive import Archive  # noqa: E402  (in record)
from wqr.events import Stream, formats_of  # noqa: E402

SECONDS = 3600
MISSING = 3
counts = {True: 0, False: 0}

# By the script of record/drivers its example, and declared waits that must be seen.
WAITS = {
    "md": ("md", ["submit.upper -> submit.lower", "submit.upper -> data.lower"]),
    "dm-snapshot": (
        "dm-snapshot",
        [
            "do_work.merging -> do_work.other",
            "do_work.other => all on the workqueue of do_metadata.other",
            "do_work.merging => all on the workqueue of do_metadata.other",
        ],
    ),
    "nfs": ("nfs", ["rpc_async.put -> rpc_async", "rpc_async.put -> wb_workfn"]),
}
# Items for which nfs.wq dismisses the wait by a function that the compiler has inlined. There are no debug symbols
# here, so the stack doesn't show it.
INLINED = {"wb_update_bandwidth_workfn"}
# What recorder.sh says, in lines that begin so; # stands for a number.
SAID = """\
ended: 7, left:
input: 0, left:
input: given to the command
terminated: 143, left:
wqrecord: interrupted by SIGTERM: COMMAND was ended (3 processes); by SIGKILL 1 process
wqrecord: /tmp/terminated: # KB of events in # s (# KB a second), mode default
terminated: 1 raw
interrupted: 130, left:
wqrecord: interrupted by SIGINT: COMMAND was ended (3 processes); by SIGKILL 1 process
wqrecord: /tmp/interrupted: # KB of events in # s (# KB a second), mode default
interrupted: 1 raw
hung-up: 129, left:
wqrecord: interrupted by SIGHUP: COMMAND was ended (3 processes); by SIGKILL 1 process
wqrecord: /tmp/hung-up: # KB of events in # s (# KB a second), mode default
hung-up: 1 raw
killed: 137, left:
wqrecord: killed: COMMAND was ended (3 processes); by SIGKILL 1 process
wqrecord: /tmp/killed: # KB of events in # s (# KB a second), mode default
killed: 1 raw
nowhere: 3, left:
wqrecord: /nowhere/record can't be written
wqrecord: /tmp is a folder
folder: 3, left:
begun: 143, left:
started: 0, left: instance probes state
twice: 3, left: instance probes state
elsewhere: 3, left: instance probes state
wqrecord: /nowhere/record can't be written: end the recording by
stopped: 0, left:
stopped: 1 raw
none: 3, left:
dropped: 0, left:
wqrecord: LOST:
lost: 4, left:
streamed: 0, left:
text: 0, left:
wqrecord: this kernel has no no_such_function: no sleep is recorded
wqrecord: without the probes of wq_worker_sleeping
lacking: 12, left:
wqrecord: the kernel refuses the probe p:wqrecord/refused __flush_work
wqrecord: 1 probes were refused by the kernel
refused: 0, left:
unmounted: 0, left:
wqrecord: there is no tracefs at /sys/kernel/tracing, and it can't be mounted: mount: permission denied
unmountable: 11, left:
wqrecord: the kernel has no tracefs (CONFIG_TRACING)
traceless: 11, left:
unprepared: 3, left:
untyped: 14, left:
wqrecord: only root may record
unprivileged: 10, left:
hidden: 15, left:
locked: 13, left:
wrong: 2, left:
probeless: 12, left:
"""
NEVER = ["/tmp/ran", "unmounted: it is mounted now"]


def tell(passed, name, why=""):
    """Counts one that passed or failed."""
    counts[bool(passed)] += 1
    print(f"{'ok     ' if passed else 'FAILED '} {name}{f': {why}' if not passed and why else ''}", flush=True)


def guest(script, folder):
    """Lets a guest read a script. None where it can't be had; else what it said."""
    ended = run([ROOT / "record/example", script, "--out", folder], timeout=SECONDS, capture_output=True)
    if ended.returncode == MISSING and "early" not in ended.stderr.decode():
        print(f"skipped record, {script}: {ended.stderr.decode().strip()}")
        return None
    tell(ended.returncode == 0, f"{script}: the guest", ended.stderr.decode())
    return ended.stdout.decode("latin-1")


def compare(script, folder):
    """Is each wait seen, and none that isn't declared?"""
    example, wanted = WAITS[script]
    declaration = ROOT / f"examples/{example}.wq"
    words = ["--assign", declaration.with_suffix(".assign"), "--debug", "/nowhere"]
    ended = run([ROOT / "record/wqrecord", "compare", declaration, folder / "record", *words], capture_output=True)
    text = ended.stdout.decode()
    holes = set(re.findall(r"^  \S+ -> (\S+): ", text[: text.index("seen, but dismissed: ")], re.M))
    tell(ended.returncode in (0, 1) and holes <= INLINED, f"{script}: no wait is seen that isn't declared", f"\n{text}")
    unseen = re.findall(r"^  line \d+: (.+)$", text[text.index("declared, never seen: ") :], re.M)
    for wait in wanted:
        tell(wait not in unseen, f"{script}: {wait}", "it wasn't seen")


# What the kernel itself says of the same events -------------------------------------------------------

LINE = re.compile(r"^ *.+-(\d+) +\[(\d+)\] (\S+) +(\d+\.\d+): (\w+): (.*)$")


def told_by_kernel(text):
    """Of each event in the kernel's own text the time in microseconds, the thread, the event, and what it tells."""
    rows = []
    for line in text.splitlines():
        match = LINE.match(line)
        if match and match[5] != "kernel_stack":
            rows.append((round(float(match[4]) * 1e6), int(match[1]), match[5], fields_of(match[5], match[6])))
    return rows


def fields_of(event, words):
    """The fields by which it is compared."""
    if event == "sched_waking":
        return re.search(r"comm=(.+) pid=(\d+) ", words).groups()
    found = dict(re.findall(r"(\w+)=\"?([^\s\"]+)\"?", words))
    if event == "queue":
        return int(found["wq"], 16), int(found["work"], 16), found["name"]
    return (int(found["work"], 16),) if event in ("sleep", "flush_work", "delayed") else ()


def told_by_record(archive):
    formats = formats_of(archive.text("formats"))
    rows = []
    for cpu, pages in archive.pages().items():
        for event in Stream(cpu, pages, formats).events():
            value = event.values
            fields = ()
            if event.name == "sched_waking":
                fields = value["comm"], str(value["pid"])
            elif event.name == "queue":
                fields = value["wq"], value["work"], value["name"]
            elif event.name in ("sleep", "flush_work", "delayed"):
                fields = (value["work"],)
            rows.append(((event.time + 500) // 1000, event.pid, event.name, fields))
    return rows


def same_events(folder):
    """Are the events of the record those of the kernel's own text?"""
    wanted, found = told_by_kernel((folder / "text").read_text("latin-1")), told_by_record(
        Archive.read(folder / "record")
    )
    tell(len(wanted) > 50, "recorder.sh: the kernel's own text has events", f"{len(wanted)}")
    different = [pair for pair in zip(wanted, found) if pair[0] != pair[1]]
    tell(len(wanted) == len(found), "recorder.sh: as many are in the record", f"{len(wanted)} and {len(found)}")
    tell(not different, "recorder.sh: and the same ones", f"{different[:2]}")


def recorder(folder):
    said = guest(str(HERE / "recorder.sh"), folder)
    if said is None:
        return
    at, lines = 0, said.splitlines()
    for wanted in SAID.splitlines():
        # (what is left stands behind the colon, so that must be all of the line)
        end = "$" if ", left:" in wanted else ""
        pattern = re.compile(re.escape(wanted).replace(r"\#", r"\d+") + end)
        where = next((n for n in range(at, len(lines)) if pattern.match(lines[n])), None)
        tell(where is not None, f"recorder.sh: {wanted}", "it didn't say so")
        at = at if where is None else where + 1
    for line in NEVER:
        tell(line not in lines, f"recorder.sh: not {line}")
    same_events(folder)
    archive = Archive.read(folder / "streamed")
    size = sum(len(pages) for pages in archive.pages().values())
    tell(
        size > 128 * 1024 and not archive.lost(),
        "recorder.sh: a stream is larger than its buffer",
        f"{size}, {archive.lost()}",
    )


def main():
    os.chdir(ROOT)
    with tempfile.TemporaryDirectory(prefix="wqrecord.") as room:
        for script in WAITS:
            folder = pathlib.Path(room) / script
            if guest(script, folder) is not None:
                compare(script, folder)
        recorder(pathlib.Path(room) / "recorder")
    return counts_of("record", counts[True], counts[False])


if __name__ == "__main__":
    sys.exit(main())
