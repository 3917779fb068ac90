"""How record/wqrecord ends, and what it leaves behind, on a made tracefs: folders and files in place of the kernel's,
and programs in place of those that only root may use. What a kernel does is looked at in a guest (recorder.sh)."""

import contextlib
import itertools
import os
import pathlib
import re
import shutil
import signal
import subprocess
import sys
import tarfile
import time

import pytest
from conftest import ROOT

sys.path.append(str(ROOT / "tests/lib"))
from programs import Answer, ask, started  # noqa: E402  (in tests/lib)

# (a busy machine takes its time)
SECONDS = 300
PROBES = "p sleep wq_worker_sleeping func=%di:x64\np queue __queue_work work=%dx:x64\n"
# An instance of tracefs with one CPU, whose buffer is empty.
MKDIR = """\
[ "$*" = "$INSTANCE" ] || exec /bin/mkdir "$@"
/bin/mkdir -p "$INSTANCE/per_cpu/cpu0" "$INSTANCE/events/wqrecord/sleep" "$INSTANCE/events/wqrecord/queue"
/bin/mkdir -p "$INSTANCE/events/sched/sched_waking"
printf 'entries: 0\\noverrun: 0\\ncommit overrun: 0\\nbytes: 0\\ndropped events: 0\\n' >"$INSTANCE/per_cpu/cpu0/stats"
: >"$INSTANCE/events/sched/sched_waking/trigger"
"""
RMDIR = '[ "$1" = "$INSTANCE" ] || exec /bin/rmdir "$@"\nexec rm -r "$1"\n'
# What is mounted has an instances folder.
MOUNT = '[ -z "$REFUSED" ] || { echo "mount: $REFUSED" >&2; exit 32; }\nexec /bin/mkdir "$4/instances"\n'
# Who reads an empty buffer waits. (For another time than what is recorded.)
DD = 'for word; do case $word in of=*) : >"${word#of=}" ;; esac; done\nexec sleep 1$SLEEP\n'
UMOUNT = 'exec /bin/rmdir "$1/instances"\n'
NUMBERS = itertools.count()
# (busybox takes its own programs in place of those that are made here: it is tried in the guest)
SHELLS = [shell for shell in ("dash", "bash") if shutil.which(shell)]


class Machine:
    """A copy of wqrecord that takes a folder for tracefs, and what it is started with."""

    def __init__(self, folder: pathlib.Path, shell: str) -> None:
        self.folder, self.tracing, self.state = folder, folder / "tracing", folder / "state"
        self.instance = self.tracing / "instances/wqrecord"
        text = (ROOT / "record/wqrecord").read_text()
        for name, path in ("tracing", self.tracing), ("state", self.state), ("filesystems", folder / "filesystems"):
            text, count = re.subn(rf"^{name}=.*$", f"{name}={path}", text, flags=re.M)
            assert count == 1
        # (the kernel's functions are many, and take their time)
        (folder / "wqrecord").write_text(text.replace("/proc/kallsyms", str(folder / "functions")))
        (folder / "functions").write_text("ffffffff81000000 T __queue_work\n")
        (folder / "bin").mkdir()
        fakes = {"dd": DD, "mkdir": MKDIR, "rmdir": RMDIR, "mount": MOUNT, "umount": UMOUNT}
        fakes |= {"id": "echo 0\n", "uname": '[ "$1" = -m ] && echo x86_64 || echo 6.1\n'}
        for name, lines in fakes.items():
            (folder / "bin" / name).write_text(f"#!/bin/sh\n{lines}")
            (folder / "bin" / name).chmod(0o755)
        (folder / "probes").write_text(PROBES)
        (folder / "filesystems").write_text("nodev\tsysfs\nnodev\ttracefs\n")
        (self.tracing / "instances").mkdir(parents=True)
        for name in "kprobe_events", "kprobe_profile", "saved_cmdlines":
            (self.tracing / name).touch()
        self.words = [shell, folder / "wqrecord"]
        self.record = folder / "record"
        # Three processes, one of which heeds no SIGTERM. (Nothing else sleeps for so many seconds.)
        self.sleep = f"{100000 + next(NUMBERS)}.{os.getpid()}"
        self.family = f"sleep {self.sleep} & (trap '' TERM; exec sleep {self.sleep}) & wait"
        named = {"PATH": f"{folder}/bin:{os.environ['PATH']}", "INSTANCE": str(self.instance), "SLEEP": self.sleep}
        self.environment = os.environ | named

    def run(self, *command: str, options: tuple[object, ...] = ()) -> list[object]:
        return [*self.words, "run", "--probes", self.folder / "probes", "-o", self.record, *options, "--", *command]

    def started(self, words: list[object]) -> contextlib.AbstractContextManager[subprocess.Popen]:
        given = {"stdin": subprocess.DEVNULL, "stderr": subprocess.PIPE, "env": self.environment}
        return started(words, timeout=SECONDS, **given)

    def ask(self, words: list[object]) -> Answer:
        return ask(words, timeout=SECONDS, env=self.environment)

    def is_recording(self) -> bool:
        # (COMMAND's number is the last that is written)
        return (self.state / "command").exists() and (self.state / "command").read_text().endswith("\n")

    def is_guarded(self) -> bool:
        """Has the second process a session of its own by now?"""
        return any(os.getsid(number) == number for number, _ in processes(f"{self.folder}/wqrecord guard"))

    def probes(self) -> set[str]:
        """Those that were made, and not taken away."""
        lines = (self.tracing / "kprobe_events").read_text().splitlines()
        made = {line.split()[0].split(":")[1] for line in lines if line.startswith("p:")}
        return made - {line.removeprefix("-:") for line in lines}

    def left(self) -> list[object]:
        """What there is that wasn't there before, but for the record."""
        own = {"tracing", "state", "wqrecord", "bin", "probes", "filesystems", "functions", "record"}
        return [
            *(path for path in (self.instance, self.state) if path.exists()),
            *self.probes(),
            *(path for path in self.folder.iterdir() if path.name not in own),
            *processes(f"sleep {self.sleep}"),
            *processes(str(self.folder)),
        ]


def processes(beginning: str) -> list[tuple[int, str]]:
    """The processes whose command begins so, behind its first word too, which may be a shell."""
    found = []
    for path in pathlib.Path("/proc").glob("[0-9]*/cmdline"):
        with contextlib.suppress(OSError):
            words = path.read_bytes().decode("latin-1").replace("\0", " ")
            if words.startswith(beginning) or words.partition(" ")[2].startswith(beginning):
                found.append((int(path.parent.name), words))
    return found


def wait_until(is_so: object) -> None:
    last = time.monotonic() + SECONDS
    while not is_so():
        assert time.monotonic() < last
        time.sleep(0.05)


@pytest.fixture(params=SHELLS)
def machine(tmp_path: pathlib.Path, request: pytest.FixtureRequest) -> Machine:
    made = Machine(tmp_path, request.param)
    yield made
    # (those of a test that failed)
    for path in pathlib.Path("/proc").glob("[0-9]*/environ"):
        with contextlib.suppress(OSError):
            if f"INSTANCE={made.instance}".encode() in path.read_bytes():
                os.kill(int(path.parent.name), signal.SIGKILL)


def says(machine: Machine, errors: bytes, *wanted: str) -> None:
    """Are these its lines, in which # stands for a number and FILE for the record?"""
    lines = [line for line in errors.decode().splitlines() if "has no event" not in line]
    file = re.escape(str(machine.record))
    patterns = [re.escape(line).replace(r"\#", r"\d+").replace("FILE", file) for line in wanted]
    assert len(lines) == len(patterns) and all(map(re.fullmatch, patterns, lines)), lines


WRITTEN = "wqrecord: FILE: # KB of events in # s (# KB a second), mode default"


def is_whole(machine: Machine) -> bool:
    with tarfile.open(machine.record) as record:
        return {"./cpu0.raw", "./kallsyms", "./began", "./ended"} <= set(record.getnames())


@pytest.mark.parametrize(
    "number, is_streamed, status, words",
    [
        (signal.SIGINT, False, 130, "interrupted by SIGINT"),
        (signal.SIGTERM, True, 143, "interrupted by SIGTERM"),
        (signal.SIGHUP, False, 129, "interrupted by SIGHUP"),
        (signal.SIGKILL, False, -signal.SIGKILL, "killed"),
        (signal.SIGKILL, True, -signal.SIGKILL, "killed"),
    ],
)
def test_who_is_interrupted_ends_its_command_and_writes_the_record(machine, number, is_streamed, status, words):
    stream = machine.folder / "tracing/stream"
    options = ("--stream", stream) if is_streamed else ()
    command = machine.run("sh", "-c", machine.family, options=options)
    with machine.started(command) as running:
        wait_until(lambda: machine.is_recording() and len(processes(f"sleep {machine.sleep}")) == 2)
        os.kill(running.pid, number)
        errors = running.stderr.read()
        assert running.wait() == status
    says(machine, errors, f"wqrecord: {words}: COMMAND was ended (3 processes); by SIGKILL 1 process", WRITTEN)
    wait_until(lambda: not machine.left())
    assert is_whole(machine)


def test_who_is_killed_with_its_whole_group_is_cleared_up_after(machine):
    with machine.started(machine.run("sh", "-c", machine.family)) as running:
        wait_until(lambda: machine.is_guarded() and len(processes(f"sleep {machine.sleep}")) == 2)
        os.killpg(running.pid, signal.SIGKILL)
        errors = running.stderr.read()
    says(machine, errors, "wqrecord: killed: COMMAND was ended (3 processes); by SIGKILL 1 process", WRITTEN)
    wait_until(lambda: not machine.left())
    assert is_whole(machine)


@pytest.mark.parametrize("verb", ["run", "stop"])
def test_who_is_killed_while_it_writes_leaves_nothing_at_last(machine, verb):
    # (nothing comes after the archive's first member until this program is killed)
    (machine.folder / "bin/tar").write_text('#!/bin/sh\necho begun >"$2"\nexec sleep 1000\n')
    (machine.folder / "bin/tar").chmod(0o755)
    words = machine.run("true")
    if verb == "stop":
        assert machine.ask([*machine.words, "start", "--probes", machine.folder / "probes"]).status == 0
        words = [*machine.words, "stop", "-o", machine.record]
    with machine.started(words) as running:
        wait_until(machine.record.exists)
        os.killpg(running.pid, signal.SIGKILL)
        errors = running.stderr.read()
    if verb == "run":
        says(machine, errors, "wqrecord: killed while FILE was being written: what was recorded is lost")
        assert not machine.record.exists()
    else:
        assert machine.ask([*machine.words, "drop"]).status == 0
    wait_until(lambda: not machine.left())


def test_who_has_lost_its_parent_goes_on(machine):
    shell = ["sh", "-c", '"$@" & echo $! >"$0"; wait', machine.folder / "state.run", *machine.run("sleep", "2")]
    with machine.started(shell) as running:
        wait_until(machine.is_recording)
        os.kill(running.pid, signal.SIGKILL)
        errors = running.stderr.read()
    (machine.folder / "state.run").unlink()
    says(machine, errors, WRITTEN)
    wait_until(lambda: not machine.left())
    assert is_whole(machine)


def test_nohup_is_heeded(machine):
    with machine.started(["nohup", *machine.run("sleep", "2")]) as running:
        wait_until(machine.is_recording)
        os.kill(running.pid, signal.SIGHUP)
        errors = running.stderr.read()
        assert running.wait() == 0
    says(machine, errors, WRITTEN)
    wait_until(lambda: not machine.left())


def test_a_run_that_comes_to_its_end_has_the_status_of_its_command(machine):
    answer = machine.ask(machine.run("sh", "-c", "exit 7"))
    assert answer.status == 7
    says(machine, answer.errors, WRITTEN)
    wait_until(lambda: not machine.left())
    assert is_whole(machine)


def test_a_tracefs_that_was_not_mounted_is_mounted_meanwhile(machine):
    (machine.tracing / "instances").rmdir()
    answer = machine.ask(machine.run("test", "-d", str(machine.instance)))
    assert answer.status == 0
    assert not (machine.tracing / "instances").exists()
    wait_until(lambda: not machine.left())


def test_a_tracefs_that_can_not_be_mounted_is_told(machine):
    (machine.tracing / "instances").rmdir()
    machine.environment["REFUSED"] = "permission denied"
    answer = machine.ask(machine.run("touch", str(machine.folder / "ran")))
    assert answer.status == 11
    why = "and it can't be mounted: mount: permission denied"
    says(machine, answer.errors, f"wqrecord: there is no tracefs at {machine.tracing}, {why}")
    assert not machine.left()


def test_a_kernel_without_tracefs_is_told(machine):
    (machine.tracing / "instances").rmdir()
    (machine.folder / "filesystems").write_text("nodev\tsysfs\n")
    answer = machine.ask(machine.run("touch", str(machine.folder / "ran")))
    assert answer.status == 11
    says(machine, answer.errors, "wqrecord: the kernel has no tracefs (CONFIG_TRACING)")
    assert not machine.left()


def test_a_full_disk_is_told(machine):
    # (a list of functions can't be copied to where nothing can be written; so dd and tar fail in its place)
    for name in "dd", "tar":
        (machine.folder / "bin" / name).write_text("#!/bin/sh\nexit 1\n")
        (machine.folder / "bin" / name).chmod(0o755)
    answer = machine.ask(machine.run("true"))
    assert answer.status == 3
    says(machine, answer.errors, "wqrecord: FILE can't be written: is the disk full? What was recorded is lost")
    wait_until(lambda: not machine.left())
    assert not machine.record.exists()
