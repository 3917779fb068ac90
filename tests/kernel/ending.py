#!/usr/bin/env python3
"""How the commands of kernel/ end where they are ended, and what nobody but a guest can tell of a file of C.

    ending.py PROGRAM

The judge, while its guest boots, gets SIGINT, SIGTERM, SIGHUP and SIGKILL, and kernel/driver SIGTERM: each time QEMU
must be gone, and nothing may be left. `--write-c` writes a file for an assignment that hangs, one for another, and one
for a safe one with a workqueue without a rescuer: their modules are built and loaded in a guest, whose script then
leaves early, which kernel/driver must tell.

Where QEMU or a kernel can't be had, it says so, and skips what needs it: that is no failure. It takes some fifteen
seconds of processor time.
"""

import os
import pathlib
import re
import signal
import subprocess
import sys
import tempfile
import time

sys.dont_write_bytecode = True
ROOT = pathlib.Path(__file__).resolve().parents[2]
for folder in ("kernel/lib", "tests/lib"):
    sys.path.append(str(ROOT / folder))
import guest  # noqa: E402  (in kernel/lib, as is the next one)
import packages  # noqa: E402
from programs import counts_of, is_there, run, started  # noqa: E402  (in tests/lib)

SERIES = "6.1"
SECONDS = 600
counts = {True: 0, False: 0}


def tell(passed, name, why=""):
    """Counts one that passed or failed."""
    counts[bool(passed)] += 1
    print(f"{'ok     ' if passed else 'FAILED '} {name}{f': {why}' if not passed and why else ''}", flush=True)


def wait_until(condition, seconds=60):
    """What the condition answers, once that is something, or when so many seconds have passed."""
    end = time.monotonic() + seconds
    while not (found := condition()) and time.monotonic() < end:
        time.sleep(0.05)
    return found


def guest_of(parent):
    """The number of the QEMU that a process has started, or nothing."""
    for path in pathlib.Path("/proc").glob("[0-9]*/stat"):
        try:
            name, fields = re.fullmatch(r"\d+ \((.*)\) (.*)", path.read_text().strip(), re.S).groups()
        except OSError:
            continue
        if name.startswith("qemu") and int(fields.split()[1]) == parent:
            return int(path.parent.name)
    return None


def try_signals():
    examples = ROOT / "examples"
    judge = [ROOT / "kernel/judge", examples / "md.wq", examples / "md.assign"]
    driver = [ROOT / "kernel/driver", ROOT / "kernel/drivers/md.sh", "brd"]
    for words, number, status in (
        (judge, signal.SIGINT, 130),
        (judge, signal.SIGTERM, 143),
        (judge, signal.SIGHUP, 129),
        (judge, signal.SIGKILL, -9),
        (driver, signal.SIGTERM, 143),
    ):
        with tempfile.TemporaryDirectory() as folder:
            name = f"kernel/{words[0].name}, {number.name}"
            given = dict(env={**os.environ, "TMPDIR": folder}, stdout=subprocess.PIPE, stderr=subprocess.PIPE, text=True)
            with started(words, timeout=SECONDS, **given) as ended:
                machine = wait_until(lambda: guest_of(ended.pid))
                ended.send_signal(number)
                printed, errors = ended.communicate()
                tell(machine, f"{name}: a guest ran", errors)
                tell(ended.returncode == status, f"{name}: the status is {status}", f"{ended.returncode}")
                tell("Traceback" not in errors and not printed, f"{name}: it says so in a line", printed + errors)
                is_gone = wait_until(lambda: not pathlib.Path(f"/proc/{machine}").exists(), 10)
                tell(is_gone, f"{name}: QEMU is gone")
                tell(not os.listdir(folder), f"{name}: nothing is left", f"{os.listdir(folder)}")


# By the name of the module the declaration and the assignment, the status, and what the module says while no worker can
# be created: that of examples/nvme-auth.md, which hangs; the one of later kernels; and one in which nobody waits for
# what has no rescuer, so that `safe` says nothing of it.
WRITTEN = {
    "bare": (
        "rdisk/rdisk.wq",
        "rdisk/system.assign",
        0,
        [
            "send has finished",
            "log has finished",
            "reconnect is pending on system_wq",
            "receive is pending on system_wq",
        ],
    ),
    "later": (
        "nvme-auth.wq",
        "nvme-auth.later.assign",
        0,
        [f"{item} has finished" for item in ("io_work", "auth_work", "dhchap_auth_work", "connect_work")],
    ),
    "before": (
        "nvme-auth.wq",
        "nvme-auth.assign",
        1,
        [
            "io_work has finished",
            "auth_work is pending on nvme-wq",
            "dhchap_auth_work runs on nvme-wq, and waits in flush_work() of auth_work",
            "connect_work is pending on nvme-wq",
        ],
    ),
}


def written(folder, kernel, name, declaration, assignment, status):
    """The module of a file that the judge writes."""
    place = folder / name
    place.mkdir()
    examples = ROOT / "examples"
    words = [ROOT / "kernel/judge", examples / declaration, examples / assignment, "--write-c", place / f"{name}.c"]
    ended = run(words, capture_output=True, timeout=SECONDS)
    tell(ended.returncode == status, f"--write-c {name}.c ends with {status}", ended.stderr.decode())
    (place / "Makefile").write_text(f"obj-m := {name}.o\nall:\n\t$(MAKE) -C $(HEADERS) M=$(CURDIR) modules\n")
    kernel.build(place)
    return place / f"{name}.ko"


def try_written(kernel):
    with tempfile.TemporaryDirectory() as folder:
        folder = pathlib.Path(folder)
        files = [written(folder, kernel, name, *words) for name, (*words, _) in WRITTEN.items()]
        script = "echo 7 >/proc/sys/kernel/printk\n" + "".join(f"$busybox insmod /{path.name}\n" for path in files)
        (folder / "script").write_text(script + "exit 5\n")
        words = [ROOT / "kernel/driver", *(word for path in files for word in ("--file", path)), folder / "script"]
        ended = run([*words, "--kernel", kernel.series], capture_output=True, timeout=SECONDS)
        console = ended.stdout.decode("latin-1").replace("\r", "")
    for name, (*_, wanted) in WRITTEN.items():
        said = re.findall(rf"^\[[ .0-9]+\] {name}: (.*)$", console, re.M)
        at = said.index("while no worker can be created:") if "while no worker can be created:" in said else 0
        found = [line.strip() for line in said[at + 1 : at + 1 + len(wanted)]]
        tell(found == wanted, f"{name}.c says where each item is", f"{said} {console[-1000:] if not said else ''}")
    tell("before: while no worker can be created: IT HANGS" in console, "before.c hangs")
    tell("later: while no worker can be created: all have finished" in console, "later.c doesn't")
    tell("bare: while no worker can be created: all that have a rescuer have finished" in console, "nor does bare.c")
    tell("bare: with memory again: all have finished" in console, "with memory bare.c has nothing left")
    tell(ended.returncode == 3, "a script that leaves early is a fault", f"{ended.returncode} {ended.stderr.decode()}")


def main(arguments):
    if not is_there("kernel_ending", *arguments):
        return 1
    os.environ["WQPLAN"] = os.path.realpath(arguments[0])
    try:
        packages.qemu()
        kernel = guest.kernel_of(SERIES)
    except packages.Missing as why:
        print(f"skipped kernel_ending: {why}")
        return 0
    try_signals()
    try_written(kernel)
    return counts_of("kernel_ending", counts[True], counts[False])


if __name__ == "__main__":
    sys.exit(main(sys.argv[1:]))
