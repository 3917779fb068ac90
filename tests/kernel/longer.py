#!/usr/bin/env python3
"""What takes too long for the gate, and is run before a release.

    longer.py [PART ..] [--seeds FIRST-LAST]

Without a PART it does all of these:

reclaim    kernel/drivers/nfs-reclaim.sh on both kernels: kswapd must wait for the server that doesn't answer
           (examples/nfs.md)
attached   what is attached to the mail of docs/GUIDE.md, section 14 (kernel/nfs-report), on both kernels: the module is
           built in a folder that has nothing else, and the script, with it alone, must say what hangs
md, nfs    kernel/drivers/md-memory.sh, and nfs-memory.sh on both kernels: memory alone is short, in guests with other
           seeds (1 to 20). Each must come into that state and to its end. How many hang is counted, and told; in one
           that does, the rescuer must sleep where the pages say

Each guest takes some minutes of processor time. Where QEMU or a kernel can't be had, it says so, and skips what needs
it: that is no failure.
"""

import argparse
import pathlib
import re
import shutil
import subprocess
import sys
import tempfile

sys.dont_write_bytecode = True
import drivers  # noqa: E402  (beside this)

sys.path.append(str(drivers.ROOT / "kernel/lib"))
import packages  # noqa: E402  (in kernel/lib)

REPORT = drivers.ROOT / "kernel/nfs-report"
ENDS_BY_ANSWER = "nfs4_delegreturn_release", "rpc_async_schedule"
# What a machine has and the guest hasn't: programs by their names, and a shell.
AS_A_MACHINE = "$busybox --install -s /bin\nexport PATH=/bin\nmkdir -p /run\nsh /nfs-hang.sh {how}\n"
# How the script is called; the memory of its guest; and what it says of kthreadd, of rpciod's rescuer and of fsync, while
# no worker can be created and later, as patterns.
BY_THREADS = "", "1024M", ["goes on", "HANGS", "HANGS", "returned"]
BY_MEMORY = "memory", "192M", ["HANGS", "HANGS", "HANGS", "returned"]
# (in 6.12 the server, which is in the guest, doesn't always answer then, and the rescuer may be idle)
BY_MEMORY_6_12 = "memory", "192M", ["HANGS", "HANGS|goes on", "HANGS", "returned"]
RECLAIM = "nfs-reclaim.sh"
SEEDS = "1-20"
PARTS = "reclaim", "attached", "md", "nfs"


def console_of(flags, script):
    """What a guest with this script says, or None where it can't be had."""
    ended = drivers.run(drivers.Run(script, *flags).words(), timeout=drivers.SECONDS, capture_output=True)
    if ended.returncode == drivers.MISSING and not ended.stdout:
        print(f"skipped longer, {script}: {ended.stderr.decode().strip()}")
        return None
    return ended.stdout.decode("latin-1")


def reclaim(series):
    """Does kswapd wait for the server while the network is down?"""
    console = console_of(("--kernel", series, "--memory", "256M"), RECLAIM)
    if console is not None:
        parts = r"^while memory is short, and the network is down:\n(.*?)^with the network again:"
        during = re.search(parts, console, re.MULTILINE | re.DOTALL)
        passed = during is not None and "kswapd0: HANGS\n" in during[1]
        drivers.tell(passed, f"{RECLAIM} on {series}: kswapd waits for the server", console[-1500:])


def attached(series, how, memory, wanted):
    """Does what is attached to the mail run without this repository?"""
    name = f"nfs-hang.sh {how} on {series}"
    why = packages.missing(series)
    if why:
        print(f"skipped longer, {name}: {why}")
        return
    kernel = packages.kernels(series)[0]
    with tempfile.TemporaryDirectory() as temporary:
        folder = pathlib.Path(temporary)
        shutil.copy(REPORT / "noworker.c", folder)
        (folder / "Makefile").write_text("obj-m := noworker.o\n")
        (folder / "script").write_text(AS_A_MACHINE.format(how=how))
        made = ["make", "-C", kernel.headers(), f"M={folder}", *kernel.compiler(), "modules"]
        subprocess.run(made, check=True, capture_output=True, timeout=drivers.SECONDS)
        files = ["--file", REPORT / "nfs-hang.sh", "--file", folder / "noworker.ko"]
        words = [drivers.ROOT / "kernel/driver", "--kernel", series, "--memory", memory, *files, folder / "script"]
        words += ["nfsv4", "nfsd"]
        console = drivers.run(words, timeout=drivers.SECONDS, capture_output=True).stdout.decode("latin-1")
    said = re.findall(r"^(?:kthreadd, which|the rescuer of rpciod, which|fsync of) .*: (.*)$", console, re.MULTILINE)
    is_said = len(said) == len(wanted) and all(map(re.fullmatch, wanted, said))
    drivers.tell(is_said, f"{name}: {', '.join(said)}", console[-6000:])


def listed_stack(console, thread):
    """The functions of a thread's stack in the kernel's own list of tasks, the innermost first."""
    tasks = re.split(r"^\[ *[\d.]+\] task:", console, flags=re.MULTILINE)[1:]
    found = [task for task in tasks if task.startswith(f"{thread[:15]:<15} state:")]
    return re.findall(r"^\[ *[\d.]+\]  (\w+)\S*\+", found[0], re.MULTILINE) if found else []


def of_memory(seeds, series, script, rescuer, frames, where):
    """How often this hangs if memory alone is short. `where` finds the rescuer's stack, which tells whether it does."""
    hung = 0
    for seed in seeds:
        name = f"{script} on {series}, seed {seed}"
        console = console_of(("--kernel", series, "--pressure", "8", "--seed", str(seed)), script)
        if console is None:
            return
        stack = where(console, rescuer)
        drivers.tell(re.search(r"wqjudge: \d+ short$", console, re.MULTILINE), f"{name}: no worker can be created", console[-1500:])
        drivers.tell(re.search(r"wqjudge: \d+ bye$", console, re.MULTILINE), f"{name}: its end", console[-1500:])
        hung += drivers.is_part_of(frames, stack)
    print(f"        {script} on {series}: of {len(seeds)} tries {hung} hang", flush=True)


def main(arguments):
    parser = argparse.ArgumentParser(description=__doc__, formatter_class=argparse.RawDescriptionHelpFormatter)
    parser.add_argument("part", nargs="*", default=PARTS, help=", ".join(PARTS))
    parser.add_argument("--seeds", default=SEEDS, help=f"as {SEEDS}, which is the default")
    options = parser.parse_args(arguments)
    first, last = map(int, options.seeds.split("-"))
    seeds = range(first, last + 1)
    for series in packages.SERIES:
        if "reclaim" in options.part:
            reclaim(series)
        if "attached" in options.part:
            attached(series, *BY_THREADS)
            attached(series, *(BY_MEMORY if series == "6.1" else BY_MEMORY_6_12))
    if "md" in options.part:
        of_memory(seeds, "6.1", "md-memory.sh", "md", drivers.ON_MD, drivers.stack_of)
    if "nfs" in options.part:
        of_memory(seeds, "6.1", "nfs-memory.sh", "rpciod", ENDS_BY_ANSWER, listed_stack)
        of_memory(seeds, "6.12", "nfs-memory.sh", "kworker/R-rpciod", ENDS_BY_ANSWER, listed_stack)
    return drivers.counts_of("longer", drivers.counts[True], drivers.counts[False])


if __name__ == "__main__":
    sys.exit(main(sys.argv[1:]))
