#!/usr/bin/env python3
"""Do real drivers hang in a real kernel as the pages of examples/ say? By kernel/driver and its scripts.

    drivers.py [--patched] [SCRIPT ..]

On Linux 6.1, unchanged: an NFS mount that ends while a delegation is on its way back (examples/nfs.md), md on md
(examples/md.md), NVMe whose connection is lost while a partition table is read (examples/nvme-multipath.md), and a thin
pool that can't write its metadata (examples/dm-thin.md). On Linux 6.12: NVMe whose connection is lost twice
(examples/nvme-scan.md). While no worker can be created these must hang, and the rescuer must sleep where the page says;
and the status must be 1, since the script then says `failed`. So must an NVMe target on a full ext4 (examples/ext4.md),
and a SCSI target that was sent PREEMPT AND ABORT (examples/target.md), where a worker sleeps, and no shortage is made.
It takes two minutes of processor time.

With --patched also what the pages say of patched drivers, and of each script on the other kernel: that takes some ten
minutes more the first time, and downloads the sources of two kernels, some 290 MB. It is run before a release.

With names, as nvme.sh, only what these scripts do is tried.

A later kernel that doesn't hang fails this test: then the pages have to say so. The thin pool hangs only if memory is
asked back within the second in which its write fails. A guest that is slow, on a busy host, can miss it, and so it has
three tries.

Where QEMU or a kernel can't be had, it says so, and skips what needs it: that is no failure.
"""

import pathlib
import re
import sys

sys.dont_write_bytecode = True
ROOT = pathlib.Path(__file__).resolve().parents[2]
sys.path.append(str(ROOT / "tests/lib"))
from programs import counts_of, run  # noqa: E402  (in tests/lib)

SCRIPTS = ROOT / "kernel/drivers"
SECONDS = 3600
MISSING = 3
counts = {True: 0, False: 0}

NFS = "nfs.sh"
ENDS_A_MOUNT = "generic_shutdown_super", "nfs_kill_super", "deactivate_locked_super", "nfs4_delegreturn_release"
ON_RPCIOD = "rpc_wait_bit_killable", "_nfs4_proc_delegreturn", "evict_inodes", *ENDS_A_MOUNT, "rpc_async_schedule"
IN_SYNC = "wb_wait_for_completion", "sync_filesystem", *ENDS_A_MOUNT
ON_MD = "md_flush_request", "raid1_make_request", "submit_flushes"
READS_A_TABLE = "read_part_sector", "bdev_disk_changed", "nvme_partition_scan_work"
ABORTS = "flush_work", "dm_pool_abort_metadata", "metadata_operation_failed", "commit", "do_worker"
SCANS = "async_synchronize_cookie_domain", "nvme_scan_ns_list", "nvme_scan_work"
CARRIES_OUT = "__target_execute_cmd", "tcm_loop_write_pending", "transport_generic_new_cmd", "target_queued_submit_work"
PREEMPTS = "core_tmr_lun_reset", "core_scsi3_pro_preempt", "target_scsi3_emulate_pr_out", *CARRIES_OUT, "worker_thread"
FULL = "ext4_should_retry_alloc", "ext4_da_write_begin", "nvmet_file_execute_io"
ENDS_AN_ASSOCIATION = "__flush_workqueue", "nvmet_fc_delete_assoc_work"
# What a script says before what hangs, and before what does so later.
PARTS = "while no worker can be created", "with memory again", "with memory", "three minutes later"


class Run:
    """One guest: its script, the flags of kernel/driver, and what must be so while no worker can be created: how much
    hangs, and where the rescuer sleeps, as functions of its stack in their order. `stays`: so it is with memory again.
    `tries`: so many guests there are at most, until what hangs does.
    """

    def __init__(self, script, *flags, hung=0, rescuer=None, frames=(), stays=False, tries=1):
        self.script, self.flags, self.hung, self.rescuer, self.frames = script, flags, hung, rescuer, frames
        self.stays, self.tries = stays, tries
        if self.frames and self.frames[-1] != "worker_thread":
            self.frames = *frames, "rescuer_thread"

    def words(self):
        """The command that the script's head has, with the flags."""
        text = (SCRIPTS / re.sub("-(dirty|twice)", "", self.script)).read_text().replace("\\\n#", "")
        modules = re.search(r"^# +kernel/driver .*kernel/drivers/\S+ (.+)$", text, re.MULTILINE)[1].split()
        return [ROOT / "kernel/driver", *self.flags, SCRIPTS / self.script, *modules]


THIN = "thin.sh", "--program", "dmsetup"
TARGET = "target.sh", "--program", "sg_persist"
EXT4 = "ext4.sh", "--program", "mkfs.ext4"
BY_FCLOOP = "nvmet-fc.sh", "--patch", SCRIPTS / "fcloop.patch"
WITH_TWICE = "nvme-twice.sh", "--file", SCRIPTS / "nvme.sh"
UNCHANGED = [
    Run(NFS, hung=1, rescuer="rpciod", frames=ON_RPCIOD),
    Run("md.sh", hung=4, rescuer="md", frames=ON_MD, stays=True),
    Run(*THIN, hung=1, rescuer="dm-thin", frames=ABORTS, tries=3),
    Run(*EXT4, hung=2, rescuer="nvmet-buffered-", frames=("flush_work", *FULL)),
    Run("nvme.sh", hung=1, rescuer="nvme-wq", frames=READS_A_TABLE),
    Run(*WITH_TWICE, "--kernel", "6.12", hung=1, rescuer="kworker/R-nvme-wq", frames=SCANS),
    Run(*TARGET, hung=2, rescuer="target_submission", frames=("flush_work", *PREEMPTS), stays=True),
]
WITH_NFS = "--patch", SCRIPTS / "nfs.patch"
WITH_DIRTY = "nfs-dirty.sh", "--file", SCRIPTS / NFS
PATCHED = [
    Run(*WITH_DIRTY, hung=1, rescuer="rpciod", frames=(*IN_SYNC, "rpc_async_schedule")),
    Run(NFS, *WITH_NFS),
    Run(*WITH_DIRTY, *WITH_NFS, hung=1, rescuer="nfsiod", frames=(*IN_SYNC, "rpc_async_release")),
    Run(NFS, "--patch", SCRIPTS / "nfs-own.patch"),
    Run(*WITH_DIRTY, "--patch", SCRIPTS / "nfs-own.patch"),
    Run("md.sh", "--patch", SCRIPTS / "md.patch"),
    Run(NFS, "--kernel", "6.12", hung=1, rescuer="kworker/R-rpciod", frames=ON_RPCIOD),
    Run(NFS, "--kernel", "6.12", *WITH_NFS),
    Run(*WITH_TWICE),
    Run(*THIN, "--kernel", "6.12", hung=1, rescuer="kworker/R-dm-thin", frames=("__flush_work", *ABORTS[1:]), tries=3),
    Run(*EXT4, "--kernel", "6.12", hung=2, rescuer="kworker/R-nvmet-buffered-io-wq", frames=("__flush_work", *FULL)),
    Run(*BY_FCLOOP, hung=1, rescuer="nvmet-wq", frames=ENDS_AN_ASSOCIATION),
    Run(*BY_FCLOOP, "--patch", SCRIPTS / "nvmet-fc.patch"),
    Run(*BY_FCLOOP, "--kernel", "6.12", hung=1, rescuer="kworker/R-nvmet-wq", frames=ENDS_AN_ASSOCIATION),
    Run(*TARGET, "--kernel", "6.12", hung=2, rescuer="target_submission", frames=("__flush_work", *PREEMPTS), stays=True),
    Run(*TARGET, "--patch", SCRIPTS / "target.patch"),
    Run(*TARGET, "--patch", SCRIPTS / "target.patch", "--kernel", "6.12"),
]


def tell(passed, name, why=""):
    """Counts one that passed or failed."""
    counts[bool(passed)] += 1
    print(f"{'ok     ' if passed else 'FAILED '} {name}{f': {why}' if not passed and why else ''}", flush=True)


def parts_of(console):
    """What the script said while something hangs, and what it said later."""
    return re.split(f"^(?:{'|'.join(PARTS)}):\n", console, flags=re.MULTILINE)[1:]


def hanging(part):
    """What hangs, as the script says, or None where it says nothing."""
    said = re.findall(r"^(.+): (HANGS?|returned|go on)$", part, re.MULTILINE)
    return [what for what, how in said if how.startswith("HANG")] if said else None


def stack_of(part, thread):
    """The functions of a thread's stack, the innermost first. A rescuer's name goes on with what it executes."""
    found = re.search(rf"^== {re.escape(thread)}(?:\+.*)?\n((?: +\[<0>\].*\n)*)", part, re.MULTILINE)
    return re.findall(r"\] (\w+)", found[1]) if found else []


def is_part_of(wanted, functions):
    """Whether the wanted functions are among these, in their order."""
    left = iter(functions)
    return all(any(name == each for each in left) for name in wanted)


def judge(asked, console, status):
    """Counts what the console of a guest says, and whether the status of the command goes with it."""
    name = " ".join(str(word).replace(f"{ROOT}/", "") for word in [*asked.flags, asked.script])
    parts = parts_of(console)
    if len(parts) != 2:
        tell(False, name, f"the guest didn't come to its end:\n{console[-2000:]}")
        return
    tell(status == (1 if asked.hung else 0), f"{name}: the status", f"{status}")
    during, after = parts
    hung = hanging(during)
    tell(hung is not None and len(hung) == asked.hung, f"{name}: what hangs", f"{hung}")
    if asked.rescuer:
        stack = stack_of(during, asked.rescuer)
        tell(is_part_of(asked.frames, stack), f"{name}: where {asked.rescuer} sleeps", " ".join(stack))
    tell(hanging(after) == (hung if asked.stays else []), f"{name}: with memory again", f"{hanging(after)}")


def run_until_it_hangs(asked):
    """The last of its guests: of these only the last may hang."""
    for tried in range(1, asked.tries + 1):
        ended = run(asked.words(), timeout=SECONDS, capture_output=True)
        parts = parts_of(ended.stdout.decode("latin-1"))
        if tried == asked.tries or len(parts) != 2 or hanging(parts[0]) != []:
            return ended
        print(f"        {asked.script} didn't hang in try {tried} of {asked.tries}", flush=True)


def main(arguments):
    named = [word for word in arguments if word != "--patched"]
    tried = UNCHANGED + (PATCHED if "--patched" in arguments else [])
    for asked in [one for one in tried if not named or one.script in named]:
        ended = run_until_it_hangs(asked)
        if ended.returncode == MISSING and not ended.stdout:
            print(f"skipped drivers, {asked.script}: {ended.stderr.decode().strip()}")
            continue
        judge(asked, ended.stdout.decode("latin-1"), ended.returncode)
    return counts_of("drivers", counts[True], counts[False])


if __name__ == "__main__":
    sys.exit(main(sys.argv[1:]))
