"""A scan of modules of Linux 6.1 beside what is known: the waits that the examples declare, and hangs that were read.

`python3 tests/source/recall.py TREE` prints the same of all at once.
"""

import pytest
import recall

from csource import scan
from test_linux import LINUX

pytestmark = pytest.mark.skipif(not (LINUX / "Makefile").exists(), reason="no source of Linux 6.1: set LINUX_6_1")

# So many of an example's waits are to be found, sure or unsure, with the files that the scan chooses itself.
LEAST_RECALL = 0.70
# Its four waits are of an array on an array: `submit_bio` leads back to the driver, which only --stacked follows.
NOT_FOUND = ("md",)
EXAMPLES = {module: example for example, module in recall.MODULES.items()}

# Sure lines that were read in the source of 6.1.192: (item, target, function of the wait), and whether they can happen.
READ = {
    "drivers/nvme/host/nvme-core": {
        ("nvme_ctrl_auth_work", "nvme_queue_auth_work", "nvme_auth_negotiate"): True,
        ("nvme_scan_work", "nvme_partition_scan_work", "nvme_mpath_remove_disk"): True,
        ("nvme_fw_act_work", "nvme_queue_auth_work", "nvme_auth_stop"): True,
    },
    "drivers/scsi/qla2xxx/qla2xxx": {
        ("qla2x00_iocb_work_fn", "qla24xx_delete_sess_fn", "qla24xx_do_nack_work"): True,
    },
    "fs/xfs/xfs": {
        ("xfs_inodegc_worker", "*", "xfs_inodegc_wait_all"): True,
        # xlog_force_shutdown is given SHUTDOWN_LOG_IO_ERROR, and then doesn't force the log
        ("xlog_cil_push_work", "*", "xlog_cil_push_now"): False,
    },
    "drivers/block/nbd": {
        # the last reference isn't dropped there
        ("recv_work", "*", "nbd_dev_remove"): False,
    },
    "drivers/nvme/target/nvmet": {
        ("nvmet_fc_delete_assoc_work", "*", "nvmet_fc_delete_target_assoc"): True,
        # the workqueue was just made
        ("nvmet_fc_handle_ls_rqst_work", "*", "nvmet_fc_alloc_target_queue"): False,
    },
    "drivers/net/ethernet/amd/xgbe/amd-xgbe": {
        # the interrupt is masked till an_work has run
        ("xgbe_an_irq_work", "xgbe_an_state_machine", "xgbe_an_irq_work"): False,
    },
}
# What can't happen and is told all the same: no state of a device is known.
FALSE_AND_TOLD = {("xgbe_an_irq_work", "xgbe_an_state_machine", "xgbe_an_irq_work")}


@pytest.fixture(scope="module")
def scanned(cache, wqplan):
    return recall.tree_scan(LINUX, cache)


@pytest.mark.parametrize("module", dict.fromkeys([*recall.MODULES.values(), *READ]))
def test_module(scanned, module, record_property):
    """Each module is scanned once, for both. What is counted is printed at the end of all tests."""
    one = recall.scan_module(scanned, module)
    say = lambda text: record_property("measured", text)
    if module in EXAMPLES:
        check_recall(EXAMPLES[module], recall.count(EXAMPLES[module], one), say)
    if module in READ:
        result = scan.UnitResult(module)
        one.fill(result)
        told = {(row.item, row.target, row.key.split()[1]) for row in result.rows if row.is_sure}
        check_read(module, told, say)


def check_recall(example, counted, say):
    say(f"{recall.row(example, counted.files, counted.counts)} (files, sure, unsure, missed, no item)")
    if example in NOT_FOUND:
        assert counted.share == 0, "more is found than is said here"
    else:
        assert counted.share >= LEAST_RECALL, counted.missed


def check_read(module, told, say):
    """What is known to hang is told; of what can't happen, no more than is said above."""
    real = {key for key, can_happen in READ[module].items() if can_happen}
    false = set(READ[module]) - real
    say(f"{module}: of {len(told & (real | false))} sure lines that were read {len(told & real)} can happen")
    assert real <= told
    assert told & false == false & FALSE_AND_TOLD
