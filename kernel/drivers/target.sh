# For kernel/driver: a SCSI target whose work item waits for itself (examples/target.md). The guest has a disk by its own
# target, tcm_loop. A process registers a key at this disk, reserves it, and sends PREEMPT, and then PREEMPT AND ABORT.
# Then another process reads from the disk. No shortage is made.
#
#     kernel/driver --program sg_persist kernel/drivers/target.sh target_core_mod tcm_loop sd_mod sg
#
# With --patch kernel/drivers/target.patch the item doesn't wait for itself, and nothing hangs.

$busybox mkdir /config
$busybox mount -t configfs config /config
disk=/config/target/core/rd_mcp_0/disk
portal=/config/target/loopback/naa.6001405000000001/tpgt_1
$busybox mkdir -p $disk
echo rd_pages=1024 >$disk/control
echo 1 >$disk/enable
$busybox mkdir -p $portal
echo naa.6001405000000002 >$portal/nexus
$busybox mkdir $portal/lun/lun_0
$busybox ln -s $disk $portal/lun/lun_0/disk
wait_for 5
$busybox ls -d /dev/sd* /dev/sg*

sg_persist --out --register --param-sark=0xa /dev/sg0
sg_persist --out --reserve --param-rk=0xa --prout-type=1 /dev/sg0
sg_persist --in --read-keys /dev/sg0

# of_target: where the worker sleeps that carries out commands.
of_target() {
    for task in /proc/[0-9]*; do
        read -r name <"$task/comm" 2>/dev/null || continue
        case $name in
            kworker*+target_submiss*) ;;
            *) continue ;;
        esac
        echo "== target_submission"
        while read -r line; do echo "    $line"; done <"$task/stack"
    done
}

# send NAME: the process of this command, with the key.
send() {
    sg_persist --out "--$1" --param-rk=0xa --param-sark=0xa --prout-type=1 /dev/sg0 &
    sent=$!
}

send preempt
wait_for 5
must_end "PREEMPT" $sent
send preempt-abort
wait_for 5
$busybox dd if=/dev/sda of=/dev/null bs=4k count=1 iflag=direct 2>/dev/null &
reads=$!
wait_for 20
echo "with memory:"
must_end "PREEMPT AND ABORT" $sent
must_end "a read from the disk" $reads
of_target
wait_for 200
echo "three minutes later:"
must_end "PREEMPT AND ABORT" $sent
must_end "a read from the disk" $reads
of_target
