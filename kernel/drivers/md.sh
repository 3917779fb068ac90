# For kernel/driver: md on md (examples/md.md). md0 is a mirror on a RAM disk, and md1 a mirror on md0. Processes
# have both flushed, with memory, then while no worker can be created, and then with memory again.
#
#     kernel/driver kernel/drivers/md.sh brd md-mod raid1
#
# With --patch kernel/drivers/md.patch each array has a workqueue for its flushes, and nothing hangs.

. /shared/md.sh
array md0 1:0
array md1 9:0
# Four processes flush an array each, again and again.
flush_both 15

echo "processes$flushing flush$what"
wait_for 1
short
wait_for 20
echo "while no worker can be created:"
tell_flushes
stacks 'md*' busybox
plenty
wait_for 20
echo "with memory again:"
tell_flushes
stacks 'md*' busybox
