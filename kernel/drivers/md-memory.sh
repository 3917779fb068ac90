# For kernel/driver --pressure: as md.sh, but memory alone is short (examples/md.md). Processes have an array on an array
# flush; memory is filled, and then there is memory again. What hangs does so then as well: so only then is it told.
#
#     kernel/driver --pressure 8 kernel/drivers/md-memory.sh brd md-mod raid1

. /shared/md.sh
array md0 1:0
array md1 9:0
# Who opens an array that nobody has open looks for partitions, and that takes memory. So does a process that begins: these
# have begun, and stand still until memory is short.
exec 8<>/dev/md0 9<>/dev/md1
flush_both 15
for one in $flushing; do
    times=0
    until [ "$times" = over ] || [ "$times" -gt 50 ]; do
        wait_for 1
        slept "$one"
    done
    kill -STOP "$one"
done
echo "processes$flushing flush$what"
short
kill -CONT $flushing
wait_for 30
tell_pressure "half a minute later"
tasks
plenty
wait_for 10
tell_pressure "with memory again"
echo "with memory again:"
tell_flushes
stacks 'md*' busybox
