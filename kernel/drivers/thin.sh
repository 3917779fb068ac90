# For kernel/driver: a thin pool that can't write its metadata, while what stands on it is to give memory back
# (examples/dm-thin.md). On a thin volume is a device with dm-integrity, which has a tag that isn't written yet. While no
# worker can be created, a process calls fsync on the volume: the pool begins to write its metadata, which takes a
# second and fails. Meanwhile memory is asked back, twice.
#
#     kernel/driver --program dmsetup kernel/drivers/thin.sh brd null_blk dm-thin-pool dm-integrity

export DM_DISABLE_UDEV=1
$busybox mkdir /config
$busybox mount -t configfs config /config
at=/config/nullb/slow
$busybox mkdir $at
echo 1 >$at/memory_backed
echo 16 >$at/size
echo 2 >$at/irqmode
echo 1000000000 >$at/completion_nsec
echo 1 >$at/power

dmsetup create pool --table "0 32768 thin-pool /dev/slow /dev/ram0 128 0 1 skip_block_zeroing" 2>/dev/null
dmsetup message pool 0 "create_thin 0"
dmsetup create thin --table "0 32768 thin /dev/mapper/pool 0"
# dm-integrity writes its superblock, and then knows its size.
dmsetup create checked --table "0 1 integrity /dev/mapper/thin 0 4 D 1 internal_hash:crc32c"
dmsetup remove checked
dmsetup create checked --table "0 24576 integrity /dev/mapper/thin 0 4 D 1 internal_hash:crc32c"
# Its tag is kept in memory until somebody flushes. It belongs to a block of the volume that was never written.
$busybox dd if=/dev/zero of=/dev/mapper/checked bs=4k count=1 seek=2050 oflag=direct 2>/dev/null
# So much may each user of dm-bufio keep: 15 blocks of 4 KB, or none of 64 KB.
retain=/sys/module/dm_bufio/parameters/retain_bytes
echo 65535 >$retain

# A process that writes to the volume and calls fsync when somebody opens /go, since none can be made later.
$busybox mkfifo /go
(
    read -r nothing </go
    exec $busybox dd if=/init of=/dev/mapper/thin bs=4k count=1 seek=2000 conv=fsync,notrunc 2>/dev/null
) &
fsync=$!

# tell: whether that process is over.
tell() {
    if ended $fsync; then
        echo "fsync of the thin volume: returned"
    else
        echo "fsync of the thin volume: HANGS"
        failed "fsync hangs"
    fi
}

wait_for 5
short
# Nothing can be read or written on the disk of the metadata any more. (More than 512 sectors at once confuse null_blk.)
for block in 0 1 2 3 4 5 6 7 8 9 10 11 12 13 14 15; do
    echo "+$((block * 512))-$((block * 512 + 511))" >$at/badblocks
done
exec 7>/go 7>&-
wait_for 0.5
echo 2 >/proc/sys/vm/drop_caches
wait_for 0.2
echo 0 >$retain
echo 2 >/proc/sys/vm/drop_caches
wait_for 20
echo "while no worker can be created:"
tell
stacks 'dm-thin*' 'dm_bufio*' 'kworker/R-dm*' busybox
plenty
wait_for 20
echo "with memory again:"
tell
stacks 'dm-thin*' 'dm_bufio*' 'kworker/R-dm*' busybox
