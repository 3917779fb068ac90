# md on md with superblocks, and XFS on top, so that writes come with a flush (examples/md.wq): a write to a clean array
# waits until its superblocks are written.
# modules: brd rd_nr=1 rd_size=130000; md-mod; raid1; xfs
# programs: mkfs.xfs; mdadm

mkdir -p /run/mdadm /x
mdadm -C /dev/md0 --run --force --level=1 --raid-devices=1 --metadata=1.2 --bitmap=none /dev/ram0
mdadm -C /dev/md1 --run --force --level=1 --raid-devices=1 --metadata=1.2 --bitmap=none /dev/md0
echo 0.05 >/sys/block/md0/md/safe_mode_delay
echo 0.05 >/sys/block/md1/md/safe_mode_delay
mkfs.xfs -q -f -m crc=1 -i sparse=1 --unsupported -l size=6m -d size=100m /dev/md1
mount -t xfs /dev/md1 /x

load() {
    # Only the log is written, with a flush, to an array that is clean.
    for number in 1 2 3 4 5 6 7 8; do
        wait_for 1
        mkdir /x/d$number
        sync /x/d$number
    done
    # Files, while others flush the lower array.
    for number in 1 2 3 4; do
        (dd if=/dev/zero of=/x/g$number bs=4k count=3 conv=fsync 2>/dev/null) &
        one=$!
        sync -d /dev/md0 /dev/md0 /dev/md0
        dd if=/dev/zero of=/x/h$number bs=4k count=3 conv=fsync 2>/dev/null
        wait $one
        wait_for 0.3
    done
    umount /x
}

record load
