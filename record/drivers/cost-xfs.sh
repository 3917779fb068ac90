# What it costs to record XFS on a RAM disk, as cost.sh.
# modules: brd rd_nr=1 rd_size=130000; xfs
# programs: mkfs.xfs; xfs_io

work() {
    mkfs.xfs -q -f -m crc=1 -i sparse=1 --unsupported -l size=6m -d size=100m /dev/ram0 2>/dev/null || return
    mount -t xfs /dev/ram0 /x
    for i in 1 2 3 4 5; do
        mkdir /x/d$i
        for j in 1 2 3 4 5 6; do echo hello$j >/x/d$i/f$j; done
    done
    dd if=/dev/zero of=/x/big bs=64k count=150 2>/dev/null
    xfs_io -f -c 'falloc 0 8m' -c 'pwrite -q -b 4k 0 2m' -c 'fsync' /x/un
    for k in 1 2 3 4 5 6 7 8; do dd if=/dev/zero of=/x/s$k bs=4k count=5 conv=fsync 2>/dev/null; done
    sync
    rm -r /x/d1 /x/d2 /x/big /x/un
    sync
    umount /x
}

mkdir -p /x
costs work
