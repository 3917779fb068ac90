# XFS with -o discard on a virtio disk, with a small log (examples/xfs.wq): small files, fragments, direct writes,
# writers that sync in parallel, a loop device, removals, and a disk that becomes full.
# modules: xfs; loop
# programs: mkfs.xfs; xfs_io; losetup
# disks: 120M

# pieces COUNT: a piece of a block, a gap of one, and so on.
pieces() {
    i=0
    while [ $i -lt $1 ]; do
        echo "pwrite -q $((i * 8192)) 4096"
        i=$((i + 1))
    done
}

load() {
    # What XFS does every 30 s, and every 5 minutes, it does each second.
    echo 100 >/proc/sys/fs/xfs/xfssyncd_centisecs
    echo 1 >/proc/sys/fs/xfs/speculative_prealloc_lifetime
    mkfs.xfs -q -f -m crc=1 -i sparse=1 --unsupported -l size=6m -d size=100m /dev/vdb || return
    mkdir -p /x
    mount -t xfs -o discard /dev/vdb /x
    for i in 1 2 3 4 5; do
        mkdir /x/d$i
        for j in 1 2 3 4 5 6; do echo hello$j >/x/d$i/f$j; done
    done
    report files
    dd if=/dev/zero of=/x/big bs=64k count=150 2>/dev/null
    xfs_io -f -c 'falloc 0 8m' -c 'pwrite -q -b 4k 0 2m' -c 'fsync' /x/un
    xfs_io -f -d -c 'falloc 0 8m' -c 'pwrite -q -b 64k 0 2m' -c 'fdatasync' /x/dio
    # fragments: a tree of extents
    i=0
    while [ $i -lt 25 ]; do
        xfs_io -f -c "pwrite -q $((i * 16384)) 4096" -c fsync /x/frag
        i=$((i + 1))
    done
    sync
    report written
    (for k in 1 2 3 4 5 6; do dd if=/dev/zero of=/x/s$k bs=4k count=5 conv=fsync 2>/dev/null; done) &
    (for k in 1 2 3 4; do xfs_io -f -d -s -c 'pwrite -q -b 4k 0 16k' /x/t$k; done) &
    (for k in 1 2 3; do
        xfs_io -f -c 'falloc 0 1m' -c 'pwrite -q 0 512k' -c 'sync_range -w 0 512k' -c 'pwrite -q 0 256k' -c fsync /x/u$k
    done) &
    (sync; sync; sync) &
    rm -r /x/d1 /x/d2 /x/big
    wait
    # more extents than a node of the tree has room for, when they are allocated, and when they are written
    pieces 700 | xfs_io -f /x/many
    sync
    { echo "falloc 0 6m"; pieces 700; echo fsync; } | xfs_io -f /x/converted
    i=0
    while [ $i -lt 30 ]; do
        echo "fpunch $((i * 16384)) 4096"
        i=$((i + 1))
    done | xfs_io /x/many
    sync
    rm /x/converted
    report parallel
    # asynchronous direct writes, those of a loop device
    dd if=/dev/zero of=/x/disk bs=64k count=64 2>/dev/null
    xfs_io -f -c 'falloc 4m 4m' -c fsync /x/disk
    /usr/sbin/losetup --direct-io=on /dev/loop0 /x/disk
    for k in 1 2; do dd if=/dev/zero of=/dev/loop0 bs=64k count=100 oflag=direct conv=fsync 2>/dev/null & done
    sync
    wait
    /usr/sbin/losetup -d /dev/loop0
    report loop
    # what was allocated ahead: behind a file's end, and for blocks that two files share
    for k in 1 2 3 4 5 6; do dd if=/dev/zero bs=64k count=4 2>/dev/null >>/x/log; done
    xfs_io -f -c 'reflink /x/s1' -c 'pwrite -q 0 4k' -c fsync -c 'pwrite -q 8k 4k' /x/shared
    wait_for 3
    report ahead
    # full: delayed allocation runs out of space
    dd if=/dev/zero of=/x/full bs=64k count=3000 2>/dev/null
    report full
    rm /x/full /x/un
    echo 3 >/proc/sys/vm/drop_caches
    rm -r /x/d*
    sync
    wait_for 3
    umount /x
}

record load
