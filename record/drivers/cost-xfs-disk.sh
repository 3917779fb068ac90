# What it costs to record XFS on a virtio disk, as cost.sh: files, fragments, writers that sync in parallel, holes, a
# disk that becomes full, removals. The disk has the host's time, so only what the processor did counts.
# modules: xfs
# programs: mkfs.xfs; xfs_io
# disks: 120M

# each COUNT STEP WORD: an xfs_io command, `WORD OFFSET 4096`, for each of these offsets.
each() {
    i=0
    while [ $i -lt $1 ]; do
        echo "$3 $((i * $2)) 4096"
        i=$((i + 1))
    done
}

work() {
    mkfs.xfs -q -f -m crc=1 -i sparse=1 --unsupported -l size=6m -d size=100m /dev/vdb >/dev/null 2>&1 || return
    mount -t xfs -o discard /dev/vdb /x
    for i in 1 2 3 4 5; do
        mkdir /x/d$i
        for j in 1 2 3 4 5 6; do echo hello$j >/x/d$i/f$j; done
    done
    dd if=/dev/zero of=/x/big bs=64k count=150 2>/dev/null
    xfs_io -f -c 'falloc 0 8m' -c 'pwrite -q -b 4k 0 2m' -c 'fsync' /x/un
    xfs_io -f -d -c 'falloc 0 8m' -c 'pwrite -q -b 64k 0 2m' -c 'fdatasync' /x/dio
    # fragments: a tree of extents
    i=0
    while [ $i -lt 25 ]; do
        xfs_io -f -c "pwrite -q $((i * 16384)) 4096" -c fsync /x/frag
        i=$((i + 1))
    done
    sync
    (for k in 1 2 3 4 5 6; do dd if=/dev/zero of=/x/s$k bs=4k count=5 conv=fsync 2>/dev/null; done) &
    (for k in 1 2 3 4; do xfs_io -f -d -s -c 'pwrite -q -b 4k 0 16k' /x/t$k; done) &
    (for k in 1 2 3; do
        xfs_io -f -c 'falloc 0 1m' -c 'pwrite -q 0 512k' -c 'sync_range -w 0 512k' -c 'pwrite -q 0 256k' -c fsync /x/u$k
    done) &
    (sync; sync; sync) &
    rm -r /x/d1 /x/d2 /x/big
    wait
    each 60 8192 'pwrite -q' | xfs_io -f /x/many 2>/dev/null
    sync
    each 30 16384 fpunch | xfs_io /x/many 2>/dev/null
    sync
    # full: delayed allocation runs out of space
    dd if=/dev/zero of=/x/full bs=64k count=3000 2>/dev/null
    rm /x/full /x/un
    echo 3 >/proc/sys/vm/drop_caches
    rm -r /x/d*
    sync
    wait_for 3
    umount /x
}

mkdir -p /x
costs work
