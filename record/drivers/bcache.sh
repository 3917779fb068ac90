# A cache on one disk for another one (examples/bcache.wq): writes that are written back, more keys than a journal entry
# and a node of the btree hold, reads, garbage collection, and the end of the cache.
# modules: bcache
# programs: make-bcache; xfs_io
# disks: 64M; 128M

load() {
    make-bcache --writeback -b 65536 -C /dev/vdb -B /dev/vdc
    echo /dev/vdb >/sys/fs/bcache/register
    echo /dev/vdc >/sys/fs/bcache/register
    wait_for 1
    disk=/sys/block/bcache0/bcache
    echo 0 >$disk/sequential_cutoff
    echo writeback >$disk/cache_mode
    report made
    dd if=/dev/urandom of=/dev/bcache0 bs=4k count=500 oflag=direct 2>/dev/null &
    dd if=/dev/urandom of=/dev/bcache0 bs=64k count=100 seek=100 conv=fsync 2>/dev/null &
    dd if=/dev/bcache0 of=/dev/null bs=4k count=500 iflag=direct 2>/dev/null &
    for round in 1 2 3; do
        dd if=/dev/zero of=/dev/bcache0 bs=4k count=200 seek=$((round * 1000)) conv=fsync 2>/dev/null
        sync
    done
    wait
    report written
    set=$(echo /sys/fs/bcache/*-*)
    # Keys that can't be merged; and the journal isn't written before one of its entries is full.
    echo 20000 >$set/journal_delay_ms
    number=0
    while [ $number -lt 2500 ]; do
        echo "pwrite -q $((number * 12288)) 4096"
        number=$((number + 1))
    done | xfs_io -d /dev/bcache0
    echo 100 >$set/journal_delay_ms
    sync
    report keys
    # More than the cache holds, while it collects.
    echo 1 >$set/internal/trigger_gc
    dd if=/dev/urandom of=/dev/bcache0 bs=64k count=1500 2>/dev/null
    echo 1 >$set/internal/trigger_gc
    sync
    echo 0 >$disk/writeback_percent
    wait_for 10
    report full
    dd if=/dev/bcache0 of=/dev/null bs=64k count=1500 2>/dev/null
    report read
    echo 1 >$disk/detach
    wait_for 10
    echo 1 >$disk/stop
    echo 1 >$set/stop
    wait_for 3
}

record load
