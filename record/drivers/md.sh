# md on md (examples/md.wq): md0 is a mirror on a RAM disk, and md1 a mirror on md0. Processes have both flushed, and
# write with a flush.
# modules: brd; md-mod; raid1

. /shared/md.sh

load() {
    flush_both 5
    dd if=/dev/zero of=/dev/md1 bs=4k count=200 conv=fsync 2>/dev/null
    wait $flushing
}

array md0 1:0
array md1 9:0
record load
