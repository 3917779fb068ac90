# md on md while no worker can be created: it hangs (examples/md.md), and the record ends in the hang. The flushes before
# show for what is waited where.
# modules: brd; md-mod; raid1; wqjudge

. /shared/md.sh

load() {
    flush_both 5
    dd if=/dev/zero of=/dev/md1 bs=4k count=200 conv=fsync 2>/dev/null
    wait $flushing
    flush_both 15
    wait_for 1
    short
    wait_for 10
    no_more
    plenty
}

array md0 1:0
array md1 9:0
record load
