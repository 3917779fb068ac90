# What it costs to record md on md: flushes, and nothing else. (Not an example: record/README.md, "What it costs".)
# modules: brd; md-mod; raid1

. /shared/md.sh

work() {
    many md1 5
    round=0
    while [ $round -lt 20 ]; do
        sync -d $files &
        sync -d $files /dev/md0 &
        wait
        dd if=/dev/zero of=/dev/md1 bs=4k count=100 conv=fsync 2>/dev/null
        round=$((round + 1))
    done
}

array md0 1:0
array md1 9:0
costs work
