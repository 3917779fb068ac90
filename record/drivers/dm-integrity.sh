# dm-integrity with a journal, and with a bitmap, on RAM disks (examples/dm-integrity.wq); and both while all tags are
# computed anew.
# modules: brd rd_nr=4 rd_size=70000; dm-integrity
# programs: dmsetup

export DM_DISABLE_UDEV=1

# make MODE DEVICE NAME OPTION..: formatted, and then as large as it can be, with options.
make() {
    mode=$1 device=$2 name=$3
    shift 3
    dmsetup create $name --table "0 1 integrity $device 0 4 $mode 1 internal_hash:crc32c"
    dmsetup status $name >/tmp/status
    read -r start length target mismatches sectors rest </tmp/status
    dmsetup remove $name
    dmsetup create $name --table "0 $sectors integrity $device 0 4 $mode $((2 + $#)) internal_hash:crc32c allow_discards $*"
}

# work NAME: readers and writers of the same sectors.
work() {
    for number in 1 2; do
        dd if=/dev/zero of=/dev/mapper/$1 bs=4k count=100 oflag=direct 2>/dev/null &
        dd if=/dev/zero of=/dev/mapper/$1 bs=16k count=40 conv=fsync 2>/dev/null &
        dd if=/dev/zero of=/dev/mapper/$1 bs=64k count=20 oflag=direct seek=1 2>/dev/null &
        dd if=/dev/mapper/$1 of=/dev/null bs=8k count=100 iflag=direct 2>/dev/null &
        dd if=/dev/mapper/$1 of=/dev/null bs=4k count=100 iflag=direct 2>/dev/null &
    done
    blkdiscard -o 0 -l 65536 /dev/mapper/$1 2>/dev/null
    wait
    sync -d /dev/mapper/$1
}

load() {
    make J /dev/ram0 j
    work j
    report journal
    dmsetup remove j
    # (a bitmap is cleared often, so that writes have to set its bits again)
    make B /dev/ram1 b bitmap_flush_interval:100
    for round in 1 2 3; do
        work b
        wait_for 1
    done
    report bitmap
    dmsetup remove b
    # Tags are computed for 16 MB at a time, while others write there.
    make J /dev/ram2 r recalculate
    for at in 20 36; do dd if=/dev/zero of=/dev/mapper/r bs=16k count=200 seek=$((at * 64)) oflag=direct 2>/dev/null & done
    wait
    work r
    report journal, recalculated
    dmsetup remove r
    make B /dev/ram3 s bitmap_flush_interval:100 recalculate
    for at in 20 36; do dd if=/dev/zero of=/dev/mapper/s bs=16k count=200 seek=$((at * 64)) oflag=direct 2>/dev/null & done
    wait
    work s
    wait_for 1
    report bitmap, recalculated
    dmsetup remove s
}

record load
