# An origin with snapshots on RAM disks (examples/dm-snapshot.wq). One snapshot is merged while another one of the same
# origin copies; one overflows during the merge; and one is made invalid since its origin can't be read.
# modules: brd rd_nr=8; dm-snapshot
# programs: dmsetup

export DM_DISABLE_UDEV=1
size=16384 # sectors: 8 MB

load() {
    dmsetup create base --table "0 $size linear /dev/ram0 0"
    dmsetup create cowA --table "0 $size linear /dev/ram1 0"
    dmsetup create cowB --table "0 $size linear /dev/ram2 0"
    dmsetup create origin --table "0 $size snapshot-origin /dev/mapper/base"
    dmsetup create snapA --table "0 $size snapshot /dev/mapper/base /dev/mapper/cowA P 8"
    dmsetup create snapB --table "0 $size snapshot /dev/mapper/base /dev/mapper/cowB P 8"
    dd if=/dev/urandom of=/dev/mapper/snapA bs=4k count=300 conv=fsync 2>/dev/null
    dd if=/dev/urandom of=/dev/mapper/origin bs=4k count=100 seek=800 conv=fsync 2>/dev/null
    report written
    # A snapshot that has no room for what the merge will make it copy.
    dmsetup create cowC --table "0 512 linear /dev/ram3 0"
    dmsetup create snapC --table "0 $size snapshot /dev/mapper/base /dev/mapper/cowC P 8"
    dmsetup suspend origin
    dmsetup remove snapA
    dmsetup reload origin --table "0 $size snapshot-merge /dev/mapper/base /dev/mapper/cowA P 8"
    dmsetup resume origin
    dd if=/dev/zero of=/dev/mapper/origin bs=4k count=150 seek=100 conv=fsync 2>/dev/null &
    for second in 1 2 3 4 5; do wait_for 1; done
    wait $!
    dmsetup status
    report merged
    dmsetup remove snapC
    dmsetup remove snapB
    dmsetup remove origin
    # An origin of which a part can't be read: the copy fails, and makes the snapshot invalid.
    echo "0 8192 linear /dev/ram4 0
8192 8192 error" | dmsetup create faulty
    dmsetup create cowD --table "0 $size linear /dev/ram5 0"
    dmsetup create forigin --table "0 $size snapshot-origin /dev/mapper/faulty"
    dmsetup create snapD --table "0 $size snapshot /dev/mapper/faulty /dev/mapper/cowD P 8"
    dd if=/dev/zero of=/dev/mapper/forigin bs=4k count=8 seek=1030 oflag=direct 2>/dev/null
    dmsetup status
    report invalid
    dmsetup remove snapD
    dmsetup remove forigin
}

record load
