# dm-crypt, which no example is about: with a cipher that ends at once, and with one that cryptd works off, whose queue is
# so short that it is full; on RAM disks and on another disk.
# modules: brd rd_nr=2 rd_size=16384; dm-crypt; cryptd cryptd_max_cpu_qlen=4; xts; ecb
# programs: dmsetup
# disks: 16M

export DM_DISABLE_UDEV=1
size=16384 # sectors: 8 MB
key=000102030405060708090a0b0c0d0e0f101112131415161718191a1b1c1d1e1f

# work NAME: readers and writers.
work() {
    for number in 1 2; do
        dd if=/dev/zero of=/dev/mapper/$1 bs=4k count=100 oflag=direct 2>/dev/null &
        dd if=/dev/zero of=/dev/mapper/$1 bs=256k count=8 conv=fsync 2>/dev/null &
        dd if=/dev/mapper/$1 of=/dev/null bs=64k count=30 iflag=direct 2>/dev/null &
    done
    wait
    sync -d /dev/mapper/$1
}

# crypt CIPHER DEVICE
crypt() {
    dmsetup create c --table "0 $size crypt $1 $key 0 $2 0" || report no "$1"
    work c
    dmsetup status c
    report "$1" on "$2"
    dmsetup remove c
}

load() {
    crypt 'capi:xts(ecb(aes-generic))-plain64' /dev/ram0
    crypt 'capi:cryptd(xts(ecb(aes-generic)))-plain64' /dev/ram1
    crypt 'capi:xts(ecb(aes-generic))-plain64' /dev/vdb
}

record load
