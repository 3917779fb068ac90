# An image of a Ceph cluster with an exclusive lock, mapped by some clients (examples/rbd.wq): the lock goes to and fro,
# also while another one writes; the OSD is silent, also until requests are given up, and is lost; who has the lock is
# killed, and the monitor is silent; the network is down until the cluster has forgotten who watches the image.
# Root is needed.
# modules: rbd
# cluster: rbd create image --size 64 --image-feature layering --image-feature exclusive-lock

ifconfig lo 127.0.0.1

# up: the network, as QEMU has it.
up() {
    ifconfig eth0 10.0.2.15 netmask 255.255.255.0
    route add default gw 10.0.2.2
}
up

# cluster WORDS..: record/guest/ceph.py says which.
cluster() {
    echo "$*" | nc 10.77.0.1 7000
}

# map [OPTION]: one more client, with the next device.
map() {
    echo "10.77.0.1:6789 name=admin,noshare,osdkeepalive=2,osd_idle_ttl=5$1 rbd image -" >/sys/bus/rbd/add_single_major
}

# written DEVICE COUNT AT: so many blocks there.
written() {
    dd if=/dev/zero of=/dev/$1 bs=64k count=$2 seek=$3 conv=fsync,notrunc 2>/dev/null
}

load() {
    map
    map
    # The lock goes to and fro.
    for round in 1 2 3 4; do
        written rbd0 4 0
        written rbd1 4 20
    done
    report to and fro
    # Both want it all the time.
    for at in 0 40 80 120; do written rbd0 20 $at & done
    for at in 200 240 280 320; do written rbd1 20 $at & done
    dd if=/dev/rbd0 of=/dev/null bs=64k count=200 iflag=direct 2>/dev/null
    wait
    report both
    # One writes for long, and the other one asks.
    dd if=/dev/zero of=/dev/rbd0 bs=4k count=200 oflag=direct conv=notrunc 2>/dev/null &
    dd if=/dev/zero of=/dev/rbd0 bs=4M count=4 oflag=direct conv=notrunc 2>/dev/null &
    wait_for 1
    written rbd1 2 300
    wait
    report asked
    # The OSD is silent while the lock changes hands.
    written rbd0 1 0
    cluster signal osd STOP
    written rbd1 2 20 &
    written rbd0 2 40 &
    wait_for 8
    cluster signal osd CONT
    wait
    report silent
    # The OSD is lost, and comes again.
    cluster signal osd TERM
    written rbd0 2 60 &
    written rbd1 2 80 &
    wait_for 3
    cluster start osd
    wait
    report lost
    # These give requests up after 3 s.
    map ,osd_request_timeout=3
    map ,osd_request_timeout=3
    for round in 1 2 3; do
        written rbd2 1 0
        for at in 0 40 80; do written rbd2 20 $at & done
        written rbd3 20 200 &
        wait_for 0.$round
        cluster signal osd STOP
        wait_for 7
        cluster signal osd CONT
        wait
        wait_for 2
    done
    echo 3 >/sys/bus/rbd/remove_single_major
    echo 2 >/sys/bus/rbd/remove_single_major
    report given up
    # Who has the lock is killed, and nobody watches for it any more. The second time the monitor, which is to shut it
    # out, is silent.
    for round in 1 2; do
        cluster begin rbd bench --io-type write --io-size 4096 --io-total 64M image
        wait_for 6
        cluster end
        wait_for 12
        [ $round = 1 ] || cluster signal mon STOP
        written rbd0 2 160 &
        wait_for 15
        [ $round = 1 ] || cluster signal mon CONT
        wait
    done
    report shut out
    # No network, until the cluster has forgotten who watches.
    written rbd0 2 100
    ifconfig eth0 down
    wait_for 20
    up
    written rbd1 2 120 &
    written rbd0 2 140 &
    wait
    wait_for 5
    report forgotten
    echo 1 >/sys/bus/rbd/remove_single_major
    echo 0 >/sys/bus/rbd/remove_single_major
    wait_for 2
}

record load
