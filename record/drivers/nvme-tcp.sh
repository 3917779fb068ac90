# The NVMe host and target over TCP on this machine (examples/nvme-auth.wq, examples/nvmet-tcp.wq): namespaces that are
# files, one of them on a file system that is frozen meanwhile, a lost connection, reconnects, and removals. The host is
# authenticated where the kernel can do that: Debian's 6.12, not its 6.1.
# modules: brd rd_nr=1 rd_size=65536; xfs; nvmet; nvmet-tcp; nvme-tcp
# programs: nvme; mkfs.xfs

ifconfig lo 127.0.0.1
mkdir -p /config /srv
mount -t configfs configfs /config
mount -t tmpfs srv /srv
dd if=/dev/zero of=/srv/disk bs=1M seek=64 count=0 2>/dev/null
mkdir /srv/files
mkfs.xfs -q -f -m crc=1 -i sparse=1 --unsupported -l size=6m -d size=60m /dev/ram0
mount -t xfs /dev/ram0 /srv/files
dd if=/dev/zero of=/srv/files/other bs=1M seek=32 count=0 2>/dev/null
target=/config/nvmet
mkdir $target/subsystems/here
# The host, and its secret: a key of 32 bytes, and their CRC-32.
host=nqn.2014-08.org.nvmexpress:uuid:11111111-2222-3333-4444-555555555555
secret=DHHC-1:00:AQgPFh0kKzI5QEdOVVxjanF4f4aNlJuiqbC3vsXM09pl1OOC:
mkdir $target/hosts/$host
if [ -e $target/hosts/$host/dhchap_key ]; then
    echo $secret >$target/hosts/$host/dhchap_key
    authenticated="--dhchap-secret=$secret"
fi
ln -s $target/hosts/$host $target/subsystems/here/allowed_hosts/$host
# space NUMBER FILE BUFFERED: a namespace.
space() {
    mkdir $target/subsystems/here/namespaces/$1
    echo $2 >$target/subsystems/here/namespaces/$1/device_path
    echo $3 >$target/subsystems/here/namespaces/$1/buffered_io
    echo 1 >$target/subsystems/here/namespaces/$1/enable
}
space 1 /srv/disk 1
space 2 /srv/files/other 1
mkdir $target/ports/1
echo ipv4 >$target/ports/1/addr_adrfam
echo tcp >$target/ports/1/addr_trtype
echo 127.0.0.1 >$target/ports/1/addr_traddr
echo 4420 >$target/ports/1/addr_trsvcid
ln -s $target/subsystems/here $target/ports/1/subsystems/here

load() {
    nvme connect -t tcp -a 127.0.0.1 -s 4420 -n here --reconnect-delay=2 --ctrl-loss-tmo=60 --keep-alive-tmo=5 \
        --hostnqn=$host --hostid=${host##*:} $authenticated || return
    wait_for 2
    ls /dev/nvme*
    dd if=/dev/urandom of=/dev/nvme0n1 bs=4k count=100 oflag=direct 2>/dev/null &
    dd if=/dev/urandom of=/dev/nvme0n1 bs=64k count=50 seek=10 conv=fsync 2>/dev/null &
    dd if=/dev/nvme0n2 of=/dev/null bs=64k count=100 iflag=direct 2>/dev/null
    wait
    blkdiscard -o 0 -l 65536 /dev/nvme0n1 2>/dev/null
    nvme write-zeroes /dev/nvme0n1 -s 0 -c 7 2>/dev/null
    nvme flush /dev/nvme0n1 -n 1 2>/dev/null
    report written
    # Once more, if the host is authenticated at all; and another time for the timer of the target.
    [ ! "$authenticated" ] || echo $secret >/sys/class/nvme/nvme0/dhchap_secret
    wait_for 1
    nvme set-feature /dev/nvme0 -f 0x0f -v 5000
    # A namespace comes and goes: asynchronous events.
    echo 0 >$target/subsystems/here/namespaces/2/enable
    wait_for 1
    echo 1 >$target/subsystems/here/namespaces/2/enable
    wait_for 1
    nvme reset /dev/nvme0 2>/dev/null || echo 1 >/sys/class/nvme/nvme0/reset_controller
    wait_for 2
    report reset
    # The port is taken away, while somebody writes, and comes back.
    dd if=/dev/zero of=/dev/nvme0n1 bs=64k count=200 conv=fsync 2>/dev/null &
    writer=$!
    wait_for 0.1
    rm $target/ports/1/subsystems/here
    wait_for 8
    ln -s $target/subsystems/here $target/ports/1/subsystems/here
    wait_for 10
    wait $writer
    report reconnected
    # The connection is lost while the target's files are frozen: what is under way there ends later.
    fsfreeze --freeze /srv/files
    dd if=/dev/zero of=/dev/nvme0n2 bs=64k count=20 oflag=direct 2>/dev/null &
    nvme write-zeroes /dev/nvme0n2 -s 1000 -c 7 2>/dev/null &
    blkdiscard -o 0 -l 65536 /dev/nvme0n2 2>/dev/null &
    nvme flush /dev/nvme0n2 -n 2 2>/dev/null &
    wait_for 1
    rm $target/ports/1/subsystems/here
    wait_for 3
    fsfreeze --unfreeze /srv/files
    ln -s $target/subsystems/here $target/ports/1/subsystems/here
    wait_for 10
    report thawed
    # Nothing comes through any more, so the target gives the host up.
    ifconfig lo down
    wait_for 12
    ifconfig lo 127.0.0.1 up
    wait_for 8
    report unreachable
    nvme disconnect -n here 2>/dev/null || echo 1 >/sys/class/nvme/nvme0/delete_controller
    wait_for 3
    rm $target/ports/1/subsystems/here
    wait_for 2
}

record load
