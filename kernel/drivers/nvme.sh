# For kernel/driver: an NVMe connection is lost while the partitions of a new disk are read (examples/nvme-multipath.md). The
# guest is connected to two subsystems of its own target over TCP: `data`, which a process writes to, and `more`.
# While no worker can be created, both connections are lost. They come back. Then `more` has a new disk, whose reads take
# three seconds, and meanwhile both connections are lost again. Now neither comes back.
#
#     kernel/driver kernel/drivers/nvme.sh null_blk nvmet nvmet-tcp nvme-tcp
#
# nvme-twice.sh is the same without a new disk: the connections are lost twice, and that is all.

. /shared/nvmet.sh
. /shared/later.sh

begin_target
slow_disk fast 1000
slow_disk slow 3000000000
subsystem data /dev/fast
subsystem more /dev/slow
enable data
tcp_port 1 data more
# A connection that was lost is made again after two seconds.
for name in data more; do connect $name reconnect_delay=2,ctrl_loss_tmo=-1,keep_alive_tmo=5; done
wait_for 3

port=$target/ports/1
links="$port/subsystems/data $port/subsystems/more"
# The connections are lost as the subsystems are taken from the port, and can be made again when they are back.
for number in 1 2; do
    later lose$number rm $links
    later back$number ln -s $target/subsystems/data $target/subsystems/more $port/subsystems
    later write$number dd if=/init of=/dev/nvme0n1 bs=512 count=1 conv=fsync,notrunc
    eval "write$number=$later"
done

# tell PROCESS: the state of the connections, and whether this process has written.
tell() {
    for controller in nvme0 nvme1; do
        read -r state </sys/class/nvme/$controller/state
        read -r name </sys/class/nvme/$controller/subsysnqn
        echo "the connection to $name: $state"
    done
    if ended "$1"; then
        echo "fsync of data's disk: returned"
    else
        echo "fsync of data's disk: HANGS"
        failed "fsync hangs"
    fi
}

wait_for 1
short
go lose1
wait_for 2
go back1
wait_for 5
go write1
wait_for 5
echo "a connection that is lost while no worker can be created:"
tell $write1

[ "$twice" ] || enable more
wait_for 2
go lose2
wait_for 3
go back2
wait_for 5
go write2
wait_for 30
echo "while no worker can be created:"
tell $write2
stacks 'nvme-wq*' 'nvme-reset-wq*' 'kworker/R-nvme*' busybox
plenty
wait_for 20
echo "with memory again:"
tell $write2
