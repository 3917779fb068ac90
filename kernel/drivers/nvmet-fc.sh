# For kernel/driver: an association of NVMe over Fibre Channel ends while a command that was put off waits for a worker
# (examples/nvmet-fc.md). The guest is host and target by fcloop, with the subsystem `data`, to which 20 processes write at
# once. Its disk takes three seconds for each write. It is connected to the subsystem `other` over TCP, too. While no worker
# can be created, that connection is lost, and `data` is taken from its port. Then `other` could be connected again.
#
#     kernel/driver --patch kernel/drivers/fcloop.patch kernel/drivers/nvmet-fc.sh \
#         null_blk nvmet-fc nvme-fc nvmet-tcp nvme-tcp nvme-fcloop
#
# The patch is for fcloop alone: unchanged, it is a port by which no command is put off.

. /shared/nvmet.sh
. /shared/later.sh
fcloop=/sys/class/fcloop/ctl
host="wwnn=0x10001100aa000001,wwpn=0x20001100aa000001"
here="wwnn=0x10001100ab000001,wwpn=0x20001100ab000001"

begin_target
slow_disk slow 3000000000
slow_disk fast 1000
subsystem data /dev/slow
subsystem other /dev/fast
for name in data other; do enable $name; done
echo "$host" >$fcloop/add_local_port
echo "$here" >$fcloop/add_target_port
port 1 fc fc nn-0x10001100ab000001:pn-0x20001100ab000001 data
tcp_port 2 other
echo "$here,lpwwnn=0x10001100aa000001,lpwwpn=0x20001100aa000001,roles=0x60" >$fcloop/add_remote_port
echo "transport=fc,traddr=nn-0x10001100ab000001:pn-0x20001100ab000001,\
host_traddr=nn-0x10001100aa000001:pn-0x20001100aa000001,nqn=data,nr_io_queues=1,queue_size=16,ctrl_loss_tmo=-1" \
    >/dev/nvme-fabrics
wait_for 3

# A connection that was lost is made again after two seconds.
connect other reconnect_delay=2,ctrl_loss_tmo=-1,keep_alive_tmo=5
wait_for 3
$busybox ls /dev/nvme*n1

later end rm $target/ports/1/subsystems/data
later lose rm $target/ports/2/subsystems/other
later back ln -s $target/subsystems/other $target/ports/2/subsystems

# tell: whether the connection is there.
tell() {
    read -r state </sys/class/nvme/nvme1/state
    how=returned
    [ "$state" = live ] || how=HANGS
    echo "a connection over TCP: $how"
    [ $how = returned ] || failed "the connection is $state"
}

number=0
while [ $number -lt 20 ]; do
    $busybox dd if=/dev/zero of=/dev/nvme0n1 bs=4k count=100 seek=$((number * 100)) oflag=direct 2>/dev/null &
    number=$((number + 1))
done
wait_for 12
short
go lose
wait_for 3
read -r state </sys/class/nvme/nvme1/state
echo "the connection that was lost: $state"
wait_for 3
go end
wait_for 10
go back
wait_for 15
echo "while no worker can be created:"
tell
stacks 'nvmet-wq*' 'kworker/R-nvmet-wq*'
plenty
wait_for 30
echo "with memory again:"
tell
