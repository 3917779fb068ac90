# For kernel/driver: a disk of an NVMe target is a file with holes, on a full ext4 that is mounted with `-o discard`
# (examples/ext4.md). The guest is connected to two subsystems of its own target over TCP: `filled`, whose disk is that
# file, and `other`, whose disk is a file on an ext4 that has room, without `-o discard`. While no worker can be created,
# a file of eight blocks is removed. Then a process writes more than that to the disk of `filled`, and another one writes to
# the disk of `other`.
#
#     kernel/driver --program mkfs.ext4 kernel/drivers/ext4.sh null_blk nvmet nvmet-tcp nvme-tcp

. /shared/nvmet.sh
. /shared/later.sh

begin_target
$busybox mkdir /filled /other

# file_system NAME OPTIONS: an ext4 at /NAME, with a file that is all hole.
file_system() {
    disk $1 discard=1 blocksize=4096 size=32
    mkfs.ext4 -q -F -b 4096 -m 0 /dev/$1
    $busybox mount -t ext4 -o $2 /dev/$1 /$1
    $busybox truncate -s 1M /$1/disk
}
file_system filled discard
file_system other nodiscard
$busybox dd if=/dev/zero of=/filled/removed bs=4k count=8 conv=fsync 2>/dev/null

for name in filled other; do
    subsystem $name /$name/disk
    echo 1 >$at/namespaces/1/buffered_io
    enable $name
done
tcp_port 1 filled other
for name in filled other; do connect $name; done
wait_for 3
$busybox dd if=/dev/zero of=/filled/fill bs=4k conv=fsync 2>&1 | $busybox grep 'No space'
wait_for 10

later remove rm /filled/removed
later filled dd if=/dev/zero of=/dev/nvme0n1 bs=4k count=16 oflag=direct
filled=$later
later other dd if=/dev/zero of=/dev/nvme1n1 bs=4k count=1 oflag=direct
other=$later

# tell: which of the writes are over.
tell() {
    must_end "a write to a file with holes, on the full file system" $filled
    must_end "a write to a file on the other one" $other
}

wait_for 1
short
go remove
wait_for 10 # the journal commits what is older than five seconds
go filled
wait_for 10
go other
wait_for 10
echo "while no worker can be created:"
tell
stacks 'nvmet-buffered*' 'kworker/R-nvmet*' busybox
plenty
wait_for 10
echo "with memory again:"
tell
