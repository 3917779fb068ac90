# For kernel/driver: an NFS mount ends while a delegation is on its way back (examples/nfs.md). The guest mounts its own
# export twice. While no worker can be created, a process closes a file of /mnt, so that its delegation is returned, and
# unmounts /mnt before the answer is there. So the answer ends the mount, which has other delegations. Then a process
# writes to the other mount, and calls fsync.
#
#     kernel/driver kernel/drivers/nfs.sh nfsv4 nfsd
#
# With --patch kernel/drivers/nfs.patch, nfsiod ends the mount, and nothing hangs. nfs-dirty.sh is the same where the
# mount has an inode that was written to.

. /shared/nfs.sh
files="0 1 2 3"
serve $files
open_mounts $files
echo "what the server has given to /mnt:"
$busybox cat /nfsd/clients/*/states
return_at_close

# Processes that begin when somebody opens /go or /go.other, since none can be made later.
$busybox mkfifo /go /go.other
(
    exec 9</mnt/0 8>/mnt/new
    read -r nothing </go
    [ "$dirty" ] && echo hello >&8
    exec 8>&- 9<&-
    exec $busybox umount /mnt
) &
umount=$!
(
    exec 8>/other/new
    read -r nothing </go.other
    exec $busybox dd if=/init bs=1 count=1 conv=fsync >&8 2>/dev/null
) &
fsync=$!

wait_for 2
short
exec 7>/go 7>&-
wait_for 5
must_end "umount" $umount
exec 7>/go.other 7>&-
wait_for 20
echo "while no worker can be created:"
must_end "fsync of another mount" $fsync
stacks 'rpciod*' 'kworker/R-rpcio*' 'nfsiod*' 'kworker/R-nfsio*' 'writeback*' 'kworker/R-write*' busybox
plenty
wait_for 20
echo "with memory again:"
must_end "fsync of another mount" $fsync
stacks busybox
