# For kernel/driver --pressure: as nfs.sh, but memory alone is short (examples/nfs.md). With memory a process closes a file of
# /mnt while the network is down, so that its delegation is on its way back, and /mnt is unmounted. Then memory becomes
# short, and the network comes back. The server is in the guest, and needs memory, too: so what counts is where the rescuer
# of rpciod sleeps, and not what else waits.
#
#     kernel/driver --pressure 8 kernel/drivers/nfs-memory.sh nfsv4 nfsd

. /shared/nfs.sh
files="0 1 2 3"
serve $files
open_mounts $files
return_at_close

begin_fsync_of_other

exec 9</mnt/0
wait_for 2
network_down
exec 9<&-
$busybox umount /mnt
echo "umount: returned"
short
end_with_network
