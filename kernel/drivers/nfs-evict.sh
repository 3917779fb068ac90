# For kernel/driver --pressure: who frees memory waits for an NFS server, and no mount ends (examples/nfs.md). The guest opens
# files of its own export, so that it has a delegation of each. The network is down while memory becomes short. Then it
# comes back, and memory is still short. The server is in the guest, and needs memory, too: so it doesn't answer then.
#
#     kernel/driver --pressure 8 kernel/drivers/nfs-evict.sh nfsv4 nfsd

. /shared/nfs.sh
serve
# (empty ones: an inode that has pages isn't evicted before these are)
number=0
files=
while [ $number -lt 100 ]; do
    : >/export/$number
    files="$files $number"
    number=$((number + 1))
done
open_mounts
for file in $files; do read -r nothing </mnt/$file; done
echo "delegations: $($busybox grep -c 'type: deleg' /nfsd/clients/*/states)"

begin_fsync_of_other

wait_for 2
network_down
short
wait_for 20
tell_pressure "the network is down"
tasks
echo "with the network:"
end_with_network
