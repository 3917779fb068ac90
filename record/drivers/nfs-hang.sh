# An NFS mount that ends while a delegation is on its way back, and no worker can be created: it hangs (examples/nfs.md),
# and the record ends in the hang. A mount that ends while workers are there shows for what is waited where.
# modules: nfsv4; nfsd; wqjudge
# programs: chrt

. /shared/nfs.sh
serve 0 1 2 3 4 5 6 7
open_mounts 0 1 2 3
return_at_close
mkfifo /go

load() {
    chrt -f 50 sh -c 'exec 9</mnt/0 8>/mnt/new; exec 8>&- 9<&-; exec umount /mnt'
    wait_for 3
    # (delegations are kept again, until all are there)
    echo 5000 >/sys/module/nfsv4/parameters/delegation_watermark
    mount -t nfs4 -o $nfs_options 127.0.0.1:/ /mnt
    for file in 4 5 6 7; do cat /mnt/$file >/dev/null; done
    return_at_close
    (
        exec 9</mnt/4 8>/mnt/newer
        read -r nothing </go
        exec 8>&- 9<&-
        exec umount /mnt
    ) &
    wait_for 2
    short
    exec 7>/go 7>&-
    wait_for 10
    no_more
    stacks 'rpciod*' 'kworker/R-rpcio*'
    plenty
    wait_for 2
}

record load
