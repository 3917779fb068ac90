# An NFSv4.1 server of the guest itself, and mounts of it.

nfs_options=vers=4.1,addr=127.0.0.1,clientaddr=127.0.0.1

# serve FILE..: exports these files, and waits until delegations are given. The server needs none of the programs that
# go with it: what the client's address and the export are is written into the caches that mountd fills (flags 9218:
# fsid, no_subtree_check, insecure).
serve() {
    $busybox ifconfig lo 127.0.0.1
    $busybox mkdir -p /export /mnt /other /nfsd
    $busybox mount -t tmpfs export /export
    for file; do echo hello >/export/$file; done
    $busybox mount -t nfsd nfsd /nfsd
    echo 10 >/nfsd/nfsv4gracetime
    echo '-3 +4 +4.1' >/nfsd/versions
    echo 'tcp 2049' >/nfsd/portlist
    echo 4 >/nfsd/threads
    echo 'nfsd 127.0.0.1 2147483647 here' >/proc/net/rpc/auth.unix.ip/channel
    echo 'here /export 2147483647 9218 65534 65534 0' >/proc/net/rpc/nfsd.export/channel
    echo 'here 1 \x00000000 2147483647 /export' >/proc/net/rpc/nfsd.fh/channel
    wait_for 15 # the grace period, in which the server gives no delegation
}

# open_mounts FILE..: the export twice, and delegations for these files of /mnt.
open_mounts() {
    $busybox mount -t nfs4 -o $nfs_options 127.0.0.1:/ /mnt
    $busybox mount -t nfs4 -o $nfs_options,nosharecache 127.0.0.1:/ /other
    for file; do $busybox cat /mnt/$file >/dev/null; done
}

# return_at_close: from now on each delegation is returned when its file is closed, as if there were too many (5000).
return_at_close() {
    echo 0 >/sys/module/nfsv4/parameters/delegation_watermark
}

# begin_fsync_of_other: a process that writes a byte to the other mount, and syncs it, once end_with_network lets it go. It has
# all that it needs, since memory will be short then: what it writes comes by /go.other.
begin_fsync_of_other() {
    $busybox mkfifo /go.other
    (
        exec 8>/other/new
        exec $busybox dd if=/go.other bs=1 count=1 conv=fsync >&8 2>/dev/null
    ) &
    fsync=$!
}

# network_down: from here on the server isn't reached.
network_down() {
    echo 0x8 >/sys/class/net/lo/flags
}

# end_with_network: the network is back, while memory is short, and then memory is. Tells the state forty seconds after the one,
# and twenty after the other, when that process must have ended.
end_with_network() {
    echo 0x9 >/sys/class/net/lo/flags
    wait_for 10
    exec 7>/go.other
    echo >&7
    exec 7>&-
    wait_for 30
    tell_pressure "forty seconds later"
    tasks
    plenty
    wait_for 20
    tell_pressure "with memory again"
    echo "with memory again:"
    must_end "fsync of another mount" $fsync
}
