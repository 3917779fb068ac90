# For kernel/driver: who frees memory waits for an NFS server (examples/nfs.md). The guest mounts its own export, and opens
# files of it, so that it has a delegation of each. Then the network is down, and memory is filled. No shortage is made
# otherwise: the kernel is asked for many workers, as a busy machine asks for them.
#
#     kernel/driver --memory 256M kernel/drivers/nfs-reclaim.sh nfsv4 nfsd

. /shared/nfs.sh

$busybox mkdir /fill
$busybox mount -t tmpfs -o size=100% fill /fill
serve
# (empty ones: an inode that has pages isn't evicted before these are)
number=0
files=
while [ $number -lt 700 ]; do
    : >/export/$number
    files="$files $number"
    number=$((number + 1))
done
$busybox mount -t nfs4 -o $nfs_options 127.0.0.1:/ /mnt
for file in $files; do read -r nothing </mnt/$file; done
echo "delegations: $($busybox grep -c 'type: deleg' /nfsd/clients/*/states)"

# memory WORD: what /proc/meminfo says of it, in MB.
memory() {
    while read -r name value unit; do
        [ "$name" = "$1:" ] && echo "$((value / 1024))" && return
    done </proc/meminfo
}

# waits NAME: whether the thread of this name sleeps in the return of a delegation.
waits() {
    for task in /proc/[0-9]*; do
        read -r name <"$task/comm" 2>/dev/null || continue
        [ "$name" = "$1" ] || continue
        while read -r line; do
            case $line in
                *_nfs4_proc_delegreturn*) return 0 ;;
            esac
        done <"$task/stack"
    done
    return 1
}

# tell: whether those who free memory and make threads wait for the server.
tell() {
    for thread in kswapd0 kthreadd; do
        if waits $thread; then
            echo "$thread: HANGS"
            failed "$thread waits for the server"
        else
            echo "$thread: goes on"
        fi
    done
}

# Processes that are there before: one that takes all memory, one that asks for many workers, and one that has the network
# again after half a minute, whatever the others do.
$busybox mkfifo /go.hog /go.busy
(
    read -r nothing </go.hog
    exec $busybox tail /dev/zero
) &
hog=$!
(
    read -r nothing </go.busy
    wqjudge blockers
) &
$busybox ifconfig lo down
(
    wait_for 30
    exec $busybox ifconfig lo 127.0.0.1 up
) &
free=$(memory MemFree)
$busybox dd if=/dev/zero of=/fill/it bs=1M count=$((free - 14)) 2>/dev/null
echo "of $free MB that were free $(memory MemFree) MB are left"
exec 7>/go.hog 7>&-
wait_for 1
exec 7>/go.busy 7>&-
wait_for 8
echo "while memory is short, and the network is down:"
tell
stacks kthreadd 'kswapd*' 'rpciod*' 'kworker/R-rpcio*'
ended $hog && echo "the hog was killed"
wait_for 40
echo "with the network again:"
tell
