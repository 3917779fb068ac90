#!/bin/sh
# An NFS mount ends while a delegation is on its way back, and no worker of the workqueues can be created. The rescuer of
# rpciod ends the mount then, and sleeps; and an fsync of another mount doesn't return.
#
#     sh nfs-hang.sh memory    memory alone is short: kthreadd and that rescuer wait for each other
#     sh nfs-hang.sh           kernel.threads-max is reached, and memory isn't short: the rescuer waits for rpciod
#
# FOR A VIRTUAL MACHINE THAT YOU DON'T NEED, as root, and for `memory` one of 192 to 512 MB. It is its own NFS server, by
# knfsd; nfs-utils isn't needed, and no other NFS server may run there. For a minute no process can be created. noworker.c
# must be in this folder; what builds a module must be there, too, or noworker.ko. What is left are mounts below
# /run/nfs-hang, and with `memory` no swap and other settings of vm.dirty_*.
#
# The status is 1 if it hangs, 0 if not, and 2 if something is missing.

at=/run/nfs-hang
options=vers=4.1,addr=127.0.0.1,clientaddr=127.0.0.1
here=$(cd "$(dirname "$0")" && pwd)
how=${1:-threads}

missing() {
    echo "nfs-hang: $*" >&2
    exit 2
}

# The module.
if [ ! -e "$here/noworker.ko" ]; then
    echo 'obj-m := noworker.o' >"$here/Makefile"
    make -C "/lib/modules/$(uname -r)/build" "M=$here" modules || missing "noworker.c can't be built"
fi
modprobe nfsd 2>/dev/null
modprobe nfsv4 2>/dev/null
grep -q noworker /proc/modules || insmod "$here/noworker.ko" || missing "noworker.ko can't be loaded"
commands=/sys/module/noworker/parameters/do

# The server. What the client's address and the export are is written into the caches that mountd fills (flags 9218:
# fsid, no_subtree_check, insecure).
mkdir -p $at/export $at/mnt $at/other $at/nfsd
mount -t tmpfs export $at/export
for file in 0 1 2 3; do echo hello >$at/export/$file; done
mount -t nfsd nfsd $at/nfsd || missing "there is no knfsd"
ip link set lo up 2>/dev/null || ifconfig lo 127.0.0.1 up
echo 10 >$at/nfsd/nfsv4gracetime
echo '-3 +4 +4.1' >$at/nfsd/versions
echo 'tcp 2049' >$at/nfsd/portlist
echo 4 >$at/nfsd/threads || missing "the server doesn't begin"
echo 'nfsd 127.0.0.1 2147483647 here' >/proc/net/rpc/auth.unix.ip/channel
echo "here $at/export 2147483647 9218 65534 65534 0" >/proc/net/rpc/nfsd.export/channel
printf "here 1 \\\\x00000000 2147483647 %s\\n" $at/export >/proc/net/rpc/nfsd.fh/channel
sleep 15 # the grace period, in which it gives no delegation

# Two mounts, and four delegations for the first. From now on a close returns one, as if there were too many.
mount -i -t nfs4 -o $options 127.0.0.1:/ $at/mnt || missing "the export can't be mounted"
mount -i -t nfs4 -o $options,nosharecache 127.0.0.1:/ $at/other || missing "the export can't be mounted twice"
for file in 0 1 2 3; do cat $at/mnt/$file >/dev/null; done
[ "$(grep -c 'type: deleg' $at/nfsd/clients/*/states)" -ge 4 ] || missing "there are no delegations"
echo 0 >/sys/module/nfsv4/parameters/delegation_watermark

# megabytes: how much memory is free.
megabytes() {
    while read -r name value unit; do
        [ "$name" = MemFree: ] && free=$((value / 1024)) && break
    done </proc/meminfo
}

# fill MB: dirty pages of a disk that doesn't answer, until no more than this is free.
fill() {
    swapoff -a 2>/dev/null
    echo 99 >/proc/sys/vm/dirty_background_ratio
    echo 100 >/proc/sys/vm/dirty_ratio
    # If a process is to be killed, then one of these, which only have a megabyte each.
    echo -1000 >/proc/self/oom_score_adj
    for number in 1 2 3 4 5 6; do
        sh -c 'echo 500 >/proc/self/oom_score_adj; exec dd if=/dev/zero bs=1M 2>/dev/null' | sleep 1000 &
    done
    sleep 2
    exec 6<>/dev/stuck # (who closes it as the last one waits until all is written)
    echo stuck >$commands
    filled=0
    megabytes
    echo "of $free MB that are free all are filled, but for $1"
    while [ $free -gt "$1" ] && [ $filled -lt 4000 ]; do
        more=$(((free - $1 + 1) / 2))
        dd if=/dev/zero of=/dev/stuck bs=1M seek=$filled count=$more conv=notrunc 2>/dev/null
        filled=$((filled + more))
        megabytes
    done
}

# The delegation's way back is long: the network is down meanwhile. umount returns. Then a process writes to the other
# mount, and calls fsync.
(
    exec 8>$at/other/new
    sleep 5
    exec dd if=/dev/zero bs=1 count=1 conv=fsync >&8 2>/dev/null
) &
fsync=$!
exec 9<$at/mnt/0
sleep 2
echo 0x8 >/sys/class/net/lo/flags
exec 9<&-
umount -i $at/mnt || missing "umount fails"
sleep 5

# No worker can be created, and the network is back. (The rescuers have other names since 6.9.)
begin=short
[ $how = threads ] || fill 8
[ $how = threads ] || begin=busy
shown="show kthreadd,show kswapd,show rpciod,show kworker/R-rpcio,show nfsiod,show kworker/R-nfsio,show dd"
echo "$begin,up,wait 40,$shown,over,wait 20" >$commands || missing "there is no shortage (dmesg says more)"

# hangs WHAT NAME FUNCTION: whether a process of this name slept in this function.
dmesg | sed -n '/noworker: no worker/,/noworker: over/s/^\[[ 0-9.]*\] //p' >$at/log
status=0
hangs() {
    if sed -n "/^task:$2/,/<\/TASK>/p" $at/log | grep -q " $3+"; then
        echo "$1: HANGS"
        status=1
    else
        echo "$1: goes on"
    fi
}
cat $at/log
echo "while no worker could be created:"
hangs "kthreadd, which returns a delegation" kthreadd _nfs4_proc_delegreturn
hangs "the rescuer of rpciod, which ends a mount" '\(rpciod\|kworker.R-rpcio\)' nfs4_delegreturn_release
hangs "fsync of another mount" dd nfs_file_fsync
echo "with workers again:"
how=returned
{ read -r line </proc/$fsync/stat; } 2>/dev/null && case $line in
    *") Z "*) ;;
    *) how=HANGS ;;
esac
echo "fsync of another mount: $how"
exit $status
