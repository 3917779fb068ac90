# An NFSv4.1 server on this machine, mounted twice (examples/nfs.wq). A process of real-time priority closes files and
# unmounts before any worker runs: so the release of a task ends the mount.
# modules: nfsv4; nfsd
# programs: chrt

. /shared/nfs.sh
serve 0 1 2 3 4 5 6 7
open_mounts 0 1 2 3 4 5
return_at_close

# again: a new mount, with delegations.
again() {
    wait_for 3
    mount -t nfs4 -o $nfs_options 127.0.0.1:/ /mnt
    for file in 2 3 4 5; do cat /mnt/$file >/dev/null; done
}

load() {
    chrt -f 50 sh -c 'exec 9</mnt/0 8>/mnt/new; exec 8>&- 9<&-; exec umount /mnt'
    # A file that is removed while it is open (CLOSE, REMOVE), and one that is still read and written.
    again
    echo hello >/mnt/gone
    chrt -f 50 sh -c 'exec 9</mnt/gone; rm /mnt/gone; exec 9<&-; exec umount /mnt'
    again
    chrt -f 50 sh -c 'exec 9</mnt/2 8>/mnt/w; echo hello >&8; exec 8>&- 9<&-; exec umount /mnt'
    # Ordinary work, while other files are read.
    again
    (for number in 1 2 3 4 5 6; do dd if=/dev/zero of=/mnt/s$number bs=4k count=20 conv=fsync 2>/dev/null; done) &
    dd if=/dev/zero of=/other/big bs=64k count=100 2>/dev/null
    wait $!
    sync
    rm /mnt/s1 /mnt/s2
    umount /mnt
    umount /other
    wait_for 6
}

record load
