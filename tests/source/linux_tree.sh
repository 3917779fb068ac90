#!/usr/bin/env bash
# Prints the path of the tree of Linux 6.1 whose lines the examples cite, with the folders that they need. It is $LINUX_6_1 if that is
# one, or the one that was unpacked here before, or Debian's linux-source-6.1, which is fetched: some 140 MB. Where none can be
# had, the status is 1, and standard error says so.
set -u
folders='block drivers/block drivers/md drivers/net/ethernet/amd/xgbe drivers/nvme drivers/scsi/qla2xxx drivers/target fs/iomap fs/nfs fs/xfs include mm net/ceph net/sunrpc'
files='Makefile crypto/api.c drivers/scsi/bnx2fc/bnx2fc_fcoe.c drivers/scsi/libfc/fc_lport.c
    drivers/scsi/libfc/fc_rport.c drivers/scsi/qedf/qedf_main.c drivers/scsi/scsi_transport_fc.c
    drivers/scsi/scsi_transport_srp.c drivers/vhost/scsi.c fs/buffer.c fs/direct-io.c fs/ext4/balloc.c
    fs/ext4/ext4_jbd2.h fs/ext4/extents.c fs/ext4/inode.c fs/ext4/mballoc.c fs/ext4/page-io.c fs/ext4/super.c
    fs/ext4/xattr.c fs/fs-writeback.c fs/inode.c fs/super.c fs/sync.c kernel/umh.c kernel/workqueue.c'

if [ -n "${LINUX_6_1-}" ]; then
    [ -f "$LINUX_6_1/Makefile" ] && echo "$LINUX_6_1" && exit 0
    echo "source: no Linux source at $LINUX_6_1" >&2
    exit 1
fi
cache=${XDG_CACHE_HOME:-${HOME-}/.cache}/wqplan/linux-6.1
# (`complete` has the names that were unpacked)
if [ "$(cat -- "$cache/complete" 2>/dev/null)" = "$folders $files" ]; then
    echo "$cache"
    exit 0
fi
half=$cache.half
rm -rf -- "$half"
mkdir -p -- "$half" && cd -- "$half" || exit 1
trap 'rm -rf -- "$half"' EXIT
# (a new machine has no lists of packages)
if ! timeout 600 apt-get download linux-source-6.1 >/dev/null 2>&1 &&
    ! timeout 900 sh -c 'apt-get update -q && apt-get download linux-source-6.1' >/dev/null 2>&1; then
    echo "source: Debian's linux-source-6.1 can't be fetched here" >&2
    exit 1
fi
wanted=()
for name in $folders $files; do
    wanted+=("linux-source-6.1/$name")
done
dpkg-deb --fsys-tarfile linux-source-6.1_*.deb | tar -xO ./usr/src/linux-source-6.1.tar.xz |
    tar -xJ --strip-components=1 "${wanted[@]}" || exit 1
rm -- linux-source-6.1_*.deb
echo "$folders $files" >complete
rm -rf -- "$cache"
mv -- "$half" "$cache"
echo "$cache"
