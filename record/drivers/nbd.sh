# A network block device of a server on this machine (examples/nbd.wq): reads, writes, a file system, one of two
# connections that is silent until requests time out, connections that are lost and made again, a server that is silent
# for good, and the removal of the device.
# modules: nbd; nls_cp437; nls_ascii; nls_utf8; vfat
# programs: nbd-client; nbd-server; perl; mkfs.vfat

ifconfig lo 127.0.0.1
mkdir -p /srv /x
mount -t tmpfs srv /srv
dd if=/dev/zero of=/srv/disk bs=1M count=64 2>/dev/null
cat >/srv/conf <<'C'
[generic]
    user = root
    group = root
    allowlist = true
    port = 10809
    listenaddr = 127.0.0.1
[d]
    exportname = /srv/disk
    flush = true
    fua = true
    trim = true
C
echo 'root:x:0:0::/:/bin/sh' >/etc/passwd
echo 'root:x:0:' >/etc/group
echo '127.0.0.1 localhost' >/etc/hosts
echo 'tcp 6 TCP' >/etc/protocols
# What nbd-client has no option for (include/uapi/linux/nbd-netlink.h):
#     device.pl set SECONDS FLAGS    dead_conn_timeout and client flags of nbd0; flag 1: removed when it is disconnected
#     device.pl reconnect TIMES      connects again, each time that the kernel says that a connection is lost
cat >/srv/device.pl <<'P'
my ($what, @given) = @ARGV;
sub attribute { my ($type, $data) = @_; return pack 'SSa*x![4]', 4 + length $data, $type, $data; }
sub attributes {
    my ($rest, %found) = @_;
    while (length $rest >= 4) {
        my ($size, $type) = unpack 'SS', $rest;
        $found{$type & 0x3fff} = substr $rest, 4, $size - 4;
        $rest = length $rest > $size ? substr($rest, ($size + 3) & ~3) : '';
    }
    return \%found;
}
sub call {
    my ($family, $command, $body) = @_;
    $body = pack('CCS', $command, 1, 0) . $body;
    send NETLINK, pack('LSSLL', 16 + length $body, $family, 1, 1, 0) . $body, 0;
}
sub exactly { my ($size, $got) = (@_, ''); sysread SERVER, $got, $size - length $got, length $got or die while length $got < $size; }
sub connected {
    socket SERVER, 2, 1, 6 or die;
    connect SERVER, pack 'Sna4x8', 2, 10809, pack 'C4', 127, 0, 0, 1 or die;
    exactly(18);
    syswrite SERVER, pack 'Na8NNa1', 3, 'IHAVEOPT', 1, 1, 'd';
    exactly(10);
    return attribute(7, attribute(1, attribute(1, pack 'L', fileno SERVER)));
}
socket NETLINK, 16, 3, 16 or die;
call(16, 3, attribute(2, "nbd\0"));
recv NETLINK, my $told, 65536, 0;
my $nbd = attributes(substr $told, 20);
my $family = unpack 'S', $nbd->{1};
my $device = attribute(1, pack 'L', 0);
if ($what eq 'set') {
    call($family, 3, $device . attribute(8, pack 'Q', $given[0]) . attribute(6, pack 'Q', $given[1]));
    exit;
}
my $group = attributes(attributes($nbd->{7})->{1})->{2};
setsockopt NETLINK, 270, 1, $group or die;
for (1 .. $given[0]) {
    recv NETLINK, $told, 65536, 0;
    call($family, 3, $device . connected());
}
P
nbd-server -C /srv/conf >/srv/log 2>&1
wait_for 4

# each WHO SIGNAL: to each process of the server, or to those of connections, or to the first of these.
each() {
    for process in /proc/[0-9]*; do
        read -r pid name state parent rest <$process/stat
        [ "$name" = '(nbd-server)' ] || continue
        read -r name <"/proc/$parent/comm"
        [ "$1" = all ] || [ "$name" = nbd-server ] || continue
        kill -$2 $pid
        [ "$1" != first ] || return 0
    done 2>/dev/null
}

load() {
    nbd-client -N d -C 2 -t 5 127.0.0.1 10809 /dev/nbd0 || nbd-client -L -N d -t 5 127.0.0.1 10809 /dev/nbd0
    dd if=/dev/urandom of=/dev/nbd0 bs=4k count=100 conv=fsync 2>/dev/null
    report written
    dd if=/dev/zero of=/dev/nbd0 bs=4k count=20 oflag=direct 2>/dev/null &
    dd if=/dev/zero of=/dev/nbd0 bs=64k count=20 seek=100 conv=fsync 2>/dev/null &
    dd if=/dev/nbd0 of=/dev/null bs=64k count=30 iflag=direct 2>/dev/null &
    wait $!
    sync
    report parallel
    # A file system: pages that are written again while they are on their way.
    mkfs.vfat /dev/nbd0 >/dev/null
    mount -t vfat /dev/nbd0 /x
    for round in 1 2 3; do
        for file in 1 2 3 4; do dd if=/dev/zero of=/x/$file bs=64k count=10 conv=notrunc 2>/dev/null; done &
        sync &
        sync &
        dd if=/dev/zero of=/x/1 bs=64k count=10 conv=notrunc 2>/dev/null
        sync
        wait
    done
    # One connection is silent: what was sent there goes to the other one when its time is over.
    each first STOP
    for file in 1 2 3 4; do dd if=/dev/urandom of=/x/$file bs=64k count=10 conv=notrunc 2>/dev/null; done
    sync
    wait_for 6
    report requeued
    each all CONT
    umount /x
    # All connections are lost, and made again.
    perl /srv/device.pl set 30 0
    perl /srv/device.pl reconnect 2 &
    wait_for 1
    each connections KILL
    dd if=/dev/urandom of=/dev/nbd0 bs=64k count=20 conv=fsync 2>/dev/null
    report again
    # A server that says nothing any more: requests time out.
    perl /srv/device.pl set 0 1
    dd if=/dev/zero of=/dev/nbd0 bs=64k count=100 conv=fsync 2>/dev/null &
    writer=$!
    wait_for 0.1
    each all STOP
    wait_for 12
    each all KILL
    wait $writer
    report lost
    nbd-client -d /dev/nbd0
    wait_for 3
    ls /sys/block
}

record load
