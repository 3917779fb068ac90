# For a guest of record/: how `wqrecord run`, `start` and `stop` end, and what they leave behind. Each line of the form
# `NAME: ..` is looked at by test_recorder.py.
# modules: brd; md-mod; raid1
# programs: setpriv; env

. /shared/md.sh
tracing=/sys/kernel/tracing
given="--probes /probes"

# left: what a recording has left in the kernel and on the disk.
left() {
    [ -d $tracing/instances/wqrecord ] && echo -n " instance"
    grep -q wqrecord $tracing/kprobe_events 2>/dev/null && echo -n " probes"
    [ -d /run/wqrecord ] && echo -n " state"
    ls -d /tmp/*.?????? 2>/dev/null
    for process in 'd]d if=/sys' 's]leep 1000' 'w]qrecord guard'; do
        # (who is told that it is over may take a moment)
        for moment in 1 2 3; do
            ps | grep -q "[$process" || break
            [ $moment = 3 ] && echo -n " ${process#*]}" || wait_for 1
        done
    done
}

# told NAME STATUS: how it ended, and what is left.
told() {
    echo "$1: $2, left:$(left)"
}

# A mirror on a RAM disk, each flush of which is a work item or two.
array md0 1:0

# flushes COUNT: in tens.
flushes() {
    tens=$1
    while [ $tens -gt 0 ]; do
        sync -d /dev/md0 /dev/md0 /dev/md0 /dev/md0 /dev/md0 /dev/md0 /dev/md0 /dev/md0 /dev/md0 /dev/md0
        tens=$((tens - 1))
    done
}

# recording: waits until it has begun.
recording() {
    while [ ! -s /run/wqrecord/began ]; do wait_for 1; done
    wait_for 1
}

# Some of the kernel's functions, until a record is read: all of them take their time.
head -c 10000 /proc/kallsyms >/tmp/few
mount --bind /tmp/few /proc/kallsyms

wqrecord run $given -o /tmp/ended -- sh -c 'exit 7' 2>/tmp/said
told ended $?
cat /tmp/said

wqrecord run $given -o /tmp/input -- cat >/tmp/copied 2>/dev/null <<I
given to the command
I
told input $?
echo "input: $(cat /tmp/copied)"

# A command of three processes, one of which heeds no SIGTERM.
family='sleep 1000 & (trap "" TERM; exec sleep 1000) & wait'

# interrupt NAME SIGNAL [WORD ..]: such a command is recorded, and then the recorder is sent this signal. (A shell lets
# what it starts in the background ignore SIGINT.)
interrupt() {
    name=$1
    signal=$2
    shift 2
    "$@" /usr/sbin/env --default-signal=INT wqrecord run $given $streamed -o /tmp/$name -- sh -c "$family" 2>/tmp/said &
    recording
    # (that of a session goes to all that is in it)
    [ "$1" ] && kill -$signal -$! || kill -$signal $!
    wait $!
    ended=$?
    while [ -d /run/wqrecord ]; do wait_for 1; done
    told $name $ended
    cat /tmp/said
    echo "$name: $(tar tf /tmp/$name | grep -c raw) raw"
}

streamed=
interrupt terminated TERM
interrupt interrupted INT
interrupt hung-up HUP
streamed="--stream /tmp/part"
interrupt killed KILL setsid

wqrecord run $given -o /nowhere/record -- touch /tmp/ran 2>/tmp/said
told nowhere $?
cat /tmp/said
ls /tmp/ran 2>/dev/null
wqrecord run $given -o /tmp -- touch /tmp/ran
told folder $?
ls /tmp/ran 2>/dev/null

wqrecord start $given 2>/dev/null &
wait_for 2
kill -TERM $!
wait $!
told begun $?

wqrecord start $given
told started $?
wqrecord start $given 2>/tmp/said
told twice $?
cat /tmp/said
wqrecord status
flushes 1
wqrecord stop -o /nowhere/record 2>/tmp/said
told elsewhere $?
cat /tmp/said
wqrecord stop -o /tmp/stopped 2>/dev/null
told stopped $?
echo "stopped: $(tar tf /tmp/stopped | grep -c raw) raw"
wqrecord stop -o /tmp/stopped 2>/tmp/said
told none $?
wqrecord start $given
wqrecord drop
told dropped $?

wqrecord start $given --buffer 8
flushes 10
wqrecord stop -o /tmp/lost
told lost $?
wqrecord start $given --buffer 64 --stream /tmp/stream
for part in 1 2 3 4 5; do
    flushes 4
    wait_for 1
done
umount /proc/kallsyms
wqrecord stop -o /rec/streamed
told streamed $?
echo "streamed: $(wc -c </rec/streamed) bytes"

# A record, and the kernel's own text of the same events.
wqrecord start $given --full
flushes 2
echo 0 >$tracing/instances/wqrecord/tracing_on
cat $tracing/instances/wqrecord/trace >/rec/text
wqrecord stop -o /rec/record
told text $?

sed 's/ wq_worker_sleeping/ no_such_function/' /probes >/probes.lacking
wqrecord start --probes /probes.lacking
told lacking $?
{ cat /probes; echo 'p refused __flush_work what=+0(%nowhere):x64'; } >/probes.refused
wqrecord start --probes /probes.refused
wqrecord stop -o /tmp/refused
told refused $?

umount $tracing
wqrecord run $given -o /tmp/mounted -- true
told unmounted $?
grep -q " $tracing " /proc/mounts && echo "unmounted: it is mounted now"
/usr/sbin/setpriv --bounding-set -sys_admin wqrecord run $given -o /tmp/unmountable -- touch /tmp/ran
told unmountable $?
grep -v tracefs /proc/filesystems >/tmp/filesystems
mount --bind /tmp/filesystems /proc/filesystems
wqrecord start $given
told traceless $?
umount /proc/filesystems
ls /tmp/ran 2>/dev/null
mount -t tracefs tracefs $tracing

wqrecord start 2>/tmp/said
told unprepared $?
cat /tmp/said
mount -t tmpfs none /sys/kernel/btf
wqrecord start 2>/tmp/said
told untyped $?
cat /tmp/said
/usr/sbin/setpriv --reuid 1000 --regid 1000 --clear-groups wqrecord start $given
told unprivileged $?
echo 2 >/proc/sys/kernel/kptr_restrict
wqrecord start $given 2>/tmp/said
told hidden $?
cat /tmp/said
echo 0 >/proc/sys/kernel/kptr_restrict
mkdir -p /tmp/security
mount -t tmpfs none /sys/kernel/security
echo 'none integrity [confidentiality]' >/sys/kernel/security/lockdown
wqrecord start $given 2>/tmp/said
told locked $?
umount /sys/kernel/security
wqrecord record 2>/dev/null
told wrong $?
mount -t tmpfs none $tracing
mkdir $tracing/instances
wqrecord start $given 2>/tmp/said
told probeless $?
umount $tracing
