# Mirrors of md, without mdadm.

# array NAME DEVICE: a mirror of one disk, MAJOR:MINOR.
array() {
    echo "$1" >/sys/module/md_mod/parameters/new_array
    at=/sys/block/$1/md
    echo none >"$at/metadata_version"
    echo raid1 >"$at/level"
    echo 1 >"$at/raid_disks"
    echo 4096 >"$at/component_size"
    echo "$2" >"$at/new_dev"
    for disk in "$at"/dev-*; do
        echo 0 >"$disk/slot"
    done
    echo active >"$at/array_state"
}

# many NAME COUNT: this device, 2 to the power of COUNT times, as a process flushes it again and again.
many() {
    files=/dev/$1
    doubled=0
    while [ "$doubled" -lt "$2" ]; do
        files="$files $files"
        doubled=$((doubled + 1))
    done
}

# flush_both COUNT: two processes flush md1, and two md0, each 2 to the power of COUNT times. Sets `flushing`, their
# numbers, and `what`, the arrays.
flush_both() {
    flushing=
    what=
    for number in 1 2; do
        for md in md1 md0; do
            many $md "$1"
            $busybox sync -d $files &
            flushing="$flushing $!"
            what="$what $md"
        done
    done
}

# slept PID: how often the process has slept, which it does in each flush.
slept() {
    times=over
    while read -r name count; do
        case $name in
            voluntary_ctxt_switches:) times=$count ;;
        esac
    done 2>/dev/null <"/proc/$1/status"
}

# tell_flushes: which of the processes of flush_both go on.
tell_flushes() {
    before=
    for one in $flushing; do
        slept "$one"
        before="$before $times"
    done
    wait_for 10
    set -- $before
    for one in $flushing; do
        slept "$one"
        how="go on"
        [ "$times" = "$1" ] && ! ended "$one" && how=HANG
        echo "flushes, process $one: $how"
        [ "$how" = HANG ] && failed "process $one hangs"
        shift
    done
}
