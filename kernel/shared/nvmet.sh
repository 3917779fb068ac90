# An NVMe target of the guest itself, and the host that connects to it.

target=/config/nvmet

begin_target() {
    $busybox ifconfig lo 127.0.0.1
    $busybox mkdir /config
    $busybox mount -t configfs config /config
}

# disk NAME WORD=VALUE..: a disk in memory, /dev/NAME, of which null_blk is told this (Documentation/block/null_blk.rst).
disk() {
    at=/config/nullb/$1
    shift
    $busybox mkdir $at
    for word in memory_backed=1 "$@" power=1; do echo ${word#*=} >$at/${word%%=*}; done
}

# slow_disk NAME NANOSECONDS: one of 16 MB that needs this long for each request.
slow_disk() {
    disk $1 size=16 irqmode=2 completion_nsec=$2
}

# subsystem NAME PATH: one with this disk, or file, which nobody sees before `enable NAME`.
subsystem() {
    at=$target/subsystems/$1
    $busybox mkdir $at $at/namespaces/1
    echo 1 >$at/attr_allow_any_host
    echo $2 >$at/namespaces/1/device_path
}

enable() {
    echo 1 >$target/subsystems/$1/namespaces/1/enable
}

# port NUMBER TRANSPORT FAMILY ADDRESS SUBSYSTEM..
port() {
    at=$target/ports/$1
    $busybox mkdir $at
    echo $2 >$at/addr_trtype
    echo $3 >$at/addr_adrfam
    echo $4 >$at/addr_traddr
    [ $2 = tcp ] && echo 4420 >$at/addr_trsvcid
    shift 4
    for name; do $busybox ln -s $target/subsystems/$name $at/subsystems/$name; done
}

# tcp_port NUMBER SUBSYSTEM..
tcp_port() {
    number=$1
    shift
    port $number tcp ipv4 127.0.0.1 "$@"
}

# connect NAME [OPTION,..]: the host, over TCP, to this subsystem.
connect() {
    echo "transport=tcp,traddr=127.0.0.1,trsvcid=4420,nqn=$1${2:+,$2}" >/dev/nvme-fabrics
}
