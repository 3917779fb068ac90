# Processes that begin later, when none can be made any more.

# later NAME COMMAND ..: a process that calls this program of busybox at `go NAME`. Its number is $later.
later() {
    name=$1
    shift
    $busybox mkfifo /go.$name
    (
        read -r nothing </go.$name
        exec $busybox "$@" 2>/dev/null
    ) &
    later=$!
}

# go NAME: has it begin. (It is who opens the pipe /go.NAME to read.)
go() {
    exec 7>/go.$1 7>&-
}
