# What scripts of guests may say: kernel/lib/init and record/guest/init read this. Nothing here makes a process, so each
# word works after `short`, too.

threads() {
    echo "$1" >/proc/sys/kernel/threads-max
}

wqjudge() {
    echo "$*" >/proc/wqjudge
}

short() {
    wqjudge blockers
    threads 1
    wqjudge short
}

plenty() {
    wqjudge plenty
    threads 5000
}

# wait_for SECONDS: by a pipe that nobody writes to.
wait_for() {
    read -r -t "$1" nothing <>/fifo
}

# stacks NAME..: where the threads of these names are.
stacks() {
    for task in /proc/[0-9]*; do
        read -r name <"$task/comm" 2>/dev/null || continue
        for wanted; do
            case $name in
                $wanted)
                    echo "== $name"
                    while read -r line; do echo "    $line"; done <"$task/stack"
                    ;;
            esac
        done
    done
}

# ended PID: whether this process of the script is over, which a script can't ask by `wait`.
ended() {
    read -r line 2>/dev/null <"/proc/$1/stat" || return 0
    case $line in
        *") Z "*) return 0 ;;
    esac
    return 1
}

# must_end WHAT PID: says whether this process of the script is over. One that isn't has failed.
must_end() {
    if ended "$2"; then
        echo "$1: returned"
    else
        echo "$1: HANGS"
        failed "$1 hangs"
    fi
}
