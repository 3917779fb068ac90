#!/usr/bin/env bash
# Runs the program as a user would, and compares what it writes and its exit status with docs/FORMAT.md. What the forms of all commands
# have in common, as how files are read and what help says, is tried of each form of docs/tables/commands.txt.
# Run it once the gate or `rt run` has built the program. The argument, if there is one, names another program.
set -u
. "$(dirname "$0")/../lib/script.bash"
root=$(realpath -- "$(dirname "$0")/../..")
program=$(realpath -m -- "${1:-$root/crates/wqplan/out/wqplan}")
built program wqplan "$program"
stored=$root/crates/wqplan
rule=$root/tests/lib/standard_error.py
typed=$root/tests/lib/typed.py

work=$(mktemp -d)
trap 'rm -rf -- "$work"' EXIT
cd -- "$work" || exit 1

# run ARGS..: runs the program on the standard input that it is given, and keeps its words, what it writes and its status.
run() {
    given=("$@")
    limited "$program" "$@" >out 2>err
    status=$?
}

# holds FILE TEXT: whether the file has just this text, as printf spells it. `some` stands for any text but none.
holds() {
    if [ "$2" = some ]; then
        [ -s "$1" ]
    else
        printf "$2" | cmp -s - "$1"
    fi
}

# says ERR: whether standard error has this text. `of N` is the diagnosis that belongs to standard output, of the file that is
# the Nth word behind the command, or of standard input where N is 0. `why` is what belongs to an answer that says that workqueues
# can hang, and isn't nothing: the reasons.
says() {
    local files=('<stdin>' "${given[@]:1}")
    case $1 in
        'of '*) python3 -B "$rule" out err "${files[${1#of }]}" ;;
        why) [ -s err ] && belongs ;;
        *) holds err "$1" ;;
    esac
}

# belongs: whether standard error has what belongs to the answer of the last run, of all files of its command.
belongs() {
    local word words=()
    for word in "${given[@]}"; do
        case $word in
            --) ;;
            -) words+=('<stdin>') ;;
            *) words+=("$word") ;;
        esac
    done
    python3 -B "$rule" out err of "${words[@]}"
}

# check NAME STATUS OUT ERR: counts whether the last run ended so.
check() {
    if [ "$status" -eq "$2" ] && holds out "$3" && says "$4"; then
        ok "$1"
    else
        fail "$1: status $status, standard output '$(head -c 200 out)', standard error '$(head -c 200 err)'"
    fi
}

# The largest texts that are read, and texts of one byte more.
yes '' | head -c 1048576 >largest
yes '' | head -c 1048577 >too_large
yes '' | head -c 8388608 >largest_certificate
yes '' | head -c 8388609 >too_large_certificate

# What is said of a declaration without an item, behind the name of its file.
no_item=': note: no item is declared: is this the right file?\n'

# What is said where standard output is full, and where it is closed.
full='wqplan: <stdout>: no space left\nfault write\n'
closed="wqplan: <stdout>: can't be written\nfault write\n"
twice='error: `-`, which is standard input, can be only one of the files\n'
mkfifo unread

plan='plan 2\nwq 0 b\nwq 1 a\nchain 2\narc a b\n'
printf 'item a\nitem b\nflush a b\n' >declaration
printf 'item a # x\r\n\titem\tb\r\n\r\n# \377\r\nflush a b' >carriage_returns
printf 'item a\nitem b\nitem c\nitem d\nordered b c\nflush a b\nflush c d\n' >ordered
printf 'item a\nitem b\nitem c\nflushwq a b\nflush c a\n' >whole
printf 'item a\nflush a a\n' >circle
printf 'item a\nitem b\nordered a b\nflush a b\n' >ordered_circle
printf 'item a\nflush a b\nitem b\n' >refused
printf 'item a\nitem b\nordered a b\nordered b\n' >grouped_twice
mkdir folder

# Answers.
run plan <"$stored/stdin"
check 'the stored run: a plan' 0 "$(cat "$stored/stdout")\n" ''
run plan <declaration
check 'a plan, from standard input' 0 "$plan" ''
run plan declaration </dev/null
check 'a plan, from FILE' 0 "$plan" ''
run plan -- declaration </dev/null
check 'a plan, from FILE behind --' 0 "$plan" ''
run plan < <(cat declaration)
check 'a plan, from a pipe' 0 "$plan" ''
run plan < <(printf 'item a\nit'; sleep 0.2; printf 'em b\nflush a b\n')
check 'a plan, from a pipe that pauses' 0 "$plan" ''
run plan </dev/null
check 'no byte at all' 0 'plan 0\nchain 0\n' "<stdin>$no_item"
run plan carriage_returns </dev/null
check 'a plan of lines that end with CR LF, with comments' 0 "$plan" ''
run plan ordered </dev/null
check 'a plan with an ordered group' 0 'plan 3\nwq 0 d\nwq 1 b c\nwq 2 a\nchain 3\narc a b\narc c d\n' ''
run plan whole </dev/null
check 'a plan with a wait for a whole workqueue' 0 \
    'plan 3\nwq 0 b\nwq 1 a\nwq 2 c\nchain 3\narc c a\narc a b\n' ''
run plan circle </dev/null
check 'a circle and its run' 1 'circle 1\narc a a\nrun 3\nqueue a\nstart 0 a\nwait 0 a\n' why
run plan ordered_circle </dev/null
check 'a circle within an ordered group' 1 'circle 1\narc a b\nrun 4\nqueue a\nqueue b\nstart 0 a\nwait 0 b\n' why
run plan refused </dev/null
check 'a refusal' 2 'refused 8 line 2\n' 'of 1'
run plan grouped_twice </dev/null
check 'a refusal of an item on two ordered lines' 2 'refused 11 line 4\n' 'of 1'

# The checker.
printf 'item a\nitem b\nitem c\nitem d\nflush a b\nflush b c\n' >three
: >empty
printf "$plan" >plan_of_two
printf 'plan 3\nwq 0 b\nwq 1\nwq 2 a\nchain 2\narc a b\n' >not_least
printf 'plan 1\nwq 0 a b\nchain 1\n' >one_workqueue
printf 'plan 2\nwq 0 b\nwq 1 a\nchain 2\n' >cut_off
printf 'circle 1\narc a b\n' >no_circle
printf 'plan 3\nwq 0 c d\nwq 1 b\nwq 2 a\nchain 3\narc a b\narc a b\n' >broken_chain
printf 'plan 1\nwq 0\nchain 1\n' >chain_of_nothing
printf 'circle 1\narc a a\nrun 3\nqueue a\nstart 0 a\nwait 0 a\n' >circle_with_run
printf 'circle 1\narc a a\nrun 2\nqueue a\nstart 0 a\n' >circle_with_open_run
run check declaration plan_of_two </dev/null
check 'check: the plan that is printed' 0 'yes 2\n' ''
run check declaration not_least </dev/null
check 'check: a plan with a workqueue too many' 1 'no 52\n' 'of 2'
run check declaration one_workqueue </dev/null
check 'check: a flush within a workqueue' 1 'no 50 a b\n' why
run check declaration cut_off </dev/null
check 'check: a plan without its last line' 2 'refused 40 line 0\n' 'of 2'
run check declaration no_circle </dev/null
check 'check: a circle that is none' 1 'no 53 1\n' 'of 2'
run check three broken_chain </dev/null
check 'check: a chain that breaks at its second arc' 1 'no 51 2\n' 'of 2'
run check empty chain_of_nothing </dev/null
check 'check: a chain of one group where there is none' 1 'no 51 0\n' 'of 2'
run check circle circle_with_run </dev/null
check 'check: a circle with its run' 0 'yes circle 1\n' ''
run check circle circle_with_open_run </dev/null
check 'check: a circle with a run that is not stuck' 1 'no 54\n' 'of 2'

# Assignments.
hangs='run 7\nqueue a\nqueue b\nqueue c\nstart 0 a\nwait 0 b\nstart 1 b\nwait 1 c\n'
printf 'item a\nitem b\nitem c\nflush a b\nflush b c\n' >chain
printf 'wq 0 a c\nwq 1 b\n' >lanes
printf 'plan 2\nwq 0 a c\nwq 1 b\nchain 0\n' >lanes_of_a_plan
printf 'wq 0 c\nwq 1 b\nwq 2 a\n' >safe_lanes
run deadlock chain lanes </dev/null
check 'deadlock: a run that deadlocks' 1 "$hangs" why
printf 'wq 0 a\nwq 1 b c\n' >whole_lanes
run deadlock whole whole_lanes </dev/null
check 'deadlock: a wait for a whole workqueue' 1 \
    'run 7\nqueue a\nqueue c\nqueue b\nstart 0 a\nwaitwq 0 b\nstart 1 c\nwait 1 a\n' why
run deadlock chain safe_lanes </dev/null
check 'deadlock: a safe assignment' 0 'safe\n' ''
run deadlock declaration plan_of_two </dev/null
check 'deadlock: the plan that is printed' 0 'safe\n' ''
run deadlock chain lanes_of_a_plan </dev/null
check 'deadlock: a plan text as an assignment' 1 "$hangs" why

# Workqueues without a rescuer: which flush leads to one, and which items `safe` doesn't speak of. Without such items it says nothing.
printf 'wq 0 a # md, md.c:1\nnorescuer 1 b # log\n' >bare_target
printf 'norescuer 0 a # md, md.c:1\nwq 1 b\n' >bare_item
printf 'wq 0 b\nwq 1 a\nnorescuer 2\n' >bare_and_empty
bare_hangs='run 4\nqueue a\nqueue b\nstart 0 a\nwait 0 b\n'
bare_reason='declaration:3:9: can hang: `a`, on workqueue 0 (md), waits for `b`, which nothing guarantees to run: workqueue 1 (log) has no rescuer
    flush a b\n            ^\nbare_target:2:1: workqueue 1 (log) has no rescuer\n    norescuer 1 b # log\n    ^^^^^^^^^\n'
bare_note='bare_item: note: nothing guarantees that these run while memory is short: `a` on workqueue 0 (md)
bare_item: note: where reclaim waits for one of them, declare who waits: an item of its own, on a `wq` line, that flushes it\n'
run deadlock declaration bare_target </dev/null
check 'deadlock: a flush that leads to no rescuer' 1 "$bare_hangs" "$bare_reason"
run deadlock declaration bare_item </dev/null
check 'deadlock: safe, with an item on a workqueue without a rescuer' 0 'safe\n' "$bare_note"
run deadlock declaration bare_and_empty </dev/null
check 'deadlock: safe, with a workqueue without a rescuer and without items' 0 'safe\n' ''
run circles declaration bare_item </dev/null
check 'circles: safe, with an item on a workqueue without a rescuer' 0 'safe\n' "$bare_note"
run circles declaration bare_target </dev/null
check 'circles: a flush that leads to no rescuer' 1 'components 0\nnorescuer 1\narc a b\n' "$bare_reason"
run circles declaration bare_and_empty </dev/null
check 'circles: safe, with a workqueue without a rescuer and without items' 0 'safe\n' ''
run deadlock declaration - <bare_item
check 'deadlock: the same note of standard input' 0 'safe\n' "${bare_note//bare_item/<stdin>}"
limited "$program" deadlock declaration bare_item </dev/null >out 2>/dev/full
status=$?
: >err
check 'deadlock: a note that cannot be written' 0 'safe\n' ''

# The shortest run that ends stuck. What is said of workqueues without a rescuer is what `deadlock` says, but where a wait of one item
# takes fewer steps.
printf 'item a\nitem b\nitem c\nflush b c\n' >one_flush
printf 'wq 0 a b c\n' >one_lane
printf 'plan 1\nwq 0 a b c\nchain 0\n' >one_lane_of_a_plan
printf 'item a\nitem b\nflush a b\nflush a a\n' >waits_for_itself
two_of_three='run 4\nqueue b\nqueue c\nstart 0 b\nwait 0 c\n'
run hang one_flush one_lane </dev/null
check 'hang: two of three items' 1 "$two_of_three" why
run hang one_flush one_lane_of_a_plan </dev/null
check 'hang: a plan text as an assignment' 1 "$two_of_three" why
run hang one_flush - <one_lane
check 'hang: an assignment from standard input' 1 "$two_of_three" why
run hang whole one_lane </dev/null
check 'hang: a wait for the whole workqueue that it is on' 1 'run 3\nqueue a\nstart 0 a\nwaitwq 0 b\n' why
run hang chain safe_lanes </dev/null
check 'hang: a safe assignment' 0 'safe\n' ''
run hang declaration plan_of_two </dev/null
check 'hang: the plan that is printed' 0 'safe\n' ''
run hang declaration bare_target </dev/null
check 'hang: a flush that leads to no rescuer' 1 "$bare_hangs" "$bare_reason"
run hang waits_for_itself bare_target </dev/null
check 'hang: a shorter run than that of the flush that leads to no rescuer' 1 'run 3\nqueue a\nstart 0 a\nwait 0 a\n' \
    'waits_for_itself:4:9: can hang: `a`, on workqueue 0 (md), waits for itself\n    flush a a\n            ^\n'
run hang declaration bare_item </dev/null
check 'hang: safe, with an item on a workqueue without a rescuer' 0 'safe\n' "$bare_note"
run hang declaration bare_and_empty </dev/null
check 'hang: safe, with a workqueue without a rescuer and without items' 0 'safe\n' ''

# All flushes on circles at once.
components='components 1\ncomponent 2\narc a b\narc b c\n'
run circles chain lanes </dev/null
check 'circles: the flushes on circles' 1 "$components" why
run circles chain safe_lanes </dev/null
check 'circles: a safe assignment' 0 'safe\n' ''
run circles chain lanes_of_a_plan </dev/null
check 'circles: a plan text as an assignment' 1 "$components" why
run circles chain </dev/null
check 'circles: a declaration that has a plan' 0 'safe\n' ''
run circles circle </dev/null
check 'circles: a declaration that has none' 1 'components 1\ncomponent 1\narc a a\n' why
run circles empty </dev/null
check 'circles: no byte at all' 0 'safe\n' "empty$no_item"

# Drawings. What is drawn has status 0, also where it is a circle.

# What marks mean, as printf spells it, behind `bold` or `red`.
bold='bold\\lBold: the chain that needs so many workqueues.\\l'
red='red\\lRed: while memory is short, a worker may wait for work\\lthat only it, or one that waits for it, can do.\\l'

# drawing TITLE LINE..: a drawing with these lines between its head and its end.
drawing() {
    local title=$1
    shift
    echo 'digraph wqplan {'
    echo "  graph [label=\"$title\", labelloc=t, labeljust=l, rankdir=LR, nodesep=0.15, ranksep=1, fontname=\"sans-serif\"];"
    echo '  node [shape=box, style=filled, fillcolor=white, height=0.3, fontname="sans-serif", fontsize=12];'
    echo '  edge [arrowsize=0.7];'
    [ $# -eq 0 ] || printf '  %s\n' "$@"
    echo '}'
}

# box NUMBER ITEM..: the lines of a workqueue with these items, to be put behind two spaces.
box() {
    echo "subgraph \"cluster wq $1\" {"
    echo "    graph [label=\"\", style=filled, color=gray92]; \"wq $1\" [shape=plaintext, style=\"\", fontsize=14];"
    printf '    "%s";\n' "${@:2}"
    echo '  }'
}

drawn_plan="$(drawing "plan of 3 workqueues, 2 waits in $bold" "$(box 0 c)" "$(box 1 b)" "$(box 2 a)" \
    '"a" -> "b" [style=bold];' '"b" -> "c" [style=bold];')\n"
drawn_safe="$(drawing safe "$(box 0 c)" "$(box 1 b)" "$(box 2 a)" '"a" -> "b";' '"b" -> "c";')\n"
drawn_circle="$(drawing "can hang, 2 waits in $red" "$(box 0 a c)" "$(box 1 b)" \
    '"a" -> "b" [color=red, penwidth=4];' '"b" -> "c" [color=red, penwidth=4];')\n"
drawn_loop="$(drawing "every assignment can hang, 1 wait in $red" "$(box 0 a)" '"a" -> "a" [color=red, penwidth=4];')\n"
run dot chain </dev/null
check 'dot: a plan' 0 "$drawn_plan" ''
run dot circle </dev/null
check 'dot: a declaration that has no plan' 0 "$drawn_loop" ''
run dot empty </dev/null
check 'dot: no byte at all' 0 "$(drawing 'plan of 0 workqueues')\n" "empty$no_item"
run dot chain lanes </dev/null
check 'dot: the flushes on circles' 0 "$drawn_circle" ''
run dot chain safe_lanes </dev/null
check 'dot: a safe assignment' 0 "$drawn_safe" ''
run dot chain lanes_of_a_plan </dev/null
check 'dot: a plan text as an assignment' 0 "$drawn_circle" ''

# Replays.
printf "$hangs" >deadlock
printf 'run 6\nqueue a\nqueue b\nqueue c\nstart 0 a\nwait 0 b\nstart 1 b\n' >open
printf 'run 1\nstart 0 a\n' >unlawful
printf 'run 7\nqueue a\ncancel a\nqueue a\nqueue b\nqueue c\nstart 0 a\nwait 0 b\n' >unstuck
printf 'run 9\nqueue a\ncancel a\nqueue a\nqueue b\nqueue c\nstart 0 a\nwait 0 b\nstart 1 b\nwait 1 c\n' >stuck
run replay chain lanes deadlock </dev/null
check 'replay: a deadlock' 1 'deadlock\n' why
printf "$two_of_three" >shortest
run replay one_flush one_lane shortest </dev/null
check 'replay: the shortest run that ends stuck' 1 'stuck\n' why
run replay chain lanes open </dev/null
check 'replay: a run that can go on' 0 'open\n' ''
run deadlock chain lanes </dev/null
mv out printed
run replay chain lanes printed </dev/null
check 'replay: the run that is printed' 1 'deadlock\n' why
run replay chain lanes unlawful </dev/null
check 'replay: a step that is not lawful' 1 'not lawful 1\n' 'of 3'
run replay chain lanes unstuck </dev/null
check 'replay: a run with a cancelled item that can go on' 0 'open\n' ''
run replay chain lanes stuck </dev/null
check 'replay: a run with a cancelled item that is stuck' 1 'stuck\n' why

# Plans that are run.
ran='workqueues 2\nitem a wq 1 queued 1 cancelled 0 finished 1\nitem b wq 0 queued 1 cancelled 0 finished 1\nfaults 0\n'
ran_whole=$(
    echo workqueues 3
    printf 'item %s queued 1 cancelled 0 finished 1\n' 'a wq 1' 'b wq 0' 'c wq 2'
    echo faults 0
)

# chain_of COUNT: so many items, each of which flushes the next one.
chain_of() {
    seq -f 'item i%g' "$1"
    seq "$(($1 - 1))" | awk '{ print "flush i" $1, "i" $1 + 1 }'
}

chain_of 256 >chain256
chain_of 257 >chain257
ran256=$(
    echo workqueues 256
    seq 256 | awk '{ print "item i" $1, "wq", 256 - $1, "queued 1 cancelled 0 finished 1" }'
    echo faults 0
)
run run declaration </dev/null
check 'run: two workqueues' 0 "$ran" ''
run run empty </dev/null
check 'run: no item' 0 'workqueues 0\nfaults 0\n' "empty$no_item"
run run chain256 </dev/null
check 'run: 256 workqueues' 0 "$ran256\n" ''
run run chain257 </dev/null
check 'run: 257 workqueues' 2 'refused 69 line 0\n' 'of 1'
run run whole </dev/null
check 'run: a wait for a whole workqueue' 0 "$ran_whole\n" ''
for helpers in {0..8} 00 +3; do
    run run declaration "$helpers" </dev/null
    check "run: two workqueues, helpers $helpers" 0 "$ran" ''
done
run run -- declaration -0 </dev/null
check 'run: helpers -0 behind --' 0 "$ran" ''
run run chain256 8 </dev/null
check 'run: 256 workqueues, helpers 8' 0 "$ran256\n" ''
run run chain257 8 </dev/null
check 'run: 257 workqueues, helpers 8' 2 'refused 69 line 0\n' 'of 1'
run run circle 8 </dev/null
check 'run: a circle, helpers 8' 1 'circle 1\narc a a\nrun 3\nqueue a\nstart 0 a\nwait 0 a\n' ''
run run circle </dev/null
check 'run: a circle and its run' 1 'circle 1\narc a a\nrun 3\nqueue a\nstart 0 a\nwait 0 a\n' ''
run run refused </dev/null
check 'run: a refusal' 2 'refused 8 line 2\n' 'of 1'
run run largest </dev/null
check 'run: a text of 1,048,576 bytes' 0 'workqueues 0\nfaults 0\n' "largest$no_item"

# leaves ARG..: counts whether the command leaves standard input to whoever reads it next.
leaves() {
    { limited "$program" "$@" >/dev/null 2>&1; cat; } <<<'the rest' >out
    status=$?
    : >err
    check "standard input is left: $*" 0 'the rest\n' ''
}
leaves explain safe
leaves explain
leaves plan missing

# bounded LIMIT ARG..: counts whether the command takes one byte more than LIMIT of the text that it has as /dev/stdin, or, where no file
# is named, as standard input, and leaves what follows.
bounded() {
    local limit=$1
    shift
    { yes '' | head -c "$((limit + 1))"; echo 'the rest'; } | { limited "$program" "$@" >/dev/null 2>&1; cat; } >out
    status=$?
    : >err
    check "no more than a byte past the limit is read: $*" 0 'the rest\n' ''
}
bounded 1048576 plan

# type_text FILE ARG..: runs the command where what the file has is typed at its standard input, and then one end of the input.
type_text() {
    given=("${@:2}")
    limited python3 -B "$typed" "$(awk '{ printf "%s\\n", $0 }' "$1")" "$program" "${@:2}" >out 2>err </dev/null
    status=$?
}
type_text declaration plan
check 'plan: one end of the input is enough' 0 "$plan" ''

# The same each time, whatever the threads do: the first run that differs is looked at, or the last one.
ran3=$(printf 'item %s queued 1 cancelled 0 finished 1\\n' 'a wq 2' 'b wq 1' 'c wq 0')
for _ in $(seq 50); do
    run run chain </dev/null
    [ "$status" -eq 0 ] && holds out "workqueues 3\n${ran3}faults 0\n" || break
done
check 'run: a chain of three, 50 times' 0 "workqueues 3\n${ran3}faults 0\n" ''

# Threads that can't be made: there is room for some of them. Those that were made end, and so does the program.
(ulimit -v 131072 && limited "$program" run chain256) </dev/null >out 2>err
status=$?
check 'run: not as many threads as workqueues' 3 '' 'fault thread\n'

# Files are opened in the order of the arguments, all of them before one is read, and none behind one that can't be
# opened. A pipe with a name is open only once both its ends are, so in any other order each side waits for the other.
mkfifo first second third

# feed FILE..: opens as many of the pipes in turn, and then writes these files to them.
feed() {
    exec 3>first 4>second
    [ $# -lt 3 ] || exec 5>third
    cat -- "$1" >&3
    cat -- "$2" >&4
    [ $# -lt 3 ] || cat -- "$3" >&5
}

# run_fed COMMAND FILE..: runs a command over the pipes, which are fed with these files.
run_fed() {
    local pipes=(first second third)
    feed "${@:2}" &
    run "$1" "${pipes[@]:0:$#-1}" </dev/null
    kill "$!" 2>/dev/null
    wait "$!" 2>/dev/null
}

# What every form of a command is given, by docs/tables/commands.txt: of each argument a file, its limit, what help says of it, and the
# refusal of a text that is too long.
printf 'plan 3\nwq 0 c\nwq 1 b\nwq 2 a\nchain 3\narc a b\narc b c\n' >chain_plan
printf '# no workqueue stays\n' >none_stays
declare -A text_of=([FILE]=chain [DECL]=chain [CERT]=chain_plan [ASSIGN]=lanes [RUN]=open [FIXED]=none_stays)
declare -A limit_of=([FILE]=1048576 [DECL]=1048576 [CERT]=8388608 [ASSIGN]=8388608 [RUN]=8388608 [FIXED]=8388608)
declare -A subjects_of=([FILE]='declaration,standard input' [DECL]=declaration [CERT]=circle [ASSIGN]=workqueue [RUN]=step
    [FIXED]=workqueue)
declare -A longer_than=([1048576]=too_large [8388608]=too_large_certificate)
declare -A refusal_of=([1048576]='refused 1 line 0\n' [8388608]='refused 40 line 0\n')

# as NAME: counts whether the last run ended as the one whose answer is in the file `answer`, and said what belongs to it.
as() {
    if [ "$status" -eq "$answered" ] && cmp -s out answer && belongs; then
        ok "$1"
    else
        fail "$1: status $status, standard output '$(head -c 200 out)', standard error '$(head -c 200 err)'"
    fi
}

# as_typed NAME: the same where all was written to a terminal: what is said is above the answer.
as_typed() {
    local size=$(($(stat -c %s out) - $(stat -c %s answer)))
    if [ "$size" -gt 0 ]; then
        head -c "$size" out >err
        tail -c +$((size + 1)) out >below && mv below out
    fi
    as "$1"
}

# piped COMMAND FILE..: runs a command whose files are pipes with these texts.
piped() {
    case $# in
        2) run "$1" <(cat -- "$2") </dev/null ;;
        3) run "$1" <(cat -- "$2") <(cat -- "$3") </dev/null ;;
        4) run "$1" <(cat -- "$2") <(cat -- "$3") <(cat -- "$4") </dev/null ;;
    esac
}

# unwritten ARG..: counts whether the command ends with `fault write`, and says nothing of its answer, where that can't be written.
unwritten() {
    limited "$program" "$@" </dev/null >/dev/full 2>err
    status=$?
    : >out
    check "$*, standard output that is full" 3 '' "$full"
    limited "$program" "$@" </dev/null >&- 2>err
    status=$?
    check "$*, standard output that is closed" 3 '' "$closed"
    unheard "$@"
}

# unheard ARG..: counts whether the command ends silently where nobody reads standard output any more, with the status of a program
# that SIGPIPE ended.
unheard() {
    # (a pipe that is opened while somebody reads it)
    exec 8<>unread 9>unread 8<&-
    limited "$program" "$@" </dev/null >&9 2>err
    status=$?
    exec 9>&-
    : >out
    check "$*, standard output that nobody reads" 141 '' ''
}

# shows COMMAND ARGUMENT SUBJECTS: counts whether each form of the command's help has a line for the argument that speaks
# of these subjects and of no other one. So it tells the argument from all others, however it is worded.
shows() {
    local words found
    for words in "help $1" "$1 --help" "$1 -h"; do
        run $words </dev/null
        # (what long help says of it is on a line of its own)
        found=$(sed -zE 's/\n {6,}/ /g' out | grep -E "^ +[[<]$2[]>] " | grep -oE 'declaration|standard input|circle|workqueue|step|number' |
            sort -u | paste -sd, -)
        if [ "$found" = "$3" ]; then
            ok "$words: $2"
        else
            fail "$words: wanted a line on $2 that speaks of $3, found '$(grep -F -- "$2" out)'"
        fi
    done
}

# as_whole FORM COMMAND FILE..: what the form is given, of all its files at once.
as_whole() {
    local form=$1 command=$2
    local files=("${@:3}")
    run "$command" -- "${files[@]}" </dev/null
    as "$form: files behind --"
    piped "$command" "${files[@]}"
    as "$form: pipes"
    if [ ${#files[@]} -gt 1 ]; then
        run_fed "$command" "${files[@]}"
        as "$form: pipes that are opened in turn"
    fi
    leaves "$command" "${files[@]}"
    unwritten "$command" "${files[@]}"
    unwritten "$command" refused "${files[@]:1}"
    run "$command" refused "${files[@]:1}" </dev/null
    check "$form: a wrong declaration" 2 'refused 8 line 2\n' 'of 1'
    run "$command" --fast "${files[@]}" </dev/null
    check "$form: an option that isn't there" 2 '' some
    is "$form: no way to a file with the name of an option" '' "$(grep -F -- '-- --fast' err)"
    if [ ${#files[@]} -gt 1 ]; then
        run "$command" - - "${files[@]:2}" <"${files[0]}"
        check "$form: standard input twice" 2 '' "$twice"
    fi
    if [ ${#files[@]} -gt 2 ]; then
        run "$command" "${files[0]}" - - <"${files[1]}"
        check "$form: standard input twice, behind a file" 2 '' "$twice"
    fi
}

# in_place FORM AT ARGUMENT COMMAND FILE..: what the form is given in the place of one of its files, which are counted from 0.
in_place() {
    local form=$1 at=$2 argument=$3 command=$4 limit=${limit_of[$3]}
    local files=("${@:5}") other
    other=("${files[@]}")
    for file in missing ''; do
        other[at]=$file
        run "$command" "${other[@]}" </dev/null
        check "$form: '$file' as $argument" 3 '' "wqplan: $file: no such file\nfault read\n"
    done
    other[at]=-
    run "$command" "${other[@]}" <"${files[at]}"
    as "$form: - as $argument"
    run "$command" "${other[@]}" <"${longer_than[$limit]}"
    check "$form: - as $argument, and one byte more" 2 "${refusal_of[$limit]}" 'of 0'
    run "$command" "${other[@]}" <folder
    check "$form: - as $argument, a folder" 3 '' 'wqplan: <stdin>: is a directory\nfault read\n'
    other[at]=folder
    run "$command" "${other[@]}" </dev/null
    check "$form: a folder as $argument" 3 '' 'wqplan: folder: is a directory\nfault read\n'
    # All files are opened before one is read.
    other=(refused "${files[@]:1}")
    other[at]=missing
    run "$command" "${other[@]}" </dev/null
    check "$form: a missing $argument, where a text is wrong" 3 '' 'wqplan: missing: no such file\nfault read\n'
    other=("${files[@]:0:at}" missing second third)
    run "$command" "${other[@]:0:${#files[@]}}" </dev/null
    check "$form: pipes behind a missing $argument" 3 '' 'wqplan: missing: no such file\nfault read\n'
    # Texts as long as their limit, and longer ones.
    other=("${files[@]}")
    other[at]=/dev/stdin
    bounded "$limit" "$command" "${other[@]}"
    type_text "${files[at]}" "$command" "${other[@]}"
    as_typed "$form: one end of $argument is enough"
    cat "${files[at]}" <(yes '') 2>/dev/null | head -c "$limit" >as_long
    other[at]=as_long
    run "$command" "${other[@]}" </dev/null
    as "$form: $argument of $limit bytes"
    other[at]=${longer_than[$limit]}
    run "$command" "${other[@]}" </dev/null
    check "$form: $argument of one byte more" 2 "${refusal_of[$limit]}" "of $((at + 1))"
    run "$command" "${other[@]:0:at}" <(yes '' 2>/dev/null) "${files[@]:at+1}" </dev/null
    check "$form: $argument without end" 2 "${refusal_of[$limit]}" "of $((at + 1))"
    # Refusals come in the order of the arguments, each text as a whole before the next one.
    if [ "$at" -gt 0 ]; then
        other[0]=refused
        run "$command" "${other[@]}" </dev/null
        check "$form: a wrong declaration beside $argument of one byte more" 2 'refused 8 line 2\n' 'of 1'
        other[0]=too_large
        run "$command" "${other[@]}" </dev/null
        check "$form: a declaration and $argument of one byte more" 2 'refused 1 line 0\n' 'of 1'
    fi
}

usual=$seconds seconds=20
declare -A longest=()
while read -r form; do
    read -ra arguments <<<"$form"
    command=${arguments[0]}
    arguments=("${arguments[@]:1}")
    files=()
    for argument in "${arguments[@]}"; do
        files+=("${text_of[$argument]}")
    done
    run "$command" "${files[@]}" </dev/null
    cp out answer
    answered=$status
    has "$form: an answer" '^[01]$' "$status"
    as "$form: what is said of it"
    as_whole "$form" "$command" "${files[@]}"
    for at in "${!files[@]}"; do
        in_place "$form" "$at" "${arguments[at]}" "$command" "${files[@]}"
    done
    # With one file less, but where that is another form, and with one more: that isn't a number of helpers, either.
    if [ -z "${longest[$command]-}" ] && [ "${arguments[0]}" != FILE ]; then
        run "$command" "${files[@]:0:${#files[@]}-1}" </dev/null
        check "$form: one file less" 2 '' some
    fi
    longest[$command]=${files[*]}
    for argument in "${arguments[@]}"; do
        shows "$command" "$argument" "${subjects_of[$argument]}"
    done
done < <(python3 -B "$root/tests/lib/commands.py" forms)
for command in "${!longest[@]}"; do
    # Each file is an argument of its own. Behind those of some commands a word is a NAME, here of no item.
    answer=
    grep -qF "$command " <<<'hang repair replay circles ' && answer='refused 8 line 0\n'
    run "$command" ${longest[$command]} more </dev/null
    check "$command ${longest[$command]}: one file more" 2 "$answer" some
done
seconds=$usual

# Refusals of other texts, and which one comes first.
printf 'wq 0 a b\nwq 1\n' >without_c
run deadlock chain without_c </dev/null
check 'deadlock: an assignment without an item' 2 'refused 41 line 0\n' 'of 2'
run hang chain without_c </dev/null
check 'hang: an assignment without an item' 2 'refused 41 line 0\n' 'of 2'
run hang refused without_c </dev/null
check 'hang: a wrong declaration before a wrong assignment' 2 'refused 8 line 2\n' 'of 1'
run circles chain without_c </dev/null
check 'circles: an assignment without an item' 2 'refused 41 line 0\n' 'of 2'
run dot chain without_c </dev/null
check 'dot: an assignment without an item' 2 'refused 41 line 0\n' 'of 2'
run dot largest </dev/null
check 'dot: a text of 1,048,576 bytes' 0 "$(drawing 'plan of 0 workqueues')\n" "largest$no_item"
run replay refused without_c unlawful </dev/null
check 'replay: a wrong declaration before a wrong assignment' 2 'refused 8 line 2\n' 'of 1'
run replay chain without_c too_large_certificate </dev/null
check 'replay: a wrong assignment before a run that is too long' 2 'refused 41 line 0\n' 'of 2'
run replay chain lanes <(printf 'run 1\n\nstart 4096 a\n') </dev/null
check 'replay: a run with a workqueue that none can be' 2 'refused 43 line 3\n' 'of 3'

# Limits: 1,048,576 bytes are read as a declaration, and one byte more is refused.
run plan largest </dev/null
check 'a text of 1,048,576 bytes' 0 'plan 0\nchain 0\n' "largest$no_item"
run plan < <(yes 'item a' 2>/dev/null)
check 'a text without end' 2 'refused 1 line 0\n' 'of 0'

# At a terminal what is said of an answer is above it. The answer itself is the same.
above() {
    python3 -B "$typed" "$1" "$program" "${@:4}" >out 2>err
    status=$?
    check "at a terminal: ${*:4}" "$2" "$3" ''
}
above 'item a\nflush a b\n' 2 '<stdin>:2:9: no item `b` is declared above this line [refused 8, `wqplan explain 8`]\n    flush a b
            ^ write `item b` above\nrefused 8 line 2\n' plan
above 'item a\nitem b\nflush a b\n' 0 "$plan" plan
above '' 0 '<stdin>: note: no item is declared: is this the right file?\nplan 0\nchain 0\n' plan
above 'plan 1\nwq 0 a b\nchain 1\n' 1 '<stdin>:2:6: `a` flushes `b`, so it should be on a higher workqueue [no 50, `wqplan explain 50`]
    wq 0 a b\n         ^ `b` is on workqueue 0
declaration:3:9: can hang: `a`, on workqueue 0, waits for `b`, which is behind it\n    flush a b
            ^\nno 50 a b\n' check declaration -
above 'norescuer 0 a\nwq 1 b\n' 0 '<stdin>: note: nothing guarantees that these run while memory is short: `a` on workqueue 0
<stdin>: note: where reclaim waits for one of them, declare who waits: an item of its own, on a `wq` line, that flushes it\nsafe\n' deadlock declaration -

# Faults of the system.
run plan $'mis\tsi\ang\303\251' </dev/null
check 'a FILE that is missing, with bytes that are not printable' 3 '' 'wqplan: mis si?ng??: no such file\nfault read\n'
cp declaration ./-
run plan ./- </dev/null
check 'a FILE with the name -' 0 "$plan" ''
rm ./-
run plan declaration/missing </dev/null
check 'a FILE in a file' 3 '' "wqplan: declaration/missing: a part of the path isn't a directory\nfault read\n"
run plan "$(head -c 300 /dev/zero | tr '\0' x)" </dev/null
check 'a FILE with a name of 300 bytes' 3 '' "wqplan: $(head -c 300 /dev/zero | tr '\0' x): the name is too long\nfault read\n"
run plan <folder
check 'standard input that is a folder' 3 '' 'wqplan: <stdin>: is a directory\nfault read\n'
run plan <&-
check 'standard input that is closed' 3 '' "wqplan: <stdin>: can't be read\nfault read\n"
# Of a circle, a refusal or a `no` that can't be written there is no diagnosis, either.
for words in 'plan circle' 'check declaration no_circle' 'deadlock chain without_c' 'hang chain without_c' \
    'replay chain without_c unlawful' 'circles circle' 'circles chain without_c' 'dot circle' 'dot chain without_c' 'run circle'; do
    # Each word is an argument of its own.
    unwritten $words
done
limited "$program" --help </dev/null >/dev/full 2>err
status=$?
check 'help on a standard output that is full' 3 '' "$full"
unheard --help
unheard --version
unheard explain

# Command lines.
run </dev/null
check 'no subcommand' 2 '' some
run plant </dev/null
check 'an unknown subcommand' 2 '' some
run plan declaration none_stays circle </dev/null
check 'a file behind FILE and FIXED' 2 '' some
# What is said of an option that isn't there: nothing of a file with its name. What it is like is said as ever.
usage="Usage: ${program##*/} plan"
run plan --json </dev/null
check 'plan --json' 2 '' "error: unexpected argument '--json' found\n\n$usage [FILE] [FIXED]\n\nFor more information, try '--help'.\n"
run plan --halp </dev/null
like="error: unexpected argument '--halp' found\n\n  tip: a similar argument exists: '--help'\n"
check 'plan --halp' 2 '' "$like\n$usage --help [FILE] [FIXED]\n\nFor more information, try '--help'.\n"
for words in 'run declaration 9' 'run declaration -1' 'run declaration x' 'run declaration 2x' 'run declaration 256' \
    'run declaration 2 3' 'run declaration 1.0' 'run -- declaration -1'; do
    run $words </dev/null
    check "$words" 2 '' some
done
run help plant </dev/null
check 'help for an unknown subcommand' 2 '' some
run plan $'\xff' </dev/null
check 'an argument that is not UTF-8' 2 '' some
# Help, that of each command too, in each form, fits within 80 columns. It is written in ASCII, so a byte is a column.
mapfile -t commands < <(python3 -B "$root/tests/lib/commands.py")
for words in --help -h help "${commands[@]/#/help }" "${commands[@]/%/ --help}" "${commands[@]/%/ -h}"; do
    # Each word is an argument of its own.
    run $words </dev/null
    check "$words" 0 some ''
    mv out help
    LC_ALL=C grep -E '.{81}|[^ -~]' help >out
    status=0
    check "$words: 80 columns" 0 '' ''
done
# Long help of a command has the answers of this command with their statuses, and no answer that only others have; short help has
# none. That of the program has all.
while IFS=$'\t' read -r command has cell; do
    limited "$program" $command --help | sed -n '/Exit status:/,$p' | tr -s ' \n' '  ' >out
    found=$(grep -cF -- "$cell" out)
    is "$command --help: $has $cell" "$([ "$has" = has ] && echo 1 || echo 0)" "$found"
done < <(python3 -B "$root/tests/lib/commands.py" answers)
for command in '' "${commands[@]}"; do
    run $command -h </dev/null
    is "$command -h: no statuses" '' "$(grep -F status out)"
done
shows run HELPERS workqueue
shows explain CODE number
run --version </dev/null
check '--version' 0 'wqplan 0.2.0\n' ''

counts_of program
