#!/usr/bin/env bash
# Runs `plan`, `check`, `deadlock`, `hang`, `repair`, `replay`, `run`, `circles` and `dot` over the subsystems of Linux
# 6.1 in examples/. What is expected of each (how many workqueues, which circle, whether the kernel's assignment is
# safe, how long the run is, what a repair changes) was worked out by hand from the kernel's sources, and stands in this
# script. Of all else that the program prints the program's own checkers are asked: `check` says yes to each plan and
# circle, `replay` says deadlock of each run. `run` has each item on the workqueue that `plan` gives it, queued once and
# finished once. tests/lib/drawn.py reads each drawing, and what is drawn is what `plan` and `circles` print. Run it once
# the gate or `rt run` has built the program. The argument, if there is one, names another program.
set -u
. "$(dirname "$0")/../lib/script.bash"
root=$(realpath -- "$(dirname "$0")/../..")
program=$(realpath -m -- "${1:-$root/crates/wqplan/out/wqplan}")
built examples wqplan "$program"
examples=$root/examples
reader=$root/tests/lib/drawn.py
work=$(mktemp -d)
trap 'rm -rf -- "$work"' EXIT
cp -- "$examples"/*.wq "$examples"/*.assign "$work"
cd -- "$work" || exit 1
# Of a declaration with unsure lines NAME.wq has none of them here, and NAME.unsure.wq has all.
for declaration in $(grep -lE '^flush(wq)?[?] ' -- *.wq); do
    mv -- "$declaration" "${declaration%.wq}.unsure.wq"
    grep -vE '^flush(wq)?[?] ' "${declaration%.wq}.unsure.wq" >"$declaration"
done

# decided NAME PATTERN: of the unsure lines of NAME.unsure.wq those with this pattern as they are when they are sure, without the others.
decided() {
    sed -E "/^flush(wq)?[?] .*($2)/s/^(flush(wq)?)[?]/\\1/" "$1.unsure.wq" | grep -vE '^flush(wq)?[?] '
}

# depends NAME DECL ASSIGN LINE..: counts whether `hang` needs these unsure lines, if any, and `deadlock` the same.
depends() {
    local name=$1 declaration=$2 assignment=$3 command
    shift 3
    for command in hang deadlock; do
        run "$command" "$declaration" "$assignment"
        is "$name: $command" "1: unsure $#${1:+ }$*" "$status: $(sed '/^run/,$d' out | xargs -d '\n')"
    done
}

# ends NAME STATUS TEXT: counts whether the last run ended so, with just this text.
ends() {
    is "$1" "$2: $3" "$status: $(cat out err)"
}

# hanging NAME TEXT: counts whether the last run ended with status 1 and wrote just this text, and whether standard error says why the
# workqueues can hang.
hanging() {
    is "$1" "1: $2" "$status: $(cat out)"
    has "$1: why" ': can hang: `[a-zA-Z_.]+`' "$(head -n 1 err)"
}

# why NAME DECL ASSIGN PAIR: counts whether `hang` says of an item that it waits for another one, whether they are on one workqueue or
# the other one is on one without a rescuer. A PAIR has both names in backticks, with a blank between them; it may be a pattern of several.
why() {
    run hang "$2" "$3"
    has "$1: which wait is said" "^($4)\$" "$(head -n 1 err | grep -oE '`[a-z_.]+`' | xargs -d '\n')"
}

# begins NAME STATUS LINE: counts whether the last run ended so, and wrote this line first.
begins() {
    is "$1" "$2: $3" "$status: $(head -n 1 out)"
}

# hangs NAME DECL ASSIGN [STEPS]: counts whether `deadlock` prints a run (of so many steps), and `replay` says that it
# deadlocks, and that without its last step it doesn't.
hangs() {
    run deadlock "$2" "$3"
    cp out hangs.run
    local steps=${4:-$(($(wc -l <out) - 1))}
    begins "$1: deadlock" 1 "run $steps"
    run replay "$2" "$3" hangs.run
    hanging "$1: its run, replayed" deadlock
    sed "1s/.*/run $((steps - 1))/; \$d" hangs.run >shorter.run
    run replay "$2" "$3" shorter.run
    ends "$1: its run without the last step" 0 open
}

# answers NAME ANSWER ITEM..: counts whether `plan` answers so, with arcs from each ITEM to the next one, and
# whether `check` says yes to it. ANSWER is `plan K` or `circle N`; the answer stays in the file NAME.answer.
answers() {
    local name=$1 answer=$2 wanted yes chain=${2/plan/chain}
    shift 2
    case $answer in
        plan*) wanted=0 yes="yes ${answer#plan }" ;;
        *) wanted=1 yes="yes $answer" ;;
    esac
    run plan "$name.wq"
    cp out "$name.answer"
    begins "$name: plan" "$wanted" "$answer"
    local arcs=
    while [ $# -gt 1 ]; do
        arcs+="arc $1 $2 "
        shift
    done
    is "$name: the arcs" "$chain $arcs" "$(grep -E '^(chain|circle|arc) ' "$name.answer" | tr '\n' ' ')"
    run check "$name.wq" "$name.answer"
    ends "$name: what plan prints, checked" 0 "$yes"
    run run "$name.wq"
    if [ "$wanted" -eq 0 ]; then
        ends "$name: run" 0 "$(ran "$name")"
    else
        ends "$name: run" 1 "$(cat "$name.answer")"
    fi
}

# ran NAME: what must be printed of a plan that was run, by the declaration and the `wq` lines of the file NAME.answer.
ran() {
    awk '
        { sub(/#.*/, "") }
        FILENAME ~ /answer$/ && $1 == "wq" { lanes++; for (at = 3; at <= NF; at++) lane[$at] = $2; next }
        FILENAME ~ /wq$/ && $1 == "item" { items[count++] = $2 }
        END {
            print "workqueues", lanes
            for (at = 0; at < count; at++)
                print "item", items[at], "wq", lane[items[at]], "queued 1 cancelled 0 finished 1"
            print "faults 0"
        }' "$1.answer" "$1.wq"
}

# counts NAME ITEMS FLUSHES GROUPS WORKQUEUES: counts whether the files declare so many, and the kernel uses so many.
counts() {
    is "$1: items, flushes, groups, workqueues in 6.1" "$2 $3 $4 $5" "$(awk '
        FILENAME ~ /txt$/ { if ($1 == "directive:") word = $2; if ($1 == "declares:") declares[word] = $2; next }
        { sub(/#.*/, "") }
        FILENAME ~ /assign$/ { lanes += $1 == "wq" || $1 == "norescuer"; next }
        declares[$1] == "item" { items++; groups++ }
        declares[$1] == "flushes" { flushes += NF - 2 }
        declares[$1] == "group" { groups -= NF - 2 }
        END { print items + 0, flushes + 0, groups + 0, lanes + 0 }' "$root/docs/tables/directives.txt" "$1.wq" "$1.assign")"
}

# rescued NAME: the kernel's assignment as if each workqueue had a rescuer, in the file NAME.rescued.assign.
rescued() {
    sed 's/^norescuer/wq/' "$1.assign" >"$1.rescued.assign"
}

# notes NAME DECL ASSIGN ITEM..: counts whether the assignment is safe, and whether what is said beside that names just these items.
notes() {
    local name=$1
    run deadlock "$2" "$3"
    is "$name" '0: safe' "$status: $(cat out)"
    shift 3
    is "$name: the items that nothing guarantees to run" "$*" "$(head -n 1 err | grep -oE '`[a-z_.]+`' | tr -d '`' | xargs)"
}

# to_no_rescuer NAME COUNT DECL ASSIGN ITEM TARGET: counts whether so many flushes lead from a workqueue with a rescuer to one
# without, whether `circles` prints these behind all others, and whether `deadlock` begins with this item, and says that it waits for
# this target.
to_no_rescuer() {
    local name=$1 wanted
    wanted=$(awk '
        { sub(/#.*/, "") }
        FILENAME ~ /assign$/ { for (at = 3; at <= NF; at++) bare[$at] = $1 == "norescuer"; next }
        $1 ~ /^flush/ { for (at = 3; at <= NF; at++) if (!bare[$2] && bare[$at]) print "arc", $2, $at }' "$4" "$3")
    run circles "$3" "$4"
    is "$name: the flushes that lead to no rescuer" "1: norescuer $2"$'\n'"$wanted" "$status: $(sed -n '/^norescuer/,$p' out)"
    run deadlock "$3" "$4"
    is "$name: what is queued first" "queue $5" "$(sed -n 2p out)"
    is "$name: what is said" "\`$5\` \`$6\`" "$(head -n 1 err | grep -oE '`[a-z_.]+`' | xargs -d '\n')"
}

# changed ASSIGN: how the assignment in the file `out` differs from this one, sorted: `ITEM FROM TO` of each item that
# is on another workqueue, and `rescuer Q` of each workqueue that has a rescuer in `out` alone.
changed() {
    awk '
        { sub(/#.*/, "") }
        $1 != "wq" && $1 != "norescuer" { next }
        FILENAME == "out" && $1 == "wq" && bare[$2] { print "rescuer", $2 }
        FILENAME != "out" { bare[$2] = $1 == "norescuer" }
        FILENAME != "out" { for (at = 3; at <= NF; at++) lane[$at] = $2; next }
        { for (at = 3; at <= NF; at++) if (lane[$at] != $2) print $at, lane[$at], $2 }' "$1" out | LC_ALL=C sort
}

# undone DECL CHANGE: the assignment of the file repaired.assign without a change that `changed` says: the item, and
# whatever is `ordered` with it, is where it was, or the workqueue has no rescuer.
undone() {
    awk -v change="$2" '
        BEGIN { split(change, word, " "); back[word[1]] = 1 }
        { sub(/#.*/, "") }
        $1 == "ordered" { for (at = 2; at <= NF; at++) if ($at == word[1]) for (at = 2; at <= NF; at++) back[$at] = 1 }
        $1 != "wq" && $1 != "norescuer" { next }
        word[1] == "rescuer" && $2 == word[2] { $1 = "norescuer" }
        {
            line = $1 " " $2
            for (at = 3; at <= NF; at++) if (!($at in back)) line = line " " $at
            if (word[1] != "rescuer" && $2 == word[2]) for (item in back) line = line " " item
            print line
        }' "$1" repaired.assign
}

# repairs NAME DECL ASSIGN CHANGES [ITEM..]: counts whether `repair` makes just these changes, with commas between them,
# as `changed` says them; whether what it prints is safe, and is left as it is by another repair; and whether it
# deadlocks without any one of the changes. It stays in the file repaired.assign.
repairs() {
    local name=$1 declaration=$2 assignment=$3 wanted=$4 change
    shift 4
    run repair "$declaration" "$assignment" "$@"
    is "$name: repair" "0: $wanted" "$status: $(changed "$assignment" | paste -sd,)"
    cp out repaired.assign
    run deadlock "$declaration" repaired.assign
    is "$name: what is repaired" '0: safe' "$status: $(cat out)"
    run repair "$declaration" repaired.assign
    is "$name: what is repaired, repaired" "0: $(cat repaired.assign)" "$status: $(cat out)"
    while read -r change; do
        undone "$declaration" "$change" >undone.assign
        run deadlock "$declaration" undone.assign
        is "$name: what is repaired, without $change" '1: run' "$status: $(head -n 1 out | cut -d' ' -f1)"
    done < <(tr ',' '\n' <<<"$wanted" | grep .)
}

# too_few NAME DECL ASSIGN ITEM..: counts whether `repair` says that other items have to move too: by a run that
# deadlocks on the workqueues beside it, in which only these items moved.
too_few() {
    local name=$1 declaration=$2 assignment=$3
    shift 3
    run repair "$declaration" "$assignment" "$@"
    begins "$name: repair" 1 "$(head -n 1 out)"
    cp out start.run
    grep -E '^(wq|norescuer) ' err >out
    cp out start.assign
    is "$name: who moved in the start" '' "$(changed "$assignment" | cut -d' ' -f1 | grep -vxF "$(printf '%s\n' "$@")")"
    run replay "$declaration" start.assign start.run
    hanging "$name: the run of the start" deadlock
}

# like NAME ASSIGN: counts whether the workqueues of the file repaired.assign are those of another assignment, whatever
# their numbers and names.
like() {
    is "$1" "$(unnumbered "$2")" "$(unnumbered repaired.assign)"
}

# unnumbered ASSIGN: its workqueues without numbers and names, sorted.
unnumbered() {
    local word lane items
    sed 's/#.*//' "$1" | grep -E '^(wq|norescuer) ' | while read -r word lane items; do
        echo "$word $(tr ' ' '\n' <<<"$items" | LC_ALL=C sort | paste -sd' ')"
    done | LC_ALL=C sort
}

# without_cancel NAME K: counts whether there are K workqueues without the waits of cancel_work_sync.
without_cancel() {
    grep -v '# cancel' "$1.wq" >"$1.nocancel.wq"
    run plan "$1.nocancel.wq"
    begins "$1: plan, without cancel" 0 "plan $2"
}

# plan_is_least NAME: counts whether the printed plan is safe, and hangs as soon as any two of its workqueues become one.
plan_is_least() {
    local name=$1 lanes first second
    lanes=$(grep -c '^wq ' "$name.answer")
    run deadlock "$name.wq" "$name.answer"
    ends "$name: the printed plan" 0 safe
    for ((first = 0; first < lanes; first++)); do
        for ((second = first + 1; second < lanes; second++)); do
            awk -v first="$first" -v second="$second" '
                $1 == "wq" { sub(/^wq [0-9]+ /, ""); names[NR - 2] = $0 }
                END {
                    names[first] = names[first] " " names[second]
                    for (lane = 0; lane in names; lane++)
                        if (lane != second) print "wq", next_lane++, names[lane]
                }' "$name.answer" >joined.assign
            hangs "$name: the printed plan with $first and $second as one" "$name.wq" joined.assign
        done
    done
}

# arrows LOOK: those of the file `out` that look so, whatever their heads, as `arc` lines, sorted. An arrow that is drawn from its
# target is returned to its item.
arrows() {
    local comment='( \[edgetooltip="([^"\\]|\\.)*"\])?'
    sed -nE "s/^  \"([^\"]*)\" -> \"([^\"]*)\" \[$1\]( \[arrowhead=odiamond\])?$comment;$/arc \1 \2/p
        s/^  \"([^\"]*)\" -> \"([^\"]*)\" \[$1\] \[dir=back(, arrowtail=odiamond)?\]$comment;$/arc \2 \1/p" out |
        LC_ALL=C sort
}

# boxes FILE: the items on each workqueue of a drawing, or of a file with `wq` lines, sorted.
boxes() {
    tr -d '";' <"$1" | awk '
        /^(wq|norescuer) / { for (at = 3; at <= NF; at++) print $2, $at }
        /^  subgraph / { lane = $4 }
        /^ +[^ ]+$/ && $1 != "}" { print lane, $1 }' | LC_ALL=C sort
}

# waits: those that are made in the run of the file `out`, as `arc` lines, sorted.
waits() {
    awk '$1 == "start" { item = $3 } $1 == "wait" || $1 == "waitwq" { print "arc", item, $3 }' out | LC_ALL=C sort
}

# draws NAME COUNTS DECL [ASSIGN]: counts whether the reader of drawings finds these counts in what `dot` prints. The red arrows
# must be the flushes that `circles` prints, and those of them that are bold the waits of the run that `hang` prints; and where a
# plan is drawn, its workqueues and the bold arrows must be those of `plan`.
draws() {
    local name=$1 counts=$2 wanted
    shift 2
    run circles "$@"
    wanted=$(grep '^arc ' out | LC_ALL=C sort)
    run dot "$@"
    is "$name: dot" 0 "$status"
    is "$name: what is drawn" "$counts" "$(python3 -B "$reader" out | sed 's/^out: //')"
    is "$name: the red arrows" "$wanted" "$(arrows 'color=red, (style=bold|penwidth=4)')"
    cp out drawing
    if [ $# -eq 1 ] && [ "${counts%% *}" = plan ]; then
        run plan "$1"
        cp out drawn.plan
        is "$name: the boxes" "$(boxes drawn.plan)" "$(boxes drawing)"
        cp drawing out
        is "$name: the bold arrows" "$(grep '^arc ' drawn.plan | LC_ALL=C sort)" "$(arrows style=bold)"
    elif [ $# -eq 2 ]; then
        sed 's/#.*//' "$2" >drawn.assign
        is "$name: the boxes" "$(boxes drawn.assign)" "$(boxes drawing)"
        run hang "$@"
        wanted=$(waits)
        cp drawing out
        is "$name: the bold red arrows" "$wanted" "$(arrows 'color=red, penwidth=4')"
    fi
}

# dm-snapshot: six workqueues, safe; with one kcopyd for all it hangs.
counts dm-snapshot 6 4 6 6
answers dm-snapshot 'plan 3' do_work.merging do_work.other do_metadata.other
without_cancel dm-snapshot 3
plan_is_least dm-snapshot
run deadlock dm-snapshot.wq dm-snapshot.assign
ends 'dm-snapshot: the kernel' 0 safe
hangs 'dm-snapshot: one kcopyd' dm-snapshot.wq dm-snapshot.merged.assign 14
why 'dm-snapshot: one kcopyd' dm-snapshot.wq dm-snapshot.merged.assign '`do_work.merging` `do_work.other`'
draws dm-snapshot 'plan of 3 workqueues, 2 waits in bold: items 6, workqueues 3, arrows 4, red 0, bold 2' dm-snapshot.wq
draws 'dm-snapshot: the kernel' 'safe: items 6, workqueues 6, arrows 4, red 0, bold 0' dm-snapshot.wq dm-snapshot.assign
draws 'dm-snapshot: one kcopyd' 'can hang, 1 wait in red: items 6, workqueues 3, arrows 4, red 1, bold 1' \
    dm-snapshot.wq dm-snapshot.merged.assign
repairs 'dm-snapshot: one kcopyd' dm-snapshot.wq dm-snapshot.merged.assign 'do_work.other 1 3'
repairs 'dm-snapshot: one kcopyd, the merge moves' dm-snapshot.wq dm-snapshot.merged.assign \
    'do_work.merging 1 3' do_work.merging
repairs 'dm-snapshot: the kernel' dm-snapshot.wq dm-snapshot.assign ''

# dm-integrity: six workqueues, safe; without dm-integrity-offload it hangs.
counts dm-integrity 8 13 8 6
answers dm-integrity 'plan 3' integrity_bio_wait.offload integrity_writer integrity_metadata
without_cancel dm-integrity 3
plan_is_least dm-integrity
run deadlock dm-integrity.wq dm-integrity.assign
ends 'dm-integrity: the kernel' 0 safe
hangs 'dm-integrity: without dm-integrity-offload' dm-integrity.wq dm-integrity.merged.assign 20
why 'dm-integrity: without dm-integrity-offload' dm-integrity.wq dm-integrity.merged.assign \
    '`integrity_bio_wait.offload` `integrity_metadata`'
draws dm-integrity 'plan of 3 workqueues, 2 waits in bold: items 8, workqueues 3, arrows 13, red 0, bold 2' dm-integrity.wq
repairs 'dm-integrity: without dm-integrity-offload' dm-integrity.wq dm-integrity.merged.assign 'integrity_metadata 0 5'
like 'dm-integrity: what is repaired is what the kernel has' dm-integrity.assign
repairs 'dm-integrity: without dm-integrity-offload, the bios move' dm-integrity.wq dm-integrity.merged.assign \
    'integrity_bio_wait.offload 0 5' integrity_bio_wait.offload
repairs 'dm-integrity: the kernel' dm-integrity.wq dm-integrity.assign ''

# nvmet-tcp: a circle, and waits by cancel_work_sync for what has no rescuer, so that every assignment hangs: the kernel's, one workqueue for all, and one for each item. The
# last is the one whose run stands behind the circle. Without the flush of nvmet-wq it needs three: the release of a queue waits
# for io_work, which waits for the work of a file that gives back elements of a pool.
counts nvmet-tcp 12 16 12 5
answers nvmet-tcp 'circle 2' nvmet_tcp_io_work nvmet_tcp_release_queue_work nvmet_tcp_io_work
without_cancel nvmet-tcp 3
hangs 'nvmet-tcp: the kernel' nvmet-tcp.wq nvmet-tcp.assign 20
to_no_rescuer 'nvmet-tcp: the kernel' 3 nvmet-tcp.wq nvmet-tcp.assign nvmet_tcp_io_work nvmet_keep_alive_timer.system
grep -vE '^flush .*(timer.system|auth_expired_work) +# cancel' nvmet-tcp.wq >nvmet-tcp.nosystem.wq
hangs 'nvmet-tcp: the kernel, without cancel of what is on system_wq' nvmet-tcp.nosystem.wq nvmet-tcp.assign 20
run circles nvmet-tcp.nosystem.wq nvmet-tcp.assign
is 'nvmet-tcp: the same: no flush leads to no rescuer' '' "$(grep norescuer out)"
cat nvmet-tcp.nosystem.wq nvmet-tcp.module.wq >nvmet-tcp.loads.wq
{ cat nvmet-tcp.assign && echo 'norescuer 5 call_usermodehelper_exec_work'; } >nvmet-tcp.loads.assign
hangs 'nvmet-tcp: the kernel, which loads a module' nvmet-tcp.loads.wq nvmet-tcp.loads.assign
to_no_rescuer 'nvmet-tcp: the kernel, which loads a module' 1 nvmet-tcp.loads.wq nvmet-tcp.loads.assign \
    nvmet_tcp_io_work call_usermodehelper_exec_work
rescued nvmet-tcp
hangs 'nvmet-tcp: the kernel, with rescuers' nvmet-tcp.wq nvmet-tcp.rescued.assign 24
hangs 'nvmet-tcp: the kernel, without cancel' nvmet-tcp.nocancel.wq nvmet-tcp.assign
run circles nvmet-tcp.nocancel.wq nvmet-tcp.assign
is 'nvmet-tcp: the kernel, without cancel: no flush leads to no rescuer' '' "$(grep norescuer out)"
awk '$1 == "item" { all = all " " $2 } END { print "wq 0" all }' nvmet-tcp.wq >one.assign
hangs 'nvmet-tcp: one workqueue' nvmet-tcp.wq one.assign
awk '$1 == "item" { print "wq", lanes++, $2 }' nvmet-tcp.wq >own.assign
hangs 'nvmet-tcp: a workqueue for each item' nvmet-tcp.wq own.assign
is 'nvmet-tcp: the run behind the circle' "$(cat hangs.run)" "$(sed -n '/^run/,$p' nvmet-tcp.answer)"
draws nvmet-tcp 'every assignment can hang, 2 waits in red: items 12, workqueues 12, arrows 16, red 2, bold 2' nvmet-tcp.wq
grep -v 'flushwq tcp.c:1923' nvmet-tcp.wq >nvmet-tcp.noflush.wq
answers nvmet-tcp.noflush 'plan 3' nvmet_tcp_release_queue_work nvmet_tcp_io_work nvmet_file_buffered_io_work
plan_is_least nvmet-tcp.noflush
grep -v '# cancel' nvmet-tcp.noflush.wq >nvmet-tcp.requests.wq
hangs 'nvmet-tcp: the kernel, without the flush, without cancel' nvmet-tcp.requests.wq nvmet-tcp.assign
# No change helps against the circle. Without it the release of a queue has to leave the requests that it waits for.
run repair nvmet-tcp.wq nvmet-tcp.assign
hanging 'nvmet-tcp: the kernel: repair' "$(cat nvmet-tcp.answer)"
run repair nvmet-tcp.wq nvmet-tcp.assign nvmet_tcp_release_queue_work
hanging 'nvmet-tcp: the kernel: repair, the release moves' "$(cat nvmet-tcp.answer)"
repairs 'nvmet-tcp: the kernel, without the flush, without cancel' nvmet-tcp.requests.wq nvmet-tcp.assign \
    'nvmet_tcp_release_queue_work 1 0'
grep -vE '^flush .*(timer.system|auth_expired_work) +# cancel' nvmet-tcp.noflush.wq >nvmet-tcp.mendable.wq
repairs 'nvmet-tcp: the kernel, without the flush' nvmet-tcp.mendable.wq nvmet-tcp.assign \
    'nvmet_tcp_release_queue_work 1 5'

# nvme-auth: two workqueues, of which one hangs; three are enough, and a later kernel has them.
counts nvme-auth 4 4 4 2
answers nvme-auth 'plan 3' dhchap_auth_work auth_work io_work
without_cancel nvme-auth 3
plan_is_least nvme-auth
hangs 'nvme-auth: the kernel' nvme-auth.wq nvme-auth.assign 8
why 'nvme-auth: the kernel' nvme-auth.wq nvme-auth.assign '`(dhchap_auth|connect)_work` `auth_work`'
run deadlock nvme-auth.wq nvme-auth.later.assign
ends 'nvme-auth: a later kernel' 0 safe
draws nvme-auth 'plan of 3 workqueues, 2 waits in bold: items 4, workqueues 3, arrows 4, red 0, bold 2' nvme-auth.wq
{ cat nvme-auth.wq && printf '%s\n' 'item call_usermodehelper_exec_work' 'flush auth_work call_usermodehelper_exec_work'; } >nvme-auth.module.wq
{ cat nvme-auth.later.assign && echo 'norescuer 3 call_usermodehelper_exec_work'; } >nvme-auth.module.assign
hangs 'nvme-auth: a later kernel, which loads a module' nvme-auth.module.wq nvme-auth.module.assign
to_no_rescuer 'nvme-auth: a later kernel, which loads a module' 1 nvme-auth.module.wq nvme-auth.module.assign \
    auth_work call_usermodehelper_exec_work
{ cat nvme-auth.wq && echo 'flush auth_work dhchap_auth_work connect_work'; } >nvme-auth.pool.wq
run plan nvme-auth.pool.wq
begins 'nvme-auth: plan, with a pool of buffers' 1 'circle 2'
draws 'nvme-auth: the kernel' 'can hang, 2 waits in red, 1 in bold: items 4, workqueues 2, arrows 4, red 2, bold 1' nvme-auth.wq nvme-auth.assign
draws 'nvme-auth: a later kernel' 'safe: items 4, workqueues 3, arrows 4, red 0, bold 0' nvme-auth.wq nvme-auth.later.assign
repairs 'nvme-auth: the kernel' nvme-auth.wq nvme-auth.assign 'auth_work 1 2'
like 'nvme-auth: what is repaired is what a later kernel has' nvme-auth.later.assign
repairs 'nvme-auth: the kernel, who flushes moves' nvme-auth.wq nvme-auth.assign \
    'connect_work 1 2,dhchap_auth_work 1 2' dhchap_auth_work connect_work
too_few 'nvme-auth: the kernel, one who flushes moves' nvme-auth.wq nvme-auth.assign connect_work
repairs 'nvme-auth: a later kernel' nvme-auth.wq nvme-auth.later.assign ''

# nvme-multipath: a partition table is read on the workqueue by which the host connects again; that read and the scan need one each.
counts nvme-multipath 7 17 7 4
answers nvme-multipath 'plan 5' scan_work partition_scan_work requeue_work err_work async_event_work
plan_is_least nvme-multipath
hangs 'nvme-multipath: the kernel' nvme-multipath.wq nvme-multipath.assign
why 'nvme-multipath: the kernel' nvme-multipath.wq nvme-multipath.assign '`(partition_)?scan_work` `connect_work`'
repairs 'nvme-multipath: the kernel' nvme-multipath.wq nvme-multipath.assign 'partition_scan_work 1 4,scan_work 1 5'

# nvme-scan, of Linux 6.12: a scan waits for work without a rescuer, on the workqueue by which the host connects again.
counts nvme-scan 6 8 6 4
answers nvme-scan 'plan 4' scan_work nvme_scan_ns_async err_work async_event_work
plan_is_least nvme-scan
hangs 'nvme-scan: the kernel' nvme-scan.wq nvme-scan.assign
to_no_rescuer 'nvme-scan: the kernel' 1 nvme-scan.wq nvme-scan.assign scan_work nvme_scan_ns_async
repairs 'nvme-scan: the kernel' nvme-scan.wq nvme-scan.assign 'rescuer 3,scan_work 1 4'

# dm-thin: a pool flushes what stands behind another user of dm-bufio, whose disk is a volume of the pool.
counts dm-thin 5 4 5 3
answers dm-thin 'plan 3' shrink_work.other do_worker shrink_work.pool
plan_is_least dm-thin
hangs 'dm-thin: the kernel' dm-thin.wq dm-thin.assign
why 'dm-thin: the kernel' dm-thin.wq dm-thin.assign '`do_worker` `shrink_work.pool` `shrink_work.other`'
repairs 'dm-thin: the kernel' dm-thin.wq dm-thin.assign 'shrink_work.pool 1 2'

# nvmet-fc, ext4, srp, netfs: an item with a rescuer waits for one without.
counts nvmet-fc 3 1 3 2
answers nvmet-fc 'plan 2' del_work defer_work
plan_is_least nvmet-fc
hangs 'nvmet-fc: the kernel' nvmet-fc.wq nvmet-fc.assign
to_no_rescuer 'nvmet-fc: the kernel' 1 nvmet-fc.wq nvmet-fc.assign del_work defer_work
repairs 'nvmet-fc: the kernel' nvmet-fc.wq nvmet-fc.assign 'rescuer 1'
counts ext4 3 2 3 3
answers ext4 'plan 2' buffered_io_work discard_work
plan_is_least ext4
hangs 'ext4: the kernel' ext4.wq ext4.assign
to_no_rescuer 'ext4: the kernel' 2 ext4.wq ext4.assign buffered_io_work discard_work
repairs 'ext4: the kernel' ext4.wq ext4.assign 'rescuer 2'
counts srp 3 2 3 2
answers srp 'plan 2' wb_workfn reconnect_work
plan_is_least srp
hangs 'srp: the kernel' srp.wq srp.assign
to_no_rescuer 'srp: the kernel' 2 srp.wq srp.assign wb_workfn reconnect_work
repairs 'srp: the kernel' srp.wq srp.assign 'rescuer 1'
counts netfs 3 2 3 3
answers netfs 'plan 2' oplock_break write_collection_worker
plan_is_least netfs
hangs 'netfs: the kernel' netfs.wq netfs.assign
to_no_rescuer 'netfs: the kernel' 2 netfs.wq netfs.assign oplock_break write_collection_worker
repairs 'netfs: the kernel' netfs.wq netfs.assign 'rescuer 2'

# libfc: what adds a port waits for a workqueue without a rescuer; and if that had one, for an item there that waits for it.
counts libfc 6 4 6 4
answers libfc 'plan 3' wb_workfn event_work stgt_delete_work
plan_is_least libfc
hangs 'libfc: the kernel' libfc.wq libfc.assign
to_no_rescuer 'libfc: the kernel' 2 libfc.wq libfc.assign event_work stgt_delete_work
rescued libfc
hangs 'libfc: the kernel, with rescuers' libfc.wq libfc.rescued.assign
why 'libfc: the kernel, with rescuers' libfc.wq libfc.rescued.assign '`event_work` `vport_delete_work`'
repairs 'libfc: the kernel' libfc.wq libfc.assign 'rescuer 3,stgt_delete_work 2 3'

# nvme-delete: one controller is deleted behind another one, which waits for a flusher behind that of the former's disk.
counts nvme-delete 5 3 5 3
answers nvme-delete 'plan 2' delete_work.first wb_workfn.first
plan_is_least nvme-delete
hangs 'nvme-delete: the kernel' nvme-delete.wq nvme-delete.assign
repairs 'nvme-delete: the kernel, the second one moves' nvme-delete.wq nvme-delete.assign 'delete_work.second 0 3' delete_work.second
{ cat nvme-delete.wq && printf '%s\n' 'item wb_do_writeback' 'flush delete_work.first wb_do_writeback'; } >nvme-delete.list.wq
{ cat nvme-delete.assign && echo 'norescuer 3 wb_do_writeback'; } >nvme-delete.list.assign
to_no_rescuer "nvme-delete: the flusher's list" 1 nvme-delete.list.wq nvme-delete.list.assign delete_work.first wb_do_writeback

# target: an item that waits for itself.
counts target 4 12 4 3
answers target 'circle 1' submit_work submit_work
hangs 'target: the kernel' target.wq target.assign

# qla2xxx: an acknowledgement waits for the end of a session; and with the logout that this end waits for, there is a circle.
counts qla2xxx 3 2 3 1
answers qla2xxx 'plan 2' iocb_work del_work
plan_is_least qla2xxx
hangs 'qla2xxx: the kernel' qla2xxx.wq qla2xxx.assign
why 'qla2xxx: the kernel' qla2xxx.wq qla2xxx.assign '`iocb_work` `(del|free)_work`'
repairs 'qla2xxx: the kernel' qla2xxx.wq qla2xxx.assign 'iocb_work 0 1'
{ cat qla2xxx.wq && echo 'flush free_work iocb_work'; } >qla2xxx.logout.wq
run plan qla2xxx.logout.wq
begins 'qla2xxx: plan, with the logout' 1 'circle 2'

# md: one workqueue for all arrays, which hangs where an array has arrays for disks; one for each array doesn't. The kernel's own
# order of the first hang is a run too, and stuck as soon as the upper array waits.
counts md 4 4 4 1
answers md 'plan 2' submit.upper submit.lower
without_cancel md 2
plan_is_least md
hangs 'md: the kernel' md.wq md.assign 6
why 'md: the kernel' md.wq md.assign '`(submit|data).upper` `(submit|data).lower`'
printf '%s\n' 'run 7' 'queue submit.lower' 'queue submit.upper' 'start 0 submit.lower' 'finish 0 submit.lower' \
    'start 0 submit.upper' 'queue data.lower' 'wait 0 data.lower' >md.run
run replay md.wq md.assign md.run
hanging "md: the kernel's order" stuck
sed '1s/.*/run 6/; $d' md.run >shorter.run
run replay md.wq md.assign shorter.run
ends "md: the kernel's order, before the upper array waits" 0 open
run deadlock md.wq md.perarray.assign
ends 'md: a workqueue for each array' 0 safe
draws md 'plan of 2 workqueues, 1 wait in bold: items 4, workqueues 2, arrows 4, red 0, bold 1' md.wq
draws 'md: the kernel' 'can hang, 4 waits in red, 1 in bold: items 4, workqueues 1, arrows 4, red 4, bold 1' md.wq md.assign
repairs 'md: the kernel' md.wq md.assign 'data.lower 0 1,submit.lower 0 1'
like 'md: what is repaired is a workqueue for each array' md.perarray.assign
too_few 'md: the kernel, one of the upper items moves' md.wq md.assign submit.upper
repairs 'md: a workqueue for each array' md.wq md.perarray.assign ''

# nfs: four workqueues, of which rpciod waits for itself; nfsiod doesn't. Two more waits lead to what has no rescuer, wherever the
# mount ends, but for an item that nobody waits for.
counts nfs 12 24 12 4
answers nfs 'plan 2' rpc_async.put rpc_async
without_cancel nfs 2
plan_is_least nfs
hangs 'nfs: the kernel' nfs.wq nfs.assign 30
why 'nfs: the kernel' nfs.wq nfs.assign '`rpc_async.put` `rpc_(async|timer)`'
printf '%s\n' 'run 4' 'queue rpc_async.put' 'start 1 rpc_async.put' 'queue rpc_async' 'wait 1 rpc_async' >nfs.run
run replay nfs.wq nfs.assign nfs.run
is "nfs: the kernel's order" '1: stuck' "$status: $(cat out)"
sed '1s/.*/run 3/; $d' nfs.run >shorter.run
run replay nfs.wq nfs.assign shorter.run
ends "nfs: the kernel's order, before the mount's end waits" 0 open
run deadlock nfs.wq nfs.moved.assign
ends 'nfs: released by nfsiod' 0 safe
draws nfs 'plan of 2 workqueues, 1 wait in bold: items 12, workqueues 2, arrows 24, red 0, bold 1' nfs.wq
draws 'nfs: the kernel' 'can hang, 2 waits in red, 1 in bold: items 12, workqueues 4, arrows 24, red 2, bold 1' nfs.wq nfs.assign
repairs 'nfs: the kernel' nfs.wq nfs.assign 'rpc_async.put 1 2'
like 'nfs: what is repaired is released by nfsiod' nfs.moved.assign
repairs 'nfs: released by nfsiod' nfs.wq nfs.moved.assign ''
cat nfs.wq nfs.norescuer.wq >nfs.more.wq
without=$'norescuer 4 wb_do_writeback\nnorescuer 5 inode_switch_wbs_work_fn'
{ cat nfs.moved.assign && echo "$without"; } >nfs.more.assign
hangs 'nfs: released by nfsiod, with the flusher' nfs.more.wq nfs.more.assign 48
to_no_rescuer 'nfs: released by nfsiod, with the flusher' 6 nfs.more.wq nfs.more.assign rpc_async.put wb_do_writeback
too_few 'nfs: what ends a mount moves, with the flusher' nfs.more.wq nfs.more.assign rpc_async.put put_release dreq_work
{ echo 'item nfs_sb_end' &&
    grep -vE '^flush(wq)? (put_release|dreq_work)' nfs.more.wq | sed -E 's/^(flush|flushwq) rpc_async.put/\1 nfs_sb_end/'; } >nfs.own.wq
{ cat nfs.assign && echo "$without" && echo 'norescuer 6 nfs_sb_end'; } >nfs.own.assign
notes 'nfs: an item ends the mount' nfs.own.wq nfs.own.assign nfs_sb_end wb_do_writeback inode_switch_wbs_work_fn

# rbd: two ordered groups, five workqueues and the system's, which has no rescuer. With one it would be safe.
counts rbd 13 39 8 6
answers rbd 'plan 3' rbd_acquire_lock do_watch_notify ceph_con_workfn
without_cancel rbd 3
plan_is_least rbd
hangs 'rbd: the kernel' rbd.wq rbd.assign 35
to_no_rescuer 'rbd: the kernel' 14 rbd.wq rbd.assign rbd_acquire_lock handle_timeout
rescued rbd
run deadlock rbd.wq rbd.rescued.assign
ends 'rbd: the kernel, with rescuers' 0 safe
draws rbd 'plan of 3 workqueues, 2 waits in bold: items 13, workqueues 3, arrows 39, red 0, bold 2' rbd.wq
draws 'rbd: the kernel' \
    'can hang, 14 waits in red, 14 to no rescuer, 1 in bold: items 13, workqueues 6, arrows 39, red 14, bold 1' rbd.wq rbd.assign
draws 'rbd: the kernel, with rescuers' 'safe: items 13, workqueues 6, arrows 39, red 0, bold 0' rbd.wq rbd.rescued.assign
repairs 'rbd: the kernel' rbd.wq rbd.assign 'rescuer 5'
like 'rbd: what is repaired has rescuers' rbd.rescued.assign
too_few 'rbd: the kernel, the lock moves' rbd.wq rbd.assign rbd_acquire_lock
{
    echo 'wq 0 ceph_con_workfn complete_request_workfn handle_timeout delayed_work'
    echo 'wq 1 rbd_queue_workfn rbd_img_handle_request_work'
    echo 'wq 2 rbd_acquire_lock rbd_release_lock_work rbd_notify_acquired_lock rbd_notify_released_lock' \
        'rbd_reregister_watch do_watch_notify do_watch_error'
} >rbd.together.assign
repairs 'rbd: the answers to notifies beside the lock' rbd.wq rbd.together.assign \
    'do_watch_error 2 1,do_watch_notify 2 1'

# xfs: twelve workqueues; six are enough, with and without the two that have no rescuer. All that changes trees of extents waits for
# one of these; if it had one, the twelve would be safe. Where there is no free block, an end of a write waits for the cleaners, which
# wait for ends of writes, and a cleaner flushes its own workqueue.
counts xfs 13 42 13 12
answers xfs 'plan 6' xfs_flush_inodes_worker wb_workfn xfs_end_io xfs_btree_split_worker xlog_cil_push_work xlog_ioend_work
without_cancel xfs 6
plan_is_least xfs
hangs 'xfs: the kernel' xfs.wq xfs.assign 43
to_no_rescuer 'xfs: the kernel' 6 xfs.wq xfs.assign wb_workfn xlog_discard_endio_work
rescued xfs
run deadlock xfs.wq xfs.rescued.assign
ends 'xfs: the kernel, with rescuers' 0 safe
sed '/xfsdiscard/s/^norescuer/wq/' xfs.assign >xfs.discard.assign
notes 'xfs: the kernel, with a rescuer of xfsdiscard' xfs.wq xfs.discard.assign xfs_flush_inodes_worker xfs_log_worker
repairs 'xfs: the kernel' xfs.wq xfs.assign 'rescuer 2'
like 'xfs: what is repaired has a rescuer of xfsdiscard' xfs.discard.assign
draws 'xfs: the kernel' 'can hang, 6 waits in red, 6 to no rescuer, 1 in bold: items 13, workqueues 12, arrows 42, red 6, bold 1' xfs.wq xfs.assign
grep -v '^flush .* xlog_discard_endio_work' xfs.wq >xfs.nodiscard.wq
notes 'xfs: the kernel, without -o discard' xfs.nodiscard.wq xfs.assign \
    xfs_flush_inodes_worker xfs_log_worker xlog_discard_endio_work
# What is on the flusher's list is done by no rescuer.
{ cat xfs.wq && printf '%s\n' 'item wb_do_writeback' 'flush xfs_flush_inodes_worker wb_do_writeback'; } >xfs.list.wq
{ cat xfs.rescued.assign && echo 'norescuer 12 wb_do_writeback'; } >xfs.list.assign
hangs "xfs: the kernel, with rescuers, and the flusher's list" xfs.list.wq xfs.list.assign
to_no_rescuer "xfs: the kernel, with rescuers, and the flusher's list" 1 xfs.list.wq xfs.list.assign \
    xfs_flush_inodes_worker wb_do_writeback
# Who is needed, and flushes what is on xfs-sync, has an item of its own.
{ cat xfs.wq && printf '%s\n' 'item writer' 'flush writer xfs_flush_inodes_worker'; } >xfs.writer.wq
{ cat xfs.discard.assign && echo 'wq 12 writer'; } >xfs.writer.assign
hangs 'xfs: somebody who is needed flushes xfs-sync' xfs.writer.wq xfs.writer.assign
to_no_rescuer 'xfs: somebody who is needed flushes xfs-sync' 1 xfs.writer.wq xfs.writer.assign writer xfs_flush_inodes_worker
repairs 'xfs: somebody who is needed flushes xfs-sync' xfs.writer.wq xfs.writer.assign 'xfs_flush_inodes_worker 11 7'
draws xfs 'plan of 6 workqueues, 5 waits in bold: items 13, workqueues 6, arrows 42, red 0, bold 5' xfs.wq
grep -vE '^[^#]*(xfs_flush_inodes_worker|xfs_log_worker|xlog_discard_endio_work)' xfs.wq >xfs.rescuers.wq
answers xfs.rescuers 'plan 6' xfs_blockgc_worker iomap_dio_complete_work xfs_end_io xfs_btree_split_worker xlog_cil_push_work \
    xlog_ioend_work
decided xfs 'xfs_(blockgc|inodegc)_worker  *#' >xfs.full.wq
depends 'xfs: the kernel, unsure lines' xfs.unsure.wq xfs.assign
depends 'xfs: the kernel, with rescuers, unsure lines' xfs.unsure.wq xfs.rescued.assign 'flushwq? xfs_inodegc_worker xfs_inodegc_worker'
run plan xfs.full.wq
begins 'xfs: plan, without a free block' 1 'circle 3'
run circles xfs.full.wq
for arc in 'xfs_end_io xfs_blockgc_worker' 'xfs_blockgc_worker xfs_end_io' 'xfs_inodegc_worker xfs_inodegc_worker'; do
    is "xfs: without a free block, on a circle: $arc" "arc $arc" "$(grep -x "arc $arc" out)"
done
hangs 'xfs: the kernel, without a free block' xfs.full.wq xfs.assign
hangs 'xfs: the kernel, with rescuers, without a free block' xfs.full.wq xfs.rescued.assign
# Where a block of metadata can't be written, its end waits for the log.
decided xfs 'xfs_buf_ioend_work xlog_' >xfs.down.wq
answers xfs.down 'plan 7' xfs_flush_inodes_worker wb_workfn xfs_end_io xfs_btree_split_worker xfs_buf_ioend_work \
    xlog_cil_push_work xlog_ioend_work
plan_is_least xfs.down
run deadlock xfs.down.wq xfs.rescued.assign
ends 'xfs: the kernel, with rescuers, at a shutdown' 0 safe
hangs 'xfs: the kernel, at a shutdown' xfs.down.wq xfs.assign

# nbd: five workqueues, of which two have no rescuer; four items wait for one of these. If it had one, the five would be safe, though
# the least is five as well. A line for whoever runs already would be a false alarm.
counts nbd 8 16 8 5
answers nbd 'plan 5' nbd_dev_remove_work wb_workfn recv_work blk_mq_run_work_fn nbd_dead_link_work
without_cancel nbd 5
plan_is_least nbd
hangs 'nbd: the kernel' nbd.wq nbd.assign 14
to_no_rescuer 'nbd: the kernel' 4 nbd.wq nbd.assign blk_mq_run_work_fn nbd_dead_link_work
rescued nbd
run deadlock nbd.wq nbd.rescued.assign
ends 'nbd: the kernel, with rescuers' 0 safe
sed '/system_wq/s/^norescuer/wq/' nbd.assign >nbd.system.assign
notes 'nbd: the kernel, with a rescuer of system_wq' nbd.wq nbd.system.assign nbd_dev_remove_work
draws nbd 'plan of 5 workqueues, 4 waits in bold: items 8, workqueues 5, arrows 16, red 0, bold 4' nbd.wq
draws 'nbd: the kernel' 'can hang, 4 waits in red, 4 to no rescuer, 1 in bold: items 8, workqueues 5, arrows 16, red 4, bold 1' nbd.wq nbd.assign
draws 'nbd: the kernel, with rescuers' 'safe: items 8, workqueues 5, arrows 16, red 0, bold 0' nbd.wq nbd.rescued.assign
{ cat nbd.wq && echo 'flush blk_mq_timeout_work blk_mq_run_work_fn'; } >nbd.alarm.wq
hangs 'nbd: the kernel, with rescuers, with a line for what runs already' nbd.alarm.wq nbd.rescued.assign
repairs 'nbd: the kernel' nbd.wq nbd.assign 'rescuer 0'
like 'nbd: what is repaired has a rescuer of system_wq' nbd.system.assign

# bcache: six workqueues, safe, though one has no rescuer; three are enough. With what is moved, or the journal, on the workqueue of the requests it hangs.
# Where no bucket is left for the btree, what is moved waits for itself.
counts bcache 17 30 17 6
answers bcache 'plan 3' bch_data_insert_start.io bch_data_insert_keys.gc journal_write
without_cancel bcache 3
plan_is_least bcache
notes 'bcache: the kernel' bcache.wq bcache.assign journal_write_work
rescued bcache
run deadlock bcache.wq bcache.rescued.assign
ends 'bcache: the kernel, with rescuers' 0 safe
hangs 'bcache: what is moved among the requests' bcache.wq bcache.merged.assign 37
sed -e '/^wq 2/d' -e 's/^wq 0/& journal_write journal_discard_work/' -e 's/^norescuer 3/norescuer 2/' -e 's/^wq 4/wq 3/' -e 's/^wq 5/wq 4/' \
    bcache.assign >bcache.onejournal.assign
hangs 'bcache: the journal among the requests' bcache.wq bcache.onejournal.assign
repairs 'bcache: what is moved among the requests' bcache.wq bcache.merged.assign \
    'bch_data_insert_keys.io 0 4,bch_data_insert_start.io 0 4,cache_lookup 0 4'
repairs 'bcache: what is moved among the requests, and may move' bcache.wq bcache.merged.assign \
    'bch_data_insert_keys.gc 0 5,bch_data_insert_start.gc 0 5,write_moving 0 5,write_moving_finish 0 5' \
    write_moving bch_data_insert_start.gc bch_data_insert_keys.gc write_moving_finish
like 'bcache: what is repaired is what the kernel has' bcache.assign
repairs 'bcache: the journal among the requests' bcache.wq bcache.onejournal.assign \
    'journal_discard_work 0 3,journal_write 0 3'
repairs 'bcache: the kernel' bcache.wq bcache.assign ''
draws bcache 'plan of 3 workqueues, 2 waits in bold: items 17, workqueues 3, arrows 30, red 0, bold 2' bcache.wq
draws 'bcache: the kernel' 'safe: items 17, workqueues 6, arrows 30, red 0, bold 0' bcache.wq bcache.assign
decided bcache 'bch_data_insert_keys.gc' >bcache.full.wq
depends 'bcache: the kernel, unsure lines' bcache.unsure.wq bcache.assign 'flush? bch_data_insert_keys.gc bch_data_insert_keys.gc'
answers bcache.full 'circle 1' bch_data_insert_keys.gc bch_data_insert_keys.gc
hangs 'bcache: the kernel, without a bucket for the btree' bcache.full.wq bcache.assign

# How few steps each of them hangs in: 3 where an item waits for itself or for its own workqueue, and 4 where one waits for another item of
# its workqueue. Other items have no part in it, so `replay` says stuck.
while read -r steps name assign; do
    run hang "$name.wq" "$assign.assign"
    cp out shortest.run
    hanging "$name, $assign: hang" "run $steps"$'\n'"$(tail -n +2 shortest.run)"
    run replay "$name.wq" "$assign.assign" shortest.run
    hanging "$name, $assign: the shortest run, replayed" stuck
    sed "1s/.*/run $((steps - 1))/; \$d" shortest.run >shorter.run
    run replay "$name.wq" "$assign.assign" shorter.run
    ends "$name, $assign: the shortest run without its last step" 0 open
done <<'end'
4 dm-snapshot dm-snapshot.merged
4 dm-integrity dm-integrity.merged
4 nvmet-tcp nvmet-tcp
4 nvmet-tcp.loads nvmet-tcp.loads
4 nvme-auth nvme-auth
4 nvme-multipath nvme-multipath
7 dm-thin dm-thin
4 qla2xxx qla2xxx
4 nvme-scan nvme-scan
4 nvmet-fc nvmet-fc
4 ext4 ext4
4 srp srp
4 netfs netfs
4 libfc libfc
6 libfc libfc.rescued
8 nvme-delete nvme-delete
4 nvme-delete.list nvme-delete.list
3 target target
4 md md
3 xfs.full xfs
4 xfs xfs
4 xfs.down xfs
4 xfs.list xfs.list
4 xfs.writer xfs.writer
4 nbd nbd
4 rbd rbd
4 nvme-auth.module nvme-auth.module
4 nfs nfs
4 bcache bcache.merged
4 bcache bcache.onejournal
3 bcache.full bcache
end
for name in dm-snapshot dm-integrity bcache; do
    run hang "$name.wq" "$name.assign"
    is "$name: the kernel: hang" '0: safe' "$status: $(cat out)"
done
run hang nvme-auth.wq nvme-auth.later.assign
ends 'nvme-auth: a later kernel: hang' 0 safe

# What must go on, so that memory is freed, and how few steps hold it up. 1: it has no rescuer. 4: it waits for what has none, or is behind
# it; or another item on its workqueue waits for it. 5: it is behind one that waits for what has none. 7, 8: two items wait.
while read -r steps name assign items; do
    run hang "$name.wq" "$assign.assign" $items
    cp out named.run
    if [ "$steps" = safe ]; then
        is "$name, $assign: hang, with $items" '0: safe' "$status: $(cat out)"
        continue
    fi
    begins "$name, $assign: hang, with $items" 1 "run $steps"
    has "$name, $assign: hang, with $items: why" ': `[a-zA-Z_.]+` is held up: ' "$(head -n 1 err)"
    run replay "$name.wq" "$assign.assign" named.run $items
    has "$name, $assign: that run, replayed" '^1: (stuck|deadlock)$' "$status: $(cat out)"
    sed "1s/.*/run $((steps - 1))/; \$d" named.run >shorter.run
    run replay "$name.wq" "$assign.assign" shorter.run $items
    ends "$name, $assign: that run without its last step" 0 open
done <<'end'
safe bcache bcache bch_data_insert_start.io write_dirty
safe dm-integrity dm-integrity integrity_writer integrity_bio_wait.offload
safe dm-snapshot dm-snapshot do_work.merging do_work.other
7 dm-thin dm-thin do_worker
4 ext4 ext4 end_io_rsv_work
7 libfc libfc wb_workfn
4 md md submit.upper data.upper
safe md md.perarray submit.upper data.upper
4 nbd nbd wb_workfn
1 netfs netfs write_collection_worker
4 netfs netfs wb_workfn
8 nfs nfs pgio_release
safe nfs nfs wb_workfn
safe nfs nfs.moved pgio_release
4 nvme-auth nvme-auth connect_work
safe nvme-auth nvme-auth io_work
safe nvme-auth nvme-auth.later connect_work
8 nvme-delete nvme-delete wb_workfn.second
7 nvme-multipath nvme-multipath requeue_work
5 nvme-scan nvme-scan connect_work
4 nvmet-tcp nvmet-tcp nvmet_tcp_io_work
4 rbd rbd rbd_queue_workfn
4 srp srp wb_workfn
3 target target submit_work
4 xfs xfs wb_workfn xfs_end_io
safe xfs xfs xlog_cil_push_work xlog_ioend_work xfs_buf_ioend_work
end

# The tests of want of memory have the largest declaration, byte for byte but for its unsure lines, and its workqueues, as if each had
# a rescuer.
# Where a line of that file ends in \, its text goes on in the next one.
cases=$(sed ':more; /\\$/{N; s/\\\n *//; b more}' "$root/crates/test_cases/src/largest.rt")
largest=$(basename -- "$(ls -S -- "$examples"/*.wq | head -n 1)" .wq)
[[ $cases == *"$(<"$largest.wq")"* ]] && found=yes || found=no
is "$largest.wq in test_cases" yes "$found"
rescued "$largest"
is "$largest.assign in test_cases" "$(sed -n 's/ *#.*//; /^wq/p' "$largest.rescued.assign")" \
    "$(sed -n '/const LARGEST_LANES/,/^"/{s/ *#.*//; /^wq/p}' "$root/crates/test_cases/src/largest.rt")"

counts_of examples
