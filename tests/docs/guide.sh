#!/usr/bin/env bash
# Runs every command in the fenced blocks of README.md, of docs/GUIDE.md, docs/WAITS.md, docs/KERNELS.md and
# docs/RUNTIME.md, and of the pages in examples/, and compares what it shows with what stands below it on the page; looks
# for each excerpt of code on a page in crates/example_rdisk; and compares the files that docs/GUIDE.md and docs/WAITS.md show with those in
# examples/rdisk. Run it once the gate or `rt run` has built the program and the example's program, crates/example_rdisk. The
# arguments, if there are any, name others in their place.
#
# A fenced block of a page is one of these:
# - a file: its first line is a comment that holds its name alone, as `# NAME` or `/* NAME */`. It is written as it stands.
#   One of docs/GUIDE.md or docs/WAITS.md stands in examples/rdisk as well, just so;
# - commands: its first line begins with `$ `. Each line that does is a command for bash, with `wqplan` and `example_rdisk` on its
#   path and nothing to read, and the lines below it are what it writes to both streams. `$?` is the status of the command
#   before it;
# - an excerpt: the word behind the backticks is `rust` or `antt`. Its lines stand in a file of the guide's program
#   (crates/example_rdisk), in src/ or proofs/, one below the other and just so;
# - a mail: the word behind the backticks is `mail`. It is written as mail.txt, so that a command can look into it;
# - something to read, which is skipped: the word behind the backticks is `text`, or `c` and it is no file. (What `wqsource` prints
#   on docs/GUIDE.md is compared by tests/source/test_pages.py, which has Coccinelle.)
# A page is played in a folder of its own, from top to bottom. Those in examples/ find the files of examples/ there; README.md and
# docs/GUIDE.md find the folder.
set -u
. "$(dirname "$0")/../lib/script.bash"
root=$(realpath -- "$(dirname "$0")/../..")
program=$(realpath -m -- "${1:-$root/crates/wqplan/out/wqplan}")
driver=$(realpath -m -- "${2:-$root/crates/example_rdisk/out/example_rdisk}")
cd -- "$root" || exit 1
built guide wqplan "$program"
built guide example_rdisk "$driver"

work=$(mktemp -d)
trap 'rm -rf -- "$work"' EXIT
mkdir "$work/bin"
ln -s -- "$program" "$work/bin/wqplan"
ln -s -- "$driver" "$work/bin/example_rdisk"
export PATH="$work/bin:$PATH"
shown=()

# play COMMAND WANTED: runs the command, and counts whether it shows just this. It keeps the status for the next command.
play() {
    limited bash -c "(exit $status)"$'\n'"$1" >"$work/shown" 2>&1 </dev/null
    status=$?
    if printf '%s' "$2" | cmp -s - "$work/shown"; then
        ok "$page: $1"
    else
        fail "$page: $1"
        printf '%s' "$2" | diff - "$work/shown" | head -n 20
    fi
}

# commands LINE..: plays the commands of a block, each with the lines below it.
commands() {
    local line command='' wanted=''
    for line; do
        if [ "${line:0:2}" != '$ ' ]; then
            wanted+=$line$'\n'
            continue
        fi
        [ -z "$command" ] || play "$command" "$wanted"
        command=${line:2} wanted=
    done
    play "$command" "$wanted"
}

# excerpt AT KIND LINE..: counts whether these lines stand in a file of the guide's program whose name ends in KIND.
excerpt() {
    local at=$1 kind=$2 file wanted
    shift 2
    wanted=$(printf '%s\n' "$@")
    for file in $(find "$root"/crates/example_rdisk/{src,proofs} -name "*.$kind" | sort); do
        if [[ $'\n'$(<"$file")$'\n' == *$'\n'"$wanted"$'\n'* ]]; then
            ok "$page: the excerpt at line $at stands in ${file#"$root/"}"
            return
        fi
    done
    fail "$page: the excerpt at line $at stands in no .$kind file of crates/example_rdisk"
}

# kept NAME: counts whether the file that the page shows stands in examples/rdisk, just so.
kept() {
    shown+=("$1")
    if cmp -s -- "$1" "$root/examples/rdisk/$1"; then
        ok "$page: examples/rdisk/$1"
    else
        fail "$page: examples/rdisk/$1 isn't what the page shows"
        diff -- "$1" "$root/examples/rdisk/$1" | head -n 20
    fi
}

# block AT WORD LINE..: does what a block asks for, by its first line and the word behind its backticks. It begins at
# line AT of the page.
block() {
    local at=$1 word=$2
    shift 2
    local first=${1-}
    if [ "$word" = rust ]; then
        excerpt "$at" rt "$@"
    elif [ "$word" = antt ]; then
        excerpt "$at" antt "$@"
    elif [ "$word" = text ]; then
        return
    elif [ "$word" = mail ]; then
        printf '%s\n' "$@" >mail.txt
    elif [ "${first:0:2}" = '$ ' ]; then
        commands "$@"
    elif [[ $first =~ ^(#|/\*)\ ([A-Za-z0-9._-]+)(\ \*/)?$ ]]; then
        printf '%s\n' "$@" >"${BASH_REMATCH[2]}"
        case $page in docs/GUIDE.md | docs/WAITS.md) kept "${BASH_REMATCH[2]}" ;; esac
    elif [ "$word" != c ]; then
        fail "$page: the block at line $at is no file, no command and nothing to read"
    fi
}

# pages NAME..: plays the pages, each in a folder of its own.
pages() {
    local line number at word inside before
    local -a lines
    for page; do
        mkdir -p -- "$work/$page"
        if [ "${page%/*}" = examples ]; then
            cp -- "$root"/examples/*.wq "$root"/examples/*.assign "$work/$page"
        else
            case $page in README.md | docs/GUIDE.md) cp -R -- "$root/examples" "$work/$page" ;; esac
        fi
        cd -- "$work/$page" || exit 1
        status=0 number=0 inside=no before=$((passed + failed))
        while IFS= read -r line; do
            number=$((number + 1))
            if [ "$inside" = yes ]; then
                if [ "$line" = '```' ]; then
                    inside=no
                    block "$at" "$word" ${lines[@]+"${lines[@]}"}
                else
                    lines+=("$line")
                fi
            elif [ "${line:0:3}" = '```' ]; then
                inside=yes at=$number word=${line:3} lines=()
            fi
        done <"$root/$page"
        [ "$inside" = no ] || fail "$page: the block at line $at has no end"
        [ $((passed + failed)) -gt "$before" ] || fail "$page: there is no command"
    done
}

# others: counts whether each other file of examples/rdisk is the plan of a declaration there, or a script to which docs/GUIDE.md
# links, and which it runs.
others() {
    local file name plan
    page=examples/rdisk
    cd -- "$root/examples/rdisk" || exit 1
    for file in *; do
        name=${file%.plan}
        if [[ " ${shown[*]} " == *" $file "* ]]; then
            continue
        elif [ "$name" != "$file" ]; then
            plan=$(<"$file")
            play "wqplan plan $name.wq" "$plan"$'\n'
        elif grep -qF "](../examples/rdisk/$file)" "$root/docs/GUIDE.md" && grep -qE "^\\$ bash $file( |\$)" "$root/docs/GUIDE.md"; then
            ok "$page/$file: docs/GUIDE.md runs it"
        else
            fail "$page/$file: neither docs/GUIDE.md nor docs/WAITS.md shows it"
        fi
    done
}

pages README.md docs/GUIDE.md docs/WAITS.md docs/KERNELS.md docs/RUNTIME.md examples/*.md
others
counts_of guide
