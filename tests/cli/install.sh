#!/usr/bin/env bash
# Runs install.sh in a copy of what it reads, with the toolchain of tests/lib/toolchain.bash, which proves and builds nothing. So what
# is tested is the script alone: in which order the crates are proved, what it installs where, what a refusal leaves, what --uninstall
# removes. It needs no program, and takes seconds. What --deb makes is tested by package.sh.
set -u
. "$(dirname "$0")/../lib/script.bash"
repository=$(realpath -- "$(dirname "$0")/../..")
work=$(mktemp -d)
trap 'rm -rf -- "$work"' EXIT

. "$repository/tests/lib/toolchain.bash"

# ends NAME STATUS ERROR: counts whether the last run ended so, with this on standard error, and left nothing in TMPDIR.
ends() {
    is "$1" "$2: $3" "$status: $(cat "$work/err")"
    is "$1: no file is left in TMPDIR" '' "$(ls -A -- "$work/tmp")"
}

# tree FOLDER: all that is in it, with modes of files; nothing where it isn't there.
tree() {
    [ ! -e "$1" ] || find "$1" -mindepth 1 \( -type d -printf '%P/\n' -o -printf '%P %m\n' \) | LC_ALL=C sort
}

# untouched NAME WANTED FOLDER: counts whether this is still all that is in the folder, and nothing was proved.
untouched() {
    is "$1: nothing is installed" "$2" "$(tree "$3")"
    is "$1: nothing is built" '' "$(cat "$work/calls")"
}

# tools FORMAT: the files of the tools, which stand as they are in the clone, in this format of find.
tools() {
    cd -- "$clone" && find source kernel record tests docs -type f -printf "$1"
}
# What help lists, and then the files of the tools.
listed='bin/wqjudge
bin/wqplan
bin/wqrecord
bin/wqsource
share/bash-completion/completions/wqjudge
share/bash-completion/completions/wqplan
share/bash-completion/completions/wqrecord
share/bash-completion/completions/wqsource
share/man/man1/wqjudge.1
share/man/man1/wqplan.1
share/man/man1/wqrecord.1
share/man/man1/wqsource.1
share/man/man5/wqplan.5
share/wqplan/installed'
files=$( (echo "$listed" && tools 'share/wqplan/%p\n') | LC_ALL=C sort)
folders=$( (printf '%s\n' bin share share/{bash-completion,bash-completion/completions,man,man/man1,man/man5,wqplan} &&
    cd -- "$clone" && find source kernel record tests docs -type d -printf 'share/wqplan/%p\n') | LC_ALL=C sort)
# (a link has all modes)
wanted=$( (sed 's|$|/|' <<<"$folders" && tools 'share/wqplan/%p %m\n' &&
    sed -E 's|$| 644|; s|^bin/wqplan 644|bin/wqplan 755|; s|^(bin/.*) 644|\1 777|' <<<"$listed") | LC_ALL=C sort)

# said VERB PREFIX: the names as seen from PREFIX behind this verb, in what the last run said, in order.
said() {
    sed -n "s|^$1 $2/||p" "$work/out" | LC_ALL=C sort
}

# installed NAME PREFIX PROGRAM: counts whether the last run installed the program that prints this, and the pages, and said so.
installed() {
    ends "$1" 0 ''
    is "$1: what is there" "$wanted" "$(tree "$2")"
    is "$1: what it said" "$files" "$(said installed "$2")"
    is "$1: the program" "$3" "$(limited "$2/bin/wqplan")"
    is "$1: wqsource is a link to the tool" "$2/share/wqplan/source/wqsource" "$(realpath -- "$2/bin/wqsource")"
    is "$1: wqjudge is a link to the tool" "$2/share/wqplan/kernel/judge" "$(realpath -- "$2/bin/wqjudge")"
    is "$1: wqrecord is a link to the tool" "$2/share/wqplan/record/wqrecord" "$(realpath -- "$2/bin/wqrecord")"
    is "$1: wqplan(1)" '' "$(cmp -- "$repository/man/wqplan.1" "$2/share/man/man1/wqplan.1" 2>&1)"
    is "$1: wqplan(5)" '' "$(cmp -- "$repository/man/wqplan.5" "$2/share/man/man5/wqplan.5" 2>&1)"
    is "$1: the completion" '' "$(cmp -- "$repository/man/wqplan.bash" "$2/share/bash-completion/completions/wqplan" 2>&1)"
}

# Into a PREFIX that isn't there, nor the folder above it, with a space in the name and in the clone's.
prefix="$work/a place/of its own"
run "$prefix"
installed 'an installation' "$prefix" one
is 'the PATH is named' "install: $prefix/bin isn't on the PATH" "$(grep PATH "$work/out")"
is 'it says how long it takes' 1 "$(grep -c 'about an hour' "$work/out")"

# What was proved is in a folder of its own: the crates that the program needs, as the clone has them, and no crate of the tests.
build=$work/cache/wqplan
crates=$(ls -- "$build/crates")
is 'each crate is proved once' "$crates" "$(grep -v ' link$' "$work/calls" | LC_ALL=C sort)"
is 'the program is linked there when all are' "wqplan
$build/crates/wqplan link" "$(tail -n 2 "$work/calls")"
is 'each crate is named as proved, once' "$crates" "$(sed -n 's|^\[[0-9]*/[0-9]*\] \(.*\) proved (.*|\1|p' "$work/out" | LC_ALL=C sort)"
is 'they are counted' "$(wc -w <<<"$crates")" "$(sed -n 's|^\[\([0-9]*\)/\([0-9]*\)\] .*|\1 \2|p' "$work/out" | awk '$1 == NR { n = $2 } END { print n }')"
allowed=$(sed -n 's/.*, up to \([0-9]*\) at a time,.*/\1/p' "$work/out")
most=$(sort -n "$work/counts" | tail -n 1)
is 'no more at a time than it says' "$allowed" "$((most > allowed ? most : allowed))"
is 'several at a time, where it says so' "$((allowed > 1))" "$((most > 1))"
is 'the program is among them' wqplan "$(grep -x wqplan <<<"$crates")"
is 'no crate of the tests or of an example is' '' "$(grep -E '^(test|example)_' <<<"$crates")"
lacking=''
for crate in $crates; do
    for use in $(sed -n "s/^$crate://p" "$repository/crates.txt"); do
        [ ! -d "$repository/crates/$use" ] || grep -qx -- "$use" <<<"$crates" || lacking="$lacking $crate:$use"
    done
done
is 'what they need is there' '' "$lacking"
for crate in $crates; do
    diff -r -x must-fail -x out -- "$clone/crates/$crate" "$build/crates/$crate"
    [ ! -e "$build/crates/$crate/must-fail" ] || echo "$build/crates/$crate/must-fail"
done >"$work/differ" 2>&1
is 'of each crate there are src/, specs/ and proofs/ as in the clone' '' "$(cat "$work/differ")"

# above CRATE..: these crates and all that use one of them, among those that the program needs.
above() {
    awk -F: -v of="$*" -v needed="$crates" '
        BEGIN { split(of, names, " "); for (i in names) is[names[i]] = 1; split(needed, names, "\n"); for (i in names) wanted[names[i]] = 1 }
        { n = split($2, uses, " "); for (i = 1; i <= n; i++) if (uses[i] in is) is[$1] = 1 }
        END { for (name in is) if (name in wanted) print name }' "$clone/crates.txt" | LC_ALL=C sort
}

# proved NAME WANTED: counts whether the last run proved just these crates.
proved() {
    is "$1" "$2" "$(grep -v ' link$' "$work/calls" | LC_ALL=C sort)"
}

# A file, a part and a crate that are no longer there go from that folder, too. What was proved of the same files stays, and
# only what has changed is proved again, with all above it.
run "$prefix"
installed 'an installation after which nothing has changed' "$prefix" one
is 'after which nothing has changed: nothing is proved' '' "$(cat "$work/calls")"
is 'after which nothing has changed: it says so' 1 "$(grep -c "Its $(wc -w <<<"$crates") crates are proved (in $build)" "$work/out")"
touch -- "$build/crates/wq_text/src/old.rt"
mkdir -p -- "$build/crates/wq_text/proofs" "$build/crates/wq_old/src"
run "$prefix"
installed 'an installation after files went' "$prefix" one
is 'what is no longer there is not proved' '' "$(ls -d -- "$build/crates/wq_old" "$build/crates/wq_text/src/old.rt" "$build/crates/wq_text/proofs" 2>/dev/null)"
proved 'after files went: what was made of the same files stays' ''
echo '// more' >>"$clone/crates/wq_core/src/lib.rt"
run "$prefix"
installed 'an installation after a crate has changed' "$prefix" one
proved 'after a crate has changed: it is proved, and those above it' "$(above wq_core)"
rm -r -- "$build/libraries/wq_meter.rlib"
run "$prefix"
proved 'after a library went: it is proved, and those above it' "$(above wq_meter)"
VERSION=rattle-kit-2 run "$prefix"
proved 'under another toolchain: each crate is proved' "$crates"
run "$prefix"
proved 'under the first one again: each crate is proved' "$crates"

# Two of them don't work in one folder at once.
exec 8<"$build/lock"
flock -n 8
run "$prefix"
ends 'a second one at the same time' 1 "install: another install.sh is at work in $build"
is 'a second one at the same time: nothing is built' '' "$(cat "$work/calls")"
exec 8<&-

# change: has the next run prove and link the program again.
change() {
    echo '// more' >>"$clone/crates/wqplan/src/main.rt"
}

# Again, over the first one; then what was installed is removed, with the folders.
change
BUILT=two run "$prefix"
installed 'a second installation' "$prefix" two
run --uninstall "$prefix"
ends 'uninstall' 0 ''
is 'uninstall: what it said of files and folders' "$(LC_ALL=C sort <<<"$files
$folders")" "$(said removed "$prefix")"
is 'uninstall: the folders above PREFIX that were made' '' "$(tree "$work/a place")$(ls -d -- "$work/a place" 2>/dev/null)"
is 'uninstall: nothing is built' '' "$(cat "$work/calls")"
run --uninstall "$prefix"
ends 'uninstall where nothing is' 1 "install: nothing is installed to $prefix: there is no list $prefix/share/wqplan/installed"

# What isn't of the script stays: files of others, and folders that were there, empty ones too.
prefix=$work/shared
mkdir -p -- "$prefix/bin" "$prefix/share/man/man1"
touch "$prefix/share/other"
before=$(tree "$prefix")
run "$prefix"
ends 'into folders that are there' 0 ''
run --uninstall "$prefix"
ends 'uninstall from them' 0 ''
is 'uninstall: all is as before' "$before" "$(tree "$prefix")"
is 'uninstall: folders that were there are not named' "$(LC_ALL=C sort <<<"$files
$(grep -vxE 'bin|share|share/man|share/man/man1' <<<"$folders")")" "$(said removed "$prefix")"
run "$prefix"
touch "$prefix/bin/other" "$prefix/share/man/man5/other.5"
run --uninstall "$prefix"
ends 'uninstall where files of others came' 0 ''
is 'uninstall: they stay' 'bin/
bin/other 600
share/
share/man/
share/man/man1/
share/man/man5/
share/man/man5/other.5 600
share/other 600' "$(chmod 600 "$prefix/bin/other" "$prefix/share/man/man5/other.5" "$prefix/share/other" && tree "$prefix")"

# A file that can't be removed: the list stays, and uninstall can be called again.
prefix=$work/stuck
run "$prefix"
rm -- "$prefix/bin/wqplan"
mkdir -- "$prefix/bin/wqplan"
run --uninstall "$prefix"
ends "uninstall where a file can't be removed" 1 "install: can't remove $prefix/bin/wqplan"
rmdir -- "$prefix/bin/wqplan"
run --uninstall "$prefix"
ends 'uninstall once more' 0 ''
is 'uninstall once more: nothing is left' '' "$(ls -d -- "$prefix" 2>/dev/null)"

# The home folder, where no PREFIX is named.
change
run
installed 'without PREFIX' "$work/home/.local" one
run --uninstall
ends 'uninstall without PREFIX' 0 ''
is 'uninstall without PREFIX: nothing is left' '' "$(tree "$work/home")"
HOUSE='' run
ends 'without PREFIX and home' 1 'install: name a PREFIX: there is no home folder'
HOUSE='' run --uninstall
ends 'uninstall without PREFIX and home' 1 'install: name a PREFIX: there is no home folder'

# Where there is no XDG_CACHE_HOME, the crates are proved below the home folder; without that, below TMPDIR.
CACHE='' run
installed 'proved below the home folder' "$work/home/.local" one
is 'proved below the home folder: there' "$work/home/.cache/wqplan" "$(sed -n 's|/crates/wqplan link$||p' "$work/calls")"
CACHE='' run --uninstall
ends 'what was proved stays after uninstall' 0 ''
is 'what was proved stays after uninstall: there' "$work/home/.cache/wqplan/crates/wqplan/out/wqplan" "$(ls -- "$work/home/.cache/wqplan/crates/wqplan/out/wqplan")"
CACHE='' HOUSE='' run "$work/homeless"
is 'without a home folder: it is proved below TMPDIR' "0: $work/tmp/wqplan" "$status: $(sed -n 's|/crates/wqplan link$||p' "$work/calls")"
rm -r -- "$work/tmp/wqplan" "$work/homeless"
touch -- "$work/file"
CACHE=$work/file run "$work/refused"
is "a folder that can't be made to prove the crates in" "1: install: can't build in $work/file/wqplan: mkdir" "$status: $(sed 's/\(: mkdir\): .*/\1/' "$work/err")"
untouched "a folder that can't be made to prove the crates in" '' "$work/refused"

# Refusals. Each leaves nothing, and what can be known before is refused before anything is built.
prefix=$work/refused
echo '// more' >>"$clone/crates/wq_groups/src/lib.rt"
UNPROVED=wq_groups run "$prefix"
is "a crate that isn't proved" "1: install: wq_groups isn't proved and built (status 1, $build/crates/wq_groups/out/log); nothing is installed" \
    "$status: $(tail -n 1 "$work/err")"
is "a crate that isn't proved: what the toolchain says" 'fn wq_groups::f: not proved' "$(tail -n 2 "$work/err" | head -n 1)"
is "a crate that isn't proved: nothing is installed" '' "$(ls -d -- "$prefix" 2>/dev/null)"
proved "a crate that isn't proved: none above it is" wq_groups
run "$prefix"
installed "a crate that wasn't proved, and is now" "$prefix" one
proved "a crate that wasn't proved, and is now: it is proved, and those above it" "$(above wq_groups)"
run --uninstall "$prefix"
change
BUILT='' run "$prefix"
ends "a program that isn't built" 1 "install: wqplan isn't proved and built (status 1, $build/crates/wqplan/out/log); nothing is installed"
is "a program that isn't built: nothing is installed" '' "$(ls -d -- "$prefix" 2>/dev/null)"
AFTER='printf "#!/bin/sh\nexit 3\n" >out/wqplan' run "$prefix"
ends "a program that can't be run" 1 "install: wqplan isn't proved and built (status 3, $build/crates/wqplan/out/log); nothing is installed"
is "a program that can't be run: nothing is installed" '' "$(ls -d -- "$prefix" 2>/dev/null)"

# A signal ends what is at work, and leaves nothing.
change
for signal in HUP TERM; do
    rm -rf -- "$work/at-work"
    (HANGING=wqplan start "$prefix") &
    install=$!
    for ((i = 0; i < 300; i++)); do
        [ ! -d "$work/at-work/wqplan" ] || break
        sleep 0.1
    done
    prover=$(pgrep -f "$kit/bin/rattle build")
    kill -"$signal" "$install"
    wait "$install"
    status=$?
    ends "a signal ($signal)" 1 ''
    is "a signal ($signal): nothing is installed" '' "$(ls -d -- "$prefix" 2>/dev/null)"
    is "a signal ($signal): the prover was at work, and has ended" 'was' "${prover:+was}$(ps -o stat= -p "${prover:-1}" | grep -v '^Z')"
done

change
AFTER='mkdir -p "$PREFIX/share/man" && touch "$PREFIX/share/man/man5"' PREFIX=$prefix run "$prefix"
ends 'a folder that can no longer be made' 1 "install: can't make $prefix/share/man/man5; nothing is installed"
is 'a folder that can no longer be made: nothing is installed' 'share/
share/man/
share/man/man5 600' "$(tree "$prefix")"
rm -r -- "$prefix"
change
AFTER='rm "$CLONE/man/wqplan.5"' CLONE=$clone run "$prefix"
ends 'a page that is no longer there' 1 "install: can't write $prefix/share/man/man5/wqplan.5; nothing is installed"
is 'a page that is no longer there: nothing is installed' '' "$(ls -d -- "$prefix" 2>/dev/null)"
cp -- "$repository/man/wqplan.5" "$clone/man"

touch "$prefix"
run "$prefix"
ends 'a PREFIX that is a file' 1 "install: can't install to $prefix/share/wqplan: $prefix isn't a folder"
untouched 'a PREFIX that is a file' '' "$prefix"
rm -- "$prefix"
mkdir -p -- "$prefix/bin/wqplan"
run "$prefix"
ends 'a folder in the place of the program' 1 "install: can't install: $prefix/bin/wqplan is a folder"
untouched 'a folder in the place of the program' 'bin/
bin/wqplan/' "$prefix"
rm -r -- "$prefix"
# In /proc nobody can make a file, root neither.
run /proc/wqplan
ends "a PREFIX that can't be written" 1 "install: can't install to /proc/wqplan/share/wqplan: /proc can't be written"
untouched "a PREFIX that can't be written" '' /proc/wqplan
mkdir -p -- "$work/bare"
for tool in bash dirname mktemp realpath rmdir rm timeout; do
    ln -s -- "$(command -v "$tool")" "$work/bare/$tool"
done
TOOLS=$work/bare run "$prefix"
ends 'no rt on the PATH' 1 'install: rt, the toolchain of Rattle, is not on the PATH'
untouched 'no rt on the PATH' '' "$prefix"
rm -- "$kit/bin/rattle"
run "$prefix"
ends 'a toolchain without a prover' 1 "install: there is no $kit/bin/rattle in the toolchain that rt names"
untouched 'a toolchain without a prover' '' "$prefix"
usage='bash install.sh [--uninstall] [PREFIX], or --deb [FOLDER]'
for words in --remove '--uninstall --remove' '--deb --remove' '-x a'; do
    run $words
    ends "$words" 1 "install: there is no option $(grep -oE -- '(--remove|-x)' <<<"$words") here ($usage)"
done
for words in "$prefix b" "--uninstall $prefix b" "--deb $prefix b"; do
    run $words
    ends "two PREFIXes: $words" 1 "install: one folder at most ($usage)"
    untouched "two PREFIXes: $words" '' "$prefix"
done

# Help is the head of the script, within 80 columns, and names each file that is installed.
run --help
ends 'help' 0 ''
is 'help: the head of the script' "$(awk 'NR > 1 && !/^#/ { exit } NR > 1 { sub(/^# ?/, ""); print }' "$repository/install.sh")" "$(cat "$work/out")"
is 'help: the files' "$listed" "$(sed -nE 's|^ +PREFIX/([^ ]+)$|\1|p' "$work/out" | LC_ALL=C sort)"
is 'help: no line of more than 80 columns' '' "$(grep -E '.{81}' "$work/out")"
untouched help '' "$prefix"

counts_of install
