#!/usr/bin/env bash
# Proves and builds wqplan, and installs it with its manual pages, its
# completion for bash and the tools beside it; or makes a Debian package of it.
#
#     bash install.sh [PREFIX]
#     bash install.sh --uninstall [PREFIX]
#     bash install.sh --deb [FOLDER]
#
# PREFIX is ~/.local unless you name one. These files are installed:
#
#     PREFIX/bin/wqplan
#     PREFIX/bin/wqsource
#     PREFIX/bin/wqjudge
#     PREFIX/bin/wqrecord
#     PREFIX/share/man/man1/wqplan.1
#     PREFIX/share/man/man1/wqsource.1
#     PREFIX/share/man/man1/wqjudge.1
#     PREFIX/share/man/man1/wqrecord.1
#     PREFIX/share/man/man5/wqplan.5
#     PREFIX/share/bash-completion/completions/wqplan
#     PREFIX/share/bash-completion/completions/wqsource
#     PREFIX/share/bash-completion/completions/wqjudge
#     PREFIX/share/bash-completion/completions/wqrecord
#     PREFIX/share/wqplan/installed
#
# and in PREFIX/share/wqplan the folders source, kernel and record of the
# repository, to which bin/wqsource, bin/wqjudge and bin/wqrecord lead, with what
# kernel uses of tests and docs. PREFIX/share/wqplan/installed is a list of the
# others and of the folders that were made.
# Nothing is installed unless all that is built was proved. That is done in a
# folder of its own, ~/.cache/wqplan or $XDG_CACHE_HOME/wqplan, on all processors.
# From a fresh clone it takes about an hour. What was proved stays in that folder
# (4 GB): if nothing has changed, the next time takes seconds, and else only the
# crates that have changed are proved again, and those above them. You may remove
# it at any time.
#
# --uninstall removes the files on the list, the list itself, and the folders on
# it that are then empty. If there is no list, nothing is removed, and the exit
# status is 1. Then nothing is installed, or it was installed by the install.sh
# of version 0.1.0, which kept no list.
#
# --deb installs nothing. It makes wqplan_VERSION_amd64.deb in FOLDER, or in the
# folder that you are in, of what was proved and built in the same way.
# package/deb.sh says what is in it. It needs dpkg-dev.
set -euo pipefail

fail() {
    echo "install: $1" >&2
    exit 1
}

usage='bash install.sh [--uninstall] [PREFIX], or --deb [FOLDER]'
uninstall=
deb=
case ${1-} in
    -h | --help)
        sed -n '2,/^set/{/^set/d;s/^# \{0,1\}//;p}' "$0"
        exit 0
        ;;
    --uninstall)
        uninstall=1
        shift
        ;;
    --deb)
        deb=1
        shift
        ;;
esac
case ${1-} in
    -*) fail "there is no option $1 here ($usage)" ;;
esac
[ $# -le 1 ] || fail "one folder at most ($usage)"
if [ -n "$deb" ]; then
    target=$(realpath -m -- "${1:-.}")
else
    [ -n "${1-}${HOME-}" ] || fail 'name a PREFIX: there is no home folder'
    prefix=$(realpath -m -- "${1:-${HOME-}/.local}")
    target=$prefix
    # What was installed: lines `file NAME` and `folder NAME`, each name as seen from PREFIX.
    list=$prefix/share/wqplan/installed
fi

if [ -n "$uninstall" ]; then
    [ -f "$list" ] || fail "nothing is installed to $prefix: there is no list $list"
    mapfile -t lines <"$list"
    files=()
    folders=()
    for line in "${lines[@]}"; do
        path=$(realpath -ms -- "$prefix/${line#* }")
        case $line in
            'file '*) files+=("$path") ;;
            'folder '*) folders+=("$path") ;;
        esac
    done
    # The list goes last: where a file can't be removed, --uninstall can be called again.
    for path in "${files[@]}" "$list"; do
        if [ -e "$path" ] || [ -L "$path" ]; then
            rm -f -- "$path" 2>/dev/null || fail "can't remove $path"
            echo "removed $path"
        fi
    done
    # In this order a folder comes before the one that it is in.
    mapfile -d '' -t folders < <(printf '%s\0' "${folders[@]}" | LC_ALL=C sort -rz)
    for path in "${folders[@]}"; do
        rmdir -- "$path" 2>/dev/null || continue
        echo "removed $path"
    done
    exit 0
fi
cd -- "$(dirname -- "$0")"

newlist=$(mktemp)
log=$(mktemp)
staged=()
made=()
declare -A running=()
cleanup() {
    trap '' HUP INT TERM
    for crate in "${!running[@]}"; do
        kill -- "-${running[$crate]}" 2>/dev/null || true
    done
    wait 2>/dev/null || true
    rm -rf -- "$newlist" "$log" "${staged[@]}"
    for ((i = ${#made[@]} - 1; i >= 0; i--)); do
        rmdir -- "${made[i]}" 2>/dev/null || true
    done
}
trap cleanup EXIT
trap 'exit 1' HUP INT TERM

# Where the crates are proved.
cache=${XDG_CACHE_HOME:-${HOME:+$HOME/.cache}}
build=$(realpath -m -- "${cache:-${TMPDIR:-/tmp}}/wqplan")
libraries=$build/libraries

# Before anything is built: what can be known of what comes after.
[ -z "$deb" ] || bash package/deb.sh --look "$target"
command -v rt >/dev/null || fail 'rt, the toolchain of Rattle, is not on the PATH'

# What is installed: the file, its place as seen from PREFIX, and its mode, or `link`. The list comes first, so that --uninstall
# finds what there is however this ends.
sources=("$newlist" "$build/crates/wqplan/out/wqplan")
places=(share/wqplan/installed bin/wqplan)
modes=(644 755)
others=$(bash package/files.sh) || fail 'what is to be installed is not there'
while IFS=$'\t' read -r mode file place; do
    modes+=("$mode")
    sources+=("$file")
    places+=("$place")
done <<<"$others"

# may_install: can a file be made in each folder, or in the nearest one above it that is there?
may_install() {
    local place folder nearest trial last=
    for place in "${places[@]}"; do
        [ ! -d "$prefix/$place" ] || [ -L "$prefix/$place" ] || fail "can't install: $prefix/$place is a folder"
        folder=$prefix/${place%/*}
        [ "$folder" != "$last" ] || continue
        last=$folder
        nearest=$folder
        while [ ! -e "$nearest" ] && [ ! -L "$nearest" ]; do
            nearest=$(dirname -- "$nearest")
        done
        [ -d "$nearest" ] || fail "can't install to $folder: $nearest isn't a folder"
        trial=$(mktemp -d "$nearest/.wqplan.XXXXXX" 2>/dev/null) || fail "can't install to $folder: $nearest can't be written"
        rmdir -- "$trial"
    done
}

[ -n "$deb" ] || may_install
# The page that `rt doc` names is in the toolchain's folder.
{ page=$(rt doc) && version=$(rt version); } 2>"$log" || fail "rt doesn't say where the toolchain is: $(tail -n 1 "$log")"
kit=$(dirname -- "$page")
[ -x "$kit/bin/rattle" ] || fail "there is no $kit/bin/rattle in the toolchain that rt names"

# The crates that the program needs, and itself, from the lowest up, as crates.txt lists them, and the libraries that each uses.
declare -A needed=([wqplan]=1) uses=()
crates=()
while IFS=: read -r crate used; do
    [ -n "${needed[$crate]-}" ] || continue
    crates=("$crate" "${crates[@]}")
    uses[$crate]=$used
    for use in $used; do
        needed[$use]=1
    done
done < <(tac crates.txt)

# They are copied to that folder, so what changes here meanwhile changes nothing there.
copy() {
    mkdir -p -- "$libraries" "${crates[@]/#/$build/crates/}" || return
    for old in "$build"/crates/*; do
        [ -n "${needed[${old##*/}]-}" ] || rm -rf -- "$old" || return
    done
    for crate in "${crates[@]}"; do
        local to=$build/crates/$crate parts=()
        for part in src specs proofs; do
            [ ! -d "crates/$crate/$part" ] || parts+=("crates/$crate/$part")
        done
        rm -rf -- "$to"/{src,specs,proofs} && cp -a -- "${parts[@]}" "$to" || return
    done
}
mkdir -p -- "$build" 2>"$log" && touch -- "$build/lock" 2>"$log" || fail "can't build in $build: $(tail -n 1 "$log")"
exec 9<"$build/lock"
flock -n 9 || fail "another install.sh is at work in $build"
copy 2>"$log" || fail "can't build in $build: $(tail -n 1 "$log")"

# result CRATE: what is made of the crate. Of a program it is linked.
result() {
    case $1 in
        wqplan) echo "$build/crates/wqplan/out/wqplan" ;;
        *) echo "$libraries/$1.rlib" ;;
    esac
}

# may_begin CRATE: whether the libraries that it uses are made.
may_begin() {
    local use
    for use in ${uses[$1]}; do
        [ -z "${uses[$use]+listed}" ] || [ -n "${done[$use]-}" ] || return
    done
}

# prove CRATE: proves the crate and makes its result.
prove() {
    local use words
    words=(--crate-name "$1" --links "$1=" --jobs 1 --antt-project "$kit/rattle/logic/antt-project.json" --logic-built "$kit/logic_built")
    for use in std ${uses[$1]}; do
        if [ -n "${uses[$use]+listed}" ]; then
            words+=(--extern "$use=$(result "$use")")
        else
            words+=(--extern "$use=$kit/rlibs/$use.rlib")
        fi
    done
    words+=(-L "dependency=$kit/rlibs" -L "dependency=$libraries")
    cd -- "$build/crates/$1" || return
    if [ "$1" != wqplan ]; then
        # (its statements, and not its checked proofs: that is what those above it read)
        "$kit/bin/rattle" build "${words[@]}" --statements -o "$(result "$1")" src/lib.rt
        return
    fi
    words+=(--toolchain "$kit/toolchain")
    "$kit/bin/rattle" build "${words[@]}" --backend llvm -o out/wqplan.o src/main.rt &&
        "$kit/bin/rattle-link" --target x86_64-unknown-linux-gnu --toolchain "$kit/toolchain" -o out/wqplan out/wqplan.o \
            "$kit/c/libos_c.a" "$kit/c/liblibc_c.a" &&
        out/wqplan --version
}

# What each crate is made from, but for the libraries of the repository: the toolchain, those that it uses, its files.
declare -A from=()
for crate in "${crates[@]}"; do
    from[$crate]="$version:${uses[$crate]}"
done
while read -r sum file; do
    crate=${file#./}
    from[${crate%%/*}]+=$'\n'"$sum $file"
done < <(cd -- "$build/crates" && find . -path './*/out' -prune -o -type f -print0 | LC_ALL=C sort -z | xargs -0 sha256sum)

# What was made from the same is kept, if the libraries that it uses are.
left=()
declare -A done=()
for crate in "${crates[@]}"; do
    out=$build/crates/$crate/out
    if [ -e "$out/from" ] && [ "$(<"$out/from")" = "${from[$crate]}" ] && [ -e "$(result "$crate")" ] && may_begin "$crate"; then
        done[$crate]=1
    else
        left+=("$crate")
        rm -rf -- "$out" "$(result "$crate")"
        mkdir -- "$out"
    fi
done

# One check for each processor, if each can have 3 GiB of memory.
jobs=$(nproc)
room=$(awk '$1 == "MemAvailable:" { print int($2 / (3 * 1024 * 1024)) }' /proc/meminfo 2>/dev/null || true)
[ "${room:-$jobs}" -ge "$jobs" ] || jobs=$((room > 0 ? room : 1))

began=$SECONDS
count=0
total=${#left[@]}
case $total in
    0) first="Its ${#crates[@]} crates are proved" ;;
    "${#crates[@]}") first="First its $total crates are proved, up to $jobs at a time, which takes about an hour" ;;
    *) first="First $total of its ${#crates[@]} crates are proved, up to $jobs at a time" ;;
esac
if [ -n "$deb" ]; then
    echo "install: a package of wqplan will be made in $target. $first (in $build)."
else
    echo "install: wqplan will be installed to $target. $first (in $build)."
fi

# begin CRATE: has it proved in a process group of its own, which cleanup can end. Its status comes when it has ended.
begin() {
    local out=$build/crates/$1/out
    set -m
    {
        prove "$1" >"$out/log" 2>&1 </dev/null && status=0 || status=$?
        echo "$status" >"$out/ended" && mv -- "$out/ended" "$out/status"
    } &
    running[$1]=$!
    set +m
}

# end CRATE: what its status says.
end() {
    local out=$build/crates/$1/out status
    status=$(cat -- "$out/status" 2>/dev/null) || status=killed
    unset "running[$1]"
    if [ "$status" != 0 ]; then
        tail -n 20 -- "$out/log" >&2
        fail "$1 isn't proved and built (status $status, $out/log); nothing is installed"
    fi
    echo "${from[$1]}" >"$out/from"
    done[$1]=1
    count=$((count + 1))
    echo "[$count/$total] $1 proved ($((SECONDS - began)) s so far)"
}

# From the lowest up, each once its libraries are made. (Several `rt lib` at a time would wait for one another, since each locks the
# crates below its own.)
while [ $count -lt $total ]; do
    waiting=()
    for crate in "${left[@]}"; do
        if [ ${#running[@]} -lt "$jobs" ] && may_begin "$crate"; then
            begin "$crate"
        else
            waiting+=("$crate")
        fi
    done
    left=("${waiting[@]}")
    wait -n || true
    for crate in "${!running[@]}"; do
        if [ -e "$build/crates/$crate/out/status" ] || ! kill -0 "${running[$crate]}" 2>/dev/null; then
            end "$crate"
        fi
    done
done

if [ -n "$deb" ]; then
    bash package/deb.sh "$target" "$(result wqplan)"
    exit 0
fi

# make FOLDER: makes a folder and those above it, and notes those that weren't there.
make() {
    [ -d "$1" ] && return
    make "$(dirname -- "$1")" && mkdir -- "$1" 2>/dev/null && made+=("$1")
}

for place in "${places[@]}"; do
    folder=$prefix/${place%/*}
    make "$folder" || fail "can't make $folder; nothing is installed"
done

# What an earlier installation has on its list stays on it.
{
    [ ! -f "$list" ] || cat -- "$list"
    printf 'file %s\n' "${places[@]:1}"
    for folder in "${made[@]}"; do
        printf 'folder %s\n' "$(realpath -ms --relative-to="$prefix" -- "$folder")"
    done
} | LC_ALL=C sort -u >"$newlist" || fail "can't make the list $list; nothing is installed"

# All of them stand beside their places, in a folder for each folder, before the first one is renamed.
declare -A stages=()
for i in "${!places[@]}"; do
    place=$prefix/${places[i]}
    folder=${place%/*}
    if [ -z "${stages[$folder]-}" ]; then
        stages[$folder]=$(mktemp -d "$folder/.wqplan.XXXXXX" 2>/dev/null) || fail "can't write $place; nothing is installed"
        staged+=("${stages[$folder]}")
    fi
    new=${stages[$folder]}/${place##*/}
    case ${modes[i]} in
        link) ln -s -- "${sources[i]}" "$new" ;;
        *) install -m "${modes[i]}" -- "${sources[i]}" "$new" ;;
    esac 2>/dev/null || fail "can't write $place; nothing is installed"
done
made=()
for stage in "${staged[@]}"; do
    mv -f -t "${stage%/*}" -- "$stage"/*
    rmdir -- "$stage"
done
printf 'installed %s\n' "${places[@]/#/$prefix/}"
case :$PATH: in
    *":$prefix/bin:"*) ;;
    *) echo "install: $prefix/bin isn't on the PATH" ;;
esac
