# A copy of what install.sh reads, and a toolchain for it that proves and builds nothing: an `rt`, which names a folder with a `rattle`
# and a `rattle-link`, which note their calls. The scripts that run install.sh source this file, once they have a folder $work and the
# $repository; then the copy is $clone, the toolchain's folder $kit, and `run` runs install.sh.

# A clone: install.sh, crates.txt, the pages, package/, and of each crate a file in src/, in specs/ and (but for wq_text) in proofs/, and
# what install.sh has no use for.
clone="$work/the clone"
kit="$work/the kit"
mkdir -p -- "$clone/crates" "$work/toolchain" "$kit/bin" "$work/home" "$work/tmp"
cp -r -- "$repository"/{install.sh,crates.txt,man,package} "$clone"
# Of the tools beside it their commands and one more file each, and what one uses of tests/ and docs/.
mkdir -p -- "$clone"/{source/csource,kernel/lib,record/wqr,tests/lib,tests/model,docs/tables}
cp -- "$repository/source/wqsource" "$clone/source"
cp -- "$repository/source/csource/says.py" "$clone/source/csource"
cp -- "$repository/kernel/judge" "$clone/kernel"
cp -- "$repository/kernel/lib/init" "$clone/kernel/lib"
cp -- "$repository/record/wqrecord" "$clone/record"
cp -- "$repository/record/wqr/says.py" "$clone/record/wqr"
cp -- "$repository"/tests/model/{certificate,circle,command_line,deadlock,declaration,readings,steps,walks}.py "$clone/tests/model"
cp -- "$repository/tests/lib/records.py" "$clone/tests/lib"
cp -- "$repository/docs/tables/directives.txt" "$clone/docs/tables"
while IFS=: read -r crate _; do
    mkdir -p -- "$clone/crates/$crate"/{src,specs,proofs,must-fail,out}
    echo "$crate" | tee -- "$clone/crates/$crate"/{src/lib.rt,specs/Lib.antt} >"$clone/crates/$crate/proofs/Lib.antt"
done < <(grep -v "^#" "$clone/crates.txt")
rm -r -- "$clone/crates/wq_text/proofs"
mv -- "$clone/crates/wqplan/src/lib.rt" "$clone/crates/wqplan/src/main.rt"

# `rattle build` proves each crate but $UNPROVED, where each library that it is passed is there, and makes a folder of a library. Of
# $HANGING it never ends. `rattle-link` makes a program that prints $BUILT, unless that is empty, and then does what $AFTER says.
# How many calls of `rattle` are at work is noted beside each.
cat >"$work/toolchain/rt" <<'END'
#!/usr/bin/env bash
case $* in
    doc) echo "$KIT/START-HERE.md" ;;
    version) echo "${VERSION-rattle-kit-1}" ;;
    *) exit 1 ;;
esac
END
cat >"$kit/bin/rattle" <<'END'
#!/usr/bin/env bash
[ "$1" = build ] || exit 2
words=("$@")
for ((i = 1; i < $#; i++)); do
    case ${words[i]} in
        --crate-name) crate=${words[++i]} ;;
        --extern)
            library=${words[++i]#*=}
            [ "${library%/*}" = "$KIT/rlibs" ] || [ -d "$library" ] || { echo "there is no $library"; exit 2; }
            ;;
        -o) made=${words[++i]} ;;
        src/*.rt) source=${words[i]} ;;
    esac
done
mkdir -- "$WORK/at-work/$crate" || exit 2
echo "$crate" >>"$WORK/calls"
ls -- "$WORK/at-work" | wc -l >>"$WORK/counts"
[ "$crate" != "${HANGING-}" ] || sleep 600
sleep 0.05
rmdir -- "$WORK/at-work/$crate"
grep -qx "$crate" "$source" "${source/src*/specs/Lib.antt}" || exit 2
if [ "$crate" = "${UNPROVED-}" ]; then
    echo "fn $crate::f: not proved"
    exit 1
fi
[ "$crate" = wqplan ] && touch -- "$made" || mkdir -- "$made"
END
cat >"$kit/bin/rattle-link" <<'END'
#!/usr/bin/env bash
[ -e out/wqplan.o ] && [ -n "${BUILT-}" ] || exit 1
echo "$PWD link" >>"$WORK/calls"
printf '#!/bin/sh\necho %s\n' "$BUILT" >out/wqplan
chmod 755 out/wqplan
eval "${AFTER-}"
END
chmod 755 "$work/toolchain/rt" "$kit"/bin/*

# start ARGS..: becomes install.sh, in a folder elsewhere.
start() {
    rm -rf -- "$work/calls" "$work/counts" "$work/at-work"
    touch "$work/calls"
    mkdir -- "$work/at-work"
    cd -- "$work" && umask 077 && WORK=$work KIT=${KIT-$kit} HOME=${HOUSE-$work/home} XDG_CACHE_HOME=${CACHE-$work/cache} TMPDIR=$work/tmp \
        BUILT=${BUILT-one} PATH=${TOOLS-$work/toolchain:$PATH} exec timeout 60 bash "$clone/install.sh" "$@" \
        >"$work/out" 2>"$work/err" </dev/null
}

# run ARGS..: runs install.sh, and keeps what it writes, its status and the calls of `rattle`.
run() {
    (start "$@")
    status=$?
}
