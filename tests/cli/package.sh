#!/usr/bin/env bash
# Makes the Debian package of a program, by `install.sh --deb` with the toolchain of tests/lib/toolchain.bash, which takes this program
# in place of what it would build. Looks at what is in the package, installs it in a folder, runs the program there, and removes it.
# It needs dpkg-dev, and installs it where it may. Without it, or on a system whose C library is no package, it says so and passes.
# The argument, if there is one, names another program than that of the gate.
set -u
. "$(dirname "$0")/../lib/script.bash"
repository=$(realpath -- "$(dirname "$0")/../..")
program=$(realpath -m -- "${1:-$repository/crates/wqplan/out/wqplan}")
built package wqplan "$program"
for tool in dpkg-deb dpkg-shlibdeps dpkg-gencontrol objdump; do
    if ! from_debian "$tool" dpkg-dev; then
        skipped "all of package.sh: there is no program $tool, and dpkg-dev can't be installed"
        counts_of package
        exit
    fi
done
if ! library=$(dpkg-query --show --showformat '${Version}' libc6 2>/dev/null); then
    skipped "all of package.sh: dpkg knows no libc6 here, so nobody can tell which one the program needs"
    counts_of package
    exit
fi
work=$(mktemp -d)
trap 'rm -rf -- "$work"' EXIT
. "$repository/tests/lib/toolchain.bash"
cp -r -- "$repository"/{README.md,CHANGELOG.md,docs,examples,source,kernel,record} "$clone"
find "$clone" -name __pycache__ -prune -exec rm -r -- {} +
export PROGRAM=$program AFTER='cp -- "$PROGRAM" out/wqplan && chmod 755 out/wqplan'
export PATH=$PATH:/usr/sbin:/sbin
unset DEBFULLNAME DEBEMAIL SOURCE_DATE_EPOCH

# ends NAME STATUS ERROR: counts whether the last run ended so, with this on standard error, and left nothing in TMPDIR.
ends() {
    is "$1" "$2: $3" "$status: $(cat "$work/err")"
    is "$1: no file is left in TMPDIR" '' "$(ls -A -- "$work/tmp")"
}

# It is made of what install.sh has proved, and nothing is proved for it a second time.
read -r version date < <(sed -n 's/^## \([0-9.]*\) - \(.*\)/\1 \2/p' "$repository/CHANGELOG.md")
folder="$work/a folder"
name=wqplan_${version}_amd64.deb
deb=$folder/$name
mkdir -- "$folder"
run "$work/prefix"
ends 'an installation' 0 ''
run --deb "$folder"
ends 'a package' 0 ''
is 'nothing is proved or linked for it again' '' "$(cat "$work/calls")"
is 'it says where it is' "made $deb" "$(tail -n 1 "$work/out")"
is 'it alone is there, and everybody may read it' "$name 644" "$(find "$folder" -mindepth 1 -printf '%P %m\n')"
cp -- "$deb" "$work/first.deb"
rm -r -- "$work/cache"
run --deb "$folder"
ends 'a package before any installation' 0 ''
is 'the crates are proved for it' wqplan "$(grep -x wqplan "$work/calls")"
is 'it has the same bytes as the first' '' "$(cmp -- "$deb" "$work/first.deb" 2>&1)"
is 'nothing is installed by it' '' "$(find "$work/home" -mindepth 1)"
mv -- "$deb" "$work"
(cd -- "$work" && start --deb)
is 'without FOLDER it comes where one is' '' "$(cmp -- "$work/$name" "$work/first.deb" 2>&1)"
deb=$work/$name

# What dpkg knows of it.
field() {
    dpkg-deb --field "$deb" "$1"
}
is 'Package' wqplan "$(field Package)"
is 'Version, that of the changelog' "$version" "$(field Version)"
is 'Version, that of the program' "wqplan $version" "$(limited "$program" --version)"
is 'Architecture' amd64 "$(field Architecture)"
is 'Maintainer: there is no address' 'The authors of wqplan <no-address@wqplan.invalid>' "$(field Maintainer)"
needed=$(objdump -T "$program" | grep -oE 'GLIBC_[0-9.]+' | sed 's/GLIBC_//' | sort -Vu | tail -n 1)
is 'Depends: the C library whose symbols the program has' "libc6 (>= $needed)" "$(field Depends | tr , '\n' | sed 's/^ //' | grep '^libc6 ')"
libraries=$(objdump -p "$program" | sed -n 's/^ *NEEDED *//p' | grep -vE '^(libc|libm|libpthread|libdl|ld-linux-x86-64)\.so' | LC_ALL=C sort)
is 'Depends: on nothing else but the C compiler'"'"'s library, if the program needs that' "$(sed 's/^libgcc_s.so.1$/libgcc-s1/' <<<"$libraries")" \
    "$(field Depends | tr , '\n' | sed 's/^ //; s/ .*//' | grep -v '^libc6$')"
is 'no script is run when it is installed or removed' 'control md5sums' "$(dpkg-deb --ctrl-tarfile "$deb" | tar -t | sed 's|^\./||; /^$/d' | LC_ALL=C sort | xargs)"

# What is in it: each file with its mode, all of root, and of the day of the version.
{
    echo '-rwxr-xr-x usr/bin/wqplan'
    cd -- "$repository" && find README.md CHANGELOG.md docs/*.md docs/pictures examples -type f -printf '-rw-r--r-- usr/share/doc/wqplan/%p\n'
    printf -- '-rw-r--r-- usr/share/%s\n' doc/wqplan/{changelog.gz,copyright} man/man1/wq{plan,source,judge,record}.1.gz \
        man/man5/wqplan.5.gz bash-completion/completions/wq{plan,source,judge,record}
    # The tools stand as they are in the repository; their commands are links to them.
    printf 'lrwxrwxrwx usr/bin/%s\n' wqsource wqjudge wqrecord
    cd -- "$repository" && find source kernel record -name __pycache__ -prune -o -type f -printf '%M usr/share/wqplan/%p\n'
    printf -- '-rw-r--r-- usr/share/wqplan/%s\n' tests/model/{certificate,circle,command_line,deadlock,declaration,readings,steps,walks}.py \
        tests/lib/records.py docs/tables/directives.txt
} | LC_ALL=C sort >"$work/wanted"
dpkg-deb --contents "$deb" >"$work/contents"
awk '!/^d/ { sub(/^\.\//, "", $6); print $1, $6 }' "$work/contents" | LC_ALL=C sort >"$work/found"
is 'the files' '' "$(diff "$work/wanted" "$work/found")"
is 'all are of root, and folders can be entered' '' "$(awk '$2 != "root/root" || /^d/ && $1 != "drwxr-xr-x"' "$work/contents")"
is 'all are of the day of the version' "$date 00:00" "$(TZ=UTC dpkg-deb --contents "$deb" | awk '{ print $4, $5 }' | sort -u)"

# Installed in a folder that knows of the C library alone, by root, or by somebody who is taken for root.
root=$work/root
as=()
mkdir -p -- "$root/var/lib/dpkg"/{info,updates,triggers}
if [ "$(id -u)" -ne 0 ]; then
    as=(fakeroot)
fi
# known VERSION: what the folder has is this version of the C library, and the C compiler's.
known() {
    printf 'Package: %s\nStatus: install ok installed\nArchitecture: amd64\nMulti-Arch: same\nMaintainer: x <x@x.x>\nVersion: %s\nDescription: x\n\n' \
        libc6 "$1" libgcc-s1 99 >"$root/var/lib/dpkg/status"
}
# packages ARGS..: runs dpkg on the folder, and keeps what it says and its status.
packages() {
    "${as[@]}" dpkg --root="$root" --force-script-chrootless "$@" >"$work/out" 2>"$work/err" </dev/null
    status=$?
}
if [ ${#as[@]} -gt 0 ] && ! from_debian fakeroot fakeroot; then
    skipped 'dpkg --root, which takes root or fakeroot; the package is unpacked by dpkg-deb instead'
    dpkg-deb --extract "$deb" "$root"
else
    known 2.0
    packages --install "$deb"
    is 'with an older C library it is refused' 1 "$(grep -c "wqplan depends on libc6 (>= $needed)" "$work/err")"
    packages --purge wqplan
    known "$library"
    find "$root" -path "$root/var" -prune -o -print | LC_ALL=C sort >"$work/before"
    packages --install "$deb"
    is 'it is installed' 0 "$status"
    is 'it is known as installed' 'ii ' "$(dpkg-query --admindir="$root/var/lib/dpkg" --show --showformat '${db:Status-Abbrev}' wqplan)"
    packages --verify wqplan
    is 'each file has the sum that the package names' '0: ' "$status: $(cat "$work/out")"
fi
cd -- "$root/usr/share/doc/wqplan" || exit 1
is 'the program says its version' "wqplan $version" "$(limited "$root/usr/bin/wqplan" --version)"
is 'it finds the plan of the guide' '' "$(limited "$root/usr/bin/wqplan" plan examples/rdisk/rdisk.wq | diff - "$repository/examples/rdisk/rdisk.plan")"
is 'it judges an example' safe "$(limited "$root/usr/bin/wqplan" deadlock examples/nvme-auth.wq examples/nvme-auth.later.assign)"
is 'it has no symbols that are of no use to it' 'no symbols' "$(objdump -t "$root/usr/bin/wqplan" | grep -o 'no symbols')"
for page in wqplan.1 wqplan.5 wqsource.1 wqjudge.1 wqrecord.1; do
    is "$page" '' "$(zcat "$root/usr/share/man/man${page#*.}/$page.gz" | cmp - "$repository/man/$page" 2>&1)"
done
for command in wqplan wqsource wqjudge wqrecord; do
    is "the completion of $command" '' "$(cmp -- "$root/usr/share/bash-completion/completions/$command" "$repository/man/$command.bash" 2>&1)"
done

# The tools, as they stand there. The judge is asked for what needs no guest.
# (spatch opens Python's library, and Debian's coccinelle doesn't depend on it)
is 'Recommends' 'python3, binutils, coccinelle, libpython3.11 | libpython3-dev, graphviz, qemu-system-x86' "$(field Recommends)"
export XDG_CACHE_HOME=$work/facts
limited "$root/usr/bin/wqjudge" --help >"$work/out" 2>&1
is 'wqjudge calls itself so' 'usage: wqjudge' "$(head -n 1 "$work/out" | cut -d ' ' -f 1,2)"
PATH=$root/usr/bin:$PATH limited "$root/usr/bin/wqjudge" examples/nvme-auth.wq examples/nvme-auth.assign --write-c "$work/hang.c" >"$work/out" 2>&1
is 'wqjudge writes a file of C of what hangs' "1: written: $work/hang.c" "$?: $(tail -n 1 "$work/out")"
is 'which has the items' 4 "$(grep -cE '"(io|auth|dhchap_auth|connect)_work"' "$work/hang.c")"
limited "$root/usr/bin/wqrecord" --help >"$work/out" 2>&1
is 'wqrecord says its commands' '0: run start stop drop status declare compare places probes' \
    "$?: $(sed -nE 's/^  wqrecord ([a-z]+) .*/\1/p' "$work/out" | xargs)"
# (the two waits of examples/md.md for superblocks)
limited "$root/usr/bin/wqrecord" compare examples/md.wq "$repository/tests/record/records/md-superblocks.gz" \
    --assign examples/md.assign >"$work/out" 2>&1
is 'wqrecord compares a record with an example' '0: declared and seen: 2' "$?: $(grep '^declared and seen:' "$work/out")"
if command -v spatch >/dev/null; then
    limited "$root/usr/bin/wqsource" audit --decl examples/rdisk/rdisk.wq --tree examples/rdisk rdisk.c >"$work/out" 2>&1
    is 'wqsource audits an example' '1: left: rdisk.c:18 rdisk_log: submit_bio_wait(rd->record)  [other]' "$?: $(grep '^left:' "$work/out")"
    limited "$root/usr/bin/wqsource" draft --tree examples/rdisk rdisk.c >"$work/out" 2>&1
    is 'wqsource drafts a declaration' '0: 4' "$?: $(grep -c '^item ' "$work/out")"
else
    skipped "wqsource: there is no spatch (Debian's coccinelle)"
fi
unset XDG_CACHE_HOME
is 'they have written nothing beside them' '' "$(find "$root/usr/share/wqplan" -name __pycache__ -o -name '*.pyc')"
is 'its changelog has each version' "$(sed -n 's/^## \([0-9.]*\) - .*/\1/p' "$repository/CHANGELOG.md")" \
    "$(zcat changelog.gz | sed -n 's/^wqplan (\(.*\)) .*/\1/p')"
is 'its copyright file says that no licence was chosen' 1 "$(grep -c '^Comment: No licence has been chosen' copyright)"

# A page that leads to another one leads to one that is here, but for those that only the repository has.
grep -rnoE '\]\([^)#]+\)' --include='*.md' . | sed -E 's/^([^:]*):[0-9]+:\]\((.*)\)$/\1 \2/' | while read -r page link; do
    case $link in
        http*) ;;
        *) [ -e "$(dirname "$page")/$link" ] || echo "${page#./} $link" ;;
    esac
done >"$work/dead"
is 'the pages that only the repository has' "$(printf '%s\n' README.md\ {bench,kernel,record,source}/README.md)" \
    "$(grep '^README.md ' "$work/dead" | LC_ALL=C sort -u)"
is 'no other link leads nowhere' '' "$(grep -vE ' (\.\./)?(bench|kernel|record|source|tests|crates)/' "$work/dead")"

# Removed.
cd -- "$work" || exit 1
if [ -s "$work/before" ]; then
    packages --purge wqplan
    is 'it is removed' 0 "$status"
    is 'nothing of it is left' '' "$(find "$root" -path "$root/var" -prune -o -print | LC_ALL=C sort | diff "$work/before" -)"
    is 'it is no longer known' '' "$(dpkg-query --admindir="$root/var/lib/dpkg" --show wqplan 2>/dev/null)"
fi

# What Debian's own tool says of it. (That it is run as root it says as well, on standard error.)
if from_debian lintian lintian; then
    said=$(lintian --fail-on error,warning -- "$deb" 2>/dev/null)
    is 'lintian: no error and no warning' '0: ' "$?: $said"
else
    skipped "lintian: it isn't there, and can't be installed"
fi

# Whoever has a name and an address for Debian's tools is its maintainer.
DEBFULLNAME='A. Maker' DEBEMAIL=maker@example.org run --deb "$folder"
is 'Maintainer: a name and an address' 'A. Maker <maker@example.org>' "$(dpkg-deb --field "$folder/$name" Maintainer)"
rm -f -- "$folder/$name"

# Refusals. Each leaves nothing, and what can be known before is refused before anything is built.
run --deb "$work/nowhere"
ends "a folder that isn't there" 1 "package: there is no folder $work/nowhere"
is "a folder that isn't there: nothing is built" '' "$(cat "$work/calls")"
mkdir -p -- "$work/bare"
for tool in bash dirname mktemp realpath rmdir rm timeout dpkg-deb; do
    ln -s -- "$(command -v "$tool")" "$work/bare/$tool"
done
TOOLS=$work/bare run --deb "$folder"
ends 'no dpkg-dev' 1 'package: there is no program dpkg-gencontrol (apt-get install dpkg-dev)'
is 'no dpkg-dev: nothing is built' '' "$(cat "$work/calls")"

# refused NAME PROGRAM REASON: counts whether package/deb.sh refuses this program so.
refused() {
    TMPDIR=$work/tmp bash "$clone/package/deb.sh" "$folder" "$2" >"$work/out" 2>"$work/err"
    status=$?
    ends "$1" 1 "package: $3"
    is "$1: nothing is made" '' "$(ls -A -- "$folder")"
}
# says TEXT: a script that says so, whatever it is asked.
says() {
    printf '#!/bin/sh\necho "%s"\n' "$1" >"$work/other"
    chmod 755 -- "$work/other"
}
refused 'a program that is not there' "$work/no" "$work/no can't be run"
says 'wqplan 0.2.0-dev'
refused 'a version that is none' "$work/other" "$work/other says that it is 'wqplan 0.2.0-dev', and not a version of wqplan"
says 'wqplan 99.0.0'
refused 'a version that has no entry' "$work/other" 'CHANGELOG.md has no version 99.0.0'
says "wqplan $version"
refused 'a program that is a script' "$work/other" "$work/other can't be stripped"

counts_of package
