#!/usr/bin/env bash
# Packs a built wqplan for Debian and its like: wqplan_VERSION_amd64.deb.
#
#     bash package/deb.sh FOLDER PROGRAM    makes the package in FOLDER
#     bash package/deb.sh --look FOLDER     says whether it could, and makes nothing
#
# `bash install.sh --deb` calls it with the program that it has proved and built. The package has this program without
# its symbols, what package/files.sh lists (the tools beside it, manual pages, completion for bash), and in
# /usr/share/doc/wqplan README.md, CHANGELOG.md, the pages of docs/ and all of examples/. Its version is what the program says, its date that of this version in
# CHANGELOG.md, and which C library it needs is found by dpkg-shlibdeps. The same program and pages, packed by the same
# tools, give the same bytes.
#
# Its maintainer is DEBFULLNAME at DEBEMAIL, as Debian's tools have it. Without these it is an address that can't exist,
# since the project has none.
set -euo pipefail

fail() {
    echo "package: $1" >&2
    exit 1
}

# may_pack FOLDER: ends the script unless a package can be made there.
may_pack() {
    local tool
    for tool in dpkg-deb dpkg-gencontrol dpkg-shlibdeps strip; do
        command -v "$tool" >/dev/null || fail "there is no program $tool (apt-get install dpkg-dev)"
    done
    [ -d "$1" ] || fail "there is no folder $1"
    [ -w "$1" ] || fail "$1 can't be written"
}

case $# in
    2) ;;
    *) fail 'name a FOLDER and a PROGRAM, or --look and a FOLDER' ;;
esac
if [ "$1" = --look ]; then
    may_pack "$(realpath -m -- "$2")"
    exit 0
fi
folder=$(realpath -m -- "$1")
program=$(realpath -m -- "$2")
may_pack "$folder"
cd -- "$(dirname -- "$0")/.."
umask 022

# The version, and when it was made.
said=$("$program" --version 2>/dev/null) || fail "$program can't be run"
[[ $said =~ ^wqplan\ ([0-9]+\.[0-9]+\.[0-9]+)$ ]] || fail "$program says that it is '$said', and not a version of wqplan"
version=${BASH_REMATCH[1]}
date=$(sed -n "s/^## ${version//./\\.} - \([0-9-]*\)$/\1/p" CHANGELOG.md)
[ -n "$date" ] || fail "CHANGELOG.md has no version $version"
SOURCE_DATE_EPOCH=$(date -ud "$date" +%s)
export SOURCE_DATE_EPOCH

maintainer="${DEBFULLNAME:-The authors of wqplan} <${DEBEMAIL:-no-address@wqplan.invalid}>"

work=$(mktemp -d)
new=
trap 'rm -rf -- "$work" ${new:+"$new"}' EXIT
trap 'exit 1' HUP INT TERM
root=$work/root

# place FILE PLACE [MODE]: puts a file at its place below the root.
place() {
    install -D -m "${3:-644}" -- "$1" "$root/$2"
}

# document FILE..: puts files of the repository below usr/share/doc/wqplan.
document() {
    local file
    for file; do
        place "$file" "usr/share/doc/wqplan/$file"
    done
}

place "$program" usr/bin/wqplan 755
strip --remove-section=.comment -- "$root/usr/bin/wqplan" 2>/dev/null || fail "$program can't be stripped"
others=$(bash package/files.sh) || fail 'what belongs into it is not there'
while IFS=$'\t' read -r mode file where; do
    case $mode,$where in
        link,*) mkdir -p -- "$root/usr/$(dirname -- "$where")" && ln -s -- "$file" "$root/usr/$where" ;;
        *,share/man/*)
            place "$file" "usr/$where"
            gzip -9n -- "$root/usr/$where"
            ;;
        *) place "$file" "usr/$where" "$mode" ;;
    esac
done <<<"$others"
place package/copyright usr/share/doc/wqplan/copyright
document README.md CHANGELOG.md docs/*.md docs/pictures/* examples/*.* examples/*/*

# Debian's changelog has its own form: an entry for each version, the latest first, which leads to the one of the repository.
mkdir -p -- "$work/debian"
sed -n 's/^## \([0-9.]*\) - \([0-9-]*\)$/\1 \2/p' CHANGELOG.md | while read -r number day; do
    printf 'wqplan (%s) unstable; urgency=medium\n\n  * See CHANGELOG.md.\n\n -- %s  %s\n\n' \
        "$number" "$maintainer" "$(LC_ALL=C date -uRd "$day")"
done >"$work/debian/changelog"
place "$work/debian/changelog" usr/share/doc/wqplan/changelog
gzip -9n -- "$root/usr/share/doc/wqplan/changelog"

# What dpkg knows of the package.
{
    sed '/^$/,$d' package/control
    echo "Maintainer: $maintainer"
    sed -n '/^$/,$p' package/control
} >"$work/debian/control"
mkdir -- "$root/DEBIAN"
(
    cd -- "$work"
    dpkg-shlibdeps -Tdebian/substvars "$root/usr/bin/wqplan" &&
        dpkg-gencontrol -Tdebian/substvars -P"$root" -O"$root/DEBIAN/control"
) >"$work/log" 2>&1 || fail "what $program needs can't be found: $(tail -n 1 "$work/log")"
(cd -- "$root" && find usr -type f -print0 | LC_ALL=C sort -z | xargs -0 md5sum) >"$root/DEBIAN/md5sums"

# It stands beside its place before it is renamed.
name=wqplan_${version}_amd64.deb
new=$(mktemp "$folder/.wqplan.XXXXXX")
dpkg-deb --root-owner-group --build "$root" "$new" >"$work/log" 2>&1 || fail "can't make $folder/$name: $(tail -n 1 "$work/log")"
chmod 644 -- "$new"
mv -fT -- "$new" "$folder/$name"
new=
echo "made $folder/$name"
