#!/usr/bin/env bash
# What is installed beside the program wqplan, by install.sh and in the Debian package.
#
#     bash package/files.sh    prints lines `MODE FILE PLACE`, parted by tabs
#
# FILE is one of the repository, and PLACE where it stands below the prefix (/usr in the package). If MODE is `link`, a
# symbolic link stands at PLACE, and FILE is what it has: a path from there.
#
# A tool that is a folder of its own (source/, kernel/, record/) stands as it is below share/wqplan, and its command in
# bin is a link to it. A tool whose folder isn't there is left out.
set -euo pipefail
cd -- "$(dirname -- "$0")/.."

# file MODE FILE PLACE
file() {
    printf '%s\t%s\t%s\n' "$1" "$2" "$3"
}

# folder NAME: all of it but what is made on the way, at the same place below share/wqplan.
folder() {
    local path found
    found=$(find "$1" -name __pycache__ -prune -o -type f ! -name '*.pyc' ! -name '*.o' ! -name '*.ko' ! -name '*.mod*' ! -name '.*' \
        ! -name modules.order ! -name Module.symvers -print | LC_ALL=C sort)
    while read -r path; do
        if [ -x "$path" ]; then file 755 "$path" "share/wqplan/$path"; else file 644 "$path" "share/wqplan/$path"; fi
    done <<<"$found"
}

# pages COMMAND: its manual page and its completion for bash.
pages() {
    [ ! -f "man/$1.1" ] || file 644 "man/$1.1" "share/man/man1/$1.1"
    [ ! -f "man/$1.bash" ] || file 644 "man/$1.bash" "share/bash-completion/completions/$1"
}

# tool COMMAND FILE: a command, which is a file of its folder.
tool() {
    [ -f "$2" ] || return 0
    file link "../share/wqplan/$2" "bin/$1"
    pages "$1"
    folder "${2%%/*}"
}

pages wqplan
file 644 man/wqplan.5 share/man/man5/wqplan.5
tool wqsource source/wqsource
tool wqjudge kernel/judge
tool wqrecord record/wqrecord
# What kernel/ uses of the model of tests/: the steps of docs/FORMAT.md.
for path in tests/model/{certificate,circle,command_line,deadlock,declaration,readings,steps,walks}.py tests/lib/records.py \
    docs/tables/directives.txt; do
    file 644 "$path" "share/wqplan/$path"
done
