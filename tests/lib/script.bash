# What the scripts of tests/ in bash share: how they start programs, and how they count. They source this file.
#
# A program that hangs fails its test, in place of holding up the tests after it. How long one may take is as in programs.py,
# unless a script sets `seconds` itself.
seconds=$(sed -n 's/^SECONDS_PER_RUN = //p' "${BASH_SOURCE[0]%/*}/programs.py")
timeout=$(command -v timeout)
passed=0
failed=0
status=0

# limited PROGRAM ARG..: runs a program. One that takes longer is ended, with all that it started, and the status is 124, or 137
# where it had to be killed.
limited() {
    "$timeout" --kill-after=5 "$seconds" "$@"
}

# built SCRIPT CRATE PROGRAM: the script ends where there is nothing to run there.
built() {
    if [ ! -x "$3" ]; then
        echo "$1: there is nothing to run at $3 (cd crates/$2 && rt run builds it)"
        exit 1
    fi
}

# run ARGS..: runs $program, and keeps what it writes (in the files `out` and `err`) and its status.
run() {
    limited "$program" "$@" >out 2>err </dev/null
    status=$?
}

# ok NAME: counts one that passed.
ok() {
    passed=$((passed + 1))
    echo "ok      $1"
}

# fail TEXT..: counts one that failed, and says which.
fail() {
    failed=$((failed + 1))
    echo "FAILED  $*"
}

# is NAME WANTED FOUND: counts whether the two are the same.
is() {
    if [ "$2" = "$3" ]; then
        ok "$1"
    else
        fail "$1: wanted '$2', found '$3'"
    fi
}

# has NAME PATTERN TEXT: counts whether the pattern fits the text.
has() {
    if [[ $3 =~ $2 ]]; then
        ok "$1"
    else
        fail "$1: wanted '$2', found '$3'"
    fi
}

# skipped TEXT..: says what isn't tested here, and why.
skipped() {
    echo "SKIPPED $*"
}

# from_debian PROGRAM PACKAGE: whether the program is there. Where it may, it installs the package that has it.
from_debian() {
    local words
    command -v "$1" >/dev/null && return
    [ "$(id -u)" -eq 0 ] && command -v apt-get >/dev/null || return
    for words in "install $2" update "install $2"; do
        DEBIAN_FRONTEND=noninteractive "$timeout" 300 apt-get -qq -y --no-install-recommends $words >/dev/null 2>&1 </dev/null
        command -v "$1" >/dev/null && return
    done
    return 1
}

# counts_of SCRIPT: says how many passed and failed. The status is 0 where none failed.
counts_of() {
    echo "$1: $passed passed, $failed failed"
    [ "$failed" -eq 0 ]
}
