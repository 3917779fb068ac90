#!/usr/bin/env bash
# All tests, or some of them.
#
#     bash tests/run.sh                the gate
#     bash tests/run.sh --all-edits    the gate, with all wrong bodies of tests/edits in place of the known ones
#     bash tests/run.sh PART ..        these parts alone, or scripts by their names, over programs that are built
#
# The gate is the toolchain's (proofs, must-fail edits, tests, the stored run), then the known wrong bodies of
# tests/edits/NAME/known, and then the scripts that test what no proof covers. They use what it leaves at crates/NAME/out.
#
# A PART is one of these, or the name of a script in the list below:
#
#     lib        how tests start programs and read drawings: without a program
#     docs       pages, manual pages, completion: without a program, but for `guide`, the commands of the pages
#     cli        what the program prints, its diagnoses, the examples, install.sh: with wqplan
#     model      the program against a model that was written from docs/FORMAT.md and its parts: with wqplan
#     source     the reader of C sources, source/wqsource: with Coccinelle, which it installs where it may
#     runtime    books, runtimes and rescuers: with test_runtime
#     kernel     the workqueue code of two series of Linux, and two drivers, in QEMU, where that and packages of Debian can be had:
#                with wqplan, but for `drivers`
#     record     record/wqrecord, by small records, and in guests as for `kernel`: without a program
#     edits      all wrong bodies of tests/edits, which takes hours, and the script that tries them
#
# Parts of cli, model, source and record are tests by pytest (pytest.sh, which installs it where it may, or says what is missing). One is run by
# its name as `python3 -m pytest tests/cli -k NAME`.
#
# wqplan is the one at crates/wqplan/out or, where there is none, the one that install.sh built in ~/.cache/wqplan or
# $XDG_CACHE_HOME/wqplan, or else the one on the PATH; test_runtime and example_rdisk are at crates/NAME/out. The variables WQPLAN, TEST_RUNTIME and
# EXAMPLE_RDISK name others, as in `WQPLAN=/tmp/wqplan bash tests/run.sh cli model`. The gate doesn't heed them.
#
# What the toolchain says of a crate has the seconds since the start beside it. At the end come when each crate was proved and
# its processor seconds, with those of its tests and of its build, and the seconds and the processor seconds of each script.
# The last line counts what the toolchain counts, crates and edits, and each script as one. The status is that of the first
# that failed. It is 2 where a PART is unknown.
set -uo pipefail

# The scripts: part, name, and the files of tests/ that are run in turn, each with its words. The name of a program stands for
# its path. The order is that of the gate, which has its own words for `edits`, and leaves out what is in no part: `stress`, long
# loads in many threads, and `longer`, guests for before a release.
scripts='
lib      time_limit   lib/time_limit.sh
docs     definitions  docs/definitions.py | docs/headline_lines.py
docs     pages        docs/pages.py | docs/made.py --check
docs     widths       docs/widths.py
docs     manual       docs/manual.py | docs/tools.py
docs     completion   docs/completion.py
docs     citations    docs/citations.py
cli      install      cli/install.sh
cli      package      cli/package.sh WQPLAN
lib      dot          lib/dot_texts.py | lib/dot_drawn.py | lib/dot_laid.py
cli      outlives     cli/outlives.sh
edits    edits_test   edits/edits_test.sh
cli      program      cli/program.sh WQPLAN
cli      rows         pytest.sh WQPLAN cli/test_rows.py
cli      forged       pytest.sh WQPLAN cli/test_forged.py
cli      examples     cli/examples.sh WQPLAN
cli      explain      cli/explain.sh WQPLAN
cli      diagnoses    pytest.sh WQPLAN cli/test_diagnoses.py cli/test_messages.py
cli      worst        cli/worst.py WQPLAN
model    model        pytest.sh WQPLAN model | model/repair_search.py WQPLAN
source   source       source/main.sh
runtime  book         runtime/book/main.py TEST_RUNTIME
runtime  runtime      runtime/main.py TEST_RUNTIME | runtime/wakes.py TEST_RUNTIME | runtime/loads.py TEST_RUNTIME \
                      | runtime/interleavings.py
kernel   kernel       kernel/offline.py WQPLAN | kernel/main.py WQPLAN | kernel/broken.py WQPLAN | kernel/ending.py WQPLAN
kernel   drivers      kernel/drivers.py
record   record       pytest.sh - record | record/guests.py
docs     guide        docs/guide.sh WQPLAN EXAMPLE_RDISK
runtime  book_model   model/book_properties.py | model/drive_books.py TEST_RUNTIME
edits    edits        edits/edits.py
-        stress       runtime/loads.py TEST_RUNTIME 20 100000
-        longer       kernel/drivers.py --patched | kernel/longer.py
'

# The names, and of each its part and its files; and the names that are asked for.
names=()
asked=()
declare -A part_of files_of
# (a line that ends with a backslash goes on)
while read part name files; do
    [ -n "$part" ] || continue
    names+=("$name")
    part_of[$name]=$part
    files_of[$name]=$files
done <<<"$scripts"
all_edits=
case $*, in
    --help, | -h,)
        sed -n '2,/^set/{/^set/d;s/^# \{0,1\}//;p}' "$0"
        exit 0
        ;;
    --all-edits,)
        all_edits=yes
        shift
        ;;
esac
for word; do
    found=()
    for name in "${names[@]}"; do
        if [ "$word" = "$name" ] || [ "$word" = "${part_of[$name]}" ] && [ "$word" != - ]; then
            found+=("$name")
        fi
    done
    if [ ${#found[@]} -eq 0 ]; then
        echo "run: there is no part or script $word; the parts are lib docs cli model source runtime kernel record edits," \
            "the scripts ${names[*]}" >&2
        exit 2
    fi
    asked+=("${found[@]}")
done

# The programs that are named for the parts, before the folder changes.
declare -A programs=()
for name in WQPLAN TEST_RUNTIME EXAMPLE_RDISK; do
    [ ${#asked[@]} -eq 0 ] || [ -z "${!name-}" ] || programs[$name]=$(realpath -m -- "${!name}")
done
cd -- "$(dirname -- "$0")/.." || exit 1

# As many checks at a time as there are processors, each with one job: a check with several jobs reads the libraries that it
# stands on in each of them.
export RT_JOBS="${RT_JOBS:-$(nproc)}"
work=$(mktemp -d)
trap 'rm -rf -- "$work"' EXIT
passed=0
failed=0
status=0

# The other programs: the gate's, or for the parts the wqplan that is installed.
installed=${XDG_CACHE_HOME:-${HOME-}/.cache}/wqplan/crates/wqplan/out/wqplan
[ -x "$installed" ] || installed=$(command -v wqplan)
if [ ${#asked[@]} -gt 0 ] && [ ! -x crates/wqplan/out/wqplan ] && [ -x "$installed" ]; then
    : "${programs[WQPLAN]:=$installed}"
fi
for name in wqplan test_runtime example_rdisk; do
    : "${programs[${name^^}]:=crates/$name/out/$name}"
done

# part NAME COMMAND..: runs the command, and notes its times. Its status is returned, and the first one but 0 is kept.
part() {
    local name=$1 ended TIMEFORMAT='%R %U %S'
    shift
    # (`time` writes to a file, and what the command says to standard error goes there as ever)
    { time "$@" 2>&3; } 3>&2 2>"$work/time"
    ended=$?
    awk -v name="$name" -v ended="$ended" '{ print name, $1, $2 + $3, ended }' OFS='\t' "$work/time" >>"$work/parts"
    [ "$status" -ne 0 ] || status=$ended
    return "$ended"
}

# counted NAME COMMAND..: the same, and counts it as one that passed or failed.
counted() {
    if part "$@"; then
        passed=$((passed + 1))
    else
        failed=$((failed + 1))
    fi
}

# start FILE [WORD..]: runs a file of tests/.
start() {
    case $1 in
        *.py) python3 -B "tests/$1" "${@:2}" ;;
        *) bash "tests/$1" "${@:2}" ;;
    esac
}

# script NAME: runs the files of a script, all of them. The status is the first one but 0.
script() {
    local file word words ended first=0
    local -a files
    IFS='|' read -ra files <<<"${files_of[$1]}"
    for file in "${files[@]}"; do
        words=()
        for word in $file; do
            words+=("${programs[$word]-$word}")
        done
        start "${words[@]}"
        ended=$?
        [ "$first" -ne 0 ] || first=$ended
    done
    return "$first"
}

# toolchain: the toolchain's gate, while the processor seconds of each crate are noted.
toolchain() {
    local noting ended
    : >"$work/crates"
    # (started in a subshell, it ends without a word of this one)
    noting=$(python3 -B tests/lib/processor_times.py $$ "$work/crates" >/dev/null 2>&1 & echo $!)
    proofs
    ended=$?
    kill "$noting" 2>/dev/null
    return "$ended"
}

# proofs: what it prints, with the seconds since the start, and its status.
proofs() {
    rt ci | while IFS= read -r line || [ -n "$line" ]; do
        case $line in
            '== '* | 'rt: '*' proved' | 'rt: '*' NOT PROVED'* | 'rt: '*': trying '*) line+=" ($SECONDS s)" ;;
        esac
        printf '%s\n' "$line"
    done | tee "$work/said"
}

# ends: the table and the counts.
ends() {
    if [ -s "$work/said" ]; then
        printf '\n%-24s %10s %10s\n' crate 'proved at' processor
        sed -nE 's/^rt: (\w+) proved \(([0-9]+) s\)$/\1 \2/p' "$work/said" | awk '
            is_spent { spent[$1] = $2; next }
            { printf "%-24s %10d %10d\n", $1, $2, spent[$1] }' is_spent=1 "$work/crates" is_spent=0 -
    fi
    printf '\n%-24s %10s %10s\n' part seconds processor
    awk -F'\t' '
        { printf "%-24s %10.0f %10.0f%s\n", $1, $2, $3, $4 ? "  FAILED (" $4 ")" : ""; seconds += $2; processor += $3 }
        END { printf "%-24s %10.0f %10.0f\n", "all", seconds, processor }' "$work/parts"
    echo "$passed passed, $failed failed"
    exit "$status"
}

if [ ${#asked[@]} -gt 0 ]; then
    for name in $(printf '%s\n' "${asked[@]}" | awk '!seen[$0]++'); do
        counted "$name" script "$name"
    done
    ends
fi

# Edits that no longer apply are named now, and not after hours. What follows needs what the toolchain's gate builds.
if ! part 'edits --look' start edits/edits.py --look; then
    failed=1
    ends
fi
part 'rt ci' toolchain
read -r passed _ failed _ < <(grep -xE '[0-9]+ passed, [0-9]+ failed' "$work/said" | tail -n 1) || { passed=0 && failed=1; }
[ "$status" -eq 0 ] || ends
if [ -n "$all_edits" ]; then
    counted edits start edits/edits.py --built
else
    counted 'edits --known' start edits/edits.py --built --known
fi
for name in "${names[@]}"; do
    case $name in
        edits | stress | longer) ;;
        *) counted "$name" script "$name" ;;
    esac
done
ends
