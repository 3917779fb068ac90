#!/usr/bin/env bash
# Shows that a view and a word that are used when their text is gone are refused, and rows when their book is, and only
# then.
#
# It takes some seconds and needs nothing that is built. The sample is checked in
# a scratch tree that has only the sources of the libraries: there the check begins with a pass over all sources, which
# finds such errors, and ends after it if there are any. The last function of the sample is always refused, so no library
# is ever proved here.
set -euo pipefail

cd -- "$(dirname "$0")/../.." || exit 1
sample=tests/cli/outlives.rt.txt
. tests/lib/script.bash
if ! command -v rt >/dev/null; then
    skipped 'outlives: rt, the toolchain of Rattle, is not on the PATH'
    exit 0
fi
# A check that reads the sources of all libraries takes longer than a program of the tests.
seconds=600

libraries=(wq_text wq_buckets wq_decl wq_items wq_groups wq_core wq_rows wq_history)

scratch=$(mktemp -d)
trap 'rm -rf "$scratch"' EXIT
mkdir -p "$scratch/crates/outlives/src"
cp HANDLES "$scratch/"
for library in "${libraries[@]}"; do
    tar -c --exclude="crates/$library/out" "crates/$library" | tar -x -C "$scratch"
    grep "^$library:" crates.txt >>"$scratch/crates.txt"
done
echo "outlives: ${libraries[*]}" >>"$scratch/crates.txt"

# Checks the sample that comes on standard input. Just these lines must be refused, since what they let go is lent.
expect() {
    local wanted=$1 output found errors
    cat >"$scratch/crates/outlives/src/lib.rt"
    output=$(cd "$scratch/crates/outlives" && limited rt check --only= 2>&1) || true
    found=$(sed -n 's/^src\/lib\.rt:\([0-9]*\):.*error\[borrow-e0505\].*/\1/p' <<<"$output")
    errors=$(grep -c 'error\[' <<<"$output" || true)
    if [[ -n $wanted && $found == "$wanted" && $errors -eq $(wc -l <<<"$wanted") ]]; then
        echo "ok: refused in lines" $wanted
    else
        echo "FAILED: not just lines" $wanted "are refused:"
        echo "$output"
        failed=1
    fi
}

# The lines that let the text, the book or the bytes go before what they lent is used.
lines=$(grep -n ' drop(.*);$' "$sample" | sed 's/:.*//')
last=$(tail -n 1 <<<"$lines")
expect "$lines" <"$sample"
# The others are left blank, so that only the bytes are gone.
expect "$last" < <(sed "$last!s/^ *drop(.*);\$//" "$sample")
exit "$failed"
