#!/usr/bin/env bash
# Tests edits.py, beside this file, on a repository of two small crates: what it says of edits that are refused, and of each kind that isn't,
# though they share checks: an edit that isn't refused among others that are, two of one function, a caller's beside its callee's;
# that one at a time they come to the same; which edits no longer apply; which are the known ones; what it does about the library
# below; and that an interrupt leaves nothing behind. It needs no program, and takes a minute on four processors.
set -u
. "$(dirname "$0")/../lib/script.bash"
script=$(realpath -- "$(dirname "$0")/edits.py")
work=$(mktemp -d)
trap 'rm -rf -- "$work"' EXIT
export TMPDIR="$work/tmp" RT_JOBS="${RT_JOBS:-$(nproc)}"
mkdir -p "$work/tmp" "$work/repository"
cd "$work/repository"

# The toolchain, with a `rattle` that notes of each check how many functions it is to look at (0 stands for all).
kit=$(dirname "$(rt doc)")
mkdir -p "$work/bin" "$work/kit/bin"
ln -s "$kit"/* "$work/kit/" 2>/dev/null
cat >"$work/kit/bin/rattle" <<END
#!/usr/bin/env bash
count=0
for word; do [ "\$word" != --only ] || count=\$((count + 1)); done
[ "\$1" != check ] || echo "\$count" >>"$work/checks"
exec "$kit/bin/rattle" "\$@"
END
printf '#!/bin/sh\necho %s/kit/START-HERE.md\n' "$work" >"$work/bin/rt"
chmod +x "$work/kit/bin/rattle" "$work/bin/rt"
PATH=$work/bin:$PATH

# edit FOLDER NAME OLD NEW ..: an edit of src/lib.rt.
edit() {
    local file="$1/$2.edit"
    mkdir -p "$1"
    echo 'file: src/lib.rt' >"$file"
    shift 2
    while [ $# -gt 0 ]; do
        printf 'old: %s\nnew: %s\n' "$1" "$2" >>"$file"
        shift 2
    done
}

printf 'low:\nhigh: low\n' >crates.txt
mkdir -p crates/low/src crates/high/src crates/high/proofs/eight
cat >crates/low/src/lib.rt <<'END'
#![tactic(auto)]

ghost use Rattle.std.specs.Prelude.{◌≡◌};

pub fn two() -> u32
    ensures { result ≡ 2 }
{
    2
}
END
cat >crates/high/src/lib.rt <<'END'
#![tactic(auto)]

ghost use Rattle.std.specs.Prelude.{◌≡◌, ◌+◌, ◌≤◌};

const THREE: u32 = 3;

/// It is called by `five`.
fn three() -> u32
    ensures { result ≡ 3 }
{
    THREE
}

pub fn five() -> u32
    ensures { result ≡ 5 }
{
    let two = low::two();
    two + three()
}

pub fn same(number: u32) -> u32
    ensures { result ≡ number }
{
    number
}

pub fn larger(a: u32, b: u32) -> u32
    ensures first { a ≤ result }
    ensures second { b ≤ result }
{
    if a < b { b } else { a }
}

pub fn seven() -> u32
    ensures { result ≡ 7 }
{
    7
}

/// It has a proof file, which names its only goal.
pub fn eight() -> u32
    ensures { result ≡ 8 }
{
    8
}

/// No edit changes it.
pub fn nine() -> u32
    ensures { result ≡ 9 }
{
    9
}
END
cat >crates/high/proofs/eight/Answers.antt <<'END'
use Rattle.std.proofs.Common.{refl}
use Rattle.high.proofs.eight.Goals as goal

pub returns : goal.returns
returns c = refl
END

edits=tests/edits/high
edit $edits a_refused_one '    two + three()' '    two + two'
edit $edits b_refused_too 'if a < b { b } else { a }' 'if a < b { a } else { b }'
edit $edits c_still_proved '    number' '    let other = number; other'
edit $edits d_changes_nothing '    two + three()' '    two + three() // five'
edit $edits e_does_not_compile '    number' '    nobody'
edit $edits f_breaks_a_callee '    THREE' '    THREE + 1' '    let two = low::two();' '    let two: u32 = low::two();'
edit $edits g_is_gone '    two + four()' '    two'
edit $edits h_is_of_a_constant 'const THREE: u32 = 3;' 'const THREE: u32 = 4;'
edit crates/high/must-fail i_is_gone_too '    two + four()' '    two'
edit $edits l_refused_beside_its_caller '    THREE' '    THREE + 1'
edit $edits m_waits_for_a_callee '    let two = low::two();' '    let two: u32 = low::two();'
edit $edits n_breaks_that_callee '    THREE' '    THREE + 2'
edit $edits o_loses_a_name '    8' '    if THREE < 4 { 8 } else { 8 }'
edit $edits/known j_is_gone_and_known '    two + four()' '    two'
edit $edits/known k_refused_and_known '    7' '    8'

# said [FLAG ..]: what the script says, without line numbers, and its status.
said() {
    python3 "$script" "$@" 2>&1 | sed -E 's/:[0-9]+: .*/: ../; s/(only a callee: five: ).*/\1../'
    echo "status ${PIPESTATUS[0]}"
}

is 'what no longer applies' "$(cat <<'END'
crates/high/must-fail/i_is_gone_too.edit: its old text stands in src/lib.rt 0 times
tests/edits/high/d_changes_nothing.edit: it changes nothing
tests/edits/high/g_is_gone.edit: its old text stands in src/lib.rt 0 times
tests/edits/high/known/j_is_gone_and_known.edit: its old text stands in src/lib.rt 0 times
edits: 11 apply, 4 do not
status 1
END
)" "$(said --look)"

is 'what came of each' "$(cat <<'END'
edits: building the library low
high/a_refused_one: refused: five: returns
high/b_refused_too: refused: larger: returns-else-a-b-clause-first, returns-then-a-b-clause-second
high/c_still_proved: NOT REFUSED: same is still proved
high/d_changes_nothing: it changes nothing
high/e_does_not_compile: does not compile: src/lib.rt: ..
high/f_breaks_a_callee: only a callee: five: ..
high/g_is_gone: its old text stands in src/lib.rt 0 times
high/h_is_of_a_constant: refused: three: returns
high/l_refused_beside_its_caller: refused: three: returns
high/m_waits_for_a_callee: NOT REFUSED: five is still proved
high/n_breaks_that_callee: refused: three: returns
high/o_loses_a_name: only names: the proof of eight names what the edit took away: returns
high/j_is_gone_and_known: its old text stands in src/lib.rt 0 times
high/k_refused_and_known: refused: seven: returns
edits: 6 passed, 8 failed
status 1
END
)" "$(said high)"

# a, b, c, k, l and o share a check, with the function that has to be proved. c and o, which it doesn't refuse, are tried alone. In the next
# one, e doesn't compile: e is tried alone, and m and n without it; then m, which waits for what n edits. f and h aren't of one function.
is 'what shares a check' '0 0 2 2 2 2 3 4 7' "$(sort -n "$work/checks" | paste -sd ' ')"

rm $edits/[c-hl-o]_*.edit $edits/known/j_*.edit crates/high/must-fail/*.edit
is 'the known ones' "$(cat <<'END'
high/k_refused_and_known: refused: seven: returns
edits: 1 passed, 0 failed
status 0
END
)" "$(said --known --built)"
rm -r $edits/known
is 'where there is none' "$(cat <<'END'
edits: there is no edit to try
status 1
END
)" "$(said --known --built)"

is 'one at a time' "$(cat <<'END'
high/a_refused_one: refused: five: returns
high/b_refused_too: refused: larger: returns-else-a-b-clause-first, returns-then-a-b-clause-second
edits: 2 passed, 0 failed
status 0
END
)" "$(said high --alone)"

python3 "$script" high >"$work/out" 2>&1 &
pid=$!
until [ -n "$(ls "$work/tmp")" ] || ! kill -0 $pid; do sleep 0.1; done
sleep 1
running=$(pgrep -P $pid)
kill -TERM $pid
wait $pid
is 'the status after an interrupt' 143 $?
is 'what an interrupt leaves' '' "$(ls "$work/tmp"; cat "$work/out")"
is 'what runs after an interrupt' gone "$(kill -0 $running 2>/dev/null && echo running || echo gone)"

sed -i 's/^    2$/    3/' crates/low/src/lib.rt
is 'a library that is out of date, and not proved' 'status 1' "$(said high | grep -v 'building the library low\|the library low isn.t proved')"
is 'a library that is out of date, and taken as it is' 'status 0' "$(said high --built | tail -n 1)"

counts_of edits_test
