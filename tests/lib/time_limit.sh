#!/usr/bin/env bash
# Shows that a program which hangs is ended, with what it started (programs.py and script.bash, beside this file), and that no
# script of tests/ starts a program without a limit of time. It needs no program, and takes seconds.
set -u
cd -- "$(dirname "$0")/.." || exit 1
. lib/script.bash
export PYTHONPATH=lib

is 'bash: the limit is that of Python' "$(python3 -B -c 'import programs; print(programs.SECONDS_PER_RUN)')" "$seconds"
is 'bash: a program that ends' '3 read' "$(limited bash -c 'exit 3'; echo "$? $(echo read | limited cat)")"
seconds=0.2
# What hangs holds the standard output of the script open, so that this comes to its end only where that is ended, too.
is 'bash: a program that hangs, with what it started' 124 "$(limited bash -c 'sleep 600 & wait'; echo $?)"
is "bash: a program that doesn't heed" 137 "$(limited bash -c 'trap "" TERM; while :; do sleep 600; done'; echo $?)"
judged=$(python3 -B - <<'END'
import ast
import pathlib
import programs

# A program that ends, and one that hangs with what it started.
ended = programs.run(["bash", "-c", "cat; exit 3"], input=b"read", capture_output=True)
print((ended.stdout, ended.stderr, ended.returncode) == (b"read", b"", 3), "a program that ends")
print(programs.run(["cat"], capture_output=True).stdout == b"", "a program without an input has nothing to read")
try:
    programs.run(["bash", "-c", "echo begun; sleep 600 & wait"], capture_output=True, timeout=0.2)
    print(False, "a program that hangs, with what it started")
except programs.TookTooLong as late:
    print(late.stdout == b"begun\n", "a program that hangs, with what it started")

# The calls by which a program is started. Those of `os` have no limit; who uses them sets one in another way.
STARTS = {"run", "call", "check_call", "check_output", "Popen"}
for path in sorted(pathlib.Path().rglob("*.py")):
    found = [
        call.lineno for call in ast.walk(ast.parse(path.read_text())) if isinstance(call, ast.Call)
        if isinstance(call.func, ast.Attribute) and call.func.attr in STARTS
        if isinstance(call.func.value, ast.Name) and call.func.value.id == "subprocess"
        if not any(word.arg == "timeout" for word in call.keywords)
    ]
    # (edits.py starts the toolchain alone, whose proofs take what they take)
    if path.name not in ("programs.py", "edits.py"):
        print(not found, f"{path} starts each program with a limit", *(f"(not in line {line})" for line in found))
END
)
is 'python: all is looked at' 0 "$?"
while read -r verdict name; do
    is "python: $name" True "$verdict"
done <<<"$judged"
is 'bash: no script of tests/ calls a program without a limit' '' "$(grep -rnE --include='*.sh' '(^|[;&|(!]) *"\$(program|driver)"' .)"

counts_of time_limit
