# Puts two builds of the program beside each other:
#
#     beside.py [--sure] OLD NEW [SEED] [CASES]
#
# Both are asked the same: of each command the cases at the limits of docs/FORMAT.md and at each place of small texts, and so many
# random ones (cases.py). What they print on standard output and on standard error, and their statuses, must be the same. A case that
# differs is shown. It is for changes that shall change no answer: it knows nothing of what is right. With --sure no case has an
# unsure line, so OLD may be a program that knows none.

import concurrent.futures
import os
import pathlib
import sys
import tempfile

sys.dont_write_bytecode = True
sys.path.append(str(pathlib.Path(__file__).resolve().parents[1] / "lib"))
import programs  # noqa: E402  (in tests/lib)
from cases import COMMANDS, cases  # noqa: E402  (beside this file)
from command_line import seed_and_counts  # noqa: E402
from commands import TEXTS_OF  # noqa: E402
from tables import short  # noqa: E402

DEFAULT_SEED = "1"
DEFAULT_CASES = 4_000
HELPERS = [[], ["2"], ["0"]]
WORKERS = os.cpu_count() or 1
MOST_SHOWN = 3


def names_behind(command, texts):
    """The names of a command line, which are behind the texts of a case."""
    names = [os.fsdecode(name) for name in texts[len(TEXTS_OF[command]):]]
    return ["--", *names] if any(name.startswith("-") and name != "-" for name in names) else names


def ask_both(old, new, command, number, texts):
    """What both print for a case, on both streams, and their statuses."""
    words = HELPERS[number % len(HELPERS)] if command == "run" else []
    with tempfile.TemporaryDirectory() as folder, programs.files(folder, dict(zip(TEXTS_OF[command], texts))) as places:
        asked = [command, *places, *words, *names_behind(command, texts)]
        return [programs.ask([program, *asked]) for program in (old, new)]


def look_at(old, new, command, seed, count, sure):
    """How many cases of a command there are, and those that differ."""
    with concurrent.futures.ThreadPoolExecutor(WORKERS) as pool:
        asked = list(enumerate(cases(command, seed, count, sure=sure)))
        answers = pool.map(lambda case: ask_both(old, new, command, *case), asked)
        return len(asked), [(texts, *both) for (_, texts), both in zip(asked, answers) if both[0] != both[1]]


def show(command, texts, *both):
    print("\n".join([f"wqplan {command}", *map(short, texts)]))
    for which, found in zip(("old", "new"), both):
        print(f"{which}: status {found.status}\n{short(found.printed)}\nstandard error:\n{short(found.errors)}")


def main(arguments):
    sure = arguments[:1] == ["--sure"]
    arguments = arguments[sure:]
    found = seed_and_counts(arguments[2:], DEFAULT_SEED, DEFAULT_CASES)
    if len(arguments) < 2 or not found:
        print("usage: beside.py [--sure] OLD NEW [SEED] [CASES]", file=sys.stderr)
        return 2
    (seed, count), (old, new) = found, map(os.path.realpath, arguments[:2])
    total, differing = 0, 0
    for command in COMMANDS:
        looked_at, differ = look_at(old, new, command, seed, count, sure)
        print(f"beside: {command}: {looked_at} cases, {len(differ)} differ", flush=True)
        for case in differ[:MOST_SHOWN]:
            show(command, *case)
        total, differing = total + looked_at, differing + len(differ)
    print(f"beside: {total} cases, {differing} differ")
    return 1 if differing else 0


if __name__ == "__main__":
    sys.exit(main(sys.argv[1:]))
