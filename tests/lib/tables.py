# Gives a program the cases that tables of texts and answers make, and compares what it prints: for tests/runtime.

import collections
import concurrent.futures
import dataclasses
import os
import re
import resource
import tempfile

from programs import ask, counts_of, files, is_there  # beside this file

WORKERS = 2

# Where so many runs have taken too long, the rest aren't made.
MOST_SLOW = 4
TOO_SLOW = "it took too long"


@dataclasses.dataclass
class Case:
    """A call of the program, and its answer.

    A number among the arguments stands for the file that holds the text of this number.
    """

    table: str
    arguments: list
    texts: list
    answer: bytes
    status: int
    first_line: bool = False  # only the first line that is printed is compared
    complains: bool = False  # something goes to standard error, and else nothing
    memory: int = 0  # how much address space the program gets, where it isn't all there is
    stack: int = 0  # how large its stack may be, where that isn't as usual
    is_pattern: bool = False  # what is printed begins as the answer, a regular expression, says


def text_of(row):
    """The bytes of a text as the tables write it: bytes, or lines that ` / ` parts."""
    if isinstance(row, bytes):
        return row
    return row.replace(" / ", "\n").encode("latin-1") + b"\n" if row else b""


def short(text):
    return repr(text) if len(text) <= 400 else f"{text[:400]!r}.. ({len(text)} bytes)"


def limiter(memory, stack):
    """What limits the address space and the stack of a process to so many bytes, where they are to be limited."""
    limits = [(which, size) for which, size in [(resource.RLIMIT_AS, memory), (resource.RLIMIT_STACK, stack)] if size]
    if not limits:
        return None

    def limit():
        for which, size in limits:
            resource.setrlimit(which, (size, size))

    return limit


def failure(program, folder, number, given):
    """None where the program answers a case as it should, or what differs."""
    with files(folder, {f"{number}.{at}": text for at, text in enumerate(given.texts)}) as places:
        words = [places[word] if isinstance(word, int) else word for word in given.arguments]
        found = ask([program, *words], cwd=folder, preexec_fn=limiter(given.memory, given.stack))
    if found.is_late():
        return TOO_SLOW
    printed = found.printed.partition(b"\n")[0] + b"\n" if given.first_line else found.printed
    if given.is_pattern:
        is_right = re.match(given.answer, printed) is not None
    else:
        is_right = printed == given.answer
    if is_right and found.status == given.status and bool(found.errors) == given.complains:
        return None
    printed = f"status {found.status}, {short(printed)}, standard error {short(found.errors)}"
    return f"{printed}; wanted status {given.status}, {short(given.answer)}"


def run_cases(name, arguments, cases):
    """Gives the cases to the program that is the only argument, and gives the exit status.

    It prints the cases that fail, and a line for each table.
    """
    if not is_there(name, *arguments):
        return 1
    program = os.path.realpath(arguments[0])
    passed = collections.Counter()
    failed = collections.Counter()
    with tempfile.TemporaryDirectory(prefix=f"{name}_") as folder:
        slow = []

        def tried(number):
            if len(slow) >= MOST_SLOW:
                return "it wasn't run, since others took too long"
            why = failure(program, folder, number, cases[number])
            slow.extend([number] if why == TOO_SLOW else [])
            return why

        pool = concurrent.futures.ThreadPoolExecutor(WORKERS)
        for given, why in zip(cases, pool.map(tried, range(len(cases)))):
            (failed if why else passed)[given.table] += 1
            if why:
                texts = ", ".join(short(text) for text in given.texts)
                print(f"FAILED  {given.table}: {given.arguments} {texts}: {why}")
    for table in dict.fromkeys(given.table for given in cases):
        if failed[table]:
            print(f"FAILED  {table}: {failed[table]} of {failed[table] + passed[table]} rows")
        else:
            print(f"ok      {table}: {passed[table]} rows")
    return counts_of(name, passed.total(), failed.total())
