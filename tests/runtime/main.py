# Gives the program the rows of the tables beside this file, and compares what it prints:
#
#     main.py TEST_RUNTIME
#
# Each row is texts and the answer to them: `test_runtime calls`, `crew`, `report` or `script` must print just that, with the
# exit status that goes with it, and nothing to standard error. It takes some seconds. A run that takes too long is
# ended, and has failed: a wake-up may be lost.

import pathlib
import sys

sys.dont_write_bytecode = True
sys.path.append(str(pathlib.Path(__file__).resolve().parents[1] / "lib"))
import calls  # noqa: E402  (beside this file)
import crews  # noqa: E402
import helpers  # noqa: E402
from tables import Case, run_cases, text_of  # noqa: E402  (in tests/lib)

# A stack that is too small for one call deeper with each of 2,306 threads, in bytes.
SMALL_STACK = 256 << 10

# A chain of as many items as a runtime may have lanes.
ITEMS = [f"item i{k}" for k in range(256)]
FLUSHES = [f"flush i{k} i{k - 1}" for k in range(1, 256)]
CHAIN = (" / ".join(ITEMS + FLUSHES), " / ".join(f"wq {k} i{k}" for k in range(256)))

# Address space for the program and for some of the threads of a chain's lanes, in bytes.
SOME_THREADS = 128 << 20

# The same where the seats of 2,304 rescuers and helpers take more than that.
SEATS_AND_SOME_THREADS = 512 << 20


def status_of(answer):
    """The status that goes with an answer of `calls`."""
    last = answer.splitlines()[-1].split() if answer else [b""]
    return 2 if last[0] in (b"mistake", b"refused") else 0


def one_thread(table, declaration, assignment, rows, lines, answer, front=()):
    """A run of `calls`. Its arguments are numbers of texts, but for the rows and for what stands before all."""
    texts = [text_of(text) for text in (declaration, assignment, lines)]
    return Case(table, [*front, "calls", 0, 1, str(rows), 2], texts, answer, status_of(answer))


def session(table, declaration, assignment, rows, made, counts, written, front=()):
    """A run of `calls` by its calls, each with its answer, and by what is handed back at the end: a book that `destroy` has closed,
    and nothing else."""
    lines = " / ".join(line for line, _ in made)
    printed = [f"{line} {answer}" for line, answer in made]
    if counts is not None:
        is_closed = any(line == "destroy" and answer == "ok" for line, answer in made)
        printed += [*handed_back(counts, written), f"closed {'true' if is_closed else 'false'}"]
    return one_thread(table, declaration, assignment, rows, lines, text_of(" / ".join(printed)), front)


def handed_back(counts, rows):
    """The lines that are printed of a runtime that is closed."""
    yield "agree true"
    for item, kind, answer, count in counts:
        yield f"made {item} {kind} {answer} {count}"
    yield f"total {sum(count for *_, count in counts)}"
    yield f"rows {len(rows)}"
    yield from rows


def table_cases():
    """A case for each row of the tables."""
    for row in calls.RUNTIMES:
        yield session("runtimes", *row)
    for declaration, assignment, rows, lines, answer in calls.TEXTS:
        yield one_thread("texts of calls", declaration, assignment, rows, lines, text_of(answer))
    for table, command, given in [("crews", "crew", crews.CREWS), ("reports", "report", crews.REPORTS)]:
        for declaration, assignment, rows, deeds, answer, status in given:
            texts = [text_of(text) for text in (declaration, assignment, deeds)]
            yield Case(table, [command, 0, 1, str(rows), 2], texts, text_of(answer), status)
    for declaration, assignment, rows, deeds, answer in crews.MEETINGS:
        texts = [text_of(text) for text in (declaration, assignment, deeds)]
        pattern = answer.replace(" / ", "\n").encode("latin-1")
        yield Case("meetings", ["crew", 0, 1, str(rows), 2], texts, pattern, 0, is_pattern=True)
    for declaration, assignment, rows, pattern in crews.SCRIPTS:
        texts = [text_of(text) for text in (declaration, assignment)]
        yield Case("scripts", ["script", 0, 1, str(rows)], texts, pattern.encode("latin-1"), 0, is_pattern=True)
    for declaration, assignment, rows, acts, pattern, status in crews.ACTS:
        texts = [text_of(text) for text in (declaration, assignment, acts)]
        yield Case("scripts", ["script", 0, 1, str(rows), 2], texts, pattern.encode("latin-1"), status, is_pattern=True)
    for declaration, assignment, rows, answer, status in [
        (*crews.ONE, 16_777_217, "refused 68", 2),
        ("item a / flush a a", "wq 0 a", 10, "refused 67", 2),
    ]:
        texts = [text_of(text) for text in (declaration, assignment)]
        yield Case("scripts", ["script", 0, 1, str(rows)], texts, text_of(answer), status)
    # Not as many threads can be made as there are lanes and callers. All is handed back but what the first
    # thread took that couldn't be made, and the process ends.
    for deeds, answer in [
        (" / ".join(["body"] * 256), "refused 22 seats 255 bodies 255 callers 0"),
        (" / ".join(["body"] * 256 + ["caller / queue i0"]), "refused 22 seats 256 bodies 255 callers 1"),
    ]:
        texts = [text_of(text) for text in (*CHAIN, deeds)]
        yield Case("threads that can't be made", ["crew", 0, 1, "1000", 2], texts, text_of(answer), 1,
                   memory=SOME_THREADS)
    yield from helper_cases()
    # A wrong command line prints nothing to standard output; a file that isn't there is a fault.
    for words in [
        [], ["go", 0, 0, "1", 0],
        ["helpers"], ["helpers", "1"], ["helpers", "x", "calls", 0, 0, "1", 0], ["helpers", "256", "calls", 0, 0, "1", 0],
        ["helpers", "01", "calls", 0, 0, "1", 0], ["calls", "helpers", "1", 0, 0, "1", 0], ["helpers", "1", "helpers", "1", "script", 0, 0, "1"],
        ["helpers", "9", "book", 0, 0, "1", 0], ["helpers", "9", "check", 0, 0, 0],
        ["calls"], ["calls", 0, 0, "1"], ["calls", 0, 0, "x", 0], ["calls", 0, 0, "01", 0],
        ["calls", 0, 0, "4294967296", 0], ["calls", 0, 0, "1", 0, 0],
        ["crew"], ["crew", 0, 0, "1"], ["crew", 0, 0, "x", 0], ["crew", 0, 0, "1", 0, 0],
        ["report"], ["report", 0, 0, "1"], ["report", 0, 0, "x", 0], ["report", 0, 0, "1", 0, 0],
        ["script"], ["script", 0, 0], ["script", 0, 0, "x"], ["script", 0, 0, "1", 0, 0],
    ]:
        yield Case("command lines", words, [b""], b"", 2, complains=True)
    for words in [
        ["calls", 0, 0, "1", "nowhere"], ["calls", "nowhere", 0, "1", 0], ["crew", 0, 0, "1", "nowhere"],
        ["report", 0, 0, "1", "nowhere"],
        ["script", 0, "nowhere", "1"], ["script", 0, 0, "1", "nowhere"],
    ]:
        yield Case("faults", words, [b""], b"", 3, complains=True)


def helper_cases():
    """A case for each row of the tables with helpers."""
    for count, *row in helpers.RUNTIMES:
        yield session("runtimes with helpers", *row, front=["helpers", str(count)])
    for count, declaration, assignment, rows, lines, answer in helpers.TEXTS:
        yield one_thread("texts of calls with helpers", declaration, assignment, rows, lines, text_of(answer), ["helpers", str(count)])
    for table, command, given in [("crews with helpers", "crew", helpers.CREWS), ("reports with helpers", "report", helpers.REPORTS)]:
        for count, declaration, assignment, rows, deeds, answer, status in given:
            texts = [text_of(text) for text in (declaration, assignment, deeds)]
            yield Case(table, ["helpers", str(count), command, 0, 1, str(rows), 2], texts, text_of(answer), status)
    for count, declaration, assignment, rows, deeds, answer in helpers.MEETINGS:
        texts = [text_of(text) for text in (declaration, assignment, deeds)]
        pattern = answer.replace(" / ", "\n").encode("latin-1")
        yield Case("meetings with helpers", ["helpers", str(count), "crew", 0, 1, str(rows), 2], texts, pattern, 0, is_pattern=True)
    for count, declaration, assignment, rows, pattern in helpers.SCRIPTS:
        texts = [text_of(text) for text in (declaration, assignment)]
        yield Case("scripts with helpers", ["helpers", str(count), "script", 0, 1, str(rows)], texts, pattern.encode("latin-1"), 0,
                   is_pattern=True)
    # As many threads as a runtime may have: 256 workqueues, each with eight helpers. They are all made, or not enough of them can be.
    every = " / ".join(["body"] * 256 * 9)
    texts = [text_of(text) for text in (*CHAIN, f"{every} / caller / queue i255 / caller / queue i0")]
    for stack in [0, SMALL_STACK]:
        yield Case("2,306 threads", ["helpers", "8", "crew", 0, 1, "100000", 2], texts, rb"finished 2 faults 0\n", 0, is_pattern=True,
                   stack=stack)
    yield Case("threads that can't be made", ["helpers", "8", "crew", 0, 1, "1000", 2], [text_of(text) for text in (*CHAIN, every)],
               text_of("refused 22 seats 2303 bodies 2303 callers 0"), 1, memory=SEATS_AND_SOME_THREADS)


def main(arguments):
    return run_cases("runtime", arguments, list(table_cases()))


if __name__ == "__main__":
    sys.exit(main(sys.argv[1:]))
