# Gives the program the rows of the tables beside this file, and compares what it prints:
#
#     main.py PROGRAM
#
# Each row is texts and the answer to them: `PROGRAM book` or `check` must print just that, with the
# exit status that goes with it, and nothing to standard error. It takes a few seconds.

import pathlib
import sys

sys.dont_write_bytecode = True
sys.path.append(str(pathlib.Path(__file__).resolve().parents[2] / "lib"))
import calls  # noqa: E402  (beside this file)
import helpers  # noqa: E402
import judgements  # noqa: E402
import machines  # noqa: E402
from tables import Case, run_cases, text_of  # noqa: E402  (in tests/lib)


def status_of(answer):
    """The status that goes with an answer."""
    last = answer.splitlines()[-1].split()
    first = answer.split()[:3]
    if first[:1] == [b"legal"]:
        return 0
    if first[:1] == [b"refused"] and first[2:] == [b"at"]:
        return 1
    return 2 if last[0] in (b"mistake", b"refused") else 0


def with_helpers(count):
    """The words before the others, with so many helpers."""
    return [] if count is None else ["helpers", str(count)]


def book(table, declaration, assignment, rows, events, answer, count=None):
    """A run of `book`. Its arguments are numbers of texts, but for the rows and the number of helpers, if it is named."""
    texts = [text_of(text) for text in (declaration, assignment, events)]
    return Case(table, [*with_helpers(count), "book", 0, 1, str(rows), 2], texts, answer, status_of(answer))


def kept_book(table, declaration, assignment, rows, made, written, count=None):
    """A run of `book` in which these calls are made, each with what is printed for it, and these rows are written."""
    events = " / ".join(line for line, _ in made)
    lines = [printed for _, printed in made] + [f"rows {len(written)}"] + written
    return book(table, declaration, assignment, rows, events, text_of(" / ".join(lines)), count)


def table_cases():
    """A case for each row of the tables."""
    for declaration, assignment, rows, made, written in calls.BOOKS:
        yield kept_book("books", declaration, assignment, rows, made, written)
    for declaration, assignment, made, written, left in machines.MACHINES:
        yield kept_book("machines", declaration, assignment, machines.ROWS, made, written)
        texts = [text_of(text) for text in (declaration, assignment, " / ".join(written))]
        wanted = text_of(f"legal {len(written)} / {left}")
        yield Case("states of machines", ["check", 0, 1, 2], texts, wanted, 0)
    for declaration, assignment, rows, events, answer in calls.TEXTS:
        yield book("texts of calls", declaration, assignment, rows, events, text_of(answer))
    for declaration, assignment, histories in judgements.JUDGEMENTS:
        for history, answer in histories:
            texts = [text_of(declaration), text_of(assignment), history.encode("latin-1")]
            wanted = text_of(answer)
            yield Case("histories", ["check", 0, 1, 2], texts, wanted, status_of(wanted))
    yield from helper_cases()
    # What a book writes is a legal history.
    table = "rows of books that are judged"
    for declaration, assignment, _, _, written in calls.BOOKS:
        texts = [text_of(declaration), text_of(assignment), text_of(" / ".join(written))]
        wanted = b"legal %d\n" % len(written)
        yield Case(table, ["check", 0, 1, 2], texts, wanted, 0, first_line=True)
    # HEX may have 8,388,608 bytes.
    for count, answer in [(8_388_608, b"legal 0\nnext 0\n"), (8_388_609, b"mistake\n")]:
        texts = [b"", b"", b" " * count]
        yield Case("limits", ["check", 0, 1, 2], texts, answer, status_of(answer))
    # A wrong command line prints nothing to standard output; a file that isn't there is a fault.
    for arguments in [
        [], ["book"], ["book", 0, 0, "1"], ["book", 0, 0, "x", 0], ["book", 0, 0, "01", 0],
        ["book", 0, 0, "4294967296", 0], ["book", 0, 0, "1", 0, 0], ["check", 0, 0],
        ["check", 0, 0, 0, 0], ["judge", 0, 0, 0],
    ]:
        yield Case("command lines", arguments, [b""], b"", 2, complains=True)
    for arguments in [["book", 0, 0, "1", "nowhere"], ["check", "nowhere", 0, 0]]:
        yield Case("faults", arguments, [b""], b"", 3, complains=True)


def helper_cases():
    """A case for each row of the tables with helpers."""
    for count, declaration, assignment, rows, made, written in helpers.BOOKS:
        yield kept_book("books with helpers", declaration, assignment, rows, made, written, count)
        texts = [text_of(declaration), text_of(assignment), text_of(" / ".join(written))]
        wanted = b"legal %d\n" % len(written)
        yield Case("rows of books with helpers that are judged", [*with_helpers(count), "check", 0, 1, 2], texts, wanted, 0,
                   first_line=True)
    for line in helpers.MISTAKES:
        yield book("calls of helpers that are mistakes", *helpers.ONE, 5, line, b"mistake line 1\n", 1)
    for count, declaration, assignment, histories in helpers.JUDGEMENTS:
        for history, answer in histories:
            texts = [text_of(declaration), text_of(assignment), history.encode("latin-1")]
            wanted = text_of(answer)
            yield Case("histories with helpers", [*with_helpers(count), "check", 0, 1, 2], texts, wanted, status_of(wanted))
    for arguments in helpers.WRONG:
        yield Case("command lines with helpers", arguments, [b""], b"", 2, complains=True)


def main(arguments):
    return run_cases("book", arguments, list(table_cases()))


if __name__ == "__main__":
    sys.exit(main(sys.argv[1:]))
