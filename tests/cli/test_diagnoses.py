"""What wqplan says on standard error of wrong texts, and why workqueues can hang, each byte written by hand from tests/DIAGNOSES.md.

A case is a folder of diagnoses/: the files that a command reads (`stdin` is standard input), and beside them `expected`: the command
line, what is printed, and behind an empty line what is on standard error. Where several answers are right, `expected.2` and so on have
the others. What can't be such files is in large.py.

    python3 -m pytest tests/cli/test_diagnoses.py -k forms/flush
    python3 -m pytest tests/cli/test_diagnoses.py --write

The second writes each `expected` that differs anew, from what the program says, and shows the difference. It fails all the same: read
each difference before you commit it, since nobody has written these bytes yet.
"""

import collections
import os
import pathlib
import re
import shlex

import programs
import pytest
from diagnoses import large
from records import records
from statuses import STATUS
from tables import text_of

FOLDER = pathlib.Path(__file__).parent / "diagnoses"

# `texts` has the files of the command by name, standard input as `stdin`; `wanted` what is right: pairs of what goes to the two streams.
Case = collections.namedtuple("Case", "name words texts wanted")

# Of these folders the cases whose standard error is closed or full, too: of each command some.
STREAMS = ("file-names", "limits", "no", "accepted", "places-of-steps", "safe", "to-no-rescuer", "components", "below-no", "replayed", "no-repair")
# How a shell sends the streams elsewhere, and what of standard output and standard error is left in the pipes.
NO_SPACE = b"", b"wqplan: <stdout>: no space left\nfault write\n"
CLOSED = b"", b"wqplan: <stdout>: can't be written\nfault write\n"
SENT = {
    "2>&-": lambda printed, said: (printed, b""),
    "2>/dev/full": lambda printed, said: (printed, b""),
    "2>&1": lambda printed, said: (printed + said, b""),
    ">/dev/full": lambda printed, said: NO_SPACE,
    ">&-": lambda printed, said: CLOSED,
}


def parts(path):
    """What stands in an `expected`: the lines of its head, the last of which is the command line, and what goes to the two streams."""
    head, line, rest = re.fullmatch(rb"((?:#[^\n]*\n)*)\$ ([^\n]*)\n(.*)", path.read_bytes(), re.S).groups()
    printed, _, said = rest.partition(b"\n\n")
    return head + b"$ " + line + b"\n", line, ((printed + b"\n" if said else rest), said)


def case_in(folder):
    paths = sorted(folder.glob("expected*"))
    words = shlex.split(parts(paths[0])[1].decode())[1:]
    texts = {path.name: path.read_bytes() for path in folder.iterdir() if path not in paths}
    return Case(str(folder.relative_to(FOLDER)), words, texts, [parts(path)[2] for path in paths])


def large_case(name):
    texts, words, printed, said = large.CASES[name]
    texts = {file.replace("<stdin>", "stdin"): text_of(text) for file, text in texts.items()}
    return Case(name, words, texts, [(text_of(printed), "".join(line + "\n" for line in said).encode())])


CASES = [case_in(path.parent) for path in sorted(FOLDER.glob("*/*/expected"))] + [large_case(name) for name in large.CASES]


def status_of(case, printed):
    first = printed.split(None, 1)[0].decode() if printed else ""
    # `plan` begins a norescuer text so, and `repair` an assignment.
    is_assignment = first == "norescuer" and case.words[0] == "repair"
    return 3 if not printed else 0 if is_assignment else STATUS[first]


def ask(program, folder, case, streams=""):
    """What goes to the two streams, and the status. The files must be as they were."""
    words = ["bash", "-c", f'exec "$0" "$@" {streams}', program, *case.words] if streams else [program, *case.words]
    texts = {os.path.join(folder, file): text for file, text in case.texts.items() if file != "stdin"}
    for place, text in texts.items():
        pathlib.Path(place).write_bytes(text)
    found = programs.ask(words, cwd=folder, input=case.texts.get("stdin", b""))
    for place, text in texts.items():
        assert pathlib.Path(place).read_bytes() == text, f"{place} was changed"
    return (found.printed, found.errors), found.status


def session(streams, status):
    """Both streams and the status, to be compared."""
    return b"%sstandard error:\n%sstatus %s" % (*streams, str(status).encode())


def test_each_case_stands_once():
    asked = collections.defaultdict(list)
    for case in CASES:
        asked[*case.words, *sorted(case.texts.items())].append(case.name)
    assert [names for names in asked.values() if len(names) > 1] == []


def test_each_number_has_a_case():
    words = {tuple(case.wanted[0][0].split()[:2]) for case in CASES}
    found = {number.decode() for word, number in (pair for pair in words if len(pair) == 2) if word in (b"refused", b"no")}
    assert {row["number"] for row in records("numbers.txt") if "number" in row} - found == set()


@pytest.mark.parametrize("case", CASES, ids=lambda case: case.name)
def test_diagnosis(program, tmp_path, same, request, case):
    found, status = ask(program, tmp_path, case)
    wanted = found if found in case.wanted else case.wanted[0]
    asked = "\n".join([f"{case.name}: wqplan {shlex.join(case.words)}", *(f"{file}: {text[:400]!r}" for file, text in case.texts.items())])
    path = FOLDER / case.name / "expected"
    if found != wanted and path.exists() and request.config.getoption("--write"):
        path.write_bytes(parts(path)[0] + found[0] + (b"\n" + found[1] if found[1] else b""))
        asked += f"\n{path} is written anew: read this before you commit it"
    same(asked, session(wanted, status_of(case, wanted[0])), session(found, status))


@pytest.mark.parametrize("streams", SENT)
@pytest.mark.parametrize("case", [case for case in CASES if case.name.startswith(tuple(f"{folder}/" for folder in STREAMS))],
                         ids=lambda case: case.name)
def test_streams(program, tmp_path, same, case, streams):
    found, status = ask(program, tmp_path, case, streams)
    answers = [(SENT[streams](*wanted), status_of(case, b"" if streams.startswith(">") else wanted[0])) for wanted in case.wanted]
    wanted = (found, status) if (found, status) in answers else answers[0]
    same(f"{case.name}: wqplan {shlex.join(case.words)} {streams}", session(*wanted), session(found, status))
