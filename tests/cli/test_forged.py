"""Texts that are forged, cut off or as long as they may be: the program answers them as the model in tests/model does.

Each declaration, answer, assignment and run of forged/subjects.py is given with one byte or one line changed, and cut off behind each of
its bytes, under each command that reads it; what stands beside it is whole. forged/extremes.py has texts at the limits. The program must
end with status 0, 1 or 2 and print just what the model answers, and to standard error what belongs to that.
"""

import dataclasses

import commands
import extremes
import programs
import pytest
from changes import cuts, forgeries
from models import ANSWERS, agrees
from standard_error import fits
from subjects import GROUPS, SUBJECTS, TWO
from tables import short

CHANGED = [(forgeries, at, subject) for at, subject in enumerate(SUBJECTS)] + [(cuts, at, subject) for at, subject in enumerate([TWO, GROUPS])]
KINDS = [field.name for field in dataclasses.fields(TWO)]


@pytest.fixture
def judge(program, tmp_path, same):
    """judge(command, texts): fails where the program answers otherwise than the model."""

    def judged(command, texts):
        with programs.files(tmp_path, {str(number): text for number, text in enumerate(texts)}) as places:
            found = programs.ask([program, command, *places])
        asked = "\n".join([f"wqplan {command}", *map(short, texts)])
        wanted = ANSWERS[command](*texts)
        if not agrees(command, texts, wanted, found[:2]):
            same(asked, b"%sstatus %d" % wanted, b"%sstatus %s" % (found.printed, str(found.status).encode()))
        assert found.status in (0, 1, 2), f"{asked}\nstatus {found.status}"
        belongs = fits(found.printed, found.errors, places, command)
        assert belongs, f"{asked}\n{found.printed.decode()}this doesn't belong on standard error:\n{found.errors.decode()}"

    return judged


@pytest.mark.parametrize("kind", KINDS)
@pytest.mark.parametrize("change, subject", [(change, subject) for change, _, subject in CHANGED],
                         ids=[f"{change.__name__}-{at}" for change, at, _ in CHANGED])
def test_changed(judge, change, subject, kind):
    whole = dataclasses.asdict(subject)
    for text in change(whole[kind]):
        for command, texts in commands.given(whole | {kind: text}, kind):
            judge(command, texts)


@pytest.mark.parametrize("command, make", [(command, make) for _, command, make in extremes.cases()],
                         ids=[f"{command}-{what}" for what, command, _ in extremes.cases()])
def test_limits(judge, command, make):
    judge(command, make())
