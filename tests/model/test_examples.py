"""The model answers each row of tests/cli/rows that stands there by hand as the row says, but for the longest ones."""

import pytest
from models import ANSWERS, agrees
from test_rows import BY_HAND, name

# The rows of these tables take the model a second each. What they are of is among the cases at the limits of test_program.py.
LONG = ("limits of certificates", "limits of runs")
ROWS = [row for row in BY_HAND if not row.complains and row.table not in LONG]


@pytest.mark.parametrize("row", ROWS, ids=name)
def test_model_answers_the_row(row):
    names = [word.encode() for word in row.words[1:] if isinstance(word, str) and word != "--" and row.words[0] != "run"]
    texts = [*row.texts, *names]
    printed, status = ANSWERS[row.words[0]](*texts)
    printed = printed.partition(b"\n")[0] + b"\n" if row.is_long else printed
    assert (printed in row.answers, status) == (True, row.status), printed[:2_000].decode()
    assert all(agrees(row.words[0], texts, (printed, status), (answer, status)) for answer in row.answers)
