"""What standard error says of unsure lines, each byte written by hand in tests/cli/diagnoses/unsure: the model has the same words.

Of a refusal the model has only the answer: it knows no hints.
"""

import pathlib
import shlex

import notes
import pytest
import reasons
import told_changes
import unrescued
from commands import TEXTS_OF
from models import ANSWERS, agrees
from test_diagnoses import parts

FOLDER = pathlib.Path(__file__).resolve().parents[1] / "cli" / "diagnoses" / "unsure"
BEHIND_NO = 3  # lines of the diagnosis of a `no`


def case_in(folder):
    """The command, the files and their texts, the names behind them, and what goes to the two streams: the answers that are right."""
    paths = sorted(folder.glob("expected*"))
    _, command, *words = shlex.split(parts(paths[0])[1].decode())
    count = len(TEXTS_OF[command])
    files, names = words[:count], [word.encode() for word in words[count:]]
    return command, [file.encode() for file in files], [(folder / file).read_bytes() for file in files], names, [parts(path)[2] for path in paths]


def own_words(command, files, texts, names, printed):
    if command == "repair":
        return told_changes.said_of(files, texts, names, printed)
    return b"".join(of(command, files, texts, printed) for of in (reasons.said_of, notes.said_of, unrescued.said_of))


@pytest.mark.parametrize("folder", sorted(FOLDER.iterdir()), ids=lambda folder: folder.name)
def test_model_says_the_same(folder):
    command, files, texts, names, wanted = case_in(folder)
    printed, status = ANSWERS[command](*texts, *names)
    if status == 2:
        assert [printed] == [answer for answer, _ in wanted]
        return
    said = own_words(command, files, texts, names, printed)
    shown = [(answer, b"".join(words.splitlines(keepends=True)[BEHIND_NO:]) if answer.startswith(b"no ") else words) for answer, words in wanted]
    assert (printed, said) in shown, f"{printed.decode()}\n{said.decode()}"
    for answer, words in shown:
        assert agrees(command, texts, (printed, status), (answer, status)), answer.decode()
        if command == "repair":
            assert told_changes.wrong_with(files, texts, names, answer, words) is None
        else:
            behind = notes.said_of(command, files, texts, answer) + unrescued.said_of(command, files, texts, answer)
            assert words.endswith(behind)
            assert reasons.wrong_with(command, files, texts, answer, words[:len(words) - len(behind)]) is None
