"""The verdicts in survey/, and the tables of its page that count them."""

import collections
import pathlib

import pytest

from csource.survey import CANNOT, REAL, UNREAD, Survey, file_of

FOLDER = pathlib.Path(__file__).parents[2] / "survey"
FILES = ("linux-6.1.txt", "linux-6.12.txt")
KINDS = ("no way", "no circle", "nothing there", "elsewhere")
# What is to be read of each kernel: where the wait is.
READ = ("block", "drivers/block", "drivers/md", "drivers/nvme", "drivers/scsi", "drivers/target")
READ += ("drivers/ufs", "fs", "mm", "net/sunrpc", "net/ceph")
PAGE = (FOLDER / "README.md").read_text()


@pytest.fixture(params=FILES)
def name(request):
    return request.param


@pytest.fixture
def survey(name):
    return Survey.read(FOLDER / name)


def table(first, column):
    """What stands in a column of the table whose first row begins so, as numbers, by what its row begins with."""
    lines = PAGE[PAGE.index(f"| {first} |") :].split("\n\n")[0].splitlines()
    rows = [[cell.strip(" *") for cell in line.strip("|").split("|")] for line in lines]
    at = rows[0].index(column)
    return {row[0]: int(row[at]) for row in rows[2:]}


def kind(verdict):
    """As the table says it."""
    return f"{verdict.word}: {verdict.why.partition(': ')[0]}" if verdict.word == CANNOT else verdict.word


def test_counts(name, survey):
    """The first table of the page counts the rows of each verdict, and what can't happen by its kinds."""
    counted = collections.Counter(kind(verdict) for verdict in survey.verdicts.values())
    assert table("Waits that may hang", name) == {**counted, "all": len(survey.verdicts)}


def test_unread_counts(name, survey):
    """The second one says where those are that nobody has read."""
    wanted = table("Unread", name)
    unread = [file_of(identity) for identity, verdict in survey.verdicts.items() if verdict.word == UNREAD]
    folder = lambda file: next((path for path in wanted if file.startswith(path + "/")), "elsewhere")
    assert wanted == {**dict.fromkeys(wanted, 0), **collections.Counter(map(folder, unread))}


def test_read_again(survey):
    """What is real was read by another one, who says what he found; and no second reading is the first reader's."""
    real = [verdict.why for verdict in survey.verdicts.values() if verdict.word == REAL]
    assert [why for why in real if "second reader" not in why or "read again" in why] == []


def test_kinds(survey):
    """Each reason why something can't happen begins with its kind."""
    reasons = [verdict.why for verdict in survey.verdicts.values() if verdict.word == CANNOT]
    assert [why for why in reasons if why.partition(": ")[0] not in KINDS] == []


def test_each_verdict_has_a_reason(survey):
    assert [identity for identity, verdict in survey.verdicts.items() if verdict.word != UNREAD and not verdict.why] == []


def test_what_is_to_be_read(survey):
    """No wait of block, of a file system, or of what lies between is unread."""
    is_to_read = lambda file: file.startswith(tuple(path + "/" for path in READ))
    waits = [identity for identity, verdict in survey.verdicts.items() if verdict.word == UNREAD]
    assert [identity for identity in waits if is_to_read(file_of(identity))] == []


def test_modules_of_what_is_real(survey):
    """The page names each module that has a real row."""
    modules = {identity[0] for identity, verdict in survey.verdicts.items() if verdict.word == REAL}
    rows = PAGE[PAGE.index("| Module | What waits") :].split("\n\n")[0].splitlines()
    named = {module.strip() for row in rows for module in row.split("|")[1].split(",")}
    assert modules - named == set()
