"""What the tests by pytest have in common: the program that is tested, and how a difference is shown."""

import difflib
import os
import pathlib
import sys
import tempfile

import pytest

sys.dont_write_bytecode = True
ROOT = pathlib.Path(__file__).resolve().parents[1]

# Hypothesis writes nothing into the repository. (It takes half a second to load, and most tests don't.)
if "HYPOTHESIS_STORAGE_DIRECTORY" not in os.environ:
    ROOM = tempfile.TemporaryDirectory(prefix="hypothesis-")
    os.environ["HYPOTHESIS_STORAGE_DIRECTORY"] = ROOM.name


def pytest_addoption(parser):
    parser.addoption("--write", action="store_true", help="writes diagnoses that differ anew, as the program has them: look at each")
    parser.addoption("--seed", default="1", help="of the random cases of the model; the same seed makes the same ones")
    parser.addoption("--sure", action="store_true", help="leaves out the cases of the model that have unsure lines")
    parser.addoption("--cases", type=int, help="how many random cases of each command the model has")
    parser.addoption("--ask-program", action="store_true", help="the laws of unsure lines are put to the program, and not to the model")


@pytest.fixture(scope="session")
def program():
    """The path of wqplan: WQPLAN, or the one that is built."""
    path = os.path.realpath(os.environ.get("WQPLAN") or ROOT / "crates/wqplan/out/wqplan")
    if not os.access(path, os.X_OK):
        pytest.fail(f"there is nothing to run at {path}: WQPLAN names another program", pytrace=False)
    return path


@pytest.fixture
def same():
    """same(given, wanted, found): fails with what was given and a difference by lines where two texts differ."""

    def compare(given, wanted, found):
        if wanted != found:
            lines = difflib.unified_diff(text_of(wanted), text_of(found), "wanted", "found", lineterm="")
            pytest.fail("\n".join([given, *lines]), pytrace=False)

    return compare


def text_of(printed):
    """Its lines, where bytes that aren't printed are spelled out."""
    lines = printed.decode("ascii", "backslashreplace").split("\n")
    return [line[:2_000] + f".. ({len(line)} bytes)" * (len(line) > 2_000) for line in lines]
