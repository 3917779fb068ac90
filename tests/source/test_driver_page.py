"""docs/DRIVER.md: its commands, played from top to bottom in one folder, print what it shows.

They need the source of Linux 6.1 ($LINUX_6_1) and a built wqplan ($WQPLAN, or the one that the gate leaves). Not played are those
that fetch, record or boot something.
"""

import os
import pathlib
import re

import pytest

import programs
from conftest import ROOT
from test_ask import Talk

PAGE = (ROOT / "docs" / "DRIVER.md").read_text()
LINUX = pathlib.Path(os.environ.get("LINUX_6_1") or "/none")
BUILT = ROOT / "crates" / "wqplan" / "out" / "wqplan"
WQPLAN = os.environ.get("WQPLAN") or (str(BUILT) if BUILT.exists() else "")
NOT_PLAYED = ("source/get-linux", "wqrecord", "kernel/judge")
LEFT_OUT = ".."

pytestmark = [
    pytest.mark.skipif(not (LINUX / "Makefile").exists(), reason="no source of Linux 6.1: set LINUX_6_1"),
    pytest.mark.skipif(not WQPLAN, reason="no wqplan is built: set WQPLAN"),
]


def commands():
    """Each command of the page that is played, and the lines below it."""
    for block in re.findall(r"^```text\n(\$ .*?)^```$", PAGE, re.M | re.S):
        for part in re.split(r"^\$ ", block, flags=re.M)[1:]:
            command, _, shown = part.partition("\n")
            if not command.startswith(NOT_PLAYED):
                yield command, shown


def fits(shown, printed):
    """Whether this was printed, if `..` stands for any lines."""
    parts = [re.escape(line) + "\n" if line != LEFT_OUT else "(?:.*\n)*?" for line in shown.splitlines()]
    return re.fullmatch("".join(parts), printed) is not None


def answered(command, shown, folder):
    """What `ask` writes to somebody who gives the answers that the page shows; with these answers, as a terminal has them."""
    talking = Talk(command.split()[1:], folder, {**os.environ, "WQPLAN": WQPLAN})
    said = talking.wait()
    for answer in re.findall(r"^> (.*)$", shown, re.M):
        talking.answer(answer)
        said += answer + "\n" + talking.wait()
    return said + talking.end().out


def test_what_the_page_shows(tmp_path):
    (tmp_path / "linux-6.1").symlink_to(LINUX)
    (tmp_path / "check-assign.sh").write_bytes((ROOT / "examples" / "rdisk" / "check-assign.sh").read_bytes())
    (tmp_path / "bin").mkdir()
    (tmp_path / "bin" / "wqplan").symlink_to(WQPLAN)
    (tmp_path / "bin" / "wqsource").symlink_to(ROOT / "source" / "wqsource")
    env = {**os.environ, "PATH": f"{tmp_path}/bin{os.pathsep}{os.environ['PATH']}", "WQPLAN": WQPLAN}
    played = 0
    for command, shown in commands():
        if command.startswith("wqsource ask"):
            printed = answered(command, shown, tmp_path)
        else:
            quiet = f"({command}) 2>progress" if command.startswith("wqsource") else command
            ran = programs.run(["bash", "-c", quiet], cwd=tmp_path, env=env, capture_output=True, timeout=600)
            printed = (ran.stdout + ran.stderr).decode()
        assert fits(shown, printed), f"$ {command}\n{printed}"
        played += 1
    assert played >= 15
