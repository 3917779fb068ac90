"""source/README.md, and docs/GUIDE.md on wqsource: what they show is what is printed, and what they name is there."""

import re

from conftest import ROOT
from csource import tables

PAGE = (ROOT / "source" / "README.md").read_text()
GUIDE = (ROOT / "docs" / "GUIDE.md").read_text()
RDISK = ROOT / "examples" / "rdisk"


def test_shown_audit(wqsource):
    """The first block with output, to the byte."""
    command, shown = re.search(r"```text\n\$ wqsource (audit --decl rdisk\.wq rdisk\.c)\n(.*?)```", PAGE, re.S).groups()
    assert wqsource(*command.split(), cwd=RDISK).out == shown


def test_shown_draft(wqsource, tmp_path):
    """wqplan stops at the first `?`, in the line that the page says."""
    line = int(re.search(r"refused 4 line (\d+)", PAGE)[1])
    words = re.search(r"\$ wqsource (draft --assign )draft\.assign( rdisk\.c) > draft\.wq", PAGE)
    drafted = wqsource(*words[1].split(), tmp_path / "draft.assign", *words[2].split(), cwd=RDISK).out.splitlines()
    assert drafted[line - 1].startswith("? ") and not any(text.startswith("?") for text in drafted[: line - 1])
    unknown = wqsource(*words[1].split(), tmp_path / "draft.assign", "--unknown", *words[2].split(), cwd=RDISK).out
    assert not any(text.startswith("?") for text in unknown.splitlines())


def test_dismissed_as_shown(wqsource, tmp_path):
    """With the line that the page adds nothing is left."""
    dismissal = re.search(r"^# no wait: rdisk\.c .*: an interrupt ends it$", PAGE, re.M)[0]
    (tmp_path / "rdisk.wq").write_text((RDISK / "rdisk.wq").read_text() + dismissal + "\n")
    assert wqsource("audit", "--decl", tmp_path / "rdisk.wq", "rdisk.c", cwd=RDISK).status == 0


def test_draft_in_the_guide(wqsource, tmp_path):
    """The lines of the draft that are neither blank nor comments, to the byte."""
    command = r"\$ wqsource draft --assign draft\.assign rdisk\.c > draft\.wq\n\$ grep '\^\[\^#\]' draft\.wq\n"
    shown = re.search(rf"```text\n{command}((?:.*\n)*?)```", GUIDE)[1]
    drafted = wqsource("draft", "--assign", tmp_path / "draft.assign", "rdisk.c", cwd=RDISK).out.splitlines(True)
    assert "".join(line for line in drafted if re.match("[^#\n]", line)) == shown


def test_dismissed_in_the_guide(wqsource, tmp_path):
    """With the line of section 1 the audit of section 5 has status 0; without a `flush` line, 1."""
    dismissal = re.search(r"`(# no wait: rdisk\.c .*: an interrupt)`", GUIDE)[1]
    assert GUIDE.count("`wqsource audit --decl rdisk.wq rdisk.c`") == 2
    text = (RDISK / "rdisk.wq").read_text() + dismissal + "\n"
    for declared, status in ((text, 0), (re.sub("^flush send .*\n", "", text, flags=re.M), 1)):
        (tmp_path / "rdisk.wq").write_text(declared)
        assert wqsource("audit", "--decl", tmp_path / "rdisk.wq", "rdisk.c", cwd=RDISK).status == status


def test_calls_of_the_guide():
    """waits.txt has a kind for each call that may wait by the first table of section 2, but for those that start a process."""
    waits = tables.Waits()
    rows = re.search(r"^\| Call in a work function \|.*\n\|-.*\n((?:\|.*\n)+)", GUIDE, re.M)[1].splitlines()
    calls = {call for row in rows for call in re.findall(r"`([a-z_]+)[(`]", row.split("|")[1].split(", if")[0])}
    kinds = {call: waits.kind(call).name for call in calls if len(call) > 2}
    assert len(kinds) > 35
    assert {call for call, kind in kinds.items() if kind in ("none", "never")} == {"request_module", "call_usermodehelper"}


def test_modules_and_tables():
    """Each module and each table has its row, and each row names what is there."""
    modules = {path.stem for path in (ROOT / "source" / "csource").glob("*.py")} - {"__init__", "__main__"}
    rows = {name for row in re.findall(r"^\| (`\w+`.*?) \|", PAGE, re.M) for name in re.findall(r"`(\w+)`", row)}
    plumbing = {"command_line", "verbs", "scan_options", "faults", "progress", "says", "places"}
    assert modules - plumbing - rows == {"audit_text", "drift_text", "draft_text", "ask_text", "scan_text"}
    assert set(re.findall(r"^\| \[(\w+\.txt)\]", PAGE, re.M)) == {path.name for path in (ROOT / "source").glob("*.txt")}


def test_options():
    """What the page says of the command line is there."""
    source = "".join((ROOT / "source" / "csource" / name).read_text() for name in ("command_line.py", "scan_options.py"))
    for option in set(re.findall(r"`(--[\w-]+)|(--[\w-]+) (?:D|DIR|OUT|FUNCTION)", PAGE)):
        assert f'"{option[0] or option[1]}"' in source
