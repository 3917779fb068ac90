"""What the tests of `wqsource` share: they read C files with it, and start it."""

import collections
import os
import pathlib
import re
import sys

import hypothesis
import pytest

HERE = pathlib.Path(__file__).resolve().parent
ROOT = HERE.parent.parent
sys.path[:0] = [str(ROOT / "source"), str(ROOT / "tests" / "lib")]

import programs  # noqa: E402
from csource import cache as kept, draft, extract, program, progress, token_extract  # noqa: E402

C_FILES = HERE / "c"

# `wqsource` is started more than a hundred times: by this Python, and not by one that has more to do before it begins.
os.environ["PATH"] = os.pathsep.join((os.path.dirname(sys.executable), os.environ.get("PATH", os.defpath)))

# The machine may have much else to do, and the gate should say the same each time.
hypothesis.settings.register_profile("gate", deadline=None, derandomize=True, database=None, max_examples=200)
hypothesis.settings.load_profile("gate")

Ran = collections.namedtuple("Ran", "status out err")
HOW_FAR = re.compile(
    r"^wqsource: (?:(?:reading (?:C|types)|scanning): \d+ of \d+ .*|looking (?:for what belongs to|through) .*|putting together \d+ .*)\n",
    re.MULTILINE,
)
Drafted = collections.namedtuple("Drafted", "items flushes open")


@pytest.fixture(scope="session")
def cache():
    """Where facts are kept. The gate may begin with none."""
    return kept.default_cache()


@pytest.fixture(scope="session")
def read(cache):
    """read(tree, files): the program model of some files."""
    jobs = int(os.environ.get("WQSOURCE_JOBS") or os.cpu_count() or 1)
    coccinelle = extract.Extractor(cache, jobs, progress.Progress())
    reader = token_extract.TokenExtractor(cache, coccinelle.progress, coccinelle)
    extractor = coccinelle if os.environ.get("WQSOURCE_FACTS") == "coccinelle" else reader
    tables = program.Tables()
    return lambda tree, files, stacked=False: program.read(pathlib.Path(tree), files, extractor, tables, stacked)


@pytest.fixture(scope="session")
def drafted(read):
    """drafted(files, tree): what a draft says of C files, as sets that a test writes down by hand.

    `items`: the workqueues of each item. `flushes`: (line, FILE:LINE) of each flush whose target is known. `open`: of
    each site to decide, as (FILE:LINE, CALL(ARGUMENT)), the items that reach it and those that may end it.
    """

    def draft_of(*files, tree=C_FILES):
        found = draft.Draft(read(tree, list(files)), [])
        name, workqueue = (lambda function: found.program.item(function).name), found.program.workqueues.name
        at = lambda site: f"{site.key.file}:{','.join(map(str, site.lines))}"
        return Drafted(
            {item.name: {workqueue(one) for one in item.workqueues} for item in found.all_items()},
            {(f"{line.word} {name(line.item)} {name(line.target)}", at(line.site)) for line in found.lines},
            {
                (at(one.site), f"{one.site.key.call}({one.site.key.argument})"): (
                    set(map(name, one.ways)),
                    set(map(name, one.targets)),
                )
                for one in found.open.values()
            },
        )

    return draft_of


@pytest.fixture
def wqsource():
    """wqsource(words ..): starts it. What it says of how far it is, where the machine is slow, is left out."""

    def start(*words, cwd=ROOT, env=None):
        ran = programs.run([str(ROOT / "source" / "wqsource"), *map(str, words)], cwd=cwd, env=env, capture_output=True)
        return Ran(ran.returncode, ran.stdout.decode(), HOW_FAR.sub("", ran.stderr.decode()))

    return start


# The model, which keeps what it answered: a test asks the same of the same texts many times.
MODEL = """#!/bin/sh
kept={folder}/$({{ echo "$1"; cat -- "$2"; echo; cat -- "$3"; shift 3; echo "$@"; }} | sha256sum | cut -c1-64)
if [ ! -e "$kept" ]; then
    {python} {root}/tests/model/$1.py "$@" >"$kept.half.$$"
    echo $? >"$kept.status.$$"
    mv -- "$kept.status.$$" "$kept.status"
    mv -- "$kept.half.$$" "$kept"
fi
cat -- "$kept"
exit "$(cat -- "$kept.status")"
"""


@pytest.fixture(scope="session")
def wqplan(tmp_path_factory):
    """The program that is asked about circles and hangs: $WQPLAN if one is built; else the model, which is another program."""
    if not os.environ.get("WQPLAN"):
        folder = tmp_path_factory.mktemp("bin")
        path = folder / "wqplan"
        path.write_text(MODEL.format(folder=folder, python=sys.executable, root=ROOT))
        path.chmod(0o755)
        os.environ["WQPLAN"] = str(path)
    return os.environ["WQPLAN"]


def pytest_terminal_summary(terminalreporter):
    """What tests have measured, though they may have run in other processes."""
    reports = [report for found in terminalreporter.stats.values() for report in found]
    for report in reports:
        if getattr(report, "when", "") == "call":
            for name, text in report.user_properties:
                if name == "measured":
                    terminalreporter.write_line(text)
