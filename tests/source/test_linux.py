"""The examples beside the source of Linux 6.1 that they cite: $LINUX_6_1, which main.sh finds or fetches."""

import os
import pathlib
import re

import pytest

from conftest import ROOT
from csource.audit import Audit
from csource.cited import UNSURE
from csource.verbs import expanded
from csource.declaration import Declaration

LINUX = pathlib.Path(os.environ.get("LINUX_6_1") or "/none")
CITED = "6.1.192"
# Lines that belong below those of another example.
BELOW = {"nfs.norescuer": "nfs", "nvmet-tcp.module": "nvmet-tcp"}
# Its way leads through crypto, which isn't among the files of that example.
NOT_SHOWN = {"flush nvmet_tcp_io_work call_usermodehelper_exec_work"}
SURE = (["flush"], ["flushwq"])
# How many lines are unsure; those of all others are sure.
UNSURE_LINES = {"bcache": 4, "xfs": 8}


def declared(path):
    """An example; below another one, if its lines belong there."""
    paths = [path.with_stem(BELOW[path.stem])] if path.stem in BELOW else []
    return Declaration.of(path.name, "\n".join(one.read_text() for one in [*paths, path]))


def is_audited(path):
    """Some examples cite another kernel, or have no `# files:` line."""
    return f"\n# Sources: Linux {CITED}," in path.read_text() and declared(path).files


EXAMPLES = sorted(filter(is_audited, (ROOT / "examples").glob("*.wq")))

pytestmark = pytest.mark.skipif(not (LINUX / "Makefile").exists(), reason="no source of Linux 6.1: set LINUX_6_1")


def version():
    numbers = re.findall(r"^(?:VERSION|PATCHLEVEL|SUBLEVEL) = (\d+)$", (LINUX / "Makefile").read_text(), re.M)
    return ".".join(numbers[:3])


@pytest.fixture(scope="module", params=EXAMPLES, ids=[path.stem for path in EXAMPLES])
def example(request):
    return request.param


@pytest.fixture(scope="module")
def audit(example, read):
    """The audit of an example. Facts come from the cache, or from as many spatch as there are processors."""
    declaration = declared(example)
    return Audit(declaration, read(LINUX, expanded(LINUX, declaration.files), declaration.is_stacked))


def test_every_item_is_found(audit):
    assert [item.name for item in audit.lost] == []


@pytest.mark.skipif(LINUX.exists() and version() != CITED, reason=f"the examples cite {CITED}")
def test_every_site_is_decided(audit):
    """Cited, or dismissed with a reason; and every citation fits the source."""
    assert [str(found.site) for found in audit.left] == []
    assert [(citation.number, why) for citation, why in audit.wrong] == []
    assert [str(dismissal.key) for dismissal in audit.stale] == []
    assert [missed.text for missed in audit.missed] == []
    assert audit.is_decided


def test_which_lines_are_unsure(audit, example):
    """Only these keep an audit from being done."""
    assert len(audit.cited.unsure()) == UNSURE_LINES.get(example.stem, 0)
    assert audit.is_done == (audit.is_decided and example.stem not in UNSURE_LINES)


def leads_to_sites(audit):
    """The functions from which calls lead to a site in reach."""
    found = {found.site.id for found in audit.sites}
    waiting = list(found)
    while waiting:
        callers = audit.program.graph.callers.get(waiting.pop(), set()) - found
        found |= callers
        waiting += callers
    return found


def shown_places(audit):
    """Where a site in reach is, a call that leads to one, or a lock that is taken in reach: (file, function, line)."""
    places = {(*found.site.id, line) for found in audit.sites for line in found.site.lines}
    leads = leads_to_sites(audit)
    for caller in audit.reached_functions:
        for function, edges in audit.program.graph.edges.get(caller, {}).items():
            if function in leads:
                places |= {(edge.place.file, edge.place.function, edge.place.line) for edge in edges}
    for lock in audit.program.sites.locks:
        if lock.place.id in audit.reached_functions:
            places.add((lock.place.file, lock.place.function, lock.place.line))
    return places


def flush_lines(audit, words):
    """The numbers of the lines that declare waits by one of these words."""
    for number in range(1, len(audit.declaration.lines) + 1):
        if audit.cited.words(number)[:1] in words:
            yield number


def hidden_lines(audit, words):
    """The lines with one of these words of which no place is found by the tool alone. In another version than the one
    that is cited the lines are others: then the function counts."""
    places = shown_places(audit)
    functions = {place[:2] for place in places}
    hidden = []
    for number in flush_lines(audit, words):
        cited = [found for found in audit.cited.located if found.citation.number == number]
        exact = {(found.file, found.citation.function, found.citation.line) for found in cited}
        if not (exact & places if version() == CITED else {place[:2] for place in exact} & functions):
            hidden.append(" ".join(audit.cited.words(number)))
    return hidden


def test_the_places_of_the_declared_waits_are_shown(audit):
    assert [line for line in hidden_lines(audit, SURE) if line not in NOT_SHOWN] == []


def test_the_places_of_the_unsure_waits_are_shown(audit):
    assert len(list(flush_lines(audit, UNSURE))) == len(audit.cited.unsure())
    assert hidden_lines(audit, UNSURE) == []
