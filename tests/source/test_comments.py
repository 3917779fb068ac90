"""The forms of comments: what is written is read back, and a new number changes nothing else."""

from hypothesis import given, strategies as st

from csource.declaration import Citation, Declaration, DismissedItem, Dismissal
from csource.drift import renumbered
from csource.sites import Key

NAMES = st.from_regex(r"[a-z_][a-z0-9_]{0,20}", fullmatch=True)
FILES = st.lists(NAMES, min_size=1, max_size=3).map(lambda parts: "/".join(parts) + ".c")
LINES = st.integers(1, 99999)
# a pointer, a member, an address, a call: without blanks, as a site is printed
ARGUMENTS = st.one_of(
    st.just(""),
    NAMES,
    st.builds("&{}->{}".format, NAMES, NAMES),
    st.builds("&{}->{}.{}".format, NAMES, NAMES, NAMES),
    st.builds("{}({})->{}".format, NAMES, NAMES, NAMES),
    st.builds("&{}[{}]".format, NAMES, NAMES),
)
WHY = st.from_regex(r"[a-z]([a-z ,.:()#-]{0,40}[a-z.])?", fullmatch=True)
# what may stand around citations and is none: no number, no bracket
PROSE = st.lists(
    st.sampled_from(["done", "by", "the", "work", "of", "it;", "flush", "queued to x at"]), max_size=4
).map(" ".join)


@given(FILES, NAMES, NAMES, ARGUMENTS, WHY, st.integers(0, 3))
def test_dismissal_round_trip(file, function, call, argument, why, blank_lines):
    key = Key(file, function, call, argument)
    text = "\n" * blank_lines + str(Dismissal(0, key, why)) + "\n"
    found = Declaration.of("x.wq", text)
    assert found.dismissals == [Dismissal(blank_lines + 1, key, why)]
    assert not found.malformed


def test_a_reason_may_cite():
    """Its lines are looked up, and decide nothing by themselves."""
    text = "# no wait: x.c f g(a): it has started at y.c:7 h (12 k)"
    found = Declaration.of("x.wq", text)
    assert [(one.file, one.line, one.function, one.decides) for one in found.citations] == [
        ("y.c", 7, "h", False),
        ("y.c", 12, "k", False),
    ]
    assert [text[one.column :].startswith(str(one.line)) for one in found.citations] == [True, True]


@given(FILES, NAMES, WHY)
def test_dismissed_item_round_trip(file, function, why):
    found = Declaration.of("x.wq", str(DismissedItem(0, file, function, why)))
    assert found.dismissed_items == [DismissedItem(1, file, function, why)]
    assert not found.malformed


@given(st.lists(st.tuples(FILES, LINES, NAMES), min_size=1, max_size=5), PROSE)
def test_citations_round_trip(cited, prose):
    comment = "; ".join(f"{prose} {file}:{line} {function}" for file, line, function in cited)
    found = Declaration.of("x.wq", f"flush a b  # {comment}").citations
    assert [(one.number, one.file, one.line, one.last, one.function) for one in found] == [
        (1, file, line, line, function) for file, line, function in cited
    ]
    # the column is where the number stands
    text = f"flush a b  # {comment}"
    assert [text[one.column :].startswith(str(one.line)) for one in found] == [True] * len(cited)


@given(FILES, st.lists(LINES, min_size=1, max_size=4), NAMES)
def test_lines_of_one_file(file, lines, function):
    """FILE:LINE, LINE, LINE FUNCTION"""
    found = Declaration.of("x.wq", f"# {file}:{', '.join(map(str, lines))} {function}").citations
    assert [(one.file, one.line) for one in found] == [(file, line) for line in lines]
    assert found[-1].function == function


@given(FILES, LINES, st.integers(1, 500), LINES)
def test_renumbered(file, line, length, new):
    """Only the number changes; a range keeps its length."""
    for last, wanted in ((line, str(new)), (line + length, f"{new}-{new + length}")):
        old = str(line) if last == line else f"{line}-{last}"
        text = f"flush a b  # done {file}:{old} f, then {file}:7 g"
        citation = Declaration.of("x.wq", text).citations[0]
        assert citation == Citation(1, text.index(":") + 1, file, line, last, "f")
        assert renumbered(text, citation, new) == f"flush a b  # done {file}:{wanted} f, then {file}:7 g"


def cited(text):
    return [(one.file, one.line, one.last, one.function) for one in Declaration.of("x.wq", text).citations]


def test_forms_of_the_examples():
    assert cited("# done io-cmd-file.c:238 nvmet_file_execute_rw: an element comes back") == [
        ("io-cmd-file.c", 238, 238, "nvmet_file_execute_rw")
    ]
    assert cited("# flush auth.c:916 nvme_auth_wait, 872 nvme_auth_negotiate, from fabrics.c:437, 512") == [
        ("auth.c", 916, 916, "nvme_auth_wait"),
        ("auth.c", 872, 872, "nvme_auth_negotiate"),
        ("fabrics.c", 437, 437, None),
        ("fabrics.c", 512, 512, None),
    ]
    assert cited("# (tcp.c:2291, 2334, core.c:216), core.c:511-515") == [
        ("tcp.c", 2291, 2291, None),
        ("tcp.c", 2334, 2334, None),
        ("core.c", 216, 216, None),
        ("core.c", 511, 515, None),
    ]
    # a number in brackets is a line of the file before it; after a blank line there is none before it
    assert cited("# x.c:9 f ends it (1631 g)\n# and (12, 13)") == [
        ("x.c", 9, 9, "f"),
        ("x.c", 1631, 1631, "g"),
        ("x.c", 12, 12, None),
        ("x.c", 13, 13, None),
    ]
    assert cited("# x.c:9 f\n\n# (16 elements)") == [("x.c", 9, 9, "f")]


def test_no_citations():
    assert cited("# Linux 6.1.192, ended after 10 s, or 16 elements, and 3 items (a, b)") == []
    assert cited("item a\nflush a 12\n") == []
    assert cited("# x.c:9 f, bounded by 10 s, 16 elements in all") == [("x.c", 9, 9, "f")]


def test_malformed_dismissals():
    for text in (
        "# no wait: x.c f wait()",
        "# no wait: x.c f: why",
        "# no wait: x.c f wait(a): ",
        "# no item: x.c: why",
    ):
        found = Declaration.of("x.wq", text)
        assert found.malformed == [1] and not found.dismissals and not found.dismissed_items
    # no comment of its own: the words before it count
    assert not Declaration.of("x.wq", "item a  # no wait: x.c f g(): why").dismissals


def test_files():
    assert Declaration.of("x.wq", "# files: a.c b/*.h\nitem a\n# files: c.c\n").files == ["a.c", "b/*.h", "c.c"]
