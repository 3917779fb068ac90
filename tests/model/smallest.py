"""Of a case that fails the fewest lines that still fail, which Hypothesis finds."""

import hypothesis
from hypothesis import strategies as st

# So many parts of a case are dropped or kept at a time: each is some lines, and at last one.
PARTS = 64
# Hypothesis makes each number here as small as it can; one that it draws is nearly never as small.
KEEPS = st.binary(min_size=2, max_size=2)
DROPPED, PLAIN = b"\0\0", b"\0\1"
SETTINGS = hypothesis.settings(max_examples=1_000, database=None, deadline=None, derandomize=True,
                               suppress_health_check=list(hypothesis.HealthCheck))


def smallest(texts, fails):
    """The texts with as few lines as fail, and of those as many as can be without comments and blanks. `fails(texts)` says whether texts
    fail; where it isn't so of the whole ones each time, they stay.
    """
    parts = [(at, line) for at, text in enumerate(texts) for line in text.splitlines(keepends=True)]
    is_last = False
    while not is_last:
        is_last = len(parts) <= PARTS
        try:
            found = hypothesis.find(fewer(parts), lambda some: fails(whole(some, len(texts))), settings=SETTINGS)
        except hypothesis.errors.NoSuchExample:
            break
        is_last = is_last or len(found) == len(parts)
        parts = found
    return whole(parts, len(texts))


def whole(parts, count):
    """The texts of these lines."""
    return [b"".join(line for text, line in parts if text == at) for at in range(count)]


@st.composite
def fewer(draw, parts):
    """Some of these lines, each as it stands or without its comment and its blanks."""
    size = -(-len(parts) // PARTS)
    found = []
    for at in range(0, len(parts), size or 1):
        keep = draw(KEEPS)
        if keep != DROPPED:
            found += [(text, plain(line) if keep == PLAIN else line) for text, line in parts[at:at + size]]
    return found


def plain(line):
    return b" ".join(line.partition(b"#")[0].split()) + b"\n"
