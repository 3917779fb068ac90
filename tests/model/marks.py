# How standard error shows a line, marks what is meant in it, and speaks of a workqueue, for reasons.py and unrescued.py:
# docs/MESSAGES.md, "Diagnoses", and tests/DIAGNOSES.md, "What is shown of a long line".

import dataclasses

from declaration import split_words
from messages import said  # in tests/lib

# How much of a line is shown.
WHOLE = 100
CUT = 94
BEFORE = 40


@dataclasses.dataclass
class Finding:
    """What is said, the bytes of the line that are meant, from one place to another, and the hint."""

    what: bytes
    first: int = None  # counted from 0; None where nothing is meant
    behind: int = None
    hint: bytes = b""
    line: int = 0  # the number of the line where these bytes are, if it isn't that of the refusal


@dataclasses.dataclass
class Word:
    """A word, and its place in the line, counted from 0."""

    word: bytes
    first: int

    @property
    def behind(self):
        return self.first + len(self.word)


def words_of(line):
    """The words of the line with their places."""
    found = []
    at = 0
    for word in split_words(line):
        at = line.index(word, at)
        found.append(Word(word, at))
        at += len(word)
    return found


def about(word, what, hint=b""):
    """A finding that means this word."""
    return Finding(what, word.first, word.behind, hint)


def shown(text):
    """Bytes: what is printed of them."""
    return bytes(0x20 if byte == 9 else byte if 0x20 <= byte <= 0x7E else 0x3F for byte in text)


def excerpt(line, found):
    """The line and its marks, with the hint."""
    begin, end = 0, len(line)
    if len(line) > WHOLE:
        begin = max(min(found.first - BEFORE, len(line) - CUT), 0)
        end = begin + CUT
    left = b"..." if begin > 0 else b""
    right = b"..." if end < len(line) else b""
    marks = b"^" * max(min(found.behind, end) - found.first, 1)
    indent = b" " * (len(left) + found.first - begin)
    hint = b" " + found.hint if found.hint else b""
    return [left + line[begin:end] + right, indent + marks + hint]


def workqueue(assignment, number):
    """A workqueue, with its name if it has one."""
    called = said("its_name", name=assignment.called[number]) if number in assignment.called else b""
    return said("a_workqueue", number=b"%d" % number, called=called)
