# Reads a declaration, for the model in plan.py, check.py and replay.py: docs/FORMAT.md, from
# "Lines, words and numbers" to "Refusals". See plan.py for what the model is.

import dataclasses
import functools
import pathlib
import re
import sys

sys.dont_write_bytecode = True
sys.path.append(str(pathlib.Path(__file__).resolve().parents[1] / "lib"))
from records import records  # noqa: E402  (in tests/lib)

# Limits
TEXT_LIMIT = 1_048_576
LINE_LIMIT = 4_096
NAME_LIMIT = 63
ITEM_LIMIT = 4_096
FLUSH_LIMIT = 16_384

LETTERS = b"ABCDEFGHIJKLMNOPQRSTUVWXYZabcdefghijklmnopqrstuvwxyz"
NAME_BYTES = LETTERS + b"0123456789_-."
LINE_BYTES = b"\t" + bytes(range(0x20, 0x7F))
WORD = re.compile(rb"[^ \t]+")

# Directives, by docs/tables/directives.txt, from which the table of docs/FORMAT.md is made: how many further words a line needs
# at least, how many it has at most where that is limited, and which directives name declared items, declare flushes, or groups.
DIRECTIVES = {row["directive"].encode(): row for row in records("directives.txt")}
FEWEST_WORDS = {word: int(row["least"]) for word, row in DIRECTIVES.items()}
MOST_WORDS = {word: int(row["most"]) for word, row in DIRECTIVES.items() if "most" in row}
USERS = [word for word, row in DIRECTIVES.items() if row["declares"] != "item"]
FLUSHES = [word for word, row in DIRECTIVES.items() if row["declares"] == "flushes"]
GROUPS = [word for word, row in DIRECTIVES.items() if row["declares"] == "group"]
# The directives of unsure lines, each with the one that means the same without its question mark.
SURE = {word: word.removesuffix(b"?") for word, row in DIRECTIVES.items() if row.get("unsure") == "yes"}
# The step that makes a flush, by the directive that declares it, and the directives of those of whole workqueues.
WAIT = {word: DIRECTIVES[word]["step"].encode() for word in FLUSHES}
FLUSHES_WHOLE = [word for word in FLUSHES if WAIT[word] == b"waitwq"]
LISTED = b", ".join(b"`%s`" % word for word in DIRECTIVES)
LISTED = b" or ".join(LISTED.rsplit(b", ", 1))


class Refused(Exception):
    """Refusals: the number of the fault, and the number of its line or 0."""

    def __init__(self, code, line):
        super().__init__(code, line)
        self.code = code
        self.line = line

    def answer(self):
        """The bytes of the answer, and the exit status (Faults and exit statuses)."""
        return b"refused %d line %d\n" % (self.code, self.line), 2


def split_lines(text):
    """Lines, words and numbers: Lines, CR."""
    lines = text.split(b"\n")
    behind_last_lf = lines.pop()
    lines = [line[:-1] if line.endswith(b"\r") else line for line in lines]
    if behind_last_lf != b"":
        lines.append(behind_last_lf)
    return lines


def before_comment(line):
    """Lines, words and numbers: Comments."""
    return line.split(b"#", 1)[0]


def split_words(line):
    """Lines, words and numbers: Words."""
    return WORD.findall(before_comment(line))


def has_only(text, allowed):
    """Whether each byte of the text is one of these."""
    return not text.translate(None, allowed)


def is_name(word):
    """Names."""
    return 1 <= len(word) <= NAME_LIMIT and has_only(word, NAME_BYTES)


def text_pass(text):
    """Refusals, the pass over the text (1, 2). Returns the lines."""
    if len(text) > TEXT_LIMIT:
        raise Refused(1, 0)
    lines = split_lines(text)
    for number, line in enumerate(lines, start=1):
        if len(line) > LINE_LIMIT:
            raise Refused(2, number)
    return lines


def directives_pass(lines):
    """Refusals, the pass over the directives, in the order of the rows.

    Returns the number, the first word and the further words of each line that isn't blank.
    """
    directives = []
    for number, line in enumerate(lines, start=1):
        if not has_only(before_comment(line), LINE_BYTES):
            raise Refused(3, number)
        words = split_words(line)
        if not words:
            continue
        first, further = words[0], words[1:]
        if first not in FEWEST_WORDS:
            raise Refused(4, number)
        if len(further) < FEWEST_WORDS[first]:
            raise Refused(5, number)
        if len(further) > MOST_WORDS.get(first, len(further)):
            raise Refused(12, number)
        if not all(is_name(word) for word in further):
            raise Refused(6, number)
        directives.append((number, first, further))
    return directives


def items_pass(directives):
    """Refusals, the pass over the items, in the order of the rows; Items and groups: Items, Flushes and places.

    Returns the names of the items by their numbers, the flushes by their places, each as the names
    of its item and of its target, and the directive of each flush.
    """
    items = []
    declared = set()
    flushes, directive_of = [], []
    for number, first, names in directives:
        if first == b"item":
            if names[0] in declared:
                raise Refused(7, number)
            if len(items) == ITEM_LIMIT:
                raise Refused(9, number)
            items.append(names[0])
            declared.add(names[0])
        else:
            if not all(name in declared for name in names):
                raise Refused(8, number)
            if first in FLUSHES:
                flushes += [(names[0], target) for target in names[1:]]
                directive_of += [first] * len(names[1:])
                if len(flushes) > FLUSH_LIMIT:
                    raise Refused(10, number)
    return items, flushes, directive_of


def groups_pass(directives, items):
    """Refusals, the pass over the groups (11); Items and groups: Groups.

    Returns the groups by their numbers, each as the list of its members in the order of their
    declaration.
    """
    item_number = {name: number for number, name in enumerate(items)}
    groups = []
    grouped = set()
    for number, first, names in directives:
        if first in GROUPS:
            for name in names:
                if name in grouped:
                    raise Refused(11, number)
                grouped.add(name)
            groups.append(sorted(names, key=item_number.get))
    groups += [[name] for name in items if name not in grouped]
    groups.sort(key=lambda members: item_number[members[0]])
    return groups


@dataclasses.dataclass(eq=False)  # one may be a key
class Declaration:
    """A declaration that breaks no rule."""

    items: list  # by number, each as its name
    flushes: list  # by place, each as the names of its item and of its target
    groups: list  # by number, each as the names of its members
    group_of: dict  # by the name of an item, the number of its group
    directive_of: list  # by the place of a flush, the directive that declares it

    def flush_line(self, place):
        """A line that declares the flush of this place alone."""
        return b"%s %s %s" % (self.directive_of[place], *self.flushes[place])

    def is_unsure(self, place):
        """Unsure flushes."""
        return self.directive_of[place] in SURE

    def unsure(self):
        """The places of the unsure flushes, in order."""
        return [place for place in range(len(self.flushes)) if self.is_unsure(place)]


def look_up(declared, names):
    """Refusals: NAMEs of a command line, each of which must be an item."""
    if not all(name in declared.group_of for name in names):
        raise Refused(8, 0)


@functools.lru_cache(maxsize=64)
def read_declaration(text):
    """The declaration that the text holds. Raises Refused where it holds none.

    A text that was read lately isn't read again, so nobody may change what is returned.
    """
    directives = directives_pass(text_pass(text))
    items, flushes, directive_of = items_pass(directives)
    groups = groups_pass(directives, items)
    group_of = {name: number for number, members in enumerate(groups) for name in members}
    return Declaration(items, flushes, groups, group_of, directive_of)
