"""The facts of the reader of tokens beside those of Coccinelle: what one has and the other hasn't.

    python3 tests/source/readers.py TREE [FILE ..]

Without files: those of all examples, which takes Coccinelle ten minutes of one processor. before_release.sh beside it
runs it so. Its output is a table, and after it some facts of each kind that only one has.
"""

import collections
import os
import pathlib
import sys
from dataclasses import dataclass, field

HERE = pathlib.Path(__file__).resolve().parent
ROOT = HERE.parent.parent
sys.path.insert(0, str(ROOT / "source"))

from csource import ctext, reader  # noqa: E402
from csource.cache import default_cache  # noqa: E402
from csource.declaration import Declaration  # noqa: E402
from csource.extract import Extractor  # noqa: E402
from csource.facts import OUTSIDE, struct_name  # noqa: E402
from csource.lexer import DIRECTIVE  # noqa: E402
from csource.places import Place  # noqa: E402
from csource.progress import Progress  # noqa: E402

KINDS = ("DEF", "CALL", "PCALL", "ECALL", "ASG", "RET")
SHOWN = 8


def normal(text):
    return ctext.joined(ctext.tokens(text))


def key_of(words):
    """What a line says, without columns. Lines of assignments differ: Coccinelle has that of `=`."""
    kind, line, _, _, *rest = words + ["", "", ""]
    if kind == "DEF":
        return (rest[0],)
    if kind == "ASG":
        return normal(rest[0]), normal(rest[1])
    if kind == "CALL":
        return int(line), rest[0]
    if kind == "PCALL":
        return int(line), rest[1]
    if kind == "ECALL":
        return int(line), normal(rest[0])
    return (int(line),)


def keys_of(lines):
    found = {kind: set() for kind in KINDS}
    for line in lines:
        words = line.split("\t")
        if words[0] in found:
            found[words[0]].add(key_of(words))
    return found


@dataclass
class Compared:
    """Both sets of facts of some files, by kind: (file, what it says)."""

    both: dict = field(default_factory=lambda: collections.defaultdict(set))
    coccinelle: dict = field(default_factory=lambda: collections.defaultdict(set))
    reader: dict = field(default_factory=lambda: collections.defaultdict(set))

    def add(self, file, lines, read_lines):
        """The facts of one file by Coccinelle and by the reader."""
        one, other = keys_of(lines), keys_of(read_lines)
        for kind in KINDS:
            self.both[kind] |= {(file, key) for key in one[kind] & other[kind]}
            self.coccinelle[kind] |= {(file, key) for key in one[kind] - other[kind]}
            self.reader[kind] |= {(file, key) for key in other[kind] - one[kind]}

    def share(self, kind):
        """How much of what Coccinelle has the reader has."""
        both = len(self.both[kind])
        return both / max(1, both + len(self.coccinelle[kind]))

    def table(self):
        """How many facts of each kind both have, Coccinelle alone, the reader alone."""
        rows = [f"{'':6} {'both':>8} {'Coccinelle':>11} {'reader':>7}"]
        for kind in KINDS:
            counts = len(self.both[kind]), len(self.coccinelle[kind]), len(self.reader[kind])
            rows.append(f"{kind:6} {counts[0]:8} {counts[1]:11} {counts[2]:7}  {100 * self.share(kind):.1f} %")
        return "\n".join(rows)

    def only_coccinelle(self, kind):
        return sorted(self.coccinelle[kind], key=str)[:SHOWN]


def compare(tree, files, cache, jobs=1):
    """Both sets of facts of some files. Coccinelle's come from the cache if they are there."""
    extractor = Extractor(cache, jobs, Progress())
    found = Compared()
    for file, lines in extractor.facts(tree, list(files)).items():
        text = (tree / file).read_text(errors="replace")
        found.add(file, without_macros(lines, text), reader.facts_of(text))
    return found


def without_macros(lines, text):
    """The facts that aren't in the text of a macro: those wqsource reads by itself (csource/macros.py)."""
    inside = {
        number
        for match in DIRECTIVE.finditer(f"\n{text}")
        for first in [text.count("\n", 0, match.start()) + 1]
        for number in range(first, first + match[0].count("\n"))
    }
    return [line for line in lines if int(line.split("\t")[1]) not in inside]


def structs_beside(file, lines, facts):
    """(both, other, reader_unknown): the struct of each member that Coccinelle has a type of."""
    same, other, unknown = set(), set(), set()
    for line in lines:
        words = line.split("\t")
        if words[0] != "TYP" or struct_name(words[6]) in ("", "void", "unknown"):
            continue
        function = "" if words[3] == OUTSIDE else words[3]
        struct = facts.expressions.struct_of(Place(file, int(words[1]), function), ctext.tokens(words[4]))
        known = facts.expressions.types.struct(struct_name(words[6]))
        key = (file, int(words[1]), normal(words[4]), words[5], known, struct)
        (unknown if struct is None else same if struct == known else other).add(key)
    return same, other, unknown


def files_of_examples(tree):
    from csource.verbs import expanded

    names = [name for path in (ROOT / "examples").glob("*.wq") for name in Declaration.read(str(path)).files]
    return sorted(set(expanded(tree, names)))


def main(arguments):
    tree = pathlib.Path(arguments[0])
    compared = compare(tree, arguments[1:] or files_of_examples(tree), default_cache(), os.cpu_count())
    print(compared.table())
    for kind in KINDS:
        for name, found in (("Coccinelle", compared.coccinelle[kind]), ("reader", compared.reader[kind])):
            for fact in sorted(found, key=str)[:SHOWN]:
                print(f"only {name}: {kind} {fact}")


if __name__ == "__main__":
    main(sys.argv[1:])
