#!/usr/bin/env python3
"""Lists what the proofs and the specs of the crates have for nothing: lemmas and definitions that nothing names.

    tests/docs/dead.py            checks that there are none, and names those that there are; the status is 1 then
    tests/docs/dead.py --list     lists them, as `CRATE FILE NAME`, and counts them by crate

Looked at is what crates/NAME/proofs/FILE.antt declares, private lemmas too, and what crates/NAME/specs/FILE.antt declares as `pub`. It
is named where its name stands outside of its own lines: in a source, a spec or a proof of any crate, in an edit or on a page; in an
import, too, but not in a line of comment. A name with parts, as `◌is_below◌`, is named where all of its parts stand, and a `data` where
one of its cases does. What only such declarations name is listed, too, so that all of them can be taken away at once. What the prover
asks for, as Answers.antt in the folder of a function, isn't looked at.

No tactic takes a lemma of a crate that isn't named. First of all, what nothing names must be found in a text of its own.
"""
import collections
import pathlib
import re
import sys

ROOT = pathlib.Path(__file__).resolve().parents[2]
# What may stand before and behind a name that is another name's part; and a word, of such characters or of other signs.
PART = r"[\w'-]"
WORD = re.compile(rf"{PART}+|[^\s\w'(){{}}\[\],;.:-]+")
MARKS = r"((?:(?:pub|abbrev|unfoldable|axiom) )*)"
SIGNATURE = re.compile(rf"{MARKS}()([^\s:(){{}}=;]+)(?: \{{[^}}]*\}})? :(?: |$)")
BLOCK = re.compile(rf"{MARKS}(record|data|ruleset) (?:pub )?([^\s:(){{}}=;]+)")
# What holds declarations that are indented: a module with parameters, and definitions that recurse into one another.
HOLDER = re.compile(r"(?:module _ .*|mutual)$")
INDENT = "  "
CASE = re.compile(r"  ((?:[^\s:]+ )+):(?: |$)")
COMMENT = {".antt": "--", ".rt": "//"}

# What is declared: its name, all names that stand for it, and the numbers of its lines.
Declared = collections.namedtuple("Declared", "name names is_public lines")


def without_comments(path, text):
    """The text of a source without its lines of comment, which are empty then."""
    mark = COMMENT.get(path.suffix, "\n")
    return "\n".join("" if line.lstrip().startswith(mark) else line for line in text.split("\n"))


def margins(text):
    """The lines, each without the indent that declarations have there: none, or that of the module in which they are."""
    indent = ""
    for line in text.split("\n"):
        if line and line[0] not in " )]}":
            indent = INDENT if HOLDER.match(line) else ""
        yield line[len(indent):] if line.startswith(indent) else line


def goes_on(name, line):
    """Whether a line belongs to the declaration of this name, as an equation or what is behind one."""
    return not line or line[0] in " )]}" or line.split()[0] in (name, "unfolding") or "◌" in name and not HOLDER.match(line)


def declarations(text):
    """The declarations of a file, those in modules with parameters, too."""
    found, inside, is_data = [], None, False
    for number, line in enumerate(margins(text)):
        head = SIGNATURE.match(line) or BLOCK.match(line)
        if head:
            inside, is_data = Declared(head[3], {head[3]}, "pub" in head[1], []), head[2] == "data"
            found.append(inside)
        elif inside and not goes_on(inside.name, line):
            inside = None
        if inside:
            inside.lines.append(number)
            case = CASE.match(line) if is_data else None
            inside.names.update(case[1].split() if case else [])
    return found


def parts_of(name):
    """What has to stand somewhere where this name is used."""
    return [part for part in name.split("◌") if part]


class Texts:
    """All texts, and in which lines of which of them each word stands."""

    def __init__(self, texts):
        self.lines = {path: text.split("\n") for path, text in texts.items()}
        self.where = collections.defaultdict(set)
        for path, lines in self.lines.items():
            for number, line in enumerate(lines):
                for word in WORD.findall(line):
                    self.where[word].add((path, number))

    def stands(self, part):
        """The lines in which this stands, and isn't a part of another name."""
        words = WORD.findall(part)
        if words == [part]:
            return self.where[part]
        bounded = re.compile(rf"(?<!{PART}){re.escape(part)}(?!{PART})")
        found = set.intersection(*(self.where[word] for word in words)) if words else set()
        return {(path, number) for path, number in found if bounded.search(self.lines[path][number])}


def nothing_names(texts, declared):
    """Of these declarations, by file, those that nothing names but one another."""
    own, stands = {}, {}
    for path, its in declared.items():
        for it in its:
            own[path, it.name] = {(path, number) for number in it.lines}
            stands[path, it.name] = [[texts.stands(part) for part in parts_of(name)] for name in it.names]
    dead, gone = set(), set()

    def is_named(key):
        """Whether one of the names stands, with all of its parts, where it counts."""
        return any(parts and all(any(at not in gone and at not in own[key] for at in places) for places in parts) for parts in stands[key])

    while True:
        more = [key for key in stands if key not in dead and not is_named(key)]
        if not more:
            return sorted(dead, key=str)
        dead.update(more)
        gone.update(*(own[key] for key in more))


def sources(root):
    """The texts that may name something: those of crates, edits and pages."""
    for part in ("src", "specs", "proofs"):
        for path in root.glob(f"crates/*/{part}/**/*"):
            if path.suffix in COMMENT:
                yield path
    yield from root.glob("tests/edits/**/*.edit")
    yield from root.glob("crates/*/must-fail/*.edit")
    yield from (path for path in root.rglob("*.md") if ".git" not in path.parts and "out" not in path.parts)


def looked_at(path, root):
    """What a file declares that has to be named somewhere."""
    parts = path.relative_to(root).parts
    if len(parts) != 4 or parts[0] != "crates" or path.suffix != ".antt" or path.name == "Lib.antt":
        return []
    found = declarations(without_comments(path, path.read_text(encoding="utf-8")))
    return [it for it in found if parts[2] == "proofs" or parts[2] == "specs" and it.is_public]


def dead_of(root):
    paths = sorted(set(sources(root)))
    texts = Texts({path: without_comments(path, path.read_text(encoding="utf-8", errors="replace")) for path in paths})
    return nothing_names(texts, {path: looked_at(path, root) for path in paths})


def finds_what_nothing_names():
    """Whether what nothing names is found, and only that."""
    text = "\n".join([
        "use A.{c}", "", "-- a lemma", "pub a : (n : ℕ) → n ≡ n", "unfolding d", "a zero = refl", "a (suc n) = ap suc (a n)", "",
        "pub a-b : ℕ", "a-b = c", "", "abbrev pub ◌is◌ : ℕ → ℕ → Type 0", "x is y = x ≡ y", "", "pub only : ℕ", "only = a-b", "",
        "pub data D : Type 0 where", "  one two : D", "", "pub used : 3 is 4", "used = (two)", "pub record R : Type 0 where",
        "  pub f : ℕ", "-- used by a", "pub by_answer : ℕ", "by_answer = used.f"])
    file, answers = pathlib.Path("A.antt"), pathlib.Path("Answers.antt")
    texts = Texts({file: without_comments(file, text), answers: "pub returns : goal\nreturns g c = grind (by_answer)"})
    found = nothing_names(texts, {file: declarations(without_comments(file, text))})
    return [name for _, name in found] == ["R", "a", "a-b", "only"]


def main(words):
    if not finds_what_nothing_names():
        print("FAILED  what nothing names isn't found, or something else is")
        return 1
    dead = [(path.relative_to(ROOT), name) for path, name in dead_of(ROOT)]
    counts = collections.Counter(path.parts[1] for path, _ in dead)
    if words == ["--list"]:
        for path, name in dead:
            print(path.parts[1], "/".join(path.parts[2:]), name)
        print("".join(f"{crate:20}{count:5}\n" for crate, count in sorted(counts.items())), end="", file=sys.stderr)
    else:
        for path, name in dead:
            print(f"FAILED  {path}: nothing names {name}")
    print(f"dead: {len(dead)} lemmas and definitions that nothing names", file=sys.stderr if words else sys.stdout)
    return 1 if dead and not words else 0


if __name__ == "__main__":
    if sys.argv[1:] not in ([], ["--list"]):
        print(__doc__)
        sys.exit(2)
    sys.exit(main(sys.argv[1:]))
