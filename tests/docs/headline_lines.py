#!/usr/bin/env python3
"""How much has to be read behind the headline.

From `KeepsPromise` (crates/wq_commands/specs/Promise.antt) it follows each definition in crates/*/specs that is cited,
directly or over others, and prints how many there are, how many lines they have, and how many the comments above them
have, without blank lines; beside it how many lines they would be if one of more than 120 columns were broken. std's words
aren't counted, and the enums of src/ that are cited are named by themselves.

The headline may rest on 450 lines at most. If it rests on more, that is said, and the status is 1.

    tests/docs/headline_lines.py [--list] [CRATE.MODULE.NAME]

With --list the definitions are printed too, each below those that it cites.
"""
import pathlib
import re
import sys

ROOT = pathlib.Path(__file__).resolve().parents[2]
HEADLINE = "wq_commands.Promise.KeepsPromise"
COLUMNS = 120
MOST = 450

WORD = re.compile(r"[^\s()\[\]{},;.λ→∷×⊎|]+")
IMPORT = re.compile(r"^(?:pub )?use Rattle\.(\w+)\.specs\.([\w.]+?)(?:\.\{(.*)\})?(?: as (\w+))?$")
START = re.compile(r"^(?:abbrev |unfoldable )?(?:pub )?(?:(record|data) )?([^\s:]+)")


class Module:
    """The definitions of one file of specs/, and what its imports name."""

    def __init__(self, crate, name):
        self.blocks = {}  # of each definition its lines, with the comment above it
        self.owner = {}  # of each name the definition that it stands in
        self.imported = {}  # of each name where it comes from: (crate, module, name)
        self.types = {}  # of each name the enum or struct of src/ that it comes from
        path = ROOT / "crates" / crate / "specs" / (name.replace(".", "/") + ".antt")
        block = []
        for line in path.read_text().splitlines() + [""]:
            if line.startswith(("use ", "pub use ")):
                self.read_import(line)
            elif line.strip():
                block.append(line)
            elif block:
                self.read_block(block)
                block = []

    def read_import(self, line):
        crate, module, names, alias = IMPORT.match(line).groups()
        if crate == "std":
            return
        if names is None:
            names = alias or module.split(".")[-1]
        for name in names.split(", "):
            name, _, as_name = name.partition(" as ")
            if module.startswith("declared."):
                self.types[as_name or name] = crate + ": " + module.split(".")[2]
            else:
                self.imported[as_name or name] = (crate, module, name)

    def read_block(self, lines):
        above = [n for n, line in enumerate(lines) if line.startswith("--")]
        body = lines[len(above) :]
        if not body:
            return
        kind, name = START.match(body[0]).groups()
        self.blocks[name] = lines
        self.owner[name] = name
        if kind == "data":
            for line in body[1:]:
                self.owner[line.split()[0]] = name


MODULES = {}


def module_of(crate, name):
    if (crate, name) not in MODULES:
        MODULES[crate, name] = Module(crate, name)
    return MODULES[crate, name]


def broken(block):
    """How many lines these are where each long one is broken."""
    return sum(-(-len(line) // COLUMNS) for line in block)


def main():
    args = [arg for arg in sys.argv[1:] if arg != "--list"]
    crate, _, rest = (args[0] if args else HEADLINE).partition(".")
    module, _, name = rest.rpartition(".")
    seen, order, types = set(), [], set()

    def follow(crate, module, name):
        here = module_of(crate, module)
        name = here.owner[name]
        if (crate, module, name) in seen:
            return
        seen.add((crate, module, name))
        body = [line for line in here.blocks[name] if not line.startswith("--")]
        for word in WORD.findall("\n".join(body)):
            if word in here.imported:
                follow(*here.imported[word])
            elif word in here.owner:
                follow(crate, module, word)
            elif word in here.types:
                types.add(here.types[word])
        order.append((crate, module, name))

    follow(crate, module, name)
    blocks = [(c, m, module_of(c, m).blocks[n]) for c, m, n in order]
    if "--list" in sys.argv:
        at = None
        for c, m, block in blocks:
            if (c, m) != at:
                print(f"\n==== {c}, specs/{m}.antt")
                at = (c, m)
            print("\n" + "\n".join(block))
        print()
    said = [line for _, _, block in blocks for line in block if not line.startswith("--")]
    above = [line for _, _, block in blocks for line in block if line.startswith("--")]
    print(f"{len(blocks)} definitions: {len(said)} lines ({broken(said)} of at most {COLUMNS} columns), {len(above)} of comments above them")
    print(f"enums of src/: {', '.join(sorted(types))}")
    if (crate, module, name) == tuple(HEADLINE.split(".")) and len(said) > MOST:
        print(f"headline_lines.py: {HEADLINE} rests on {len(said)} lines; {MOST} are allowed")
        sys.exit(1)


main()
