#!/usr/bin/env python3
"""Checks docs/DEFINITIONS.md and the words of the specs, or prints the page with its lists of definitions and laws.

Usage: tests/docs/definitions.py [--print [CRATE ..]]

The lists are made, crate by crate, from the `--` lines above the definitions in crates/*/specs and the `///` lines above the
laws in crates/*/src. On the page a line says where a list belongs:

    <!-- definitions CRATE -->

Without an argument the page and the specs are checked: each definition, each law and each file of specs has its words; each
file of specs is named in its Lib.antt, and each name there is a file; each crate with specs has one place on the page, in the
order of crates.txt from the lowest up; and each name of the code that the page quotes is a definition, a law, or declared in
the code. What isn't so is named, and the status is 1. With --print the page is printed with each list in its place, or of it
the sections of these crates.
"""

import pathlib
import re
import signal
import sys
import textwrap

ROOT = pathlib.Path(__file__).resolve().parents[2]
PAGE = ROOT / "docs" / "DEFINITIONS.md"
WIDTH = 100

PLACE = re.compile(r"<!-- definitions (\w+) -->")
MOD = re.compile(r"pub mod (\w+)$")
DEFINITION = re.compile(r"(?:[a-z]+ )*pub (?!mod |use )(?:(?:record|data) )?([^\s:({]+)")
LAW = re.compile(r"pub fn (\w+)")
QUOTED = re.compile(r"`[^`]*`")
# What would begin a list or a heading where a line is broken before it.
MARK = re.compile(r" (?=(?:[-+*#>]|\d+[.)])(?: |$))")

# What a file of specs declares: a definition, private ones too, its arguments, a case of a `data`, a field of a record.
DECLARED = re.compile(r"(?:(?:abbrev|unfoldable|pub|record|data|ghost) )*([A-Za-z_][^\s:({.]*)(?:\.(\w+))?")
ARGUMENTS = re.compile(r"\b[a-z]\w*")
INSIDE = re.compile(r"  (?:pub )?([A-Za-z_]\w*)\b")
# What a file of the code declares: functions, types, traits, constants, clauses, and in a type its variants and fields.
IN_CODE = re.compile(r"\b(?:fn|struct|enum|trait|const|type|mod|ghost|union) (\w+)")
TYPE = re.compile(r"(?:pub(?:\(crate\))? )?(?:enum|struct)\b.*\{$")
VARIANT = re.compile(r"^\s+(?:pub(?:\(crate\))? )?([A-Za-z_]\w*)\s*(?:[,({:]|$)")
CLAUSE = re.compile(r"\b(?:ensures|requires) (?:ghost )?(\w+)")
# What the page quotes as a name of the code: `snake_case`, `CamelCase`, `path::to`, `Record.field`, and one lower-case word.
NAME = re.compile(r"(?:[A-Za-z]\w*)(?:(?:::|\.)[A-Za-z_]\w*)*")
# Names of Linux and of the toolchain's library, and the words of texts that examples on the page have.
OF_LINUX = """
    alloc_ordered_workqueue alloc_workqueue cancel_work cancel_work_sync check_flush_dependency destroy_workqueue disable_work
    drain_workqueue enable_work find_worker_executing_work flush_work flush_workqueue max_active process_one_work queue_work
    rescuer_thread start_flush_work work_busy work_func_t worker_thread
""".split()
OF_LIBRARY = """
    All Any Appends Consumes Model Option ReadConsumes Result WriteAppends clap decimal slice_index strip_carriage_return true
""".split()
OF_TEXTS = "R a arc b c d false n x yes".split()


def first_words(kind):
    """The words of directives, or of commands."""
    return re.findall(rf"^{kind}: (.+)", (ROOT / "docs" / "tables" / f"{kind}s.txt").read_text(), re.M)


class Words:
    """What is found in the crates: the blocks of each list, all names that are declared, and the faults."""

    def __init__(self):
        self.blocks = {}
        self.names = set(OF_LINUX + OF_LIBRARY + OF_TEXTS + first_words("directive") + first_words("command"))
        self.faults = []
        self.count = 0

    def fault(self, path, line, what):
        place = path.relative_to(ROOT)
        self.faults.append(f"{place}:{line}: {what}" if line else f"{place}: {what}")


def crates_upwards():
    """The crates of crates.txt, each after those that it needs."""
    needs = {}
    for line in (ROOT / "crates.txt").read_text().splitlines():
        name, found, rest = line.partition("#")[0].partition(":")
        if found:
            needs[name.split()[0]] = rest.split()
    order = []

    def visit(name):
        if name in needs and name not in order:
            for other in needs[name]:
                visit(other)
            order.append(name)

    for name in needs:
        visit(name)
    return order


def sentence(lines):
    """The words of comment lines as one sentence."""
    words = " ".join(" ".join(lines).split())
    return words if not words or words[-1] in ".:!?" else words + "."


def wrapped(text, indent):
    """The text in lines of at most WIDTH. What stands in backticks stays on one line."""
    kept = QUOTED.sub(lambda quoted: quoted[0].replace(" ", "\0"), MARK.sub("\0", text))
    lines = textwrap.wrap(kept, WIDTH, subsequent_indent=indent, break_long_words=False, break_on_hyphens=False)
    return "\n".join(lines).replace("\0", " ")


def entry(name, words):
    return wrapped(f"- `{name}`: {words}", "  ")


def spec_blocks(path, crate, words):
    """The head of a file of specs, its sections, and its definitions."""
    lines = path.read_text().splitlines()
    head = []
    for line in lines:
        if not line.startswith("-- ") or line.startswith("-- ----"):
            break
        head.append(line[3:])
    if not head:
        words.fault(path, 1, "a file without a head line")
    words.blocks[crate].append(wrapped(f"**`specs/{path.stem}.antt`.** {sentence(head)}", ""))
    above = []
    for number, line in enumerate(lines, 1):
        if line.startswith("-- ---- "):
            words.blocks[crate].append(f"*{line[8:9].upper()}{line[9:].strip()}:*")
            above = []
        elif line.startswith("--"):
            above.append(line[2:].strip())
        else:
            found = DEFINITION.match(line)
            if found:
                words.count += 1
                if not "".join(above):
                    words.fault(path, number, f"a spec without words: {found[1]}")
                words.blocks[crate].append(entry(found[1], sentence(above)))
            above = []


def law_blocks(path, crate, words):
    """The laws of a file, which are its public functions."""
    laws = []
    above = []
    for number, line in enumerate(path.read_text().splitlines(), 1):
        if line.startswith("///"):
            above.append(line[3:].strip())
            continue
        found = LAW.match(line)
        if found:
            words.count += 1
            if not "".join(above):
                words.fault(path, number, f"a law without words: {found[1]}")
            laws.append(entry(found[1], sentence(above)))
        above = []
    if laws:
        words.blocks[crate] += [f"**Laws**, in `src/{path.name}`:", *laws]


def names_of_specs(path, names):
    names.add(path.stem)
    for line in path.read_text().splitlines():
        found = INSIDE.match(line) if line.startswith("  ") else DECLARED.match(line)
        if found and not line.startswith("use "):
            names.update(word for word in found.groups() if word)
            names.update(ARGUMENTS.findall(line.partition(" = ")[0] if " = " in line else ""))


def names_of_code(path, names):
    names.add(path.stem)
    in_type = False
    for line in path.read_text().splitlines():
        if line.lstrip().startswith("//"):
            continue
        names.update(IN_CODE.findall(line) + CLAUSE.findall(line))
        if in_type:
            names.update(VARIANT.findall(line))
        in_type = not line.startswith("}") and (in_type or bool(TYPE.match(line)))


def gathered():
    words = Words()
    for crate in crates_upwards():
        folder = ROOT / "crates" / crate
        specs = folder / "specs"
        words.names.add(crate)
        for path in sorted((folder / "src").glob("**/*.rt")):
            names_of_code(path, words.names)
        lib = specs / "Lib.antt"
        if not lib.is_file():
            continue
        words.blocks[crate] = []
        named = [found[1] for found in map(MOD.match, lib.read_text().splitlines()) if found]
        for name in named:
            if (specs / f"{name}.antt").is_file():
                spec_blocks(specs / f"{name}.antt", crate, words)
            else:
                words.fault(lib, 0, f"there is no {name}.antt")
        for path in sorted(specs.rglob("*.antt")):
            names_of_specs(path, words.names)
            if path != lib and (path.parent != specs or path.stem not in named):
                words.fault(path, 0, "a file that Lib.antt doesn't name")
        for path in sorted((folder / "src").glob("*laws.rt")):
            law_blocks(path, crate, words)
    return words


def is_entry(block):
    return block.startswith("- ")


def joined(blocks):
    """The text of a list: entries follow one another, and all else has an empty line before it and behind it."""
    text = ""
    for at, block in enumerate(blocks):
        if at and not (is_entry(block) and is_entry(blocks[at - 1])):
            text += "\n"
        text += block + "\n"
    return text


def check_places(text, words):
    """Each crate with specs has one place for its list, and the places are in order."""
    found = [place[1] for place in map(PLACE.fullmatch, text.splitlines()) if place]
    for crate in words.blocks:
        if found.count(crate) != 1:
            words.fault(PAGE, 0, f"there is {'more than one' if crate in found else 'no'} place for the list of {crate}")
    for crate in found:
        if crate not in words.blocks:
            words.fault(PAGE, 0, f"there is a place for the list of {crate}, which has no specs")
    wanted = [crate for crate in words.blocks if crate in found]
    if [crate for crate in found if crate in words.blocks] != wanted:
        words.fault(PAGE, 0, f"the places of the lists aren't in the order {' '.join(wanted)}")


def check_names(text, words):
    """Each name that the page quotes is declared somewhere; how many are."""
    known = 0
    code = False
    for number, line in enumerate(text.splitlines(), 1):
        code ^= line.startswith("```")
        if code or line.startswith("    "):
            continue
        for quoted in QUOTED.findall(line):
            name = quoted.strip("`").removesuffix("-").removesuffix(".antt")
            if not NAME.fullmatch(name) or "/" in name:
                continue
            known += 1
            if not all(word in words.names for word in re.split(r"::|\.", name)):
                words.fault(PAGE, number, f"there is no {name}")
    return known


def printed(text, crates, words):
    """The page with its lists, or the sections that have the lists of these crates."""
    sections = re.split(r"(?m)^(?=## )", text)
    if crates:
        sections = [part for part in sections if any(crate in PLACE.findall(part) for crate in crates)]
    filled = PLACE.sub(lambda place: joined(words.blocks.get(place[1], [])).rstrip("\n"), "".join(sections))
    return filled.rstrip("\n") + "\n"


def main():
    arguments = sys.argv[1:]
    if arguments[:1] not in ([], ["--print"]):
        sys.exit(__doc__)
    words = gathered()
    text = PAGE.read_text()
    if arguments:
        unknown = [crate for crate in arguments[1:] if crate not in words.blocks]
        if unknown:
            sys.exit(f"definitions: there are no specs of {', '.join(unknown)}; there are those of {' '.join(words.blocks)}")
        signal.signal(signal.SIGPIPE, signal.SIG_DFL)  # (what reads it may have read enough)
        sys.stdout.write(printed(text, arguments[1:], words))
        return
    check_places(text, words)
    passed = words.count + check_names(text, words)
    for fault in words.faults:
        print(f"FAILED  {fault}")
    print(f"definitions: {passed - len(words.faults)} passed, {len(words.faults)} failed")
    sys.exit(1 if words.faults else 0)


main()
