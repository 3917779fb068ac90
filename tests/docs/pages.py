#!/usr/bin/env python3
"""Looks for each name on the pages that speak of the code, and for each section of a page that is named anywhere, and says which of them
are nowhere; and measures pages.

What stands in backticks is a name where it looks like one of the code's: `snake_case`, `CamelCase`, `path::to`, a field
`Record.field` of a record of crates/*/specs, a file by the end of its path (`src/lib.rt`), or a folder of the repository.

A section is named as in `docs/FORMAT.md, "Limits"`, or `"Limits" and "Directives" in docs/FORMAT.md`, or `GUIDE.md, section 2`. It is a
heading of this page, or what stands in bold where a paragraph begins.

Outside code blocks no line of a page of MEASURED has more than LINE_WIDTH columns, or CODE_WIDTH if the page stands beside code, or, in a
table, ROW_WIDTH. How long a page is, is judged by its readers.
"""

import pathlib
import re
import sys

ROOT = pathlib.Path(__file__).resolve().parents[2]
PAGES = ["README.md", "CONTRIBUTING.md", "bench/README.md", "tests/DIAGNOSES.md", "tests/FORMATS.md"]
PAGES += [f"docs/{name}.md" for name in ("ARCHITECTURE", "DECISIONS", "DEFINITIONS", "FORMAT", "LOCKDEP", "MESSAGES", "PROMISES")]
PAGES += ["docs/REPAIR.md", "docs/RUNTIME.md"]
# Where sections are named: in sources, on pages and in what is beside them, in these folders and at the top.
CITING = ["bench", "crates", "docs", "examples", "kernel", "man", "package", "source", "tests"]
# The pages that are measured: all of the repository.
MEASURED = sorted(str(page.relative_to(ROOT)) for page in ROOT.rglob("*.md") if "out" not in page.parts and ".git" not in page.parts)
LINE_WIDTH = 100
CODE_WIDTH = 120
ROW_WIDTH = 160
BESIDE_CODE = ("kernel", "source", "tests")

# Where the names of the code are found, and names of Linux and of the toolchain's library.
FOLDERS = ["crates", "tests", "bench", "man"]
OF_OTHERS = """
    check_flush_dependency connect_work create_worker create_workqueue destroy_workqueue disable_work drain_workqueue enable_work
    find_worker_executing_work worker_thread
    flush_workqueue max_active nvme_tcp_wq start_flush_work work_busy CONFIG_PROVE_LOCKING FitsInMemory SmallVec
""".split()
# What stands for any name.
ANY = re.compile(r"NAME|MISTAKE|SUBJECT|FUNCTION|METHOD|FILE")

WORD = re.compile(r"[A-Za-z_]\w*")
NAME = re.compile(r"(?:\w+::)*[A-Za-z_]\w*_\w+|(?:\w+::)*(?:[A-Z]+[a-z]+)+|\w+(?:::\w+)+")
FIELD = re.compile(r"(\w+)\.(\w+)")
FILE = re.compile(r"[\w./-]*\w\.(?:antt|rt|py|sh|edit|md|bash|[15])")
FOLDER = re.compile(r"(?:crates|tests|docs|bench|man|examples)/[\w./-]*\w")

PAGE = r"(?P<page>(?:\w+/)*[A-Z]+\.md)"
NAMES = r'(?P<names>"[^"\n{]{1,80}"(?:(?:,| and|, and) "[^"\n{]{1,80}")*)'
LINK = r"(?:\]\([^)]*\))?"
CITATIONS = [
    re.compile(rf"{NAMES} (?:in|of) \[?{PAGE}"),
    re.compile(rf"{PAGE}{LINK}, {NAMES}"),
    re.compile(rf"{PAGE}{LINK}, sections? (?P<names>\d+)"),
]
# A line break, with what begins the next line in a comment.
BREAK = re.compile(r"\n[ \t]*(?://[/!]?|--|#|\*)?[ \t]*")
HEADING = re.compile(r"#+ (.*)|\*\*([^*]+?)\.?\*\*")

RECORD = re.compile(r"(?:pub )?record (\w+)")
FIELD_OF_RECORD = re.compile(r"  (?:pub )?(\w+) :")


def files():
    """The files of the repository, without what a check makes: of each its path, and the same with a slash before it."""
    for path in ROOT.rglob("*"):
        parts = path.relative_to(ROOT).parts
        if path.is_file() and parts[0] != ".git" and "out" not in parts:
            yield path, "/" + "/".join(parts)


def fields_of(text, fields):
    """Adds the fields of the records in a file of specs."""
    name = None
    for line in text.splitlines():
        record, field = RECORD.match(line), FIELD_OF_RECORD.match(line)
        if record:
            name = record[1]
            fields.setdefault(name, set())
        elif field and name:
            fields[name].add(field[1])
        elif line and not line.startswith(" "):
            name = None


class Code:
    """What can be named: words, fields of records, files."""

    def __init__(self):
        self.words = set(OF_OTHERS)
        self.fields = {}
        self.files = []
        for path, name in files():
            self.files.append(name)
            if name.split("/")[1] in FOLDERS:
                text = path.read_text(errors="ignore")
                self.words.update(WORD.findall(text), WORD.findall(name))
                if "/specs/" in name:
                    fields_of(text, self.fields)

    def has(self, quoted):
        """Whether what is quoted is there; None where it isn't a name."""
        field = FIELD.fullmatch(quoted)
        if ANY.search(quoted) or "/out" in quoted:
            return None
        if FILE.fullmatch(quoted):
            return any(name.endswith("/" + quoted) for name in self.files)
        if field and field[1] in self.fields:
            return field[2] in self.fields[field[1]]
        if FOLDER.fullmatch(quoted):
            return (ROOT / quoted).exists()
        if NAME.fullmatch(quoted):
            return all(word in self.words for word in quoted.split("::"))
        return None


def sections():
    """Of each page, by its name without folders, what can be named in it: its headings, and the numbers of those that have one."""
    found = {}
    for page in MEASURED:
        names = found.setdefault(page.split("/")[-1], set())
        is_code = False
        before = ""
        for line in (ROOT / page).read_text().splitlines():
            is_code ^= line.startswith("```")
            heading = HEADING.match(line)
            if heading and not is_code and (heading[1] or not before):
                name = heading[1] or heading[2]
                names.update((name, name.split(". ")[0]))
            before = line
    return found


def named(text):
    """The sections that a text names: of each its page and its name or number."""
    text = BREAK.sub(" ", text)
    for citation in CITATIONS:
        for match in citation.finditer(text):
            for name in re.findall(r'"([^"]+)"', match["names"]) or [match["names"]]:
                yield match["page"].split("/")[-1], name


def too_wide(page):
    """Of each line or row of a page that is too wide, its number and its width."""
    is_code = False
    width = CODE_WIDTH if page.split("/")[0] in BESIDE_CODE else LINE_WIDTH
    for number, line in enumerate((ROOT / page).read_text().splitlines(), 1):
        is_code ^= line.startswith("```")
        if not is_code and len(line) > (ROW_WIDTH if line.startswith("|") else width):
            yield f"{page}:{number}: {len(line)} columns"


def main():
    code = Code()
    passed = failed = 0
    for page in MEASURED:
        found = list(too_wide(page))
        passed += not found
        failed += len(found)
        for what in found:
            print(f"FAILED  {what}")
    there = sections()
    for path, name in files():
        folders = name.split("/")[1:-1]
        if not folders or folders[0] in CITING:
            for page, section in named(path.read_text(errors="ignore")):
                is_there = section in there.get(page, ())
                passed += is_there
                failed += not is_there
                if not is_there:
                    print(f"FAILED  {name[1:]}: there is no section {section!r} in {page}")
    for page in PAGES:
        for number, line in enumerate((ROOT / page).read_text().splitlines(), 1):
            for quoted in re.findall(r"`([^`]+)`", line):
                found = code.has(quoted)
                passed += found is True
                if found is False:
                    failed += 1
                    print(f"FAILED  {page}:{number}: there is no {quoted}")
    print(f"pages: {passed} passed, {failed} failed")
    sys.exit(1 if failed else 0)


main()
