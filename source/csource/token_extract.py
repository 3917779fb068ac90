"""Facts by the reader of tokens; of files of which it isn't sure, by Coccinelle."""

import hashlib
import os
import pathlib
from dataclasses import dataclass, field
from typing import Callable, Optional, Sequence

from . import reader
from .cache import Cache
from .extract import Extractor
from .facts import Facts
from .headers import Includes
from .named_calls import called_in
from .progress import Progress
from .shared_out import Made, Shared, Task, begin, begin_with
from .token_facts import TokenFacts
from .token_types import TYPE_KINDS, Parts, Types

HERE = pathlib.Path(__file__).resolve().parent
READS = ("lexer.py", "words_of_c.py", "sink.py", "reader.py", "bodies.py", "guards.py")
VERSION = hashlib.sha256(b"\0".join((HERE / name).read_bytes() for name in READS)).hexdigest()
# Of what is made of the types that the reader says.
TOGETHER = hashlib.sha256(b"\0".join((HERE / name).read_bytes() for name in (*READS, "token_types.py"))).hexdigest()
# Of what a file calls by its text alone.
CALLS = hashlib.sha256(b"\0".join((HERE / name).read_bytes() for name in ("ctext.py", "named_calls.py"))).hexdigest()
# So many texts are written sooner than a process begins.
FEW = 10
# What Coccinelle's facts of a file lack, the reader's give.
KEPT_OF_READER = (*TYPE_KINDS, "LOC", "GRD")
# Of a file the lines of facts, and those of what it calls by its text alone.
ReadLines = tuple[list[str], list[str]]


@dataclass
class Unsure:
    """A file of which the reader isn't sure, and why."""

    file: str
    why: str


@dataclass
class TokenExtractor:
    """Reads the files of a tree, and the types of the headers that they include."""

    cache: pathlib.Path
    progress: Progress
    coccinelle: Extractor
    unsure: list[Unsure] = field(default_factory=list)
    # what the files of the next `read` include, if somebody has looked already
    known_includes: Optional[Includes] = None
    # what was read for it already: of each path the lines of facts, and what the file calls by its text alone; types
    known_lines: dict[str, ReadLines] = field(default_factory=dict)
    known_types: dict[str, Parts] = field(default_factory=dict)

    def __post_init__(self) -> None:
        self.kept = Cache(self.cache)

    @property
    def jobs(self) -> int:
        """How many processes there may be."""
        return self.coccinelle.jobs

    def read(self, tree: pathlib.Path, files: list[str]) -> Facts:
        """The facts of some files."""
        includes = self.includes(tree)
        headers = includes.all_of(files)
        reading = self.begin_files(tree, files)
        while reading.make_next():
            self.say_read(len(reading.made), len(files))
        # (others go on with the headers, while this process puts together what there is)
        types = self.begin_types(tree, [file for file in headers if file not in set(files)], includes)
        read = self.finish_files(tree, files, reading)
        lines = {file: found for file, (found, _) in read.items()}
        self.ask_coccinelle(tree, lines)
        own = Types()
        for found in lines.values():
            own.take_lines(found)
        facts = TokenFacts(tree, lines, own, headers, types)
        self.known_includes = None
        self.known_lines, self.known_types = {}, {}
        self.leave_owed()
        called = {file: calls for file, (_, calls) in read.items()}
        facts.called_in = lambda file: calls_of(called[file])
        return facts

    def includes(self, tree: pathlib.Path) -> Includes:
        """Which files of a tree include which: what is known of it already, if something is."""
        known = self.known_includes
        return known if known is not None and known.tree == tree else Includes(tree)

    # Files

    def read_ahead(self, tree: pathlib.Path, files: list[str], includes: Includes, is_enough: Callable[[], bool]) -> None:
        """Reads files of the next `read`, and the headers that they include, until it is enough."""
        self.known_includes = includes
        for file in files:
            if is_enough():
                return
            self.known_lines[os.path.join(tree, file)] = self.lines_of(tree, file), self.called_lines(tree, file)
        own = set(files)
        for header in includes.all_of(files):
            if is_enough():
                return
            if header not in own:
                self.known_types[os.path.join(tree, header)] = self.types_of(tree, header, includes.digest(header))

    def read_files(self, tree: pathlib.Path, files: list[str]) -> None:
        """Reads files of the next `read`, in several processes."""
        self.finish_files(tree, files, self.begin_files(tree, files))

    def begin_files(self, tree: pathlib.Path, files: list[str]) -> Shared[str, ReadLines]:
        """The reading of those of which nothing is known yet."""
        unread = [file for file in files if os.path.join(tree, file) not in self.known_lines]
        unread.sort(key=lambda file: os.path.getsize(os.path.join(tree, file)), reverse=True)
        return self.shared(unread, lambda file: (self.lines_of(tree, file), self.called_lines(tree, file)))

    def finish_files(
        self, tree: pathlib.Path, files: list[str], reading: Shared[str, ReadLines]
    ) -> dict[str, ReadLines]:
        """Of each file the lines of facts. What it calls by its text alone will be asked for, too: it is known then."""
        found = reading.finish(lambda done: self.say_read(done, len(files)))
        self.known_lines |= {os.path.join(tree, file): lines for file, lines in zip(reading.tasks, found)}
        return {file: self.known_lines[os.path.join(tree, file)] for file in files}

    def say_read(self, done: int, of: int) -> None:
        self.progress.say(f"reading C: {done} of {of} files")

    def give_calls(self, tree: pathlib.Path, facts: Facts) -> None:
        """What a file calls by its text alone, facts have from here."""
        facts.called_in = lambda file: calls_of(self.called_lines(tree, file))

    def ask_coccinelle(self, tree: pathlib.Path, lines: dict[str, list[str]]) -> None:
        """Takes Coccinelle's facts of files of which the reader isn't sure."""
        odd = {
            file: found[0].split("\t")[1] for file, found in lines.items() if found[:1] and found[0].startswith("ODD")
        }
        for file, line in odd.items():
            self.unsure.append(Unsure(file, f"line {line}: a bracket without the other one"))
            self.progress.tell(f"{file}: {self.unsure[-1].why}. Coccinelle reads this file")
        for file, theirs in self.coccinelle.facts(tree, list(odd)).items():
            own = [line for line in lines[file] if line.startswith(KEPT_OF_READER)]
            lines[file] = theirs + own

    # Types of headers

    def types_together(self, tree: pathlib.Path, headers: list[str]) -> Types:
        """Those that some headers define."""
        found = self.begin_types(tree, headers, Includes(tree))()
        self.kept.write_owed()
        return found

    def begin_types(self, tree: pathlib.Path, headers: list[str], includes: Includes) -> Callable[[], Types]:
        """The same, with which others have begun. They are kept together as well: each call about a driver has the same
        headers."""
        digests = list(map(includes.digest, headers))
        name = hashlib.sha256(b"\0".join([TOGETHER.encode(), *digests])).hexdigest()
        kept = self.kept.get(name)
        if kept is not None:
            return lambda: Types.of_text(kept)
        unread = [header for header in headers if os.path.join(tree, header) not in self.known_types]
        unread.sort(key=includes.size, reverse=True)
        reading = self.shared(unread, lambda header: self.types_of(tree, header, includes.digest(header)))

        def finish() -> Types:
            say = lambda done: self.progress.say(f"reading types: {done} of {len(headers)} files")
            read = dict(zip(unread, reading.finish(say)))
            found = Types()
            for header in headers:
                found.take_parts(read.get(header) or self.known_types[os.path.join(tree, header)])
            self.kept.owe(name, found.text)
            return found

        return finish

    def types_of(self, tree: pathlib.Path, file: str, digest: bytes) -> Parts:
        """The types that a header defines. `digest` is that of what is in it."""
        found = Types()
        found.take_lines(self.made_of(tree / file, "types", reader.types_of, digest))
        return found.parts()

    # One file

    def lines_of(self, tree: pathlib.Path, file: str) -> list[str]:
        known = self.known_lines.get(os.path.join(tree, file))
        return known[0] if known else self.made_of(tree / file, "facts", reader.facts_of)

    def called_lines(self, tree: pathlib.Path, file: str) -> list[str]:
        """What a file calls by its text alone."""
        read = lambda text: [f"{name}\t{line}" for name, line in called_in(text)]
        return self.made_of(tree / file, f"called {CALLS}", read)

    def made_of(self, source: pathlib.Path, what: str, make: "reader.Reads", digest: bytes = b"") -> list[str]:
        """What was made of a file, from the cache if it is there: it is kept by what is in the file.

        `digest` is that of it, as far as somebody knows it. (A file may have been written anew since.)
        """
        found = self.kept.get(named(what, digest)) if digest else None
        if found is None:
            data = source.read_bytes()
            name = named(what, hashlib.sha256(data).digest())
            found = self.kept.made(name, lambda: "\n".join(make(data.decode(errors="replace"))))
        return found.splitlines()

    def leave_owed(self) -> None:
        """Another process writes into the cache what this one owes."""
        if self.jobs > 1 and (self.kept.unmade or len(self.kept.owed) > FEW):
            begin(self.kept.write_owed)
            self.kept.forget()
        else:
            self.kept.write_owed()

    def shared(self, tasks: Sequence[Task], make: Callable[[Task], Made]) -> Shared[Task, Made]:
        """Tasks with which other processes begin. What these have made they write into the cache when they are through,
        and the first of them what this process owes."""
        kept, before = self.kept, len(self.kept.owed)
        kept.is_owing = self.jobs > 1

        def write(process: int) -> None:
            kept.owed = kept.owed[0 if process == 0 else before :]
            kept.write_owed()

        found = begin_with(tasks, self.jobs, make, write)
        if found.processes:
            kept.owed = []
        return found


def calls_of(lines: list[str]) -> list[tuple[str, int]]:
    """The calls that called_lines says: names, each with its line."""
    return [(name, int(line)) for name, _, line in (line.partition("\t") for line in lines)]


def named(what: str, digest: bytes) -> str:
    """What is kept of a file has this name."""
    return hashlib.sha256(b"\0".join((VERSION.encode(), what.encode(), digest))).hexdigest()
