"""`ask`: the unsure lines of a declaration that decide whether its workqueues hang, one after another.

`wqplan hang` says which few lines have to be read. Each answer is written into the declaration at once, into a new file
beside it, which then takes its place.
"""

import collections
import functools
import pathlib
import re
import subprocess
import tempfile
from dataclasses import dataclass, field
from typing import Iterator, Optional, Sequence

from . import outputs, says
from .calls import Edge
from .cited import FLUSHES, UNSURE, Cited, Located
from .declaration import Declaration
from .draft import Draft
from .faults import Fault
from .places import FunctionId, Place
from .program import Program
from .question import SECONDS, NoWqplan, find_wqplan
from .reach import Reached, reached_from
from .sites import Key, Site, key_of

SAFE, HANGS, REFUSED = 0, 1, 2
# What stands before the `?` of an unsure line.
BEFORE_MARK = re.compile(r"\s*flush(?:wq)?(?=\?)")
# What a draft says of the item that stands for what isn't known.
UNKNOWN = "thread: what ends a wait and isn't known"
# Behind this, a comment names the calls that lead to its site.
WAY = ", from "
# What `wqplan hang` notes beside `safe`, if items are NAMEd (docs/MESSAGES.md, "What isn't held up").
NOTE = re.compile(r": (note: nothing (?:on the workqueues? of|holds up) .*)")


@dataclass
class Waiting:
    """A wait of the run: at its end this one is never over."""

    queue: str
    item: str
    target: str
    is_whole: bool

    def __str__(self) -> str:
        whole = "all of the workqueue of " if self.is_whole else ""
        return f"{self.item}, on workqueue {self.queue}, waits for {whole}{self.target}"


@dataclass
class Hang:
    """What `wqplan hang` answers, if the workqueues aren't safe: the unsure lines that are needed, and the run."""

    unsure: list[list[str]]
    run: list[str]

    def waiting(self) -> list[Waiting]:
        """The waits in which the run ends."""
        on: dict[str, str] = {}
        found: dict[str, Waiting] = {}
        for step in self.run:
            word, *words = step.split()
            if word == "start":
                on[words[0]] = words[1]
            elif word in ("wait", "waitwq"):
                found[words[0]] = Waiting(words[0], on[words[0]], words[1], word == "waitwq")
            elif word in ("over", "overwq", "finish"):
                found.pop(words[0], None)
        return list(found.values())

    def held_up(self, names: Sequence[str]) -> Optional[str]:
        """Which of the NAMEd items doesn't come to its end; None if none is NAMEd. It is one of those that wait, which are
        queued first, or the next one, which is behind the first of these (docs/FORMAT.md, "What must go on")."""
        queued = [step.split()[1] for step in self.run if step.startswith("queue ")]
        return next((item for item in queued if item in names), None)


class Wqplan:
    """The program that is asked."""

    def __init__(self) -> None:
        self.path = find_wqplan()

    def hang(self, text: str, name: str, assignment: str, needed: Sequence[str]) -> Optional[Hang]:
        """What `wqplan hang` says of a declaration of this name, a file with an assignment, and NAMEs; None if it is safe."""
        status, out, _ = self.answer(text, name, assignment, needed)
        return parsed(out) if status == HANGS else None

    def notes(self, text: str, name: str, assignment: str, needed: Sequence[str]) -> list[str]:
        """What it says of the NAMEs beside `safe`."""
        _, _, said = self.answer(text, name, assignment, needed)
        return NOTE.findall(said)

    def answer(self, text: str, name: str, assignment: str, needed: Sequence[str]) -> tuple[int, str, str]:
        """Its status, and what it writes to standard output and to standard error."""
        with tempfile.TemporaryDirectory() as folder:
            kept = pathlib.Path(folder) / name
            kept.write_bytes(text.encode("utf-8", "surrogateescape"))
            # (a name may begin with a dash)
            names = ["--", *needed] if needed else []
            command = [self.path, "hang", str(kept), assignment, *names]
            try:
                ran = subprocess.run(command, capture_output=True, timeout=SECONDS)
            except (OSError, subprocess.TimeoutExpired) as error:
                raise NoWqplan(f"{self.path}: {error}") from error
        out = ran.stdout.decode(errors="surrogateescape")
        said = ran.stderr.decode(errors="surrogateescape").replace(f"{folder}/", "")
        if ran.returncode not in (SAFE, HANGS):
            raise Fault(f"wqplan hang: {out.strip()}{open_lines(text)}\n{said}".rstrip())
        return ran.returncode, out, said


def open_lines(text: str) -> str:
    """How many lines of a declaration have to be decided before anything can be asked."""
    found = [number for number, line in enumerate(text.split("\n"), 1) if line.startswith("?")]
    return f": {says.counted(len(found), 'line')} to decide first, from line {found[0]} on" if found else ""


def parsed(out: str) -> Hang:
    """The answer of `hang`: its unsure part, if it has one, and the steps of the run."""
    lines = out.splitlines()
    unsure = int(lines[0].split()[1]) if lines[0].startswith("unsure ") else None
    behind = 0 if unsure is None else unsure + 1
    return Hang([line.split() for line in lines[1:behind]], lines[behind + 1 :])


@dataclass
class Read:
    """A declaration beside its files: which sites a line cites, and who comes there."""

    program: Program
    cited: Cited
    draft: Draft
    # the shortest way of each item to each site, along calls that no line cuts
    ways: dict[FunctionId, dict[Key, list[Edge]]] = field(default_factory=dict)

    @staticmethod
    def of(declaration: Declaration, program: Program) -> "Read":
        return Read(program, Cited(declaration, program), Draft(program, []))

    def beside(self, declaration: Declaration) -> "Read":
        """The same files beside another declaration: their ways stay, if the same calls are cut."""
        other = Read(self.program, Cited(declaration, self.program), self.draft)
        if (other.closed, other.cut) == (self.closed, self.cut):
            other.ways = self.ways
        return other

    @functools.cached_property
    def closed(self) -> set[FunctionId]:
        """The functions that `# not through:` lines name."""
        return set(self.cited.closed())

    @functools.cached_property
    def cut(self) -> set[Key]:
        """The calls of functions of these files that `# no wait:` lines dismiss: they aren't followed."""
        dismissed = self.cited.declaration.dismissals
        if not dismissed:
            return set()
        called = [edges for functions in self.program.graph.edges.values() for edges in functions.values()]
        calls = [edge.call for edges in called for edge in edges if self.cited.may_dismiss(edge.call.name)]
        return {key for key in map(key_of, calls) if self.cited.dismissal_of(key)}

    def reached(self, function: FunctionId) -> Reached:
        """What a work function reaches along calls that no line cuts."""
        if not self.closed and not self.cut:
            return self.program.sleeps[function]
        return reached_from(self.program.graph, function, self.follows, self.closed)

    def follows(self, edge: Edge) -> bool:
        return self.program.may_sleep(edge) and key_of(edge.call) not in self.cut

    def sites_of(self, number: int) -> list[Site]:
        """The sites that a line of the declaration cites, but for the calls that lead to them."""
        line = self.cited.declaration.lines[number - 1]
        before, _, _ = line.partition(WAY)
        found: dict[Key, Site] = {}
        for one in self.located.get(number, ()):
            citation = one.citation
            if citation.decides and citation.column < len(before):
                for site in self.sites_in.get(one.file, ()):
                    if any(citation.line <= line <= citation.last for line in site.lines):
                        found.setdefault(site.key, site)
        return list(found.values())

    @functools.cached_property
    def located(self) -> dict[int, list[Located]]:
        """The citations of each line: all lines are looked at for a question, and they are thousands."""
        found: dict[int, list[Located]] = {}
        for one in self.cited.located:
            found.setdefault(one.citation.number, []).append(one)
        return found

    @functools.cached_property
    def sites_in(self) -> dict[str, list[Site]]:
        """The sites of each file."""
        found: dict[str, list[Site]] = {}
        for site in self.program.sites.by_key.values():
            found.setdefault(site.key.file, []).append(site)
        return found

    def way(self, item: str, site: Site) -> Optional[list[Edge]]:
        """The calls that lead from an item to a site; None where it isn't known that any do."""
        for function in self.cited.starts(item):
            if function not in self.program.items.items:
                continue
            if function not in self.ways:
                waits = self.draft.waits_of(function, {function}, self.reached)
                self.ways[function] = {}
                for one, path, _ in waits:
                    known = self.ways[function].setdefault(one.key, path)
                    if len(path) < len(known):
                        self.ways[function][one.key] = path
            if site.key in self.ways[function]:
                return self.ways[function][site.key]
        return None

    def is_cancel(self, edge: Edge) -> bool:
        """Whether this stands for a cancel that waits while its item runs, and is no call."""
        return not edge.call.arguments and any(
            site.id == edge.place.id and edge.place.line in site.lines and site.key.call == edge.call.name
            for site in self.draft.cancels.values()
        )

    def reaching(self, site: Site) -> set[str]:
        """The declared items that come to a site."""
        return {item.name for item in self.cited.declaration.items if self.way(item.name, site) is not None}

    def short(self, key: Key) -> Key:
        return key._replace(file=self.draft.short(key.file))


class Text:
    """A declaration as it is now, and what becomes of it by an answer."""

    def __init__(self, path: pathlib.Path) -> None:
        self.path = path
        self.text = path.read_bytes().decode("utf-8", "surrogateescape")
        self.lines = self.text.split("\n")

    def words(self, number: int) -> list[str]:
        return self.lines[number - 1].partition("#")[0].split()

    def numbers(self, *kinds: list[str]) -> Iterator[int]:
        """The lines whose first word is one of these."""
        return (number for number in range(1, len(self.lines) + 1) if self.words(number)[:1] in kinds)

    def unsure(self) -> list[int]:
        return list(self.numbers(*UNSURE))

    def without(self, numbers: set[int]) -> str:
        """The text in which these lines are empty."""
        return "\n".join("" if number in numbers else line for number, line in enumerate(self.lines, 1))

    def replaced(self, changes: dict[int, Optional[list[str]]]) -> str:
        """The text in which some lines are others; None takes a line away."""
        lines = []
        for number, line in enumerate(self.lines, 1):
            lines += [line] if number not in changes else changes[number] or []
        return "\n".join(lines)


def made_sure(line: str) -> str:
    """The line without its `?`."""
    found = BEFORE_MARK.match(line)
    assert found
    return line[: found.end()] + line[found.end() + 1 :]


@dataclass
class CallOfWay:
    """A call that leads to the wait of a question: what it is kept by, and the file and the name of what it calls."""

    edge: Edge
    key: Key
    function: str

    def is_named(self) -> bool:
        """Whether a `# no wait` line can name it: a call by an expression has no name."""
        return bool(Declaration.of("", f"# no wait: {self.key}: why\n").dismissals)

    def comment(self, of_function: bool, why: str) -> str:
        """The line that says that the call isn't made, or that what it calls never leads to a wait."""
        return f"# not through: {self.function}: {why}" if of_function else f"# no wait: {self.key}: {why}"


class Asking:
    """The questions about a declaration and an assignment, as they are by the answers up to now: whether one of the NAMEd
    items can be held up, or, if none is NAMEd, whether the workqueues can hang."""

    def __init__(
        self, path: pathlib.Path, assignment: str, needed: Sequence[str], program: Optional[Program], wqplan: Wqplan
    ) -> None:
        self.path, self.assignment, self.needed, self.program, self.wqplan = path, assignment, needed, program, wqplan
        # lines that were put off, by what stands in them
        self.later: collections.Counter[str] = collections.Counter()
        self.read: Optional[Read] = None
        # a comment, the text that it was tried with, and the flush lines whose sites nobody reaches with it
        self.lost: tuple[str, str, set[int]] = "", "", set()
        self.read_again()

    def read_again(self) -> None:
        """Reads the declaration, and asks what it depends on."""
        self.text = Text(self.path)
        declaration = Declaration.of(str(self.path), self.text.text)
        self.unknown = {item.name for item in declaration.items if UNKNOWN in item.comment}
        if self.program:
            self.read = self.read.beside(declaration) if self.read else Read.of(declaration, self.program)
        self.hang = self.hang_of(self.text.text)
        self.number, self.asked = self.next_question()

    def next_question(self) -> tuple[Optional[int], Optional[Hang]]:
        """The first line of the answer, as if those that were put off weren't there. Of hangs that need as few lines comes
        first one with known targets, and last one in which an item waits for itself: mostly another one of its kind is
        meant."""
        if self.hang is None or not self.hang.unsure:
            return None, self.hang
        away = self.put_off()
        found = self.hang_without(away)
        if found is None:
            return None, self.hang
        own = {number for number in self.text.unsure() if len(set(self.text.words(number)[1:])) == 1}
        unknown = {number for number in self.text.unsure() if self.text.words(number)[2] in self.unknown}
        for last in (own | unknown, own):
            other = self.hang_without(away | last)
            if other is not None and len(other.unsure) <= len(found.unsure):
                away, found = away | last, other
                break
        first = found.unsure[0]
        return next(n for n in self.text.unsure() if n not in away and self.text.words(n) == first), found

    def hang_without(self, away: set[int]) -> Optional[Hang]:
        """What is answered if these lines are taken away."""
        return self.hang_of(self.text.without(away)) if away else self.hang

    def hang_of(self, text: str) -> Optional[Hang]:
        return self.wqplan.hang(text, self.path.name, self.assignment, self.needed)

    def notes(self) -> list[str]:
        """What is said of the NAMEs beside `safe`."""
        return self.wqplan.notes(self.text.text, self.path.name, self.assignment, self.needed) if self.needed else []

    def put_off(self) -> set[int]:
        """The lines that were put off: of those that are the same, the first ones."""
        left = self.later.copy()
        found = set()
        for number in self.text.unsure():
            line = self.text.lines[number - 1]
            if left[line] > 0:
                left[line] -= 1
                found.add(number)
        return found

    # Answers

    def put_later(self) -> None:
        assert self.number
        self.later[self.text.lines[self.number - 1]] += 1
        self.number, self.asked = self.next_question()

    def decide_sure(self) -> None:
        """It is so."""
        assert self.number
        self.write({self.number: [made_sure(self.text.lines[self.number - 1])]})

    def deny(self, why: str) -> None:
        """It isn't so: a `# no wait` line takes its place for each site that it cites."""
        assert self.number
        there = self.lines_there(self.item())
        others = {key for number, keys in there.items() if number != self.number for key in keys}
        lines = [self.dismissal(site, why, site.key in others) for site in self.sites()]
        self.write({self.number: lines or [self.struck(why)]})

    def deny_item(self, why: str) -> None:
        """The item of the question doesn't wait at its sites: all its unsure lines that cite nothing else go with it."""
        assert self.number
        changes: dict[int, Optional[list[str]]] = {number: None for number in self.unsure_there(self.item())}
        changes[self.number] = [self.dismissal(site, why, False) for site in self.sites()]
        self.write(changes)

    def deny_all(self, why: str) -> None:
        """Nobody waits at the sites of the line: all unsure lines that cite nothing else go with it."""
        assert self.number and self.read
        changes: dict[int, Optional[list[str]]] = {number: None for number in self.unsure_there()}
        keys = [self.read.short(site.key) for site in self.sites()]
        changes[self.number] = [f"# no wait: {key}: {why}" for key in keys]
        self.write(changes)

    def keep_targets(self, names: list[str], why: str) -> int:
        """Only these targets end a wait at the sites of the question: the unsure lines there for others go, whoever waits.
        How many went."""
        assert self.number
        there = self.lines_there()
        gone = {number for number in self.unsure_there() if self.target(number) not in names}
        line = self.text.lines[self.number - 1]
        comments = [comment for site in self.sites() for comment in self.not_for(site, gone, there, why)]
        changes: dict[int, Optional[list[str]]] = {number: None for number in gone}
        changes[self.number] = comments if self.number in gone else [*comments, line]
        self.write(changes)
        return len(gone)

    def not_for(self, site: Site, gone: set[int], there: dict[int, set[Key]], why: str) -> Iterator[str]:
        """The comments for one site without these lines: who waits there for others, and who doesn't wait there then."""
        assert self.read
        mine = [number for number, keys in there.items() if site.key in keys]
        left = {self.text.words(number)[1] for number in mine if number not in gone}
        items = list(dict.fromkeys(self.text.words(number)[1] for number in mine if number in gone))
        targets = list(dict.fromkeys(self.target(number) for number in mine if number in gone))
        key = self.read.short(site.key)
        some = [item for item in items if item in left]
        none = [item for item in items if item not in left]
        if some:
            yield f"# no wait of {' '.join(some)} for {' '.join(targets)}: {key}: {why}"
        if none:
            of = "" if self.read.reaching(site) <= set(none) else f" of {' '.join(none)}"
            yield f"# no wait{of}: {key}: {why}"

    def targets_there(self) -> list[str]:
        """For whom the unsure lines at the sites of the question are."""
        return list(dict.fromkeys(self.target(number) for number in self.unsure_there()))

    def target(self, number: int) -> str:
        return self.text.words(number)[2]

    def cut(self, comment: str) -> int:
        """A call isn't made on the way, or leads to no wait, whoever comes there: all unsure lines that lead only through
        it go, and the comment that says so is written. How many went."""
        assert self.number
        gone = self.gone_by(comment)
        line = self.text.lines[self.number - 1]
        changes: dict[int, Optional[list[str]]] = {number: None for number in gone}
        changes[self.number] = [comment] if self.number in gone else [comment, line]
        self.write(changes)
        return len(gone)

    def gone_by(self, comment: str) -> set[int]:
        """The unsure lines of which each site was reached by the item, and isn't with this comment."""
        return self.lost_by(comment) & set(self.text.unsure())

    def sure_by(self, comment: str) -> list[int]:
        """The lines that say for sure that an item waits where none comes with this comment."""
        return sorted(self.lost_by(comment) - set(self.text.unsure()))

    def lost_by(self, comment: str) -> set[int]:
        """The flush lines of which each site was reached by the item, and isn't with this comment."""
        assert self.read
        if (comment, self.text.text) != self.lost[:2]:
            cut = self.read.beside(Declaration.of(str(self.path), f"{self.text.text}\n{comment}\n"))
            found = {number for number in self.text.numbers(*FLUSHES) if self.is_lost(number, cut)}
            self.lost = comment, self.text.text, found
        return self.lost[2]

    def is_lost(self, number: int, cut: Read) -> bool:
        assert self.read
        item, sites = self.text.words(number)[1], self.read.sites_of(number)
        return bool(sites) and all(
            cut.way(item, site) is None and self.read.way(item, site) is not None for site in sites
        )

    def calls(self, most: int) -> list["CallOfWay"]:
        """The calls that lead to the first sites of the question, in their order, each once."""
        found: dict[tuple[Key, Place, FunctionId], CallOfWay] = {}
        for site in self.sites()[:most]:
            assert self.read
            way = self.read.way(self.item(), site) or []
            for edge, called in zip(way, [edge.place.id for edge in way[1:]] + [site.id]):
                if not self.read.is_cancel(edge):
                    key, file = self.read.short(key_of(edge.call)), self.read.draft.short(called.file)
                    found.setdefault((key, edge.place, called), CallOfWay(edge, key, f"{file} {called.name}"))
        return list(found.values())

    def item(self) -> str:
        """The item of the question."""
        assert self.number
        return self.text.words(self.number)[1]

    def sites(self) -> list[Site]:
        return self.read.sites_of(self.number) if self.read and self.number else []

    def lines_there(self, item: str = "") -> dict[int, set[Key]]:
        """The flush lines, of one item or of all, that cite a site of the question, each with all sites that it cites."""
        mine = {site.key for site in self.sites()}
        found = {}
        for number in self.text.numbers(*FLUSHES) if self.read and mine else ():
            if item in ("", self.text.words(number)[1]):
                keys = {site.key for site in self.read.sites_of(number)}
                if keys & mine:
                    found[number] = keys
        return found

    def unsure_there(self, item: str = "") -> list[int]:
        """The unsure lines, of one item or of all, that cite sites of the question and no others."""
        mine = {site.key for site in self.sites()}
        unsure = set(self.text.unsure())
        return [number for number, keys in self.lines_there(item).items() if number in unsure and keys <= mine]

    def sure_there(self, item: str = "") -> list[int]:
        """The lines, of one item or of all, that say for sure that it waits at a site of the question."""
        unsure = set(self.text.unsure())
        return [number for number in self.lines_there(item) if number not in unsure]

    def dismissal(self, site: Site, why: str, has_others: bool) -> str:
        """The comment that says that the item of the question doesn't wait at a site, or, if it has other lines there, not
        for this target."""
        assert self.read and self.number
        _, item, target = self.text.words(self.number)[:3]
        key = self.read.short(site.key)
        if has_others:
            return f"# no wait of {item} for {target}: {key}: {why}"
        return f"# no wait: {key}: {why}" if self.read.reaching(site) <= {item} else f"# no wait of {item}: {key}: {why}"

    def struck(self, why: str) -> str:
        """A line that cites no site, as a comment that decides nothing."""
        assert self.number
        line = self.text.lines[self.number - 1].strip()
        return f"#{line}{';' if '#' in line else '  #'} not so: {why}"

    def find_again(self) -> bool:
        """Reads a declaration that somebody else has changed, and goes on with the same line. Whether it is still there."""
        assert self.number
        line = self.text.lines[self.number - 1]
        self.read_again()
        found = [number for number in self.text.unsure() if self.text.lines[number - 1] == line]
        self.number = found[0] if len(found) == 1 else self.number
        return len(found) == 1

    def write(self, changes: dict[int, Optional[list[str]]]) -> None:
        """Writes the declaration, if it is still the one that was asked about."""
        if Text(self.path).text != self.text.text:
            raise Changed
        with outputs.uninterrupted():
            outputs.replace(self.path, self.text.replaced(changes))
        self.read_again()


class Changed(Exception):
    """Somebody else has written the declaration meanwhile."""
