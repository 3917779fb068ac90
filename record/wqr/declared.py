"""What a declaration says: its items with their functions and workqueues, its waits with what they cite, and what it
dismisses. Comments are read as wqsource reads them (source/README.md).
"""

import pathlib
import re
from dataclasses import dataclass, field
from typing import Iterable, Iterator, Optional

from csource.declaration import Citation, Declaration, Dismissal, DismissedItem

from .archive import Unreadable
from .items import Item, kind_of
from .places import Frame
from .sites import is_machinery
from .symbols import Symbols

# What the system's workqueues are called: the variables, and the names that the kernel gives them (kernel/workqueue.c).
SYSTEM = {
    "system_wq": "events",
    "system_percpu_wq": "events",
    "system_highpri_wq": "events_highpri",
    "system_long_wq": "events_long",
    "system_unbound_wq": "events_unbound",
    "system_dfl_wq": "events_unbound",
    "system_freezable_wq": "events_freezable",
    "system_power_efficient_wq": "events_power_efficient",
}
QUEUED = re.compile(r"queued to (?:the )?([\w-]+)")
WORD = re.compile(r"[A-Za-z_]\w+")
FLUSHES = ("flush", "flushwq", "flush?", "flushwq?")


@dataclass(eq=False)
class DeclaredItem:
    """An `item` line. Its workqueue is what an assignment's comment calls it, or else what the line's own says."""

    number: int
    name: str
    function: str
    workqueue: Optional[str]
    in_assignment: bool = False
    has_rescuer: Optional[bool] = None


@dataclass(eq=False)
class DeclaredWait:
    """A target of a `flush` or `flushwq` line."""

    number: int
    is_whole: bool
    source: DeclaredItem
    target: DeclaredItem
    citations: list[Citation]
    is_unsure: bool = False

    def __str__(self) -> str:
        return f"{self.source.name} {'=> all on the workqueue of' if self.is_whole else '->'} {self.target.name}"

    @property
    def key(self) -> tuple[int, str]:
        """Which one it is, whichever record it is beside."""
        return self.number, self.target.name


@dataclass(frozen=True)
class Assigned:
    """How an assignment has an item."""

    workqueue: str
    has_rescuer: bool


@dataclass
class Declared:
    items: dict[str, DeclaredItem] = field(default_factory=dict)
    waits: list[DeclaredWait] = field(default_factory=list)
    dismissals: list[Dismissal] = field(default_factory=list)
    dismissed_items: list[DismissedItem] = field(default_factory=list)

    @staticmethod
    def read(path: pathlib.Path, assignment: Optional[pathlib.Path], symbols: Symbols) -> "Declared":
        text = text_of(path)
        on = text_of(assignment) if assignment else ""
        found = Declared.of(str(path), text, on, symbols)
        if not found.items:
            raise Unreadable(f"{path}: it declares no item (a declaration is wanted here, before the records)")
        if assignment and not any(item.in_assignment for item in found.items.values()):
            raise Unreadable(f"{assignment}: it assigns no item of {path}")
        return found

    @staticmethod
    def of(path: str, text: str, assignment: str, symbols: Symbols) -> "Declared":
        declaration = Declaration.of(path, text)
        on = assigned(assignment)
        found = Declared(dismissals=declaration.dismissals, dismissed_items=declaration.dismissed_items)
        for line in declaration.items:
            function = function_of(line.name, line.comment, symbols, found.items.values())
            queued = QUEUED.search(line.comment)
            item = DeclaredItem(line.number, line.name, function, queued[1] if queued else None)
            if line.name in on:
                item.workqueue, item.has_rescuer, item.in_assignment = (
                    on[line.name].workqueue,
                    on[line.name].has_rescuer,
                    True,
                )
            found.items[line.name] = item
        found.waits = list(waits_of(declaration, found.items))
        return found

    # What a recorded item is here -------------------------------------------------------------------

    def of_item(self, item: Item) -> list[DeclaredItem]:
        """The declared items that a recorded one may be: of its function, and of its workqueue, if any is on that."""
        same = [declared for declared in self.items.values() if declared.function == item.function]
        exact = [declared for declared in same if is_on(declared, item)]
        return exact or same

    def dismissed_item(self, item: Item) -> Optional[DismissedItem]:
        return next((one for one in self.dismissed_items if one.function == item.function), None)

    def on_workqueue_of(self, item: DeclaredItem) -> list[DeclaredItem]:
        return [other for other in self.items.values() if other.workqueue and other.workqueue == item.workqueue]


def text_of(path: pathlib.Path) -> str:
    """The text, in which lines end where they do in the bytes."""
    return path.read_bytes().decode("utf-8", "surrogateescape")


def is_on(declared: DeclaredItem, item: Item) -> bool:
    return declared.workqueue is not None and kind_of(SYSTEM.get(declared.workqueue, declared.workqueue)) == item.kind


def assigned(text: str) -> dict[str, Assigned]:
    """By its name how each item is assigned. The first word of a line's comment is what the workqueue is called."""
    found = {}
    for line in text.splitlines():
        before, _, comment = line.partition("#")
        words = before.split()
        if words[:1] and words[0] in ("wq", "norescuer"):
            name = re.match(r"[^\s,]*", comment.strip())[0]
            found |= {item: Assigned(name, words[0] == "wq") for item in words[2:]}
    return found


def function_of(name: str, comment: str, symbols: Symbols, earlier: Iterable[DeclaredItem]) -> str:
    """The work function of an item: the word with which its comment begins, or its name, if the kernel has such a
    function; or that of an earlier item of the same stem."""
    stem = name.split(".")[0]
    first = re.match(r"\s*([A-Za-z_]\w+)\s*(?:,|$)", comment)
    if first and (first[1] in symbols.names or "_" in first[1] and stem not in symbols.names):
        return first[1]
    if stem in symbols.names:
        return stem
    return next((item.function for item in earlier if item.name.split(".")[0] == stem), stem)


def waits_of(declaration: Declaration, items: dict[str, DeclaredItem]) -> Iterator[DeclaredWait]:
    citations: dict[int, list[Citation]] = {}
    for citation in declaration.citations:
        citations.setdefault(citation.number, []).append(citation)
    for number, line in enumerate(declaration.lines, 1):
        words = line.partition("#")[0].split()
        if words[:1] and words[0] in FLUSHES and all(word in items for word in words[1:]):
            source, *targets = (items[word] for word in words[1:])
            is_whole, is_unsure = words[0].startswith("flushwq"), words[0].endswith("?")
            for target in targets:
                yield DeclaredWait(number, is_whole, source, target, citations.get(number, []), is_unsure)


# Places -----------------------------------------------------------------------------------------------


def is_file(cited: str, file: str) -> bool:
    """Whether a citation's file is this one: it is the end of its path. Where a frame has no file, its function
    decides."""
    return not file or file == cited or file.endswith("/" + cited)


def is_cited_at(citations: list[Citation], frames: Iterable[Frame]) -> bool:
    """Whether a frame is at a line that is cited."""
    return any(
        frame.file and is_file(citation.file, frame.file) and citation.line <= frame.line <= citation.last
        for citation in citations
        for frame in frames
    )


def is_cited_in(citations: list[Citation], frames: Iterable[Frame]) -> bool:
    """Whether a frame is in a function that is cited."""
    return any(
        citation.function == frame.function and is_file(citation.file, frame.file)
        for citation in citations
        for frame in frames
    )


def dismisses(dismissal: Dismissal, chain: list[Frame], functions: set[str]) -> bool:
    """Whether a wait is in a call that is dismissed. `chain` has all frames of its stack, the innermost first, and
    `functions` are those of the kernel. The call is one of a frame, or a macro in the frame that waits, which the
    stack doesn't name. Where the function that makes it isn't on the stack (a tail call), the file decides."""
    function, call = dismissal.key.function, dismissal.key.call
    inner: Optional[Frame] = None
    for frame in chain:
        if is_file(dismissal.key.file, frame.file):
            if frame.function == function and (
                inner is None or is_call(call, inner) or is_in_macro(call, inner, functions)
            ):
                return True
            if (
                frame.file
                and inner is not None
                and is_machinery(inner)
                and not is_machinery(frame)
                and is_call(call, inner)
            ):
                return True
        inner = frame
    return False


# Calls whose own frames are missing, since they end with another call.
ALIKE = (
    re.compile(r"flush_(delayed_|rcu_)?work"),
    re.compile(r"(flush|cancel)_(delayed_)?work(_sync|_timer)?"),
    re.compile(r"(flush|destroy|drain)_workqueue"),
    # (of a file system: xfs_file_fsync)
    re.compile(r"\w+_fsync(_range)?"),
)


def is_call(call: str, frame: Frame) -> bool:
    """Whether this is the frame of a call: of the function, or of what it calls at its end (as submit_bio_noacct)."""
    name, wanted = plain(frame.function), plain(call)
    return name.startswith(wanted) or any(alike.fullmatch(name) and alike.fullmatch(wanted) for alike in ALIKE)


def is_in_macro(call: str, inner: Frame, functions: set[str]) -> bool:
    return is_machinery(inner) and call not in functions


def plain(name: str) -> str:
    """A function's name without what tells its variants apart."""
    return re.sub(r"^_+|_noprof$|\..*$", "", name)
