"""What `draft` prints: a declaration, and with --assign an assignment."""

import collections
import pathlib
import re
from typing import Iterable, TextIO

from . import ask, layers, says
from .calls import DIRECT, Edge
from .draft import Draft, Line, Open, Unsure
from .items import Item
from .locks import locks_text
from .notfollowed import not_followed
from .places import FunctionId, Place
from .reach import roots_of
from .sites import Site

MOST_NAMED = 8

UNSURE_LINES = (
    "Nobody has read this. Each wait with a known target is a `flush?` or `flushwq?` line: it may be so. `wqplan hang` "
    "says which few of them have to be read, and `wqsource ask` asks about these."
)
OPEN_LINES = (
    "A line that begins with `?` is decided before that: write the flush that it is, or `# no wait: FILE FUNCTION "
    "CALL(ARGUMENT): WHY`, and take the `?` line away. Until then wqplan refuses this text."
)
ITEM_LINES = "Take away items that neither run on the reclaim path nor share a workqueue with one that does."
UNKNOWN_LINES = (
    "The item `{name}` stands for what ends a wait and isn't known. It is on a workqueue without a rescuer: nothing "
    "guarantees that it runs."
)
# What ends a wait and isn't known, with --unknown.
UNKNOWN = "unknown"
# A line of a declaration has so many bytes at most.
MOST_LINE = 4000
# And so many a declaration.
MOST_BYTES = 1_048_576
TOO_LONG = (
    f"the draft has more than the {MOST_BYTES:,} bytes that wqplan reads: name the work functions that matter, by --only"
)


def some(names: Iterable[str]) -> str:
    """At most so many names."""
    found = sorted(names)
    return ", ".join(found[:MOST_NAMED]) + (" .." if len(found) > MOST_NAMED else "")


def word_of(site: Site) -> str:
    """The kind of a site as the comment of a declared wait says it."""
    return "done" if site.kind in ("pool", "poll", "other") else site.kind


def unknown_name(draft: Draft) -> str:
    """The name of the item that stands for what isn't known: no other item's."""
    names = {item.name for item in draft.all_items()}
    return next(name for name in (UNKNOWN, *(f"{UNKNOWN}.{n}" for n in range(len(names)))) if name not in names)


def kernel_version(tree: pathlib.Path) -> str:
    """As the Makefile at the top of a tree says it; '' where there is none."""
    makefile = tree / "Makefile"
    text = makefile.read_text(errors="replace") if makefile.is_file() else ""
    return ".".join(re.findall(r"^(?:VERSION|PATCHLEVEL|SUBLEVEL) *= *(\d+)$", text, re.M)[:3])


def is_too_long(text: str) -> bool:
    """Whether `wqplan` refuses this declaration for its length."""
    return len(text.encode("utf-8", "surrogateescape")) > MOST_BYTES


class Printer:
    """Prints a draft. If `unknown`, a site without a candidate is a wait for an item that isn't known."""

    def __init__(self, draft: Draft, to: TextIO, unknown: bool = False) -> None:
        self.draft = draft
        self.program = draft.program
        self.to = to
        self.unknown = unknown_name(draft) if unknown else ""
        self.unsure = 0
        self.undecided = 0

    def name(self, function: FunctionId) -> str:
        return self.program.item(function).name

    def names(self, functions: Iterable[FunctionId]) -> str:
        return ", ".join(map(self.name, functions))

    def write(self, text: str = "") -> None:
        print(text, file=self.to)

    def comment(self, text: str) -> None:
        """A comment below a `?` line."""
        self.write(says.wrapped(text, "#   ", "#     "))

    def place(self, place: Place) -> str:
        return str(place._replace(file=self.draft.short(place.file)))

    def site_place(self, site: Site) -> str:
        return ", ".join(self.place(Place(site.key.file, line, site.key.function)) for line in site.lines)

    def decide(self, text: str) -> None:
        """A `?` line. What doesn't fit into it follows as comments."""
        self.write(says.wrapped(text, "? ", "#   "))
        self.undecided += 1

    def head(self, text: str) -> None:
        """The head of a site whose unsure lines stand below. It decides nothing."""
        self.write(says.wrapped(text, "#? ", "#?   "))

    def may(self, unsure: Unsure, comment: str) -> None:
        """An unsure line."""
        self.line(unsure.word, self.name(unsure.item), self.name(unsure.target), comment)

    def line(self, word: str, item: str, target: str, comment: str) -> None:
        self.write(f"{word}? {item} {target}  # {comment}"[:MOST_LINE])
        self.unsure += 1

    def print(self) -> None:
        files = self.program.facts.files
        says.head(self.to, f"a draft of {self.program.facts.tree}", len(files))
        for text in (UNSURE_LINES, UNKNOWN_LINES.format(name=self.unknown) if self.unknown else "", OPEN_LINES, ITEM_LINES):
            if text:
                says.note(self.to, text)
        self.print_sources()
        self.write(says.wrapped(" ".join(files), "# files: ", "# files: "))
        if self.program.graph.stacked:
            self.write("# stacked: it was drafted with --stacked")
        self.write()
        for item in self.draft.all_items():
            self.print_item(item)
        if self.unknown:
            self.write(f"item {self.unknown}  # {ask.UNKNOWN}")
        self.print_ordered()
        self.print_lines()
        self.print_open()
        self.print_without_rescuer()
        self.print_named()
        self.print_unknown()
        self.print_beside()
        self.print_cancels()
        self.print_network()
        self.print_uncalled()
        says.note(
            self.to,
            f"{says.counted(len(self.draft.all_items()), 'item')}. "
            f"{says.counted(self.unsure, 'unsure line')}, {says.counted(self.undecided, 'line')} to decide before.",
        )

    def print_sources(self) -> None:
        """The version of the kernel and the folders of the files, if the tree is a kernel's."""
        version = kernel_version(self.program.facts.tree)
        folders = dict.fromkeys(file.rpartition("/")[0] for file in self.program.facts.files if "/" in file)
        if version:
            self.write(", ".join([f"# Sources: Linux {version}", *folders]))

    # Items

    def print_item(self, item: Item) -> None:
        """The line; below it where it is set, and who queues it: that matters for waits which end once it has run."""
        works = ", ".join(sorted(map(str, item.works)))
        queued = "; ".join(self.queueings(item)) or "queued nowhere in these files"
        set_at = ", ".join(dict.fromkeys(self.place(place) for place in item.set_at))
        said = "" if item.name == item.function.name else f"{item.function.name}, "
        self.write(f"item {item.name}  # {said}{works}, {queued}")
        self.comment(f"set at {set_at}")
        queuers, others = self.queuers(item)
        if queuers or others:
            self.comment(
                "queued by "
                + "; ".join(
                    filter(
                        None,
                        [
                            f"items {some(queuers)}" if queuers else "",
                            f"code that no item reaches, from {some(others)}" if others else "",
                        ],
                    )
                )
            )

    def queueings(self, item: Item) -> Iterable[str]:
        """To which workqueue it is queued, and where."""
        places: dict[tuple[str, bool], list[Place]] = collections.defaultdict(list)
        for queueing in item.queueings:
            names = "/".join(sorted(map(self.workqueue, queueing.workqueues))) or (
                f"? ({queueing.named})" if queueing.named else "?"
            )
            places[names, queueing.is_one_of_several].append(queueing.place)
        for (name, is_one_of_several), at in places.items():
            yield f"queued to {name} at {', '.join(dict.fromkeys(map(self.place, at)))}" + (
                " (or another item is)" if is_one_of_several else ""
            )

    def workqueue(self, workqueue: str) -> str:
        """Its name; or the variable that holds it, if the name is made of parts."""
        name = self.program.workqueues.name(workqueue)
        made = self.program.workqueues.made.get(workqueue)
        return re.split(r"\W+", made.to)[-1] if made and made.to and "%" in name else name

    def queuers(self, item: Item) -> tuple[set[str], set[str]]:
        """The items that queue it, and other code that does."""
        queuers: set[str] = set()
        others: set[str] = set()
        for queueing in item.queueings:
            queuers |= {self.name(function) for function in self.program.reached_by.get(queueing.place.id, ())}
            others |= {
                root.name
                for root in roots_of(self.program.graph, queueing.place.id)
                if root not in self.program.items.items
            }
        return queuers, others

    def print_ordered(self) -> None:
        for workqueue, items in self.draft.ordered():
            text = f"ordered {' '.join(item.name for item in items)}"
            if self.unknown and all(len(item.workqueues) == 1 for item in items):
                self.write(text)
            else:
                self.decide(text)
            is_so = "is ordered" if self.program.workqueues.is_ordered(workqueue) else "is ordered in 6.1, not in 6.12"
            self.comment(
                f"{self.program.workqueues.name(workqueue)} {is_so}. Leave the line out if nothing relies on it"
            )

    # Waits

    def print_lines(self) -> None:
        """The flushes whose target is known: those of the same items together, each with its place."""
        self.write()
        together: dict[tuple[FunctionId, str, FunctionId], list[Line]] = collections.defaultdict(list)
        for line in self.draft.lines:
            together[line.item, line.word, line.target].append(line)
        for (item, word, target), lines in together.items():
            for line in lines:
                self.write(says.wrapped(self.said(line), f"{word}? {self.name(item)} {self.name(target)}  # ", "#   "))
                self.unsure += 1

    def said(self, line: Line) -> str:
        also = f"; also on this workqueue: {self.names(line.also)}" if line.also else ""
        return f"{word_of(line.site)} {self.site_place(line.site)}: {line.site.key.call}{self.way(line.path)}{also}"

    def way(self, path: list[Edge]) -> str:
        """The calls that lead there, the last one first."""
        calls = (self.place(edge.place) + ("" if edge.how == DIRECT else f" by {edge.how}") for edge in reversed(path))
        return f", from {', '.join(calls)}" if path else ""

    def print_disks(self) -> None:
        """One question for all plain I/O: does an interrupt end it?"""
        disks = self.draft.of_disks
        if not disks:
            return
        self.write()
        text = f"io {len(disks)} sites of plain I/O, which an interrupt ends if no disk below is a stacked one"
        (self.head if self.unknown else self.decide)(text)
        for one in disks:
            items = sorted(one.ways, key=lambda function: (len(one.ways[function]), function))
            # (a place would cite it, and so decide it)
            text = f"{one.site.key.call}({one.site.key.argument}) in {one.site.key.function}, for {self.names(items)}"
            self.comment(text)
        if self.unknown:
            self.print_unknown_disks(disks)
        calls = dict.fromkeys(f"{one.site.key.call}(*)" for one in disks)
        self.write(f"## no wait: * * {' '.join(calls)}: ")

    def print_unknown_disks(self, disks: list[Open]) -> None:
        """One line for each item that reaches them, with as many places as a line has room for."""
        for item in dict.fromkeys(function for one in disks for function in sorted(one.ways)):
            places: list[str] = []
            for place in [self.site_place(one.site) for one in disks if item in one.ways]:
                if sum(map(len, places)) + 2 * len(places) + len(place) > MOST_LINE // 2:
                    self.line("flush", self.name(item), self.unknown, f"done {', '.join(places)}: plain I/O")
                    places = []
                places.append(place)
            self.line("flush", self.name(item), self.unknown, f"done {', '.join(places)}: plain I/O")

    def print_network(self) -> None:
        """What softirqs of the network end is no question."""
        if self.draft.of_network:
            says.note(self.to, "Softirqs of the network end these, as a rule:")
        for one in self.draft.of_network.values():
            self.comment(f"{one.site.key.call}({one.site.key.argument}) in {one.site.key.function}")

    def print_open(self) -> None:
        order = {True: 0, False: 1}
        disks = self.draft.of_disks
        for one in sorted(
            self.draft.open.values(), key=lambda one: (order[bool(one.targets)], one.site.key.file, one.site.lines)
        ):
            if one not in disks:
                self.write()
                self.print_one(one)
        self.print_disks()

    def print_one(self, one: Open) -> None:
        """A site: who reaches it, what may end it, and the unsure lines that it is; or it is to be decided, if none is known."""
        site = one.site
        found = self.draft.candidates(one)
        text = f"{site.kind} {self.site_place(site)}: {site.key.call}({site.key.argument})"
        (self.head if found or self.unknown else self.decide)(text)
        self.print_reach(one)
        comment = f"{word_of(site)} {self.site_place(site)}"
        for unsure in found:
            self.may(unsure, comment)
        if not found:
            items = sorted(one.ways, key=lambda function: (len(one.ways[function]), function))
            word = "flushwq" if site.kind == "flushwq" else "flush"
            if self.unknown:
                for item in items:
                    self.line("flush", self.name(item), self.unknown, comment)
            else:
                self.write(f"#{word} {self.name(items[0])} TARGET  # {comment}"[:MOST_LINE])
        key = site.key._replace(file=self.draft.short(site.key.file))
        self.write(f"## no wait: {key}: ")

    def print_reach(self, one: Open) -> None:
        """Comments of a site: who reaches it, why that isn't sure, and what may end it."""
        site = one.site
        items = sorted(one.ways, key=lambda function: (len(one.ways[function]), function))
        first = f"{self.name(items[0])}{self.way(one.ways[items[0]])}"
        self.comment(f"in reach of {first}" + (f"; and of {self.names(items[1:])}" if items[1:] else ""))
        if one.doubts:
            whose = "" if one.doubts.keys() == one.ways.keys() else f" for {self.names(sorted(one.doubts))}"
            self.comment(f"not sure{whose}: {'; '.join(sorted(set().union(*one.doubts.values())))}")
        for text in layers.known().elsewhere(site.key.call, self.program.facts.files):
            self.comment(text)
        if site.workqueues:
            self.comment(f"flushes {', '.join(map(self.program.workqueues.name, sorted(site.workqueues)))}")
        for function in one.targets:
            ended = one.ends.items.get(function)
            self.comment(
                f"waits for {self.name(function)}"
                if ended is None
                else f"may be ended by {self.name(function)} at {self.place(ended.waker.place)}{self.way(ended.path)}"
            )
        if one.ends.others:
            self.comment(f"may be ended by code that no item reaches, from {some(one.ends.others)}")

    def print_without_rescuer(self) -> None:
        """One question for all items that nothing guarantees to run: does the reclaim path wait for one of them?"""
        names = [item.name for item in self.draft.all_items() if self.is_without_rescuer(item)]
        if names:
            self.write()
            # (beside `safe` wqplan says the same)
            (self.head if self.unknown else self.decide)(f"reclaim {' '.join(names)}")
            self.comment(
                "on workqueues without a rescuer: nothing guarantees that these run. If memory reclaim waits until one "
                "of them has run, declare who waits, as `item writeback  # thread: ..` with its flush"
            )

    def is_without_rescuer(self, item: Item) -> bool:
        has_rescuer = self.program.workqueues.has_rescuer
        return bool(item.workqueues) and all(has_rescuer(workqueue) is False for workqueue in item.workqueues)

    def print_named(self) -> None:
        """The items to NAME behind `wqplan hang`: those on a workqueue with a rescuer, if an item there may wait."""
        open_sites = self.draft.open.values()
        waiting = {line.item for line in self.draft.lines} | {function for one in open_sites for function in one.ways}
        has_rescuer = self.program.workqueues.has_rescuer
        with_waits = {
            workqueue
            for function in waiting
            for workqueue in self.program.item(function).workqueues
            if has_rescuer(workqueue)
        }
        names = [item.name for item in self.draft.all_items() if with_waits & set(item.workqueues)]
        if names:
            self.write()
            says.note(
                self.to,
                "If memory reclaim waits until one of these has run, NAME it behind `wqplan hang`: they are on workqueues "
                f"with a rescuer where an item may wait: {', '.join(names)}. Better still, declare the thread that waits "
                "there, as `item writeback  # thread: ..` with its flushes, and NAME that.",
            )

    # What isn't known

    def print_unknown(self) -> None:
        items = self.program.items
        for call in items.unknown_items:
            self.write()
            self.decide(f"item {self.place(call.place)}: {call.text}: its function isn't in these files")
        for call in items.unknown_queueings:
            self.write()
            self.decide(f"queue {self.place(call.place)}: {call.text}: what is queued isn't known")
        for missed in self.draft.missed:
            self.write()
            self.decide(f"not parsed {self.place(missed.place)}: {missed.text}: found by its name alone")

    def print_beside(self) -> None:
        """Locks, and what wasn't followed."""
        self.write()
        reached = {function for item in self.draft.items for function in self.program.sleeps[item]}
        locks = locks_text(self.program, reached, self.place)
        if locks:
            says.note(self.to, f"Locks in reach, which are waits if the holder waits: {locks}")
        names, pointers = not_followed(self.program, reached)
        if names:
            says.note(self.to, "Not followed, for the files don't have them: " + " ".join(names))
        if pointers:
            says.note(
                self.to, "Not followed, for no function of the files is known to stand there: " + " ".join(pointers)
            )

    def print_cancels(self) -> None:
        """Cancels have no lines of their own."""
        if self.draft.cancels:
            says.note(
                self.to,
                "These wait only while the item runs that they cancel. So what that waits for stands above, and nothing if "
                "it waits for nothing:",
            )
        for site in self.draft.cancels.values():
            # (a place would cite it, and so decide it)
            self.comment(f"{site.key.call}({site.key.argument}) in {site.key.function}: {self.names(sorted(site.targets))}")

    def print_uncalled(self) -> None:
        """Functions whose callers are in other files."""
        uncalled = self.draft.uncalled()
        if uncalled:
            says.note(
                self.to,
                "These stand in tables of operations and may wait, and no item of these files reaches them. Give the "
                "files of the layer that calls them, too, if it does so from work items:",
            )
        for one in uncalled:
            more = f", and {says.counted(one.more, 'more site')}" if one.more else ""
            # (a place would cite it, and so decide it)
            self.comment(f"{one.function.name} ({one.table}): {one.site.key.call} in {one.site.key.function}{more}")


def print_assignment(draft: Draft, to: TextIO, unknown: bool = False) -> None:
    """The workqueues as the files make them, with what their flags mean in comments. If `unknown`, one more without a
    rescuer, with the item that stands for what isn't known."""
    program = draft.program
    says.note(
        to,
        f"wqsource: the workqueues of {program.facts.tree}, as far as its files say them. Those on `norescuer` lines have "
        "no rescuer. A `?` line is to be decided.",
    )
    on: dict[str, list[Item]] = collections.defaultdict(list)
    nowhere = []
    for item in draft.all_items():
        for workqueue in sorted(item.workqueues):
            on[workqueue].append(item)
        if not item.workqueues:
            nowhere.append(item)
    for number, (workqueue, items) in enumerate(on.items()):
        shared = [item.name for item in items if len(item.workqueues) > 1]
        made = program.workqueues.made.get(workqueue)
        said = ", ".join(
            filter(
                None,
                [
                    program.workqueues.name(workqueue),
                    f"{draft.short(made.call.place.file)}:{made.call.place.line} {made.call.place.function}"
                    if made
                    else "",
                    program.workqueues.flags(workqueue),
                    f"queued to several workqueues: {', '.join(shared)}" if shared else "",
                ],
            )
        )
        has_rescuer = program.workqueues.has_rescuer(workqueue)
        word = "norescuer" if has_rescuer is False else "wq"
        print(f"{'? ' if shared or has_rescuer is None else ''}{word} {number} {' '.join(item.name for item in items)}  # {said}", file=to)
    if unknown:
        print(f"norescuer {len(on)} {unknown_name(draft)}  # what isn't known: nothing guarantees that it runs", file=to)
    if nowhere:
        print(f"? wq ? {' '.join(item.name for item in nowhere)}  # their workqueue isn't known", file=to)
    empty = [workqueue for workqueue in program.workqueues.made if workqueue not in on]
    if empty:
        says.note(to, f"Workqueues without an item of these: {', '.join(map(program.workqueues.text, empty))}")
