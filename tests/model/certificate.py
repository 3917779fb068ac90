# Reads answers, assignments and runs with a declaration at hand, for the model in check.py and
# replay.py: docs/FORMAT.md, "Run texts", "Certificates" and "Refusals of certificates".

import dataclasses
import functools

from declaration import FLUSH_LIMIT, SURE, Refused, has_only, split_lines, split_words
from readings import places_by_line, reading

# Limits
TEXT_LIMIT = 8_388_608
LINE_LIMIT = 524_288
WORKQUEUE_LIMIT = 4_096
ARC_LIMIT = 4_096
NUMBER_LIMIT = 4_294_967_295
WORKQUEUE_NAME_LIMIT = 63

# The refusals.
BAD_CERT_LINE = 40
NOT_ALL_ITEMS = 41
GROUP_SPLIT = 42
NUMBER_OUT_OF_RANGE = 43

# The steps: whether a step names a workqueue before its item.
NAMES_WORKQUEUE = {
    b"queue": False, b"cancel": False,
    b"start": True, b"wait": True, b"waitwq": True, b"over": True, b"overwq": True, b"finish": True,
}


@dataclasses.dataclass
class Assignment:
    """Which workqueue serves each item."""

    workqueue_of: dict  # by the name of an item, the number of its workqueue
    count: int  # how many workqueues there are
    bare: frozenset = frozenset()  # the numbers of those without a rescuer
    called: dict = dataclasses.field(default_factory=dict)  # by the number of a workqueue, its name, if it has one


@dataclasses.dataclass
class PlanText:
    """A plan text: that of `plan K`, with its `wq` lines, and that of `chain N`."""

    assignment: Assignment
    chain: int
    arcs: list  # pairs of names


@dataclasses.dataclass
class CircleText:
    """A circle text, and the run that stands behind it, or None."""

    arcs: list  # pairs of names
    steps: list  # as read_run returns them


class Lines:
    """The lines of a certificate that aren't skipped, taken one after the other."""

    def __init__(self, text):
        if len(text) > TEXT_LIMIT:
            raise Refused(BAD_CERT_LINE, 0)
        self.left = []
        self.lines = split_lines(text)
        for number, line in enumerate(self.lines, start=1):
            if len(line) > LINE_LIMIT:
                raise Refused(BAD_CERT_LINE, number)
            self.left.append((number, split_words(line)))
        self.left = [(number, words) for number, words in self.left if words]
        self.left.reverse()

    def at_end(self):
        return not self.left

    def first_word(self):
        """The first word of the next line, or None at the end."""
        return self.left[-1][1][0] if self.left else None

    def take(self):
        """The number and the words of the next line, which must be there."""
        if not self.left:
            raise Refused(BAD_CERT_LINE, 0)
        return self.left.pop()

    def end(self):
        """No line may be left."""
        if self.left:
            number, _ = self.take()
            raise Refused(BAD_CERT_LINE, number)


def must(holds, code, line):
    if not holds:
        raise Refused(code, line)


def read_number(word, line):
    """Lines, words and numbers: Numbers."""
    must(all(byte in b"0123456789" for byte in word), BAD_CERT_LINE, line)
    must(word == b"0" or not word.startswith(b"0"), BAD_CERT_LINE, line)
    # Longer words aren't made numbers, since Python takes its time for them.
    must(len(word) <= 10 and int(word) <= NUMBER_LIMIT, BAD_CERT_LINE, line)
    return int(word)


def read_item(word, line, declaration):
    must(word in declaration.group_of, BAD_CERT_LINE, line)
    return word


def read_head(lines, keyword, least, most):
    """A line of a keyword and a number, which may be from `least` to `most`."""
    line, words = lines.take()
    must(len(words) == 2 and words[0] == keyword, BAD_CERT_LINE, line)
    number = read_number(words[1], line)
    must(least <= number <= most, NUMBER_OUT_OF_RANGE, line)
    return number


def read_arcs(lines, declaration, count):
    """So many `arc` lines."""
    arcs = []
    for _ in range(count):
        line, words = lines.take()
        must(len(words) == 3 and words[0] == b"arc", BAD_CERT_LINE, line)
        arcs.append(tuple(read_item(word, line, declaration) for word in words[1:]))
    return arcs


def name_of_workqueue(line):
    """Certificates: Names of workqueues. What this line calls its workqueue, or None."""
    comment = line.partition(b"#")[2].lstrip(b"# \t")
    name = comment.split(b",", 1)[0].rstrip(b" \t")
    return name if 1 <= len(name) <= WORKQUEUE_NAME_LIMIT and has_only(name, bytes(range(0x20, 0x7F))) else None


# The first words of the lines of an assignment: whether the workqueue has a rescuer.
HAS_RESCUER = {b"wq": True, b"norescuer": False}


class WqLines:
    """The `wq` lines of a plan text, or the `wq` and `norescuer` lines of an assignment, as far as they are read."""

    def __init__(self, declaration, keywords):
        self.declaration = declaration
        self.keywords = keywords  # which first words there may be
        self.count = 0
        self.workqueue_of = {}
        self.bare = set()
        self.called = {}
        self.groups = set()  # those with an item on a line that is read

    def read(self, lines):
        """The next line, which must be one of these."""
        line, words = lines.take()
        must(len(words) >= 2 and words[0] in self.keywords, BAD_CERT_LINE, line)
        number = read_number(words[1], line)
        names = [read_item(word, line, self.declaration) for word in words[2:]]
        must(number == self.count, NUMBER_OUT_OF_RANGE, line)
        must(self.count < WORKQUEUE_LIMIT, NUMBER_OUT_OF_RANGE, line)
        must(len(set(names)) == len(names), NOT_ALL_ITEMS, line)
        must(not any(name in self.workqueue_of for name in names), NOT_ALL_ITEMS, line)
        groups = {self.declaration.group_of[name] for name in names}
        must(groups.isdisjoint(self.groups), GROUP_SPLIT, line)
        self.count += 1
        self.workqueue_of.update((name, number) for name in names)
        self.groups |= groups
        if not HAS_RESCUER[words[0]]:
            self.bare.add(number)
        called = name_of_workqueue(lines.lines[line - 1])
        if called is not None:
            self.called[number] = called

    def end(self):
        """Behind the last of these lines. Returns the assignment."""
        must(len(self.workqueue_of) == len(self.declaration.items), NOT_ALL_ITEMS, 0)
        return Assignment(self.workqueue_of, self.count, frozenset(self.bare), self.called)


def read_plan_text(lines, declaration):
    count = read_head(lines, b"plan", 0, WORKQUEUE_LIMIT)
    wq_lines = WqLines(declaration, [b"wq"])
    for _ in range(count):
        wq_lines.read(lines)
    assignment = wq_lines.end()
    chain = read_head(lines, b"chain", 0, ARC_LIMIT)
    arcs = read_arcs(lines, declaration, max(chain - 1, 0))
    lines.end()
    return PlanText(assignment, chain, arcs)


def read_run_lines(lines, declaration):
    """Run texts. Each step is its word, its workqueue or None, and its item or target."""
    steps = []
    for _ in range(read_head(lines, b"run", 0, NUMBER_LIMIT)):
        line, words = lines.take()
        must(words[0] in NAMES_WORKQUEUE, BAD_CERT_LINE, line)
        if NAMES_WORKQUEUE[words[0]]:
            must(len(words) == 3, BAD_CERT_LINE, line)
            workqueue = read_number(words[1], line)
            name = read_item(words[2], line, declaration)
            must(workqueue < WORKQUEUE_LIMIT, NUMBER_OUT_OF_RANGE, line)
        else:
            must(len(words) == 2, BAD_CERT_LINE, line)
            workqueue = None
            name = read_item(words[1], line, declaration)
        steps.append((words[0], workqueue, name))
    lines.end()
    return steps


def read_circle_text(lines, declaration):
    arcs = read_arcs(lines, declaration, read_head(lines, b"circle", 1, ARC_LIMIT))
    steps = None if lines.at_end() else read_run_lines(lines, declaration)
    return CircleText(arcs, steps)


def read_answer(text, declaration):
    """Certificates: An answer. Returns a PlanText or a CircleText."""
    lines = Lines(text)
    if lines.first_word() == b"circle":
        return read_circle_text(lines, declaration)
    return read_plan_text(lines, declaration)


@functools.lru_cache(maxsize=64)
def read_assignment(text, declaration):
    """Certificates: An assignment. As with declarations, nobody may change what is returned."""
    lines = Lines(text)
    if lines.first_word() == b"plan":
        return read_plan_text(lines, declaration).assignment
    wq_lines = WqLines(declaration, HAS_RESCUER)
    while lines.first_word() in HAS_RESCUER:
        wq_lines.read(lines)
    assignment = wq_lines.end()
    lines.end()
    return assignment


def read_unsure_part(lines, declaration):
    """Run texts: the unsure part. Returns the places of the unsure flushes that are kept."""
    places = places_by_line(declaration)
    kept = set()
    for _ in range(read_head(lines, b"unsure", 0, FLUSH_LIMIT)):
        line, words = lines.take()
        must(len(words) == 3 and words[0] in SURE, BAD_CERT_LINE, line)
        must(places[b" ".join(words)], BAD_CERT_LINE, line)
        kept.add(places[b" ".join(words)].pop())
    return frozenset(kept)


def read_run_and_part(text, declaration):
    """Certificates: a run. Returns the places of the unsure flushes that are kept, or None where there is no unsure part, and the steps."""
    lines = Lines(text)
    kept = read_unsure_part(lines, declaration) if lines.first_word() == b"unsure" else None
    return kept, read_run_lines(lines, declaration)


def in_its_reading(declaration, kept):
    """What the steps of a run are made with."""
    return declaration if kept is None else reading(declaration, kept)


def read_run(text, declaration):
    """The steps alone."""
    return read_run_and_part(text, declaration)[1]
