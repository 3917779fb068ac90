#!/usr/bin/env python3
"""Reads drawings: texts as docs/FORMAT.md, "The command `dot`", defines them, and nothing else.

    drawn.py FILE..

says of each file what is drawn. It ends with 1 where a file holds no drawing, and names its first line at fault. `read` does
this for other scripts. It knows no declaration: what it can't see is whether the right items, flushes and colours are there.
"""

import dataclasses
import re
import sys

# What is drawn in words, and what its marks mean.
WAITS = r", (?:1 wait|(?:[2-9]|[1-9][0-9]+) waits) in "
WORDS = re.compile(rf"plan of (?:1 workqueue|(?:0|[2-9]|[1-9][0-9]+) workqueues)(?:{WAITS}bold)?"
                   rf"|safe|(?:every assignment can hang{WAITS}red|can hang{WAITS}red(?:, [1-9][0-9]* to no rescuer)?)"
                   r"(?:, [1-9][0-9]* in bold)?")
NOT_SURE = re.compile("(.*), ([1-9][0-9]*) not sure")
LEADING = re.compile(", ([0-9]+) to no rescuer")
SHORTEST = re.compile(", ([0-9]+) in bold")
BOLD = r"\lBold: the chain that needs so many workqueues."
RED = r"\lRed: while memory is short, a worker may wait for work\lthat "
CIRCLED = "only it, or one that waits for it, can do"
LEADS = "no rescuer does"
ENOUGH = r"\lBold: enough to hang it, in the fewest steps."
DASHED = r"\lDashed: no rescuer. While memory is short, nothing\lguarantees that work there runs."
DOTTED = r"\lDotted: not sure."
HEAD = [
    rb'digraph wqplan \{',
    rb'  graph \[label="([^"\\]*)((?:\\l[^"\\]*)*)", labelloc=t, labeljust=l, rankdir=LR, nodesep=0\.15, ranksep=1,'
    rb' fontname="sans-serif"\];',
    rb'  node \[shape=box, style=filled, fillcolor=white, height=0\.3, fontname="sans-serif", fontsize=12\];',
    rb'  edge \[arrowsize=0\.7\];',
]
NAME = rb'"([A-Za-z0-9_.-]{1,63})"'
WORKQUEUE = rb'  subgraph "cluster wq (0|[1-9][0-9]*)" \{'
ITEM = rb'    ' + NAME + rb';'
ORDERED = rb'    subgraph "cluster ordered ([A-Za-z0-9_.-]{1,63})" \{'
ORDERED_LOOKS = (rb'      graph \[label="", style=dashed, color=black\];'
                 rb' "ordered ([A-Za-z0-9_.-]{1,63})" \[label="ordered", shape=plaintext, style=""\];')
MEMBER = rb'      ' + NAME + rb';'
END_OF_ORDERED = rb'    \}'
END_OF_WORKQUEUE = rb'  \}'
END = rb'\}'

# How an arrow looks: its colour; and its head: whether it is drawn from its target, and whether it is of a whole workqueue.
LOOKS = {b"": "black", b" [color=red, style=bold]": "red", b" [color=red, penwidth=4]": "bold red", b" [style=bold]": "bold"}
UNSURE_LOOKS = {b" [style=dotted]": "black", b' [color=red, style="bold,dotted"]': "red", b" [color=red, penwidth=4, style=dotted]": "bold red",
                b' [style="bold,dotted"]': "bold"}
REDS = {"red", "bold red"}
HEADS = {
    b"": (False, False),
    b" [arrowhead=odiamond]": (False, True),
    b" [dir=back]": (True, False),
    b" [dir=back, arrowtail=odiamond]": (True, True),
}


def one_of(texts):
    """A pattern of these texts."""
    return rb'(' + b"|".join(map(re.escape, texts)) + rb')'


# What is between quotes, with an escape for what Graphviz would read otherwise.
ESCAPE = rb'(?:[ !#-%\'-\[\]-~]|\\"|\\\\|&amp;)'

# A workqueue's frame, which is dashed where it has no rescuer; and its label, where it isn't just the number: a name of 63 bytes
# at most, the number or both.
FRAMES = {b"style=filled, color=gray92": False, b'style="filled,dashed", fillcolor=gray92, color=black': True}
RESCUER = b" (no rescuer)"
LABEL = rb'(?:label="(' + ESCAPE + rb'{1,85})", )?'
WORKQUEUE_LOOKS = (rb'    graph \[label="", ' + one_of(FRAMES) + rb'\]; "wq (0|[1-9][0-9]*)" \[' + LABEL
                   + rb'shape=plaintext, style="", fontsize=14\];')

# The comment of the line that declares the flush, of 256 bytes at most.
TOOLTIP = rb'(?: \[edgetooltip="(' + ESCAPE + rb'{1,256})"\])?'
ARROW = rb'  ' + NAME + rb' -> ' + NAME + one_of([*LOOKS, *UNSURE_LOOKS]) + one_of(HEADS) + TOOLTIP + rb';'
ESCAPED = re.compile(rb'\\(.)|&amp;')


class NotADrawing(Exception):
    """The number of the first line at fault, and why it is."""


@dataclasses.dataclass
class Drawing:
    """What is drawn."""

    title: str
    workqueues: list  # by number, each as its groups, each of these as the names of its items
    arrows: list  # in order, each as the names of its item and of its target, `black`, a colour of REDS or `bold`, and whether it is whole
    comments: list = dataclasses.field(default_factory=list)  # of each arrow, empty if it has none
    bare: set = dataclasses.field(default_factory=set)  # the numbers of the workqueues without a rescuer
    labels: dict = dataclasses.field(default_factory=dict)  # by number, where it isn't just the number: the name, with `wq Q` or not
    unsure: set = dataclasses.field(default_factory=set)  # the numbers of the arrows that are dotted

    def workqueue_of(self):
        """By the name of an item, the number of its workqueue."""
        return {name: number for number, groups in enumerate(self.workqueues) for group in groups for name in group}

    def group_of(self):
        """By the name of an item, the names of its group."""
        return {name: group for groups in self.workqueues for group in groups for name in group}

    def coloured(self, colour):
        """The arrows of this colour, without it."""
        return [(item, target) for item, target, of_arrow, _ in self.arrows if of_arrow == colour]

    def red(self):
        """The arrows that are red, bold or not, without their colours."""
        return [(item, target) for item, target, colour, _ in self.arrows if colour in REDS]


class Reader:
    """The lines of a text, taken one after the other."""

    def __init__(self, text):
        *self.lines, behind = text.split(b"\n")
        self.at = 0  # how many lines were taken
        self.must(behind == b"", "the last line has no LF", len(self.lines) + 1)

    def must(self, holds, why, line=None):
        if not holds:
            raise NotADrawing(self.at if line is None else line, why)

    def may_take(self, pattern):
        """The match of the next line, which is taken; None where it is another line."""
        match = re.fullmatch(pattern, self.lines[self.at]) if self.at < len(self.lines) else None
        self.at += match is not None
        return match

    def take(self, pattern, what):
        """The match of the next line, which must be such a line."""
        match = self.may_take(pattern)
        self.must(match, f"this is not {what}", self.at + 1)
        return match


def red_legend(words):
    """What red says, where these are the words of TITLE."""
    red, leading = int(re.search(", ([0-9]+) wait", words)[1]), LEADING.search(words)
    enough = ENOUGH if SHORTEST.search(words) else ""
    if leading is None:
        return f"{RED}{CIRCLED}.{enough}"
    return f"{RED}{LEADS}.{enough}" if int(leading[1]) == red else rf"{RED}{CIRCLED},\lor that {LEADS}.{enough}"


def legends_of(words):
    """The legends that may follow these words of TITLE, each with whether it speaks of dashed frames."""
    unsure = NOT_SURE.fullmatch(words)
    words, dotted = (unsure[1], DOTTED) if unsure else (words, "")
    if words.startswith("plan"):
        legends = {BOLD if words.endswith("in bold") else "": False}
    else:
        first = "" if words == "safe" else red_legend(words)
        legends = {first: False, f"{first}{DASHED}": True}
    return {legend + dotted + r"\l" if legend + dotted else "": is_dashed for legend, is_dashed in legends.items()}


def read_head(reader):
    """TITLE, without its legend, and whether this speaks of dashed frames."""
    match = [reader.take(line, "the line of the head that stands here") for line in HEAD][1]
    words, legend = match[1].decode(), match[2].decode()
    reader.must(WORDS.fullmatch(NOT_SURE.sub(r"\1", words)), "TITLE has other words", 2)
    legends = legends_of(words)
    reader.must(legend in legends, "TITLE has another legend", 2)
    return words, legends[legend]


def unescaped(text):
    """What stands for this text of a drawing."""
    return ESCAPED.sub(lambda found: found[1] or b"&", text)


def read_label(reader, drawing, number, label, bare):
    """Notes how a workqueue looks. One without a rescuer says so in its label."""
    if bare:
        drawing.bare.add(number)
        reader.must(label and label.endswith(RESCUER), "a dashed frame whose label doesn't say why")
        label = label[:-len(RESCUER)]
    numbered = b"wq %d" % number
    if label is None or bare and label == numbered:
        return
    name = unescaped(label)
    reader.must(1 <= len(name) <= 63 or len(name) <= len(numbered) + 64 and name.startswith(numbered + b" "),
                "a label is too long or empty")
    drawing.labels[number] = name.decode()


def read_ordered(reader, box):
    """The names of a group of several items, whose first line was taken."""
    looks = reader.take(ORDERED_LOOKS, "how an ordered group looks")
    reader.must(looks[1].decode() == box, "this isn't the name of the ordered group")
    names = []
    while match := reader.may_take(MEMBER):
        names.append(match[1].decode())
    reader.take(END_OF_ORDERED, "an item or the end of the group")
    reader.must(len(names) >= 2, "a group of several items has fewer than two")
    reader.must(names[0] == box, "an ordered group isn't named after its first item")
    return names


def read_groups(reader):
    """The groups of a workqueue, whose first two lines were taken."""
    groups = []
    while not reader.may_take(END_OF_WORKQUEUE):
        if match := reader.may_take(ITEM):
            groups.append([match[1].decode()])
        else:
            box = reader.take(ORDERED, "an item, an ordered group or the end of the workqueue")[1].decode()
            groups.append(read_ordered(reader, box))
    return groups


def read_workqueues(reader, drawing):
    """The workqueues by their numbers. No item may be on two."""
    workqueues = drawing.workqueues
    seen = set()
    while match := reader.may_take(WORKQUEUE):
        number = b"%d" % len(workqueues)
        reader.must(match[1] == number, "this isn't the number of the next workqueue")
        looks = reader.take(WORKQUEUE_LOOKS, "how a workqueue looks")
        reader.must(looks[2] == number, "this isn't the number of the workqueue")
        read_label(reader, drawing, len(workqueues), looks[3], FRAMES[looks[1]])
        groups = read_groups(reader)
        names = [name for group in groups for name in group]
        reader.must(len(set(names)) == len(names) and seen.isdisjoint(names), "an item of this box stands twice")
        seen.update(names)
        workqueues.append(groups)


def read_arrows(reader, drawing):
    """The arrows, each between items. Those that are drawn from their targets are returned to their items."""
    items = drawing.workqueue_of()
    arrows, turned, comments = drawing.arrows, [], drawing.comments
    while match := reader.may_take(ARROW):
        one, other = match[1].decode(), match[2].decode()
        reader.must(one in items and other in items, "an end of this arrow is no item")
        colour, (back, whole) = (LOOKS | UNSURE_LOOKS)[match[3]], HEADS[match[4]]
        drawing.unsure.update([len(arrows)] if match[3] in UNSURE_LOOKS else [])
        arrows.append((other, one, colour, whole) if back else (one, other, colour, whole))
        turned.append(back)
        comments.append(unescaped(match[5] or b"").decode())
    must_be_turned(reader, arrows, turned, {item for item, number in items.items() if number in drawing.bare})


def must_be_turned(reader, arrows, turned, on_bare):
    """Of arrows that go both ways between two items, those that are turned are all those of one of the two. They lie on a circle,
    or lead to no rescuer, unless they are of an item on a workqueue without one."""
    ways = {}
    for (item, target, colour, _), back in zip(arrows, turned):
        ways.setdefault((item, target), set()).add(back)
        reader.must(not back or (colour == "black" if item in on_bare else colour in REDS),
                    "an arrow is drawn from its target in the wrong colour")
    for (item, target), backs in ways.items():
        reader.must(len(backs) == 1, "arrows of one item and one target are drawn from either")
        other = ways.get((target, item)) if item != target else None
        reader.must((True in backs) ^ (True in other) if other else True not in backs,
                    "arrows that go both ways aren't drawn from the same item, or others from their targets")


def must_be_plan(reader, drawing, count):
    """A plan of so many workqueues is drawn."""
    workqueue_of, group_of = drawing.workqueue_of(), drawing.group_of()
    reader.must(count == len(drawing.workqueues), "TITLE has another number of workqueues")
    reader.must(all(drawing.workqueues), "a workqueue of a plan is empty")
    reader.must(all(workqueue_of[item] > workqueue_of[target] for item, target, *_ in drawing.arrows),
                "an arrow of a plan doesn't lead to a lower workqueue")
    chain = sorted(drawing.coloured("bold"), key=lambda arrow: -workqueue_of[arrow[0]])
    reader.must([(workqueue_of[item], workqueue_of[target]) for item, target in chain]
                == [(at, at - 1) for at in range(count - 1, 0, -1)],
                "the bold arrows don't lead from each workqueue to the next lower one")
    reader.must(all(group_of[target] is group_of[item] for (_, target), (item, _) in zip(chain, chain[1:])),
                "a bold arrow doesn't begin at the group where the one before it ends")


PLANNED = re.compile("plan of ([0-9]+) ")


def must_lead(reader, drawing):
    """Red are all arrows that lead from a workqueue with a rescuer to one without, so many as TITLE says, and no others that
    begin or end on one without."""
    workqueue_of = drawing.workqueue_of()
    leading = 0
    for item, target, colour, _ in drawing.arrows:
        ends = workqueue_of[item] in drawing.bare, workqueue_of[target] in drawing.bare
        leading += ends == (False, True)
        reader.must(ends == (False, False) or (colour in REDS) == (ends == (False, True)),
                    "an arrow that leads to no rescuer isn't red, or another one is")
    said = LEADING.search(drawing.title)
    reader.must(leading == (int(said[1]) if said else 0), "TITLE has another number of arrows that lead to no rescuer")


def must_hang(reader, drawing):
    """Where arrows are red, those that are bold are one that leads to no rescuer, or lead round, from workqueue to workqueue, and TITLE
    says how many they are, if not all are."""
    workqueue_of, bold = drawing.workqueue_of(), drawing.coloured("bold red")
    said = SHORTEST.search(drawing.title)
    reader.must(int(said[1]) == len(bold) < len(drawing.red()) if said else len(bold) == len(drawing.red()),
                "TITLE has another number of bold ones among the red arrows")
    if len(bold) == 1 and workqueue_of[bold[0][1]] in drawing.bare:
        return
    leads = {workqueue_of[item]: workqueue_of[target] for item, target in bold}
    reader.must(len(leads) == len(bold), "two bold red arrows begin on one workqueue")
    at, passed = workqueue_of[bold[0][0]] if bold else None, []
    while at in leads and at not in passed:
        passed.append(at)
        at = leads[at]
    reader.must(len(passed) == len(bold) and at == (passed[0] if bold else None), "the bold red arrows don't lead round")


def must_fit_title(reader, drawing, is_dashed):
    """What TITLE says fits the workqueues and the colours."""
    reader.must(is_dashed == bool(drawing.bare), "the legend speaks of dashed frames, and there is none, or the other way round")
    reader.must(drawing.title.startswith(("safe", "can")) or not drawing.bare and not drawing.labels,
                "without an assignment a workqueue has a name, or no rescuer")
    unsure = NOT_SURE.fullmatch(drawing.title)
    reader.must(len(drawing.unsure) == (int(unsure[2]) if unsure else 0), "TITLE has another number of dotted arrows")
    must_lead(reader, drawing)
    planned = PLANNED.match(drawing.title)
    for colour, arrows in ("red", drawing.red()), ("bold", drawing.coloured("bold")):
        said = re.search(f", ([0-9]+) waits? in {colour}", drawing.title)
        reader.must(len(arrows) == (int(said[1]) if said else 0), f"TITLE has another number of {colour} arrows")
    must_hang(reader, drawing)
    if planned:
        must_be_plan(reader, drawing, int(planned[1]))


def read(text):
    """The drawing that the text, bytes, holds. Raises NotADrawing where it holds none."""
    reader = Reader(text)
    title, is_dashed = read_head(reader)
    drawing = Drawing(title, [], [])
    read_workqueues(reader, drawing)
    read_arrows(reader, drawing)
    reader.take(END, "a workqueue in front of all arrows, an arrow, or the end")
    reader.must(reader.at == len(reader.lines), "a line stands behind the end", reader.at + 1)
    must_fit_title(reader, drawing, is_dashed)
    return drawing


def say(place):
    """Prints what the file draws. Whether it holds a drawing."""
    with open(place, "rb") as file:
        text = file.read()
    try:
        drawing = read(text)
    except NotADrawing as fault:
        line, why = fault.args
        print(f"{place}:{line}: {why}")
        return False
    counts = [len(drawing.workqueue_of()), len(drawing.workqueues), len(drawing.arrows)]
    counts += [len(drawing.red()), len(drawing.coloured("bold")) + len(drawing.coloured("bold red"))]
    print("{}: {}: items {}, workqueues {}, arrows {}, red {}, bold {}".format(place, drawing.title, *counts))
    return True


def main(places):
    """The exit status."""
    if not places:
        print("usage: dot.py FILE..", file=sys.stderr)
        return 2
    return 0 if all([say(place) for place in places]) else 1


if __name__ == "__main__":
    sys.exit(main(sys.argv[1:]))
