"""A model of `wqplan dot DECL [ASSIGN]`.

It prints a drawing for Graphviz, as docs/FORMAT.md asks for in "The command `dot`". Where several runs are shortest that end stuck,
the page doesn't say in which one the flushes wait that are bold red: `is_right` says whether those of another drawing do in one of
them. See plan.py for what the model is.
"""

import collections
import re
import sys

sys.dont_write_bytecode = True
import certificate  # noqa: E402  (beside this file)
import declaration  # noqa: E402
import hang  # noqa: E402
import plan  # noqa: E402
from circle import led_to_no_rescuer  # noqa: E402
from circles import arcs_on_circles, own_workqueues, read_texts  # noqa: E402
from command_line import answer_texts  # noqa: E402
from declaration import Refused  # noqa: E402
from walks import cost_of_walk, is_circle, least_to_no_rescuer, least_walk, leads_to_none, wait_of  # noqa: E402

# The text. TITLE, Q, FRAME, LABEL and NAME are %b.
HEAD = [
    b'digraph wqplan {',
    b'  graph [label="%b", labelloc=t, labeljust=l, rankdir=LR, nodesep=0.15, ranksep=1,'
    b' fontname="sans-serif"];',
    b'  node [shape=box, style=filled, fillcolor=white, height=0.3, fontname="sans-serif", fontsize=12];',
    b'  edge [arrowsize=0.7];',
]
WORKQUEUE = [
    b'  subgraph "cluster wq %b" {',
    b'    graph [label="", %b]; "wq %b" [%bshape=plaintext, style="", fontsize=14];',
]
FRAME = {True: b"style=filled, color=gray92", False: b'style="filled,dashed", fillcolor=gray92, color=black'}
ORDERED = [
    b'    subgraph "cluster ordered %b" {',
    b'      graph [label="", style=dashed, color=black];'
    b' "ordered %b" [label="ordered", shape=plaintext, style=""];',
]
BOLD = rb"\lBold: the chain that needs so many workqueues."
RED = rb"\lRed: while memory is short, a worker may wait for work\lthat %b."
SHORTEST = rb"\lBold: enough to hang it, in the fewest steps."
DASHED = rb"\lDashed: no rescuer. While memory is short, nothing\lguarantees that work there runs."
DOTTED = rb"\lDotted: not sure."
LOOKS = {
    "plain": [], "bold": [b"style=bold"], "red": [b"color=red", b"style=bold"], "bold red": [b"color=red", b"penwidth=4"],
}
UNSURE_LOOKS = {
    "plain": [b"style=dotted"], "bold": [b'style="bold,dotted"'], "red": [b"color=red", b'style="bold,dotted"'],
    "bold red": [b"color=red", b"penwidth=4", b"style=dotted"],
}
BOLD_RED = re.compile(rb'  "[^"]*" -> "[^"]*" \[color=red, penwidth=4[],]')

# What is shown of a comment: how many bytes, and how some of them, as in the name of a workqueue.
SHOWN = 256
ESCAPES = {b'"'[0]: rb'\"', b"\\"[0]: rb"\\", b"&"[0]: b"&amp;", b"\t"[0]: b" "}


def followed(declared, printed):
    """The places of the flushes that the chain of a plan text follows."""
    least = {}
    for place in sure_first(declared):
        least.setdefault(declared.flushes[place], place)
    return [least[tuple(line.split(b" ")[1:])] for line in printed.split(b"\n") if line.startswith(b"arc ")]


def sure_first(declared):
    """The places of all flushes, those of the sure ones before the others."""
    return sorted(range(len(declared.flushes)), key=lambda place: (declared.is_unsure(place), place))


def counted(number, thing):
    """So many things."""
    return b"%d %b%b" % (number, thing, b"" if number == 1 else b"s")


def what_no_one_does(red, to_none):
    """RED, of so many red flushes, of which so many lead to no rescuer."""
    if to_none == 0:
        return b"only it, or one that waits for it, can do"
    if to_none == red:
        return b"no rescuer does"
    return rb"only it, or one that waits for it, can do,\lor that no rescuer does"


def title_of_plan(planned, bold, unsure):
    """TITLE of a plan, where so many flushes are bold, and so many unsure."""
    parts = [b", %b in bold" % counted(bold, b"wait")] if bold else []
    parts += [b", %d not sure" % unsure] if unsure else []
    parts += [BOLD] if bold else []
    parts += [DOTTED] if unsure else []
    return b"".join([b"plan of ", counted(planned.count, b"workqueue"), *parts, rb"\l" if parts else b""])


def title_of_workqueues(hanging, red, bold, to_none, unsure, has_bare):
    """TITLE: WHAT and the parts that apply. So many flushes are red, so many of these bold, so many of them lead to no rescuer, and so many
    of all are unsure.
    """
    parts = []
    if red:
        parts.append(b", %b in red" % counted(red, b"wait"))
    if to_none:
        parts.append(b", %d to no rescuer" % to_none)
    if bold < red:
        parts.append(b", %d in bold" % bold)
    if unsure:
        parts.append(b", %d not sure" % unsure)
    if red:
        parts.append(RED % what_no_one_does(red, to_none))
    if bold < red:
        parts.append(SHORTEST)
    if has_bare:
        parts.append(DASHED)
    if unsure:
        parts.append(DOTTED)
    return b"".join([hanging if red else b"safe", *parts, rb"\l" if parts else b""])


def walk_shown(declared, shown):
    """The walk that `hang` prints for these workqueues, however the assignment spells them: the items come in the order of their
    declaration.
    """
    in_order = {name: shown.workqueue_of[name] for name in declared.items}
    return least_walk(declared, certificate.Assignment(in_order, shown.count, shown.bare))


def waits_of(run):
    """The waits of a run that is printed by `hang`: the word of each, its item and its target."""
    items = [name for word, _, name in run if word == b"start"]
    return [(word, item, name) for item, (word, _, name) in zip(items, (step for step in run if step[0] in hang.WAITS))]


def places_of(declared, waits):
    """The place of the flush in which each wait is made: the least of the sure ones, or else of all."""
    first = {}
    for place in sure_first(declared):
        first.setdefault(wait_of(declared, place), place)
    return [first[wait] for wait in waits]


def cost_of(declared, shown, places):
    """What the walk costs that waits in the flushes of these places, or None where there is no such walk, or another one that costs as much
    comes first.
    """
    to_none = least_to_no_rescuer(declared, shown)
    if len(places) == 1 and leads_to_none(wait_of(declared, places[0]), shown):
        return cost_of_walk(declared, shown, places) if places == [to_none] else None
    on = {shown.workqueue_of[declared.flushes[place][0]]: place for place in places}
    circle = places[:1]
    while circle and len(circle) < len(places):
        following = on.get(shown.workqueue_of[declared.flushes[circle[-1]][1]])
        if following is None or following in circle:
            return None
        circle.append(following)
    if not is_circle([wait_of(declared, place) for place in circle], shown):
        return None
    cost = cost_of_walk(declared, shown, circle)
    return cost if to_none is None or cost < cost_of_walk(declared, shown, [to_none]) else None


class Drawn:
    """What is drawn: an assignment, with which title, and the look of each flush that isn't plain, by place."""

    def __init__(self, assignment, title, looks):
        self.assignment, self.title, self.looks = assignment, title, looks


def drawn_workqueues(declared, shown, hanging, arcs, bold):
    """Workqueues are drawn, of which `hanging` is said if they can hang. The flushes of these places are bold red."""
    to_none = led_to_no_rescuer(declared, shown)
    red = [place for places in arcs for place in places] + to_none
    title = title_of_workqueues(hanging, len(red), len(bold), len(to_none), len(declared.unsure()), bool(shown.bare))
    return Drawn(shown, title, {place: "red" for place in red} | {place: "bold red" for place in bold})


def drawn(declared, assignment, declaration_text, bold=None):
    """What is drawn. `assignment` is None where no ASSIGN is named. The flushes of the places `bold` are bold red, if workqueues are drawn
    that can hang; without them it is chosen which ones are.
    """
    shown = assignment or own_workqueues(declared)
    arcs = arcs_on_circles(declared, shown)
    if assignment is None and not arcs:
        printed, _ = plan.answer(declaration_text)
        planned, chain = certificate.read_assignment(printed, declared), followed(declared, printed)
        return Drawn(planned, title_of_plan(planned, len(chain), len(declared.unsure())), {place: "bold" for place in chain})
    if bold is None:
        bold = places_of(declared, [wait_of(declared, place) for place in walk_shown(declared, shown) or []])
    return drawn_workqueues(declared, shown, b"every assignment can hang" if assignment is None else b"can hang", arcs, bold)


def group_lines(members):
    """A group."""
    if len(members) == 1:
        return [b'    "%b";' % members[0]]
    lines = [line % members[0] for line in ORDERED]
    return lines + [b'      "%b";' % name for name in members] + [b"    }"]


def escaped(text):
    """The text with its escapes."""
    return b"".join(ESCAPES.get(byte, b"%c" % byte if 32 <= byte < 127 else b"?") for byte in text)


def label(assignment, number, how_often):
    """LABEL of a workqueue, before `shape`, or nothing. `how_often` says how many have each name."""
    called = assignment.called.get(number)
    has_rescuer = number not in assignment.bare
    if called is None and has_rescuer:
        return b""
    shown = b"wq %d" % number
    if called is not None:
        shown = escaped(called) if how_often[called] == 1 else shown + b" " + escaped(called)
    return b'label="%b%b", ' % (shown, b"" if has_rescuer else b" (no rescuer)")


def workqueue_lines(number, has_rescuer, label, groups):
    """A workqueue with its groups."""
    q = b"%d" % number
    lines = [WORKQUEUE[0] % q, WORKQUEUE[1] % (FRAME[has_rescuer], q, label)]
    for members in groups:
        lines += group_lines(members)
    return lines + [b"  }"]


def turned_ends(declared):
    """The pairs of an item and its target of which the target is drawn first."""
    number = {name: at for at, name in enumerate(declared.items)}
    pairs = set(declared.flushes)
    return {(item, target) for item, target in pairs if number[target] < number[item] and (target, item) in pairs}


def comments(declaration_text):
    """By the place of each flush the comment of its line."""
    for line in declaration.split_lines(declaration_text):
        words = declaration.split_words(line)
        if words and words[0] in declaration.FLUSHES:
            shown = line[len(declaration.before_comment(line)):].lstrip(b"# \t")[:SHOWN]
            yield from [shown] * len(words[2:])


def tooltip(comment):
    """A comment as an attribute, with its escapes."""
    return [b'edgetooltip="%b"' % escaped(comment)] if comment else []


def arrow_line(ends, turned, whole, look, comment):
    """The flush of an item and its target. `look` is a list of attributes."""
    head = [b"dir=back"] if turned else []
    if whole:
        head.append(b"arrowtail=odiamond" if turned else b"arrowhead=odiamond")
    attributes = b"".join(b" [%b]" % b", ".join(marks) for marks in (look, head, tooltip(comment)) if marks)
    return b'  "%b" -> "%b"%b;' % (*(ends[::-1] if turned else ends), attributes)


def dot_text(declared, drawn, said):
    """The text. `said` are the comments by place."""
    assignment = drawn.assignment
    groups = [[] for _ in range(assignment.count)]
    for members in declared.groups:
        groups[assignment.workqueue_of[members[0]]].append(members)
    lines = [HEAD[0], HEAD[1] % drawn.title, *HEAD[2:]]
    how_often = collections.Counter(assignment.called.values())
    for number in range(assignment.count):
        shown = label(assignment, number, how_often)
        lines += workqueue_lines(number, number not in assignment.bare, shown, groups[number])
    turned = turned_ends(declared)
    for place, (ends, comment) in enumerate(zip(declared.flushes, said, strict=True)):
        whole = declared.directive_of[place] in declaration.FLUSHES_WHOLE
        looks = UNSURE_LOOKS if declared.is_unsure(place) else LOOKS
        lines.append(arrow_line(ends, ends in turned, whole, looks[drawn.looks.get(place, "plain")], comment))
    return b"".join(line + b"\n" for line in [*lines, b"}"])


def is_right(texts, wanted, found):
    """Whether an answer that isn't the model's, which is `wanted`, is right, too: another shortest run waits in the flushes that are
    bold red in it, and all else is the same.
    """
    if wanted[1] != 0 or found[1] != 0:
        return False
    declared, assignment = read_texts(texts[0], texts[1] if len(texts) == 2 else None)
    shown = assignment or own_workqueues(declared)
    least = walk_shown(declared, shown)
    arrows = found[0].split(b"\n")[-2 - len(declared.flushes):-2]
    bold = [place for place, line in enumerate(arrows) if BOLD_RED.match(line)]
    if least is None or cost_of(declared, shown, bold) != cost_of_walk(declared, shown, least):
        return False
    return found[0] == dot_text(declared, drawn(declared, assignment, texts[0], bold), comments(texts[0]))


def text_with_waits_of(printed, declaration_text, assignment_text):
    """What is drawn where the waits of this run, which `hang` printed, are bold red."""
    declared, assignment = read_texts(declaration_text, assignment_text)
    bold = places_of(declared, waits_of(certificate.read_run(printed, declared)))
    return dot_text(declared, drawn(declared, assignment, declaration_text, bold), comments(declaration_text))


def answer(declaration_text, assignment_text=None):
    """The bytes of the answer, and the exit status (Faults and exit statuses)."""
    try:
        declared, assignment = read_texts(declaration_text, assignment_text)
    except Refused as refused:
        return refused.answer()
    return dot_text(declared, drawn(declared, assignment, declaration_text), comments(declaration_text)), 0


def main(arguments):
    """The exit status."""
    if len(arguments) not in (2, 3) or arguments[0] != "dot":
        print("usage: dot.py dot DECL [ASSIGN]", file=sys.stderr)
        return 2
    return answer_texts(answer, arguments[1:], (declaration.TEXT_LIMIT, certificate.TEXT_LIMIT))


if __name__ == "__main__":
    sys.exit(main(sys.argv[1:]))
