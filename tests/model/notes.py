# A model of what standard error says of unsure lines: docs/FORMAT.md, "What isn't sure".

import around
import certificate
from circle import led_to_no_rescuer
from circles import arcs_on_circles, own_workqueues
from declaration import read_declaration, split_lines, split_words
from marks import shown
from plan import chain_of, workqueues_of_plan
from readings import reading


def lines_of_unsure(text):
    """The numbers of the unsure lines, in order of place."""
    found = [(number, split_words(line)) for number, line in enumerate(split_lines(text), start=1)]
    return [number for number, words in found if words and words[0].endswith(b"?")]


def counted(number, one, more):
    """So many of what is called so where it is one, or more."""
    return b"%d %s" % (number, one if number == 1 else more)


def safe(declared):
    """(d)"""
    return [b"safe whatever the %s turn%s out to be" % (counted(len(declared.unsure()), b"unsure line", b"unsure lines"),
                                                         b"s" if len(declared.unsure()) == 1 else b"")]


def not_decided(count):
    """(e)"""
    aren_t = b"1 of these waits isn't decided" if count == 1 else b"%d of these waits aren't decided" % count
    return [aren_t + b". Take a line away if it isn't so, or its `?` if it is, and ask again"]


def no_difference(declared, assignment, text):
    """(f). `assignment` is None where none is named."""
    on = assignment or own_workqueues(declared)
    matter = {place for places in arcs_on_circles(declared, on) for place in places} | set(led_to_no_rescuer(declared, on))
    unsure = declared.unsure()
    left = [number for number, place in zip(lines_of_unsure(text), unsure) if place not in matter]
    what = b"on these workqueues" if assignment else b"to whether there is a plan"
    return wording_of_no_difference(left, len(unsure), what) if left else []


def wording_of_no_difference(left, count, what):
    """(f), of these lines, out of so many unsure ones."""
    lines = b", ".join(b"%d" % number for number in left)
    make = b"makes" if len(left) == 1 else b"make"
    return [b"%d of %s %s no difference %s: %s %s" % (
        len(left), counted(count, b"unsure line", b"unsure lines"), make, what, b"line" if len(left) == 1 else b"lines", lines)]


def fewest_workqueues(declared):
    """How many workqueues a plan has. There is one."""
    return max(workqueues_of_plan(declared).values(), default=-1) + 1


def places_of_arcs(declared, arcs):
    """The place of the flush of each arc: the sure one of least place, or else the unsure one of least place."""
    found = {}
    for place in sorted(range(len(declared.flushes)), key=lambda place: (declared.is_unsure(place), place)):
        found.setdefault(declared.flushes[place], place)
    return [found[arc] for arc in arcs]


def chain(declared, count, places):
    """(g), of the flushes that the chain follows. Behind the note are its lines."""
    fewer = fewest_workqueues(reading(declared, frozenset()))
    if fewer == count:
        return []
    lines = b"".join(b"\n" + declared.flush_line(place) for place in places if declared.is_unsure(place))
    enough = b"1 is enough" if fewer == 1 else b"%d are enough" % fewer
    return [b"%s needed if these are so; without unsure lines %s:%s" % (
        counted(count, b"workqueue is", b"workqueues are"), enough, lines)]


def notes_of(command, texts, printed):
    """The notes that belong beside this answer, which isn't a refusal."""
    declared = read_declaration(texts[0])
    if not declared.unsure() or around.is_asked(command, texts):
        return []
    assignment = None
    if len(texts) > 1 and command not in ("check", "plan"):
        assignment = certificate.read_assignment(texts[1], declared)
    first = printed.split(None, 1)[0] if printed else b""
    if command in ("deadlock", "hang", "circles") and first == b"safe":
        return safe(declared)
    if command in ("deadlock", "hang") and first == b"unsure":
        count = int(printed.split()[1])
        if count == 0:
            return [b"hangs for sure: no unsure line is needed"]
        return not_decided(count) + no_difference(declared, assignment, texts[0])
    if command == "circles":
        return no_difference(declared, assignment, texts[0])
    if command == "plan" and first == b"plan":
        return chain(declared, fewest_workqueues(declared), chain_of(declared, workqueues_of_plan(declared)))
    if command == "check" and first == b"yes" and not printed.startswith(b"yes circle"):
        claimed = certificate.read_answer(texts[1], declared)
        return chain(declared, claimed.assignment.count, places_of_arcs(declared, claimed.arcs))
    return []


def said_of(command, files, texts, printed):
    """The bytes of these notes."""
    return b"".join(shown(files[0]) + b": note: " + note + b"\n" for note in notes_of(command, texts, printed))
