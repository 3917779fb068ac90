# A model of what standard error says where items are NAMEd that must go on: docs/FORMAT.md, "Diagnoses", Who is held up, and What isn't
# held up. Which of several least walks is said is left open. So `wrong_with` reads from the places of the blocks which flushes are said,
# asks whether they are a walk for the NAMEs than which none costs less, and then all that is said must be what belongs to this walk, to
# the byte.

import re

import certificate
import hang
import messages  # in tests/lib
from circles import held_up
from declaration import FLUSHES_WHOLE, read_declaration
from held import Walk, cost_of_held, least_held, run_of_held
from marks import shown, workqueue
from notes import lines_of_unsure, not_decided, safe, wording_of_no_difference
from reasons import BLOCK, FURTHER, Case, line_of_workqueue, marked, places_of_targets
from walks import least_walk, unsure_of

HEAD = re.compile(rb"[^\n]*?:([1-9][0-9]*):([1-9][0-9]*): ")


def an_item(name):
    return messages.said("an_item", name=name)


# What is said of a walk --------------------------------------------------------------------------


def rest(case, walk, at):
    """REST of the wait of this number."""
    place = walk.places[at]
    item, target = case.declared.flushes[place]
    whole = case.declared.directive_of[place] in FLUSHES_WHOLE
    other = case.words(target)
    if case.assignment.workqueue_of[target] in case.assignment.bare:
        return messages.said("rest_all_of_bare" if whole else "rest_bare", target=an_item(target), other=other)
    following = next_of(case, walk, at)
    if whole:
        return messages.said("rest_all_of_its_own") if following == item else messages.said("rest_all", other=other, next=an_item(following))
    if target == following:
        return messages.said("rest_itself") if target == item else messages.said("rest_next", target=an_item(target), other=other)
    if following == item:
        return messages.said("rest_behind_it", target=an_item(target))
    return messages.said("rest_behind", target=an_item(target), next=an_item(following), other=other)


def next_of(case, walk, at):
    """The item that waits next, or None at the end of a way to a workqueue without a rescuer."""
    following = at + 1 if at + 1 < len(walk.places) else walk.meets
    return None if following is None else case.declared.flushes[walk.places[following]][0]


def first_what(case, walk):
    """WHAT of the first wait."""
    place = walk.places[0]
    first, target = case.declared.flushes[place]
    suffix = "_if" if case.declared.is_unsure(place) else ""
    own = case.words(walk.named)
    if first == walk.named:
        return messages.said("held_on" + suffix, item=an_item(walk.named), workqueue=own, rest=rest(case, walk, 0))
    alone = case.declared.directive_of[place] not in FLUSHES_WHOLE and target == walk.named
    why = messages.said("rest_for_it") if alone else rest(case, walk, 0)
    return messages.said("held_behind" + suffix, item=an_item(walk.named), first=an_item(first), workqueue=own, rest=why)


def to_none_lines(case, place):
    """The lines of the workqueue without a rescuer to which this flush leads."""
    target = case.declared.flushes[place][1]
    none = messages.said("has_no_rescuer", workqueue=case.words(target))
    return marked(case.files[1], *line_of_workqueue(case.texts[1], case.assignment.workqueue_of[target]), none)


def lines_of(case, walk):
    """All that is said of a walk."""
    if not walk.places:
        number = case.assignment.workqueue_of[walk.named]
        what = messages.said("held_bare", item=an_item(walk.named), workqueue=workqueue(case.assignment, number))
        return marked(case.files[1], *line_of_workqueue(case.texts[1], number), what)
    lines = []
    for at, place in enumerate(walk.places):
        is_last = at + 1 == len(walk.places) and walk.meets is None
        if at == 0:
            what = first_what(case, walk)
        elif is_last:
            what = case.head(place, FURTHER) + case.why_to_none(place)[0]
        else:
            what = case.head(place, FURTHER) + case.why(place, next_of(case, walk, at))
        lines += case.block(place, what) + (to_none_lines(case, place) if is_last else [])
    return lines


def text_of(case, walk):
    return b"".join(shown(line) + b"\n" for line in lines_of(case, walk))


def walks_said(case, names, said):
    """The walks whose flushes are those of the heads of these blocks."""
    heads = [HEAD.match(head) for head in said.split(b"\n")[:-1:BLOCK]]
    targets = places_of_targets(case.texts[0])
    places = [targets.get((int(head[1]), int(head[2]))) if head else None for head in heads if head is None or head[0].startswith(shown(case.files[0]) + b":")]
    if None in places:
        return
    for name in dict.fromkeys(names):
        for meets in [None, *range(len(places))]:
            walk = Walk(name, places, meets)
            if hang.leads_on(case.declared, case.assignment, walk):
                yield walk


# What is said beside an answer -------------------------------------------------------------------


BESIDE = {("hang", b"run"), ("hang", b"unsure"), ("replay", b"deadlock"), ("replay", b"stuck"), ("circles", b"components")}


def no_difference(case, names):
    """(f), of what `circles` prints with these NAMEs."""
    arcs, to_none, ways = held_up(case.declared, case.assignment, names)
    matter = {place for places in [*arcs, to_none, ways] for place in places}
    unsure = case.declared.unsure()
    left = [number for number, place in zip(lines_of_unsure(case.texts[0]), unsure) if place not in matter]
    return wording_of_no_difference(left, len(unsure), b"to what is named") if left else []


def without_flushes(case, names):
    """The NAMEd items on whose workqueues no item declares a flush."""
    on = {case.assignment.workqueue_of[item] for item, _ in case.declared.flushes}
    return [name for name in case.declared.items if name in names and case.assignment.workqueue_of[name] not in on]


def not_held(case, names):
    """What isn't held up: the notes beside `safe`."""
    found = []
    items = [an_item(name) for name in without_flushes(case, names)]
    if len(items) == 1:
        found.append(messages.said("nothing_flushes_on", file=case.files[0], item=items[0]))
    elif items:
        found.append(messages.said("nothing_flushes_on_these", file=case.files[0], items=b", ".join(items)))
    if least_walk(case.declared, case.assignment) is not None:
        found.append(messages.said("others_can_hang", file=case.files[0]))
    return b"".join(shown(line) + b"\n" for line in found)


def notes_behind(case, command, names, printed, places):
    """The notes on unsure lines behind a walk with these places."""
    if not case.declared.unsure() or command == "replay":
        return b""
    if command == "circles":
        found = no_difference(case, names)
    else:
        count = len(unsure_of(case.declared, places))
        found = not_decided(count) + no_difference(case, names) if count else [b"hangs for sure: no unsure line is needed"]
    return b"".join(shown(case.files[0]) + b": note: " + note + b"\n" for note in found)


def wrong_with(command, files, texts, names, printed, said, unrescued):
    """What is wrong with what is said beside this answer, which isn't a refusal nor of a step that may not be made; or None. `unrescued`
    is what is said of workqueues without a rescuer.
    """
    declared = read_declaration(texts[0])
    case = Case(files, texts, declared, certificate.read_assignment(texts[1], declared))
    if printed == b"safe\n":
        above = shown(files[0]) + b": note: " + safe(declared)[0] + b"\n" if declared.unsure() else b""
        wanted = above + unrescued + (not_held(case, names) if command == "hang" else b"")
        return None if said == wanted else f"this is to be said: {wanted!r}"
    if (command, printed.split(None, 1)[0]) not in BESIDE:
        return None if said == b"" else "nothing is to be said"
    least = least_held(case.declared, case.assignment, names)
    blocks = b"".join(line for line in said.splitlines(keepends=True) if b": note: " not in line)
    for walk in walks_said(case, names, blocks):
        wanted = text_of(case, walk) + notes_behind(case, command, names, printed, walk.places)
        if wanted == said and cost_of_held(declared, case.assignment, walk) == cost_of_held(declared, case.assignment, least):
            if command == "hang" and hang.text_of_walk(declared, walk.places, run_of_held(declared, case.assignment, walk)) != printed:
                continue
            return None
    wanted = text_of(case, least) + notes_behind(case, command, names, printed, least.places)
    return f"no least walk is said (of the run that is printed); one of them would be: {wanted!r}"
