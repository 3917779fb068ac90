# A model of what standard error says beside an answer of `repair`: docs/MESSAGES.md, "Changes", docs/FORMAT.md, "What isn't sure", and
# tests/DIAGNOSES.md, "What `repair` changes". As reasons.py it has its own words, and judges those of the program: which of several least
# circular waits is said is left open.

import dataclasses

import certificate
import circles
import notes
import reasons
import repair
import unrescued
from declaration import read_declaration, split_lines
from marks import shown, words_of, workqueue

# Of so many changes it is said why they are needed; or of one alone where there are more items than this.
MOST_WHYS = 10
MANY_ITEMS = 512


def place_in_assignment(texts, word):
    """Where this name stands on the lines of workqueues: the number of the line and the column."""
    for number, line in enumerate(split_lines(texts[1]), start=1):
        words = words_of(line)
        if words and words[0].word in certificate.HAS_RESCUER:
            found = next((other for other in words[2:] if other.word == word), None)
            if found:
                return number, found.first + 1
    raise AssertionError(word)


def changes_of(files, texts, case, new):
    """Of each change its line, the workqueues without it, and what stands before why."""
    moved, given = case.changes(new)
    for number in sorted(given):
        line, _, word = reasons.line_of_workqueue(texts[1], number)
        what = b"%s is given a rescuer" % workqueue(new, number)
        yield (line, word.first + 1, what), dataclasses.replace(new, bare=new.bare | {number}), reasons.WITHOUT
    for group in sorted(moved):
        members = case.declared.groups[group]
        there = new.workqueue_of[members[0]]
        more = b", with %d more of its group," % (len(members) - 1) if len(members) > 1 else b""
        how = b", a new one" if there >= case.assignment.count else b", which is given a rescuer" if there in case.assignment.bare else b""
        what = b"`%s`%s moves from %s to %s%s" % (members[0], more, workqueue(new, case.at[group]), workqueue(new, there), how)
        back = {name: case.at[group] for name in members}
        old = dataclasses.replace(new, workqueue_of=new.workqueue_of | back)
        yield (*place_in_assignment(texts, members[0]), what), old, reasons.STAYED


def words_of_repair(files, texts, names, printed):
    """What is said, in parts: bytes, or a case and the part of it of which a reason is said (reasons.py)."""
    declared = read_declaration(texts[0])
    assignment = certificate.read_assignment(texts[1], declared)
    case = repair.Case(declared, assignment, names)
    if case.is_safe(assignment):
        yield notes.said_of("deadlock", files, texts, b"safe\n") + unrescued.said_of("deadlock", files, texts, b"safe\n")
    elif printed.startswith(b"circle "):
        claimed = certificate.read_answer(printed, declared)
        groups = {declared.group_of[item] for item, _ in claimed.arcs}
        on = reasons.Case(files, texts, declared, circles.own_workqueues(declared), True)
        yield on, [place for place, flush in enumerate(declared.flushes) if {declared.group_of[name] for name in flush} <= groups]
    elif printed.startswith(b"run "):
        start = case.start(case.need_rescuers(3))
        lines = repair.assignment_text(declared, start)
        note = b": note: wherever these items move, the workqueues can hang; the run is on these:"
        yield b"".join(shown(line) + b"\n" for line in [files[1] + note, *lines])
        on = reasons.Case(files, texts, declared, start)
        yield on, reasons.one_part(on)[0]
    else:
        new = certificate.read_assignment(printed, declared)
        most = 1 if len(declared.items) > MANY_ITEMS else MOST_WHYS
        for number, ((line, column, what), without, front) in enumerate(changes_of(files, texts, case, new)):
            yield shown(b"%s:%d:%d: %s" % (files[1], line, column, what)) + b"\n"
            if number < most:
                on = reasons.Case(files, texts, declared, without, front=front)
                yield on, reasons.one_part(on)[0]


def reason_of(case, part):
    """The model's own reason."""
    return [part] if isinstance(part, int) else case.least(part)


def said_of(files, texts, names, printed):
    """The model's own words beside this answer, which isn't a refusal."""
    parts = words_of_repair(files, texts, names, printed)
    return b"".join(part if isinstance(part, bytes) else part[0].printed([reason_of(*part)]) for part in parts)


def wrong_with(files, texts, names, printed, said):
    """What is wrong with the words beside this answer, or None."""
    for part in words_of_repair(files, texts, names, printed):
        if isinstance(part, bytes):
            if not said.startswith(part):
                return f"this comes next: {part!r}"
            said = said[len(part):]
            continue
        case, among = part
        front, said = first_reason(case, said)
        places = reasons.flushes_said(case, front)
        if not places or len(places) != 1:
            return f"a reason comes next: {front!r}"
        wrong = reasons.wrong_with_part(case, among, places[0])
        if wrong or case.printed(places) != front:
            return wrong or f"of these flushes this is to be said: {case.printed(places)!r}"
    return f"no more is said: {said!r}" if said else None


def first_reason(case, said):
    """The lines of the first reason, and what is behind them."""
    lines = said.splitlines(keepends=True)
    at = reasons.BLOCK
    while at < len(lines) and (b": and `" in lines[at] or b": and if this is so: `" in lines[at]):
        at += reasons.BLOCK
    # The flush that leads to no rescuer has a block of the assignment behind it.
    at += reasons.BLOCK if at == reasons.BLOCK and b", which nothing guarantees to run: " in lines[0] else 0
    return b"".join(lines[:at]), b"".join(lines[at:])
