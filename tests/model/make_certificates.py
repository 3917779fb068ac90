# Makes up answers, assignments and runs, each with the declaration that it is for: those at the
# limits of docs/FORMAT.md, and random ones. The same seed makes the same ones. Most begin with
# what the model answers or plays, and then something is changed. The assignments for `deadlock`
# are in make_assignments.py.

import random
import re

import plan
from certificate import LINE_LIMIT, TEXT_LIMIT, Assignment
from deadlock import deadlocking_run
from declaration import ITEM_LIMIT, read_declaration, split_words
from make_declarations import (
    BAD_BYTES, Line, item_count_of, join, make_lines, numbered_items, put_faults, spell,
)
from steps import RESCUER, State

KEYWORDS = [b"plan", b"wq", b"norescuer", b"chain", b"circle", b"arc", b"run", b"queue", b"cancel", b"start",
            b"wait", b"waitwq", b"over", b"overwq", b"finish"]
STEP_WORDS = KEYWORDS[7:]
OTHER_NUMBERS = [b"007", b"+1", b"-1", b"1.", b"0x1", b"00", b"01", b"4294967295", b"4294967296",
                 b"42949672950", b"99999999999999999999", b"4095", b"4096", b"4097", b"0", b"1"]
# Comments of the lines of an assignment: what begins them, names of workqueues and what is none, and what is behind.
LEADS = [b"# ", b"# ", b"#", b"## ", b"# # ", b"#\t"]
CALLED = [b"xfs-sync", b"xfs-sync", b"kblockd", b"x", b"x", b"a b", b"wq 0", b'"a" & \\N', b"~<b>", b"n" * 63,
          b"n" * 64, b"", b"a\tb", b"\xc3\xa4", b"a\x7f"]
BEHIND = [b"", b"", b"", b"", b", core.c:5529", b",", b" ", b" \t , x", b"#", b"\r", b" " * 70 + b",x"]


def numbered(word, number):
    return [word, b"%d" % number]


# Declarations ------------------------------------------------------------------------------------


def make_declaration(choose, shape=None):
    """The bytes of a declaration, and what it declares, or would if it had no fault."""
    lines = make_lines(choose, min(item_count_of(choose), 80), shape)
    declared = read_declaration(spell(choose, lines, True))
    if choose.random() < 0.06:
        put_faults(choose, lines, choose.randint(1, 2))
    return spell_mostly(choose, lines, choose.random() < 0.8), declared


def model_answer(declared):
    """The words of the lines of the plan text or circle text that the model answers."""
    lines = [[b"item", name] for name in declared.items]
    lines += [[b"ordered"] + members for members in declared.groups if len(members) > 1]
    flushes = [declared.flush_line(place) for place in range(len(declared.flushes))]
    printed, _ = plan.answer(join(*[b" ".join(words) for words in lines], *flushes))
    return [split_words(line) for line in printed.splitlines()]


def spell_mostly(choose, lines, plain):
    """The bytes of the lines. Where the cut last LF leaves a CR, that is mostly mended."""
    text = spell(choose, lines, plain)
    return text + b"\n" if text.endswith(b"\r") and choose.random() < 0.9 else text


def any_item(choose, declared):
    return choose.choice(declared.items or [b"a"])


def any_arc(choose, declared):
    """A declared flush, mostly."""
    if declared.flushes and choose.random() < 0.7:
        return choose.choice(declared.flushes)
    return any_item(choose, declared), any_item(choose, declared)


# Plan texts and assignments ----------------------------------------------------------------------
# An assignment is here the list of the names on each workqueue.


def any_assignment(choose, declared):
    """An assignment that keeps the groups together, of any number of workqueues."""
    groups = declared.groups
    count = choose.choice([1, 1, 2, 2, 3, len(groups), len(groups) + 1]) if groups else 0
    names = [[] for _ in range(max(count, choose.choice([0, 0, 0, 1])))]
    for members in groups:
        choose.choice(names).extend(members)
    for part in names:
        choose.shuffle(part)
    return names


def own_assignment(declared):
    return [list(members) for members in declared.groups]


def assignment_of(wqs, bare=frozenset()):
    """The assignment as the model has it, where the workqueues with these numbers have no rescuer."""
    workqueue_of = {name: number for number, names in enumerate(wqs) for name in names}
    return Assignment(workqueue_of, len(wqs), frozenset(bare))


def some_bare(choose, wqs):
    """The numbers of workqueues that have no rescuer: none, all, those without items, or some."""
    way = choose.random()
    if way < 0.5:
        return frozenset()
    if way < 0.55:
        return frozenset(range(len(wqs)))
    if way < 0.6:
        return frozenset(number for number, names in enumerate(wqs) if not names)
    share = choose.choice([0.1, 0.3, 0.3, 0.5, 0.8])
    return frozenset(number for number in range(len(wqs)) if choose.random() < share)


def parts_of(choose, declared, names):
    """The names on one workqueue in two parts, mostly without splitting a group."""
    if choose.random() < 0.2:
        at = choose.randint(0, len(names))
        return names[:at], names[at:]
    groups = {declared.group_of[name] for name in names}
    taken = {group for group in groups if choose.random() < 0.5}
    return ([name for name in names if declared.group_of[name] in taken],
            [name for name in names if declared.group_of[name] not in taken])


def change_wq_swapped(choose, declared, wqs, arcs):
    if len(wqs) > 1:
        first, second = choose.sample(range(len(wqs)), 2)
        wqs[first], wqs[second] = wqs[second], wqs[first]


def change_wq_merged(choose, declared, wqs, arcs):
    if len(wqs) > 1:
        at = choose.randrange(len(wqs))
        names = wqs.pop(at)
        wqs[choose.choice([max(at - 1, 0), choose.randrange(len(wqs))])] += names


def change_wq_split(choose, declared, wqs, arcs):
    if wqs:
        at = choose.randrange(len(wqs))
        wqs[at:at + 1] = parts_of(choose, declared, wqs[at])


def change_wq_empty(choose, declared, wqs, arcs):
    wqs.insert(choose.randint(0, len(wqs)), [])


def change_wq_dropped(choose, declared, wqs, arcs):
    if wqs:
        del wqs[choose.randrange(len(wqs))]


def change_items_swapped(choose, declared, wqs, arcs):
    places = [(at, place) for at, names in enumerate(wqs) for place in range(len(names))]
    if len(places) > 1:
        (a, i), (b, j) = choose.sample(places, 2)
        wqs[a][i], wqs[b][j] = wqs[b][j], wqs[a][i]


def change_group_moved(choose, declared, wqs, arcs):
    if wqs and declared.groups:
        members = choose.choice(declared.groups)
        if choose.random() < 0.3:
            members = [choose.choice(members)]
        for names in wqs:
            names[:] = [name for name in names if name not in members]
        choose.choice(wqs).extend(members)


def change_group_split(choose, declared, wqs, arcs):
    """One member of a group goes to another workqueue."""
    known = [members for members in declared.groups if len(members) > 1]
    if known and wqs:
        name = choose.choice(choose.choice(known))
        for names in wqs:
            names[:] = [other for other in names if other != name]
        choose.choice(wqs).append(name)


def change_item_doubled(choose, declared, wqs, arcs):
    if wqs:
        choose.choice(wqs).append(any_item(choose, declared))


def change_order(choose, declared, wqs, arcs):
    for names in wqs:
        choose.shuffle(names)


def change_arc_dropped(choose, declared, wqs, arcs):
    if arcs:
        del arcs[choose.choice([0, -1, choose.randrange(len(arcs))])]


def change_arc_added(choose, declared, wqs, arcs):
    arcs.insert(choose.choice([0, len(arcs), choose.randint(0, len(arcs))]),
                any_arc(choose, declared))


def change_arc(choose, declared, wqs, arcs):
    if arcs:
        arcs[choose.randrange(len(arcs))] = any_arc(choose, declared)


def change_arc_alike(choose, declared, wqs, arcs):
    """Another flush between the same two groups, or at least from or to the same one."""
    if not arcs:
        return
    at = choose.randrange(len(arcs))
    # A name that isn't declared has no group, and no flush is like it.
    ends = [declared.group_of.get(name) for name in arcs[at]]
    sides = choose.choice([[0, 1], [0, 1], [0], [1]])
    alike = [flush for flush in declared.flushes
             if all(declared.group_of[flush[side]] == ends[side] for side in sides)]
    if alike:
        arcs[at] = choose.choice(alike)


def change_arc_member(choose, declared, wqs, arcs):
    """Another member of the same group in the place of the item or the target."""
    if arcs:
        at, side = choose.randrange(len(arcs)), choose.randrange(2)
        arc = list(arcs[at])
        group = declared.group_of.get(arc[side])
        if group is None:
            return
        arc[side] = choose.choice(declared.groups[group])
        arcs[at] = tuple(arc)


def change_arcs_swapped(choose, declared, wqs, arcs):
    if len(arcs) > 1:
        first, second = choose.sample(range(len(arcs)), 2)
        arcs[first], arcs[second] = arcs[second], arcs[first]


def change_arcs_turned(choose, declared, wqs, arcs):
    """A circle begun elsewhere, gone round twice, or turned around."""
    way = choose.random()
    if way < 0.4:
        at = choose.randint(0, len(arcs))
        arcs[:] = arcs[at:] + arcs[:at]
    elif way < 0.7:
        arcs += arcs
    else:
        arcs.reverse()


def change_both(choose, declared, wqs, arcs):
    """One workqueue more, and one arc more."""
    change_wq_empty(choose, declared, wqs, arcs)
    change_arc_added(choose, declared, wqs, arcs)


WQ_CHANGES = [change_wq_swapped, change_wq_merged, change_wq_split, change_wq_empty,
              change_items_swapped, change_group_moved, change_group_split, change_item_doubled,
              change_order, change_wq_dropped]
ARC_CHANGES = [change_arc_dropped, change_arc_added, change_arc, change_arc, change_arc_alike,
               change_arc_alike, change_arc_member, change_arcs_swapped]


def wq_lines(wqs, bare=frozenset()):
    return [numbered(b"norescuer" if number in bare else b"wq", number) + names for number, names in enumerate(wqs)]


def arc_lines(arcs):
    return [[b"arc", item, target] for item, target in arcs]


def plan_lines(choose, declared, wqs, arcs, bare=frozenset()):
    chain = len(arcs) + 1
    if not arcs:
        chain = choose.choice([min(len(wqs), 1)] * 6 + [0, 1])
    return ([numbered(b"plan", len(wqs))] + wq_lines(wqs, bare) + [numbered(b"chain", chain)]
            + arc_lines(arcs))


def make_plan_lines(choose, declared, answer):
    """A plan text: the model's, or another one, with changes or without."""
    if answer[0][0] == b"plan" and choose.random() < 0.9:
        wqs = [words[2:] for words in answer if words[0] == b"wq"]
        arcs = [tuple(words[1:]) for words in answer if words[0] == b"arc"]
    else:
        wqs = any_assignment(choose, declared)
        arcs = [any_arc(choose, declared) for _ in range(max(len(wqs) - 1, 0))]
    changes = choose.choice([[], [], WQ_CHANGES, ARC_CHANGES, ARC_CHANGES, [change_both],
                             WQ_CHANGES + ARC_CHANGES])
    if not declared.items and choose.random() < 0.6:
        changes = [change_wq_empty]
    for _ in range(choose.choice([1, 1, 1, 2, 3]) if changes else 0):
        choose.choice(changes)(choose, declared, wqs, arcs)
    return plan_lines(choose, declared, wqs, arcs)


def make_assignment_lines(choose, declared, wqs, bare=frozenset()):
    """`wq` and `norescuer` lines alone or a whole plan text, with changes or without."""
    wqs = [list(names) for names in wqs]
    if choose.random() < 0.2:
        choose.choice(WQ_CHANGES)(choose, declared, wqs, [])
    if choose.random() < (0.95 if bare else 0.6):
        return wq_lines(wqs, bare)
    count = choose.choice([len(wqs), len(wqs), 0, 1, 3]) if declared.items else 0
    arcs = [any_arc(choose, declared) for _ in range(max(count - 1, 0))]
    return plan_lines(choose, declared, wqs, arcs, bare)


# Runs --------------------------------------------------------------------------------------------


def spelled_step(step):
    word, workqueue, name = step
    return [word, name] if workqueue is None else [word, b"%d" % workqueue, name]


def any_step(choose, declared, wqs):
    """Any step, which may be unlawful."""
    word = choose.choice(STEP_WORDS)
    name = any_item(choose, declared)
    if word in (b"queue", b"cancel"):
        return word, None, name
    workqueues = [number for number, names in enumerate(wqs) if name in names]
    others = [0, 1, len(wqs), choose.randint(0, len(wqs)), 4_095]
    return word, choose.choice(workqueues * 10 + others), name


def near_step(choose, declared, wqs, state):
    """A step that is nearly lawful: the right word, workqueue or name, and something else wrong."""
    steps = list(state.rescuer_steps())
    if not steps or choose.random() < 0.2:
        return any_step(choose, declared, wqs)
    word, workqueue, name = choose.choice(steps)
    way = choose.random()
    if way < 0.25:
        return choose.choice(STEP_WORDS[2:]), workqueue, name
    if way < 0.4:
        return word, choose.choice([workqueue + 1, max(workqueue - 1, 0), len(wqs)]), name
    running = list(state.running)
    if running and way < 0.85:
        # The running entries, whether they wait or not.
        workqueue, helper = choose.choice(running)
        entry = state.running[workqueue, helper]
        targets = [entry.target] if entry.target else state.targets[entry.item] + [entry.item]
        if choose.random() < 0.4:
            targets = declared.items
        word = choose.choice([b"over", b"overwq", entry.over or b"over", b"wait", b"waitwq", b"finish"])
        return word, workqueue, choose.choice(targets)
    return word, workqueue, any_item(choose, declared)


def play(choose, declared, wqs, bare, first):
    """The steps of a random player, who queues the items in `first` before others."""
    state = State(declared, assignment_of(wqs, bare))
    starts_all = choose.random() < 0.4  # also on workqueues without a rescuer
    others = [item for item in declared.items if item not in first]
    choose.shuffle(others)
    left = first + others

    faithful = choose.random() < 0.65  # flushes as declared, and each item once
    queues_first = choose.random() < 0.6
    if choose.random() < 0.25:
        del left[choose.randrange(len(left) + 1):]
    surprises = 0 if faithful else choose.choice([0, 0.1, 0.3])
    most = choose.choice([5, 15, 40, 400, 400, 400])
    lazy = choose.random() < 0.5  # finishes late

    steps = []
    while len(steps) < most:
        if surprises and choose.random() < surprises:
            word = choose.choice([b"queue", b"cancel"])
            may = [(word, None, item) for item in declared.items if state.may((word, None, item))]
        else:
            may = list(state.rescuer_steps() if starts_all else (step for step, _ in state.forced_steps()))
            if faithful:
                may = [step for step in may if is_faithful(state, step)]
            if lazy:
                may = [step for step in may if step[0] != b"finish"] or may
            while left and not state.may((b"queue", None, left[0])):
                left.pop(0)
            if left and (queues_first or not may or choose.random() < 0.5):
                may = [(b"queue", None, left.pop(0))]
        if not may:
            if not surprises:
                break
            surprises = surprises if choose.random() < 0.8 else 0
            continue
        step = choose.choice(may)
        state.make(step)
        steps.append(step)
    if choose.random() < 0.2:
        steps.append(near_step(choose, declared, wqs, state))
        for _ in range(choose.randint(0, 2)):
            steps.append(any_step(choose, declared, wqs))
    return steps


def is_faithful(state, step):
    """Whether an execution that flushes as declared makes this step, which may be made."""
    word, workqueue, name = step
    if word in (b"start", b"over", b"overwq"):
        return True
    entry = state.running[workqueue, RESCUER]
    waits = state.waits[entry.item]
    if word == b"finish":
        return entry.waits == len(waits)
    return entry.waits < len(waits) and (word, name) == waits[entry.waits]


def change_steps(choose, declared, wqs, steps):
    """A change of the steps, which may leave them lawful."""
    way = choose.random()
    at = choose.randint(0, len(steps))
    if way < 0.2:
        del steps[at:]
    elif way < 0.4:
        del steps[at:at + 1]
    elif way < 0.5:
        steps[at:at] = steps[at:at + 1]
    elif way < 0.6 and len(steps) > 1:
        first = choose.randrange(len(steps) - 1)
        steps[first], steps[first + 1] = steps[first + 1], steps[first]
    elif way < 0.7:
        item = any_item(choose, declared)
        steps[at:at] = [(b"cancel", None, item), (b"queue", None, item)]
    elif way < 0.8:
        item = any_item(choose, declared)
        steps[at:at] = [(b"queue", None, item), (b"cancel", None, item)]
    elif way < 0.9:
        steps.insert(at, any_step(choose, declared, wqs))
    else:
        item = any_item(choose, declared)
        steps[:] = [step for step in steps if step[2] != item]


def make_run_lines(choose, declared, wqs, bare, first):
    """A run: the deadlocking one, or that of a random player, with changes or without."""
    steps = deadlocking_run(declared, assignment_of(wqs, bare)) if choose.random() < 0.3 else []
    if not steps:
        steps = play(choose, declared, wqs, bare, first)
    if declared.items and choose.random() < 0.25:
        change_steps(choose, declared, wqs, steps)
    return [numbered(b"run", len(steps))] + [spelled_step(step) for step in steps]


# Circle texts ------------------------------------------------------------------------------------


def make_circle_lines(choose, declared, answer):
    """A circle text, with a run behind it or without, with changes or without."""
    if answer[0][0] == b"circle":
        arcs = [tuple(words[1:]) for words in answer if words[0] == b"arc"]
    else:
        arcs = [any_arc(choose, declared) for _ in range(choose.choice([0, 1, 1, 2, 3]))]
    # Who begins with the items of the circle comes to a deadlock.
    first = list(dict.fromkeys(item for item, _ in arcs if item in declared.group_of))
    if choose.random() < 0.3:
        first = []
    run = []
    if choose.random() < 0.6:
        run = make_run_lines(choose, declared, own_assignment(declared), frozenset(), first)
    if declared.items:
        for _ in range(choose.choice([0, 0, 0, 1, 1, 2])):
            choose.choice(ARC_CHANGES + [change_arcs_turned] * 2)(choose, declared, [], arcs)
    return [numbered(b"circle", len(arcs))] + arc_lines(arcs) + run


# Faults of form ----------------------------------------------------------------------------------
# Each of these changes the words of the lines, whatever they say.


def fault_line_dropped(choose, declared, lines):
    if lines:
        del lines[choose.randrange(len(lines))]


def fault_line_doubled(choose, declared, lines):
    if lines:
        lines.insert(choose.randint(0, len(lines)), list(choose.choice(lines)))


def fault_lines_swapped(choose, declared, lines):
    if len(lines) > 1:
        first, second = choose.sample(range(len(lines)), 2)
        lines[first], lines[second] = lines[second], lines[first]


def fault_lines_merged(choose, declared, lines):
    """Two lines on one, with the second's first words or without."""
    if len(lines) > 1:
        at = choose.randrange(len(lines) - 1)
        lines[at:at + 2] = [lines[at] + lines[at + 1][choose.choice([0, 1, 2]):]]


def fault_line_split(choose, declared, lines):
    if lines:
        at = choose.randrange(len(lines))
        place = choose.randint(0, len(lines[at]))
        lines[at:at + 1] = [lines[at][:place], lines[at][place:]]


def fault_end_cut(choose, declared, lines):
    del lines[choose.randint(0, len(lines)):]


def fault_line_added(choose, declared, lines):
    word = choose.choice(KEYWORDS + [b"item", b"x"])
    words = choose.choices([b"0", b"1", any_item(choose, declared)], k=choose.randint(0, 3))
    lines.insert(choose.choice([len(lines), choose.randint(0, len(lines))]), [word] + words)


def number_places(lines):
    """The words in the places of numbers: mostly they are numbers."""
    return [words for words in lines if len(words) > 1
            and words[0] not in (b"arc", b"queue", b"cancel")]


def fault_number(choose, declared, lines):
    known = number_places(lines)
    if known:
        words = choose.choice(known)
        other = choose.choice(OTHER_NUMBERS)
        if words[1].isdigit() and choose.random() < 0.5:
            near = int(words[1]) + choose.choice([-1, 1, 1, 2])
            other = choose.choice([b"%d" % max(near, 0), b"+" + words[1], b"0" + words[1],
                                   words[1] + b"0", words[1] + b"."])
        words[1] = other


def fault_head(choose, declared, lines):
    """What the number of a `plan`, `chain`, `circle` or `run` line promises."""
    known = [words for words in number_places(lines)
             if words[0] in (b"plan", b"chain", b"circle", b"run")]
    if known:
        words = choose.choice(known)
        words[1] = choose.choice([b"0", b"1", b"2", b"3", b"4095", b"4096", b"4097", b"4294967295"])


def fault_word_dropped(choose, declared, lines):
    known = [words for words in lines if words]
    if known:
        words = choose.choice(known)
        del words[choose.randrange(len(words))]


def fault_word_added(choose, declared, lines):
    if lines:
        words = choose.choice(lines)
        other = choose.choice([b"0", b"x", b"arc", any_item(choose, declared)])
        words.insert(choose.randint(0, len(words)), other)


def fault_keyword(choose, declared, lines):
    known = [words for words in lines if words]
    if known:
        words = choose.choice(known)
        words[0] = choose.choice(KEYWORDS + [words[0].swapcase(), words[0] + b"s", words[0][:-1]
                                             or b"x", b"no_rescuer", b"norescue"])


def fault_name(choose, declared, lines):
    known = [words for words in lines if len(words) > 1]
    if known:
        words = choose.choice(known)
        at = choose.randrange(1, len(words))
        name = words[at]
        unknown = [name.swapcase(), name + b".", name + b"!", b"zz", b"x" * 64]
        words[at] = choose.choice(unknown + [any_item(choose, declared)] * 3)


def fault_bad_byte(choose, declared, lines):
    known = [words for words in lines if words]
    if known:
        words = choose.choice(known)
        at = choose.randrange(len(words))
        bad = choose.choice([b"\r", b"\x00", b"\x7f", b"\x80", bytes([choose.choice(BAD_BYTES)])])
        place = choose.randint(0, len(words[at]))
        words[at] = words[at][:place] + bad + words[at][place:]


FAULTS = [fault_line_dropped, fault_line_doubled, fault_lines_swapped, fault_lines_merged,
          fault_line_split, fault_end_cut, fault_line_added, fault_number, fault_number,
          fault_head, fault_word_dropped, fault_word_added, fault_keyword, fault_name, fault_name,
          fault_bad_byte]


def fault_of_bytes(choose, text):
    """A few bytes of the text changed, whatever they mean."""
    for _ in range(choose.choice([1, 1, 2])):
        at = choose.randint(0, len(text))
        any_byte = bytes([choose.randrange(256)])
        byte = bytes([choose.choice(b"\n\r\t #019aqw\x00\x0b\xff" + any_byte)])
        way = choose.random()
        if way < 0.5:
            text = text[:at] + byte + text[at + 1:]
        elif way < 0.75:
            text = text[:at] + byte + text[at:]
        elif way < 0.9:
            text = text[:at] + text[at + 1:]
        else:
            text = text[:at]
    return text


def comment_of_workqueue(choose):
    """A comment that may name a workqueue."""
    return choose.choice(LEADS) + choose.choice(CALLED) + choose.choice(BEHIND)


def spelled(choose, declared, lines, fault_share, called=False):
    """The bytes of the lines, with faults put in or without. If `called`, their comments may name workqueues."""
    faulty = choose.random() < fault_share
    way = choose.random()
    if faulty and way < 0.8:
        for _ in range(choose.choice([1, 1, 1, 2, 3])):
            choose.choice(FAULTS)(choose, declared, lines)
    lines = [Line(words) for words in lines]
    share = choose.choice([0, 0, 0.4, 1]) if called else 0
    for line in lines:
        if choose.random() < share:
            line.comment = comment_of_workqueue(choose)
    if lines and choose.random() < 0.004:
        choose.choice(lines).length = LINE_LIMIT + choose.choice([0, 0, 1, 1, 2])
    text = spell_mostly(choose, lines, choose.random() < 0.4)
    if faulty and way >= 0.8:
        text = fault_of_bytes(choose, text)
    return text


# Cases -------------------------------------------------------------------------------------------


def random_check_case(seed, number):
    """The declaration and the certificate of this number, which don't depend on any other."""
    choose = random.Random(f"{seed} check {number}")
    text, declared = make_declaration(choose)
    answer = model_answer(declared)
    share = 0.85 if answer[0][0] == b"plan" else 0.15
    make = make_plan_lines if choose.random() < share else make_circle_lines
    return [text, spelled(choose, declared, make(choose, declared, answer), 0.27)]


def random_replay_case(seed, number):
    """The declaration, the assignment and the run of this number."""
    choose = random.Random(f"{seed} replay {number}")
    text, declared = make_declaration(choose)
    answer = model_answer(declared)
    if answer[0][0] == b"plan" and choose.random() < 0.2:
        wqs = [words[2:] for words in answer if words[0] == b"wq"]
    elif choose.random() < 0.3:
        wqs = own_assignment(declared)
    else:
        wqs = any_assignment(choose, declared)
    first = []
    if answer[0][0] == b"circle" and choose.random() < 0.5:
        first = list(dict.fromkeys(words[1] for words in answer if words[0] == b"arc"))
    bare = some_bare(choose, wqs)
    run = make_run_lines(choose, declared, wqs, bare, first)
    assignment = make_assignment_lines(choose, declared, wqs, bare)
    return [text, spelled(choose, declared, assignment, 0.15, called=True), spelled(choose, declared, run, 0.15)]


OTHER_WORDS = [b"0", b"1", b"007", b"+1", b"4095", b"4096", b"4097", b"4294967295", b"4294967296",
               b"a", b"b", b"zz", b"a\x80", b"run"]


def faults_everywhere(certificate):
    """The certificate with a fault of form, or another word, at each of its places in turn."""
    lines = [line.split(b" ") for line in certificate.splitlines()]

    def text(front, changed, back):
        return join(*[b" ".join(words) for words in front + changed + back])

    for at, words in enumerate(lines):
        front, back = lines[:at], lines[at + 1:]
        yield f"the end cut off before line {at + 1}", text(front, [], [])
        yield f"line {at + 1} dropped", text(front, [], back)
        yield f"line {at + 1} doubled", text(front, [words, words], back)
        yield f"line {at + 1} behind the next", text(front, back[:1] + [words], back[1:])
        yield f"line {at + 1} in a comment", text(front, [[b"#"] + words], back)
        yield f"line {at + 1} ends with CR CR", text(front, [words + [b"\r\r"]], back)
        for place, word in enumerate(words):
            what = f"line {at + 1}, word {place + 1}"
            before, behind = words[:place], words[place + 1:]
            yield f"{what} dropped", text(front, [before + behind], back)
            yield f"{what} doubled", text(front, [before + [word, word] + behind], back)
            yield f"{what} cut off by a comment", text(front, [before + [b"#" + word]], back)
            for other in OTHER_WORDS if place else KEYWORDS + [word.upper(), word + b"s", b"\x80"]:
                yield f"{what} is {other!r}", text(front, [before + [other] + behind], back)


# Workqueues with several faults on one line, and on two.
GROUPED = join(b"item a", b"item b", b"item c", b"item d", b"ordered a d", b"ordered b c")
SEVERAL_FAULTS = [front + text + b"\n" for text in [
    b"wq 2 zz", b"wq 007 a", b"wq 2 d", b"wq 2 b b", b"wq 1 zz b b", b"wq 1 zz d", b"wq 1 a d",
    b"wq 1 d a", b"wq 1 d b b", b"wq 1 b c d", b"wq 1 b b", b"wq 2 a", b"wq 1 b c", b"wq 1 b",
    b"wq 1 b\nwq 2 c", b"wq 1 b\nwq 3 c", b"wq 1 b\nwq 2 zz", b"wq 1 b\nwq 2 b c", b"wq 1 d\nx",
    b"wq 1 b\nx", b"wq 1 b c\nx", b"wq 1 b c\nwq 3", b"wq 1 b\nwq 2", b"wq 1 b\nchain 4097",
    b"wq 1 b c\nchain 4097 4097", b"wq 1 b c\nchain 4097\nx", b"chain 4097",
] for front in (b"wq 0 a\n", b"wq 0 a d\n")]


def with_bare(text, bare):
    """The text, in which the workqueues with these places among the `wq` lines have no rescuer."""
    parts = re.split(rb"^wq", text, flags=re.M)
    return parts[0] + b"".join((b"norescuer" if at in bare else b"wq") + part for at, part in enumerate(parts[1:]))


BARE_FAULTS = [with_bare(text, bare) for text in SEVERAL_FAULTS for bare in ([0, 1, 2], [0], [1])]


def arcs_alone(printed):
    """A circle text without its run."""
    return printed[:printed.index(b"\nrun ") + 1]


def limit_check_cases():
    """The cases at the limits: what each is, the declaration and the certificate."""
    cases = []

    def add(what, declaration, certificate):
        cases.append((what, [declaration, certificate]))

    none, one = b"", b"item a\n"
    empty = join(b"plan 0", b"chain 0")

    add_text_limits(lambda what, text: add(what, none, text), empty, b"chain 0")
    add("a bad declaration and a long certificate", b"item\n", b"#" * (TEXT_LIMIT + 1))

    two = join(b"item a", b"item b", b"flush a b")
    round_two = join(b"item a", b"item b", b"flush a b", b"flush b a")
    for what, declaration, certificate in [
        ("a plan", two, plan.answer(two)[0]),
        ("a circle", round_two, plan.answer(round_two)[0]),
    ]:
        for fault, text in faults_everywhere(certificate):
            add(f"{what}, {fault}", declaration, text)

    for text in SEVERAL_FAULTS:
        for count in 1, 2, 3, 4_097:
            add(f"{text.decode()!r} in a plan of {count}", GROUPED, b"plan %d\n" % count + text)
    for text in BARE_FAULTS[::7]:
        add(f"{text.decode()!r} in a plan", GROUPED, b"plan 2\n" + text)
        add(f"{text.decode()!r} in place of an answer", GROUPED, text)
    add("a circle with a run of no step", round_two, arcs_alone(plan.answer(round_two)[0])
        + b"run 0\n")

    # K, N, and the empty certificate.
    add("no line", none, none)
    add("blank lines alone", none, b" \n#plan 0\n\t\r\n")
    add("K = N = 1 without an item", none, join(b"plan 1", b"wq 0", b"chain 1"))
    add("K = N = 0 with an item", one, empty)
    add("K = 1, N = 0", one, join(b"plan 1", b"wq 0 a", b"chain 0"))
    add("K = 0, N = 1", none, join(b"plan 0", b"chain 1"))
    add("K = 0, N = 2, without an item", none, join(b"plan 0", b"chain 2", b"arc a a"))
    for count in 4_095, 4_096, 4_097:
        wqs = [numbered(b"wq", number) for number in range(count)]
        lines = [b" ".join(words) for words in wqs]
        text = join(b"plan %d" % count, *lines)
        add(f"{count} empty workqueues", none, text + join(b"chain 0"))
        add(f"plan 4096 with {count} lines", none,
            join(b"plan 4096", *lines, b"chain 0"))
        add(f"{count} workqueues, the item last", one, text[:-1] + join(b" a", b"chain 1"))
        arcs = join(*[b"arc a a"] * count)
        looped = one + join(b"flush a a")
        add(f"chain {count + 1}", one, join(b"plan 1", b"wq 0 a", b"chain %d" % (count + 1)) + arcs)
        add(f"chain {count}, no arcs", one, join(b"plan 1", b"wq 0 a", b"chain %d" % count))
        add(f"circle {count}", looped, join(b"circle %d" % count) + arcs)
        add(f"circle {count}, one arc less", looped, join(b"circle %d" % count) + arcs[8:])
        add(f"circle {count}, one arc more", looped, join(b"circle %d" % count, b"arc a a") + arcs)
        run = join(b"circle 1", b"arc a a", b"run 3", b"queue a", b"start %d a" % count,
                   b"wait 0 a")
        add(f"a step on workqueue {count}", looped, run)
        add(f"a step on workqueue {count}, of no item", looped, run.replace(b"%d a" % count,
                                                                            b"%d b" % count))

    # A chain of 4,096, a circle of 4,096 with its run, and one with other groups.
    items = numbered_items(ITEM_LIMIT)
    flushes = [b"flush i%d i%d" % (number, number + 1) for number in range(ITEM_LIMIT - 1)]
    chain = join(*items, *flushes)
    answer = plan.answer(chain)[0]
    add("a chain of 4,096", chain, answer)
    add("a chain of 4,096, the last arc wrong", chain, answer[:-4] + b"0\n")
    add("a chain of 4,096, one workqueue less", chain,
        answer.replace(b"plan 4096", b"plan 4095").replace(b"\nwq 4095", b""))
    circle = chain + join(b"flush i4095 i0")
    answer = plan.answer(circle)[0]
    names = [line[5:] for line in items]
    steps = [b"queue " + name for name in names]
    steps += [b"start %d %s" % pair for pair in enumerate(names)]
    steps += [b"wait %d %s" % pair for pair in enumerate(names[1:] + names[:1])]
    run = join(b"run %d" % len(steps), *steps)
    alone = arcs_alone(answer)
    add("a circle of 4,096 with its run", circle, answer)
    add("a circle of 4,096 without its run", circle, alone)
    add("a circle of 4,096 with another run", circle, alone + run)
    add("a circle of 4,096, one step less", circle, alone + run[:-13].replace(b"12288", b"12287"))
    turned = alone.splitlines()
    add("a circle of 4,096, the arcs turned", circle, join(turned[0], *turned[:0:-1]))
    add("a circle of 4,096, the last line first", circle, join(*alone.splitlines()[::-1]))

    # All items on one line, and many flushes between them.
    line = b"wq 0 " + b" ".join(names)
    add("4,096 items on one line", join(*items), join(b"plan 1", line, b"chain 1"))
    add("4,096 items, and the first again", join(*items), join(b"plan 1", line + b" i0"))
    add("4,095 items on one line", join(*items), join(b"plan 1", line[:-6], b"chain 1"))
    group = [b"ordered " + b" ".join(names[at:at + 500]) for at in range(0, 4_096, 500)]
    add("groups of 500", join(*items, *group), join(b"plan 1", line, b"chain 1"))
    add("groups of 500, one split", join(*items, *group),
        join(b"plan 2", line[:-6], b"wq 1 i4095", b"chain 2", b"arc i0 i1"))
    return cases


def add_text_limits(add, certificate, last):
    """Cases of a certificate with long lines, or a long text; `last` begins its last line."""
    for length in LINE_LIMIT, LINE_LIMIT + 1:
        for ending in b"", b"\n", b"\r\n", b"\r\r\n", b"\r":
            line = b"#" + b"x" * (length - 1) + ending
            add(f"a comment of {length} bytes, then {ending!r}", certificate + line)
        add(f"a blank line of {length} bytes", b"\t" * length + b"\n" + certificate)
        blanked = certificate.replace(b"\n", b" " * (length - certificate.index(b"\n")) + b"\n", 1)
        add(f"a first line of {length} bytes", blanked)
        add(f"a bad line above one of {length} bytes", b"x\n" + blanked)
        add(f"a word of {length} bytes", b"x" * length + b"\n" + certificate)
    full = b"#" + b"x" * (LINE_LIMIT - 2) + b"\n"
    for length in TEXT_LIMIT, TEXT_LIMIT + 1:
        filler = (full * 17)[:length - len(certificate) - 1] + b"\n"
        add(f"{length} bytes, the lines last", filler + certificate)
        add(f"{length} bytes, the lines first", certificate + filler)
        add(f"{length} bytes, a fault first", b"x" + filler + certificate[1:])
        blanked = b" " * LINE_LIMIT + (filler + certificate)[LINE_LIMIT:]
        add(f"{length} bytes, a long line first", blanked)


def limit_replay_cases():
    """The cases at the limits: what each is, the declaration, the assignment and the run."""
    cases = []

    def add(what, *texts):
        cases.append((what, list(texts)))

    none, one, two = b"", b"item a\n", join(b"item a", b"item b", b"flush a b")
    no_steps = join(b"run 0")

    add_text_limits(lambda what, text: add("the run: " + what, none, none, text), no_steps, b"run")
    add_text_limits(lambda what, text: add("the assignment: " + what, one, text, no_steps),
                    join(b"wq 0 a"), b"wq")
    add("a bad assignment and a long run", one, b"wq 0\n", b"#" * (TEXT_LIMIT + 1))
    add("a long assignment and a bad run", one, b"#" * (TEXT_LIMIT + 1), b"run\n")
    add("a bad declaration, a long run", b"item\n", none, b"#" * (TEXT_LIMIT + 1))

    add("no line at all", none, none, none)
    add("no workqueue and no item", none, none, no_steps)
    add("no workqueue and an item", one, none, no_steps)
    add("a plan text that stops", one, join(b"plan 1", b"wq 0 a"), no_steps)
    add("a plan text with too few arcs", one, join(b"plan 1", b"wq 0 a", b"chain 2"), no_steps)
    add("a plan text whose chain is nonsense", one,
        join(b"plan 1", b"wq 0 a", b"chain 2", b"arc a a"), no_steps)
    add("another word last", one, join(b"wq 0 a", b"chain 1"), no_steps)
    add("another word too early", one, join(b"wq 0", b"chain 1", b"wq 1 a"), no_steps)
    add("another word first", one, join(b"chain 1", b"wq 0 a"), no_steps)
    add("a bad byte in the word", one, join(b"wq 0 a", b"wq\x80 1"), no_steps)
    add("M is the largest number", one, join(b"wq 0 a"), join(b"run 4294967295", b"queue a"))
    add("M is larger", one, join(b"wq 0 a"), join(b"run 4294967296", b"queue a"))

    run = [b"queue b", b"queue a", b"cancel b", b"queue b", b"start 0 a", b"wait 0 b", b"start 1 b",
           b"finish 1 b", b"over 0 b", b"finish 0 a"]
    for fault, text in faults_everywhere(join(b"run 10", *run)):
        add(f"a run, {fault}", two, b"wq 0 a\nwq 1 b\n", text)
    for assignment in b"wq 0 a\nwq 1 b\n", b"plan 2\nwq 0 a\nwq 1 b\nchain 2\narc b a\n":
        for fault, text in faults_everywhere(assignment):
            add(f"an assignment, {fault}", two, text, join(b"run 10", *run))

    for text in SEVERAL_FAULTS + BARE_FAULTS:
        add(f"{text.decode()!r} as an assignment", GROUPED, text, no_steps)
    for fault, text in faults_everywhere(b"wq 0 a\nnorescuer 1 b\n"):
        add(f"an assignment with a workqueue without a rescuer, {fault}", two, text, join(b"run 10", *run))

    # Workqueues.
    for count in 4_095, 4_096, 4_097:
        lines = [b"wq %d" % number for number in range(count)]
        add(f"{count} workqueues, none used", none, join(*lines), no_steps)
        add(f"{count} workqueues, the item on none", one, join(*lines), no_steps)
        text = join(*lines)[:-1] + b" a\n"
        run = join(b"run 2", b"queue a", b"start %d a" % (count - 1))
        add(f"{count} workqueues, the item last", one, text, run)
        add(f"{count} workqueues, then an unknown item", one, text[:-2] + b"b\n", run)
        add(f"{count} workqueues, then another word", one, text + b"chain 0\n", run)
        add(f"{count} workqueues in a plan", one,
            join(b"plan %d" % count) + text + b"chain 1\n", run)
        add(f"a plan of 4096 and {count} workqueues", one,
            join(b"plan 4096") + text + b"chain 1\n", run)
        text = with_bare(text, range(1, count, 3))
        add(f"{count} workqueues, of which some have no rescuer", one, text, run)
        add(f"{count} workqueues, of which some have no rescuer, then another word", one, text + b"norescuers 0\n", run)
        add(f"a step on workqueue {count}", one, join(b"wq 0 a"),
            join(b"run 1", b"start %d a" % count))
        add(f"a step on workqueue {count}, a line too long", one, join(b"wq 0 a"),
            join(b"run 1", b"over %d a a" % count))
        for word in b"waitwq", b"overwq":
            add(f"{word.decode()} on workqueue {count}", one, join(b"wq 0 a"), join(b"run 1", b"%s %d a" % (word, count)))

    # Long runs.
    again = [b"queue a", b"start 0 a", b"wait 0 b", b"over 0 b", b"finish 0 a"] * 3_000
    add("an item that runs 3,000 times", two, join(b"wq 0 a b"), join(b"run 15000", *again))
    turn = [b"queue a", b"cancel a"] * 8_000
    add("an item that is cancelled 8,000 times", one, join(b"wq 0 a"), join(b"run 16000", *turn))
    items = numbered_items(ITEM_LIMIT)
    names = [line[5:] for line in items]
    line = join(b"wq 0 " + b" ".join(names))
    queued = [b"queue " + name for name in names]
    last = [b"start 0 i0", b"wait 0 i4095"]
    add("4,096 items that are queued", join(*items), line, join(b"run 4096", *queued))
    declaration = join(*items, b"flush i0 i4095")
    add("4,096 items that wait for the last", declaration, line,
        join(b"run 4098", *queued, *last))
    add("4,095 items that wait for the last", declaration, line,
        join(b"run 4097", *queued[1:], *queued[:1], *last))
    add("4,096 items, one queued twice", join(*items), line,
        join(b"run 4097", *queued, queued[7]))
    whole = join(*items, b"flushwq i0 i4095")
    lines = join(b"wq 0 " + b" ".join(names[1:]), b"wq 1 i0")
    last = [b"start 1 i0", b"waitwq 1 i4095", b"overwq 1 i4095"]
    add("a workqueue of 4,095 items that are queued before the wait", whole, lines, join(b"run 4099", *queued, *last))
    add("a workqueue of 4,095 items that are queued behind the wait", whole, lines,
        join(b"run 4099", queued[0], *last[:2], *queued[1:], *last[2:]))
    add("one of 4,095 items that is queued before the wait", whole, lines,
        join(b"run 4099", *queued[:2], *last[:2], *queued[2:], *last[2:]))
    run = [b"queue i1", b"start 0 i1", b"finish 0 i1"] * 2_665 + [queued[0], *last, b"queue i1"]
    add("a wait for a workqueue that ran 2,665 times", whole, lines, join(b"run %d" % len(run), *run))

    # Each step behind each front of a run.
    three = join(b"item a", b"item b", b"item c", b"flush a b c", b"flush b c b")
    both = join(b"item a", b"item b", b"item c", b"flushwq a b", b"flush a c", b"flushwq b a", b"flushwq c b")
    for declaration, assignment, steps in [
        (two, b"wq 0 b\nwq 1 a\n",
         [b"queue a", b"queue b", b"start 1 a", b"wait 1 b", b"queue a", b"start 0 b", b"cancel a",
          b"finish 0 b", b"over 1 b", b"finish 1 a"]),
        (three, b"wq 0 a c\nwq 1 b\n",
         [b"queue b", b"queue a", b"queue c", b"start 0 a", b"wait 0 b", b"queue b", b"start 1 b",
          b"wait 1 c"]),
        (three, b"wq 0 a b c\n",
         [b"queue c", b"queue b", b"start 0 c", b"queue a", b"finish 0 c", b"start 0 b",
          b"wait 0 c", b"over 0 c", b"wait 0 b"]),
        (both, b"wq 0 b c\nwq 1 a\n",
         [b"queue c", b"queue a", b"start 1 a", b"waitwq 1 b", b"queue b", b"start 0 c", b"finish 0 c",
          b"overwq 1 b", b"wait 1 c", b"over 1 c", b"finish 1 a"]),
        (both, b"wq 0 a b c\n",
         [b"queue b", b"start 0 b", b"queue c", b"waitwq 0 a", b"cancel c"]),
        (three, b"wq 0 a\nnorescuer 1 b c\n",
         [b"queue b", b"queue a", b"start 0 a", b"wait 0 b", b"start 1 b", b"queue c", b"wait 1 c"]),
        (both, b"norescuer 0 b c\nwq 1 a\n",
         [b"queue c", b"queue a", b"start 1 a", b"waitwq 1 b", b"start 0 c", b"waitwq 0 b"]),
    ]:
        names = sorted(read_declaration(declaration).items)
        others = [b"%s %s" % (word, name) for word in STEP_WORDS[:2] for name in names]
        others += [b"%s %d %s" % (word, number, name) for word in STEP_WORDS[2:]
                   for number in range(3) for name in names]
        for length in range(len(steps) + 1):
            for other in others:
                add(f"{other.decode()} behind {length} steps of {b', '.join(steps).decode()}",
                    declaration, assignment, join(b"run %d" % (length + 1), *steps[:length], other))

    # What the steps' table says, each on its own.
    wait = [b"queue a", b"start 0 a", b"wait 0 b"]
    whole = join(b"item a", b"item b", b"item c", b"flushwq a b")
    wait_all = [b"queue a", b"start 1 a", b"waitwq 1 b"]
    for what, declaration, assignment, steps in [
        ("an item that waits for itself", b"item a\nflush a a", b"wq 0 a",
         [b"queue a", b"start 0 a", b"wait 0 a"]),
        ("one that is queued behind the mark", two, b"wq 0 a\nwq 1 b",
         wait + [b"queue b", b"over 0 b", b"finish 0 a"]),
        ("one that is queued before the mark", two, b"wq 0 a\nwq 1 b",
         [b"queue b"] + wait + [b"over 0 b"]),
        ("one that runs", two, b"wq 0 a\nwq 1 b",
         [b"queue b", b"start 1 b"] + wait + [b"over 0 b"]),
        ("one that is cancelled", two, b"wq 0 a\nwq 1 b",
         [b"queue b"] + wait + [b"cancel b", b"over 0 b", b"finish 0 a"]),
        ("a deadlock of one that waits for the next", two, b"wq 0 a b",
         [b"queue a", b"start 0 a", b"queue b", b"wait 0 b"]),
        ("stuck, an item was cancelled", two, b"wq 0 a b",
         [b"queue a", b"cancel a", b"queue a", b"start 0 a", b"queue b", b"wait 0 b"]),
        ("stuck, an item wasn't queued", b"item a\nitem b\nflush a a", b"wq 0 a b",
         [b"queue a", b"start 0 a", b"wait 0 a"]),
        ("stuck, an item was queued twice", b"item a\nflush a a", b"wq 0 a",
         [b"queue a", b"start 0 a", b"queue a", b"wait 0 a"]),
        ("stuck, an item finished too early", b"item a\nitem b\nflush a a\nflush b a", b"wq 0 a b",
         [b"queue b", b"queue a", b"start 0 b", b"finish 0 b", b"start 0 a", b"wait 0 a"]),
        ("stuck, another flush came first", b"item a\nitem b\nflush a b a", b"wq 0 a b",
         [b"queue b", b"start 0 b", b"finish 0 b", b"queue a", b"start 0 a", b"wait 0 a"]),
        ("the second flush", b"item a\nitem b\nflush a b a", b"wq 0 a b",
         [b"queue b", b"start 0 b", b"finish 0 b", b"queue a", b"start 0 a", b"wait 0 b",
          b"over 0 b", b"wait 0 a"]),
        ("one wait too many", two, b"wq 0 a b", wait + [b"over 0 b", b"wait 0 b"]),
        ("two flushes of one target", two + b"flush a b", b"wq 0 a b",
         wait + [b"over 0 b", b"wait 0 b", b"over 0 b", b"finish 0 a"]),
        ("a wait while it waits", two + b"flush a b", b"wq 0 a b", wait + [b"wait 0 b"]),
        ("a finish while it waits", two, b"wq 0 a b", wait + [b"finish 0 a"]),
        ("an over for another", two, b"wq 0 a b", wait + [b"over 0 a"]),
        ("an over for one that is finished", join(two, b"item c"), b"wq 0 a b c",
         wait + [b"over 0 c"]),
        ("a wait for another that is declared", join(two, b"item c", b"flush b c"), b"wq 0 a b c",
         [b"queue a", b"start 0 a", b"wait 0 c"]),
        ("an over where none waits", two, b"wq 0 a b", wait + [b"over 0 b", b"over 0 b"]),
        ("a finish of another", two, b"wq 0 a b", [b"queue a", b"start 0 a", b"finish 0 b"]),
        ("queued while pending", two, b"wq 0 a b", [b"queue a", b"queue a"]),
        ("queued while it runs", two, b"wq 0 a b", [b"queue a", b"start 0 a", b"queue a"]),
        ("cancelled while it runs", two, b"wq 0 a b", [b"queue a", b"start 0 a", b"cancel a"]),
        ("started behind another", two, b"wq 0 a b", [b"queue b", b"queue a", b"start 0 a"]),
        ("started while one runs", two, b"wq 0 a b",
         [b"queue a", b"queue b", b"start 0 a", b"start 0 b"]),
        ("started behind a cancelled one", two, b"wq 0 a b",
         [b"queue b", b"queue a", b"cancel b", b"start 0 a"]),
        ("the order after a cancel", join(b"item a", b"item b", b"item c"), b"wq 0 a b c",
         [b"queue a", b"queue b", b"queue c", b"cancel b", b"queue b", b"start 0 a", b"finish 0 a",
          b"start 0 c", b"finish 0 c", b"start 0 b"]),
        ("started elsewhere", two, b"wq 0 a b\nwq 1", [b"queue a", b"start 1 a"]),
        ("started where there is none", two, b"wq 0 a b", [b"queue a", b"start 1 a"]),
        ("a wait for what isn't declared", two, b"wq 0 a b",
         [b"queue b", b"start 0 b", b"wait 0 a"]),
        ("a later run of a target, which waits", two + b"flush b a", b"wq 0 a\nwq 1 b",
         [b"queue a", b"queue b", b"start 0 a", b"start 1 b", b"queue b", b"wait 0 b",
          b"wait 1 a"]),
        ("a deadlock of two", two + b"flush b a", b"wq 0 a\nwq 1 b",
         [b"queue a", b"queue b", b"start 0 a", b"start 1 b", b"wait 0 b", b"wait 1 a"]),
        ("a whole workqueue, of which only another item is unfinished", whole, b"wq 0 b c\nwq 1 a",
         [b"queue c", b"start 0 c"] + wait_all + [b"overwq 1 b"]),
        ("a whole workqueue, with one behind the mark", whole, b"wq 0 b c\nwq 1 a",
         [b"queue c"] + wait_all + [b"start 0 c", b"queue b", b"queue c", b"finish 0 c", b"overwq 1 b", b"finish 1 a"]),
        ("a whole workqueue, with two before the mark", whole, b"wq 0 b c\nwq 1 a",
         [b"queue c", b"queue b"] + wait_all + [b"start 0 c", b"finish 0 c", b"start 0 b", b"overwq 1 b"]),
        ("a whole workqueue, of which the last entry is cancelled", whole, b"wq 0 b c\nwq 1 a",
         [b"queue c", b"queue b"] + wait_all + [b"start 0 c", b"finish 0 c", b"cancel b", b"overwq 1 b"]),
        ("a whole workqueue, of which an entry is cancelled and queued again", whole, b"wq 0 b c\nwq 1 a",
         [b"queue c"] + wait_all + [b"cancel c", b"queue c", b"overwq 1 b"]),
        ("an idle workqueue", whole, b"wq 0 b c\nwq 1 a", wait_all + [b"overwq 1 b", b"finish 1 a"]),
        ("the workqueue that the item is on", whole, b"wq 1 a b c",
         wait_all + [b"overwq 1 b"]),
        ("stuck, it waits for the workqueue that it is on", whole, b"wq 0\nwq 1 a b c", wait_all),
        ("a deadlock, it waits for the workqueue that it is on", join(b"item a", b"flushwq a a"), b"wq 0\nwq 1 a",
         [b"queue a", b"start 1 a", b"waitwq 1 a"]),
        ("a deadlock, the last one on the workqueue waits", whole + join(b"flush c a"), b"wq 0 b c\nwq 1 a",
         [b"queue a", b"queue c", b"queue b", b"start 1 a", b"waitwq 1 b", b"start 0 c", b"wait 0 a"]),
        ("a wait for a whole workqueue by `flush`", two, b"wq 0 b\nwq 1 a", wait_all),
        ("a wait for an item by `flushwq`", whole, b"wq 0 b c\nwq 1 a", [b"queue a", b"start 1 a", b"wait 1 b"]),
        ("a wait for the same workqueue by another item of it", whole, b"wq 0 b c\nwq 1 a",
         [b"queue a", b"start 1 a", b"waitwq 1 c"]),
        ("an over of the other kind", whole, b"wq 0 b c\nwq 1 a", wait_all + [b"over 1 b"]),
        ("an overwq of the other kind", two, b"wq 0 b\nwq 1 a", [b"queue a", b"start 1 a", b"wait 1 b", b"overwq 1 b"]),
        ("an overwq for another item of the workqueue", whole, b"wq 0 b c\nwq 1 a", wait_all + [b"overwq 1 c"]),
        ("a finish while it waits for a workqueue", whole, b"wq 0 b c\nwq 1 a", wait_all + [b"finish 1 a"]),
        ("one wait too many, of the other kind", whole + join(b"flush a b"), b"wq 0 b c\nwq 1 a",
         wait_all + [b"overwq 1 b", b"waitwq 1 b", b"overwq 1 b", b"wait 1 b"]),
        ("the waits of both kinds, in the wrong order", whole + join(b"flush a a"), b"wq 0 b c\nwq 1 a",
         [b"queue b", b"queue c", b"start 0 b", b"finish 0 b", b"start 0 c", b"finish 0 c", b"queue a", b"start 1 a",
          b"wait 1 a"]),
        ("the waits of both kinds, in order", whole + join(b"flush a a"), b"wq 0 b c\nwq 1 a",
         [b"queue b", b"queue c", b"start 0 b", b"finish 0 b", b"start 0 c", b"finish 0 c"] + wait_all
         + [b"overwq 1 b", b"wait 1 a"]),
        ("a deadlock, nobody is sure to start what it waits for", two, b"wq 0 a\nnorescuer 1 b",
         [b"queue a", b"queue b", b"start 0 a", b"wait 0 b", b"start 1 b", b"finish 1 b", b"over 0 b", b"finish 0 a"]),
        ("a wait for what runs on a workqueue without a rescuer", two, b"wq 0 a\nnorescuer 1 b",
         [b"queue b", b"start 1 b", b"queue a", b"start 0 a", b"wait 0 b", b"finish 1 b", b"over 0 b", b"finish 0 a"]),
        ("a wait for what isn't queued there", two, b"wq 0 a\nnorescuer 1 b",
         [b"queue a", b"start 0 a", b"wait 0 b", b"queue b", b"over 0 b", b"finish 0 a", b"start 1 b"]),
        ("a wait for itself without a rescuer", join(b"item a", b"flush a a"), b"norescuer 0 a",
         [b"queue a", b"start 0 a", b"wait 0 a"]),
        ("a workqueue without a rescuer, which runs what waits for one with", two, b"norescuer 0 a\nwq 1 b",
         [b"queue a", b"queue b", b"start 0 a", b"wait 0 b", b"start 1 b", b"finish 1 b", b"over 0 b"]),
        ("one that waits behind what runs without a rescuer", two + b"flush b a", b"wq 0 a\nnorescuer 1 b",
         [b"queue b", b"start 1 b", b"queue a", b"start 0 a", b"wait 0 b", b"wait 1 a"]),
        ("a second one on a workqueue without a rescuer", join(two, b"item c"), b"wq 0 a\nnorescuer 1 c b",
         [b"queue c", b"queue b", b"queue a", b"start 0 a", b"wait 0 b", b"start 1 c", b"finish 1 c", b"start 1 b"]),
        ("a workqueue without a rescuer, one of whose items is waited for", whole, b"norescuer 0 b c\nwq 1 a",
         [b"queue c"] + wait_all + [b"start 0 c", b"finish 0 c", b"overwq 1 b", b"finish 1 a"]),
        ("only those without a rescuer", two, b"norescuer 0 a\nnorescuer 1 b", [b"queue a", b"queue b", b"start 1 b"]),
        ("stuck, one of them wasn't queued", join(two, b"item c"), b"wq 0 a\nnorescuer 1 b c",
         [b"queue a", b"queue b", b"start 0 a", b"wait 0 b", b"queue c"]),
        ("one that is cancelled where nobody starts it", two, b"wq 0 a\nnorescuer 1 b",
         [b"queue a", b"queue b", b"start 0 a", b"wait 0 b", b"cancel b", b"over 0 b"]),
    ]:
        for length in range(len(steps) + 1):
            add(f"{what}, {length} steps", declaration, assignment,
                join(b"run %d" % length, *steps[:length]))
    return cases
