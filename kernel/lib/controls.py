"""The judge's own cases, which come behind those of a declaration: two items, for each kind of workqueue and of wait in
use. What must come of them is known by hand. So a guest in which nothing would hang, or all would, isn't believed.
"""

import cases
import model

# By the deed of a wait its line, and the places of the flushes that are `done`.
WAITS = {
    "flush": (b"flush a b", frozenset()),
    "flushwq": (b"flushwq a b", frozenset()),
    cases.DONE: (b"flush a b", frozenset({0})),
}


def case_of(name, lines, done, assignment, kinds, must):
    """A case of items that are queued in the order of declaration, on one CPU, before any of them acts."""
    declared = model.read_declaration(lines)
    setting = cases.Setting(declared, model.read_assignment(assignment, declared), kinds, done)
    return cases.FreeCase(name, setting, declared.items, dict.fromkeys(declared.items, 0), must)


def control(name, deed, assignment, kinds, must):
    """Item a waits for b so."""
    line, done = WAITS[deed]
    return case_of(f"{name}, {deed}", b"item a\nitem b\n%s\n" % line, done, assignment, kinds, must)


def whole_workqueue(name, kind):
    """Item a waits for all of the workqueue of b, so also for c, which waits for a."""
    lines = b"item b\nitem c\nitem a\nflushwq a b\nflush c a\n"
    return case_of(f"{name}, flushwq", lines, frozenset(), b"wq 0 a\nwq 1 b c\n", [kind, kind], "hang")


def controls_for(setting, weather):
    """The cases for the kinds of workqueues and waits of a setting. Where workers are free there are none: they would
    take them from the others.
    """
    deeds = {deed for waits in setting.waits().values() for deed, _ in waits} or {"flush"}
    made = []
    for kind in sorted(set(setting.kinds)) if weather != "free" else ():
        words = cases.KINDS[kind][0]
        hangs = weather == "short" or kind in cases.ONE_AT_A_TIME
        for deed in sorted(deeds):
            made.append(control(f"{words}: both on one", deed, b"wq 0 a b\n", [kind], "hang" if hangs else "end"))
            made.append(control(f"{words}: each on its own", deed, b"wq 0 a\nwq 1 b\n", [kind, kind], "end"))
        if "flushwq" in deeds:
            made.append(whole_workqueue(f"{words}: a circle", kind))
        if setting.assignment.bare:
            text = b"wq 0 a\nnorescuer 1 b\n"
            must = "hang" if weather == "short" else "end"
            made.append(control(f"{words}: b without a rescuer", min(deeds), text, [kind, kind], must))
    return made
