"""One file of C that shows, in anybody's virtual machine, whether these items hang: hang.c beside this, with the tables
of a declaration and an assignment in it.
"""

import pathlib
import re

import cases

FORM = pathlib.Path(__file__).resolve().parent / "hang.c"
HOW = {"flush": "FLUSH_WORK", "flushwq": "FLUSH_WORKQUEUE", cases.DONE: "COMPLETION"}
# By the letter of a workqueue's kind its flags, max_active, and whether it is ordered.
MADE = {
    "p": ([], 0, False),
    "u": (["WQ_UNBOUND"], 0, False),
    "o": ([], 0, True),
    "1": ([], 1, False),
    "v": (["WQ_UNBOUND"], 1, False),
    "h": (["WQ_HIGHPRI"], 0, False),
    "g": (["WQ_UNBOUND", "WQ_HIGHPRI"], 0, False),
}


# A line that each such file has.
MARK = " * Written by kernel/judge of wqplan."


def is_ours(path):
    """Whether the judge has written this file, so that it may do so again."""
    return MARK in path.read_text(errors="replace")


def literal(name):
    """A name, which is bytes, as a string of C."""
    return '"' + re.sub(rb"[^\w .+/-]", lambda match: b"\\%03o" % match[0][0], name).decode() + '"'


def queue_line(setting, number):
    flags, max_active, ordered = MADE[setting.kinds[number]]
    flags = flags + ([] if number in setting.assignment.bare else ["WQ_MEM_RECLAIM"])
    name = setting.assignment.called.get(number, b"wq%d" % number)
    return f"\t{{ {literal(name)}, {' | '.join(flags) or 0}, {max_active}, {str(ordered).lower()} }},"


def item_line(setting, item, waits):
    made = ", ".join(f"{{ {HOW[deed]}, {setting.number_of(target)} }}" for deed, target in waits)
    return f"\t{{ {literal(item)}, {setting.assignment.workqueue_of[item]}, {{ {made or '{ 0 }'} }} }},"


def text_of(name, what, setting, order):
    """The text of the file, of which a module of this name is built."""
    waits = setting.waits()
    filled = {
        "NAME": name,
        "WHAT": what.replace("*/", "* /"),
        "QUEUES": "\n".join(queue_line(setting, number) for number in range(len(setting.kinds))),
        "ITEMS": "\n".join(item_line(setting, item, made) for item, made in waits.items()),
        "MOST": str(max(1, *map(len, waits.values()))) if waits else "1",
        "ORDER": ", ".join(str(setting.number_of(item)) for item in order),
    }
    return re.sub(r"@([A-Z]+)@", lambda match: filled[match[1]], FORM.read_text())
