"""What comments say that the directives don't: which waits end once an item has done its work (`# done ..`), and how
the workqueues of an assignment are made. So `wqsource draft` writes them, and the examples.
"""

import re


def lines_of(text):
    """Of each line of a text its words, and its comment."""
    for line in text.decode("latin-1").split("\n"):
        before, _, comment = line.partition("#")
        yield before.split(), comment.strip()


def done_flushes(declaration_text):
    """The places, among all flushes of a declaration, of those that a comment calls `done`. A line has one for each
    target, in their order.
    """
    found, place = set(), 0
    for words, comment in lines_of(declaration_text):
        if words[:1] == ["flush"] or words[:1] == ["flushwq"]:
            targets = len(words) - 2
            if words[0] == "flush" and re.match(r"done\b", comment):
                found |= set(range(place, place + targets))
            place += targets
    return frozenset(found)


# The letters of cases.KINDS, each with what a comment says of such a workqueue; the first one that fits counts. What
# Linux 6.1 makes ordered, and 6.12 doesn't, is made by the same call, so that each kernel makes of it what it does.
KINDS = (
    ("v", r"ordered in Linux 6\.1, not in 6\.12"),
    ("o", r"ordered\b"),
    ("v", r"WQ_UNBOUND.*max_active 1\b|max_active 1\b.*WQ_UNBOUND"),
    ("1", r"max_active 1\b"),
    ("g", r"WQ_UNBOUND.*WQ_HIGHPRI|WQ_HIGHPRI.*WQ_UNBOUND"),
    ("h", r"WQ_HIGHPRI"),
    ("u", r"WQ_UNBOUND"),
)
# Of the kernel's own workqueues their names say it.
UNBOUND_BY_NAME = re.compile(r"system_(?:\w+_)?unbound_wq")


def kind_of(comment):
    """The letter of a workqueue with this comment: its name, the place where it is made, and its flags."""
    name, _, flags = comment.partition(",")
    flags = re.sub(r"\S+:\d+ \w+", "", flags)  # the place
    for letter, pattern in KINDS:
        if re.search(rf"\b(?:{pattern})", flags):
            return letter
    return "u" if UNBOUND_BY_NAME.match(name.strip()) else "p"


def kinds(assignment_text, count):
    """The letters of the workqueues, and whether any comment says something of how one is made."""
    found, is_said = ["p"] * count, False
    for words, comment in lines_of(assignment_text):
        if words[:1] in (["wq"], ["norescuer"]) and len(words) > 1 and words[1].isdecimal():
            found[int(words[1])] = kind_of(comment)
            is_said |= "," in comment
    return found, is_said
