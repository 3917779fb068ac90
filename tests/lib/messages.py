"""The sentences of docs/tables/messages.txt: for tests/docs/made.py, which makes code from them, and for the models.

`said("runs", workqueue=b"workqueue 0", item=b"`a`")` is what the program says; `form("runs", ..)` a regular expression for it, of which
the parts are regular expressions, too.
"""

import re

from records import records  # beside this file

HOLE = re.compile(r"\{(\w+)\}")
ANY = r"[^\n]*?"


def unquoted(says):
    """The words of a message, without their quotes."""
    found = re.fullmatch(r'"(.*)"', says)
    assert found, f"docs/tables/messages.txt: this isn't in quotes: {says}"
    return found[1]


ROWS = [row for row in records("messages.txt") if "table" in row]
MESSAGES = {row["message"]: {**row, "says": unquoted(row["says"])} for row in records("messages.txt") if "message" in row}


def parts_of(words):
    """The texts and the holes of these words, in turn: what isn't empty of a text, then a hole, and so on."""
    parts = HOLE.split(words)
    return [(at % 2 == 1, part) for at, part in enumerate(parts) if part]


def holes_of(name):
    """What stands in a message, each once, in its order."""
    return list(dict.fromkeys(HOLE.findall(MESSAGES[name]["says"])))


def filled(name, given, text):
    """The words of a message as bytes, of which `text` makes each text between two holes."""
    assert set(given) == set(holes_of(name)), f"in `{name}` stand {holes_of(name)}, and not {list(given)}"
    parts = parts_of(MESSAGES[name]["says"])
    return b"".join(given[part] if is_hole else text(part.encode()) for is_hole, part in parts)


def said(name, /, **given):
    """What is said."""
    return filled(name, given, bytes)


def form(name, /, **given):
    """A regular expression for what is said."""
    return filled(name, given, re.escape)


def reworded(text, old, new):
    """The text with each message that it shows in its new words; `old` and `new` have the words of the messages by name."""
    kinds = {"number": r"(?:[0-9]+|N)", "name": r"[^`)\n]+", "items": r"[^\n]+", "code": r"[0-9]+"}
    kinds["called"] = f"(?:{shape(old['its_name'], kinds)})?"
    item = shape(old["an_item"], kinds)
    workqueue = f"(?:{shape(old['a_workqueue'], kinds)}|WORKQUEUE of [A-Z]|PLACE of [A-Z]|WORKQUEUE)"
    kinds |= dict.fromkeys(["item", "target", "next", "first"], item) | dict.fromkeys(["workqueue", "other"], workqueue)
    for name in old.keys() & new.keys():
        if old[name] != new[name]:
            groups = {hole: f"(?P<{hole}>{kinds.get(hole, ANY)})" for hole in HOLE.findall(old[name])}
            pattern = re.compile(shape(old[name], groups))
            text = pattern.sub(lambda found, name=name: HOLE.sub(lambda hole: found[hole[1]], new[name]), text)
    return text


def shape(words, kinds):
    """A regular expression for these words. What comes again in them is the same each time."""
    made, seen = "", set()
    for is_hole, part in parts_of(words):
        made += re.escape(part) if not is_hole else f"(?P={part})" if part in seen else kinds.get(part, ANY)
        seen |= {part} if is_hole else set()
    return made


def arguments_of(text):
    """The arguments of a call in the field `what`: what commas part that stand in no parentheses."""
    found, depth = [""], 0
    for letter in text:
        depth += (letter == "(") - (letter == ")")
        if letter == "," and not depth:
            found.append("")
        else:
            found[-1] += letter
    return [part.strip() for part in found]


def shown(what):
    """The cell of a table: a message with what stands in it, or a word as it is."""
    call = re.fullmatch(r"(\w+)\((.*)\)", what)
    if not call:
        return what.encode()
    holes = holes_of(call[1])
    arguments = arguments_of(call[2]) if holes else []
    assert len(arguments) == len(holes), f"docs/tables/messages.txt: in `{call[1]}` stand {holes}: {what}"
    return said(call[1], **dict(zip(holes, map(shown, arguments))))
