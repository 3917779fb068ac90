# A model of what standard error says beside `safe` of workqueues without a rescuer: docs/MESSAGES.md, "Notes", Workqueues without a
# rescuer.

import certificate
from declaration import read_declaration
from marks import shown, workqueue
from messages import said  # in tests/lib

COMMANDS = ("deadlock", "hang", "circles")


def said_of(command, files, texts, printed):
    """The bytes that belong beside this answer, which isn't a refusal."""
    if command not in COMMANDS or len(texts) < 2 or printed != b"safe\n":
        return b""
    declared = read_declaration(texts[0])
    assignment = certificate.read_assignment(texts[1], declared)
    number_of = assignment.workqueue_of
    items = [said("item_on_workqueue", item=said("an_item", name=name), workqueue=workqueue(assignment, number_of[name]))
             for name in declared.items if number_of[name] in assignment.bare]
    if not items:
        return b""
    notes = [said("nothing_guarantees", file=files[1], items=b", ".join(items)), said("declare_who_waits", file=files[1])]
    return b"".join(shown(note) + b"\n" for note in notes)
