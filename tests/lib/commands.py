#!/usr/bin/env python3
"""The commands of wqplan and their forms, by docs/tables/commands.txt: for all that goes through the commands in tests/ and bench/.

    commands.py [forms | answers]

prints the commands, a line each, or their forms, each as `COMMAND ARGUMENT..`, for the scripts in bash; or, of each command, each
answer of any command, as `COMMAND`, `has` or `lacks`, and the answer, with a TAB between them. A form is a command with its
arguments that are files: one that may be left out makes two forms. `explain`, none of whose arguments is a file, has no form.
"""

import sys

from records import records  # beside this file

# The arguments that are files, and what text each is. Without FILE it is standard input, which makes no form.
TEXTS = {"FILE": "declaration", "DECL": "declaration", "CERT": "answer", "ASSIGN": "assignment", "RUN": "run", "FIXED": "fixed"}


def arguments_of(row):
    """The arguments of a command that are files: those that are needed, and those that may be left out."""
    words = row["arguments"].split()
    return [word for word in words if word in TEXTS], [word[1:-1] for word in words if word[0] == "[" and word[1:-1] in TEXTS]


def forms_of(row):
    """The forms of a command, the shortest first: of each the arguments."""
    needed, others = arguments_of(row)
    return [needed + others[:count] for count in range(len(others) + 1) if needed + others[:count]]


ROWS = {row["command"]: row for row in records("commands.txt")}
NAMES = list(ROWS)
FORMS = [(name, form) for name, row in ROWS.items() for form in forms_of(row)]
# Of each command that reads texts, what they are: all that it reads in its longest form.
TEXTS_OF = {name: [TEXTS[word] for word in form] for name, form in FORMS}


def given(texts, kind=None):
    """Each form, with its texts out of these: `texts` has a text by what it is, as `declaration`. A form that has no text for an
    argument is left out, and where there is a kind, each form that doesn't read it.

    Gives the command, and the texts in their order.
    """
    for name, form in FORMS:
        kinds = [TEXTS[word] for word in form]
        if all(of in texts for of in kinds) and (kind is None or kind in kinds):
            yield name, [texts[of] for of in kinds]


def answers_of(row):
    """The answers of a command, with status 0 and with status 1."""
    return [cell for key in ("zero", "one") if key in row for cell in row[key].split(", ")]


def answers():
    """The lines about the answers of each command."""
    every = list(dict.fromkeys(cell for row in ROWS.values() for cell in answers_of(row)))
    for name, row in ROWS.items():
        own = answers_of(row)
        yield from (f"{name}\thas\t{cell}" for cell in own)
        # (`a plan` is in `its plan has ..`)
        yield from (f"{name}\tlacks\t{cell}" for cell in every if cell not in own and cell != "a plan")


def main(arguments):
    if arguments == ["answers"]:
        return print("\n".join(answers()))
    if arguments not in ([], ["forms"]):
        sys.exit(__doc__)
    print("\n".join([" ".join([name, *form]) for name, form in FORMS] if arguments else NAMES))


if __name__ == "__main__":
    main(sys.argv[1:])
