# A model of `wqplan check DECL CERT [FIXED]`. It says of an answer to a declaration whether it is true, as
# docs/FORMAT.md asks for in "The command `check`". See plan.py for what the model is.

import sys

sys.dont_write_bytecode = True
import around  # noqa: E402  (beside this file)
import certificate  # noqa: E402
import declaration  # noqa: E402
from command_line import answer_texts  # noqa: E402
from declaration import Refused  # noqa: E402
from steps import end_of_run  # noqa: E402


def first_bad_arc(declared, arcs, before):
    """The number, from 1, of the first arc that is no declared flush or doesn't join, or None.

    An arc joins where its item is in the group of the target of the arc before it. The arc before
    the first is `before`, or none where that is None.
    """
    flushes = set(declared.flushes)
    for number, (item, target) in enumerate(arcs, start=1):
        if (item, target) not in flushes:
            return number
        if before is not None and declared.group_of[item] != declared.group_of[before[1]]:
            return number
        before = (item, target)
    return None


def check_plan_text(declared, text):
    """The line of the answer to a plan text."""
    workqueue_of = text.assignment.workqueue_of
    for item, target in declared.flushes:
        if workqueue_of[item] <= workqueue_of[target]:
            return b"no 50 %s %s" % (item, target)
    if text.chain != text.assignment.count:
        return b"no 52"
    if text.chain == 1 and not declared.groups:
        return b"no 51 0"
    at = first_bad_arc(declared, text.arcs, None)
    if at is not None:
        return b"no 51 %d" % at
    return b"yes %d" % text.assignment.count


def check_circle_text(declared, text):
    """The line of the answer to a circle text."""
    at = first_bad_arc(declared, text.arcs, text.arcs[-1])
    if at is not None:
        return b"no 53 %d" % at
    if text.steps is not None:
        own = certificate.Assignment(declared.group_of, len(declared.groups))
        if end_of_run(declared, own, text.steps) != "deadlock":
            return b"no 54"
    return b"yes circle %d" % len(text.arcs)


def check_text(declared, claimed):
    """The line of the answer."""
    if isinstance(claimed, certificate.PlanText):
        return check_plan_text(declared, claimed)
    return check_circle_text(declared, claimed)


def answer(declaration_text, certificate_text, fixed_text=None):
    """The bytes of the answer, and the exit status (Faults and exit statuses)."""
    try:
        declared = declaration.read_declaration(declaration_text)
        fixed = None if fixed_text is None else around.read_fixed(fixed_text, declared)
        if fixed is None or fixed.count == 0:
            line = check_text(declared, certificate.read_answer(certificate_text, declared))
        else:
            line = around.check_text(declared, fixed, around.read_answer(certificate_text, declared, fixed))
    except Refused as refused:
        return refused.answer()
    return line + b"\n", 0 if line.startswith(b"yes") else 1


def main(arguments):
    """The exit status."""
    if len(arguments) not in (3, 4) or arguments[0] != "check":
        print("usage: check.py check DECL CERT [FIXED]", file=sys.stderr)
        return 2
    return answer_texts(answer, arguments[1:], (declaration.TEXT_LIMIT, certificate.TEXT_LIMIT, certificate.TEXT_LIMIT))


if __name__ == "__main__":
    sys.exit(main(sys.argv[1:]))
