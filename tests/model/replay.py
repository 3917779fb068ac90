# A model of `wqplan replay DECL ASSIGN RUN [NAME..]`. It makes the steps of a run and says how that ends, as
# docs/FORMAT.md asks for in "The command `replay`". See plan.py for what the model is.

import sys

sys.dont_write_bytecode = True
import certificate  # noqa: E402  (beside this file)
import declaration  # noqa: E402
from command_line import answer_texts  # noqa: E402
from declaration import Refused  # noqa: E402
from steps import end_of_run  # noqa: E402


def answer(declaration_text, assignment_text, run_text, *names):
    """The bytes of the answer, and the exit status (Faults and exit statuses)."""
    try:
        declared = declaration.read_declaration(declaration_text)
        assignment = certificate.read_assignment(assignment_text, declared)
        kept, steps = certificate.read_run_and_part(run_text, declared)
        declaration.look_up(declared, names)
    except Refused as refused:
        return refused.answer()
    end = end_of_run(certificate.in_its_reading(declared, kept), assignment, steps, names)
    if end in ("deadlock", "stuck", "open"):
        return b"%s\n" % end.encode(), 0 if end == "open" else 1
    return b"not lawful %d\n" % end, 1


def main(arguments):
    """The exit status."""
    if len(arguments) != 4 or arguments[0] != "replay":
        print("usage: replay.py replay DECL ASSIGN RUN", file=sys.stderr)
        return 2
    limits = declaration.TEXT_LIMIT, certificate.TEXT_LIMIT, certificate.TEXT_LIMIT
    return answer_texts(answer, arguments[1:], limits)


if __name__ == "__main__":
    sys.exit(main(sys.argv[1:]))
