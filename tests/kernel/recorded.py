#!/usr/bin/env python3
"""Cases that a kernel has carried out, with what the guest's console said of them: a judge can be tried on these
without a guest.

    recorded.py PROGRAM SERIES FILE

has a guest of this series carry them out, and writes FILE. What is in consoles/ was made so. Its parts: declarations
and assignments, how their workqueues are made, and of each case the order or the run; and of the console the lines that
the module printed.
"""

import json
import os
import pathlib
import random
import sys

sys.dont_write_bytecode = True
ROOT = pathlib.Path(__file__).resolve().parents[2]
sys.path.append(str(ROOT / "kernel/lib"))
import cases  # noqa: E402  (in kernel/lib, as are the next four)
import guest  # noqa: E402
import model  # noqa: E402
import program  # noqa: E402
import random_cases  # noqa: E402

CONSOLES = pathlib.Path(__file__).resolve().parent / "consoles"

# Read ---------------------------------------------------------------------------------------------


def setting_of(told):
    declaration = model.read_declaration(told["declaration"].encode())
    assignment = model.read_assignment(told["assignment"].encode(), declaration)
    return cases.Setting(declaration, assignment, list(told["kinds"]), frozenset(told["done"]))


def case_of(told, setting):
    """The case that this part of a file is about."""
    if "run" in told:
        steps = model.read_run(told["run"].encode(), setting.declaration)
        case = cases.DrivenCase(told["name"], setting, steps, told["must"])
    else:
        case = cases.FreeCase(told["name"], setting, [item.encode() for item in told["order"]], None, told["must"])
    case.weather = "short"
    return case


def read(path):
    """The cases of a file, and the console."""
    told = json.loads(path.read_text())
    made = [case_of(part, setting_of(each)) for each in told["settings"] for part in each["cases"]]
    return made, "".join(line + "\n" for line in told["console"])


def judged(case, number, console):
    """What the judge says of this case, if the guest has said this: nothing where all is as it must be."""
    outcomes, _ = guest.read_outcomes(console)
    case.outcome = outcomes.get(number)
    return case.judge()


# Write --------------------------------------------------------------------------------------------


def asked_of(choose):
    """What is recorded: examples that hang and that don't, each kind of wait among them, and random declarations."""
    examples = ROOT / "examples"
    for name in ("nvme-auth", "md", "dm-snapshot", "xfs"):
        texts = [examples / f"{name}.wq", examples / f"{name}.assign"]
        yield program.Asked(f"{name}: ", texts, "p", choose)
    for number in range(8):
        text = random_cases.declaration_text(choose, 5, 6)
        without = random_cases.WITHOUT_RESCUER if number % 2 else 0
        assignment = random_cases.assignment_text(choose, model.read_declaration(text), without)
        yield program.Asked(f"random {number}: ", [text, assignment], "puo1", choose)


def cases_of(asked, choose):
    """Its cases, and of a random declaration a random run besides."""
    yield from asked.cases(1)
    if asked.name.startswith("random"):
        yield asked.driven_case("a random run", random_cases.run_steps(choose, asked.declaration, asked.assignment, 14))


def without_comments(text):
    lines = (line.partition("#")[0].strip() for line in text.decode().splitlines())
    return "".join(f"{line}\n" for line in lines if line)


def told_of_setting(asked, made):
    """A declaration and an assignment, and their cases, as a part of the file."""
    setting = asked.setting
    return {
        "declaration": without_comments(asked.texts[0]),
        "assignment": without_comments(asked.texts[1]),
        "kinds": "".join(setting.kinds),
        "done": sorted(setting.done),
        "cases": list(map(told_of, made)),
    }


def told_of(case):
    told = {"name": case.name, "must": case.must}
    if isinstance(case, cases.DrivenCase):
        return told | {"run": "".join(line.decode() + "\n" for line in model.run_text(case.steps))}
    return told | {"order": [item.decode() for item in case.order]}


def write(series, path):
    choose = random.Random("recorded")
    sets = [(asked, list(cases_of(asked, choose))) for asked in asked_of(choose)]
    kernel = guest.kernel_of(series)
    (console,) = cases.run(kernel, [case for _, made in sets for case in made])
    lines = [line for line in console.split("\n") if guest.OURS.fullmatch(line)]
    text = {"kernel": kernel.version, "settings": [told_of_setting(*pair) for pair in sets], "console": lines}
    path.write_text(json.dumps(text, indent=1) + "\n")


def main(arguments):
    if len(arguments) != 3:
        print(__doc__, file=sys.stderr)
        return 2
    os.environ["WQPLAN"] = os.path.realpath(arguments[0])
    write(arguments[1], pathlib.Path(arguments[2]))
    return 0


if __name__ == "__main__":
    sys.exit(main(sys.argv[1:]))
