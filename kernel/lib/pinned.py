"""Single situations, each with what each series of Linux does in it: kernel/cases/NAME.case.

Such a file is lines `key: value`, and lines `key:` with lines below, each after four spaces, or after eight if it goes
on with the line above. `#` begins a comment.

    says         what it is about
    declaration  its lines, parted by ` / `
    assignment   the same
    kind         how the workqueues are made: a letter of cases.KINDS for all, or for each (default p)
    weather      short (default) or plenty
    does         what items do by themselves, in a free case: lines `ITEM DEED ARGUMENT` (module/main.c, `does`)
    steps        the steps of docs/FORMAT.md, with other commands of the module between them; items have names here
    model        what the model has at the end of the steps, or what wqplan says
    6.1, 6.12    what the kernel has at each `state WORD` of the steps: lines `WORD: ..`, in the words of kernel/judge
"""

import pathlib
import re

import cases
import model

PLACE = pathlib.Path(__file__).resolve().parents[1] / "cases"


def lines_of(field):
    """The text of a field: lines, parted by ` / ` if they are on one."""
    lines = field.split(" / ") if isinstance(field, str) else field
    return "".join(line + "\n" for line in lines).encode()


def fields(path):
    """The fields of a file: of each a text, or a list of lines."""
    found, key = {}, None
    for number, line in enumerate(path.read_text().splitlines(), 1):
        line = line.split("#")[0].rstrip()
        field = re.fullmatch(r"([\w.]+):(?: (.+))?", line)
        if line.startswith("        ") and found.get(key):
            found[key][-1] += f" {line.strip()}"
        elif line.startswith("    ") and isinstance(found.get(key), list):
            found[key].append(line.strip())
        elif field:
            key = field[1]
            found[key] = field[2] or []
        elif line:
            raise ValueError(f"{path}:{number}: {line}")
    return found


class PinnedCase(cases.Case):
    """A situation of a file."""

    def __init__(self, path):
        self.fields = fields(path)
        declaration = model.read_declaration(lines_of(self.fields["declaration"]))
        assignment = model.read_assignment(lines_of(self.fields["assignment"]), declaration)
        kinds = self.fields.get("kind", "p")
        kinds = list(kinds) if len(kinds) == assignment.count else [kinds] * assignment.count
        super().__init__(path.stem, cases.Setting(declaration, assignment, kinds))
        self.begins = self.fields.get("weather", "short")

    def number(self, word):
        """An item by its number; any other word stays."""
        name, at, cpu = word.encode().partition(b"@")
        items = self.setting.declaration.items
        return str(items.index(name)) + (at + cpu).decode() if name in items else word

    def setup(self):
        yield "free" if "does" in self.fields else "driven"
        yield from self.setting.commands()
        for line in self.fields.get("does", []):
            item, deed, argument = line.split()
            yield f"does {self.number(item)} {deed} {self.number(argument)}"

    def commands(self):
        """Steps of FORMAT name a workqueue before the item: of `start 0 a` the number is left out, and for others who
        runs there is put.
        """
        on = {}
        for line in self.fields["steps"]:
            word, *rest = line.split()
            if word in ("start", "finish"):
                if word == "start":
                    on[rest[0]] = rest[1]
                rest = rest[1:]
            elif word in ("wait", "waitwq", "await", "over", "overwq", "drain", "cancelsync"):
                rest = [on[rest[0]], *rest[1:]] if not word.startswith("over") else [on[rest[0]]]
                word = "over" if word == "overwq" else word
            if word == "plenty":
                yield "plenty"
                yield f"threads-max {cases.MANY_THREADS}"
                continue
            # (the word of a state is none of an item, even if it is spelled so)
            yield " ".join([word, *(rest if word in ("state", "sleep") else map(self.number, rest))])
        yield "end"
        if "plenty" in self.fields["steps"]:
            yield from cases.weather_commands("short")

    def expected(self, series):
        """By the word of a state, what the kernel has there."""
        return dict(line.split(": ", 1) for line in self.fields[series])

    def found(self):
        """The same, of the outcome."""
        return {word: self.shown(where) for word, (_, where) in self.outcome.states.items() if word != "end"}

    def judge_series(self, series):
        """What is otherwise than the file says, or nothing."""
        if self.outcome is None:
            return "the guest printed no result"
        if any(letter == "!" for letter, *_ in self.outcome.events):
            return f"a step doesn't happen: {self.outcome.events}"
        found = self.found()
        return "".join(
            f"\n    {word}: {found.get(word)}"
            for word, text in self.expected(series).items()
            if found.get(word) != text
        )


def all_cases():
    return [PinnedCase(path) for path in sorted(PLACE.glob("*.case"))]


def run(kernel, made):
    """Has guests run them: one for those that begin in each weather. Those with `plenty` make the shortage anew
    behind them.
    """
    for weather in ("short", "plenty"):
        part = [case for case in made if case.begins == weather]
        if part:
            cases.run(kernel, part, weather=weather)
