"""wqplan, and the cases that its answers make."""

import contextlib
import os
import pathlib
import re

import cases
import comments
import model
import packages
import processes

ROOT = pathlib.Path(__file__).resolve().parents[2]
SECONDS = 600

LETTERS = {"per-cpu": "p", "unbound": "u", "mixed": "puo1"}


class Refusal(Exception):
    """wqplan gave no answer: what it printed in place of one, to standard output and to standard error, and its
    status.
    """

    def __init__(self, said, errors, status):
        super().__init__(said + errors)
        self.said, self.errors, self.status = said, errors, status


def wqplan():
    """The program: that of $WQPLAN, of this clone, on the PATH, or installed by install.sh."""
    cache = os.environ.get("XDG_CACHE_HOME") or os.path.expanduser("~/.cache")
    built = "crates/wqplan/out/wqplan"
    named = os.environ.get("WQPLAN")
    if named and not os.access(named, os.X_OK):
        raise packages.Missing(f"the variable WQPLAN names {named}, which can't be executed")
    for path in (
        named,
        ROOT / built,
        *(f"{folder}/wqplan" for folder in os.get_exec_path()),
        f"{cache}/wqplan/{built}",
    ):
        if path and os.access(path, os.X_OK):
            return path
    raise packages.Missing("there is no wqplan: build it, or name it by the variable WQPLAN")


def ask(command, *texts):
    """The answer of a command to texts: bytes, or the paths of files. Raises Refusal where there is none."""
    with contextlib.ExitStack() as files:
        held = {
            place: files.enter_context(processes.in_memory(text))
            for place, text in enumerate(texts)
            if isinstance(text, bytes)
        }
        words = [held[place][0] if place in held else text for place, text in enumerate(texts)]
        numbers = [number for _, number in held.values()]
        try:
            ended = processes.run([wqplan(), command, *words], SECONDS, pass_fds=numbers)
        except processes.Late as late:
            raise packages.Missing(f"wqplan {command} took more than {SECONDS} s") from late
    if ended.returncode not in (0, 1):
        raise Refusal(ended.stdout.decode("latin-1"), ended.stderr.decode("latin-1"), ended.returncode)
    return ended.stdout


def plan_of(declaration):
    """The plan text of a declaration, or None where it has no plan."""
    answer = ask("plan", declaration)
    return answer if answer.startswith(b"plan ") else None


UNSURE = re.compile(rb"(flush(?:wq)?)\?([ \t])")


def reading(declaration, answer):
    """The text of the declaration whose items a kernel executes: the one in which each unsure line is so, if the
    assignment is safe whatever is so; else the one that keeps those alone by which `deadlock` says that it hangs.
    """
    is_safe, left = answer == b"safe\n", [b" ".join(line.split()) for line in answer.splitlines()]
    lines = []
    for line in declaration.split(b"\n"):
        words = b" ".join(line.partition(b"#")[0].split())
        if UNSURE.match(words):
            if is_safe or words in left:
                left = left if is_safe else left[: left.index(words)] + left[left.index(words) + 1 :]
                line = UNSURE.sub(rb"\1\2", line, count=1)
            else:
                line = b""
        lines.append(line)
    return b"\n".join(lines)


class Asked:
    """A declaration and an assignment, what `wqplan deadlock` says of them, and the cases by which a kernel is asked
    the same.
    """

    def __init__(self, name, texts, letters, choose):
        self.name, self.choose = name, choose
        self.texts = [text if isinstance(text, bytes) else pathlib.Path(text).read_bytes() for text in texts]
        answer = ask("deadlock", *texts)
        self.texts[0] = reading(self.texts[0], answer)
        answer = answer[re.search(rb"^(?:safe|run )", answer, re.M).start() :]
        self.declaration = model.read_declaration(self.texts[0])
        self.assignment = model.read_assignment(self.texts[1], self.declaration)
        self.is_safe = answer == b"safe\n"
        self.steps = [] if self.is_safe else model.read_run(answer, self.declaration)
        # The workqueue of a group of several items is ordered.
        self.ordered = {self.assignment.workqueue_of[group[0]] for group in self.declaration.groups if len(group) > 1}
        workqueues = range(self.assignment.count)
        kinds = ["o" if workqueue in self.ordered else choose.choice(letters) for workqueue in workqueues]
        done = comments.done_flushes(self.texts[0])
        self.setting = cases.Setting(self.declaration, self.assignment, kinds, done)

    def make_as(self, kinds):
        """Has its workqueues made as these letters say, but for the ordered ones."""
        pairs = enumerate(kinds)
        self.setting.kinds = ["o" if workqueue in self.ordered else letter for workqueue, letter in pairs]

    def free_case(self, name, order, cpus):
        """On several CPUs an item of a safe assignment is queued on any, and of an unsafe one on the first."""
        on = {item: self.choose.randrange(cpus) if self.is_safe else 0 for item in order} if cpus > 1 else None
        must = "end" if self.is_safe else None
        return cases.FreeCase(f"{self.name}{name}", self.setting, order, on, must)

    def free_cases(self, orders, cpus):
        """The items are queued in the order of declaration, or of the printed run, and in random ones."""
        if self.is_safe:
            order, name = self.declaration.items, "queued in the order of declaration"
        else:
            order, name = [item for word, _, item in self.steps if word == b"queue"], "queued in the run's order"
        yield self.free_case(name, order, cpus)
        for number in range(1, orders + 1):
            yield self.free_case(f"random order {number}", self.choose.sample(order, len(order)), cpus)

    def driven_case(self, name="driven by the run", steps=None, must=None):
        """The printed run, which must hang, or another one."""
        if steps is None:
            steps, must = self.steps, "hang"
        return cases.DrivenCase(f"{self.name}{name}", self.setting, steps, must)

    def cases(self, orders, cpus=1, weather="short"):
        """The printed run, driven, while rescuers are alone; and the free cases."""
        if self.steps and weather == "short":
            yield self.driven_case()
        yield from self.free_cases(orders, cpus)
