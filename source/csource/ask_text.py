"""What `ask` prints, and what it takes for an answer."""

import re
import sys
from typing import Optional, TextIO

from . import says
from .ask import Asking, CallOfWay, Changed, Hang
from .calls import DIRECT, Edge
from .places import Place
from .program import Ended
from .sites import Site

# So many lines of the source before and behind a wait, and so many that may end it are shown.
AROUND = 3
MOST_ENDS = 4
# So many sites of one line are shown with their source.
MOST_SITES = 3

SURE, NOT_SO, NOT_THERE, NOWHERE, LATER, QUIT = "y", "n", "ni", "na", "s", "q"
# Only these targets.
ONLY = "o"
# A call of the way, or the function that it calls.
CUT, CUT_FUNCTION = "c", "cf"
NO_ANSWER = "y, n WHY, s or q: see above"
NO_PLACE = "the line cites no place that may wait: n WHY"


class Printer:
    """Prints questions, and how it ends."""

    def __init__(self, asking: Asking, to: TextIO) -> None:
        self.asking = asking
        self.to = to
        self.asked = 0
        # the calls that `c` has shown of this question
        self.calls: list[CallOfWay] = []

    def say(self, text: str = "") -> None:
        print(text, file=self.to)

    # A question

    def question(self) -> None:
        """The line, the hang that it is needed for, and its places in the source."""
        asking = self.asking
        number = asking.number
        assert number and asking.asked
        self.asked += 1
        self.calls = []
        words = " ".join(asking.text.words(number))
        self.say()
        self.say(f"Question {self.asked}: is this so?  {words}")
        self.say(says.wrapped(f"{asking.path}:{number}: {asking.text.lines[number - 1].strip()}", "  ", "    "))
        self.hang_text(asking.asked)
        sites = asking.sites()
        for site in sites[:MOST_SITES]:
            self.site(site)
        if len(sites) > MOST_SITES:
            self.say(f"  and {says.counted(len(sites) - MOST_SITES, 'site')} more: {', '.join(site.place for site in sites[MOST_SITES:])}")
        if not sites:
            self.say("  It cites no place that may wait in the files.")
        self.choices(len(sites))

    def hang_text(self, hang: Hang) -> None:
        """Who is held up, if items are NAMEd, and the waits of the run."""
        unsure = len(hang.unsure)
        these = "this line" if unsure == 1 else f"this and {unsure - 1} more"
        held = hang.held_up(self.asking.needed)
        self.say(f"  {held} can be held up with {these}:" if held else f"  With {these} it can hang:")
        self.where_held(hang, "    ")
        for waiting in hang.waiting():
            word = "flushwq?" if waiting.is_whole else "flush?"
            is_unsure = [word, waiting.item, waiting.target] in hang.unsure
            self.say(f"    {waiting}{'  (not sure)' if is_unsure else ''}")

    def where_held(self, hang: Hang, indent: str) -> None:
        """Of a NAMEd item that is held up and doesn't wait itself: what it is behind, or that it has no rescuer."""
        held, waiting = hang.held_up(self.asking.needed), hang.waiting()
        if held and not waiting:
            self.say(f"{indent}{held} is on a workqueue without a rescuer: nothing guarantees that it runs")
        elif held and held not in [one.item for one in waiting]:
            self.say(f"{indent}{held}, on workqueue {waiting[0].queue}, is behind {waiting[0].item}")

    def choices(self, sites: int) -> None:
        """What may be answered. The wider ones are told if they decide more."""
        asking = self.asking
        _, item, target = asking.text.words(asking.number or 0)[:3]
        there = "there" if sites == 1 else "at any of these places"
        own, all_there = len(asking.unsure_there(item)), len(asking.unsure_there())
        self.say()
        self.say("  y       it is so: the `?` goes")
        self.say(f"  n WHY   it isn't so{f': not for {target}' if own > 1 else ''}")
        if own > 1 and not asking.sure_there(item):
            self.say(f"  ni WHY  {item} doesn't wait {there}: decides {says.counted(own - 1, 'unsure line')} more")
        if all_there > own and not asking.sure_there():
            self.say(f"  na WHY  no item waits {there}: decides {says.counted(all_there - 1, 'unsure line')} more")
        if asking.calls(MOST_SITES):
            self.say("  c       a call of the way never leads there: shows these calls by number")
        if len(asking.targets_there()) > 1:
            self.say("  o TARGET..: WHY  whoever waits there, only these may end it: the unsure lines for others go")
        self.say("  s       later          q       no more questions")

    def show_calls(self) -> None:
        """The calls that lead to the sites that are shown, by number."""
        self.calls = self.asking.calls(MOST_SITES)
        if not self.calls:
            return
        for number, call in enumerate(self.calls, 1):
            place = call.edge.place
            self.say(f"  {number:3}  {self.place(place)}: {self.source_line(place.file, place.line)}")
            self.say(f"       leads to {call.function}")
        self.say()
        self.say("  c N WHY   call N isn't made here: nobody waits for what only it leads to")
        self.say("  cf N WHY  the function that it leads to waits for nothing, whoever calls it")

    def site(self, site: Site) -> None:
        read = self.asking.read
        assert read
        item = self.asking.text.words(self.asking.number or 0)[1]
        self.say()
        self.say(f"  {site}")
        way = read.way(item, site)
        if way is None:
            self.say(f"    (as far as the files say it, {item} doesn't come there)")
        elif way:
            self.say(f"    the way there, from {item}:")
            for edge in way:
                self.edge(edge)
        self.say("    the wait:")
        self.source(site)
        self.ends(site)

    def edge(self, edge: Edge) -> None:
        how = "" if edge.how == DIRECT else f"  (by {edge.how})"
        self.say(f"      {self.place(edge.place)}: {self.source_line(edge.place.file, edge.place.line)}{how}")

    def place(self, place: Place) -> str:
        assert self.asking.read
        return str(place._replace(file=self.asking.read.draft.short(place.file)))

    def source_line(self, file: str, line: int) -> str:
        assert self.asking.program
        lines = self.asking.program.facts.lines[file]
        return lines[line - 1].strip() if line <= len(lines) else ""

    def source(self, site: Site) -> None:
        """The lines around those of the site; `>` marks these."""
        assert self.asking.program
        lines = self.asking.program.facts.lines[site.key.file]
        last = 0
        for line in site.lines[:MOST_SITES]:
            first = max(1, line - AROUND, last + 1)
            if last and first > last + 1:
                self.say("      ..")
            for at in range(first, min(len(lines), line + AROUND) + 1):
                mark = ">" if at in site.lines else " "
                self.say(f"    {mark} {at:5} {lines[at - 1].expandtabs(4)}".rstrip())
                last = at

    def ends(self, site: Site) -> None:
        """What may end the wait: the target of the question first, with the calls that lead there."""
        read, program = self.asking.read, self.asking.program
        assert read and program
        target = self.asking.text.words(self.asking.number or 0)[2]
        if site.workqueues:
            self.say(f"    it flushes {', '.join(map(program.workqueues.name, sorted(site.workqueues)))}")
        elif site.targets:
            names = ", ".join(sorted(program.item(function).name for function in site.targets))
            self.say(f"    it waits for {names}")
            return
        mine = set(read.cited.items.get(target, ()))
        ends = program.ends(site)
        found = sorted(ends.items, key=lambda function: (function not in mine, ends.items[function].order))
        if found or ends.others:
            self.say("    what may end it:")
        for function in found[:MOST_ENDS]:
            self.ended(program.item(function).name, ends.items[function], function in mine)
        if len(found) > MOST_ENDS:
            self.say(says.wrapped(f"and {', '.join(program.item(function).name for function in found[MOST_ENDS:])}", "      ", "        "))
        if ends.others:
            self.say(says.wrapped(f"code that no item reaches, from {', '.join(sorted(ends.others)[:8])}", "      ", "        "))

    def ended(self, name: str, ended: Ended, with_way: bool) -> None:
        place = ended.waker.place
        self.say(f"      {name}, at {self.place(place)}: {self.source_line(place.file, place.line)}")
        for edge in ended.path if with_way else ():
            self.say("    " + f"      from {self.place(edge.place)}{'' if edge.how == DIRECT else f' by {edge.how}'}")

    # The end

    def end(self) -> None:
        """How it ends: safe, or hangs for sure with the run, or what it still depends on. And for whom, if items are
        NAMEd."""
        asking = self.asking
        left = len(asking.text.unsure())
        self.say()
        if asking.hang is None:
            others = f" whatever the {says.counted(left, 'unsure line')} left {'turns' if left == 1 else 'turn'} out to be"
            nothing = f": nothing holds up {', '.join(asking.needed)}" if asking.needed else ""
            self.say(f"safe{others if left else ''}{nothing}")
            for note in asking.notes():
                self.say(note)
        elif not asking.hang.unsure:
            others = f", whatever the {says.counted(left, 'unsure line')} left {'turns' if left == 1 else 'turn'} out to be"
            held = asking.hang.held_up(asking.needed)
            self.say(f"hangs for sure{others if left else ''}{f'. {held} is held up' if held else ''}:")
            self.where_held(asking.hang, "  ")
            for waiting in asking.hang.waiting():
                self.say(f"  {waiting}")
            self.say(f"run {len(asking.hang.run)}")
            for step in asking.hang.run:
                self.say(step)
        else:
            self.say(f"It depends still: {says.counted(left, 'line')} {'is' if left == 1 else 'are'} unsure. Ask again to go on.")


def answered(printer: Printer, answer: str) -> Optional[str]:
    """Does what an answer says. What is wrong with it, if something is."""
    asking = printer.asking
    word, _, why = answer.strip().partition(" ")
    why = re.sub(r"\s+", " ", why).strip()
    if word in (SURE, LATER) and not why:
        asking.decide_sure() if word == SURE else asking.put_later()
    elif word == NOT_SO and why:
        asking.deny(why)
    elif word in (NOT_THERE, NOWHERE) and why:
        sure = asking.sure_there(asking.item() if word == NOT_THERE else "")
        if sure:
            return f"line {sure[0]} says for sure that an item waits there: take that away first"
        if not asking.sites():
            return NO_PLACE
        asking.deny_item(why) if word == NOT_THERE else asking.deny_all(why)
    elif word == ONLY:
        return only(printer, why)
    elif word in (CUT, CUT_FUNCTION):
        return cut(printer, word, why)
    elif word in (NOT_SO, NOT_THERE, NOWHERE):
        return f"say why, in a few words: {word} WHY"
    else:
        return NO_ANSWER
    return None


def only(printer: Printer, rest: str) -> Optional[str]:
    """Keeps some targets of the unsure lines. What is wrong with the answer, if something is."""
    asking = printer.asking
    before, _, why = rest.partition(":")
    names, why, known = before.split(), why.strip(), asking.targets_there()
    if not names or not why:
        return f"say which ones, and why: {ONLY} TARGET..: WHY, of {' '.join(known)}" if known else NO_PLACE
    unknown = [name for name in names if name not in known]
    if unknown:
        return f"no unsure line there is for {unknown[0]}: they are for {' '.join(known)}"
    sure = [number for number in asking.sure_there() if set(asking.text.words(number)[2:]) - set(names)]
    if sure:
        return f"line {sure[0]} says for sure that an item waits there for another one: take that away first"
    gone = asking.keep_targets(names, why)
    printer.say(f"{says.counted(gone, 'unsure line')} {'was' if gone == 1 else 'were'} for others, and {'is' if gone == 1 else 'are'} gone")
    return None


def cut(printer: Printer, word: str, rest: str) -> Optional[str]:
    """Shows the calls of the way, or cuts one of them. What is wrong with the answer, if something is."""
    asking = printer.asking
    number, _, why = rest.partition(" ")
    if not printer.calls or not number:
        printer.show_calls()
        return f"take one: {CUT} N WHY" if printer.calls else "no call leads there: n WHY"
    if not number.isdecimal() or not 1 <= int(number) <= len(printer.calls):
        return f"a number of 1 to {len(printer.calls)}, and why: {word} N WHY"
    call = printer.calls[int(number) - 1]
    if word == CUT and not call.is_named():
        return f"this call has no name by which a line could keep it: {CUT_FUNCTION} {number} WHY"
    comment = call.comment(word == CUT_FUNCTION, why or "why")
    sure = asking.sure_by(comment)
    if sure:
        return f"line {sure[0]} says for sure that an item waits behind it: take that away first"
    if not why:
        lines = says.counted(len(asking.gone_by(comment)), "unsure line")
        return f"decides {lines}: say why, in a few words: {word} {number} WHY"
    gone = asking.cut(comment)
    lines = f"{says.counted(gone, 'unsure line')} led only through it, and {'is' if gone == 1 else 'are'} gone"
    printer.say(lines if gone else "no unsure line led only through it: there is another way")
    return None


def talk(asking: Asking, answers: Optional[TextIO], to: TextIO) -> None:
    """Asks as long as something depends. Without answers it prints the next question."""
    printer = Printer(asking, to)
    while asking.number:
        printer.question()
        if answers is None:
            break
        if not take(printer, answers):
            break
    printer.end()
    to.flush()


def take(printer: Printer, answers: TextIO) -> bool:
    """Takes an answer to the question. Whether one more may be asked."""
    while True:
        printer.to.write("> ")
        printer.to.flush()
        line = answers.readline()
        if not line or line.strip() == QUIT:
            return False
        wrong = taken(printer, line)
        if wrong is None:
            return True
        printer.say(wrong)


def taken(printer: Printer, line: str) -> Optional[str]:
    """As `answered`, of a declaration that others may change at the same time."""
    while True:
        try:
            return answered(printer, line)
        except Changed:
            if not printer.asking.find_again():
                said = "The declaration was changed meanwhile, and the line isn't there"
                printer.say(f"{said}: {line.strip()!r} wasn't taken.")
                return None


def terminal() -> Optional[TextIO]:
    """Where answers come from, if that is a terminal."""
    return sys.stdin if sys.stdin is not None and sys.stdin.isatty() else None
