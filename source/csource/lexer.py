"""A C file as tokens: without comments and directives, each with its line, each bracket with the one that closes it."""

import itertools
import re
from dataclasses import dataclass, field

from .ctext import Tokens

# (each is written so that most letters are passed by in runs: a driver has some MB of headers)
COMMENT = re.compile(
    r'/\*[^*]*\*+(?:[^/*][^*]*\*+)*/|//[^\n\\]*(?:\\.[^\n\\]*)*'
    r'|("[^"\\\n]*(?:\\.[^"\\\n]*)*"|\'[^\'\\\n]*(?:\\.[^\'\\\n]*)*\')',
    re.S,
)
# (with the end of the line before it)
DIRECTIVE = re.compile(r"\n[ \t]*#[ \t]*(\w*)([^\n]*(?:(?<=\\)\n[^\n]*)*)")
# (a string may go on in the next line, behind a backslash; so may what is no string)
STRING, ENDS, OTHERS = (
    r'"(?:\\.|\\\n|[^"\\\n])*"|',
    r"\\\n|\n|",
    r"'(?:\\.|[^'\\\n])*'|->|\.\.\.|<<=|>>=|[-+*/%&|^!=<>]=|&&|\|\||<<|>>|\+\+|--|[A-Za-z_]\w*|\d[\w.]*|[^\s]",
)
TOKEN = re.compile(STRING + ENDS + OTHERS)
# The same without the ends of lines.
WORD = re.compile(STRING + OTHERS)
LINE_ENDS = ("\n", "\\\n")
LINE_END = re.compile(r"\\?\n")
CLOSES = {"(": ")", "[": "]", "{": "}"}
OPENS = {")": "(", "]": "[", "}": "{"}
BRACKETS = frozenset([*CLOSES, *OPENS])
# The body of a function, as nearly all stand: between braces that begin a line.
BODY = re.compile(r"\)[ \t]*\n\{\n(?:(?!\})[^\n]*\n)*\}(?=\n)")
# So far behind the last token somebody may ask what is behind.
SPARE = 4
ALWAYS_FALSE = ("0",)
CONDITIONALS = frozenset("if ifdef ifndef elif else elifdef elifndef endif".split())


def without_comments(text: str) -> str:
    """Each comment becomes a blank; lines stay where they are, and a backslash at the end of one: a macro may go on."""
    return COMMENT.sub(blank_for, text)


def blank_for(match: re.Match[str]) -> str:
    """What stands in place of a comment. A string stays."""
    comment = match[0]
    if comment[0] != "/":
        return comment
    return "".join(LINE_END.findall(comment)) if "\\\n" in comment else "\n" * comment.count("\n") or " "


@dataclass
class Branch:
    """An `#if` that is open: where its present branch begins, and what of it is kept."""

    start: int
    is_kept: bool
    was_kept: bool
    is_only_first: bool = False


def without_bodies(text: str) -> str:
    """Functions of which nobody looks at the body: it goes, where its braces fit."""
    return BODY.sub(lambda match: ") { }" if match[0].count("{") == match[0].count("}") else match[0], text)


def is_balanced(text: str) -> bool:
    return all(text.count(opens) == text.count(closes) for opens, closes in CLOSES.items())


def without_directives(text: str) -> str:
    """Directives become blank lines. All branches of an `#if` are kept that are balanced in their brackets, as they
    are to Coccinelle; after one that isn't, none. `#if 0` isn't kept."""
    kept: list[str] = []
    open_ifs: list[Branch] = []
    at, is_kept = 0, True
    text = f"\n{text}"
    for match in DIRECTIVE.finditer(text):
        piece = text[at : match.start()]
        kept.append(piece if is_kept else "\n" * piece.count("\n"))
        kept.append("\n" * match[0].count("\n"))
        at = match.end()
        word = match[1]
        if word not in CONDITIONALS:
            continue
        if word in ("if", "ifdef", "ifndef"):
            holds = not (word == "if" and match[2].strip() in ALWAYS_FALSE)
            open_ifs.append(Branch(at, holds, holds))
        elif word in ("elif", "else", "elifdef", "elifndef") and open_ifs:
            branch = open_ifs[-1]
            branch.is_only_first |= branch.is_kept and not is_balanced(text[branch.start : match.start()])
            branch.is_kept = not (branch.was_kept and branch.is_only_first)
            branch.was_kept |= branch.is_kept
            branch.start = at
        elif word == "endif" and open_ifs:
            open_ifs.pop()
        is_kept = all(branch.is_kept for branch in open_ifs)
    kept.append(text[at:])
    return "".join(kept)[1:]


@dataclass
class Source:
    """The tokens of a file. `closed_by` has for each bracket that opens the index of the one that closes it."""

    words: Tokens = field(default_factory=list)
    lines: list[int] = field(default_factory=list)
    closed_by: dict[int, int] = field(default_factory=dict)
    opened_by: dict[int, int] = field(default_factory=dict)
    # the index behind each token, or behind all of what a bracket holds
    behind: list[int] = field(default_factory=list)
    # lines with a bracket that closes nothing, or that isn't closed
    odd: list[int] = field(default_factory=list)

    @staticmethod
    def of(text: str, has_lines: bool = True) -> "Source":
        """Without lines each is in line 0, and bodies of functions are empty, which takes half of the time."""
        found = Source()
        code = without_directives(without_comments(text))
        if not has_lines:
            found.words = WORD.findall(without_bodies(code.replace("\\\n", " ")))
            found.lines = [0] * len(found.words)
            found.close_brackets()
            return found
        words = TOKEN.findall(code)
        ends = [word.count("\n") if "\n" in word else 0 for word in words]
        lines = itertools.accumulate(ends, initial=1)
        are_words = [word not in LINE_ENDS for word in words]
        found.words = list(itertools.compress(words, are_words))
        found.lines = list(itertools.compress(lines, are_words))
        found.close_brackets()
        return found

    def close_brackets(self) -> None:
        """Where each bracket closes. A brace closes what stands open within its own."""
        self.behind = list(range(1, len(self.words) + 1 + SPARE))
        waiting: list[int] = []
        for index in [index for index, word in enumerate(self.words) if word in BRACKETS]:
            word = self.words[index]
            if word in CLOSES:
                waiting.append(index)
                continue
            if word == "}":
                while waiting and self.words[waiting[-1]] != "{":
                    self.close(waiting.pop(), index, is_odd=True)
            if waiting and self.words[waiting[-1]] == OPENS[word]:
                self.close(waiting.pop(), index, is_odd=False)
            else:
                self.odd.append(self.lines[index])
        for index in waiting:
            self.close(index, len(self.words) - 1, is_odd=True)

    def close(self, opens: int, closes: int, is_odd: bool) -> None:
        self.closed_by[opens] = closes
        self.behind[opens] = closes + 1
        if is_odd:
            self.odd.append(self.lines[opens])
        else:
            self.opened_by[closes] = opens

    def after(self, index: int) -> int:
        """The index behind a token, or behind all of what a bracket holds."""
        return self.behind[index]

    def parts(self, start: int, end: int) -> "list[tuple[int, int]]":
        """The ranges between commas outside brackets."""
        found, first, index = [], start, start
        words, behind = self.words, self.behind
        while index < end:
            if words[index] == ",":
                found.append((first, index))
                first = index + 1
            index = behind[index]
        return found + [(first, end)] if first < end else found
