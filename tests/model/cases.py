"""The cases of each command, and the kinds of its answers.

A command has cases at the limits of docs/FORMAT.md and at each place of small texts, and random ones, of which the same seed makes the
same. Of two random ones the second has unsure lines, mostly (make_unsure.py).
"""

import random
import re

import make_around
import make_assignments
import make_certificates
import make_circles
import make_declarations
import make_hangs
import make_repairs
import make_unsure
from commands import TEXTS_OF
from declaration import is_name
from models import ANSWERS
from records import records


def refused_by(table):
    """The numbers of the refusals in this table of docs/FORMAT.md."""
    return sorted(int(row["number"]) for row in records("numbers.txt") if row.get("table") == table)


OF_DECLARATIONS = refused_by("Refusals")
DECLARATION_REFUSALS = [
    (f"refusals {code}", 2, rf"refused {code} line N\n") for code in OF_DECLARATIONS
]
CERTIFICATE_REFUSALS = [("refusals of the declaration", 2, rf"refused ({'|'.join(map(str, OF_DECLARATIONS))}) line N\n")] + [
    (f"refusals {code}", 2, rf"refused {code} line N\n") for code in refused_by("Refusals of certificates")
]
DRAWING = (
    r'digraph wqplan \{\n  graph \[label="(TITLE)", labelloc=t, labeljust=l, rankdir=LR,'
    r' nodesep=0\.15, ranksep=1, fontname="sans-serif"\];\n  node \[shape=box, style=filled,'
    r' fillcolor=white, height=0\.3, fontname="sans-serif", fontsize=12\];\n  edge \[arrowsize=0\.7\];\n'
    r'(  subgraph "cluster wq N" \{\n'
    r'    graph \[label="", (style=filled, color=gray92\]; "wq N" \[(label="NAMED", )?'
    r'|style="filled,dashed", fillcolor=gray92, color=black\]; "wq N" \[label="(NAMED|wq N) \(no rescuer\)", )'
    r'shape=plaintext, style="", fontsize=14\];\n(    "Z";\n|    subgraph "cluster ordered Z" \{\n'
    r'      graph \[label="", style=dashed, color=black\]; "ordered Z" \[label="ordered", shape=plaintext, style=""\];\n'
    r'(      "Z";\n)+    \}\n)*  \}\n)*'
    r'(  "Z" -> "Z"( \[(LOOK|style=dotted)\])?( \[(arrowhead=odiamond|dir=back(, arrowtail=odiamond)?)\])?'
    r'( \[edgetooltip="NAMED"\])?;\n)*\}\n'
)
NOT_SURE, DOTTED = r"(, N not sure)?", r"(\\lDotted: not sure\.)?"
PLANNED = (rf"plan of (1 workqueue|N workqueues)(, (1 wait|N waits) in bold)?{NOT_SURE}"
           rf"(\\lBold: the chain that needs so many workqueues\.)?{DOTTED}(\\l)?")
DASHED = r"\\lDashed: no rescuer\. While memory is short, nothing\\lguarantees that work there runs\."
HANGING = (rf"(every assignment )?can hang, (1 wait|N waits) in redLEADINGBOLD{NOT_SURE}"
           r"\\lRed: while memory is short, a worker may wait for work"
           rf"\\lthat WORK\.LEGEND({DASHED})?{DOTTED}\\l")
ON_CIRCLES = r"only it, or one that waits for it, can do"
ON_NONE = r"no rescuer does"
LEADING = r", N to no rescuer"
BOLD = r", N in bold"
LEGEND = r"\\lBold: enough to hang it, in the fewest steps\."
ESCAPE = r"([ !#-%\'-\[\]-~]|\\\"|\\\\|&amp;)"
NO_LOOK = "(?!)"
CALLED = "(  # [ -~]{1,63})?"


def drawing(title, look):
    """The form of a drawing with this title, and with arrows that look so or as most do."""
    return DRAWING.replace("TITLE", title).replace("LOOK", look).replace("NAMED", ESCAPE + "+")


def hanging(leading, work):
    """The form of a drawing with red arrows, all of which are bold: how many lead to no rescuer, and what no one does."""
    title = HANGING.replace("LEADING", leading).replace("WORK", work).replace("BOLD", "").replace("LEGEND", "")
    return drawing(title, "color=red, penwidth=4(, style=dotted)?")


def hanging_in_part(leading, work):
    """The same where only some of them are bold."""
    title = HANGING.replace("LEADING", leading).replace("WORK", work).replace("BOLD", BOLD).replace("LEGEND", LEGEND)
    return drawing(title, 'color=red, (style=bold|style="bold,dotted"|penwidth=4(, style=dotted)?)')


# Of a command, where `like_others` isn't enough: the cases at the limits, the random ones by a seed and their number, and the kinds
# of answer, each with its exit status and its form. In a form N is a number, Z one or more names, A is an `arc` line, U a line of an
# unsure part, and S is a step of a run that is printed, and Y one of those that `hang` prints.
NO_ITEM = ("names of no item", 2, r"refused 8 line 0\n")
COMMANDS = {
    "plan": (
        lambda: [(what, [text]) for what, text in make_declarations.limit_cases()],
        lambda seed, number: [make_declarations.random_case(seed, number)],
        [("plans", 0, r"plan N\n(wq N Z\n)*chain N\nA*"),
         ("plans around", 0, r"plan N\n(wq N Z\n)*order( N)*\nchain N\nA*"),
         ("circles", 1, r"circle N\nA+run N\nS+"), ("no rescuer", 1, r"norescuer 1\narc Z\nrun N\nS+")]
        + DECLARATION_REFUSALS + CERTIFICATE_REFUSALS[1:],
    ),
    "check": (
        make_certificates.limit_check_cases,
        make_certificates.random_check_case,
        [("yes", 0, r"yes N\n"), ("yes circle", 0, r"yes circle N\n"), ("no 50", 1, r"no 50 Z\n"),
         ("no 51", 1, r"no 51 N\n"), ("no 52", 1, r"no 52\n"), ("no 53", 1, r"no 53 N\n"),
         ("no 54", 1, r"no 54\n"), ("yes norescuer", 0, r"yes norescuer\n"), ("no 55", 1, r"no 55\n")]
        + CERTIFICATE_REFUSALS,
    ),
    "replay": (
        make_certificates.limit_replay_cases,
        make_certificates.random_replay_case,
        [("open", 0, r"open\n"), ("stuck", 1, r"stuck\n"), ("deadlock", 1, r"deadlock\n"),
         ("not lawful", 1, r"not lawful N\n"), NO_ITEM]
        + CERTIFICATE_REFUSALS,
    ),
    "deadlock": (
        make_assignments.limit_deadlock_cases,
        make_assignments.random_deadlock_case,
        [("safe", 0, r"safe\n"), ("runs", 1, r"run N\nS+")]
        + [(f"unsure {count}", 1, rf"unsure ({count})\nU*run N\nS+") for count in ("0", "1", "[2-9]|[1-9][0-9]+")] + CERTIFICATE_REFUSALS,
    ),
    "hang": (
        make_hangs.limit_hang_cases,
        make_hangs.random_hang_case,
        [("safe", 0, r"safe\n"), NO_ITEM] + [(f"runs of {steps}", 1, rf"run {steps}\nY+") for steps in (1, 3, 4, 5, 6)]
        + [("longer runs", 1, r"run N\nY+")]
        + [(f"unsure {count}", 1, rf"unsure ({count})\nU*run N\nY+") for count in ("0", "1", "[2-9]|[1-9][0-9]+")] + CERTIFICATE_REFUSALS,
    ),
    "repair": (
        make_repairs.limit_repair_cases,
        make_repairs.random_repair_case,
        [("all with a rescuer", 0, rf"(wq N( Z)?{CALLED}\n)*"), ("some without", 0, rf"((wq|norescuer) N( Z)?{CALLED}\n)+"),
         ("circles", 1, r"circle N\nA+run N\nS+"), ("runs", 1, r"run N\nS+"), NO_ITEM]
        + CERTIFICATE_REFUSALS,
    ),
    "circles": (
        make_circles.limit_circles_cases,
        make_circles.random_circles_case,
        [("safe", 0, r"safe\n"), ("one component", 1, r"components 1\ncomponent N\nA+"),
         ("components", 1, r"components N\n(component N\nA+)+"),
         ("no rescuer", 1, r"components 0\nnorescuer N\nA+"),
         ("components and no rescuer", 1, r"components N\n(component N\nA+)+norescuer N\nA+"),
         ("NAMEs without a rescuer", 1, r"components 0\n"), NO_ITEM,
         ("unsure arcs", 1, r"components N\n(component N\nO+)*(norescuer N\nO+)?"),
         ("ways", 1, r"components N\n(component N\nO+)*(norescuer N\nO+)?ways N\nO+")]
        + DECLARATION_REFUSALS + CERTIFICATE_REFUSALS[1:],
    ),
    "dot": (
        make_circles.limit_dot_cases,
        lambda seed, number: make_circles.random_circles_case(f"{seed} dot", number),
        [("plans", 0, drawing(PLANNED, 'style=bold|style="bold,dotted"')), ("safe", 0, drawing("safe", NO_LOOK)),
         ("safe, dashed", 0, drawing(rf"safe{NOT_SURE}{DASHED}{DOTTED}\\l", NO_LOOK)),
         ("unsure, safe", 0, drawing(rf"safe{NOT_SURE}{DOTTED}\\l", NO_LOOK)),
         ("components", 0, hanging("", ON_CIRCLES)), ("no rescuer", 0, hanging(LEADING, ON_NONE)),
         ("components, some bold", 0, hanging_in_part("", ON_CIRCLES)), ("no rescuer, some bold", 0, hanging_in_part(LEADING, ON_NONE)),
         ("components and no rescuer", 0, hanging_in_part(LEADING, rf"{ON_CIRCLES},\\lor that {ON_NONE}"))]
        + DECLARATION_REFUSALS + CERTIFICATE_REFUSALS[1:],
    ),
    "run": (
        lambda: [(what, [text]) for what, text in make_declarations.limit_run_cases()],
        lambda seed, number: [make_declarations.random_case(f"{seed} run", number)],
        [("plans that were run", 0,
          r"workqueues N\n(item Z wq N queued 1 cancelled 0 finished 1\n)*faults 0\n"),
         ("circles", 1, r"circle N\nA+run N\nS+"), ("refusals 69", 2, r"refused 69 line 0\n")]
        + DECLARATION_REFUSALS,
    ),
}


def like_others(command):
    """What stands for a command that isn't above: the cases of the first one that has the same texts, and, of each word of an answer
    that it prints (docs/tables/words.txt), a form with any words and lines behind it. None where no command has the same texts.
    """
    others = [other for other in COMMANDS if TEXTS_OF[other] == TEXTS_OF[command]]
    if not others:
        return None
    limit_cases, random_case, _ = COMMANDS[others[0]]
    words = [row for row in records("words.txt") if "status" in row and f"`{command}`" in row["by"]]
    kinds = [(row["word"], int(row["status"]), rf"{row['word']}( [^\n]+)?\n([^\n]+\n)*") for row in words]
    return limit_cases, random_case, kinds + (CERTIFICATE_REFUSALS if len(TEXTS_OF[command]) > 1 else DECLARATION_REFUSALS)


WITHOUT = [command for command in ANSWERS if command not in COMMANDS and not like_others(command)]
COMMANDS |= {command: like_others(command) for command in ANSWERS if command not in COMMANDS and command not in WITHOUT}


def form(pattern):
    pattern = pattern.replace("Y", r"(queue Z\n|(start|wait|waitwq) N Z\n)")
    pattern = pattern.replace("S", r"(queue Z\n|(start|wait|waitwq|over|overwq|finish) N Z\n)")
    pattern = pattern.replace("O", r"(arc\?? Z\n)").replace("U", r"(flush(wq)?\? Z\n)")
    pattern = pattern.replace("A", r"(arc Z\n)").replace("N", r"(0|[1-9][0-9]*)")
    return re.compile(pattern.replace("Z", r"[A-Za-z0-9_.-]+( [A-Za-z0-9_.-]+)*").encode())


KINDS = {
    command: [(kind, status, form(pattern)) for kind, status, pattern in kinds]
    for command, (*_, kinds) in COMMANDS.items()
}


def kind_of(command, answer):
    """The kind of the model's answer, or None where it has no form of the page."""
    printed, status = answer
    for kind, of_status, pattern in KINDS[command]:
        if status == of_status and pattern.fullmatch(printed):
            return kind
    return None


def cases(command, seed, count, most=None, sure=False, more=False):
    """The cases of a command: those at the limits, if their texts have fewer bytes than `most`, and so many random ones. None has an unsure
    line if `sure`; if `more`, every third has what may also stand there: NAMEs that must go on, or FIXED.
    """
    limit_cases, random_case, _ = COMMANDS[command]
    at_limits = [texts for _, texts in limit_cases()]
    if not sure and len(TEXTS_OF[command]) == 1:
        at_limits += [[text] for _, text in make_unsure.limit_unsure_cases()]
    yield from (texts for texts in at_limits if most is None or sum(map(len, texts)) < most)
    for number in range(count):
        texts = random_case(seed, number)
        texts = texts if sure or number % 2 == 0 else make_unsure.unsure_case(command, seed, number, texts)
        yield with_more(command, seed, number, texts, sure) if more and number % 3 == 0 else texts


def with_more(command, seed, number, texts, sure):
    """A case of the command with NAMEs or with FIXED, if it may have them."""
    if command in AROUND:
        return AROUND[command](seed, number, sure)
    return with_names(command, seed, number, texts) if command in MUST_GO_ON else texts


# The commands that may have FIXED, and a random case of each.
AROUND = {"plan": make_around.random_plan_case, "check": make_around.random_check_case}
# The commands whose NAMEs are items that must go on.
MUST_GO_ON = ("hang", "replay", "circles")


def with_names(command, seed, number, texts):
    """A case of such a command, with NAMEs behind its texts: mostly one or two."""
    choose = random.Random(f"{seed} names {command} {number}")
    if len(texts) < len(TEXTS_OF[command]):
        return texts
    words = texts[0].replace(b"#", b" ").split()
    names = list(dict.fromkeys(name for word, name in zip(words, words[1:]) if word == b"item" and is_name(name)))
    if not names or choose.random() < 0.03:
        return [*texts, choose.choice(make_repairs.UNKNOWN)]
    return [*texts, *choose.choices(names, k=choose.choice([1, 1, 1, 2, 2, 3, len(names)]))]
