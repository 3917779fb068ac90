# The command `dot`: declarations, assignments where one is named, and the drawing.
#
# The rules are those of "The command `dot`" in docs/FORMAT.md, from which each answer was worked out by
# hand. The worked rows of that page are among them, two of them as they stand there.

ITEMS = "item a / item b / item c / item d"
CHAIN = "item a / item b / item c / flush a b / flush b c"
LOOP = "item a / flush a a"
GROUPED = ITEMS + " / ordered a d / ordered b c / flush a b / flush c d"
TWO_CIRCLES = ITEMS + " / flush d c / flush a b / flush c d / flush b a / flush b c"

# The lines of the page.
HEAD = """\
digraph wqplan {
  graph [label="%s", labelloc=t, labeljust=l, rankdir=LR, nodesep=0.15, ranksep=1, fontname="sans-serif"];
  node [shape=box, style=filled, fillcolor=white, height=0.3, fontname="sans-serif", fontsize=12];
  edge [arrowsize=0.7];
"""
BOX = """\
  subgraph "cluster wq %d" {
    graph [label="", %s]; "wq %d" [%sshape=plaintext, style="", fontsize=14];
"""
FRAME = "style=filled, color=gray92"
DASHED_FRAME = 'style="filled,dashed", fillcolor=gray92, color=black'
ORDERED = """\
    subgraph "cluster ordered %s" {
      graph [label="", style=dashed, color=black]; "ordered %s" [label="ordered", shape=plaintext, style=""];
"""
ONE_BOLD = r"1 wait in bold\lBold: the chain that needs so many workqueues.\l"
BOLD = r"%d waits in bold\lBold: the chain that needs so many workqueues.\l"
RED_LEGEND = (r"\lRed: while memory is short, a worker may wait for work\l"
              r"that only it, or one that waits for it, can do.\l")
ONE_RED = "1 wait in red" + RED_LEGEND
RED = "%d waits in red" + RED_LEGEND
# The same where only some of the red ones are bold.
BOLD_LEGEND = r"\lBold: enough to hang it, in the fewest steps.\l"
SOME_BOLD = "%d waits in red, %d in bold" + RED_LEGEND.removesuffix(r"\l") + BOLD_LEGEND
HANGS = "can hang, " + RED
HANGS_SO = "can hang, " + SOME_BOLD
DASHED_LEGEND = r"\lDashed: no rescuer. While memory is short, nothing\lguarantees that work there runs.\l"
ONE_LEADS = r"can hang, 1 wait in red, 1 to no rescuer\lRed: while memory is short, a worker may wait for work\lthat no rescuer does."
SOME_LEAD = (r"can hang, %d waits in red, %d to no rescuer, %d in bold\lRed: while memory is short, a worker may wait for work\l"
             r"that only it, or one that waits for it, can do,\lor that no rescuer does.") + BOLD_LEGEND.removesuffix(r"\l")
EVERY_HANGS = "every assignment can hang, " + RED
EVERY_HANGS_SO = "every assignment can hang, " + SOME_BOLD
# How red arrows look, and those of a shortest hang.
THIN = "[color=red, style=bold]"
THICK = "[color=red, penwidth=4]"


def group(names):
    """A group: the names of its items, with a space between them."""
    first, *others = names.split()
    if not others:
        return f'    "{first}";\n'
    return ORDERED % (first, first) + "".join(f'      "{name}";\n' for name in names.split()) + "    }\n"


def drawing(title, boxes, arrows, labels=()):
    """A drawing with these groups in each box, and these arrows: two names, and the look behind them. Each label that isn't only
    the number stands at its place; one of a workqueue without a rescuer says so."""
    text = HEAD % title
    for number, groups in enumerate(boxes):
        label = labels[number] if number < len(labels) else ""
        frame = DASHED_FRAME if label.endswith(" (no rescuer)") else FRAME
        text += BOX % (number, frame, number, f'label="{label}", ' if label else "") + "".join(map(group, groups)) + "  }\n"
    for arrow in arrows:
        item, target, *look = arrow.split(" ", 2)
        text += f'  "{item}" -> "{target}"' + "".join(f" {mark}" for mark in look) + ";\n"
    return (text + "}\n").encode()


OF_PLAN = rb"""digraph wqplan {
  graph [label="plan of 2 workqueues, 1 wait in bold\lBold: the chain that needs so many workqueues.\l", labelloc=t, labeljust=l, rankdir=LR, nodesep=0.15, ranksep=1, fontname="sans-serif"];
  node [shape=box, style=filled, fillcolor=white, height=0.3, fontname="sans-serif", fontsize=12];
  edge [arrowsize=0.7];
  subgraph "cluster wq 0" {
    graph [label="", style=filled, color=gray92]; "wq 0" [shape=plaintext, style="", fontsize=14];
    "a";
  }
  subgraph "cluster wq 1" {
    graph [label="", style=filled, color=gray92]; "wq 1" [shape=plaintext, style="", fontsize=14];
    subgraph "cluster ordered b" {
      graph [label="", style=dashed, color=black]; "ordered b" [label="ordered", shape=plaintext, style=""];
      "b";
      "d";
    }
    "c";
  }
  "c" -> "a";
  "d" -> "a" [style=bold];
  "d" -> "a";
}
"""
OF_CIRCLE = rb"""digraph wqplan {
  graph [label="can hang, 2 waits in red\lRed: while memory is short, a worker may wait for work\lthat only it, or one that waits for it, can do.\l", labelloc=t, labeljust=l, rankdir=LR, nodesep=0.15, ranksep=1, fontname="sans-serif"];
  node [shape=box, style=filled, fillcolor=white, height=0.3, fontname="sans-serif", fontsize=12];
  edge [arrowsize=0.7];
  subgraph "cluster wq 0" {
    graph [label="", style=filled, color=gray92]; "wq 0" [shape=plaintext, style="", fontsize=14];
  }
  subgraph "cluster wq 1" {
    graph [label="", style=filled, color=gray92]; "wq 1" [shape=plaintext, style="", fontsize=14];
    "a";
    "c";
  }
  subgraph "cluster wq 2" {
    graph [label="", style=filled, color=gray92]; "wq 2" [shape=plaintext, style="", fontsize=14];
    "b";
  }
  "a" -> "b" [color=red, penwidth=4];
  "b" -> "c" [color=red, penwidth=4];
}
"""

EMPTY = drawing("plan of 0 workqueues", [], [])
LOOPED = drawing("every assignment can hang, " + ONE_RED, [["a"]], [f"a a {THICK}"])
PLANNED = drawing("plan of 3 workqueues, " + BOLD % 2, [["c"], ["b"], ["a"]], ["a b [style=bold]", "b c [style=bold]"])
SAFE = drawing("safe", [["c"], ["b"], ["a"]], ["a b", "b c"])
CROSSED = drawing(EVERY_HANGS % 2, [["a d"], ["b c"]], [f"a b {THICK}", f"c d {THICK}"])
TWO_BOXES = [["a"], ["b"], ["c"], ["d"]]


def two_arrows(*thick, last=""):
    """The arrows of TWO_CIRCLES, of which those at these places are thick. Of two that go both ways, one is drawn from its target."""
    looks = [THICK if place in thick else THIN for place in range(4)]
    return [f"c d {looks[0]} [dir=back]", f"a b {looks[1]}", f"c d {looks[2]}", f"a b {looks[3]} [dir=back]", "b c" + last]


def one_thick(count, arrows):
    """The arrows, of which one alone is thick, for each in turn: `arrows` makes them of the looks of so many."""
    return [arrows([THICK if place == thick else THIN for place in range(count)]) for thick in range(count)]


# 300 items, each of which flushes the next one: more workqueues than a runtime has. If the last one is with the first, they wait in a
# circle.
ROW = " / ".join(
    ["item i%d" % number for number in range(300)]
    + ["flush i%d i%d" % (number, number + 1) for number in range(299)]
)
ROW_ARROWS = ["i%d i%d" % (number, number + 1) for number in range(299)]
ROW_PLANNED = drawing(
    "plan of 300 workqueues, " + BOLD % 299, [["i%d" % (299 - number)] for number in range(300)],
    [f"{arrow} [style=bold]" for arrow in ROW_ARROWS],
)
LAST_WITH_FIRST = " / ".join(["wq 0 i0 i299"] + ["wq %d i%d" % (number, number) for number in range(1, 299)])
ROW_IN_CIRCLE = drawing(
    HANGS % 299, [["i0", "i299"]] + [["i%d" % number] for number in range(1, 299)], [f"{arrow} {THICK}" for arrow in ROW_ARROWS],
)

LONG = "n" * 63

# A declaration, and the drawing.
OWN = [
    ("", EMPTY),
    ("# nothing", EMPTY),
    ("item 7", drawing("plan of 1 workqueue", [["7"]], [])),
    (ITEMS + " / ordered d b / flush c a / flush d a a", OF_PLAN),
    (LOOP, LOOPED),
    (CHAIN, PLANNED),
    (GROUPED, CROSSED),
    (ROW, ROW_PLANNED),
    # Of two circles the one is thick in which less has to be queued, and of this the arrow, too, that is drawn from its target.
    ("item a / item b / item c / item d / item e / ordered b e / flush d c / flush a e / flush c d / flush b a / flush b c", drawing(
        EVERY_HANGS_SO % (4, 2), [["a"], ["b e"], ["c"], ["d"]],
        [f"c d {THICK} [dir=back]", f"a e {THIN}", f"c d {THICK}", f"b a {THIN}", "b c"])),
    # A `flushwq` needs nothing queued beside who waits.
    ("item a / item b / item c / ordered a c / flush a c / flushwq c a", drawing(
        EVERY_HANGS_SO % (2, 1), [["a c"]] + [["b"]], [f"a c {THIN}", f"a c {THICK} [dir=back, arrowtail=odiamond]"])),
    # A circle of two takes fewer steps than one of three, though others of the groups have to be queued for it.
    ("item a / item b / item c / item d / item e / ordered a d / ordered b e / flush a e / flush b d / flush a c / flush c b", drawing(
        EVERY_HANGS_SO % (4, 2), [["a d"], ["b e"], ["c"]], [f"a e {THICK}", f"b d {THICK}", f"a c {THIN}", f"c b {THIN}"])),
    # Other spellings of a declaration that is drawn above.
    (b"# x\r\n\titem  7 # y\r\n\r\n", drawing("plan of 1 workqueue", [["7"]], [])),
    (b"item a\nitem b # \xff\nitem c\nflush b c\nflush a b", drawing(
        "plan of 3 workqueues, " + BOLD % 2, [["c"], ["b"], ["a"]], ["b c [style=bold]", "a b [style=bold]"])),
    # A flush that leads past the next lower workqueue is on no longest chain.
    ("item a / item b / item c / flush a b c / flush b c", drawing(
        "plan of 3 workqueues, " + BOLD % 2, [["c"], ["b"], ["a"]], ["a b [style=bold]", "a c", "b c [style=bold]"])),
    # A group of one item isn't marked, though it is on an `ordered` line.
    ("item a / item b / ordered b", drawing("plan of 1 workqueue", [["a", "b"]], [])),
    # Groups come by their numbers, and the items of each in the order of their declaration.
    ("item a / item b / item c / item d / ordered d b / ordered c a", drawing("plan of 1 workqueue", [["a c", "b d"]], [])),
    # Names that Graphviz knows or would read as numbers, and the longest one.
    (f"item node / item -1.5 / item subgraph / item {LONG} / ordered {LONG} subgraph / flush node -1.5 {LONG}", drawing(
        "plan of 2 workqueues, " + ONE_BOLD, [["-1.5", f"subgraph {LONG}"], ["node"]], ["node -1.5 [style=bold]", f"node {LONG}"])),
    # Waits for a whole workqueue have heads of their own, whatever they look like beside.
    ("item a / item b / item c / flushwq a b / flush b c / flushwq b c / flushwq a c", drawing(
        "plan of 3 workqueues, " + BOLD % 2, [["c"], ["b"], ["a"]],
        ["a b [style=bold] [arrowhead=odiamond]", "b c [style=bold]", "b c [arrowhead=odiamond]",
         "a c [arrowhead=odiamond]"])),
    ("item a / item b / item c / flushwq a b / flush b a / flushwq c a", drawing(
        EVERY_HANGS % 2, [["a"], ["b"], ["c"]],
        [f"a b {THICK} [arrowhead=odiamond]", f"a b {THICK} [dir=back]", "c a [arrowhead=odiamond]"])),
    ("item a / item b / flush a b / flushwq b a / flush b b a", drawing(
        EVERY_HANGS_SO % (4, 1), [["a"], ["b"]],
        [f"a b {THIN}", f"a b {THIN} [dir=back, arrowtail=odiamond]", f"b b {THICK}", f"a b {THIN} [dir=back]"])),
    # The comment of a line is the tooltip of each of its flushes, with escapes; those of other lines are none.
    (b'# of nothing\nitem a # of an item\nitem b\n\nitem c\nflush a b c #  two\t"of" them \\ & <more>\nordered c # c\n'
     b"flushwq b c # \xc3\xa4 \x01\x7f\n", drawing(
         "plan of 3 workqueues, " + BOLD % 2, [["c"], ["b"], ["a"]],
         [r'a b [style=bold] [edgetooltip="two \"of\" them \\ &amp; <more>"]',
          r'a c [edgetooltip="two \"of\" them \\ &amp; <more>"]',
          'b c [style=bold] [arrowhead=odiamond] [edgetooltip="?? ??"]'])),
    # A comment begins behind its `#`, perhaps several, and blanks; it may be empty, and have another `#`.
    (b"item a\r\nitem b\r\nflush a b#b # c \r\nflush a b ## # \td\r\nflush a b #\r\nflush a b # \t##\r\nflush a b\r\nflush b b # \x0b", drawing(
        "every assignment can hang, " + ONE_RED, [["a"], ["b"]],
        [f"a b{tooltip}" for tooltip in (' [edgetooltip="b # c "]', ' [edgetooltip="d"]', "", "", "")]
        + [f'b b {THICK} [edgetooltip="?"]'])),
    # No more than 256 bytes of it are shown.
    ("item a / item b / flush a b # " + "x" * 256 + " / flush a b # " + "y" * 257 + " / flush b b # " + "&" * 4000, drawing(
        "every assignment can hang, " + ONE_RED, [["a"], ["b"]],
        [f'a b [edgetooltip="{"x" * 256}"]', f'a b [edgetooltip="{"y" * 256}"]', f'b b {THICK} [edgetooltip="{"&amp;" * 256}"]'])),
    # A flush within a group.
    ("item a / item b / ordered b a / flush a b / flush b b", drawing(
        EVERY_HANGS_SO % (2, 1), [["a b"]], [f"a b {THIN}", f"b b {THICK}"])),
]

# Texts, and the drawings of them any of which may be printed, since several runs are as short.
SEVERAL = [
    (TWO_CIRCLES, [drawing(EVERY_HANGS_SO % (4, 2), TWO_BOXES, two_arrows(*thick)) for thick in ((0, 2), (1, 3))]),
    (TWO_CIRCLES, "wq 0 a / wq 1 b / wq 2 c / wq 3 d", [
        drawing(HANGS_SO % (4, 2), TWO_BOXES, two_arrows(*thick)) for thick in ((0, 2), (1, 3))]),
    (TWO_CIRCLES, "wq 0 a b c d", [
        drawing(HANGS_SO % (5, 1), [["a", "b", "c", "d"]], two_arrows(thick, last=f" {THICK if thick == 4 else THIN}"))
        for thick in range(5)]),
    # Both arrows of a flush that is declared twice are red, and one of them is thick.
    ("item a / item b / item c / flush a b b c / flush b a", [
        drawing(EVERY_HANGS_SO % (3, 2), [["a"], ["b"], ["c"]], [f"a b {one}", f"a b {other}", "a c", f"a b {THICK} [dir=back]"])
        for one, other in ((THICK, THIN), (THIN, THICK))]),
    ("item a / item b / item c / item d / flush a b / flush c d", "wq 0 a b / wq 1 c d", [
        drawing(HANGS_SO % (2, 1), [["a", "b"], ["c", "d"]], arrows)
        for arrows in one_thick(2, lambda looks: [f"a b {looks[0]}", f"c d {looks[1]}"])]),
]

# A declaration, and assignments of it, each with the drawing.
ASSIGNED = [
    (CHAIN, [
        ("plan 3 / wq 0 c / wq 1 b / wq 2 a / chain 3 / arc a b / arc b c", SAFE),
        ("wq 0 c / wq 1 b / wq 2 a", SAFE),
        (b"wq 0 c\r\n\n\twq 1  b\nwq 2 a", SAFE),
        ("wq 0 / wq 1 c a / wq 2 b", OF_CIRCLE),
        ("wq 0 / wq 1 a c / wq 2 b", OF_CIRCLE),
        # Only one of the two flushes is within a workqueue.
        ("wq 0 a b / wq 1 c / wq 2", drawing(
            "can hang, " + ONE_RED, [["a", "b"], ["c"], []], [f"a b {THICK}", "b c"])),
    ]),
    ("item a / item b / item c / flushwq a b / flush c a", [
        ("wq 0 a / wq 1 b / wq 2 c", drawing("safe", [["a"], ["b"], ["c"]], ["a b [arrowhead=odiamond]", "c a"])),
        ("wq 0 a / wq 1 b c", drawing(
            HANGS % 2, [["a"], ["b", "c"]], [f"a b {THICK} [arrowhead=odiamond]", f"c a {THICK}"])),
    ]),
    # The workqueues of a plan, with another title, and no chain.
    (ITEMS + " / ordered d b / flush c a / flush d a a", [
        ("wq 0 a / wq 1 b d c", drawing("safe", [["a"], ["b d", "c"]], ["c a", "d a", "d a"])),
        ("wq 0 c a / wq 1 d b", drawing(
            "can hang, " + ONE_RED, [["a", "c"], ["b d"]], [f"c a {THICK}", "d a", "d a"])),
    ]),
    # Of several flushes the one is thick that holds up itself; of those that lead to no rescuer, the first; and a circle of two alone.
    ("item a / item b / item c / item x / flush a b / flush b c / flush c c x / flush a x", [
        ("wq 0 a b c / norescuer 1 x", drawing(
            SOME_LEAD % (5, 2, 1) + DASHED_LEGEND, [["a", "b", "c"], ["x"]],
            [f"a b {THIN}", f"b c {THIN}", f"c c {THICK}", f"c x {THIN}", f"a x {THIN}"], ["", "wq 1 (no rescuer)"])),
        ("wq 0 a b / norescuer 1 x c", drawing(
            SOME_LEAD % (3, 2, 1) + DASHED_LEGEND, [["a", "b"], ["c", "x"]],
            [f"a b {THIN}", f"b c {THICK}", "c c", "c x", f"a x {THIN}"], ["", "wq 1 (no rescuer)"])),
    ]),
    # Workqueues have the names that their lines give them: a comment up to its first comma.
    (CHAIN, [
        ("wq 0 c # x / wq 1 b#kworker, or so / wq 2 a", drawing("safe", [["c"], ["b"], ["a"]], ["a b", "b c"], ["x", "kworker"])),
        (b"# of none\nwq 0 c ## # nvme-wq  , of core.c\r\n\n  # of none\nwq 1 b #\t a b\t\nwq 2 a #", drawing(
            "safe", [["c"], ["b"], ["a"]], ["a b", "b c"], ["nvme-wq", "a b"])),
        # The comments of a plan text are names, too, but those of its other lines.
        ("plan 3 # p / wq 0 c # zero / wq 1 b / wq 2 a # two / chain 3 # q / arc a b # r / arc b c", drawing(
            "safe", [["c"], ["b"], ["a"]], ["a b", "b c"], ["zero", "", "two"])),
        # A name that is there twice comes with the number, though another stands between; one that is there once doesn't.
        ("wq 0 c # x / wq 1 b # y / wq 2 a # x,y", drawing("safe", [["c"], ["b"], ["a"]], ["a b", "b c"], ["wq 0 x", "y", "wq 2 x"])),
        # Escapes.
        ('wq 0 c # "x" / wq 1 b # \\N & <b> / wq 2 a # x#y', drawing(
            "safe", [["c"], ["b"], ["a"]], ["a b", "b c"], [r'\"x\"', r"\\N &amp; <b>", "x#y"])),
        # No names: 64 bytes, no byte before the comma, a byte that isn't printable. 63 bytes are one.
        ("wq 0 c # " + "n" * 64 + " / wq 1 b # , x / wq 2 a # " + "n" * 63, drawing(
            "safe", [["c"], ["b"], ["a"]], ["a b", "b c"], ["", "", "n" * 63])),
        (b"wq 0 c # a\tb\nwq 1 b # \xc3\xa4\nwq 2 a # a\x7f", SAFE),
        (b"wq 0 c # a\rb\nwq 1 b # x" + b" " * 300 + b"y\nwq 2 a # x" + b" " * 300 + b",y", drawing(
            "safe", [["c"], ["b"], ["a"]], ["a b", "b c"], ["", "", "x"])),
    ]),
    # A workqueue without a rescuer has a dashed frame. A flush that leads to one is red, and one that leads away isn't.
    (CHAIN, [
        ("norescuer 0 c / wq 1 b / wq 2 a", drawing(
            ONE_LEADS + DASHED_LEGEND, [["c"], ["b"], ["a"]], ["a b", f"b c {THICK}"], ["wq 0 (no rescuer)"])),
        ("wq 0 c / wq 1 b / norescuer 2 a # x", drawing(
            "safe" + DASHED_LEGEND, [["c"], ["b"], ["a"]], ["a b", "b c"], ["", "", "x (no rescuer)"])),
        ("norescuer 0 a b c", drawing("safe" + DASHED_LEGEND, [["a", "b", "c"]], ["a b", "b c"], ["wq 0 (no rescuer)"])),
        ("wq 0 a / norescuer 1 b # w / wq 2 c # w / norescuer 3", drawing(
            ONE_LEADS + DASHED_LEGEND, [["a"], ["b"], ["c"], []], [f"a b {THICK}", "b c"],
            ["", "wq 1 w (no rescuer)", "wq 2 w", "wq 3 (no rescuer)"])),
    ]),
    # Those on a circle are red beside it. A circle by way of a workqueue without a rescuer is none.
    ("item x / item a / item b / item y / item c / flush a x / flush x a / flushwq b y / flush c c / flush y b c", [
        ('wq 0 x # "x" & \\ / norescuer 1 a / wq 2 b # same name / norescuer 3 y # same name / wq 4 c / norescuer 5 # system_wq', drawing(
            SOME_LEAD % (3, 2, 1) + DASHED_LEGEND, [["x"], ["a"], ["b"], ["y"], ["c"], []],
            ["x a [dir=back]", f"x a {THIN}", f"b y {THIN} [arrowhead=odiamond]", f"c c {THICK}", "b y [dir=back]", "y c"],
            [r'\"x\" &amp; \\', "wq 1 (no rescuer)", "wq 2 same name", "wq 3 same name (no rescuer)", "", "system_wq (no rescuer)"])),
    ]),
    ("", [
        ("", drawing("safe", [], [])),
        ("norescuer 0 # x", drawing("safe" + DASHED_LEGEND, [[]], [], ["x (no rescuer)"])),
        ("plan 0 / chain 0", drawing("safe", [], [])),
        ("wq 0 / wq 1", drawing("safe", [[], []], [])),
    ]),
    (ROW, [(LAST_WITH_FIRST, ROW_IN_CIRCLE)]),
]

# Texts of which one is refused, and the answer.
REFUSALS = [
    ("item a / flush a b / item b", "refused 8 line 2"),
    ("nope", "refused 4 line 1"),
    (GROUPED, "wq 1 a d", "refused 43 line 1"),
    (GROUPED, "wq 0 a d / wq 1 b / wq 2 c", "refused 42 line 3"),
    (GROUPED, "wq 0 a d / wq 1 b", "refused 41 line 0"),
    ("item a", "wq 01 a", "refused 40 line 1"),
    ("item a", "norescuer 1 a # x", "refused 43 line 1"),
    ("item a", "plan 1 / norescuer 0 a / chain 1", "refused 40 line 2"),
    # What `dot` prints is no assignment: its first line ends the `wq` lines, of which there is none.
    ("", EMPTY, "refused 40 line 1"),
    ("item 7", drawing("plan of 1 workqueue", [["7"]], []), "refused 41 line 0"),
    # The declaration before the assignment.
    ("item a / flush a b", "wq 1", "refused 8 line 2"),
]

# The tables of this file: of each its name, the command, and the rows, which are the texts and the answer.
TABLES = [
    ("drawings", "dot", OWN),
    ("refusals of `dot`", "dot", REFUSALS),
    ("drawings of assignments", "dot", [(text, *row) for text, rows in ASSIGNED for row in rows]),
]
