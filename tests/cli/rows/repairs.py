# The command `repair`: declarations, and of each assignments, the words of the command line behind the files, and the answer.
#
# The rules are those of "The command `repair`" in docs/FORMAT.md, from which each answer was worked out by hand. The model answers
# them, too (tests/model/examples.py).

from statuses import STATUS

AX = "item a / item x / flush a x"
AXY = "item a / item x / item y / flush a x"
TWO = "item a / item b / flush a b / flush b a"
TWO_ROUND = ("circle 2 / arc a b / arc b a / run 6 / queue a / queue b / start 0 a / wait 0 b / start 1 b"
             " / wait 1 a")
ORDERED = "item a / item b / item x / ordered a b / flush a x"
FOUR = "item a / item x / item y / item z / flush a x y"

REPAIRS = [
    # The table of "The text".
    (AXY, [
        ("wq 0 a x y  # q, a.c:7", "", "wq 0 a y  # q / wq 1 x"),
        ("wq 0 a x y", "a", "wq 0 x y / wq 1 a"),
        ("wq 0 a x y", "y", "run 7 / queue a / queue x / queue y / start 0 a / wait 0 x / start 1 y / finish 1 y"),
        ("wq 0 a / norescuer 1 x / wq 2 y", "", "wq 0 a / wq 1 x / wq 2 y"),
        ("wq 0 a / norescuer 1 x y", "", "wq 0 a / norescuer 1 y / wq 2 x"),
        ("wq 0 a / norescuer 1 x y", "y", "wq 0 a / wq 1 x y"),
        # What is safe comes back, whatever the names; items are in the order of their declaration, and of a plan text only its `wq`
        # lines are printed.
        ("wq 0 a / wq 1 y x", "", "wq 0 a / wq 1 x y"),
        ("wq 0 a / wq 1 y x", "y", "wq 0 a / wq 1 x y"),
        ("plan 2 / wq 0 y x / wq 1 a / chain 2 / arc a x", "", "wq 0 x y / wq 1 a"),
        ("plan 1 / wq 0 y x a / chain 1", "", "wq 0 a y / wq 1 x"),
        ("norescuer 0 a x y", "", "norescuer 0 a x y"),
        # Neither the order of the names matters nor how often they come. y has to stay, so a is put back to it, and then x can't be.
        ("wq 0 a x y", "x a x", "wq 0 a y / wq 1 x"),
        ("wq 0 a x y", "a a a", "wq 0 x y / wq 1 a"),
        # All that need a rescuer are named, so y stays where it is without one.
        ("wq 0 a / norescuer 1 x y", "a x", "wq 0 a / norescuer 1 y / wq 2 x"),
        # A name that is no item, even if it is safe; but the texts are judged first.
        ("wq 0 a / wq 1 x y", "z", "refused 8 line 0"),
        ("wq 0 a x y", "a A x", "refused 8 line 0"),
        ("wq 0 a x", "z", "refused 41 line 0"),
        ("wq 0 a x y / wq 2", "z", "refused 43 line 2"),
        ("wq 0 a x y z", "", "refused 40 line 1"),
        ("norescuer 0 a x y a", "", "refused 41 line 1"),
        ("wq 0 a x y / chain 0", "y", "refused 40 line 2"),
    ]),
    ("item a / item a", [("wq 0 a", "", "refused 7 line 2"), ("wq 1 b", "z", "refused 7 line 2")]),
    (ORDERED, [
        ("wq 0 a / wq 1 b x", "", "refused 42 line 2"),
        # The group moves as a whole, by the name of one of its items. Without names it is put back, since it has the lower number.
        ("wq 0 x b a", "b", "wq 0 x / wq 1 a b"),
        ("wq 0 x b a", "", "wq 0 a b / wq 1 x"),
    ]),
    (AX, [
        # Onto an empty workqueue: those with a rescuer first.
        ("wq 0 a x / norescuer 1  # spare", "", "wq 0 a / wq 1 x  # spare"),
        ("wq 0 a x / norescuer 1 / wq 2  # spare", "", "wq 0 a / norescuer 1 / wq 2 x  # spare"),
        # A workqueue without a rescuer that isn't named, and one whose item may move, and so needn't.
        ("norescuer 0 x / wq 1 a", "a", "run 4 / queue a / queue x / start 1 a / wait 1 x"),
        ("norescuer 0 x / wq 1 a", "x", "wq 0 x / wq 1 a"),
        # Nobody with a rescuer waits.
        ("wq 0 x / norescuer 1 a", "", "wq 0 x / norescuer 1 a"),
        # What a comment calls a workqueue.
        ("wq 0 a x  ## \tq r #s \t, x", "", "wq 0 a  # q r #s / wq 1 x"),
        ("wq 0 a x # , q / wq 1 #" + "n" * 63 + " / norescuer 2 # " + "n" * 64, "",
         "wq 0 a / wq 1 x  # " + "n" * 63 + " / norescuer 2"),
        ("# top /  / wq 0 x a#q / # end", "", "wq 0 a  # q / wq 1 x"),
    ]),
    ("item a / item x / flushwq a x", [("wq 0 x a", "", "wq 0 a / wq 1 x")]),
    # Items with such names, and the word before them.
    ("item - / item -x / flush -x -", [
        ("wq 0 - -x", "-", "wq 0 -x / wq 1 -"),
        ("wq 0 - -x", "-- -x", "wq 0 - / wq 1 -x"),
    ]),
    # Nothing is declared.
    ("", [("", "", ""), ("wq 0 / norescuer 1  # q", "", "wq 0 / norescuer 1  # q"), ("", "a", "refused 8 line 0")]),
    # Circles of the groups that need a rescuer, with names or without.
    (TWO, [
        ("wq 0 a / wq 1 b", "", TWO_ROUND),
        ("wq 0 a / wq 1 b", "b", TWO_ROUND),
        ("norescuer 0 a / wq 1 b", "a", TWO_ROUND),
        ("norescuer 0 a b", "", "norescuer 0 a b"),
    ]),
    ("item c / item a / item b / flush c a / flush a b / flush b a", [
        ("wq 0 c / norescuer 1 a b", "c", "circle 2 / arc a b / arc b a / run 9 / queue a / queue b / queue c / start 0 c / wait 0 a"
         " / start 1 a / wait 1 b / start 2 b / wait 2 a"),
    ]),
    # p needs none, so its circle isn't printed, and what is queued first is that of the printed one. `plan` prints the circle of p.
    ("item p / item a / flush p p / flush a a", [
        ("norescuer 0 p / wq 1 a", "", "circle 1 / arc a a / run 6 / queue a / queue p / start 0 p / wait 0 p / start 1 a / wait 1 a"),
        ("norescuer 0 p / norescuer 1 a", "", "norescuer 0 p / norescuer 1 a"),
    ]),
    # Those with the fewest conflicts are tried first, and h, with two, last.
    ("item h / item p / item q / flush h p q", [("wq 0 h p q", "", "wq 0 p q / wq 1 h")]),
    # In a chain all have two. b and c can't be together; the lower rank has the lower number.
    ("item a / item b / item c / flush a b / flush b c", [("wq 0 a b c", "", "wq 0 a / wq 1 c / wq 2 b")]),
    # x and y leave the same workqueue, and are kept together, though x alone could go to z.
    ("item a / item x / item y / item z / flush a x y / flush y z", [("wq 0 a x y / wq 1 z", "x y", "wq 0 a / wq 1 z / wq 2 x y")]),
    # To the lowest-numbered workqueue of the same rank.
    ("item a / item x / item b / item y / flush a x / flush b y", [("wq 0 a x / wq 1 b / wq 2 y", "", "wq 0 a / wq 1 b / wq 2 x y")]),
    # If it isn't named, to one that is; to an empty one; or to a new one.
    ("item a / item x / item y / item z / flush a x", [
        ("wq 0 a x / wq 1 y / wq 2 z", "", "wq 0 a / wq 1 x y / wq 2 z"),
        ("wq 0 a x / wq 1 y / wq 2 z", "x z", "wq 0 a / wq 1 y / wq 2 x z"),
        ("wq 0 a x / wq 1 y / wq 2 z", "x", "wq 0 a / wq 1 y / wq 2 z / wq 3 x"),
        ("wq 0 a x / wq 1 y / norescuer 2 / wq 3 z", "x", "wq 0 a / wq 1 y / wq 2 x / wq 3 z"),
        # Where a workqueue is given a rescuer, too.
        ("wq 0 a x / norescuer 1 y / wq 2 z", "x y", "wq 0 a / norescuer 1 y / wq 2 z / wq 3 x"),
    ]),
    # Workqueue 1 is named, since y is on it, though y leaves it. Without this name it can't be repaired.
    ("item b / item y / item t / item u / flush b y / flush t u / flush u y", [
        ("wq 0 t u / wq 1 b y", "u y", "wq 0 t / wq 1 b u / wq 2 y"),
        ("wq 0 t u / wq 1 b / wq 2 y", "u y", "wq 0 t / wq 1 b / wq 2 y / wq 3 u"),
        ("wq 0 t u / wq 1 b / wq 2 y", "u b", "wq 0 t / wq 1 b u / wq 2 y"),
    ]),
    # y has to have a rescuer where it is, and may not stay there.
    ("item a / item x / item y / flush a x / flush y a", [("wq 0 a / norescuer 1 x y", "y", "wq 0 a / wq 1 x / wq 2 y")]),
    # The second repair: one rescuer, in place of two moves.
    (FOUR, [
        ("wq 0 a / norescuer 1 x y z", "", "wq 0 a / wq 1 x y z"),
        # Here a group that needs one has to stay, so that it is the only repair; or nothing helps.
        ("wq 0 a / norescuer 1 x y z", "z", "wq 0 a / wq 1 x y z"),
        ("wq 0 a / norescuer 1 x y z", "a", "run 6 / queue a / queue x / queue y / queue z / start 0 a / wait 0 x"),
    ]),
    # Not for z, which waits for what needs none.
    (FOUR + " / item w / flush z w", [
        ("wq 0 a / norescuer 1 x y z / norescuer 2 w", "", "wq 0 a / norescuer 1 z / norescuer 2 w / wq 3 x y"),
    ]),
    # Nor where it has as many changes: z would have to leave. With one more that needs a rescuer it has fewer.
    (FOUR + " / flush z a", [("wq 0 a / norescuer 1 x y z", "", "wq 0 a / norescuer 1 z / wq 2 x y")]),
    (FOUR + " / item v / flush a v / flush z a", [("wq 0 a / norescuer 1 x y v z", "", "wq 0 a / wq 1 x y v / wq 2 z")]),
]

ROWS = [(text, assignment, words.split(), answer) for text, rows in REPAIRS for assignment, words, answer in rows]


def status_of(answer):
    """The exit status of an answer. Assignments have 0, and so has one without workqueues, which is printed as nothing."""
    word = answer.split(" ", 1)[0]
    return 0 if word in ("", "wq", "norescuer") else STATUS[word]
