# `plan` and `check` around workqueues that stay as they are: declarations, certificates, FIXED, and the answers.
#
# The rules are those of "Planning around workqueues" in docs/FORMAT.md, from which each answer was worked out by hand.

P = "item a / item b / flush a b"
R = "item a / item b / item c / flush a b / flush b c"
W = "item a / item b / item c / flushwq a b / flush c a"
ITEMS = "item a / item b / item c / item d"
T = ITEMS + " / ordered a d / ordered b c / flush a b / flush c d"
LOOP = "item a / flush a a"
BOTH = "item a / item b / item x / flush a b / flush b a / flush a x"
BESIDE = "item a / item b / item x / flush a x / flush x b / flush a b"
DOUBTED = "item a / item b / item c / flush? a b / flush a c"
OF_TWO = "item a / item b / item c / item d / flush a b / flush b c / flush a d / flush d c"

NET = "item send / item log / item scan / item receive / item clean / flush scan log / flush send receive / flush receive clean"
AROUND_NET = ("plan 3 / wq 1 clean / wq 2 receive / wq 3 scan / order 1 2 0 3 / chain 4 / "
              "arc scan log / arc send receive / arc receive clean")

FULL = " / ".join("wq %d" % number for number in range(4096))
FULL_WITH_A = FULL.replace("wq 0", "wq 0 a", 1)
FULL_BUT_ONE = " / ".join("wq %d" % number for number in range(4095))
IN_ORDER = " ".join("%d" % number for number in range(4096))

# A declaration, and FIXEDs, each with the answer.
PLANS = [
    (NET, [("wq 0 send log  # net_wq", AROUND_NET)]),
    (P, [
        # Where FIXED has no workqueue, it is as if there were no FIXED.
        ("", "plan 2 / wq 0 b / wq 1 a / chain 2 / arc a b"),
        ("# none", "plan 2 / wq 0 b / wq 1 a / chain 2 / arc a b"),
        ("plan 0 / chain 0", "plan 2 / wq 0 b / wq 1 a / chain 2 / arc a b"),
        # One free group, above FIXED's or below.
        ("wq 0 a", "plan 1 / wq 1 b / order 1 0 / chain 1"),
        ("wq 0 b", "plan 1 / wq 1 a / order 0 1 / chain 1"),
        ("plan 1 / wq 0 a / chain 0", "plan 1 / wq 1 b / order 1 0 / chain 1"),
        # None is free.
        ("wq 0 a / wq 1 b", "plan 0 / order 1 0 / chain 0"),
        ("wq 0 a b", "circle 1 / arc a b / run 4 / queue a / queue b / start 0 a / wait 0 b"),
        # No rescuer: what is there may wait for anything, and nothing may wait for it.
        ("norescuer 0 a b", "plan 0 / order / chain 0"),
        ("norescuer 0 a", "plan 1 / wq 1 b / order 1 / chain 1"),
        ("norescuer 0 b", "norescuer 1 / arc a b / run 4 / queue a / queue b / start 1 a / wait 1 b"),
        ("wq 0 a / norescuer 1 b", "norescuer 1 / arc a b / run 4 / queue a / queue b / start 0 a / wait 0 b"),
        ("norescuer 0 a / norescuer 1 b", "plan 0 / order / chain 0"),
        # Empty workqueues stay so.
        ("wq 0 / wq 1", "plan 2 / wq 2 b / wq 3 a / order 0 1 2 3 / chain 2 / arc a b"),
        ("norescuer 0 / wq 1 b", "plan 1 / wq 2 a / order 1 2 / chain 1"),
        # Refused.
        ("wq 1 a", "refused 43 line 1"),
        ("wq 0 a a", "refused 41 line 1"),
        ("wq 0 z", "refused 40 line 1"),
        ("wq 0 a / x", "refused 40 line 2"),
        ("plan 1 / wq 0 a", "refused 40 line 0"),
        ("plan 1 / norescuer 0 a / chain 0", "refused 40 line 2"),
        (FULL, "refused 43 line 0"),
        (FULL + " / x", "refused 43 line 0"),
    ]),
    ("item a", [(FULL_BUT_ONE, f"plan 1 / wq 4095 a / order {IN_ORDER} / chain 1"), (FULL, "refused 43 line 0")]),
    # Only free groups count there.
    ("item a / item b", [
        (FULL_BUT_ONE.replace("wq 0", "wq 0 a", 1), f"plan 1 / wq 4095 b / order {IN_ORDER} / chain 1"),
        (FULL_WITH_A, "refused 43 line 0"),
    ]),
    (R, [
        ("wq 0 b", "plan 2 / wq 1 c / wq 2 a / order 1 0 2 / chain 3 / arc a b / arc b c"),
        ("wq 0 a c",
         "circle 2 / arc a b / arc b c / run 7 / queue a / queue b / queue c / start 0 a / wait 0 b / start 1 b / wait 1 c"),
    ]),
    (T, [
        ("wq 0 a", "refused 42 line 0"),
        ("wq 0 a / wq 1 d", "refused 42 line 2"),
        ("wq 0 a / x", "refused 42 line 0"),
        ("plan 1 / wq 0 a / x", "refused 42 line 0"),
        (FULL_WITH_A, "refused 42 line 0"),
        ("wq 0 d a",
         "circle 2 / arc a b / arc c d / run 8 / queue a / queue c / queue b / queue d / start 0 a / wait 0 b / start 1 c / wait 1 d"),
    ]),
    (W, [("wq 0 b", "plan 2 / wq 1 a / wq 2 c / order 0 1 2 / chain 2 / arc c a")]),
    # Two that wait for FIXED's, and not for each other.
    ("item a / item b / item c / flush a c / flush b c", [("wq 0 c", "plan 1 / wq 1 a b / order 0 1 / chain 1")]),
    # Two on different workqueues of FIXED, which wait for each other's.
    (OF_TWO, [("wq 0 b d", "plan 2 / wq 1 c / wq 2 a / order 1 0 2 / chain 3 / arc a b / arc b c"),
              ("wq 0 d / wq 1 b", "plan 2 / wq 2 c / wq 3 a / order 2 0 1 3 / chain 3 / arc a b / arc b c")]),
    (LOOP, [
        ("wq 0", "circle 1 / arc a a / run 3 / queue a / start 1 a / wait 1 a"),
        ("norescuer 0 a", "plan 0 / order / chain 0"),
    ]),
    # Of several flushes to no rescuer the one of least place.
    ("item a / item b / item x / flush b x / flush a x", [
        ("norescuer 0 x",
         "norescuer 1 / arc b x / run 7 / queue b / queue a / queue x / start 1 a / wait 1 x / start 2 b / wait 2 x"),
    ]),
    # A flush to no rescuer comes first, whatever its place.
    (BOTH, [("norescuer 0 x", "norescuer 1 / arc a x / run 7 / queue a / queue b / queue x / start 1 a / wait 1 b / start 2 b / wait 2 a")]),
    # Of two arcs the one of least place, though it leads through a workqueue that isn't counted.
    (BESIDE, [("wq 0 x", "plan 2 / wq 1 b / wq 2 a / order 1 0 2 / chain 3 / arc a x / arc x b")]),
    # As low as can be: `c` is waited for by nobody.
    ("item a / item b / item c / flush a b", [
        ("wq 0", "plan 2 / wq 1 b c / wq 2 a / order 0 1 2 / chain 2 / arc a b"),
    ]),
    # Of two chains the one that begins at the lowest-numbered workqueue of the start; but one that is sure comes first.
    ("item a / item b / item c / item d / flush b d / flush a c", [
        ("wq 0", "plan 2 / wq 1 c d / wq 2 a b / order 0 1 2 / chain 2 / arc a c"),
    ]),
    ("item a / item b / item c / item d / flush? a c / flush b d", [
        ("wq 0", "plan 2 / wq 1 c d / wq 2 a b / order 0 1 2 / chain 2 / arc b d"),
    ]),
    # Over two workqueues of FIXED, neither of which is counted.
    ("item a / item v / item w / item x / item y / item b / flush a v / flush w x / flush y b", [
        ("wq 0 v w / wq 1 x y", "plan 2 / wq 2 b / wq 3 a / order 2 1 0 3 / chain 4 / arc a v / arc w x / arc y b"),
    ]),
    # A free group of two items.
    ("item a / item b / item c / ordered a b / flush b c", [
        ("wq 0", "plan 2 / wq 1 c / wq 2 a b / order 0 1 2 / chain 2 / arc b c"),
    ]),
    # Unsure flushes count.
    ("item a / item b / flush? a b", [
        ("wq 0", "plan 2 / wq 1 b / wq 2 a / order 0 1 2 / chain 2 / arc a b"),
        ("wq 0 a b", "circle 1 / arc a b / run 4 / queue a / queue b / start 0 a / wait 0 b"),
        ("norescuer 0 b", "norescuer 1 / arc a b / run 4 / queue a / queue b / start 1 a / wait 1 b"),
    ]),
    # Of two arcs the one that is sure.
    (DOUBTED, [("wq 0", "plan 2 / wq 1 b c / wq 2 a / order 0 1 2 / chain 2 / arc a c")]),
]

# A declaration and a FIXED, and certificates, each with the answer.
CHECKS = [
    (NET, "wq 0 send log", [
        (AROUND_NET, "yes 3"),
        (AROUND_NET.replace("order 1 2 0 3", "order 0 1 2 3"), "no 50 send receive"),
        (AROUND_NET.replace("chain 4 / arc scan log", "chain 3"), "no 52"),
    ]),
    (P, "wq 0 a", [
        ("plan 1 / wq 1 b / order 1 0 / chain 1", "yes 1"),
        ("plan 1 / wq 1 b / order 1 0 / chain 2 / arc a b", "yes 1"),
        # What isn't listed comes last, and what is listed again comes where it was listed first.
        ("plan 1 / wq 1 b / order 1 / chain 1", "yes 1"),
        ("plan 1 / wq 1 b / order 1 0 1 / chain 1", "yes 1"),
        ("plan 1 / wq 1 b / order 0 1 / chain 1", "no 50 a b"),
        ("plan 1 / wq 1 b / order 0 1 0 / chain 1", "no 50 a b"),
        ("plan 1 / wq 1 b / order 0 / chain 1", "no 50 a b"),
        ("plan 1 / wq 1 b / order / chain 1", "no 50 a b"),
        # One new workqueue too many.
        ("plan 2 / wq 1 b / wq 2 / order 1 0 2 / chain 1", "no 52"),
        ("plan 2 / wq 1 b / wq 2 / order 1 0 2 / chain 2 / arc a b", "no 52"),
        ("plan 1 / wq 1 b / order 1 0 / chain 0", "no 52"),
        ("plan 1 / wq 1 b / order 0 1 / chain 0", "no 50 a b"),
        # A new one counts as often as it comes.
        ("plan 1 / wq 1 b / order 1 0 / chain 3 / arc a b / arc a b", "no 52"),
        # Refused.
        ("plan 1 / wq 1 b / chain 1", "refused 40 line 3"),
        ("plan 1 / wq 1 b / order 1 x / chain 1", "refused 40 line 3"),
        ("plan 1 / wq 1 b / order 1 2 / chain 1", "refused 43 line 3"),
        ("plan 1 / wq 0 b / order 1 0 / chain 1", "refused 43 line 2"),
        ("plan 1 / wq 1 b a / order 1 0 / chain 1", "refused 41 line 2"),
        ("plan 1 / wq 1 / order 1 0 / chain 1", "refused 41 line 0"),
        ("plan 4095", "refused 40 line 0"),
        ("plan 4096", "refused 43 line 1"),
        ("norescuer 1 / arc a b", "no 55"),
        ("circle 1 / arc a b", "no 53 1"),
    ]),
    (P, "wq 0 a / y", [("plan 4097", "refused 40 line 2")]),
    (P, "wq 0 a b", [
        ("circle 1 / arc a b", "yes circle 1"),
        ("circle 1 / arc a b / run 4 / queue a / queue b / start 0 a / wait 0 b", "yes circle 1"),
        ("circle 1 / arc a b / run 2 / queue a / queue b", "no 54"),
        ("circle 1 / arc b a / run 0", "no 53 1"),
        ("plan 0 / order 0 / chain 0", "no 50 a b"),
    ]),
    (P, "norescuer 0 b", [
        ("plan 1 / wq 1 a / order 0 1 / chain 1", "no 50 a b"),
        ("norescuer 1 / arc a b", "yes norescuer"),
        ("norescuer 1 / arc a b / run 4 / queue a / queue b / start 1 a / wait 1 b", "yes norescuer"),
        ("norescuer 1 / arc b a", "no 55"),
        ("norescuer 1 / arc a b / run 0", "no 54"),
        ("norescuer 1 / arc b a / run 0", "no 55"),
        ("norescuer 2 / arc a b", "refused 43 line 1"),
        ("norescuer 0", "refused 43 line 1"),
        ("norescuer 1", "refused 40 line 0"),
    ]),
    (P, "norescuer 0 a b", [
        ("plan 0 / order / chain 0", "yes 0"),
        ("plan 0 / order 0 / chain 0", "yes 0"),
        ("circle 1 / arc a b", "no 53 1"),
        ("norescuer 1 / arc a b", "no 55"),
    ]),
    ("item a / item b / item c / flush a b", "norescuer 0 b c", [
        ("norescuer 1 / arc a c", "no 55"),
        ("norescuer 1 / arc a b", "yes norescuer"),
    ]),
    # It ends stuck, and doesn't deadlock: `b` isn't queued.
    ("item a / item b / flush a a", "wq 0 a", [
        ("circle 1 / arc a a / run 3 / queue a / start 0 a / wait 0 a", "no 54"),
        ("circle 1 / arc a a / run 6 / queue a / queue b / start 0 a / wait 0 a / start 1 b / finish 1 b", "yes circle 1"),
    ]),
    # The flush of least place, though its item is on a higher workqueue.
    ("item a / item b / flush b b / flush a a", "wq 0 a", [("plan 1 / wq 1 b / order 0 1 / chain 1", "no 50 b b")]),
    # They share a workqueue of the plan, and none of the start.
    ("item a / item b / item d / item x / flush a b / flush d x", "wq 0 x", [
        ("plan 2 / wq 1 b d / wq 2 a / order 0 1 2 / chain 3 / arc a b / arc d x", "no 51 2"),
        ("plan 2 / wq 1 b d / wq 2 a / order 0 1 2 / chain 2 / arc a b", "yes 2"),
    ]),
    # Where FIXED has no workqueue, it is as if there were no FIXED.
    (P, "", [
        ("plan 2 / wq 0 b / wq 1 a / chain 2 / arc a b", "yes 2"),
        ("plan 2 / wq 0 b / wq 1 a / order 0 1 / chain 2 / arc a b", "refused 40 line 4"),
        ("norescuer 1 / arc a b", "refused 40 line 1"),
    ]),
    ("item a", "wq 0 a", [("plan 1 / wq 1 / order 0 1 / chain 1", "no 51 0")]),
    (R, "wq 0 b", [
        ("plan 2 / wq 1 c / wq 2 a / order 1 0 2 / chain 3 / arc a b / arc b c", "yes 2"),
        ("plan 2 / wq 1 c / wq 2 a / order 1 0 2 / chain 3 / arc a b / arc a c", "no 51 2"),
        ("plan 2 / wq 1 c / wq 2 a / order 1 0 2 / chain 3 / arc b c / arc a b", "no 52"),
        ("plan 2 / wq 1 c / wq 2 a / order 1 0 2 / chain 2 / arc c a", "no 51 1"),
    ]),
    (R, "wq 0 a c", [
        ("circle 2 / arc a b / arc b c", "yes circle 2"),
        ("circle 2 / arc b c / arc a b", "yes circle 2"),
        ("circle 1 / arc a b", "no 53 1"),
    ]),
    # Unsure flushes count.
    ("item a / item b / flush? a b", "wq 0 a", [("plan 1 / wq 1 b / order 0 1 / chain 1", "no 50 a b")]),
]

TABLES = [
    ("plans around workqueues", "plan", [(text, fixed, answer) for text, rows in PLANS for fixed, answer in rows]),
    ("checks around workqueues", "check", [(text, given, fixed, answer) for text, fixed, rows in CHECKS for given, answer in rows]),
]
