# NAMEs of `hang`, `replay` and `circles`: declarations, and of each assignments, the NAMEs, and the answers that may be printed.
#
# The rules are those of "What must go on" and "Circles that hold up NAMEs" in docs/FORMAT.md, from which each answer was worked out by
# hand. Where several runs are as good, all of them stand here; but only one where NAMEs come in another order, which must make no
# difference.

SELF = "item a / item n / flush a a"
PAIR = "item a / item b / flush a b"
PAST = "item a / item x / item n / flush a x"
CHAIN = "item n / item x / item a / flush n x / flush x a / flush a n"
GROUP = "item n / item a / item b / ordered n a / flush a b / flush b b"
TAIL = "item n / item m / item a / flush n a / flush a a"
LONGER_TAIL = ("item n / item p / item q / item t / item r / item s / flush n p r / flush p q / flush q t / flush t p / flush r s"
               " / flush s s")
LONGER_CIRCLE = "item n / item p / item u / item s / flush n p u / flush p n / flush u s / flush s s"
# A way with one wait more has a circle of three waits, and beside each of them a pending item; the circle of four waits has none.
FEWER_WAITS = ("item n / item a / item z / item b / item y / item c / item x / item d / item e / item f / flush a y / flush b x"
               " / flush c z / flush n d / flush d e / flush e f")
ON_SIX = "wq 0 n a z / wq 1 b y / wq 2 c x / wq 3 d / wq 4 e / wq 5 f"
EACH = {4: "wq 0 %s / wq 1 %s / wq 2 %s / wq 3 %s", 6: "wq 0 %s / wq 1 %s / wq 2 %s / wq 3 %s / wq 4 %s / wq 5 %s"}

HELD = [
    # Who waits is NAMEd, or who is waited for, or who is behind both.
    (PAIR, "wq 0 a b", [
        ("a", ["run 4 / queue a / queue b / start 0 a / wait 0 b"]),
        ("b", ["run 4 / queue a / queue b / start 0 a / wait 0 b"]),
        ("b a b", ["run 4 / queue a / queue b / start 0 a / wait 0 b"]),
    ]),
    (SELF, "wq 0 a n", [
        ("n", ["run 4 / queue a / queue n / start 0 a / wait 0 a"]),
        ("a", ["run 3 / queue a / start 0 a / wait 0 a"]),
        # The better one of several NAMEs.
        ("n a", ["run 3 / queue a / start 0 a / wait 0 a"]),
    ]),
    (SELF, "wq 0 a / wq 1 n", [("n", ["safe"]), ("a n", ["run 3 / queue a / start 0 a / wait 0 a"])]),
    ("item a / item b / item n / flush a b", "wq 0 a b n", [
        ("n", ["run 5 / queue a / queue n / queue b / start 0 a / wait 0 b"]),
    ]),
    ("item a / item b / item n / flushwq a b", "wq 0 a b n", [
        ("n", ["run 4 / queue a / queue n / start 0 a / waitwq 0 b"]),
    ]),
    # Flushes that lead to no rescuer, and who is on such a workqueue.
    (PAST, "wq 0 a / norescuer 1 x / wq 2 n", [
        ("n", ["safe"]),
        ("n x", ["run 1 / queue x"]),
        ("x", ["run 1 / queue x"]),
        ("a", ["run 4 / queue a / queue x / start 0 a / wait 0 x"]),
        ("a x", ["run 1 / queue x"]),
    ]),
    (PAST, "wq 0 a n / norescuer 1 x", [("n", ["run 5 / queue a / queue n / queue x / start 0 a / wait 0 x"])]),
    ("item a / item x / item n / flushwq a x", "wq 0 a n / norescuer 1 x", [
        ("n", ["run 5 / queue a / queue n / queue x / start 0 a / waitwq 0 x"]),
    ]),
    (CHAIN, "wq 0 n / norescuer 1 x / wq 2 a", [
        ("n", ["run 4 / queue n / queue x / start 0 n / wait 0 x"]),
        ("a", ["run 7 / queue a / queue n / queue x / start 2 a / wait 2 n / start 0 n / wait 0 x"]),
        ("x", ["run 1 / queue x"]),
    ]),
    # What it declares doesn't matter there.
    ("item n / item a / flush n a / flush a a", "norescuer 0 n / wq 1 a", [("n", ["run 1 / queue n"])]),
    ("item n", "norescuer 0 n", [("n", ["run 1 / queue n"])]),
    # A way to a circle.
    (TAIL, "wq 0 n / wq 1 a / wq 2 m", [
        ("n", ["run 6 / queue n / queue a / start 0 n / wait 0 a / start 1 a / wait 1 a"]),
        ("m n", ["run 6 / queue n / queue a / start 0 n / wait 0 a / start 1 a / wait 1 a"]),
        ("m", ["safe"]),
        ("m a", ["run 3 / queue a / start 1 a / wait 1 a"]),
    ]),
    ("item n / item a / item b / flushwq n b / flush a a", "wq 0 n / wq 1 a b", [
        ("n", ["run 6 / queue n / queue a / start 0 n / waitwq 0 b / start 1 a / wait 1 a"]),
    ]),
    # Where the two meet both wait for `b`, which is queued once; or each for another one.
    ("item n / item a / item b / flush n b / flush a b", "wq 0 n / wq 1 a b", [
        ("n", ["run 7 / queue n / queue a / queue b / start 0 n / wait 0 b / start 1 a / wait 1 b"]),
        ("b", ["run 4 / queue a / queue b / start 1 a / wait 1 b"]),
    ]),
    ("item n / item a / item b / item c / flush n c / flush a b", "wq 0 n / wq 1 a b c", [
        ("n", ["run 8 / queue n / queue a / queue c / queue b / start 0 n / wait 0 c / start 1 a / wait 1 b"]),
        ("c", ["run 5 / queue a / queue c / queue b / start 1 a / wait 1 b"]),
    ]),
    # The circle waits for the NAMEd item itself, which is behind its first one.
    ("item a / item n / item b / flush a b / flush b n", "wq 0 a n / wq 1 b", [
        ("n", ["run 7 / queue a / queue b / queue n / start 0 a / wait 0 b / start 1 b / wait 1 n"]),
    ]),
    # An ordered group.
    (GROUP, "wq 0 n a / wq 1 b", [
        ("n", ["run 7 / queue a / queue b / queue n / start 0 a / wait 0 b / start 1 b / wait 1 b"]),
    ]),
    # A longer way with a shorter circle, and a shorter way with a longer one.
    (LONGER_TAIL, EACH[6] % tuple("npqtrs"), [
        ("n", ["run 9 / queue n / queue r / queue s / start 0 n / wait 0 r / start 4 r / wait 4 s / start 5 s / wait 5 s"]),
        ("p", ["run 9 / queue p / queue q / queue t / start 1 p / wait 1 q / start 2 q / wait 2 t / start 3 t / wait 3 p"]),
    ]),
    (LONGER_CIRCLE, EACH[4] % tuple("npus"), [
        ("n", ["run 6 / queue n / queue p / start 0 n / wait 0 p / start 1 p / wait 1 n"]),
        ("u", ["run 6 / queue u / queue s / start 2 u / wait 2 s / start 3 s / wait 3 s"]),
    ]),
    # The fewest steps, and not the fewest waits.
    (FEWER_WAITS + " / flush f n", ON_SIX, [
        ("n", ["run 12 / queue n / queue d / queue e / queue f / start 0 n / wait 0 d / start 3 d / wait 3 e / start 4 e / wait 4 f"
               " / start 5 f / wait 5 n"]),
    ]),
    (FEWER_WAITS, ON_SIX, [
        ("n", ["run 13 / queue a / queue b / queue c / queue n / queue y / queue x / queue z / start 0 a / wait 0 y / start 1 b"
               " / wait 1 x / start 2 c / wait 2 z"]),
    ]),
    # Of two that wait alike the NAMEd one has nobody in front of it, whichever is declared first.
    ("item y / item x / item a / flush y a / flush x a / flush a a", "wq 0 y x / wq 1 a", [
        ("x", ["run 6 / queue x / queue a / start 0 x / wait 0 a / start 1 a / wait 1 a"]),
        ("y", ["run 6 / queue y / queue a / start 0 y / wait 0 a / start 1 a / wait 1 a"]),
    ]),
    # A workqueue on which two wait is waited for: nothing more is queued there. By way of `c` it would take 7 steps.
    ("item n / item a / item b / item c / item x / flushwq n b / flush a a / flush n c / flush c x",
     "wq 0 n / wq 1 a b / wq 2 c / norescuer 3 x", [
         ("n", ["run 6 / queue n / queue a / start 0 n / waitwq 0 b / start 1 a / wait 1 a"]),
     ]),
    # Two wait for `b`, which is queued once. By way of `d`, which is in front of `c`, it would take 8 steps.
    ("item n / item a / item b / item c / item d / item x / flush n b / flush a b / flush n c / flush d x",
     "wq 0 n / wq 1 a b / wq 2 c d / norescuer 3 x", [
         ("n", ["run 7 / queue n / queue a / queue b / start 0 n / wait 0 b / start 1 a / wait 1 b"]),
     ]),
    # What is waited for on a workqueue without a rescuer is queued, by `flushwq` too: so that takes 4 steps.
    ("item n / item x / flushwq n x / flush n n", "wq 0 n / norescuer 1 x", [("n", ["run 3 / queue n / start 0 n / wait 0 n"])]),
    # Who is on a workqueue without a rescuer may wait for another one that has none: that holds up nobody else.
    ("item n / item x / item y / flush x y / flush y n", "wq 0 n / norescuer 1 x / norescuer 2 y", [("n", ["safe"])]),
    ("item n", "wq 0 n", [("n", ["safe"]), ("m", ["refused 8 line 0"]), ("n m", ["refused 8 line 0"]), ("m n", ["refused 8 line 0"])]),
    # The texts are judged first. A NAME may be what no item can be called.
    ("item n / flush n m", "wq 0 n", [("m", ["refused 8 line 2"])]),
    ("item n", "wq 0", [("m", ["refused 41 line 0"])]),
    ("item n", "wq 0 n", [("N", ["refused 8 line 0"]), ("n" * 64, ["refused 8 line 0"]), ("0", ["refused 8 line 0"])]),
    ("item -", "norescuer 0 -", [("-", ["run 1 / queue -"])]),
    # Of two that are held up equally soon the one declared first, in whichever order they are NAMEd, and however often. (The page says
    # only that it is the same one.)
    ("item x / item y", "norescuer 0 x y", [
        ("x y", ["run 1 / queue x"]),
        ("y x", ["run 1 / queue x"]),
        ("y y x y", ["run 1 / queue x"]),
    ]),
    ("item x / item y / flush? x y", "norescuer 0 x / norescuer 1 y", [
        ("x y", ["unsure 0 / run 1 / queue x"]),
        ("y x", ["unsure 0 / run 1 / queue x"]),
    ]),
    ("item a / item m / item n / flush a a", "wq 0 a m n", [
        ("m n", ["run 4 / queue a / queue m / start 0 a / wait 0 a"]),
        ("n m", ["run 4 / queue a / queue m / start 0 a / wait 0 a"]),
        ("n m n", ["run 4 / queue a / queue m / start 0 a / wait 0 a"]),
    ]),
    # Unsure lines: the fewest first, and then the fewest steps.
    ("item n / item a / item b / flush? n a / flush? a a / flush n b / flush? b n", "wq 0 n / wq 1 a / wq 2 b", [
        ("n", ["unsure 1 / flush? b n / run 6 / queue n / queue b / start 0 n / wait 0 b / start 2 b / wait 2 n"]),
        ("a", ["unsure 1 / flush? a a / run 3 / queue a / start 1 a / wait 1 a"]),
        ("a n", ["unsure 1 / flush? a a / run 3 / queue a / start 1 a / wait 1 a"]),
    ]),
    # The way counts, too; and a sure way is better than one that isn't, though it is longer.
    ("item n / item a / item b / flush? n a / flush n b / flush b a / flush a a", "wq 0 n / wq 1 a / wq 2 b", [
        ("n", ["unsure 0 / run 9 / queue n / queue b / queue a / start 0 n / wait 0 b / start 2 b / wait 2 a / start 1 a / wait 1 a"]),
    ]),
    ("item n / item a / flush? n a / flush a a", "wq 0 n / wq 1 a", [
        ("n", ["unsure 1 / flush? n a / run 6 / queue n / queue a / start 0 n / wait 0 a / start 1 a / wait 1 a"]),
        ("a", ["unsure 0 / run 3 / queue a / start 1 a / wait 1 a"]),
    ]),
    # By `flushwq?`; and of two flushes the sure one.
    ("item n / item a / item b / flushwq? n b / flush a a", "wq 0 n / wq 1 a b", [
        ("n", ["unsure 1 / flushwq? n b / run 6 / queue n / queue a / start 0 n / waitwq 0 b / start 1 a / wait 1 a"]),
        ("b", ["unsure 0 / run 4 / queue a / queue b / start 1 a / wait 1 a"]),
    ]),
    ("item n / item a / flush? n a / flush n a / flush a a", "wq 0 n / wq 1 a", [
        ("n", ["unsure 0 / run 6 / queue n / queue a / start 0 n / wait 0 a / start 1 a / wait 1 a"]),
    ]),
    ("item n / item a / flushwq? n n / flush n a / flush a a", "wq 0 n / wq 1 a", [
        ("n", ["unsure 0 / run 6 / queue n / queue a / start 0 n / wait 0 a / start 1 a / wait 1 a"]),
    ]),
    # Only what it takes is printed.
    ("item n / item a / flush? n a / flush? a n / flush? n n", "wq 0 n / wq 1 a", [
        ("n", ["unsure 1 / flush? n n / run 3 / queue n / start 0 n / wait 0 n"]),
        ("a", ["unsure 2 / flush? n a / flush? a n / run 6 / queue a / queue n / start 1 a / wait 1 n / start 0 n / wait 0 a",
               "unsure 2 / flush? a n / flush? n n / run 6 / queue a / queue n / start 1 a / wait 1 n / start 0 n / wait 0 n"]),
    ]),
    ("item n / item x / flush? n x", "norescuer 0 n / norescuer 1 x", [("n", ["unsure 0 / run 1 / queue n"])]),
    ("item n / item x / flush? n x", "wq 0 n / norescuer 1 x", [
        ("n", ["unsure 1 / flush? n x / run 4 / queue n / queue x / start 0 n / wait 0 x"]),
    ]),
    ("item n / item x / flush? x n", "wq 0 n / norescuer 1 x", [("n", ["safe"])]),
]

# The longest way: one after the other, and the last one waits for itself.
LONG_ITEMS = [f"i{number:04}" for number in range(4096)]
LONG = [(
    " / ".join([*(f"item {name}" for name in LONG_ITEMS), *(f"flush {name} {after}" for name, after in zip(LONG_ITEMS, LONG_ITEMS[1:])),
                "flush i4095 i4095"]),
    " / ".join(f"wq {number} {name}" for number, name in enumerate(LONG_ITEMS)), "i0000", "run 12288"),
]

# Runs, with NAMEs: a declaration, an assignment, a run, NAMEs, and how it ends.
REPLAYS = [
    (PAST, "wq 0 a / norescuer 1 x / wq 2 n", "run 1 / queue x", [("x", "stuck"), ("n", "open"), ("a", "open"), ("a x", "stuck")]),
    (PAST, "wq 0 a / norescuer 1 x / wq 2 n", "run 1 / queue x", [("x a", "stuck"), ("a x a n", "stuck"), ("n a n", "open")]),
    (PAST, "wq 0 a / norescuer 1 x / wq 2 n", "run 0", [("x", "open"), ("x n a", "open")]),
    ("item x", "norescuer 0 x", "run 1 / queue x", [("x", "deadlock")]),
    ("item x", "norescuer 0 x", "run 2 / queue x / start 0 x", [("x", "open")]),
    ("item x / flush x x", "norescuer 0 x", "run 3 / queue x / start 0 x / wait 0 x", [("x", "deadlock")]),
    # Who is NAMEd isn't in it, or has finished.
    (SELF, "wq 0 a / wq 1 n", "run 3 / queue a / start 0 a / wait 0 a", [("a", "stuck"), ("n", "open"), ("a n", "stuck")]),
    (SELF, "wq 0 a / wq 1 n", "run 6 / queue a / start 0 a / wait 0 a / queue n / start 1 n / finish 1 n",
     [("a", "deadlock"), ("n", "open")]),
    # It is queued, but can still start.
    (SELF, "wq 0 a / wq 1 n", "run 4 / queue a / start 0 a / wait 0 a / queue n", [("a", "open"), ("n", "open")]),
    (SELF, "wq 0 a n", "run 4 / queue a / start 0 a / wait 0 a / queue n", [("a", "deadlock"), ("n", "deadlock")]),
    (SELF, "wq 0 a n", "run 1 / start 0 a", [("a", "not lawful 1"), ("m", "refused 8 line 0")]),
    (SELF, "wq 0 a n", "run 1", [("m", "refused 40 line 0")]),
    ("item n / item a / flush? n a / flush a a", "wq 0 n / wq 1 a",
     "unsure 1 / flush? n a / run 6 / queue n / queue a / start 0 n / wait 0 a / start 1 a / wait 1 a",
     [("n", "deadlock"), ("a", "deadlock")]),
]

# `circles` with NAMEs.
TREE = "item n / item p / item a / item b / flush n p / flush p a / flush a a / flush b b / flush b n"
ON_FOUR = EACH[4] % tuple("npab")
CIRCLES = [
    (TREE, ON_FOUR, [
        ("n", "components 1 / component 1 / arc a a / ways 2 / arc n p / arc p a"),
        ("a", "components 1 / component 1 / arc a a"),
        ("a a", "components 1 / component 1 / arc a a"),
        ("b", "components 2 / component 1 / arc a a / component 1 / arc b b / ways 3 / arc n p / arc p a / arc b n"),
        ("p n", "components 1 / component 1 / arc a a / ways 2 / arc n p / arc p a"),
        ("n p n", "components 1 / component 1 / arc a a / ways 2 / arc n p / arc p a"),
        ("p", "components 1 / component 1 / arc a a / ways 1 / arc p a"),
        ("z", "refused 8 line 0"),
    ]),
    # Flushes that lead to nothing that hangs are no ways.
    ("item n / item p / item a / flush n p a / flush a a", "wq 0 n / wq 1 p / wq 2 a", [
        ("n", "components 1 / component 1 / arc a a / ways 1 / arc n a"),
        ("p", "safe"),
    ]),
    (PAST, "wq 0 a / norescuer 1 x / wq 2 n", [
        ("n", "safe"),
        ("a", "components 0 / norescuer 1 / arc a x"),
        ("x", "components 0"),
        ("x a", "components 0 / norescuer 1 / arc a x"),
    ]),
    # A way to a flush that leads to no rescuer. Behind a workqueue without one nothing matters.
    (CHAIN, "wq 0 n / norescuer 1 x / wq 2 a", [
        ("a", "components 0 / norescuer 1 / arc n x / ways 1 / arc a n"),
        ("n", "components 0 / norescuer 1 / arc n x"),
        ("x", "components 0"),
    ]),
    ("item n / item x / item y / flush x y / flush y n", "wq 0 n / norescuer 1 x / norescuer 2 y", [
        ("n", "safe"),
        ("x n", "components 0"),
    ]),
    # What is on the workqueue of a NAMEd item counts, whichever item flushes.
    (SELF, "wq 0 a n", [("n", "components 1 / component 1 / arc a a")]),
    (SELF, "wq 0 a / wq 1 n", [("n", "safe")]),
    ("item n / item x / flush? n x", "wq 0 n / norescuer 1 x", [("n", "components 0 / norescuer 1 / arc? n x"), ("x", "components 0")]),
    ("item n / item a / flush? n a / flush a a", "wq 0 n / wq 1 a", [
        ("n", "components 1 / component 1 / arc a a / ways 1 / arc? n a"),
    ]),
    ("item n / flush n m", "wq 0 n", [("m", "refused 8 line 2")]),
    ("item n", "wq 1 n", [("m", "refused 43 line 1")]),
]
