# Declarations with unsure lines (`flush?`, `flushwq?`): what each command answers to them.
#
# The rules are those of "Unsure lines", "The command `hang`" and of the other commands in docs/FORMAT.md, from which each answer was
# worked out by hand; beside it stands how. Where several runs are as good, all of them stand here.

TWO = "item a / item b"
THREE = "item a / item b / item c"
ALONE = "wq 0 a / wq 1 b / wq 2 c"
CIRCLE = "item reconnect / item send / item log / item receive / flush reconnect send / flush? send log / flush? log reconnect / flush? receive log"
CIRCLE_WQS = "wq 0 reconnect / wq 1 send / wq 2 log / wq 3 receive"
CIRCLE_PART = "unsure 2 / flush? send log / flush? log reconnect"
FROM_SEND = ("run 9 / queue send / queue log / queue reconnect / start 1 send / wait 1 log / start 2 log / wait 2 reconnect / start 0 reconnect"
             " / wait 0 send")
FROM_LOG = ("run 9 / queue log / queue reconnect / queue send / start 2 log / wait 2 reconnect / start 0 reconnect / wait 0 send / start 1 send"
            " / wait 1 log")
LOOPED = "item a / flush? a a"
PAIR = f"{TWO} / flush? a b"
X = "item a / item b / item x"

# What `hang` prints: the texts, and all answers that are right.
HANGS = [
    # One line, one item: it waits for itself if the line is so. No workqueue with a rescuer: nothing hangs.
    (LOOPED, "wq 0 a", ["unsure 1 / flush? a a / run 3 / queue a / start 0 a / wait 0 a"]),
    (LOOPED, "norescuer 0 a", ["safe"]),
    ("item a / flushwq? a a", "wq 0 a", ["unsure 1 / flushwq? a a / run 3 / queue a / start 0 a / waitwq 0 a"]),
    # b is behind a. On two workqueues no circle is there, whether the line is so or not.
    (PAIR, "wq 0 a b", ["unsure 1 / flush? a b / run 4 / queue a / queue b / start 0 a / wait 0 b"]),
    (PAIR, "plan 1 / wq 0 b a / chain 1", ["unsure 1 / flush? a b / run 4 / queue a / queue b / start 0 a / wait 0 b"]),
    (PAIR, "wq 0 a / wq 1 b", ["safe"]),
    # Who flushes the whole workqueue that it is on needs nothing behind it.
    (f"{TWO} / flushwq? a b", "wq 0 a b", ["unsure 1 / flushwq? a b / run 3 / queue a / start 0 a / waitwq 0 b"]),
    # The sure lines alone are safe: a waits for b, which waits for nothing. With the unsure one they wait for each other. It is the
    # first wait of the run.
    (f"{TWO} / flush a b / flush? b a", "wq 0 a / wq 1 b",
     ["unsure 1 / flush? b a / run 6 / queue b / queue a / start 1 b / wait 1 a / start 0 a / wait 0 b"]),
    # b hangs whatever the line of a turns out to be.
    (f"{TWO} / flush? a a / flush b b", "wq 0 a / wq 1 b", ["unsure 0 / run 3 / queue b / start 1 b / wait 1 b"]),
    # All hang where both lines are so, and none where neither is: not for sure.
    (f"{TWO} / flush? a a / flush? b b", "wq 0 a / wq 1 b",
     ["unsure 1 / flush? a a / run 3 / queue a / start 0 a / wait 0 a", "unsure 1 / flush? b b / run 3 / queue b / start 1 b / wait 1 b"]),
    # Fewer lines come before fewer steps: 6 steps without a line, and not 3 with one.
    (f"{THREE} / flush? a a / flush b c / flush c b", ALONE,
     ["unsure 0 / run 6 / queue b / queue c / start 1 b / wait 1 c / start 2 c / wait 2 b",
      "unsure 0 / run 6 / queue c / queue b / start 2 c / wait 2 b / start 1 b / wait 1 c"]),
    # The lines of a and b are enough, and neither of them alone is; but the one of e is enough by itself, in 9 steps in place of 6.
    (f"{THREE} / item d / item e / flush? a b / flush? b a / flush c d / flush d e / flush? e c", f"{ALONE} / wq 3 d / wq 4 e",
     ["unsure 1 / flush? e c / run 9 / queue e / queue c / queue d / start 4 e / wait 4 c / start 2 c / wait 2 d / start 3 d / wait 3 e"]),
    # The same, where the line of e comes first.
    (f"{THREE} / item d / item e / flush? e c / flush c d / flush d e / flush? b a / flush? a b", f"{ALONE} / wq 3 d / wq 4 e",
     ["unsure 1 / flush? e c / run 9 / queue e / queue c / queue d / start 4 e / wait 4 c / start 2 c / wait 2 d / start 3 d / wait 3 e"]),
    # Of those with one line the one with fewer steps: c waits for itself.
    (f"{THREE} / flush? a b / flush b a / flush? c c", ALONE, ["unsure 1 / flush? c c / run 3 / queue c / start 2 c / wait 2 c"]),
    # One line of three is enough, since b has a sure flush of a, too.
    (f"{TWO} / flush? a b / flush? b a / flush b a", "wq 0 a / wq 1 b",
     ["unsure 1 / flush? a b / run 6 / queue a / queue b / start 0 a / wait 0 b / start 1 b / wait 1 a"]),
    # The same flush is there as a sure one, behind the unsure one: no line is needed.
    (f"{TWO} / flush? a b / flush a b / flush b a", "wq 0 a / wq 1 b",
     ["unsure 0 / run 6 / queue a / queue b / start 0 a / wait 0 b / start 1 b / wait 1 a",
      "unsure 0 / run 6 / queue b / queue a / start 1 b / wait 1 a / start 0 a / wait 0 b"]),
    # Two lines with the same words: one of them is enough.
    (f"{LOOPED} / flush? a a", "wq 0 a", ["unsure 1 / flush? a a / run 3 / queue a / start 0 a / wait 0 a"]),
    # The lines come in order of place, whatever the run begins with. It may begin with either.
    (f"{TWO} / flush? b a / flush? a b", "wq 0 a / wq 1 b",
     ["unsure 2 / flush? b a / flush? a b / run 6 / queue a / queue b / start 0 a / wait 0 b / start 1 b / wait 1 a",
      "unsure 2 / flush? b a / flush? a b / run 6 / queue b / queue a / start 1 b / wait 1 a / start 0 a / wait 0 b"]),
    # They do so, too, where no run has this order: it goes from a to b and c.
    (f"{THREE} / flush? a b / flush? c a / flush? b c", ALONE,
     ["unsure 3 / flush? a b / flush? c a / flush? b c / run 9 / queue a / queue b / queue c / start 0 a / wait 0 b / start 1 b / wait 1 c / start 2 c"
      " / wait 2 a",
      "unsure 3 / flush? a b / flush? c a / flush? b c / run 9 / queue b / queue c / queue a / start 1 b / wait 1 c / start 2 c / wait 2 a / start 0 a"
      " / wait 0 b",
      "unsure 3 / flush? a b / flush? c a / flush? b c / run 9 / queue c / queue a / queue b / start 2 c / wait 2 a / start 0 a / wait 0 b / start 1 b"
      " / wait 1 c"]),
    # The example of the page. It doesn't begin with reconnect, whose flush is sure. That of receive is on no circle.
    (CIRCLE, CIRCLE_WQS, [f"{CIRCLE_PART} / {FROM_SEND}", f"{CIRCLE_PART} / {FROM_LOG}"]),
    # Of two unsure lines with the same ends the one of the kind that takes fewer steps: c needn't be queued.
    (f"{THREE} / flush? a c / flushwq? a c / flush b a", "wq 0 a / wq 1 b c",
     ["unsure 1 / flushwq? a c / run 6 / queue a / queue b / start 0 a / waitwq 0 c / start 1 b / wait 1 a"]),
    # A group of two: c waits for b, which is behind a.
    (f"{THREE} / ordered a b / flush? a c / flush c b", "wq 0 a b / wq 1 c",
     ["unsure 1 / flush? a c / run 7 / queue a / queue c / queue b / start 0 a / wait 0 c / start 1 c / wait 1 b"]),
    # To no rescuer: by either kind.
    ("item a / item x / flush? a x", "wq 0 a / norescuer 1 x", ["unsure 1 / flush? a x / run 4 / queue a / queue x / start 0 a / wait 0 x"]),
    ("item a / item x / flushwq? a x", "wq 0 a / norescuer 1 x", ["unsure 1 / flushwq? a x / run 4 / queue a / queue x / start 0 a / waitwq 0 x"]),
    # A sure one before an unsure one of lower place; of two unsure ones the one of lower place.
    (f"{X} / flush? a x / flush b x", "wq 0 a / wq 1 b / norescuer 2 x", ["unsure 0 / run 4 / queue b / queue x / start 1 b / wait 1 x"]),
    (f"{X} / flush? b x / flush? a x", "wq 0 a / wq 1 b / norescuer 2 x",
     ["unsure 1 / flush? b x / run 4 / queue b / queue x / start 1 b / wait 1 x"]),
    # With one line each: 3 steps of b are fewer than 4 of a; and where both take 4, it is the one to no rescuer.
    (f"{X} / flush? a x / flush? b b", "wq 0 a / wq 1 b / norescuer 2 x", ["unsure 1 / flush? b b / run 3 / queue b / start 1 b / wait 1 b"]),
    (f"{THREE} / item x / flush? b c / flush? a x", "wq 0 b c / wq 1 a / norescuer 2 x",
     ["unsure 1 / flush? a x / run 4 / queue a / queue x / start 1 a / wait 1 x"]),
    # A sure circle, of 4 steps, before an unsure flush to no rescuer.
    (f"{THREE} / item x / flush b c / flush? a x", "wq 0 b c / wq 1 a / norescuer 2 x", ["unsure 0 / run 4 / queue b / queue c / start 0 b / wait 0 c"]),
    # What a workqueue without a rescuer waits for makes no difference.
    ("item x / item a / flush? x a / flushwq? x x", "norescuer 0 x / wq 1 a", ["safe"]),
]


def ring(items, marks, *more):
    """So many items on as many workqueues, each of which flushes the next one, and more lines. The marks come in turn behind `flush`."""
    lines = [f"item i{at}" for at in range(items)]
    lines += [f"flush{marks[at % len(marks)]} i{at} i{(at + 1) % items}" for at in range(items)] + [*more]
    return " / ".join(lines), " / ".join(f"wq {at} i{at}" for at in range(items))


# Of the longest only the first line is compared: all lines of a circle of 4,096 are needed, or every second one. In the third one item can
# be left out, though the circle of all is within what a sum of 27 bits can't tell from a shorter one: 4,096 times 32,771 are more than 2^27.
LONG = [(*ring(4_096, "?"), "unsure 4096"), (*ring(4_096, ["?", ""]), "unsure 2048"), (*ring(4_096, "?", "flush? i4094 i0"), "unsure 4095")]

# What `deadlock` prints.
OWN_ORDER = f"{THREE} / flush? a c / flush a b / flush b a"
TWICE = f"{THREE} / flush? a b / flush a c / flush? a b / flush b a"
OWN_RUN = "run 9 / queue a / queue b / queue c / start 0 a / wait 0 b / start 1 b / wait 1 a / start 2 c / finish 2 c"
DEADLOCKS = [
    (PAIR, "wq 0 a b", "unsure 1 / flush? a b / run 4 / queue a / queue b / start 0 a / wait 0 b"),
    (PAIR, "wq 0 a / wq 1 b", "safe"),
    # receive flushes nothing in the reading that keeps these two, so it finishes. The circle begins on workqueue 0.
    (CIRCLE, CIRCLE_WQS, f"{CIRCLE_PART} / run 12 / queue reconnect / queue send / queue log / queue receive / start 0 reconnect / wait 0 send"
     " / start 1 send / wait 1 log / start 2 log / wait 2 reconnect / start 3 receive / finish 3 receive"),
    # The unsure line isn't kept, so a flushes b first, and not c.
    (OWN_ORDER, ALONE, f"unsure 0 / {OWN_RUN}"),
    # Of two lines with the same words the higher one is kept: a flushes b first, and not c.
    (TWICE, ALONE, f"unsure 1 / flush? a b / {OWN_RUN}"),
]

# How runs end, with an unsure part and without one.
PAIR_RUN = "run 4 / queue a / queue b / start 0 a / wait 0 b"
AGAIN = ("run 8 / queue a / queue b / start 0 a / start 1 b / finish 1 b / wait 0 b / over 0 b / wait 0 b")
REPLAYS = [
    # With all flushes, and in the reading that keeps the line; in the one that doesn't, a may not wait for b.
    (PAIR, "wq 0 a b", PAIR_RUN, "deadlock"),
    (PAIR, "wq 0 a b", f"unsure 1 / flush? a b / {PAIR_RUN}", "deadlock"),
    (PAIR, "wq 0 a b", f"unsure 0 / {PAIR_RUN}", "not lawful 4"),
    (PAIR, "wq 0 a b", "# x / unsure  0 # none /  / run 4 / queue a / queue b / start 0 a / finish 0 a", "open"),
    # As declared in its reading, and not with all flushes, of which a's first one is of c.
    (OWN_ORDER, ALONE, f"unsure 0 / {OWN_RUN}", "deadlock"),
    (OWN_ORDER, ALONE, OWN_RUN, "stuck"),
    (OWN_ORDER, ALONE, f"unsure 1 / flush? a c / {OWN_RUN}", "stuck"),
    # A line stands for the higher one of two with the same words: b comes first in its reading.
    (TWICE, ALONE, f"unsure 1 / flush? a b / {OWN_RUN}", "deadlock"),
    (TWICE, ALONE, f"unsure 0 / {OWN_RUN}", "not lawful 5"),
    # receive isn't queued, so it is no deadlock. The order of the lines means nothing.
    (CIRCLE, CIRCLE_WQS, f"{CIRCLE_PART} / {FROM_SEND}", "stuck"),
    (CIRCLE, CIRCLE_WQS, f"unsure 3 / flush? receive log / flush? log reconnect / flush? send log / {FROM_LOG}", "stuck"),
    (CIRCLE, CIRCLE_WQS, f"unsure 1 / flush? send log / {FROM_SEND}", "not lawful 7"),
    # In a reading without the line an execution of a makes one wait, and not two. Then its second wait is over at once.
    (f"{TWO} / flush? a b / flush a b", "wq 0 a / wq 1 b", f"unsure 0 / {AGAIN}", "not lawful 8"),
    (f"{TWO} / flush? a b / flush a b", "wq 0 a / wq 1 b", f"unsure 1 / flush? a b / {AGAIN}", "open"),
    # A declaration without unsure lines has one reading.
    ("item a / flush a a", "wq 0 a", "unsure 0 / run 3 / queue a / start 0 a / wait 0 a", "deadlock"),
    ("item a / flush a a", "wq 0 a", "unsure 1 / flush? a a / run 3 / queue a / start 0 a / wait 0 a", "refused 40 line 2"),
    # A line that is no unsure line of the declaration, of the other kind, without its mark, turned round, or once too often.
    (PAIR, "wq 0 a b", "unsure 1 / flushwq? a b / run 0", "refused 40 line 2"),
    (PAIR, "wq 0 a b", "unsure 1 / flush a b / run 0", "refused 40 line 2"),
    (PAIR, "wq 0 a b", "unsure 1 / flush? b a / run 0", "refused 40 line 2"),
    (PAIR, "wq 0 a b", "unsure 2 / flush? a b / flush? a b / run 0", "refused 40 line 3"),
    (PAIR, "wq 0 a b", "unsure 1 / flush? a b b / run 0", "refused 40 line 2"),
    # More lines than M says, or fewer; and M.
    (PAIR, "wq 0 a b", "unsure 0 / flush? a b / run 0", "refused 40 line 2"),
    (PAIR, "wq 0 a b", "unsure 2 / flush? a b / run 0", "refused 40 line 3"),
    (PAIR, "wq 0 a b", "unsure 1 / flush? a b", "refused 40 line 0"),
    (PAIR, "wq 0 a b", "unsure 1", "refused 40 line 0"),
    (PAIR, "wq 0 a b", "unsure 16384 / run 0", "refused 40 line 2"),
    (PAIR, "wq 0 a b", "unsure 16385 / run 0", "refused 43 line 1"),
    (PAIR, "wq 0 a b", "unsure 01 / flush? a b / run 0", "refused 40 line 1"),
    (PAIR, "wq 0 a b", "unsure / run 0", "refused 40 line 1"),
    (PAIR, "wq 0 a b", "run 0 / unsure 0", "refused 40 line 2"),
]

PLANS = [
    # Unsure flushes count: b is below a. There is one chain.
    (PAIR, "plan 2 / wq 0 b / wq 1 a / chain 2 / arc a b"),
    # The chain by the sure flush, though the unsure one has the lower place; and the one that begins at b, though a comes first.
    (f"{THREE} / flush? a b / flush a c", "plan 2 / wq 0 b c / wq 1 a / chain 2 / arc a c"),
    (f"{THREE} / item d / flush? a c / flush b d", "plan 2 / wq 0 c d / wq 1 a b / chain 2 / arc b d"),
    # Of two chains with one unsure flush each the one whose first arc has the lower place, though that is the unsure one.
    (f"{THREE} / item d / flush? a b / flush b d / flush a c / flush? c d", "plan 3 / wq 0 d / wq 1 b c / wq 2 a / chain 3 / arc a b / arc b d"),
    # The sure flush of e by d counts, so both chains have one unsure flush, and the one by b begins with the arc of lower place.
    (f"{THREE} / item d / item e / flush a b / flush? b d / flush? d e / flush? a c / flush c d / flush d e",
     "plan 4 / wq 0 e / wq 1 d / wq 2 b c / wq 3 a / chain 4 / arc a b / arc b d / arc d e"),
    # By b two unsure flushes follow a sure one of lower place; by c there is only one, the first.
    (f"{THREE} / item d / item e / item f / flush a b / flush? b d / flush? d f / flush? a c / flush c e / flush e f",
     "plan 4 / wq 0 f / wq 1 d e / wq 2 b c / wq 3 a / chain 4 / arc a c / arc c e / arc e f"),
    # A shorter chain without an unsure flush doesn't count: the longest have three groups.
    (f"{THREE} / flush? a b / flush b c / flush a c", "plan 3 / wq 0 c / wq 1 b / wq 2 a / chain 3 / arc a b / arc b c"),
    # By `flushwq?`, and in groups: that of a and d waits for that of b and c.
    (f"{THREE} / item d / ordered a d / ordered b c / flushwq? d c", "plan 2 / wq 0 b c / wq 1 a d / chain 2 / arc d c"),
    # A circle, and its run, are of all flushes.
    (f"{TWO} / flush? a b / flush b a", "circle 2 / arc a b / arc b a / run 6 / queue a / queue b / start 0 a / wait 0 b / start 1 b / wait 1 a"),
    # Mistakes. One line has one target.
    (f"{THREE} / flush? a b c", "refused 12 line 4"),
    (f"{TWO} / flushwq? a b a", "refused 12 line 3"),
    (f"{TWO} / flush? a", "refused 5 line 3"),
    ("flush?", "refused 5 line 1"),
    ("flushwq? a", "refused 5 line 1"),
    (f"{TWO} / flush a b?", "refused 6 line 3"),
    (f"{TWO} / flush a? b", "refused 6 line 3"),
    (f"{TWO} / flush ?a b", "refused 6 line 3"),
    (f"{TWO} / flush ? a b", "refused 6 line 3"),
    (f"{TWO} / flush? a b!", "refused 6 line 3"),
    (f"{TWO} / ? flush a b", "refused 4 line 3"),
    (f"{TWO} / ?flush a b", "refused 4 line 3"),
    ("? other a.c:3 f", "refused 4 line 1"),
    (f"{TWO} / flush?? a b", "refused 4 line 3"),
    (f"{TWO} / Flush? a b", "refused 4 line 3"),
    ("item? a", "refused 4 line 1"),
    (f"{TWO} / ordered? a b", "refused 4 line 3"),
    (f"{TWO} / flush? a c", "refused 8 line 3"),
    (f"{TWO} / flushwq? c a", "refused 8 line 3"),
    (" / ".join(["item a", *["flush? a a"] * 16_385]), "refused 10 line 16386"),
    (" / ".join(["item a", *["flush a a", "flushwq? a a"] * 8_192, "flush? a a"]), "refused 10 line 16386"),
]

CHECKS = [
    # b is below a, as it must be; the chain may follow the unsure flush. Where b isn't below a, the flush is named.
    (PAIR, "plan 2 / wq 0 b / wq 1 a / chain 2 / arc a b", "yes 2"),
    (PAIR, "plan 1 / wq 0 a b / chain 1", "no 50 a b"),
    (PAIR, "plan 2 / wq 0 b / wq 1 a / chain 2 / arc b a", "no 51 1"),
    # The run of a circle is of all flushes, and has no unsure part.
    (f"{TWO} / flush? a b / flush b a", "circle 2 / arc a b / arc b a / run 6 / queue a / queue b / start 0 a / wait 0 b / start 1 b / wait 1 a",
     "yes circle 2"),
    (LOOPED, "circle 1 / arc a a", "yes circle 1"),
    (LOOPED, "circle 1 / arc? a a", "refused 40 line 2"),
    (LOOPED, "circle 1 / arc a a / unsure 0 / run 0", "refused 40 line 3"),
    (LOOPED, "unsure 0 / circle 1 / arc a a", "refused 40 line 1"),
]

CIRCLES = [
    (CIRCLE, CIRCLE_WQS, "components 1 / component 3 / arc reconnect send / arc? send log / arc? log reconnect"),
    (CIRCLE, "components 1 / component 3 / arc reconnect send / arc? send log / arc? log reconnect"),
    # Those to no rescuer, in order of place.
    (f"{X} / flush? a x / flush b x / flushwq? b x", "wq 0 a / wq 1 b / norescuer 2 x", "components 0 / norescuer 3 / arc? a x / arc b x / arc? b x"),
    # Of one item twice, sure and unsure.
    (f"{TWO} / flush? a b / flush a b / flushwq? b a", "components 1 / component 3 / arc? a b / arc a b / arc? b a"),
    (PAIR, "safe"),
    (LOOPED, "norescuer 0 a", "safe"),
]

# The words behind the files come third.
REPAIRS = [
    # a and x are on workqueues of their own then, whatever the line turns out to be.
    ("item a / item x / flush? a x", "wq 0 a x", "", "wq 0 a / wq 1 x"),
    ("item a / item x / flush? a x", "wq 0 a / norescuer 1 x", "", "wq 0 a / wq 1 x"),
    # y alone doesn't help: the run of the start is of all flushes, and has no unsure part.
    ("item a / item x / item y / flush? a x", "wq 0 a x y", "y", "run 7 / queue a / queue x / queue y / start 0 a / wait 0 x / start 1 y / finish 1 y"),
    (LOOPED, "wq 0 a", "", "circle 1 / arc a a / run 3 / queue a / start 0 a / wait 0 a"),
]

RUNS = [
    # a makes its unsure flush, too.
    (PAIR, "workqueues 2 / item a wq 1 queued 1 cancelled 0 finished 1 / item b wq 0 queued 1 cancelled 0 finished 1 / faults 0"),
    (LOOPED, "circle 1 / arc a a / run 3 / queue a / start 0 a / wait 0 a"),
]

HEAD = """digraph wqplan {{
  graph [label="{title}", labelloc=t, labeljust=l, rankdir=LR, nodesep=0.15, ranksep=1, fontname="sans-serif"];
  node [shape=box, style=filled, fillcolor=white, height=0.3, fontname="sans-serif", fontsize=12];
  edge [arrowsize=0.7];
"""
WQ = """  subgraph "cluster wq {number}" {{
    graph [label="", style=filled, color=gray92]; "wq {number}" [shape=plaintext, style="", fontsize=14];
{items}  }}
"""


def drawing(title, wqs, arrows):
    """A drawing with this title, these items on the workqueues, and these lines of arrows."""
    boxes = [WQ.format(number=number, items="".join(f'    "{name}";\n' for name in names)) for number, names in enumerate(wqs)]
    return (HEAD.format(title=title) + "".join(boxes) + "".join(f"  {arrow};\n" for arrow in arrows) + "}").replace("\n", " / ")


DRAWINGS = [
    # The chain follows the unsure flush.
    (f"{PAIR}  # a.c:7", drawing(r"plan of 2 workqueues, 1 wait in bold, 1 not sure\lBold: the chain that needs so many workqueues.\lDotted: not sure.\l",
                                 ["b", "a"], ['"a" -> "b" [style="bold,dotted"] [edgetooltip="a.c:7"]'])),
    # It follows the sure one of two.
    (f"{TWO} / flushwq? a b / flush a b", drawing(
        r"plan of 2 workqueues, 1 wait in bold, 1 not sure\lBold: the chain that needs so many workqueues.\lDotted: not sure.\l",
        ["b", "a"], ['"a" -> "b" [style=dotted] [arrowhead=odiamond]', '"a" -> "b" [style=bold]'])),
    (PAIR, "wq 0 b / wq 1 a", drawing(r"safe, 1 not sure\lDotted: not sure.\l", ["b", "a"], ['"a" -> "b" [style=dotted]'])),
    # c waits for itself, which is enough. The two of a and b are on a circle, too, and the one of b is drawn from its target.
    (f"{THREE} / flush? a b / flush? b a / flush c c / flush? c a", ALONE, drawing(
        r"can hang, 3 waits in red, 1 in bold, 3 not sure\lRed: while memory is short, a worker may wait for work\lthat only it, or one that waits for "
        r"it, can do.\lBold: enough to hang it, in the fewest steps.\lDotted: not sure.\l", ["a", "b", "c"],
        ['"a" -> "b" [color=red, style="bold,dotted"]', '"a" -> "b" [color=red, style="bold,dotted"] [dir=back]',
         '"c" -> "c" [color=red, penwidth=4]', '"c" -> "a" [style=dotted]'])),
    (LOOPED, drawing(
        r"every assignment can hang, 1 wait in red, 1 not sure\lRed: while memory is short, a worker may wait for work\lthat only it, or one that waits "
        r"for it, can do.\lDotted: not sure.\l", ["a"], ['"a" -> "a" [color=red, penwidth=4, style=dotted]'])),
]

TABLES = [
    ("unsure lines: deadlock", "deadlock", DEADLOCKS),
    ("unsure lines: replay", "replay", REPLAYS),
    ("unsure lines: plan", "plan", PLANS),
    ("unsure lines: check", "check", CHECKS),
    ("unsure lines: circles", "circles", CIRCLES),
    ("unsure lines: run", "run", RUNS),
    ("unsure lines: dot", "dot", DRAWINGS),
]
