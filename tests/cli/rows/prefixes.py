# Texts that are cut off, and what the program answers to each front of them.
#
# The answers were worked out by hand from docs/FORMAT.md: a word that is cut off is another word, a
# line that is cut off has too few words, and where a whole line is missing the text ends too early.

P = "item a / item b / flush a b"
S = "item a / flush a a"
T = "item a / item b / item c / item d / ordered a d / ordered b c / flush a b / flush c d"
U = "item a / item b / item c / item d / flush a b / flush c d"

TWO = "plan 2 / wq 0 b / wq 1 a / chain 2 / arc a b"
CIRCLE = "circle 1 / arc a a / run 3 / queue a / start 0 a / wait 0 a"
STEPS = "queue a / queue c / queue b / queue d / start 0 a / wait 0 b / start 1 c / wait 1 d"
CIRCLE_OF_GROUPS = f"circle 2 / arc a b / arc c d / run 8 / {STEPS}"

ENDS = "refused 40 line 0"
RAN = "queued 1 cancelled 0 finished 1"

# A command, its whole texts, the last of which is cut off, and the answer to each front of that: from
# and to how many bytes.
PREFIXES = [
    ("plan", [P], [
        (0, 0, "plan 0 / chain 0"),
        (1, 3, "refused 4 line 1"),
        (4, 5, "refused 5 line 1"),
        (6, 7, "plan 1 / wq 0 a / chain 1"),
        (8, 10, "refused 4 line 2"),
        (11, 12, "refused 5 line 2"),
        (13, 14, "plan 1 / wq 0 a b / chain 1"),
        (15, 18, "refused 4 line 3"),
        (19, 22, "refused 5 line 3"),
        (23, 24, TWO),
    ]),
    # Of the longer word a front is another directive.
    ("plan", ["item a / item b / flushwq a b"], [
        (0, 0, "plan 0 / chain 0"),
        (1, 3, "refused 4 line 1"),
        (4, 5, "refused 5 line 1"),
        (6, 7, "plan 1 / wq 0 a / chain 1"),
        (8, 10, "refused 4 line 2"),
        (11, 12, "refused 5 line 2"),
        (13, 14, "plan 1 / wq 0 a b / chain 1"),
        (15, 18, "refused 4 line 3"),
        (19, 19, "refused 5 line 3"),
        (20, 20, "refused 4 line 3"),
        (21, 24, "refused 5 line 3"),
        (25, 26, TWO),
    ]),
    ("run", [P], [
        (0, 0, "workqueues 0 / faults 0"),
        (1, 3, "refused 4 line 1"),
        (4, 5, "refused 5 line 1"),
        (6, 7, f"workqueues 1 / item a wq 0 {RAN} / faults 0"),
        (8, 10, "refused 4 line 2"),
        (11, 12, "refused 5 line 2"),
        (13, 14, f"workqueues 1 / item a wq 0 {RAN} / item b wq 0 {RAN} / faults 0"),
        (15, 18, "refused 4 line 3"),
        (19, 22, "refused 5 line 3"),
        (23, 24, f"workqueues 2 / item a wq 1 {RAN} / item b wq 0 {RAN} / faults 0"),
    ]),
    ("check", [P, TWO], [
        (0, 0, ENDS),
        (1, 5, "refused 40 line 1"),
        (6, 7, ENDS),
        (8, 10, "refused 40 line 2"),
        # An empty workqueue, and one with b.
        (11, 14, ENDS),
        (15, 17, "refused 40 line 3"),
        # All `wq` lines are there, and a is on none.
        (18, 19, "refused 41 line 0"),
        (20, 21, ENDS),
        (22, 27, "refused 40 line 4"),
        (28, 29, ENDS),
        (30, 35, "refused 40 line 5"),
        (36, 37, "yes 2"),
    ]),
    # A circle without a run is a whole text too.
    ("check", [S, CIRCLE], [
        (0, 0, ENDS),
        (1, 7, "refused 40 line 1"),
        (8, 9, ENDS),
        (10, 15, "refused 40 line 2"),
        (16, 17, "yes circle 1"),
        (18, 21, "refused 40 line 3"),
        (22, 23, ENDS),
        (24, 29, "refused 40 line 4"),
        (30, 31, ENDS),
        (32, 39, "refused 40 line 5"),
        (40, 41, ENDS),
        (42, 48, "refused 40 line 6"),
        (49, 50, "yes circle 1"),
    ]),
    ("check", [T, CIRCLE_OF_GROUPS], [
        (0, 0, ENDS),
        (1, 7, "refused 40 line 1"),
        (8, 9, ENDS),
        (10, 15, "refused 40 line 2"),
        (16, 17, ENDS),
        (18, 23, "refused 40 line 3"),
        (24, 25, "yes circle 2"),
        (26, 29, "refused 40 line 4"),
        (30, 31, ENDS),
        (32, 37, "refused 40 line 5"),
        (38, 39, ENDS),
        (40, 45, "refused 40 line 6"),
        (46, 47, ENDS),
        (48, 53, "refused 40 line 7"),
        (54, 55, ENDS),
        (56, 61, "refused 40 line 8"),
        (62, 63, ENDS),
        (64, 71, "refused 40 line 9"),
        (72, 73, ENDS),
        (74, 80, "refused 40 line 10"),
        (81, 82, ENDS),
        (83, 90, "refused 40 line 11"),
        (91, 92, ENDS),
        (93, 99, "refused 40 line 12"),
        (100, 101, "yes circle 2"),
    ]),
    # A first word that is cut off ends the lines of an assignment.
    ("deadlock", [U, "wq 0 a d / wq 1 b c"], [
        (0, 1, "refused 41 line 0"),
        (2, 3, "refused 40 line 1"),
        (4, 10, "refused 41 line 0"),
        (11, 12, "refused 40 line 2"),
        (13, 16, "refused 41 line 0"),
        (17, 18, f"run 8 / {STEPS}"),
    ]),
    ("replay", ["item a / flushwq a a", "wq 0 a", "run 3 / queue a / start 0 a / waitwq 0 a"], [
        (0, 0, ENDS),
        (1, 4, "refused 40 line 1"),
        (5, 6, ENDS),
        (7, 12, "refused 40 line 2"),
        (13, 14, ENDS),
        (15, 22, "refused 40 line 3"),
        (23, 24, ENDS),
        (25, 33, "refused 40 line 4"),
        (34, 35, "deadlock"),
    ]),
    ("replay", [U, "wq 0 a d / wq 1 b c", f"run 8 / {STEPS}"], [
        (0, 0, ENDS),
        (1, 4, "refused 40 line 1"),
        (5, 6, ENDS),
        (7, 12, "refused 40 line 2"),
        (13, 14, ENDS),
        (15, 20, "refused 40 line 3"),
        (21, 22, ENDS),
        (23, 28, "refused 40 line 4"),
        (29, 30, ENDS),
        (31, 36, "refused 40 line 5"),
        (37, 38, ENDS),
        (39, 46, "refused 40 line 6"),
        (47, 48, ENDS),
        (49, 55, "refused 40 line 7"),
        (56, 57, ENDS),
        (58, 65, "refused 40 line 8"),
        (66, 67, ENDS),
        (68, 74, "refused 40 line 9"),
        (75, 76, "deadlock"),
    ]),
]
