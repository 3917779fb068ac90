# The command `check`: declarations, certificates of each, and the line that the checker answers.
#
# The rules are those of "Certificates" and "The command `check`" in docs/FORMAT.md, from which each
# answer was worked out by hand.

CHECKS = [
    # Two items, one of which flushes the other.
    ("item a / item b / flush a b", [
        # The prefixes of an answer.
        ("", "refused 40 line 0"),
        ("plan 2", "refused 40 line 0"),
        ("plan 2 / wq 0 b", "refused 40 line 0"),
        ("plan 2 / wq 0 b / wq 1 a", "refused 40 line 0"),
        ("plan 2 / wq 0 b / wq 1 a / chain 2", "refused 40 line 0"),
        ("plan 2 / wq 0 b / wq 1 a / chain 2 / arc a b", "yes 2"),
        # Blank lines, comments and carriage returns.
        (" / \tplan  2 # \x01 / wq 0 b\r / # \r /  \t / wq\t1 a#b / chain 2 / arc a b\t\r / #",
         "yes 2"),
        ("plan 2\r\r", "refused 40 line 1"),
        ("plan\x0b2", "refused 40 line 1"),
        ("plan 2 / wq 0 b\x7f", "refused 40 line 2"),
        # Other words than stand next.
        ("nope", "refused 40 line 1"),
        ("Plan 2", "refused 40 line 1"),
        ("Circle 1 / arc a b", "refused 40 line 1"),
        ("wq 0 a b", "refused 40 line 1"),
        ("run 0", "refused 40 line 1"),
        ("plan 2 / wq 0 b / chain 2", "refused 40 line 3"),
        ("plan 2 / wq 0 b / wq 1 a / wq 2", "refused 40 line 4"),
        ("plan 2 / wq 0 b / norescuer 1 a / chain 2 / arc a b", "refused 40 line 3"),
        ("norescuer 0 a b", "refused 40 line 1"),
        ("plan 2 / wq 0 b / wq 1 a / arc a b", "refused 40 line 4"),
        ("plan 2 / wq 0 b / wq 1 a / chain 2 / flush a b", "refused 40 line 5"),
        # Too few words, and too many.
        ("plan", "refused 40 line 1"),
        ("plan 2 2", "refused 40 line 1"),
        ("plan 2 / wq", "refused 40 line 2"),
        ("plan 2 / wq 0 b / wq 1 a / chain", "refused 40 line 4"),
        ("plan 2 / wq 0 b / wq 1 a / chain 2 /  / arc a", "refused 40 line 6"),
        ("plan 2 / wq 0 b / wq 1 a / chain 2 / arc a b b", "refused 40 line 5"),
        # Words in the place of a number that are none.
        ("plan 007", "refused 40 line 1"),
        ("plan +1", "refused 40 line 1"),
        ("plan 4294967296", "refused 40 line 1"),
        ("circle b", "refused 40 line 1"),
        ("plan 2 / wq b", "refused 40 line 2"),
        # Names that are no items.
        ("plan 2 / wq 0 b / wq 1 a c", "refused 40 line 3"),
        ("plan 2 / wq 0 b / wq 1 a / chain 2 / arc A b", "refused 40 line 5"),
        ("circle 1 / arc a c", "refused 40 line 2"),
        # Lines behind the end.
        ("plan 2 / wq 0 b / wq 1 a / chain 2 / arc a b / arc a b", "refused 40 line 6"),
        ("plan 2 / wq 0 b / wq 1 a / chain 2 / arc a b / run 0", "refused 40 line 6"),
        ("plan 2 / wq 0 b / wq 1 a / chain 1 / arc a b", "refused 40 line 5"),
        ("plan 2 / wq 0 b / wq 1 a / chain 0 / arc a b", "refused 40 line 5"),
        # Workqueues out of their places.
        ("plan 2 / wq 1 b", "refused 43 line 2"),
        ("plan 2 / wq 0 b / wq 2 a", "refused 43 line 3"),
        # Items that are on two lines, twice on one, or on none.
        ("plan 2 / wq 0 b / wq 1 b a", "refused 41 line 3"),
        ("plan 1 / wq 0 a b a", "refused 41 line 2"),
        ("plan 2 / wq 0 b / wq 1 / chain 2 / arc a b", "refused 41 line 0"),
        ("plan 1 / wq 0 b / wq 1 a / chain 2 / arc a b", "refused 41 line 0"),
        ("plan 0 / chain 0", "refused 41 line 0"),
        # Items on none are answered before what stands behind, and no sooner.
        ("plan 1 / wq 0 a / nope", "refused 41 line 0"),
        ("plan 1 / wq 0 a", "refused 41 line 0"),
        ("plan 2 / wq 0 a / nope", "refused 40 line 3"),
        # Two faults of a line.
        ("plan 4097 4097", "refused 40 line 1"),
        ("plan 2 / wq 1 c", "refused 40 line 2"),
        ("plan 2 / wq 0 b / wq 0 b", "refused 43 line 3"),
        # Two faults of lines.
        ("plan 2 / wq 1 b / nope", "refused 43 line 2"),
        # The numbers of a plan text needn't be each other's, and its arcs needn't be flushes.
        ("plan 2 / wq 0 b / wq 1 a / chain 0", "no 52"),
        ("plan 2 / wq 0 b / wq 1 a / chain 1", "no 52"),
        ("plan 3 / wq 0 b / wq 1 / wq 2 a / chain 2 / arc a b", "no 52"),
        ("plan 2 / wq 0 b / wq 1 a / chain 2 / arc b a", "no 51 1"),
        ("plan 3 / wq 0 b / wq 1 / wq 2 a / chain 3 / arc a b / arc a b", "no 51 2"),
        ("plan 1 / wq 0 a b / chain 1", "no 50 a b"),
        ("plan 1 / wq 0 b a / chain 0", "no 50 a b"),
        ("plan 2 / wq 0 a / wq 1 b / chain 2 / arc a b", "no 50 a b"),
        # No circle.
        ("circle 1 / arc a b", "no 53 1"),
        ("circle 1 / arc b a", "no 53 1"),
        ("circle 2 / arc a b / arc b a", "no 53 2"),
    ]),
    # Two items, one of which waits for the whole workqueue of the other.
    ("item a / item b / item c / flushwq a b", [
        ("plan 2 / wq 0 b c / wq 1 a / chain 2 / arc a b", "yes 2"),
        ("plan 2 / wq 0 b / wq 1 c a / chain 2 / arc a b", "yes 2"),
        ("plan 1 / wq 0 a b c / chain 1", "no 50 a b"),
        ("plan 2 / wq 0 a b / wq 1 c / chain 2 / arc a b", "no 50 a b"),
        # It waits for c, too, but only what is declared is an arc.
        ("plan 2 / wq 0 b c / wq 1 a / chain 2 / arc a c", "no 51 1"),
        ("plan 2 / wq 0 b c / wq 1 a / chain 2 / flushwq a b", "refused 40 line 5"),
        ("circle 1 / arc a b", "no 53 1"),
        ("circle 2 / arc a b / arc b a", "no 53 2"),
    ]),
    # Of several flushes that don't lead to a lower workqueue the one of least place, whichever kind it is.
    ("item a / item b / flushwq a b / flush b a", [
        ("plan 1 / wq 0 a b / chain 1", "no 50 a b"),
        ("circle 2 / arc a b / arc b a", "yes circle 2"),
        ("circle 2 / arc a b / arc b a / run 6 / queue a / queue b / start 0 a / waitwq 0 b / start 1 b / wait 1 a",
         "yes circle 2"),
        ("circle 2 / arc a b / arc b a / run 6 / queue a / queue b / start 0 a / wait 0 b / start 1 b / wait 1 a",
         "no 54"),
        ("circle 2 / arc a b / arc b a / run 6 / queue a / queue b / start 0 a / waitwq 0 b / start 1 b / waitwq 1 a",
         "no 54"),
    ]),
    ("item a / item b / flush b a / flushwq a b", [
        ("plan 1 / wq 0 a b / chain 1", "no 50 b a"),
    ]),
    ("item a / flushwq a a", [
        ("plan 1 / wq 0 a / chain 1", "no 50 a a"),
        ("circle 1 / arc a a", "yes circle 1"),
        ("circle 1 / arc a a / run 3 / queue a / start 0 a / waitwq 0 a", "yes circle 1"),
        ("circle 1 / arc a a / run 3 / queue a / start 0 a / wait 0 a", "no 54"),
        ("circle 1 / arc a a / run 4 / queue a / start 0 a / waitwq 0 a / overwq 0 a", "no 54"),
        ("circle 1 / arc a a / run 1 / waitwq 0", "refused 40 line 4"),
        ("circle 1 / arc a a / run 1 / waitwq a", "refused 40 line 4"),
        ("circle 1 / arc a a / run 1 / overwq a a", "refused 40 line 4"),
        ("circle 1 / arc a a / run 1 / overwqs 0 a", "refused 40 line 4"),
        ("circle 1 / arc a a / run 1 / waitwq 4095 a", "no 54"),
        ("circle 1 / arc a a / run 1 / waitwq 4096 a", "refused 43 line 4"),
        ("circle 1 / arc a a / run 1 / overwq 4096 a", "refused 43 line 4"),
        ("circle 1 / arc a a / run 1 / overwq 4096 b", "refused 40 line 4"),
    ]),
    # No item.
    ("", [
        ("", "refused 40 line 0"),
        ("plan 0 / chain 0", "yes 0"),
        ("plan 1 / wq 0 / chain 1", "no 51 0"),
        ("plan 1 / wq 0 / chain 0", "no 52"),
        ("plan 0 / chain 1", "no 52"),
        ("plan 2 / wq 0 / wq 1 / chain 2 / arc a a", "refused 40 line 5"),
    ]),
    # One item.
    ("item a", [
        ("plan 1 / wq 0 a / chain 1", "yes 1"),
        ("plan 2 / wq 0 a / wq 1 / chain 1", "no 52"),
        ("plan 2 / wq 0 a / wq 1 / chain 2 / arc a a", "no 51 1"),
        # Words that are numbers, and words that are none.
        ("plan 0", "refused 41 line 0"),
        ("plan 7", "refused 40 line 0"),
        ("plan 10", "refused 40 line 0"),
        ("plan 99999999999999999999", "refused 40 line 1"),
        ("plan 00", "refused 40 line 1"),
        ("plan 01", "refused 40 line 1"),
        ("plan -1", "refused 40 line 1"),
        ("plan 1a", "refused 40 line 1"),
        ("plan \xff", "refused 40 line 1"),
    ]),
    # A chain of three items, and a fourth that waits for nobody.
    ("item a / item b / item c / item d / flush a b / flush b c", [
        ("plan 3 / wq 0 c d / wq 1 b / wq 2 a / chain 3 / arc a b / arc b c", "yes 3"),
        # Any plan that falls, and any order on a line.
        ("plan 3 / wq 0 c / wq 1 b / wq 2 d a / chain 3 / arc a b / arc b c", "yes 3"),
        ("plan 3 / wq 0 c d / wq 1 b / wq 2 a / chain 3 / arc a b / arc a b", "no 51 2"),
        ("plan 3 / wq 0 c d / wq 1 b / wq 2 a / chain 3 / arc b c / arc b c", "no 51 2"),
        ("plan 3 / wq 0 c d / wq 1 b / wq 2 a / chain 3 / arc a c / arc a b", "no 51 1"),
        # The flush of least place.
        ("plan 1 / wq 0 d c b a / chain 1", "no 50 a b"),
        ("plan 2 / wq 0 b c d / wq 1 a / chain 2 / arc a b", "no 50 b c"),
        ("circle 2 / arc a b / arc b c", "no 53 1"),
    ]),
    # Flushes have places by line, whatever the items.
    ("item a / item b / item c / flush c b / flush a b c", [
        ("plan 1 / wq 0 a b c / chain 1", "no 50 c b"),
    ]),
    # Arcs join by group.
    ("item a / item b / item c / item d / ordered b c / flush a b / flush c d", [
        ("plan 3 / wq 0 d / wq 1 b c / wq 2 a / chain 3 / arc a b / arc c d", "yes 3"),
        ("plan 4 / wq 0 d / wq 1 b / wq 2 c / wq 3 a", "refused 42 line 4"),
        ("plan 3 / wq 0 d / wq 1 b c / wq 2 a / chain 3 / arc a c / arc c d", "no 51 1"),
    ]),
    # A declaration that is refused is answered first.
    ("item a / item a", [
        ("nope", "refused 7 line 2"),
        ("plan 1 / wq 0 a / chain 1", "refused 7 line 2"),
    ]),
    # An item that flushes itself.
    ("item a / flush a a", [
        ("plan 1 / wq 0 a / chain 1", "no 50 a a"),
        # The prefixes of a circle and its run.
        ("circle 1", "refused 40 line 0"),
        ("circle 1 / arc a a", "yes circle 1"),
        ("circle 1 / arc a a / run 3", "refused 40 line 0"),
        ("circle 1 / arc a a / run 3 / queue a", "refused 40 line 0"),
        ("circle 1 / arc a a / run 3 / queue a / start 0 a", "refused 40 line 0"),
        ("circle 1 / arc a a / run 3 / queue a / start 0 a / wait 0 a", "yes circle 1"),
        (" / circle 1 # x / \targ a a", "refused 40 line 3"),
        # An arc may come again.
        ("circle 3 / arc a a / arc a a / arc a a", "yes circle 3"),
        ("circle 7" + 7 * " / arc a a", "yes circle 7"),
        ("circle 10" + 10 * " / arc a a", "yes circle 10"),
        ("circle 0", "refused 43 line 1"),
        ("circle 1 / arc a a / arc a a", "refused 40 line 3"),
        ("circle 1 / arc a a / plan 1", "refused 40 line 3"),
        ("circle 1 / run 0", "refused 40 line 2"),
        # Runs that aren't read.
        ("circle 1 / arc a a / run", "refused 40 line 3"),
        ("circle 1 / arc a a / run 01", "refused 40 line 3"),
        ("circle 1 / arc a a / run 4294967295", "refused 40 line 0"),
        ("circle 1 / arc a a / run 4294967296", "refused 40 line 3"),
        ("circle 1 / arc a a / run 1 / queue b", "refused 40 line 4"),
        ("circle 1 / arc a a / run 1 / queue 0 a", "refused 40 line 4"),
        ("circle 1 / arc a a / run 1 / start a", "refused 40 line 4"),
        ("circle 1 / arc a a / run 1 / start a a", "refused 40 line 4"),
        ("circle 1 / arc a a / run 1 / stop 0 a", "refused 40 line 4"),
        ("circle 1 / arc a a / run 1 / queue a / cancel a", "refused 40 line 5"),
        # Runs that don't deadlock.
        ("circle 1 / arc a a / run 0", "no 54"),
        ("circle 1 / arc a a / run 2 / queue a / start 0 a", "no 54"),
        ("circle 1 / arc a a / run 3 / queue a / start 1 a / wait 1 a", "no 54"),
        ("circle 1 / arc a a / run 4 / queue a / start 0 a / wait 0 a / over 0 a", "no 54"),
        ("circle 1 / arc a a / run 4 / queue a / start 0 a / wait 0 a / queue a", "no 54"),
        ("circle 1 / arc a a / run 3 / queue a / start 0 a / waitwq 0 a", "no 54"),
        ("circle 1 / arc a a / run 5 / queue a / cancel a / queue a / start 0 a / wait 0 a",
         "no 54"),
        # Numbers at their limits, and above.
        ("plan 4096", "refused 40 line 0"),
        ("plan 4097", "refused 43 line 1"),
        ("plan 4294967295", "refused 43 line 1"),
        ("plan 1 / wq 0 a / chain 4096", "refused 40 line 0"),
        ("plan 1 / wq 0 a / chain 4097", "refused 43 line 3"),
        ("circle 4096 / arc a a", "refused 40 line 0"),
        ("circle 4097 / arc a a", "refused 43 line 1"),
        ("circle 1 / arc a a / run 1 / start 4095 a", "no 54"),
        ("circle 1 / arc a a / run 1 / start 4096 a", "refused 43 line 4"),
        ("circle 1 / arc a a / run 1 / wait 4096 a", "refused 43 line 4"),
        ("circle 1 / arc a a / run 1 / over 4096 a", "refused 43 line 4"),
        ("circle 1 / arc a a / run 1 / finish 4096 a", "refused 43 line 4"),
        ("circle 1 / arc a a / run 1 / finish 4096 b", "refused 40 line 4"),
    ]),
    # An item that flushes another one of its group.
    ("item a / item b / ordered a b / flush a b", [
        ("circle 1 / arc a b / run 4 / queue a / queue b / start 0 a / wait 0 b", "yes circle 1"),
        # The other item of the group isn't queued, so that nothing holds the wait.
        ("circle 1 / arc a b / run 3 / queue a / start 0 a / wait 0 b", "no 54"),
        ("circle 1 / arc b a", "no 53 1"),
        ("plan 1 / wq 0 a b / chain 1", "no 50 a b"),
        ("plan 2 / wq 0 b / wq 1 a / chain 2 / arc a b", "refused 42 line 3"),
    ]),
    # Two groups that wait for each other.
    ("item a / item b / item c / item d / ordered a d / ordered b c / flush a b / flush c d", [
        ("circle 2 / arc a b / arc c d", "yes circle 2"),
        ("circle 2 / arc c d / arc a b", "yes circle 2"),
        ("circle 2 / arc a b / arc c d / run 8 / queue a / queue c / queue b / queue d / "
         "start 0 a / wait 0 b / start 1 c / wait 1 d",
         "yes circle 2"),
        ("circle 1 / arc a b", "no 53 1"),
        ("circle 2 / arc a b / arc c a", "no 53 2"),
        # Two faults of a line.
        ("plan 2 / wq 0 a / wq 1 d a", "refused 41 line 3"),
        ("plan 2 / wq 0 a / wq 1 d", "refused 42 line 3"),
        ("plan 2 / wq 0 a / wq 0 d", "refused 43 line 3"),
    ]),
    # Two items that wait for each other.
    ("item a / item b / flush a b / flush b a", [
        ("circle 2 / arc b a / arc a b", "yes circle 2"),
        ("circle 4 / arc a b / arc b a / arc a b / arc b a", "yes circle 4"),
        ("circle 2 / arc a b / arc a b", "no 53 1"),
        ("circle 3 / arc a b / arc a b / arc b a", "no 53 2"),
        ("circle 3 / arc a b / arc b a / arc b a", "no 53 3"),
        ("circle 2 / arc a b / arc b a / run 6 / queue a / queue b / start 0 a / wait 0 b / "
         "start 1 b / wait 1 a",
         "yes circle 2"),
        # The arcs are judged before the run.
        ("circle 1 / arc a b / run 0", "no 53 1"),
    ]),
    # The run that the arcs need isn't enough where an item is left out.
    ("item a / item b / item c / flush a b / flush b a", [
        ("circle 2 / arc a b / arc b a / run 6 / queue a / queue b / start 0 a / wait 0 b / "
         "start 1 b / wait 1 a",
         "no 54"),
        ("circle 2 / arc a b / arc b a / run 7 / queue c / queue a / queue b / start 0 a / "
         "wait 0 b / start 1 b / wait 1 a",
         "no 54"),
        ("circle 2 / arc a b / arc b a / run 9 / queue c / queue a / queue b / start 0 a / "
         "wait 0 b / start 1 b / wait 1 a / start 2 c / finish 2 c",
         "yes circle 2"),
    ]),
    # The flushes of an item are made in order of place.
    ("item a / item b / item c / flush a c b / flush b a", [
        ("circle 2 / arc a b / arc b a / run 11 / queue a / queue b / queue c / start 0 a / "
         "wait 0 c / start 1 b / wait 1 a / start 2 c / finish 2 c / over 0 c / wait 0 b",
         "yes circle 2"),
        ("circle 2 / arc a b / arc b a / run 9 / queue a / queue b / queue c / start 0 a / "
         "wait 0 b / start 1 b / wait 1 a / start 2 c / finish 2 c",
         "no 54"),
    ]),
]

# The tables of this file: of each its name, the command, and the rows, which are the texts and the answer.
TABLES = [("certificates", "check", [(text, *row) for text, rows in CHECKS for row in rows])]
