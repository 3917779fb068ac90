# The command `plan`: declarations, and the answer to each.
#
# The rules are those of docs/FORMAT.md, from "Lines, words and numbers" to "Circle texts", and each
# answer was worked out by hand from them. Some of the rows are worked examples, too (worked.py).

TWO = "plan 2 / wq 0 b / wq 1 a / chain 2 / arc a b"

# Texts byte by byte: blanks, comments, carriage returns, and bytes that no line may hold.
BYTES = [
    # Blanks and blank lines, and a last line without a line feed.
    (b"item a\n\n\titem\tb \nflush a b", TWO),
    (b" \t \nitem  a\n \titem \t b\t\n\n\nflush a\tb \t\n", TWO),
    (b"\n\n\n", "plan 0 / chain 0"),
    (b" ", "plan 0 / chain 0"),
    (b"\n\n \nitem a b", "refused 12 line 4"),
    # One carriage return before a line feed is dropped, and others stay, where only a comment may
    # hold them.
    (b"item a # x\r\n\titem\tb\r\nflush a b", TWO),
    (b"item a#x\r\r\nitem b\nflush a b#x\r", TWO),
    (b"item a#x\rordered\nitem b\r\nflush a b\r\n", TWO),
    (b"\r\n#\r", "plan 0 / chain 0"),
    (b"item a\r\nordered a\r\n\r\n", "plan 1 / wq 0 a / chain 1"),
    (b"item a\r\nitem a\r\n", "refused 7 line 2"),
    (b"item a\r\r\n", "refused 3 line 1"),
    (b"item a\n\r\r\n", "refused 3 line 2"),
    (b"item a\r", "refused 3 line 1"),
    (b"\r", "refused 3 line 1"),
    (b"item a\ritem b\r\n", "refused 3 line 1"),
    # A comment may hold any bytes.
    (b"item a#\0\xff\x7f#\r!\nitem b", "plan 1 / wq 0 a b / chain 1"),
    (b"nope # \x01", "refused 4 line 1"),
    # Bytes that no line may hold before it.
    (b"item \xc3\xa9", "refused 3 line 1"),
    (b"item a\nitem \x7f\n", "refused 3 line 2"),
    (b"\0", "refused 3 line 1"),
    (b"nope \x0b\n", "refused 3 line 1"),
    (b"nope \x1f# a\n", "refused 3 line 1"),
    (b"nope\n\x01\n", "refused 4 line 1"),
    (b"item a\nitem a\n\xff\n", "refused 3 line 3"),
    (b"item ~\n", "refused 6 line 1"),
]

# Texts whose lines all end, and their plans.
PLANS = [
    ("", "plan 0 / chain 0"),
    (" / \t / ", "plan 0 / chain 0"),
    ("# / # item a", "plan 0 / chain 0"),
    ("item a / item b / flush a b", "plan 2 / wq 0 b / wq 1 a / chain 2 / arc a b"),
    ("# a / item a # b! / item b#x / flush a b # a / #ordered a a",
     "plan 2 / wq 0 b / wq 1 a / chain 2 / arc a b"),
    ("item a / item b", "plan 1 / wq 0 a b / chain 1"),
    ("item a / item b / item c", "plan 1 / wq 0 a b c / chain 1"),
    ("item a / item b / item c / item d / flush a b / flush b c",
     "plan 3 / wq 0 c d / wq 1 b / wq 2 a / chain 3 / arc a b / arc b c"),
    ("item a / item b / item c / item d / flush c b / flush d a / flush c a",
     "plan 2 / wq 0 a b / wq 1 c d / chain 2 / arc c b"),
    ("item a / item b / item c / flush a c / flush a b / flush b c",
     "plan 3 / wq 0 c / wq 1 b / wq 2 a / chain 3 / arc a b / arc b c"),
    ("item a / item b / item c / item d / flush a b / flush c d",
     "plan 2 / wq 0 b d / wq 1 a c / chain 2 / arc a b"),
    # The chain begins at the lowest-numbered item and takes the flush of least place, here of d, not
    # of c.
    ("item a / item b / item c / item d / item e / flush b e / flush b d / flush b c / "
     "flush d e / flush c e",
     "plan 3 / wq 0 a e / wq 1 c d / wq 2 b / chain 3 / arc b d / arc d e"),
    # Two equal flushes, and names that are words of the grammar or differ only in case.
    ("item item / item flush / item A / item a / flush item flush / flush item flush / flush A a",
     "plan 2 / wq 0 flush a / wq 1 item A / chain 2 / arc item flush"),
    ("item 7 / item - / item _.9Zz", "plan 1 / wq 0 7 - _.9Zz / chain 1"),
    # Several targets on a line: their places are in the order in which they stand.
    ("item a / item b / item c / flush a b c", "plan 2 / wq 0 b c / wq 1 a / chain 2 / arc a b"),
    ("item a / item b / item c / flush a c b c", "plan 2 / wq 0 b c / wq 1 a / chain 2 / arc a c"),
    ("item a / item b / item c / flush a c b / flush b c",
     "plan 3 / wq 0 c / wq 1 b / wq 2 a / chain 3 / arc a b / arc b c"),
    ("item a / item b / item c / flush a c b / flush b c c",
     "plan 3 / wq 0 c / wq 1 b / wq 2 a / chain 3 / arc a b / arc b c"),
    # Waits for a whole workqueue: where an item waits for one, it is above the item that is named. Other items may be there.
    ("item a / item b / item c / flushwq a b", "plan 2 / wq 0 b c / wq 1 a / chain 2 / arc a b"),
    # Both kinds have places in one order, and add up.
    ("item a / item b / item c / flushwq a c / flush a b", "plan 2 / wq 0 b c / wq 1 a / chain 2 / arc a c"),
    ("item a / item b / item c / flush a b / flushwq a c", "plan 2 / wq 0 b c / wq 1 a / chain 2 / arc a b"),
    ("item a / item b / item c / flushwq a b / flush b c",
     "plan 3 / wq 0 c / wq 1 b / wq 2 a / chain 3 / arc a b / arc b c"),
    ("item a / item b / flushwq a b / flushwq a b / flush a b b", TWO),
    ("item a / item b / item c / item d / ordered b c / flushwq a b / flushwq c d",
     "plan 3 / wq 0 d / wq 1 b c / wq 2 a / chain 3 / arc a b / arc c d"),
    ("item flushwq / item a / \tflushwq  flushwq\ta # b",
     "plan 2 / wq 0 a / wq 1 flushwq / chain 2 / arc flushwq a"),
    # Groups: the chain leaves one by whichever member, and the rank of a group is that of its members
    # together.
    ("item a / item b / item c / item d / ordered b c / flush a b / flush c d",
     "plan 3 / wq 0 d / wq 1 b c / wq 2 a / chain 3 / arc a b / arc c d"),
    ("item a / item b / item c / item d / item e / ordered b c d / flush a c / flush d e",
     "plan 3 / wq 0 e / wq 1 b c d / wq 2 a / chain 3 / arc a c / arc d e"),
    ("item a / item b / item c / item d / ordered a b / flush a c / flush b d / flush d c",
     "plan 3 / wq 0 c / wq 1 d / wq 2 a b / chain 3 / arc b d / arc d c"),
    # Groups are numbered by their first-declared members.
    ("item a / item b / item c / item d / ordered d b / flush c a / flush d a",
     "plan 2 / wq 0 a / wq 1 b c d / chain 2 / arc d a"),
    ("item a / item b / item c / item d / ordered d a / flush b c / flush d c",
     "plan 2 / wq 0 c / wq 1 a b d / chain 2 / arc d c"),
    ("item a / item b / item c / ordered c a / flush c b",
     "plan 2 / wq 0 b / wq 1 a c / chain 2 / arc c b"),
    # The arcs of a group are those of its members together, by place alone.
    ("item a / item b / item c / item d / flush b d / flush a c d / ordered a b",
     "plan 2 / wq 0 c d / wq 1 a b / chain 2 / arc b d"),
    ("item a / item b / item c / item d / ordered b a / flush a d / flush b c",
     "plan 2 / wq 0 c d / wq 1 a b / chain 2 / arc a d"),
    # Several groups, items declared between them, and an ordered line with one name.
    ("item a / item b / ordered b / item c / item d / ordered d c / flush a d / flush c b",
     "plan 3 / wq 0 b / wq 1 c d / wq 2 a / chain 3 / arc a d / arc c b"),
    ("item a / item b / ordered b a", "plan 1 / wq 0 a b / chain 1"),
    ("item ordered / item item / item flush / ordered ordered item / flush flush ordered",
     "plan 2 / wq 0 ordered item / wq 1 flush / chain 2 / arc flush ordered"),
]

# Texts whose lines all end, their circles, and the runs behind these. A run is on a workqueue for each
# group: first the items of the arcs are queued, then the others, and then the lowest-numbered
# workqueue that can make a step makes it, again and again.
CIRCLES = [
    ("item a / flush a a", "circle 1 / arc a a", "run 3 / queue a / start 0 a / wait 0 a"),
    ("item a / item b / flush a b / flush b a",
     "circle 2 / arc a b / arc b a",
     "run 6 / queue a / queue b / start 0 a / wait 0 b / start 1 b / wait 1 a"),
    ("item a / item b / ordered a b / flush a b",
     "circle 1 / arc a b",
     "run 4 / queue a / queue b / start 0 a / wait 0 b"),
    ("item a / item b / flush a b / ordered b a",
     "circle 1 / arc a b",
     "run 4 / queue a / queue b / start 0 a / wait 0 b"),
    ("item a / item b / item c / item d / ordered a d / ordered b c / flush a b / flush c d",
     "circle 2 / arc a b / arc c d",
     "run 8 / queue a / queue c / queue b / queue d / start 0 a / wait 0 b / start 1 c / wait 1 d"),
    # Waits for a whole workqueue: that of the item itself, that of its group, and those of others.
    ("item a / flushwq a a", "circle 1 / arc a a", "run 3 / queue a / start 0 a / waitwq 0 a"),
    ("item a / item b / ordered a b / flushwq a b",
     "circle 1 / arc a b",
     "run 4 / queue a / queue b / start 0 a / waitwq 0 b"),
    ("item a / item b / ordered a b / flushwq b a",
     "circle 1 / arc b a",
     "run 4 / queue b / queue a / start 0 b / waitwq 0 a"),
    ("item a / item b / flushwq a b / flush b a",
     "circle 2 / arc a b / arc b a",
     "run 6 / queue a / queue b / start 0 a / waitwq 0 b / start 1 b / wait 1 a"),
    ("item a / item b / flush a a / flushwq a a / flushwq b a",
     "circle 1 / arc a a",
     "run 6 / queue a / queue b / start 0 a / wait 0 a / start 1 b / waitwq 1 a"),
    ("item a / item b / item c / flushwq a c / flush a b / flush b a",
     "circle 2 / arc a b / arc b a",
     "run 11 / queue a / queue b / queue c / start 0 a / waitwq 0 c / start 1 b / wait 1 a / start 2 c / "
     "finish 2 c / overwq 0 c / wait 0 b"),
    # Whoever waits for the workqueue of b waits for c, too, which is on it; whoever waits for b doesn't.
    ("item a / item b / item c / item d / ordered b c / flushwq a b / flush c d / flush d d",
     "circle 1 / arc d d",
     "run 12 / queue d / queue a / queue b / queue c / start 0 a / waitwq 0 b / start 1 b / finish 1 b / "
     "start 1 c / wait 1 d / start 2 d / wait 2 d"),
    ("item a / item b / item c / item d / ordered b c / flush a b / flush c d / flush d d",
     "circle 1 / arc d d",
     "run 14 / queue d / queue a / queue b / queue c / start 0 a / wait 0 b / start 1 b / finish 1 b / "
     "over 0 b / finish 0 a / start 1 c / wait 1 d / start 2 d / wait 2 d"),
    # Arcs that lead to what is taken off are passed over: here to c where it has no flush, to b before
    # c, and to d. In the runs what is taken off comes to its end, and what waits for it goes on to its
    # next flush.
    ("item a / item b / item c / flush a c b / flush b a",
     "circle 2 / arc a b / arc b a",
     "run 11 / queue a / queue b / queue c / start 0 a / wait 0 c / start 1 b / wait 1 a / start 2 c / "
     "finish 2 c / over 0 c / wait 0 b"),
    ("item a / item b / item c / flush a c b / flush b a / flush c a",
     "circle 2 / arc a c / arc c a",
     "run 9 / queue a / queue c / queue b / start 0 a / wait 0 c / start 1 b / wait 1 a / start 2 c / "
     "wait 2 a"),
    ("item a / item b / item c / flush a b / flush b c / flush a a",
     "circle 1 / arc a a",
     "run 13 / queue a / queue b / queue c / start 0 a / wait 0 b / start 1 b / wait 1 c / start 2 c / "
     "finish 2 c / over 1 c / finish 1 b / over 0 b / wait 0 a"),
    ("item a / item b / item c / item d / flush a d / flush a b / flush b c / flush c b",
     "circle 2 / arc b c / arc c b",
     "run 14 / queue b / queue c / queue a / queue d / start 0 a / wait 0 d / start 1 b / wait 1 c / "
     "start 2 c / wait 2 b / start 3 d / finish 3 d / over 0 d / wait 0 b"),
    ("item a / item b / item c / item d / flush a d b / flush b c / flush c b",
     "circle 2 / arc b c / arc c b",
     "run 14 / queue b / queue c / queue a / queue d / start 0 a / wait 0 d / start 1 b / wait 1 c / "
     "start 2 c / wait 2 b / start 3 d / finish 3 d / over 0 d / wait 0 b"),
    # The arc of least place decides, also where one leads back at once.
    ("item a / item b / flush a a b / flush b a",
     "circle 1 / arc a a",
     "run 6 / queue a / queue b / start 0 a / wait 0 a / start 1 b / wait 1 a"),
    ("item a / item b / flush a b a / flush b a",
     "circle 2 / arc a b / arc b a",
     "run 6 / queue a / queue b / start 0 a / wait 0 b / start 1 b / wait 1 a"),
    ("item a / item b / flush b a / flush b a / flush a b",
     "circle 2 / arc a b / arc b a",
     "run 6 / queue a / queue b / start 0 a / wait 0 b / start 1 b / wait 1 a"),
    ("item a / item b / item c / ordered a b / flush b c / flush a b / flush c a",
     "circle 2 / arc b c / arc c a",
     "run 7 / queue b / queue c / queue a / start 0 b / wait 0 c / start 1 c / wait 1 a"),
    # What leads to a circle is no part of it. Its items are queued behind those of the circle.
    ("item a / item b / item c / flush a b / flush b c / flush c b",
     "circle 2 / arc b c / arc c b",
     "run 9 / queue b / queue c / queue a / start 0 a / wait 0 b / start 1 b / wait 1 c / start 2 c / "
     "wait 2 b"),
    ("item a / item b / item c / item d / item e / flush a b / flush b c / flush c d / flush d e / "
     "flush e c",
     "circle 3 / arc c d / arc d e / arc e c",
     "run 15 / queue c / queue d / queue e / queue a / queue b / start 0 a / wait 0 b / start 1 b / "
     "wait 1 c / start 2 c / wait 2 d / start 3 d / wait 3 e / start 4 e / wait 4 c"),
    ("item a / item b / item c / item d / ordered b c d / flush a c / flush d b",
     "circle 1 / arc d b",
     "run 8 / queue d / queue a / queue b / queue c / start 0 a / wait 0 c / start 1 d / wait 1 b"),
    ("item a / item b / item c / item d / ordered b d / flush a b / flush d c / flush c b",
     "circle 2 / arc d c / arc c b",
     "run 10 / queue d / queue c / queue a / queue b / start 0 a / wait 0 b / start 1 d / wait 1 c / "
     "start 2 c / wait 2 b"),
    # Of two circles the answer is the one that the walk from the lowest-numbered group comes to.
    ("item a / item b / item c / item d / flush c d / flush d c / flush a b / flush b a",
     "circle 2 / arc a b / arc b a",
     "run 12 / queue a / queue b / queue c / queue d / start 0 a / wait 0 b / start 1 b / wait 1 a / "
     "start 2 c / wait 2 d / start 3 d / wait 3 c"),
    ("item a / item b / item c / item d / item e / flush b c / flush c b / flush e d / flush d e / "
     "flush a e",
     "circle 2 / arc e d / arc d e",
     "run 15 / queue e / queue d / queue a / queue b / queue c / start 0 a / wait 0 e / start 1 b / "
     "wait 1 c / start 2 c / wait 2 b / start 3 d / wait 3 e / start 4 e / wait 4 d"),
    ("item a / item b / item c / flush a c / flush a b / flush b b / flush c c",
     "circle 1 / arc c c",
     "run 9 / queue c / queue a / queue b / start 0 a / wait 0 c / start 1 b / wait 1 b / start 2 c / "
     "wait 2 c"),
    ("item a / item b / item c / item d / ordered d a / flush b c / flush c b / flush d d",
     "circle 1 / arc d d",
     "run 10 / queue d / queue a / queue b / queue c / start 0 d / wait 0 d / start 1 b / wait 1 c / "
     "start 2 c / wait 2 b"),
    ("item a / item b / flush b b",
     "circle 1 / arc b b",
     "run 6 / queue b / queue a / start 0 a / finish 0 a / start 1 b / wait 1 b"),
    # The item of a line needn't be the target of the line above it.
    ("item a / item b / item c / item d / item e / ordered a e / ordered b d / flush a b / flush d c / "
     "flush c e",
     "circle 3 / arc a b / arc d c / arc c e",
     "run 11 / queue a / queue d / queue c / queue b / queue e / start 0 a / wait 0 b / start 1 d / "
     "wait 1 c / start 2 c / wait 2 e"),
    # In a group of three: the one that the arc begins at is queued first and hangs, an item of another
    # group comes to its end though it is queued last, and the other two never start.
    ("item a / item b / item c / item d / ordered c a b / flush b d a",
     "circle 1 / arc b a",
     "run 10 / queue b / queue a / queue c / queue d / start 0 b / wait 0 d / start 1 d / finish 1 d / "
     "over 0 d / wait 0 a"),
]

# Texts whose lines all end, and their refusals.
REFUSALS = [
    # Items and flushes that are refused.
    ("item a / flush a b / item b", "refused 8 line 2"),
    ("item b / flush a b / item a", "refused 8 line 2"),
    ("item a / flush a a b", "refused 8 line 2"),
    ("item a / item a", "refused 7 line 2"),
    ("item a / flush a a / item a / flush a b", "refused 7 line 3"),
    ("item a / flush b a", "refused 8 line 2"),
    ("item a / ordered a b / item b", "refused 8 line 2"),
    ("ordered a", "refused 8 line 1"),
    # Names that are on an ordered line a second time.
    ("item a / ordered a a", "refused 11 line 2"),
    ("item a /  / ordered a a", "refused 11 line 3"),
    ("item a / ordered a / ordered a", "refused 11 line 3"),
    ("item a / item b / ordered a b / ordered b", "refused 11 line 4"),
    ("item a / item b / item c / ordered b c b / ordered a / ordered a", "refused 11 line 4"),
    ("item a / item b / ordered b / ordered a / ordered b / ordered a", "refused 11 line 5"),
    ("item a / flush a a / ordered a a", "refused 11 line 3"),
    # Lines that are no directives.
    ("item a!", "refused 6 line 1"),
    ("item a / flush a b!", "refused 6 line 2"),
    ("item a / flush a a b!", "refused 6 line 2"),
    ("item a / flush a! a", "refused 6 line 2"),
    ("ordered a b!", "refused 6 line 1"),
    ("item", "refused 5 line 1"),
    ("item a / item", "refused 5 line 2"),
    ("item #a", "refused 5 line 1"),
    ("item a / flush a", "refused 5 line 2"),
    ("item a / flush a #a", "refused 5 line 2"),
    ("ordered", "refused 5 line 1"),
    ("item a / ordered#a", "refused 5 line 2"),
    ("item a! / flush a", "refused 6 line 1"),
    ("flush a!", "refused 5 line 1"),
    ("item a b!", "refused 12 line 1"),
    ("item a b", "refused 12 line 1"),
    ("Item a", "refused 4 line 1"),
    ("ordereds a", "refused 4 line 1"),
    ("item a / norescuer 0 a", "refused 4 line 2"),
    ("item a / order a", "refused 4 line 2"),
    # A `flushwq` line has two names.
    ("item a / item b / flushwq a b b", "refused 12 line 3"),
    ("flushwq a b c d", "refused 12 line 1"),
    ("flushwq a b! c", "refused 12 line 1"),
    ("flushwq a b!", "refused 6 line 1"),
    ("flushwq a! b", "refused 6 line 1"),
    ("flushwq", "refused 5 line 1"),
    ("item a / flushwq a", "refused 5 line 2"),
    ("item a / flushwq a! # a", "refused 5 line 2"),
    ("item a / flushwq a b", "refused 8 line 2"),
    ("item a / flushwq b a / item b", "refused 8 line 2"),
    ("item a / flushwq a a a / item a", "refused 12 line 2"),
    ("item a / flushw a a", "refused 4 line 2"),
    ("item a / flushwqs a a", "refused 4 line 2"),
    ("item a / Flushwq a a", "refused 4 line 2"),
    ("item a / item a / flushwq a zz", "refused 7 line 2"),
    ("item a / flushwq a zz / item b c", "refused 12 line 3"),
    # Directives are judged before items, and items before groups.
    ("item a / flush a zz / items b", "refused 4 line 3"),
    ("item a / item a /  / item", "refused 5 line 4"),
    ("item a / item a / item b c", "refused 12 line 3"),
    ("item a / ordered a a / flush", "refused 5 line 3"),
    ("item a / ordered a a / flush a zz", "refused 8 line 3"),
    ("item a / ordered a a / item a", "refused 7 line 3"),
    ("item a / ordered a a zz", "refused 8 line 2"),
]

# The tables of this file: of each its name, the command, and the rows, which are the texts and the answer.
TABLES = [
    ("plans, bytes", "plan", BYTES),
    ("plans", "plan", PLANS),
    ("circles", "plan", [(text, circle + " / " + run) for text, circle, run in CIRCLES]),
    ("refusals of declarations", "plan", REFUSALS),
]
