"""Cases whose texts are too long for files here, or whose names aren't those of files here: by name the files, the command line, the
answer, and what is said. In a text ` / ` parts lines."""

AB = "item a / item b / flush a b"
CODE = "[refused {0}, `wqplan explain {0}`]".format


def name(number):
    return f"i{number:04}"


def items(count):
    return "".join(f"item {name(number)}\n" for number in range(count)).encode()


def chain(names):
    """Items, each of which flushes the next one."""
    return " / ".join([f"item {one}" for one in names] + [f"flush {one} {target}" for one, target in zip(names, names[1:])])


def flushes(count):
    """The lines of one item and so many flushes of it, 1,000 on a line."""
    return ("item a\n" + "".join(f"flush a{' a' * min(1_000, count - at)}\n" for at in range(0, count, 1_000))).encode()


def no_directive(file):
    return [f"{file}:1:1: `items` isn't a directive {CODE(4)}", "    items", "    ^^^^^ did you mean `item`?"]


def too_long(file):
    return [f"{file}: the declaration has more than 1,048,576 bytes {CODE(1)}"]


TOO_MANY_WORKQUEUES = f"d.wq: the plan has more than 256 workqueues, each of which takes a thread {CODE(69)}"

CASES = {
    "limits/lines-on-stdin": ({"<stdin>": b"\n" * 1_048_577}, ["plan"], "refused 1 line 0", too_long("<stdin>")),
    "limits/lines": ({"d.wq": b"\n" * 1_048_577}, ["plan", "d.wq"], "refused 1 line 0", too_long("d.wq")),
    "limits/a-long-line-on-stdin": ({"<stdin>": b"x" * 1_100_000}, ["plan"], "refused 1 line 0", too_long("<stdin>")),
    "limits/a-line": ({"d.wq": b"#" * 4_096 + b"a" * 4_000 + b"\r\n"}, ["run", "d.wq"], "refused 2 line 1", [
        f"d.wq:1:4097: the line has more than 4,096 bytes {CODE(2)}",
        "    ..." + "#" * 40 + "a" * 54 + "...",
        "       " + " " * 40 + "^" * 54,
    ]),
    "limits/items-on-stdin": ({"<stdin>": " / ".join(f"item i{at}" for at in range(1, 4_098))}, ["plan"], "refused 9 line 4097", [
        f"<stdin>:4097:1: there are more than 4,096 items {CODE(9)}", "    item i4097", "    ^^^^",
    ]),
    "limits/items": ({"d.wq": items(4_097)}, ["plan", "d.wq"], "refused 9 line 4097", [
        f"d.wq:4097:1: there are more than 4,096 items {CODE(9)}", "    item i4096", "    ^^^^",
    ]),
    "limits/flushes-on-stdin": ({"<stdin>": " / ".join(["item send", *["flush send send"] * 16_385])}, ["plan"], "refused 10 line 16386", [
        f"<stdin>:16386:1: with this line there are more than 16,384 flushes {CODE(10)}", "    flush send send", "    ^^^^^",
    ]),
    "limits/flushes": ({"d.wq": flushes(16_385)}, ["plan", "d.wq"], "refused 10 line 18", [
        f"d.wq:18:1: with this line there are more than 16,384 flushes {CODE(10)}", "    flush a" + " a" * 43 + " " + "...", "    ^^^^^",
    ]),
    # Nine further mistakes are told, and limits aren't.
    "limits/flushes-behind-a-mistake": (
        {"d.wq": " / ".join(["item a", "flush a b", *["flush a a"] * 16_385])}, ["plan", "d.wq"], "refused 8 line 2",
        [f"d.wq:2:9: no item `b` is declared above this line {CODE(8)}", "    flush a b", "            ^ write `item b` above"],
    ),
    "limits/certificate": ({"d": AB, "p": b"\n" * 8_388_609}, ["check", "d", "p"], "refused 40 line 0", [
        f"p: the text has more than 8,388,608 bytes {CODE(40)}",
    ]),
    "limits/a-line-of-a-run": (
        {"d": AB, "a": "wq 0 b / wq 1 a", "r": b"run 0\n#" + b"x" * 524_288}, ["replay", "d", "a", "r"], "refused 40 line 2",
        [f"r:2:524289: the line has more than 524,288 bytes {CODE(40)}", "    ..." + "x" * 94, "       " + " " * 93 + "^"],
    ),
    "limits/a-line-of-an-assignment": (
        {"d": AB, "a": b"wq 0 a b " + b"b" * 600_000 + b"\n"}, ["deadlock", "d", "a"], "refused 40 line 1",
        [f"a:1:524289: the line has more than 524,288 bytes {CODE(40)}", "    ..." + "b" * 94 + "...", "       " + " " * 40 + "^" * 54],
    ),
    "limits/workqueues": ({"d": "", "a": " / ".join(f"wq {at}" for at in range(4_097))}, ["deadlock", "d", "a"], "refused 43 line 4097", [
        f"a:4097:4: an assignment has at most 4,096 workqueues {CODE(43)}",
        "    wq 4096",
        "       ^^^^ workqueues are numbered from 0, in order",
    ]),
    "limits/items-on-no-workqueue": ({"d": items(4_096), "a": "wq 0"}, ["deadlock", "d", "a"], "refused 41 line 0", [
        f"a: `i0000`, `i0001`, `i0002` and 4093 more are on no workqueue {CODE(41)}",
    ]),
    "limits/workqueues-that-are-run": ({"d.wq": chain([name(at) for at in range(257)])}, ["run", "d.wq"], "refused 69 line 0", [TOO_MANY_WORKQUEUES]),
    "limits/workqueues-that-are-run-2": ({"long.wq": chain([f"i{at}" for at in range(1, 258)])}, ["run", "long.wq"], "refused 69 line 0", [
        TOO_MANY_WORKQUEUES.replace("d.wq", "long.wq"),
    ]),
    "file-names/a-blank": ({"my items.wq": "items"}, ["plan", "my items.wq"], "refused 4 line 1", no_directive("my items.wq")),
    # UTF-8, a TAB, a line feed and an escape in the name.
    "file-names/utf-8": ({"gr\u00f6\u00dfe.wq": "items"}, ["plan", "gr\u00f6\u00dfe.wq"], "refused 4 line 1", no_directive("gr????e.wq")),
    "file-names/control-characters": (
        {"a\tb\nc\x1bd:7:": "items"}, ["plan", "a\tb\nc\x1bd:7:"], "refused 4 line 1", no_directive("a b?c?d:7:"),
    ),
    "file-names/a-dash": ({"\x7f": "item a / item b", "-": "wq 0"}, ["deadlock", "\x7f", "./-"], "refused 41 line 0", [
        f"./-: `a`, `b` are on no workqueue {CODE(41)}",
    ]),
    "file-names/beside-an-answer": ({"my\x1b\titems.wq": b"# item a\r\n\t\n"}, ["plan", "./my\x1b\titems.wq"], "plan 0 / chain 0", [
        "./my? items.wq: note: no item is declared: is this the right file?",
    ]),
    "file-names/in-reasons": (
        {"d\t\u00e4": AB, "a b\x1b": "wq 0 a / norescuer 1 b"}, ["deadlock", "d\t\u00e4", "a b\x1b"],
        "run 4 / queue a / queue b / start 0 a / wait 0 b", [
            "d ??:3:9: can hang: `a`, on workqueue 0, waits for `b`, which nothing guarantees to run: workqueue 1 has no rescuer",
            "    flush a b",
            "            ^",
            "a b?:2:1: workqueue 1 has no rescuer",
            "    norescuer 1 b",
            "    ^^^^^^^^^",
        ],
    ),
}
