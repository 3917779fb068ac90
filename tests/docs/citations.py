#!/usr/bin/env python3
"""Checks how the declarations and assignments of examples/ cite the kernel: examples/README.md, "How a place is cited".

    tests/docs/citations.py [KERNEL ..]

KERNEL is the folder of a kernel's sources. Without one, those in the variable KERNEL are taken, with `:` between them,
or else Debian's /usr/src/linux-source-6.1.tar.xz, if it is there, or else what tests/source/linux_tree.sh has fetched or
can fetch. In a kernel whose version is that of a file's `# Sources:` line each cited line must stand in the cited
function, and that of a `wq` or `norescuer` line must make a workqueue with or without WQ_MEM_RECLAIM. What couldn't be
looked up, as there is no such kernel, is said at the end.

The form is checked without a kernel. First of all, texts with mistakes must be found faulty.
"""
import os
import pathlib
import re
import subprocess
import sys
import tempfile

ROOT = pathlib.Path(__file__).resolve().parents[2]
TARBALL = pathlib.Path("/usr/src/linux-source-6.1.tar.xz")

SOURCES = re.compile(r"# Sources: Linux (\d[\w.]*)((?:, [\w/.-]+)*)")
PLACE = re.compile(r"(?<![\w./-])([\w./-]+\.[ch]):(\d+) ([A-Za-z_]\w*)")
# What only a place may have: a file's name with a colon, or a number that may be a line's.
LEFT_OVER = re.compile(r"[\w./-]+\.[chS]:\S*|(?<![\w.])\d{3,}(?![\w.])")
# What is dismissed stands before its reason: its argument may be a number.
DISMISSED = re.compile(r"^ no wait: \S+ \w+ \w+\([^()]*\):")
KINDS = {"flush": ("flush", "done", "cancel"), "flushwq": ("flushwq",)}
QUEUED = re.compile(r"queued to \w[\w-]* at ")
WORKQUEUES = ("wq", "norescuer")
# A call that makes a workqueue. Those of the older macros have WQ_MEM_RECLAIM (include/linux/workqueue.h).
MAKES = re.compile(r"[^;]*?\b(alloc_workqueue|alloc_ordered_workqueue|create_\w*workqueue)\s*\(([^;]*)\);")


class Places:
    """The places that a text cites, and what is wrong with how it does so."""

    def __init__(self, name, text):
        self.name, self.version, self.folders = name, None, []
        self.found, self.wrong = [], []
        self.made = []  # the places that make the workqueues of a kernel's assignment, each with the first word of its line
        lines = text.splitlines()
        self.is_kernels = not lines[0].startswith("# Not in ")
        for number, line in enumerate(lines, 1):
            self.read(number, line)
        if self.found and self.version is None:
            self.wrong.append(f"{name}: it cites places, and has no line `# Sources: Linux VERSION, FOLDER ..`")

    def read(self, number, line):
        where = f"{self.name}:{number}"
        sources = SOURCES.fullmatch(line)
        if sources:
            if self.version is not None:
                self.wrong.append(f"{where}: a second `# Sources:` line")
            self.version, self.folders = sources[1], sources[2].split(", ")[1:]
            return
        if line.startswith("# Sources"):
            self.wrong.append(f"{where}: not `# Sources: Linux VERSION, FOLDER ..`")
            return
        words, _, comment = line.partition("#")
        places = [(where, place[1], int(place[2]), place[3]) for place in PLACE.finditer(comment)]
        self.found += places
        if places and self.is_kernels and words.startswith(WORKQUEUES):
            self.made.append((places[0], words.split()[0]))
        for left in LEFT_OVER.findall(DISMISSED.sub("", PLACE.sub("", comment))):
            self.wrong.append(f"{where}: `{left}` isn't FILE:LINE FUNCTION")
        wanted = self.wanted((words.split() or [""])[0], comment.strip())
        if wanted:
            self.wrong.append(f"{where}: {wanted}")

    def wanted(self, directive, comment):
        """What the comment of such a line lacks."""
        if directive in KINDS:
            kind, _, rest = comment.partition(" ")
            if kind not in KINDS[directive] or not PLACE.match(rest):
                return f"the comment doesn't begin with {' or '.join(KINDS[directive])}, and a place"
        elif directive == "item":
            queued = QUEUED.search(comment)
            if not queued or not PLACE.match(comment, queued.end()):
                return "the comment doesn't say `queued to WORKQUEUE at` and a place"
        elif directive in WORKQUEUES and self.is_kernels and not PLACE.search(comment):
            return "the comment has no place that makes the workqueue"
        return None


class Tree:
    """The sources of a kernel."""

    def __init__(self, folder):
        self.folder = pathlib.Path(folder)
        self.functions = {}
        makefile = (self.folder / "Makefile").read_text()
        numbers = dict(re.findall(r"^(VERSION|PATCHLEVEL|SUBLEVEL) *= *(\d+)$", makefile, re.M))
        self.version = ".".join(numbers[part] for part in ("VERSION", "PATCHLEVEL", "SUBLEVEL"))

    def path(self, folders, name):
        """The file of this name, or None."""
        paths = [self.folder / folder / name for folder in folders] + [self.folder / name]
        return next((path for path in paths if path.is_file()), None)

    def wrong_maker(self, folders, place, word):
        """Why a place doesn't make the workqueue of a line that begins with this word."""
        where, name, line, _ = place
        path = self.path(folders, name)
        lines = path.read_text(errors="replace").splitlines() if path else []
        made = made_by("\n".join(lines[line - 1:]), "\n".join(lines[:line - 1]))
        return None if made == word else f"{where}: line {line} of {name} makes {f'a workqueue of a `{made}` line' if made else 'no workqueue'}"

    def wrong(self, folders, place):
        """Why a place isn't there."""
        where, name, line, function = place
        path = self.path(folders, name)
        if path is None:
            return f"{where}: Linux {self.version} has no {name}"
        if path not in self.functions:
            self.functions[path] = functions_of(path.read_text(errors="replace").splitlines())
        spans = self.functions[path].get(function, [])
        if not any(first <= line <= last for first, last in spans):
            stands = ", ".join(f"lines {first} to {last}" for first, last in spans) or "nowhere"
            return f"{where}: line {line} of {name} isn't in {function}, which stands at {stands}"
        return None


def made_by(text, above=""):
    """The first word of the line of the workqueue that this C text begins by making, or None. Its flags may be in a
    variable, whose last value stands above."""
    call = MAKES.match(text)
    if call is None:
        return None
    flags = call[2]
    if named := re.search(r", (\w*flags),", flags):
        flags += "".join(re.findall(rf"\b{named[1]} = ([^;]*);", above)[-1:])
    return "wq" if call[1].startswith("create_") or "WQ_MEM_RECLAIM" in flags else "norescuer"


def functions_of(lines):
    """The functions of a C file in the kernel's style: of each name the first and last lines of those called so.

    Its body begins with a `{` and ends with a `}`, each the first in its line. What stands above the body, up to an
    empty line, a comment or the end of something else, is its head.
    """
    functions = {}
    start = None
    for number, line in enumerate(lines, 1):
        if line.startswith("{"):
            start = number
        elif line.startswith("}") and start is not None:
            first = start
            while first > 1 and lines[first - 2].strip() and not re.match(r"[}#]| ?\*|/\*", lines[first - 2]):
                first -= 1
            for name in re.findall(r"(\w+)\s*\(", " ".join(lines[first - 1:start])):
                functions.setdefault(name, []).append((first, number))
            start = None
    return functions


# Texts, and what must be said of each: a part of it, or nothing.
HEAD = "# x\n# Sources: Linux 6.1.192, fs/xfs\n"
ITEM = "item a  # queued to wq at a.c:2 f\n"
FORMS = [
    (HEAD + ITEM + "flush a a  # done a.c:2 f, g.c:30 h; 16, 6.1.192\nflushwq a a  # flushwq a.c:2 f\n", ""),
    (HEAD + "wq 0 a  # made at a.c:2 f\n", ""),
    ("# Not in 6.1: x\nwq 0 a\n", ""),
    (HEAD + "wq 0 a  # made\n", "no place that makes the workqueue"),
    (HEAD + "norescuer 0 a  # made\n", "no place that makes the workqueue"),
    ("# x\n" + ITEM, "no line `# Sources:"),
    (HEAD + HEAD, "a second `# Sources:` line"),
    ("# Sources: 6.1.192\n", "not `# Sources:"),
    (HEAD + "item a  # f\n", "doesn't say `queued to WORKQUEUE at`"),
    (HEAD + "item a  # queued to wq at f\n", "doesn't say `queued to WORKQUEUE at`"),
    (HEAD + "flush a a  # a.c:2 f\n", "doesn't begin with flush or done or cancel"),
    (HEAD + "flush a a  # flushwq a.c:2 f\n", "doesn't begin with flush or done or cancel"),
    (HEAD + "flushwq a a  # flush a.c:2 f\n", "doesn't begin with flushwq"),
    (HEAD + "flush a a  # done f at a.c:2 f\n", "and a place"),
    (HEAD + "# no wait: a.c f usleep_range(1000): why\n", ""),
    (HEAD + "# no wait: a.c f usleep_range(1000): 1500 times\n", "`1500` isn't FILE:LINE FUNCTION"),
    (HEAD + "# a.c:12\n", "`a.c:12` isn't FILE:LINE FUNCTION"),
    (HEAD + "# a.c:12-15 f\n", "`a.c:12-15` isn't FILE:LINE FUNCTION"),
    (HEAD + "# a.c:12, 15 f\n", "`a.c:12,` isn't FILE:LINE FUNCTION"),
    (HEAD + "# a.c:12 f, 150 g\n", "`150` isn't FILE:LINE FUNCTION"),
]
C = """\
static int
f(
\tint x) __releases(lock)
{
\tif (x) {
\t\treturn 1;
\t}
}

/* says f() */
int __init g(void)
{
}
"""
MADE = [
    ('\ta->wq = alloc_workqueue("x/%s",\n\t\tF(A | WQ_MEM_RECLAIM), 0,\n\t\tid);\n', "wq"),
    ('\ta->wq = alloc_workqueue("x", F(WQ_UNBOUND),\n\t\t0);\n\tb = alloc_workqueue("y", WQ_MEM_RECLAIM, 0);\n', "norescuer"),
    ('\ta = alloc_ordered_workqueue("x", 0);\n', "norescuer"),
    ('\ta = create_singlethread_workqueue("x");\n', "wq"),
    ('\tif (!a)\n\t\treturn;\n\tb = alloc_workqueue("y", 0, 0);\n', None),
    ("", None),
]
MADE_BY_FLAGS = '\ta = alloc_workqueue("x", wq_flags, 0);\n'
FLAGS = [
    ("\tint wq_flags = WQ_UNBOUND;\n\twq_flags = A |\n\t\tWQ_MEM_RECLAIM;\n\twq_flags |= B;\n", "wq"),
    ("\tint wq_flags = WQ_MEM_RECLAIM;\n\twq_flags = WQ_UNBOUND;\n", "norescuer"),
    ("\tint more_wq_flags = WQ_MEM_RECLAIM;\n", "norescuer"),
]
LINES = range(1, len(C.splitlines()) + 1)
IN_FUNCTION = {("f", line): 1 <= line <= 8 for line in LINES} | {("g", line): 11 <= line <= 13 for line in LINES}


def planted():
    """What isn't said as it should be of the texts above."""
    for text, wanted in FORMS:
        said = "; ".join(Places("x", text).wrong)
        if wanted not in said or bool(wanted) != bool(said):
            yield f"of {text!r} is said: {said or 'nothing'}"
    for text, wanted in MADE:
        if made_by(text) != wanted:
            yield f"{text!r} is said to make {made_by(text)}"
    for above, wanted in FLAGS:
        if made_by(MADE_BY_FLAGS, above) != wanted:
            yield f"below {above!r} {MADE_BY_FLAGS!r} is said to make {made_by(MADE_BY_FLAGS, above)}"
    functions = functions_of(C.splitlines())
    for (name, line), wanted in IN_FUNCTION.items():
        if any(first <= line <= last for first, last in functions[name]) != wanted:
            yield f"line {line} of the C text is {'not ' if wanted else ''}in {name}"


def unpacked(into, texts):
    """Unpacks what the texts cite from Debian's archive, into a folder. Gives the folder."""
    top = TARBALL.name.removesuffix(".tar.xz")
    names = {"Makefile"}
    for text in texts:
        for _, name, _, _ in text.found:
            names.update([name] + [f"{folder}/{name}" for folder in text.folders])
    # (tar says of each name that isn't there that it isn't, and unpacks the others)
    members = [f"{top}/{name}" for name in sorted(names)]
    subprocess.run(["tar", "-xJf", TARBALL, "-C", into, "--strip-components=1", *members], stderr=subprocess.DEVNULL,
                   check=False, timeout=300)
    return into


def fetched():
    """The folder of the sources that tests/source/linux_tree.sh finds or fetches, if any."""
    asked = subprocess.run(["bash", ROOT / "tests/source/linux_tree.sh"], stdout=subprocess.PIPE, text=True, check=False,
                           timeout=1800)
    return asked.stdout.split()


def main():
    files = sorted(path for end in ("wq", "assign") for path in (ROOT / "examples").glob(f"*.{end}"))
    texts = [Places(path.name, path.read_text()) for path in files]
    wrong = list(planted()) + [what for text in texts for what in text.wrong]
    cited = sum(len(text.found) for text in texts)
    if not cited:
        wrong.append("examples/ cites nothing")
    passed = len(FORMS) + len(MADE) + len(FLAGS) + len(IN_FUNCTION) + sum(not text.wrong for text in texts)

    with tempfile.TemporaryDirectory() as into:
        kernels = sys.argv[1:] or [name for name in os.environ.get("KERNEL", "").split(":") if name]
        if not kernels and TARBALL.is_file():
            kernels = [unpacked(into, texts)]
        kernels = kernels or fetched()
        strange = [name for name in kernels if not pathlib.Path(name, "Makefile").is_file()]
        if strange:
            sys.exit(f"citations: there are no sources of a kernel in {' '.join(strange)}")
        trees = {tree.version: tree for tree in map(Tree, kernels)}

        skipped = {}
        for text in texts:
            tree = trees.get(text.version)
            if tree is None:
                skipped[text.version] = skipped.get(text.version, 0) + len(text.found)
                continue
            looked_up = [tree.wrong(text.folders, place) for place in text.found]
            looked_up += [tree.wrong_maker(text.folders, *made) for made in text.made]
            passed += looked_up.count(None)
            wrong += filter(None, looked_up)
    for what in wrong:
        print(f"FAILED  {what}")
    for version, count in skipped.items():
        if count:
            print(f"skipped {count} places of Linux {version}: there are no sources of it (KERNEL=FOLDER names some)")
    print(f"citations: {passed} passed, {len(wrong)} failed ({cited} places are cited)")
    sys.exit(1 if wrong else 0)


if __name__ == "__main__":
    main()
