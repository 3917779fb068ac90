"""The commands of wqrecord that read a record: declare, compare, places; and probes."""

import argparse
import pathlib
import re
import sys
import traceback
from typing import Callable

sys.path.insert(0, str(pathlib.Path(__file__).resolve().parents[1]))
from wqr import confirmed, probes, says  # noqa: E402
from wqr.archive import PLACES, Archive, Unreadable  # noqa: E402
from wqr.btf import NoTypes  # noqa: E402
from wqr.causes import Causes  # noqa: E402
from wqr.chosen import Chosen  # noqa: E402
from wqr.compare import Comparison, Total  # noqa: E402
from wqr.declaration import Drawing  # noqa: E402
from wqr.declared import Declared  # noqa: E402
from wqr.history import History  # noqa: E402
from wqr.items import Items  # noqa: E402
from wqr.places import Places  # noqa: E402
from wqr.sites import Sites  # noqa: E402

HOLE, FAULT, NO_TYPES = 1, 3, 14


def drawing_of(file: pathlib.Path, options: argparse.Namespace) -> Drawing:
    archive = Archive.read(file)
    history = History.of(archive)
    causes = Causes(history)
    items = Items(history, causes)
    places = Places(history.symbols, options.debug, archive.release, archive.parts.get(PLACES, b""))
    head = says.head(archive, history, causes, items) + says.about_nothing(items, options.about or [])
    return Drawing(items, Chosen.of(items, options.about), Sites(places), head)


def declare(options: argparse.Namespace) -> int:
    drawing = drawing_of(options.file, options)
    if options.assign:
        options.assign.write_text(drawing.assignment())
    if options.out:
        options.out.write_text(drawing.declaration())
    else:
        sys.stdout.write(drawing.declaration())
    return 0


def compare(options: argparse.Namespace) -> int:
    comparisons = []
    for file in options.files:
        drawing = drawing_of(file, options)
        comparisons.append(Comparison(drawing, Declared.read(options.decl, options.assign, drawing.history.symbols)))
        if len(options.files) > 1:
            print(f"== {file}")
        sys.stdout.writelines(f"{line}\n" for line in comparisons[-1].lines())
    if len(options.files) > 1:
        print("== together")
    total = Total(comparisons)
    sys.stdout.writelines(f"{line}\n" for line in total.lines())
    if not any(comparison.items_that_ran() for comparison in comparisons):
        raise Unreadable(f"{options.decl}: none of its items ran; is it about another driver than what was recorded?")
    if options.write and total.confirmed:
        confirmed.write(options.decl, total.confirmed)
    return HOLE if any(comparison.has_hole for comparison in comparisons) else 0


def keep_places(options: argparse.Namespace) -> int:
    """Puts the lines of all stacks into the record, and takes out the functions that it doesn't need any more."""
    archive = Archive.read(options.file)
    history = History.of(archive)
    places = Places(history.symbols, options.debug, archive.release, archive.parts.get(PLACES, b""))
    places.learn(history.addresses())
    archive.parts[PLACES] = places.kept()
    archive.parts["kallsyms"] = history.symbols.text_of(history.addresses() | history.functions()).encode()
    archive.write(options.out or options.file)
    return 0


def print_probes(options: argparse.Namespace) -> int:
    try:
        lines = probes.lines(options.btf.read_bytes())
    except FileNotFoundError:
        print(f"wqrecord: the kernel has no BTF ({options.btf})", file=sys.stderr)
        return NO_TYPES
    sys.stdout.writelines(f"{line}\n" for line in lines)
    return 0


def pattern(text: str) -> str:
    """A regular expression of the command line."""
    try:
        re.compile(text)
    except re.error as error:
        raise argparse.ArgumentTypeError(f"{text!r} is no regular expression: {error}") from error
    return text


def words_of(fault: Exception) -> str:
    if isinstance(fault, OSError) and fault.filename is not None:
        return f"{fault.filename}: {fault.strerror}"
    return str(fault)


def parser() -> argparse.ArgumentParser:
    whole = argparse.ArgumentParser(prog="wqrecord")
    verbs = whole.add_subparsers(dest="verb", required=True)

    def verb(name: str, does: Callable[[argparse.Namespace], int], words: str) -> argparse.ArgumentParser:
        added = verbs.add_parser(name, help=words, description=words)
        added.set_defaults(does=does)
        return added

    def reads_record(added: argparse.ArgumentParser, several: bool = False) -> None:
        if several:
            added.add_argument("files", metavar="FILE", nargs="+", type=pathlib.Path, help="records")
        else:
            added.add_argument("file", metavar="FILE", type=pathlib.Path, help="a record")
        added.add_argument(
            "--debug",
            metavar="FOLDER",
            type=pathlib.Path,
            default=pathlib.Path("/usr/lib/debug"),
            help="debug symbols of the kernel (default: /usr/lib/debug)",
        )

    about = dict(
        metavar="PATTERN",
        action="append",
        type=pattern,
        help="modules, functions or workqueues that it is about: a whole regular expression",
    )
    added = verb("declare", declare, "Writes a declaration and an assignment of a record.")
    reads_record(added)
    added.add_argument("--about", **about)
    added.add_argument(
        "--out", metavar="DECL", type=pathlib.Path, help="where the declaration goes (default: standard output)"
    )
    added.add_argument("--assign", metavar="ASSIGN", type=pathlib.Path, help="where the assignment goes")
    added = verb("compare", compare, "Tells what was seen beside what is declared. Status 1: a wait isn't declared.")
    added.add_argument("decl", metavar="DECL", type=pathlib.Path, help="a declaration")
    reads_record(added, several=True)
    added.add_argument(
        "--assign", metavar="ASSIGN", type=pathlib.Path, help="an assignment of it, whose comments name the workqueues"
    )
    added.add_argument("--about", **about)
    added.add_argument(
        "--write", action="store_true", help="takes the ? from the flush? and flushwq? lines of DECL that were seen"
    )
    added = verb(
        "places",
        keep_places,
        "Writes the lines of the source into a record, so that it needs no debug symbols any more.",
    )
    reads_record(added)
    added.add_argument("--out", metavar="FILE", type=pathlib.Path, help="writes another record")
    added = verb("probes", print_probes, "Prints the probes for a kernel.")
    added.add_argument(
        "--btf",
        metavar="FILE",
        type=pathlib.Path,
        default=pathlib.Path("/sys/kernel/btf/vmlinux"),
        help="its types (default: those of this kernel)",
    )
    return whole


def main(arguments: list[str]) -> int:
    options = parser().parse_args(arguments)
    try:
        return options.does(options)
    except (OSError, Unreadable, NoTypes, probes.UnknownKernel) as fault:
        print(f"wqrecord: {words_of(fault)}", file=sys.stderr)
    except Exception:
        # (Python's own status is 1, which is an answer here)
        traceback.print_exc()
    return FAULT


if __name__ == "__main__":
    sys.exit(main(sys.argv[1:]))
