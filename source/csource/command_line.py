"""The command line of `wqsource`."""

import argparse
import gc
import io
import os
import pathlib
import signal
import sys
from typing import Any, NoReturn, Optional

from . import scan_options, shared_out
from .cache import default_cache
from .faults import Fault
from .progress import Progress
from .tree_index import Coming

FAULT = 3
# The tree, where none is named.
HERE = pathlib.Path(".")
# What a shell says of a program that SIGPIPE ended.
UNREAD = 141

ABOUT = """\
Reads C sources beside a declaration of wqplan.

  audit   which places may wait in reach of the declared items, and are neither cited nor dismissed in the declaration
  drift   what has changed between two trees: the lines that the declaration cites, waits in reach, workqueues
  draft   a first declaration of some files, in which each wait is an unsure line
  ask     the unsure lines that decide whether the workqueues hang, one after another; it writes the answers down
  scan    the workqueues with a rescuer of a whole kernel, and which of them can hang

It lists places that may wait, along calls that it could resolve in the files that it was given. It never says that
these are all. Nothing here is proved. README.md beside it has the comments that it reads, and an example."""

ENDS = """\
Status: 0 nothing is left to decide or to look at, 1 something is, 2 the command line is wrong, 3 a fault: a file that
can't be read or mustn't be written, a name that means no file, a declaration without items, or Coccinelle is missing,
4 `ask` ends and it depends still, 141 nobody reads standard output any more. For `ask` 0 is safe, and 1 hangs for sure."""


def parser() -> argparse.ArgumentParser:
    shared = argparse.ArgumentParser(add_help=False)
    shared.add_argument(
        "--jobs", type=int, default=os.cpu_count(), metavar="N", help="so many processes at a time (all processors)"
    )
    shared.add_argument(
        "--cache",
        type=pathlib.Path,
        default=default_cache(),
        metavar="DIR",
        help="where facts are kept ($XDG_CACHE_HOME/wqplan/facts)",
    )
    shared.add_argument(
        "--facts",
        choices=("reader", "coccinelle"),
        default="reader",
        help="who reads the C: the reader of tokens, and Coccinelle where that isn't sure of a file; or Coccinelle alone",
    )
    shared.add_argument(
        "--stacked", action="store_true", help="submit_bio may run the submit_bio functions of these files"
    )
    words = argparse.ArgumentParser(
        prog="wqsource", description=ABOUT, epilog=ENDS, formatter_class=argparse.RawDescriptionHelpFormatter
    )
    verbs = words.add_subparsers(dest="verb", required=True, metavar="audit|drift|draft|ask|scan")
    files: dict[str, Any] = dict(
        nargs="*",
        metavar="FILE",
        help="C files and headers, from the top of the tree; `*` stands for any letters. "
        "Without any: those of the `# files:` lines of the declaration",
    )
    drafted: dict[str, Any] = dict(
        nargs="*", metavar="FILE", help="C files and headers, from the top of the tree; `*` stands for any letters"
    )
    one = verbs.add_parser("audit", parents=[shared], epilog=ENDS, help="sites that the declaration doesn't decide")
    one.add_argument("--decl", required=True, metavar="D.wq")
    one.add_argument("--tree", type=pathlib.Path, default=HERE, metavar="DIR")
    one.add_argument("--paths", action="store_true", help="all calls that lead to a site, and to what may end it")
    one.add_argument(
        "--each-item",
        action="store_true",
        help="a cited site is left for each item that reaches it and has no line of its own for it",
    )
    scan_options.add_module_option(one)
    one.add_argument("files", **files)
    two = verbs.add_parser("drift", parents=[shared], epilog=ENDS, help="what has changed between two trees")
    two.add_argument("--decl", required=True, metavar="D.wq")
    two.add_argument("--old", type=pathlib.Path, required=True, metavar="DIR", help="the tree whose lines D.wq cites")
    two.add_argument("--new", type=pathlib.Path, required=True, metavar="DIR")
    two.add_argument(
        "--write", action="store_true", help="write the new numbers of moved lines into D.wq, and nothing else"
    )
    two.add_argument("files", **files)
    three = verbs.add_parser("draft", parents=[shared], epilog=ENDS, help="a first declaration of some files")
    three.add_argument("--tree", type=pathlib.Path, default=HERE, metavar="DIR")
    three.add_argument(
        "--only",
        nargs="+",
        default=[],
        metavar="FUNCTION",
        help="these work functions, and what they wait for; write `--` before the files",
    )
    three.add_argument(
        "--assign", metavar="OUT", help="write the workqueues that the files make into OUT, as an assignment"
    )
    three.add_argument(
        "--unknown",
        action="store_true",
        help="a site of which no target is known is an unsure wait for an item `unknown`, without a rescuer, and no `?` line",
    )
    three.add_argument(
        "--force", action="store_true", help="overwrite OUT though it is no former draft, or was changed by hand"
    )
    scan_options.add_module_option(three)
    three.add_argument("files", **drafted)
    four = verbs.add_parser("ask", parents=[shared], epilog=ENDS, help="the unsure lines on which it depends")
    four.add_argument("declaration", metavar="DECL")
    four.add_argument("assignment", metavar="ASSIGN")
    four.add_argument("--tree", type=pathlib.Path, default=HERE, metavar="DIR")
    four.add_argument(
        "--needed",
        nargs="+",
        action="extend",
        default=[],
        metavar="NAME",
        help="only what can hold up one of these items, as `wqplan hang DECL ASSIGN NAME..` asks; "
        "write `--` between them and DECL",
    )
    four.add_argument("files", **files)
    scan_options.add_parser(verbs, shared, ENDS)
    return words


def main() -> int:
    """Does what the command line says. The status."""
    let_bytes_through()
    words = parser().parse_args()
    # (millions of small objects, which live as long as the command; to look through them again and again costs a third)
    gc.disable()
    said = Progress()
    try:
        status = status_of(words, said)
        let_go_of_output()
        shared_out.wait_for_all()
    except KeyboardInterrupt:
        said.end()
        end_by_interrupt()
    return status


def status_of(words: argparse.Namespace, said: Progress) -> int:
    try:
        status = run(words, said)
        sys.stdout.flush()
    except BrokenPipeError:
        said.end()
        status = UNREAD
    except (Fault, OSError) as fault:
        said.end()
        print(f"wqsource: {said_of(fault)}", file=sys.stderr)
        status = FAULT
    return status


def run(words: argparse.Namespace, said: Progress) -> int:
    # (spatch runs in the folder of the tree)
    cache, jobs = words.cache.resolve(), max(1, words.jobs or 1)
    # (others search the tree, while this process gets ready)
    index = begun_index(words, cache, jobs) if words.verb != "scan" and getattr(words, "module", None) else None
    from . import verbs

    return verbs.run(words, cache, jobs, said, index)


def begun_index(words: argparse.Namespace, cache: pathlib.Path, jobs: int) -> Coming:
    tree: pathlib.Path = words.tree
    if not (tree / "Kbuild").is_file() and not (tree / "Makefile").is_file():
        raise Fault(f"{tree}: no kernel's source (it has no Makefile)")
    return Coming(tree, cache, jobs)


def let_bytes_through() -> None:
    """What is no UTF-8, in a declaration or a name, is printed as it is, whatever the locale."""
    for stream in (sys.stdin, sys.stdout, sys.stderr):
        if isinstance(stream, io.TextIOWrapper):
            stream.reconfigure(encoding="utf-8", errors="surrogateescape")


def said_of(fault: Exception) -> str:
    """What went wrong; of a file that can't be read or written, its name and why."""
    if isinstance(fault, OSError) and fault.filename is not None and fault.strerror:
        return f"{fault.filename}: {fault.strerror[0].lower()}{fault.strerror[1:]}"
    return str(fault)


def end_by_interrupt() -> NoReturn:
    """Ends as a program does that catches nothing: then a shell's loop around it ends, too."""
    signal.signal(signal.SIGINT, signal.SIG_DFL)
    signal.raise_signal(signal.SIGINT)
    raise KeyboardInterrupt


def let_go_of_output() -> None:
    """What couldn't be written isn't tried again when Python ends, which would say so with a status of its own."""
    try:
        sys.stdout.flush()
    except OSError:
        os.dup2(os.open(os.devnull, os.O_WRONLY), sys.stdout.fileno())
