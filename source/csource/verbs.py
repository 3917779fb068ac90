"""The verbs of the command line but for `scan`. (They need much, and to import that takes a while.)"""

import argparse
import glob
import io
import os
import pathlib
import re
import sys
from typing import Optional

from . import outputs, program
from .declaration import Declaration
from .extract import Extractor
from .faults import Fault
from .kept import program_of
from .named_module import chosen_for
from .names import from_top
from .progress import Progress
from .token_extract import TokenExtractor
from .tree_index import Coming

# The statuses.
DONE, LEFT, DEPENDS = 0, 1, 4
# The tree, where none is named.
HERE = pathlib.Path(".")


def expanded(tree: pathlib.Path, names: list[str]) -> list[str]:
    """The files that the names mean. A name with `*` may mean several."""
    return list(dict.fromkeys(file for name in names for file in meant(tree, name)))


def meant(tree: pathlib.Path, name: str) -> list[str]:
    name = from_top(tree, name)
    return sorted(glob.glob(name, root_dir=tree, recursive=True)) if "*" in name else [name]


def wrong_name(tree: pathlib.Path, name: str) -> Optional[str]:
    """What is wrong with a name of files; None if nothing is."""
    files = meant(tree, name)
    if not files:
        return f"{name}: matches no file in {tree}"
    for file in files:
        path = tree / file
        if os.path.isabs(file) and tree != HERE:
            return f"{file}: not below {tree}: is it of another tree?"
        if path.is_dir():
            return f"{path}: a folder: write '{file}/*.c'"
        if not path.is_file():
            return f"{path}: no such file"
        if re.search(r"\s", file):
            return f"{path}: a `# files:` line can't name a file with a blank in its name"
        if path.suffix not in outputs.SOURCES:
            return f"{path}: no C file: its name ends with none of {' '.join(outputs.SOURCES)}"
    return None


def files_of(tree: pathlib.Path, given: list[str], declaration: Optional[Declaration]) -> list[str]:
    """The files to read. Each is there."""
    if not tree.is_dir():
        raise Fault(f"{tree}: no such folder")
    names = given or (declaration.files if declaration else [])
    if not names:
        raise Fault("no file is given" + (", and the declaration has no `# files:` line" if declaration else ""))
    for name in names:
        wrong = wrong_name(tree, name)
        if wrong:
            raise Fault(wrong)
    return expanded(tree, names)


def declared(path: str) -> Declaration:
    """The declaration, if it is one."""
    found = Declaration.read(path)
    if not found.items:
        raise Fault(f"{path}: it declares no item: is this the right file?")
    if found.without_colon:
        number, word = found.without_colon[0]
        raise Fault(f"{path}:{number}: `# {word}` without its colon: write `# {word}: ..`")
    return found


def run_audit(words: argparse.Namespace, extractor: program.ReadsFacts) -> int:
    # (each imports what it needs alone: that is a tenth of the time that it takes)
    from . import audit, audit_text

    declaration = declared(words.decl)
    files = files_of(words.tree, words.files, declaration)
    found = audit.Audit(
        declaration,
        program_of(words.tree, files, extractor, words.stacked or declaration.is_stacked),
        words.each_item,
    )
    extractor.progress.end()
    audit_text.Printer(found, sys.stdout, words.paths).print()
    return DONE if found.is_done else LEFT


def run_drift(words: argparse.Namespace, extractor: program.ReadsFacts) -> int:
    from . import drift, drift_text

    declaration = declared(words.decl)
    if not words.new.is_dir():
        raise Fault(f"{words.new}: no such folder")
    names = [from_top(words.old, name) for name in words.files or declaration.files]
    for name in names:
        if os.path.isabs(name):
            raise Fault(f"{name}: not below {words.old}, so the other tree has no file of this name")
    files = files_of(words.old, names, declaration)
    stacked = words.stacked or declaration.is_stacked
    old = program_of(words.old, files, extractor, stacked)
    # (a file may be gone; one that a name with `*` means may be new)
    later = expanded(words.new, names)
    new = program_of(words.new, [file for file in later if (words.new / file).is_file()], extractor, stacked)
    found = drift.Drift(declaration, old, new)
    extractor.progress.end()
    drift_text.Printer(found, sys.stdout).print()
    text = found.rewritten() if words.write else None
    if text is not None:
        outputs.replace(pathlib.Path(words.decl), text)
    return DONE if found.is_silent(after_writing=words.write) else LEFT


def run_draft(words: argparse.Namespace, extractor: program.ReadsFacts) -> int:
    from . import draft, draft_text

    if not words.files:
        for name in words.only:
            if pathlib.PurePath(name).suffix in outputs.SOURCES:
                raise Fault(f"{name} was taken for a function: write `--` before the files")
    files = files_of(words.tree, words.files, None)
    out = pathlib.Path(words.assign) if words.assign else None
    if out:
        why = outputs.refusal(out, [words.tree / file for file in files], words.force)
        if why:
            raise Fault(why)
    # (of the files of a draft it is asked once, as a rule)
    found = draft.Draft(program_of(words.tree, files, extractor, words.stacked, is_kept=False), words.only)
    extractor.progress.end()
    if found.missing:
        raise Fault(f"{found.missing[0]} is no work function of these files")
    declaration = io.StringIO()
    draft_text.Printer(found, declaration, words.unknown).print()
    sys.stdout.write(declaration.getvalue())
    if out:
        text = io.StringIO()
        draft_text.print_assignment(found, text, words.unknown)
        outputs.replace(out, outputs.with_sum(text.getvalue()))
    if draft_text.is_too_long(declaration.getvalue()):
        print(f"wqsource: {draft_text.TOO_LONG}", file=sys.stderr)
    return DONE


def needed_items(words: argparse.Namespace, declaration: Declaration) -> list[str]:
    """The NAMEs, each once. Each is an item, and no FILE is one."""
    items = {item.name for item in declaration.items}
    for name in words.needed:
        if name not in items:
            raise Fault(f"{words.declaration}: no item `{name}` is declared")
    for name in words.files:
        if name in items and wrong_name(words.tree, name):
            raise Fault(f"{name} is an item, and was taken for a file: write `--needed {name}`")
    return list(dict.fromkeys(words.needed))


def run_ask(words: argparse.Namespace, extractor: program.ReadsFacts) -> int:
    from . import ask, ask_text

    declaration = declared(words.declaration)
    needed = needed_items(words, declaration)
    wqplan = ask.Wqplan()
    read = None
    if words.files or declaration.files:
        files = files_of(words.tree, words.files, declaration)
        stacked = words.stacked or declaration.is_stacked
        read = program_of(words.tree, files, extractor, stacked)
    asking = ask.Asking(pathlib.Path(words.declaration), words.assignment, needed, read, wqplan)
    extractor.progress.end()
    ask_text.talk(asking, ask_text.terminal(), sys.stdout)
    if asking.hang is None:
        return DONE
    return DEPENDS if asking.hang.unsure else LEFT


VERBS = {"audit": run_audit, "drift": run_drift, "draft": run_draft, "ask": run_ask}


def run(words: argparse.Namespace, cache: pathlib.Path, jobs: int, said: Progress, index: Optional[Coming]) -> int:
    """Does what the command line says. The status. `index` is that of the tree, if a module is named."""
    coccinelle = Extractor(cache, jobs, said)
    reader = TokenExtractor(cache, said, coccinelle)
    extractor: program.ReadsFacts = coccinelle if words.facts == "coccinelle" else reader
    if words.verb == "scan":
        from . import scan_command

        return scan_command.run(words, reader)
    if index is not None:
        words.files = chosen_for(words.tree, words.module, reader, index).files
    status = VERBS[words.verb](words, extractor)
    # (what the choice of files has read, if nobody read them by it)
    reader.kept.write_owed()
    return status
