#!/usr/bin/env python3
"""Checks that new lines of crates/NAME/src, specs and proofs have at most MOST columns.

    tests/docs/widths.py              lines that were written since the commit SINCE, those that aren't committed among them
    tests/docs/widths.py --widest N   checks nothing, and lists the N files of src and specs with the most columns beyond MOST

A line that was only moved, or indented otherwise, isn't new. Where SINCE isn't in this clone (it is shallow, or no clone), nothing is
checked, and it says so. First of all, a line that is too wide must be found in a repository of its own.
"""
import collections
import pathlib
import subprocess
import sys
import tempfile

ROOT = pathlib.Path(__file__).resolve().parents[2]
# What is older than this commit was written without a limit.
SINCE = "cb00b9322d9ccc4d8fb430f7e627ec04d060ce22"
MOST = 120
PARTS = ("src", "specs", "proofs")


def git(root, *words):
    """What git prints, or None where it fails."""
    how = {"stdout": subprocess.PIPE, "stderr": subprocess.DEVNULL, "encoding": "utf-8", "errors": "replace"}
    try:
        ran = subprocess.run(["git", "-C", str(root), *words], check=False, timeout=60, **how)
    except (OSError, subprocess.SubprocessError):
        return None
    return ran.stdout if ran.returncode == 0 else None


def paths():
    return [f":(glob)crates/*/{part}/**" for part in PARTS]


def added(root, since):
    """The lines that were added since a commit, each with its place; and how often each text was taken away."""
    whole = git(root, "diff", "--no-color", "--no-ext-diff", "--src-prefix=a/", "--dst-prefix=b/", "-U0", "-M", since, "--", *paths())
    found, gone, file, number = [], collections.Counter(), "", 0
    for line in whole.split("\n"):
        if line.startswith("+++ "):
            file = line[6:].rstrip("\t")
        elif line.startswith("@@ "):
            number = int(line.split("+")[1].split(" ")[0].split(",")[0])
        elif line.startswith("+"):
            found.append((file, number, line[1:]))
            number += 1
        elif line.startswith("-") and not line.startswith("--- a/"):
            gone[line[1:].strip()] += 1
    for file in git(root, "ls-files", "--others", "--exclude-standard", "--", *paths()).split("\n"):
        if file:
            text = (root / file).read_text(encoding="utf-8", errors="replace")
            found += [(file, number, line) for number, line in enumerate(text.split("\n"), 1)]
    return found, gone


def too_wide(root, since):
    """What is said of each new line that is too wide."""
    found, gone = added(root, since)
    for file, number, line in found:
        if len(line) > MOST:
            if gone[line.strip()]:
                gone[line.strip()] -= 1
            else:
                yield f"{file}:{number}: {len(line)} columns, {MOST} are allowed in new lines"


def finds_wide_lines():
    """Whether wide lines are found where they are new, and only there."""
    with tempfile.TemporaryDirectory() as room:
        root = pathlib.Path(room)
        file, moved, other = (root / "crates/a/src" / name for name in ("lib.rt", "moved.rt", "other.rt"))
        file.parent.mkdir(parents=True)
        old, wide, just = (letter * length for letter, length in (("o", MOST + 1), ("w", MOST + 1), ("≡", MOST)))
        file.write_text(f"{old}\nfirst\nlast\n")
        by = ["-c", "user.name=test", "-c", "user.email=test@localhost", "-c", "commit.gpgsign=false"]
        for words in (["init", "-q"], ["add", "."], [*by, "commit", "-q", "-m", "Old"]):
            if git(root, *words) is None:
                return False
        file.write_text(f"first\n{wide}\n{just}\nlast\n")
        moved.write_text(f"    {old}\n")
        (root / "crates/a/README.md").write_text(f"{wide}\n")
        git(root, "add", "crates/a/src/moved.rt")
        other.write_text(f"\n{wide}\n{old}\n")
        said = [it.partition(": ")[0] for it in too_wide(root, "HEAD")]
        return said == ["crates/a/src/lib.rt:2", "crates/a/src/other.rt:2", "crates/a/src/other.rt:3"]


def widest(count):
    """Lists the files of src and specs with the most columns beyond MOST."""
    rows = []
    for file in sorted(it for part in PARTS[:2] for it in ROOT.glob(f"crates/*/{part}/**/*") if it.suffix in (".rt", ".antt")):
        wide = [len(line) for line in file.read_text(encoding="utf-8").split("\n") if len(line) > MOST]
        if wide:
            rows.append((sum(wide) - MOST * len(wide), max(wide), len(wide), file.relative_to(ROOT)))
    print(f"columns beyond {MOST}, the widest line, lines beyond {MOST}, the file ({len(rows)} files have such lines)")
    for row in sorted(rows, key=lambda row: (-row[0], row[3]))[:count]:
        print("{:6} {:4} {:4}  {}".format(*row))


def main():
    words = sys.argv[1:]
    if len(words) == 2 and words[0] == "--widest" and words[1].isdigit():
        widest(int(words[1]))
        return 0
    if words:
        print(__doc__.split("\n\n")[1], file=sys.stderr)
        return 2
    if git(ROOT, "cat-file", "-e", f"{SINCE}^{{commit}}") is None:
        print(f"widths: SKIPPED: commit {SINCE[:8]}, since which lines are judged, isn't to be had here")
        return 0
    if not finds_wide_lines():
        print("widths: FAILED: a new line that is too wide isn't found in a repository of its own")
        return 1
    wrong = list(too_wide(ROOT, SINCE))
    print("".join(f"{it}\n" for it in wrong), end="")
    print(f"widths: {len(wrong)} new lines are too wide")
    return 1 if wrong else 0


if __name__ == "__main__":
    sys.exit(main())
