"""Faults that are put into C files at random, each at a known place: what `drift` has to tell."""

import random
import re

KEYWORDS = {"if", "return", "struct", "while", "for", "else", "static", "void", "int", "container_of", "sizeof"}


def lines_of(path):
    return path.read_text().split("\n")


def write(path, lines):
    path.write_text("\n".join(lines))


def change(path, line, random):
    """Another name in the line."""
    lines = lines_of(path)
    names = [match for match in re.finditer(r"[A-Za-z_]\w*", lines[line - 1]) if match[0] not in KEYWORDS]
    match = random.choice(names)
    lines[line - 1] = lines[line - 1][: match.start()] + match[0] + "_else" + lines[line - 1][match.end() :]
    write(path, lines)


def delete(path, line):
    lines = lines_of(path)
    del lines[line - 1]
    write(path, lines)


def insert_above(path, line, count):
    """Comments above a line: it and all below it move."""
    lines = lines_of(path)
    lines[line - 1 : line - 1] = ["/* a comment */"] * count
    write(path, lines)


def begins(path, function):
    """The line after the brace that opens a function."""
    lines = lines_of(path)
    head = next(number for number, text in enumerate(lines) if re.match(rf"[A-Za-z].*\b{function}\(", text))
    return next(number for number in range(head, len(lines)) if lines[number] == "{") + 2


def add_wait(path, function, call):
    lines = lines_of(path)
    lines.insert(begins(path, function) - 1, f"\t{call};")
    write(path, lines)


def chosen(seed):
    return random.Random(seed)
