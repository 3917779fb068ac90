"""How a text is forged and cut off."""

# A byte of a text is replaced by each of these: what ends a line, parts words, begins a number or a longer one, makes a name or
# another word, begins a comment, and may stand nowhere.
BYTES = b"\n 09a#\xff"


def bytes_changed(text):
    """One byte is replaced, or left out."""
    for at in range(len(text)):
        before, behind = text[:at], text[at + 1:]
        yield from (before + bytes([byte]) + behind for byte in BYTES)
        yield before + behind


def lines_changed(text):
    """One line is dropped, doubled, or swapped with the next one."""
    lines = text.splitlines(keepends=True)
    for at in range(len(lines)):
        before, line, behind = lines[:at], lines[at:at + 1], lines[at + 1:]
        yield b"".join(before + behind)
        yield b"".join(before + line + line + behind)
        yield b"".join(before + behind[:1] + line + behind[1:])


def forgeries(text):
    """All texts with one such change, each once, and the text itself."""
    return list(dict.fromkeys([text, *bytes_changed(text), *lines_changed(text)]))


def cuts(text):
    """The text cut off behind each of its bytes."""
    return [text[:size] for size in range(len(text) + 1)]
