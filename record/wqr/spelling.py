"""How a line of a declaration is spelled."""

# What isn't sure is a comment, until the language has a line for it.
UNSURE = "# {word}? {names}"
SURE = "{word} {names}"


def flush_line(source: str, target: str, is_whole: bool, is_sure: bool) -> str:
    form = SURE if is_sure else UNSURE
    return form.format(word="flushwq" if is_whole else "flush", names=f"{source} {target}")
