#!/usr/bin/env python3
"""Compares the manual pages of wqsource, wqjudge and wqrecord, and their completion for bash, with what the programs
say of themselves: each command, each option and each exit status of their help is an entry of the page, and there are
no others; and the commands and options are offered. Where there is a groff, the pages are rendered, without a warning
and within 80 columns.
"""

import pathlib
import re
import shutil
import sys

sys.dont_write_bytecode = True
ROOT = pathlib.Path(__file__).resolve().parents[2]
sys.path.append(str(ROOT / "tests/lib"))
from programs import counts_of, run  # noqa: E402  (in tests/lib)

TOOLS = {
    "wqsource": ROOT / "source/wqsource",
    "wqjudge": ROOT / "kernel/judge",
    "wqrecord": ROOT / "record/wqrecord",
}
# Commands of wqrecord whose help is the whole one, and that have none of its long options.
BARE = ["stop", "drop", "status"]
OPTION = re.compile(r"(?<![\w-])--[a-z][a-z-]*")
counts = {True: 0, False: 0}


def equal(name, wanted, found):
    counts[wanted == found] += 1
    if wanted != found:
        print(f"FAILED  {name}: wanted {wanted}, found {found}")


def help_of(program, *words):
    ended = run([program, *words, "--help"], capture_output=True)
    equal(f"{program.name} {' '.join(words)} --help ends with 0", 0, ended.returncode)
    return ended.stdout.decode()


def page_of(tool):
    """The page as it is read: without fonts."""
    text = (ROOT / f"man/{tool}.1").read_text()
    return re.sub(r"\\f[A-Z]|\\&", "", text).replace("\\-", "-")


def tagged(page, section):
    """The tags of the entries of a section of a page."""
    text = re.search(rf'^\.SH "?{section}"?\n(.*?)(?=^\.SH|\Z)', page, re.M | re.S)[1]
    return re.findall(r"^\.TP\n(.*)$", text, re.M)


def offered(tool, words):
    """What the completion offers for the last of these words."""
    script = f". man/{tool}.bash; compopt() {{ :; }}; COMP_WORDS=(\"$@\"); COMP_CWORD=$(($# - 1)); _{tool} \"$1\"; "
    script += "printf '%s\\n' \"${COMPREPLY[@]}\""
    ended = run(["bash", "-c", script, "bash", *words], capture_output=True, cwd=ROOT)
    return set(ended.stdout.decode().split())


def commands_of(tool, told):
    """The commands that a help names."""
    if tool == "wqsource":
        return re.search(r" ([a-z]+(?:\|[a-z]+)+) ", told)[1].split("|")
    return re.findall(rf"^  {tool} ([a-z]+) ", told, re.M)


def try_tool(tool, program):
    commands = commands_of(tool, help_of(program))
    if commands:
        equal(f"{tool}.1: COMMANDS", [f".B {command}" for command in commands], tagged(page_of(tool), "COMMANDS"))
        equal(f"{tool}.bash: commands", set(commands), offered(tool, [program, ""]))
    options = set()
    for words in [[command] for command in commands] or [[]]:
        told = set(OPTION.findall(help_of(program, *words)))
        options |= told
        if tool == "wqrecord" and words[0] in BARE:
            told = {"--help"}
        equal(f"{tool}.bash: options of {words}", told, offered(tool, [program, *words, "--"]))
    found = {option for tag in tagged(page_of(tool), "OPTIONS") for option in OPTION.findall(tag)}
    equal(f"{tool}.1: OPTIONS", options, found)


def try_statuses(tool, program):
    told = re.search(r"\b[Ss]tatus:.*?\.( |\n)", help_of(program), re.S)[0]
    wanted = re.findall(r"[:;,]\s(\d+)\b", told)
    found = [tag.split()[-1] for tag in tagged(page_of(tool), "EXIT STATUS")]
    equal(f"{tool}.1: EXIT STATUS", wanted, found)


def try_other_command():
    """Behind `--` of `wqrecord run` stands another command."""
    wanted = run(["bash", "-c", "compgen -c -- bas"], capture_output=True).stdout.decode().split()
    equal("wqrecord.bash: the command that it runs", set(wanted), offered("wqrecord", ["wqrecord", "run", "--", "bas"]))


def try_rendered(tool):
    words = ["groff", "-man", "-Tascii", "-P-cbou", "-rLL=80n", "-ww", f"man/{tool}.1"]
    ended = run(words, capture_output=True, cwd=ROOT)
    equal(f"{tool}.1 is rendered without a warning", "", ended.stderr.decode())
    too_wide = [line for line in ended.stdout.decode().split("\n") if len(line) > 80]
    equal(f"{tool}.1: no line is wider than 80", [], too_wide)


def main():
    for tool, program in TOOLS.items():
        try_tool(tool, program)
        try_statuses(tool, program)
        if shutil.which("groff"):
            try_rendered(tool)
    try_other_command()
    return counts_of("tools", counts[True], counts[False])


if __name__ == "__main__":
    sys.exit(main())
