"""Notes how many processor seconds the toolchain takes for each crate, as long as it runs.

    processor_times.py PID FILE

Once a second it looks at all that the process PID has started, and at what that started, for programs `rattle`, and writes FILE: a line
for each crate, with its name and its seconds. What such a program starts itself is counted with it. The last second of each is lost.
It ends by itself where PID ends."""
import collections
import os
import sys
import time

TICK = os.sysconf("SC_CLK_TCK")


def processes():
    """Of each process its number, that of its parent, when it began, its seconds and its words."""
    for number in filter(str.isdigit, os.listdir("/proc")):
        try:
            with open(f"/proc/{number}/stat", encoding="utf-8", errors="replace") as it:
                fields = it.read().rpartition(")")[2].split()
            with open(f"/proc/{number}/cmdline", encoding="utf-8", errors="replace") as it:
                words = it.read().split("\0")
        except OSError:
            continue
        yield int(number), int(fields[1]), fields[19], sum(map(int, fields[11:15])) / TICK, words


def look(top, found):
    """Brings `found` up to date: the crate and the seconds of each program, by its number and when it began."""
    now = {number: (parent, begun, spent, words) for number, parent, begun, spent, words in processes()}
    is_one = {number for number, (*_, words) in now.items() if os.path.basename(words[0]) == "rattle" and "--crate-name" in words}
    for number in is_one:
        parent, begun, spent, words = now[number]
        above = [parent]
        while above[-1] in now and above[-1] != top:
            above.append(now[above[-1]][0])
        if above[-1] == top and not is_one & {*above}:
            found[number, begun] = words[words.index("--crate-name") + 1], spent
    return top in now


def main():
    top, path, found = int(sys.argv[1]), sys.argv[2], {}
    while look(top, found):
        sums = collections.Counter()
        for crate, spent in found.values():
            sums[crate] += spent
        with open(f"{path}.new", "w", encoding="utf-8") as it:
            it.writelines(f"{crate} {spent:.0f}\n" for crate, spent in sums.items())
        os.replace(f"{path}.new", path)
        time.sleep(1)


if __name__ == "__main__":
    main()
