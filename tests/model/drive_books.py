# Compares `book` and `check` of the program `test_runtime` with the model of them in book.py:
#
#     drive_books.py PROGRAM [SEED] [SEQUENCES] [HISTORIES] [--only CASE]
#
# It gives the program the worked histories of book_examples.py, the cases at the limits and those of
# the command line, then SEQUENCES random sequences of calls, and HISTORIES random histories, most
# of them changed somewhere. What is printed and the exit status must be the model's, byte by byte.
# The same SEED makes the same cases. It ends at the first difference and keeps the files of it. It
# fails too where some answer came too few times (FEWEST_IN_2000, or fewer where there are fewer
# cases). Before all this the model must answer the worked histories as the page says.
#
# PROGRAM may be `none`: then only the model runs. CASE is a number, as a failure shows it: only
# this random case is made, and its files are kept.

import collections
import dataclasses
import multiprocessing
import os
import pathlib
import sys
import tempfile
import traceback

sys.dont_write_bytecode = True
sys.path.append(str(pathlib.Path(__file__).resolve().parents[1] / "lib"))
import book  # noqa: E402  (beside this file)
import book_examples  # noqa: E402
import make_books  # noqa: E402
import programs  # noqa: E402  (in tests/lib)
from command_line import seed_and_counts  # noqa: E402
from make_books import kind_of  # noqa: E402
from steps import RESCUER  # noqa: E402

DEFAULT_SEED = "1"
DEFAULT_SEQUENCES = 1_000
DEFAULT_HISTORIES = 1_500
WORKERS = 3
LINES_SHOWN = 12

# How often each kind of answer comes at least in 2,000 cases: of the calls and of the judge, and of
# calls of helpers; of the causes for which it refuses, and those in rows of helpers; and in how many
# different rows each of its faults is met.
FEWEST_IN_2000 = 30
FEWEST_OF_HELPERS_IN_2000 = 12
FEWEST_CAUSES_IN_2000 = 5
FEWEST_CAUSES_OF_HELPERS_IN_2000 = 1  # so that the rarest may be missing in fewer histories
FEWEST_PLACES_IN_2000 = 30

OF_CONTEXTS = ("start", "wait", "over", "finish", "waitall", "overall")
JUDGED = ["legal", "75", "76", "mistake", "legal (unchanged)", "legal (told others)",
          "legal (packable)", "legal (any bytes)"]
CAUSES = [f"76 {event}: {why}" for event, whys in (
    ("queue", ["may not stand", "yes", "number"]),
    ("cancel", ["may not stand", "yes", "number"]),
    ("start", ["may not stand", "number"]),
    ("wait", ["may not stand", "yes", "number"]),
    ("over", ["may not stand", "number"]),
    ("finish", ["may not stand", "number"]),
    ("ask", ["may not stand", "yes", "number"]),
    ("told", ["may not stand", "number"]),
    ("waitall", ["may not stand", "yes", "number"]),
    ("overall", ["may not stand", "number"]),
    ("asklane", ["may not stand", "yes", "number"]),
    ("toldlane", ["may not stand", "number"]),
) for why in whys]
CAUSES += [cause.replace("76 ", "76 help ") for cause in CAUSES if cause.split()[1][:-1] in OF_CONTEXTS]


@dataclasses.dataclass
class Case:
    """What the program is asked, and what it must print.

    The words are those of the command line; files are bytes, and missing ones None. Standard error
    is None where it may be any line.
    """

    what: str
    words: list
    printed: bytes
    status: int
    errors: bytes = b""


# What is counted ----------------------------------------------------------------------------------


class Kinds:
    """Counts the kinds of a sequence's answers, and what is said of the book there."""

    def __init__(self):
        self.counts = collections.Counter()

    def note(self, word, answer=None, free=0, play=None):
        """As book.answer_book tells. The play is that after the call, and `free` that before it."""
        if play is None:
            self.counts[word] += 1
            return
        kind = kind_of(word, answer)
        self.counts[kind] += 1
        remarks = refusal_remarks if isinstance(answer, book.Refusal) else answer_remarks
        remarks = helper_remarks if kind.startswith("help ") else remarks
        for remark, holds in remarks(kind, free, play):
            if holds:
                self.counts[f"{kind} ({remark})"] += 1


def refusal_remarks(kind, free, play):
    """What is counted of a refused call: pairs of a remark and whether it holds."""
    made = play.book
    if kind in ("ask 60 waiting", "asklane 60 waiting"):
        return [("one row too few", free == 1)]
    if not kind.startswith(("queue", "wait")):
        return []
    name = made.replay.name(play.called[-1])
    if kind == "queue 60 accepted":
        return [("one row too few", free + 1 == 3 + 2 * len(made.declares[name]))]
    if kind == "queue 61":
        return [("pending", name in made.replay.state.pending_of)]
    if kind == "queue 66":
        return [("closed", made.closed)]
    if kind in ("wait 62 item", "waitall 62 item"):
        state = made.replay.state
        entry = state.running[play.called[0], RESCUER]
        left = len(made.declares[entry.item]) - entry.waits
        others = {state.workqueue_of[target] for word, target in state.declared[entry.item] if word == b"waitwq"}
        remarks = [("no wait is left", left == 0), ("a wait is left", left > 0)]
        return remarks + [("its workqueue is declared", state.workqueue_of[name] in others)] * (kind[:7] == "waitall")
    if kind in ("wait 63", "waitall 63"):
        return [("waits of both kinds were made", {"wait", "waitall"} <= set(waits_of(made.rows, play.called[0])))]
    return []


def helper_remarks(kind, free, play):
    """The same of a helper's call."""
    state = play.book.replay.state
    if kind == "help start none":
        return [("something is pending", state.pending[play.called[0]] != [])]
    if kind == "help over false":
        return [("of a workqueue", state.running[play.called[0], play.helper].over == b"overwq")]
    full, row = ("no row was free", free == 0), play.book.rows[-1] if play.book.rows else None
    if kind == "help start item":
        others = [context for context in state.contexts_of(row.lane) if context != (row.lane, row.helper)]
        return [full, ("another context runs", any(context in state.running for context in others)),
                ("not the first entry", any(entry.number < row.number for entry in state.pending[row.lane]))]
    if kind == "help over true":
        return [full, ("of a workqueue", row.event == "overall")]
    if kind == "help finish ok":
        return [full, ("it is pending", play.book.replay.name(row.item) in state.pending_of)]
    return []


def answer_remarks(kind, free, play):
    """The same of an answered call."""
    replay, rows = play.book.replay, play.book.rows
    state = replay.state
    if kind == "close ok":
        return [("closed", play.was_closed)]
    if kind == "over false":
        entry = state.running[play.called[0], RESCUER]
        pending = state.pending_of.get(entry.target)
        whole = entry.over == b"overwq"
        return [("its target is pending", not whole and pending is not None and pending.number < entry.mark),
                ("of a workqueue", whole),
                ("of a workqueue whose target is idle", whole and not replay.is_unfinished(entry.target))]
    if kind == "toldlane not yet":
        ask = play.called[0]
        left = [entry for entry in state.unfinished_on(ask.lane) if entry.number < ask.mark]
        return [("one entry is left", len(left) == 1)]
    if kind == "start none":
        return [("something is pending", state.pending[play.called[0]] != [])]
    if kind == "told not yet":
        return []
    full, last = ("no row was free", free == 0), ("it was the last free row", free == 1)
    filled = ("no row is free then", play.book.free() == 0)
    if rows[-1].event not in book.WITH_ITEM:
        lane = rows[-1].lane
        return {
            "asklane idle": [last],
            "asklane waiting": [filled, ("nothing is pending", not state.pending[lane]),
                                ("nothing runs", not any(context in state.running for context in state.contexts_of(lane)))],
            "toldlane done": [full, ("its workqueue is busy", replay.is_busy(lane)),
                              ("another ask of it waits", replay.lane_asks[lane] > 0)],
        }[kind]

    name = replay.name(rows[-1].item)  # of the row that the call appended
    entry = state.running_of.get(name)
    runs = entry is not None
    whole = rows[-1].event in ("waitall", "overall")
    busy = replay.is_busy(state.workqueue_of[name])
    if kind == "finish ok":
        waits = len(waits_of(rows[:-1], rows[-1].lane))
        return [full, ("it is pending", name in state.pending_of),
                ("waits were left", waits < len(play.book.declares[name]))]
    return {
        "queue true": [("it runs", runs), filled],
        "queue false": [last],
        "cancel true": [("it runs", runs), full],
        "cancel false": [("it runs", runs), last],
        "ask idle": [last],
        "ask waiting": [filled],
        "told done": [full, ("its item is unfinished", replay.is_unfinished(name)),
                      ("another ask of it waits", replay.asks[name] > 0)],
        "start item": [full, ("not the first entry", any(other.number < rows[-1].number for other in state.pending[rows[-1].lane]))],
        "wait true": [full, ("for itself", runs and entry is state.running.get((rows[-1].lane, RESCUER)))],
        "waitall true": [full, ("for its own workqueue", state.workqueue_of[name] == rows[-1].lane),
                         ("its target is idle", not replay.is_unfinished(name))],
        "over true": [full, ("its target is unfinished", not whole and replay.is_unfinished(name)),
                      ("of a workqueue", whole), ("of a workqueue that is busy", whole and busy)],
    }.get(kind, [])


def waits_of(rows, lane):
    """The waits of the entry that the rescuer of the workqueue runs behind these rows, last first."""
    waits = []
    for row in reversed(rows):
        if (row.event, row.lane, row.helper) == ("start", lane, RESCUER):
            break
        if row.event in ("wait", "waitall") and (row.lane, row.helper) == (lane, RESCUER):
            waits.append(row.event)
    return waits


def judged_kinds(words, made, helpers):
    """The kinds of a judged history's answer, and the place of its fault or 0."""
    declared, assignment = book.read_both(*words[1:3])
    try:
        text = book.bytes_of(words[3])
    except book.Mistake:
        return ["mistake"], 0
    at, fault, replay = book.judge(declared, assignment, text, helpers)
    if fault is None:
        return ["legal", f"legal ({made})"], 0
    if fault == book.BAD_ROW:
        return ["75"], at
    row = book.unpacked(text[book.ROW_BYTES * (at - 1):book.ROW_BYTES * at])
    stands = replay.standing(row.event, row.lane, row.item, row.helper)
    why = "may not stand" if stands is None else "yes" if stands[0] != row.yes else "number"
    return ["76", f"76 {'' if row.helper == RESCUER else 'help '}{row.event}: {why}"], at


# The cases ----------------------------------------------------------------------------------------


def fixed_questions():
    """The worked histories, the cases at the limits, and those of the command line.

    Each is what it is, the words of the command line, and what the page says of the answer or None.
    """
    cases = [(what, words, answer) for what, words, answer in book_examples.cases()]
    for what, words in make_books.limit_book_cases() + make_books.limit_check_cases():
        cases.append((what, words, None))
    for what, words, status in make_books.fault_cases():
        cases.append((what, words, (b"", status, b"fault read\n" if status == 3 else None)))
    return cases


FIXED = fixed_questions()


def fixed_case(number):
    """The fixed case of this number."""
    what, words, answer = FIXED[number]
    answer = answer or book_examples.model_answer(words)
    return Case(f"fixed case {number}, {what}", words, *answer)


def random_case(seed, number, sequences):
    """The case of this number: of the sequences first, and then of the histories.

    With it come the counts of its kinds of answer, and the place of a faulty row.
    """
    kinds = Kinds()
    place = None
    if number < sequences:
        words = make_books.random_book_case(seed, number)
        helpers, (_, *texts, row_count, events) = book.without_helpers(words)
        answer = book.answer_book(*texts, int(row_count), events, kinds.note, helpers)
    else:
        words, made = make_books.random_check_case(seed, number - sequences)
        helpers, plain = book.without_helpers(words)
        answer = book.answer_check(*plain[1:], helpers)
        names, at = judged_kinds(plain, made, helpers)
        kinds.counts.update(f"judged {name}" for name in names)
        place = (names[0], at)
    return Case(f"case {number}", words, *answer), kinds.counts, place


# Running the program ------------------------------------------------------------------------------

NAMES = {"book": ["declaration", "assignment", None, "events"],
         "check": ["declaration", "assignment", "digits"]}


def write_files(case, folder):
    """The words of the command line, with the names of the files, which are written."""
    words = []
    first = 2 if case.words[:1] == ["helpers"] else 0
    for number, word in enumerate(case.words, start=-first):
        if isinstance(word, str):
            words.append(word)
            continue
        names = NAMES.get(case.words[first], []) if first < len(case.words) else []
        name = names[number - 1] if 0 < number <= len(names) and names[number - 1] else "file"
        words.append(os.path.join(folder, f"{number}.{name}"))
        if word is None:
            words[-1] = os.path.join(folder, "there_is_none")
        else:
            with open(words[-1], "wb") as file:
                file.write(word)
    return words


def agrees(case, found):
    printed, status, errors = found
    if (printed, status) != (case.printed, case.status):
        return False
    if case.errors is None:
        return errors != b"" and errors.endswith(b"\n")
    return errors == case.errors


def compare(program, case, folder):
    """What the program prints, its status and its standard error, where they differ, or None."""
    found = programs.ask([program, *write_files(case, folder)])
    return None if agrees(case, found) else found


# What is shown ------------------------------------------------------------------------------------


def show_lines(what, printed, at):
    """The lines around the one at which the two differ."""
    lines = printed.split(b"\n")
    first = max(0, at - LINES_SHOWN)
    print(f"    {what}, from line {first + 1} on, of {len(lines) - 1}:")
    for number, line in enumerate(lines[first:at + 3], start=first + 1):
        shown = line if len(line) <= 300 else line[:300] + b".."
        mark = ">" if number == at + 1 else " "
        print(f"    {mark}{number:5} {shown.decode(errors='backslashreplace')}")


def show_difference(seed, case, found, folder):
    printed, status, errors = found
    print(f"FAILED  {case.what}" + ("" if seed is None else f" (seed {seed})"))
    words = write_files(case, folder)
    print(f"    the command line: {' '.join(words)}")
    for name, text in (("wanted", case.printed), ("found", printed)):
        with open(os.path.join(folder, name), "wb") as file:
            file.write(text)
    wanted_lines, found_lines = case.printed.split(b"\n"), printed.split(b"\n")
    at = 0
    while at < min(len(wanted_lines), len(found_lines)) and wanted_lines[at] == found_lines[at]:
        at += 1
    print(f"    both outputs are in {folder}, the files `wanted` and `found`")
    print(f"    wanted: status {case.status}")
    show_lines("wanted", case.printed, at)
    print(f"    program: status {status}")
    show_lines("program", printed, at)
    if errors or case.errors:
        print(f"    standard error: {errors[-2_000:].decode(errors='backslashreplace')}")


def show_table(counts, floors):
    """The counts of all kinds, in the order of the floors."""
    words = collections.defaultdict(list)
    for kind in floors:
        words[kind.split(" ")[0]].append((kind, counts[kind]))
    for word, rows in words.items():
        print(f"books: {word}")
        for kind, count in rows:
            print(f"    {count:8}  {kind[len(word) + 1:] or word}")


# The comparison -----------------------------------------------------------------------------------


def work(task):
    """Compares one case. Returns its counts and place, and what is wrong or None."""
    program, seed, number, sequences = task
    try:
        if seed is None:
            case, counts, place = fixed_case(number), {}, None
        else:
            case, counts, place = random_case(seed, number, sequences)
        if program is None:
            return counts, place, None
        with tempfile.TemporaryDirectory(prefix="books_") as folder:
            found = compare(program, case, folder)
        return counts, place, None if found is None else (case, found)
    except Exception:
        return {}, None, traceback.format_exc()


def fails(seed, number, wrong):
    """Shows what is wrong."""
    if isinstance(wrong, str):
        print(f"FAILED  the model, in case {number} (seed {seed})\n{wrong}")
    else:
        show_difference(seed, *wrong, tempfile.mkdtemp(prefix="books_"))
    if seed is not None:
        print(f"    this case again: --only {number}, with the same seed and counts")


def compare_all(program, seed, count, sequences):
    """The counts and places of so many cases, or None where one differs.

    They are random ones, or without a seed the fixed ones.
    """
    counts = collections.Counter()
    places = collections.defaultdict(set)
    with multiprocessing.get_context("fork").Pool(WORKERS) as pool:
        tasks = ((program, seed, number, sequences) for number in range(count))
        for number, (of_case, place, wrong) in enumerate(pool.imap(work, tasks, chunksize=4)):
            if wrong is not None:
                fails(seed, number, wrong)
                return None
            counts.update(of_case)
            if place is not None:
                places[place[0]].add(place[1])
    return counts, places


def floors_of(sequences, histories):
    """How often each kind must come at least."""
    floors = {}
    for kind in make_books.KINDS:
        fewest = FEWEST_OF_HELPERS_IN_2000 if kind.startswith("help ") else FEWEST_IN_2000
        floors[kind] = fewest * sequences // 2_000
    floors |= {f"judged {kind}": FEWEST_IN_2000 * histories // 2_000 for kind in JUDGED}
    for kind in CAUSES + ["mistake", "legal (any bytes)"]:
        fewest = FEWEST_CAUSES_OF_HELPERS_IN_2000 if kind.startswith("76 help ") else FEWEST_CAUSES_IN_2000
        floors[f"judged {kind}"] = fewest * histories // 2_000
    return floors


def came_often_enough(seed, sequences, histories, counts, places):
    """Shows how often each kind of answer came, and says whether that is enough."""
    floors = floors_of(sequences, histories)
    show_table(counts, floors)
    for fault in "75", "76":
        print(f"books: {fault} was met in {len(places[fault])} different rows")
    rare = [f"{kind} ({counts[kind]} times)" for kind in floors if counts[kind] < floors[kind]]
    rare += [f"{fault} in different rows" for fault in ("75", "76")
             if len(places[fault]) < FEWEST_PLACES_IN_2000 * min(histories, 2_000) // 2_000]
    unknown = sorted(kind for kind in counts if kind not in floors)
    if unknown:
        print(f"books: FAILED: kinds without a floor: {', '.join(unknown)}")
    if rare:
        print(f"books: FAILED: with seed {seed} these came too few times: {', '.join(rare)}")
    return not rare and not unknown


def show_only(program, seed, number, sequences):
    """One random case: its files are kept. Whether the program agrees."""
    case, _, _ = random_case(seed, number, sequences)
    folder = tempfile.mkdtemp(prefix="books_")
    found = (b"", None, b"") if program is None else compare(program, case, folder)
    if found is None:
        print(f"books: case {number} agrees: {' '.join(write_files(case, folder))}")
        return True
    show_difference(seed, case, found, folder)
    return False


def main(arguments):
    arguments, only = list(arguments), None
    if "--only" in arguments[:-1]:
        at = arguments.index("--only")
        only = arguments[at + 1]
        del arguments[at:at + 2]
    found = seed_and_counts(arguments[1:], DEFAULT_SEED, DEFAULT_SEQUENCES, DEFAULT_HISTORIES)
    if not arguments or not found or not (only is None or only.isdecimal()):
        print("usage: drive_books.py PROGRAM [SEED] [SEQUENCES] [HISTORIES] [--only CASE]",
              file=sys.stderr)
        return 2
    program = None if arguments[0] == "none" else os.path.realpath(arguments[0])
    seed, sequences, histories = found
    if program and not programs.is_there("books", program):
        return 1
    if only is not None:
        return 0 if show_only(program, seed, int(only), sequences) else 1

    failed = book_examples.failures()
    if failed:
        print("\n".join(failed))
        print("books: FAILED: the model differs from the page")
        return 1
    compared = compare_all(program, None, len(FIXED), 0)
    if compared is not None:
        compared = compare_all(program, seed, sequences + histories, sequences)
    if compared is None or not came_often_enough(seed, sequences, histories, *compared):
        print("books: FAILED")
        return 1
    note = " (the model alone)" if program is None else ""
    print(f"books: {len(FIXED)} fixed cases, {sequences} sequences of calls and {histories} "
          f"histories agree{note}")
    return 0


if __name__ == "__main__":
    sys.exit(main(sys.argv[1:]))
