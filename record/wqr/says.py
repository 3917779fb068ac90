"""What is said of a record as a whole: how large it is, what it lost, and what it can't see."""

from .archive import Archive
from .causes import Causes
from .chosen import is_about
from .history import History, Kind
from .items import Edge, Items

# What no record shows. Each reader of an answer has to know it.
UNSEEN = (
    "What isn't here: what didn't happen while it was recorded; waits that were over at once, so that nobody slept",
    "(flushes are here all the same); for whom a poll or a sleep of fixed length waits; for whom an interrupt acts;",
    "which object, as an item is a function; the sleeps of threads that aren't workers. That an item ended a wait is",
    "a fact; that nobody else could have, isn't.",
)


def head(archive: Archive, history: History, causes: Causes, items: Items) -> list[str]:
    """The first lines of an answer."""
    ran = sum(item.runs > 0 for item in items.items.values())
    found = [
        f"Recorded on Linux {archive.release} in {archive.seconds:.0f} s, mode {archive.mode}: "
        f"{history.events} events, "
        f"{len(history.runs)} runs of {ran} items, {len(history.sleeps)} sleeps of items."
    ]
    found += [
        f"LOST: {words}. So waits may be missing, and what was waited for may be wrong." for words in archive.lost()
    ]
    if history.gaps:
        found.append(f"LOST: events before {history.gaps} pages of the buffer.")
    for one in archive.missed():
        found.append(f"The kernel missed {one.missed} hits of the probe {one.probe}, and took {one.hits}.")
    refused = int(archive.text("refused") or 0)
    if refused:
        found.append(f"The kernel refused {refused} probes.")
    if causes.unseen:
        found.append(f"Of {causes.unseen} waits it isn't known who ended them.")
    return found + list(UNSEEN)


def about_nothing(items: Items, about: list[str]) -> list[str]:
    """Of each pattern of the command line that no item matches that it is so, and what there is."""
    every = list(items.items.values())
    lacking = [one for one in about if not any(is_about(item, [one]) for item in every)]
    found = [f"Nothing here matches --about {one}." for one in lacking]
    modules = sorted({item.module for item in every if item.module and item.runs})
    return [*found, f"Modules whose items ran: {', '.join(modules) or 'none'}."] if found else []


def ender(kind: Kind, name: str) -> str:
    return f"the thread {name}" if kind is Kind.THREAD else kind.value


def seen(edge: Edge) -> str:
    """How often a wait was seen. What is exact is counted apart from what is guessed."""
    slept = f"slept {edge.slept}, longest {milliseconds(edge.longest)}"
    if not edge.is_sure:
        return f"{'' if edge.is_never_queued else 'perhaps '}seen {times(edge.guesses)}, {slept}"
    more = f", perhaps {edge.guesses} more" if edge.guesses else ""
    return f"seen {times(len(edge.exact))}{more}, {slept}"


def milliseconds(time: int) -> str:
    return f"{time / 1e6:.1f} ms" if time < 10**9 else f"{time / 1e9:.1f} s"


def count(number: int, word: str) -> str:
    return f"{number} {word}" if number == 1 else f"{number} {word}s"


def times(count: int) -> str:
    return "once" if count == 1 else f"{count} times"
