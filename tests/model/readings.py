# The readings of a declaration with unsure lines, and the unsure part of a run: docs/FORMAT.md, "Items and groups", Readings, and "Run
# texts". A reading is here the set of the places of the unsure flushes that it keeps.

import collections
import dataclasses
import itertools

from declaration import SURE


def reading(declared, kept):
    """The reading that keeps the unsure lines of these places, and no other. Its places are counted anew."""
    left = [place for place in range(len(declared.flushes)) if place in kept or not declared.is_unsure(place)]
    directives = [declared.directive_of[place] for place in left]
    return dataclasses.replace(
        declared, flushes=[declared.flushes[place] for place in left],
        directive_of=[SURE.get(directive, directive) for directive in directives])


def readings(declared):
    """All readings, each as the places that it keeps: those that keep fewer come first."""
    unsure = declared.unsure()
    for count in range(len(unsure) + 1):
        yield from map(frozenset, itertools.combinations(unsure, count))


def part(declared, kept):
    """The lines of the unsure part that says that these are kept."""
    return [b"unsure %d" % len(kept), *(declared.flush_line(place) for place in sorted(kept))]


def places_by_line(declared):
    """By the words of an unsure line the places of the unsure flushes that are declared so, the highest line last."""
    found = collections.defaultdict(list)
    for place in reversed(declared.unsure()):
        found[declared.flush_line(place)].append(place)
    return found
