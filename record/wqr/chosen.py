"""Which items a declaration is about: those of some modules, functions or workqueues; what these wait for, and what
that waits for; and who waits for them."""

import re
from dataclasses import dataclass
from typing import Optional

from .items import Edge, Item, Items


@dataclass
class Chosen:
    items: list[Item]
    edges: list[Edge]

    @staticmethod
    def of(items: Items, about: Optional[list[str]]) -> "Chosen":
        everything = list(items.items.values())
        roots = {item for item in everything if not about or is_about(item, about)}
        chosen = roots | {edge.source for edge in items.edges.values() if edge.target in roots}
        while True:
            more = {edge.target for edge in items.edges.values() if edge.source in chosen} - chosen
            if not more:
                break
            chosen |= more
        in_order = sorted((item for item in everything if item in chosen), key=lambda item: (item.kind, item.name))
        edges = [edge for edge in items.edges.values() if edge.source in chosen and edge.target in chosen]
        return Chosen(in_order, sorted(edges, key=lambda edge: (edge.source.kind, edge.source.name, edge.target.name)))


def is_about(item: Item, about: list[str]) -> bool:
    return any(re.fullmatch(pattern, word) for pattern in about for word in (item.module, item.function, item.kind))
