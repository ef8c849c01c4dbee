"""Boxes of a picture: a system each, or leaves of one bridge that are alike."""

from dataclasses import dataclass
from typing import Iterator

from .documents import Document, End, Link, System

MOST_UNFOLDED = 40
# keys in which leaves that are alike may differ: they change no choice
_FREE = ("phase", "drift")


@dataclass(frozen=True)
class Box:
    """The systems of a box, by rising clock; it is called by the first."""

    clocks: tuple[str, ...]

    @property
    def identity(self) -> str:
        """What edges name it by."""
        return self.clocks[0]


@dataclass(frozen=True)
class Edge:
    """Links between two boxes: the ends of each, box by box, and their numbers."""

    a: Box
    b: Box
    links: tuple[int, ...]
    a_ends: tuple[End, ...]
    b_ends: tuple[End, ...]


def boxes(document: Document, fold: bool) -> list[Box]:
    """The boxes by rising clock. Leaves that an event names stay by themselves, but for when they boot."""
    links: dict[str, list[Link]] = {}
    for link in document.links:
        for end in (link.a, link.b):
            links.setdefault(end.clock, []).append(link)
    alike: dict[object, list[str]] = {}
    named = set(_named(document))
    for system in sorted(document.systems, key=lambda system: system.clock):
        own = links.get(system.clock, [])
        is_leaf = fold and len(own) == 1 and system.clock not in named
        alike.setdefault(_leaf(system, own[0]) if is_leaf else system.clock, []).append(system.clock)
    return [Box(tuple(clocks)) for clocks in alike.values()]


def _leaf(system: System, link: Link) -> object:
    """What leaves have in common that are one box: their bridge and their keys."""
    bridge = link.b.clock if link.a.clock == system.clock else link.a.clock
    keys = tuple((key, value) for key, value in sorted(system.keys.items()) if key not in _FREE)
    return bridge, keys, link.up


def _named(document: Document) -> Iterator[str]:
    """The systems that events name, and those at the links that they name, but for when they boot."""
    booting = {event.clock for event in document.events if event.kind == "fail" and event.at == 0}
    waiting = {number for number, link in enumerate(document.links) if not link.up}
    for event in document.events:
        if event.port is not None:
            number = document.link_at[End(event.clock, event.port)]
            if event.kind != "link_up" or number not in waiting:
                yield document.links[number].a.clock
                yield document.links[number].b.clock
            waiting.discard(number)
        elif event.kind != "fail" or event.at > 0:
            if event.kind != "recover" or event.clock not in booting:
                yield event.clock
            booting.discard(event.clock)


def edges(document: Document, of: list[Box]) -> list[Edge]:
    """The links as edges between boxes, in the order of the document; those of one folded box are one edge to it."""
    box = {clock: box for box in of for clock in box.clocks}
    joined: dict[object, list[tuple[int, End, End]]] = {}
    for number, link in enumerate(document.links):
        a, b = (link.b, link.a) if len(box[link.a.clock].clocks) > 1 else (link.a, link.b)
        key = (box[a.clock], box[b.clock]) if len(box[b.clock].clocks) > 1 else number
        joined.setdefault(key, []).append((number, a, b))
    found = []
    for members in joined.values():
        numbers, a_ends, b_ends = zip(*members)
        found.append(Edge(box[a_ends[0].clock], box[b_ends[0].clock], numbers, a_ends, b_ends))
    return found
