"""Pictures of a network: laid out once, of all links, and drawn as it is at some time."""

import json
from collections import Counter
from dataclasses import dataclass, field
from decimal import Decimal
from typing import Mapping

from . import folding
from .documents import Document, End
from .folding import Box, Edge
from .naming import Names, runs
from .snapshots import Snapshot
from .pictures import draw
from .plain import place, quoted
from .quantities import short
from .refusal import Refused
from .standing import PortStanding, Standing, SystemStanding

_DOWN = "style=dotted, color=red, fontcolor=red"
_POINTS = 72  # an inch
_LETTER, _LINE = 7.0, 13.5  # points at the size of 11
_MOST_WORDS = 4  # the lines of a box
_LEAST_LETTERS = 17  # of its longest line, `never grandmaster`
_MOST_LETTERS = 6  # of the name of a port that stands close to its edge
_MOST_NAMED = 8  # ends of edges at a box of a folded picture that are named


@dataclass(frozen=True)
class Seen:
    """Of each system the bound of its error and the greatest error seen, in ns, where they are known."""

    bounds: Mapping[str, Decimal] = field(default_factory=dict)
    errors: Mapping[str, Decimal] = field(default_factory=dict)


@dataclass(frozen=True)
class View:
    """The state of a network: its systems, which links are up, a title, and the colours of roots, if any."""

    standing: Standing
    up: list[bool]
    title: str
    seen: Seen = field(default_factory=Seen)
    colour: Mapping[str, str] = field(default_factory=dict)


class Drawing:
    """A network whose boxes keep their places in each picture. Leaves that are alike are one box where it is folded."""

    def __init__(self, document: Document, fold: bool) -> None:
        self._document = document
        self._names = Names(document)
        folded = fold or len(document.systems) > folding.MOST_UNFOLDED
        self._boxes = folding.boxes(document, folded)
        self._edges = folding.edges(document, self._boxes)
        ends = Counter(box.identity for edge in self._edges for box in (edge.a, edge.b))
        self._crowded = {box for box, count in ends.items() if folded and count > _MOST_NAMED}
        self._places: dict[str, str] = {}

    def dot(self, view: View) -> str:
        """The network in DOT as it is; a root's colour fills the boxes that follow it."""
        if view.standing.keys() != {system.clock for system in self._document.systems}:
            raise Refused("the program tells of other systems than the document")
        lines = [f"  label={quoted(view.title)}; labelloc=t; fontname=Helvetica; splines=true;"]
        for box in self._boxes:
            lines.append(f"  {quoted(box.identity)} [{self._box(box, view)}{self._at(box)}];")
        lines += [f"  {self._edge(edge, view)};" for edge in self._edges]
        return _graph(lines)

    def svg(self, view: View) -> bytes:
        """The same as SVG, each box in its place."""
        if not self._places:
            self._places = self._laid_out()
        return draw(["neato", "-n", "-Tsvg"], self.dot(view))

    def _laid_out(self) -> dict[str, str]:
        """The places of the boxes: from the best system down over all links, of two at one level the better above."""
        identity = Snapshot(self._document).identity
        depth = self._depths(identity)
        lines = [f"  {quoted(box.identity)} [{self._size(box)}];" for box in self._boxes]
        for edge in self._edges:
            above, below = sorted((edge.a, edge.b), key=lambda box: (depth[box.identity], identity[box.identity]))
            lines.append(f"  {quoted(above.identity)} -> {quoted(below.identity)} [{_ends('16', '16')}];")
        made = json.loads(draw(["dot", "-Tjson"], _graph(["  nodesep=0.4; ranksep=0.7;", *lines])))
        return {member["name"]: member["pos"] for member in made["objects"] if "pos" in member}

    def _depths(self, identity: Mapping[str, tuple[int | str, ...]]) -> dict[str, int]:
        """How many links each box is away from the best system of its component, over all links."""
        beside: dict[str, list[str]] = {box.identity: [] for box in self._boxes}
        for edge in self._edges:
            beside[edge.a.identity].append(edge.b.identity)
            beside[edge.b.identity].append(edge.a.identity)
        depth: dict[str, int] = {}
        for first in sorted(beside, key=lambda clock: identity[clock]):
            if first in depth:
                continue
            depth[first], row = 0, [first]
            while row:
                row = [other for here in row for other in beside[here]
                       if other not in depth and depth.setdefault(other, depth[here] + 1)]
        return depth

    def _called(self, box: Box) -> str:
        """What a box is called: its system, or how many stations it is of."""
        return self._document.name(box.identity) if len(box.clocks) == 1 else f"{len(box.clocks)} stations"

    def _size(self, box: Box) -> str:
        """The size of a box."""
        width = max(_LEAST_LETTERS, len(self._called(box)) + 2) * _LETTER / _POINTS
        return f"width={width:.2f}, height={(_MOST_WORDS + 0.4) * _LINE / _POINTS:.2f}, fixedsize=true"

    def _at(self, box: Box) -> str:
        """The place of a box, where they are laid out."""
        return f", {self._size(box)}, pos={quoted(self._places[box.identity])}" if self._places else ""

    def _box(self, box: Box, view: View) -> str:
        """The attributes of a box: what it is called, its steps, the bound of its error and the greatest seen."""
        systems = [view.standing[clock] for clock in box.clocks if not view.standing[clock].failed]
        if not systems:
            return f"label={quoted(self._called(box), 'failed')}, {_DOWN}"
        alone = len(box.clocks) > 1 and systems[0].slave is None
        words = [self._called(box), *(["each its own root"] if alone else place(systems[0]).split(", "))]
        if len(systems) < len(box.clocks):
            words.append(f"{len(box.clocks) - len(systems)} failed")
        for sign, values in (("+-", view.seen.bounds), ("seen ", view.seen.errors)):
            known = [values[clock] for clock in box.clocks if clock in values]
            if known and any(system.slave is not None for system in systems):
                words.append(f"{sign}{short(max(known))} ns")
        leads = systems[0].slave is None and systems[0].grandmaster and not alone
        fill = view.colour.get(systems[0].root)
        style = f", style=filled, fillcolor={quoted(fill + '55')}" if fill else ""
        return f"label={quoted(*words[:_MOST_WORDS])}{style}{', penwidth=2.5' if leads else ''}"

    def _edge(self, edge: Edge, view: View) -> str:
        """The attributes of an edge: from parent to child where it is one's way to its root.

        Of several links it is the first that is in use, where one is.
        """
        ports = _ends(self._ports(edge.a, edge.a_ends), self._ports(edge.b, edge.b_ends))
        between = f"{quoted(edge.a.identity)} -> {quoted(edge.b.identity)}"
        used = ((a, b) for number, a, b in zip(edge.links, edge.a_ends, edge.b_ends)
                if view.up[number] and not any(view.standing[end.clock].failed for end in (a, b)))
        a, b = next(used, (None, None))
        if a is None or b is None:
            return f"{between} [dir=none, {_DOWN}, {ports}]"
        for direction, child in (("forward", b), ("back", a)):
            if view.standing[child.clock].slave == child.port:
                return f"{between} [dir={direction}, penwidth=2.5, {ports}]"
        passive = "passive" in (_role(view.standing[end.clock], end.port) for end in (a, b))
        return f"{between} [dir=none, {'style=dashed' if passive else 'color=gray60'}, {ports}]"

    def _ports(self, box: Box, ends: tuple[End, ...]) -> str:
        """The text at an end of an edge: its ports; of several stations, and at a box with too many ends, nothing."""
        if len(box.clocks) > 1 or box.identity in self._crowded:
            return ""
        return ", ".join(runs([self._names.port(end.clock, end.port) for end in ends]))


def _role(system: SystemStanding, port: int) -> str:
    """The role of a port; one that the program doesn't print is disabled."""
    return system.ports.get(port, PortStanding("disabled", False)).role


def _graph(lines: list[str]) -> str:
    """A graph in DOT."""
    return "\n".join([
        "digraph network {",
        "  node [shape=box, fontname=Helvetica, fontsize=11];",
        "  edge [fontname=Helvetica, fontsize=9, labeldistance=2.2, labelangle=-32];",
        *lines, "}", ""])


def _ends(tail: str, head: str) -> str:
    """What is written at both ends of an edge; long texts stand further from it."""
    apart = ", labelangle=-62, labeldistance=3" if max(len(tail), len(head)) > _MOST_LETTERS else ""
    return f"taillabel={quoted(tail)}, headlabel={quoted(head)}{apart}"
