"""A network of named systems and cables, and the document that it becomes: clocks and ports are numbered here."""

import re
from dataclasses import dataclass, field, replace
from typing import Sequence
from zlib import crc32

from .documents import MOST_LINKS, MOST_PORTS, MOST_SYSTEMS, RANGES, Document, End, Link, System
from .happenings import Happening, Parts, play
from .naming import ports_comment, runs
from .quantities import in_units
from .refusal import Refused, told_at

DEFAULT_DELAY = (100, 110)  # ns: some 20 m
DEFAULT_JITTER = 40  # ns: both ends' time stamps
_UNNAMED = "\0"


@dataclass(frozen=True)
class Node:
    """A system: what it is called, its clock where it is given, its keys, and when it has booted, in ns, where given.

    It goes on with the time that it read where it becomes grandmaster, or doesn't.

    One that doesn't relay becomes a system for each of its links; `part` is the number of such a system, from 1.
    """

    name: str
    keys: dict[str, int] = field(default_factory=dict)
    clock: str | None = None
    start: int | None = None
    relays: bool = True
    continues: bool = False
    part: int | None = None
    where: str = ""


@dataclass(frozen=True)
class Cable:
    """A link between two systems by name; a port that is empty may be any. `assumed`: its jitter isn't given."""

    a: str
    b: str
    a_port: str = ""
    b_port: str = ""
    keys: dict[str, int] = field(default_factory=dict)
    assumed: bool = False
    where: str = ""


@dataclass(frozen=True)
class Settings:
    """What holds where nothing is given: the delay of links, and keys of the network, of each system and each link.

    `boot`: within how many ns systems boot that have no time for it; `draw`: the number of the pattern.
    """

    delay: tuple[int, int] | None = None
    network: dict[str, int] = field(default_factory=dict)
    system: dict[str, int] = field(default_factory=dict)
    link: dict[str, int] = field(default_factory=dict)
    boot: int | None = None
    draw: int = 0


@dataclass(frozen=True)
class Plan:
    """The systems and cables of a network, what happens to it, and what its first comment and the user are to read."""

    nodes: list[Node]
    cables: list[Cable]
    happenings: Sequence[Happening] = ()
    told: str = ""


_CLOCK = re.compile(
    r"[0-9a-f]{16}|[0-9a-f]{6}\.[0-9a-f]{4}\.[0-9a-f]{6}"
    r"|[0-9a-f]{2}([-:][0-9a-f]{2}){5}(([-:][0-9a-f]{2}){2})?"
)


def clock_of(text: str) -> str | None:
    """The clock that a text spells: sixteen digits, together, in pairs or as linuxptp has them (001b21.fffe.000001).

    The six pairs of a MAC address become one by ff-fe in their middle.
    """
    if not _CLOCK.fullmatch(text.lower()):
        return None
    digits = re.sub(r"[-:.]", "", text.lower())
    return digits if len(digits) == 16 else digits[:6] + "fffe" + digits[6:]


def in_range(section: str, key: str, value: int, name: str = "") -> int:
    """A key's value; one out of its range is refused, by the name that it has there."""
    least, most = RANGES[section][key]
    if not least <= value <= most:
        raise Refused(f"{name or key} {value} isn't {least} to {most}")
    return value


def links_in_words(count: int) -> str:
    """So many links, in words."""
    return "1 link" if count == 1 else f"{count} links"


def with_default_delay(plan: Plan, settings: Settings) -> tuple[Plan, Settings]:
    """The same, in which links that have no delay, nor get one by the settings, have the default one; this is told."""
    count = sum(not {"min", "max"} <= (settings.link | cable.keys).keys() for cable in plan.cables)
    if settings.delay or not count:
        return plan, settings
    told = f"{links_in_words(count)} without a delay: {DEFAULT_DELAY[0]}-{DEFAULT_DELAY[1]} ns taken (--delay)"
    return replace(plan, told="\n".join(filter(None, [plan.told, told]))), replace(settings, delay=DEFAULT_DELAY)


def document(plan: Plan, settings: Settings, comment: str) -> Document:
    """The document of a network. Systems that only cables name come after the others, in order of first appearance."""
    _distinct(plan.nodes)
    named = {node.name: node for node in plan.nodes}
    for cable in plan.cables:
        for name in (cable.a, cable.b):
            named.setdefault(name, Node(name))
    _sound(plan.cables)
    booted = [_booted(node, settings) for node in named.values()]
    nodes, cables, parts = _parted(booted, plan.cables)
    few(len(nodes))
    _distinct(nodes)
    clocks = _clocks(nodes)
    labels = _labels(cables)
    _fitting(cables, labels)
    ports = {node.name: _ports(node, labels.get(node.name, [])) for node in nodes}
    systems = [_system(node, clocks[node.name], ports[node.name], settings) for node in nodes]
    links = []
    for place, cable in enumerate(cables):
        a = End(clocks[cable.a], ports[cable.a][_label(cable.a_port, place)])
        b = End(clocks[cable.b], ports[cable.b][_label(cable.b_port, place)])
        with told_at(cable.where):
            links.append(_link(cable, a, b, settings))
    told = [comment, plan.told, _boots(settings)]
    quiet = Document(tuple(systems), tuple(links), (), settings.network, "\n".join(line for line in told if line))
    return play(quiet, {clocks[node.name]: node.start or 0 for node in nodes}, plan.happenings, parts)


def _booted(node: Node, settings: Settings) -> Node:
    """A system with the time at which it has booted: its own, else a drawn one, else 0."""
    if node.start is None and settings.boot:
        return replace(node, start=1 + crc32(f"{settings.draw} {node.name}".encode()) % settings.boot)
    return node


def _boots(settings: Settings) -> str:
    """What the first comment says of drawn times."""
    return f"booted within {in_units(settings.boot)}, draw {settings.draw} (--boot, --draw)" if settings.boot else ""


def _parted(nodes: list[Node], cables: list[Cable]) -> tuple[list[Node], list[Cable], Parts]:
    """Systems that don't relay as one for each of their links, in the order of the names of their ports."""
    made: list[Node] = []
    parts = Parts()
    name_of: dict[tuple[str, str], str] = {}
    all_labels = _labels(cables)
    for node in nodes:
        labels = _ordered(all_labels.get(node.name, []))
        if node.relays or len(labels) < 2:
            made.append(node)
            continue
        for part, label in enumerate(labels, 1):
            name = name_of[node.name, label] = f"{node.name}/{part}"
            with told_at(node.where):
                clock = _part_clock(node, part)
            made.append(replace(node, name=name, clock=clock, part=part, keys=node.keys | {"ports": 1}))
            parts.add(node.name, "" if label.startswith(_UNNAMED) else label, name)
    return made, [replace(cable, a=name_of.get((cable.a, _label(cable.a_port, place)), cable.a),
                          b=name_of.get((cable.b, _label(cable.b_port, place)), cable.b))
                  for place, cable in enumerate(cables)], parts


def _part_clock(node: Node, part: int) -> str | None:
    """The clock of a part: the given one, each further part one above."""
    clock = node.clock or clock_of(node.name)
    if clock is None:
        return None
    number = int(clock, 16) + part - 1
    if number >= 2**64:
        raise Refused(f"{node.name}/{part} has no clock: {clock} is given, and the greatest is {'f' * 16}")
    return f"{number:016x}"


def _distinct(nodes: list[Node]) -> None:
    """Refuses a system that is there twice."""
    seen: set[str] = set()
    for node in nodes:
        if node.name in seen:
            with told_at(node.where):
                raise Refused(f"the system {node.name} is there twice")
        seen.add(node.name)


def few(systems: int) -> None:
    """Refuses a network without systems, or with too many."""
    if not 1 <= systems <= MOST_SYSTEMS:
        raise Refused(f"{systems} systems: a document has 1 to {MOST_SYSTEMS}")


def _sound(cables: list[Cable]) -> None:
    """Refuses too many cables, one that ends where it begins, and one at a port that has one."""
    if len(cables) > MOST_LINKS:
        raise Refused(f"{len(cables)} links: a document has at most {MOST_LINKS}")
    taken: set[tuple[str, str]] = set()
    for cable in cables:
        with told_at(cable.where):
            if cable.a == cable.b:
                raise Refused(f"a link leads from {cable.a} to itself")
            for name, port in ((cable.a, cable.a_port), (cable.b, cable.b_port)):
                if port and (name, port) in taken:
                    raise Refused(f"port {port} of {name} has two links")
                taken.add((name, port))


def _clocks(nodes: list[Node]) -> dict[str, str]:
    """The clock of each system: the one given, the one that its name spells, or a local one by its place."""
    given = {node.name: node.clock or clock_of(node.name) for node in nodes}
    clocks: dict[str, str] = {}
    holder: dict[str, Node] = {}
    # what is given goes before what is counted on from it, and both before what is made up
    for place, node in sorted(enumerate(nodes, 1), key=lambda it: (not given[it[1].name], (it[1].part or 1) > 1)):
        clock = given[node.name] or f"020000fffe{place:06x}"
        if clock in holder:
            with told_at(node.where or holder[clock].where):
                raise Refused(f"{node.name} has the clock {clock}, which {holder[clock].name} has")
        clocks[node.name] = clock
        holder[clock] = node
    return clocks


def _label(port: str, place: int) -> str:
    """What a port is called: one without a name by the number of its cable."""
    return port or f"{_UNNAMED}{place}"


def _labels(cables: list[Cable]) -> dict[str, list[str]]:
    """The ports of each system as its cables call them, in the order of these."""
    labels: dict[str, list[str]] = {}
    for place, cable in enumerate(cables):
        for end, port in ((cable.a, cable.a_port), (cable.b, cable.b_port)):
            labels.setdefault(end, []).append(_label(port, place))
    return labels


def _natural(label: str) -> list[tuple[int, int | str]]:
    """For sorting: numbers in a text count as numbers."""
    return [(0, int(part)) if part.isdecimal() else (1, part) for part in re.split(r"(\d+)", label) if part]


def _ordered(labels: list[str]) -> list[str]:
    """Ports in the order of their names; those without one come last."""
    return sorted((label for label in labels if not label.startswith(_UNNAMED)), key=_natural) + [
        label for label in labels if label.startswith(_UNNAMED)]


def _ports(node: Node, labels: list[str]) -> dict[str, int]:
    """The number of each port: its own where all are 1 to 16, else by their order; those without a name come last."""
    if node.part:
        return {labels[0]: 1}
    called = _ordered([label for label in labels if not label.startswith(_UNNAMED)])
    free = [label for label in labels if label.startswith(_UNNAMED)]
    own = {label: int(label) for label in called if re.fullmatch(r"[1-9]|1[0-6]", label)}
    numbers = own if len(own) == len(called) else {label: place for place, label in enumerate(called, 1)}
    left = [number for number in range(1, MOST_PORTS + 1) if number not in numbers.values()]
    return numbers | dict(zip(free, left))


def _fitting(cables: list[Cable], labels: dict[str, list[str]]) -> None:
    """Refuses a system with more links than a system has ports, at the first that is too many."""
    for name, own in labels.items():
        if len(own) > MOST_PORTS:
            with told_at([cable.where for cable in cables if name in (cable.a, cable.b)][MOST_PORTS]):
                raise Refused(_too_many(name, own))


def _too_many(name: str, labels: list[str]) -> str:
    """What is said of a system with too many links; its ports are in the order of the table."""
    names = [label for label in labels if not label.startswith(_UNNAMED)]
    which = f" ({', '.join(runs(names))})" if names else ""
    spare = len(labels) - MOST_PORTS
    leaves = "a leaf" if spare == 1 else "leaves"
    return (f"{name} has {len(labels)} links{which}, and a system at most {MOST_PORTS} ports: "
            f"leave out {spare}, of {leaves} that can't be grandmaster")


def _system(node: Node, clock: str, ports: dict[str, int], settings: Settings) -> System:
    """A system, with as many ports as it needs where they aren't given."""
    needed = max(ports.values(), default=1)
    keys = settings.system | node.keys
    with told_at(node.where):
        if keys.setdefault("ports", needed) < needed and ports:
            raise Refused(f"{node.name} has {keys['ports']} ports, and a link at port {needed}")
    renamed = {number: label for label, number in sorted(ports.items(), key=lambda port: port[1])
               if label != str(number) and not label.startswith(_UNNAMED)}
    return System(clock, "" if clock_of(node.name) == clock else node.name, keys, ports_comment(renamed),
                  node.continues)


def _link(cable: Cable, a: End, b: End, settings: Settings) -> Link:
    """A link: its own delay, else that of the settings."""
    keys = dict(zip(("min", "max"), settings.delay or ())) | settings.link | cable.keys
    what = f"the link from {cable.a} to {cable.b}"
    if "min" not in keys or "max" not in keys:
        raise Refused(f"{what} has no delay: give it min and max, metres, or --delay")
    if keys["min"] > keys["max"]:
        raise Refused(f"{what} has min {keys['min']} above max {keys['max']}")
    return Link(a, b, keys)
