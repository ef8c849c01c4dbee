"""The network as it is, as a graph in DOT for Graphviz to lay out: a box a system, with its offset."""

from .documents import Document, End, Link
from .refusal import Refused
from .standing import PortStanding, Standing, SystemStanding

_DOWN = "style=dotted, color=red, fontcolor=red"


def graph(document: Document, standing: Standing, up: list[bool], title: str) -> str:
    """The network in DOT: a box a system, by rising clock, and an edge a link, in the order of the document."""
    if standing.keys() != {system.clock for system in document.systems}:
        raise Refused("the program tells of other systems than the document")
    lines = [
        "digraph network {",
        f"  label={quoted(title)}; labelloc=t; fontname=Helvetica;",
        "  node [shape=box, fontname=Helvetica, fontsize=11];",
        "  edge [fontname=Helvetica, fontsize=9, labeldistance=1.6];",
    ]
    for clock, system in sorted(standing.items()):
        lines.append(f"  {quoted(clock)} [{_box(document.name(clock), system)}];")
    for link, link_up in zip(document.links, up):
        lines.append(f"  {_edge(link, link_up, standing)};")
    return "\n".join([*lines, "}", ""])


def quoted(*lines: str) -> str:
    """Lines of text as one string of DOT."""
    escaped = (line.replace("\\", "\\\\").replace('"', '\\"').replace("\n", " ") for line in lines)
    return '"' + "\\n".join(escaped) + '"'


def _box(name: str, system: SystemStanding) -> str:
    """The attributes of a system's box."""
    if system.failed:
        return f"label={quoted(name, 'failed')}, {_DOWN}"
    words = [name, place(system)]
    if system.offset is not None:
        words.append(f"offset {system.offset} ns")
    elif system.slave is not None:
        words.append("offset known" if system.known else "no offset")
    style = ", style=filled, fillcolor=lightyellow, penwidth=2" if system.slave is None and system.grandmaster else ""
    return f"label={quoted(*words)}{style}"


def place(system: SystemStanding) -> str:
    """The place of a system in its tree."""
    if system.slave is None and system.steps == 0:
        return "grandmaster" if system.grandmaster else "own root, never grandmaster"
    steps = "1 step" if system.steps == 1 else f"{system.steps} steps"
    return steps if system.grandmaster else f"{steps}, no grandmaster"


def _edge(link: Link, up: bool, standing: Standing) -> str:
    """The edge of a link: from parent to child where it is one's way to its root."""
    if not up or standing[link.a.clock].failed or standing[link.b.clock].failed:
        return _line(link.a, link.b, f"dir=none, constraint=false, {_DOWN}")
    for parent, child in ((link.a, link.b), (link.b, link.a)):
        if standing[child.clock].slave == child.port:
            return _line(parent, child, "penwidth=2.5")
    roles = [_role(standing, end) for end in (link.a, link.b)]
    style = "style=dashed" if "passive" in roles else "color=gray60, fontcolor=gray40"
    return _line(link.a, link.b, f"dir=none, constraint=false, {style}, label={quoted(' / '.join(roles))}")


def _role(standing: Standing, end: End) -> str:
    """The role of a port; one that the program doesn't print is disabled."""
    return standing[end.clock].ports.get(end.port, PortStanding("disabled", False)).role


def _line(tail: End, head: End, attributes: str) -> str:
    """An edge between two ports."""
    ports = f"taillabel={quoted(str(tail.port))}, headlabel={quoted(str(head.port))}"
    return f"{quoted(tail.clock)} -> {quoted(head.clock)} [{attributes}, {ports}]"
