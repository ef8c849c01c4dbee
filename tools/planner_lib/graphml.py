"""Networks from GraphML, as NetworkX and yEd write it."""

import xml.etree.ElementTree as xml
from typing import Iterator

from .documents import read_file
from .plans import Cable, Node, Plan
from .refusal import Refused, told_at
from .tables import cable, node, told_of_jitter


def read(path: str, jitter: int | None) -> Plan:
    """The network of a file. Attributes that are called as the columns of tables are read, others passed over.

    A system is called by its attribute `name`, else by its label (yEd), else by its id. Groups of yEd aren't systems.
    The jitter, in ns, is as for tables.
    """
    top, lines = _parsed(path)
    attributes = {key.get("id", ""): key.get("attr.name", "") for key in _all(top, "key")}
    nodes: list[Node] = []
    cables: list[Cable] = []
    names: dict[str, str] = {}
    for element in _all(top, "node"):
        if next(_all(element, "graph"), None) is None:
            data, identity = _data(element, attributes), element.get("id", "")
            names[identity] = data.get("name") or _label(element) or identity
            with told_at(where := f"{path}: line {lines[element]}"):
                nodes.append(node(data | {"name": names[identity]}, where))
    for element in _all(top, "edge"):
        with told_at(where := f"{path}: line {lines[element]}"):
            cables.append(cable(_row(element, names, attributes), where, jitter))
    return Plan(nodes, cables, told=told_of_jitter(cables))


def _parsed(path: str) -> tuple[xml.Element, dict[xml.Element, int]]:
    """The top of a file, and the line at which each element begins."""
    parser = xml.XMLPullParser(("start",))
    lines: dict[xml.Element, int] = {}
    number = 1
    try:
        for number, octets in enumerate(read_file(path).splitlines(keepends=True), 1):
            parser.feed(octets)
            lines |= {element: number for _, element in parser.read_events()}
        parser.close()
    except xml.ParseError as why:
        raise Refused(f"{path}: line {number}: isn't XML: {str(why).partition(':')[0]}") from why
    return next(iter(lines)), lines


def _all(element: xml.Element, tag: str) -> Iterator[xml.Element]:
    """The elements below one that have a tag, of whatever namespace."""
    return (below for below in element.iter() if below is not element and below.tag.rpartition("}")[2] == tag)


def _data(element: xml.Element, attributes: dict[str, str]) -> dict[str, str]:
    """An element's own attributes by name."""
    own = [child for child in element if child.tag.rpartition("}")[2] == "data"]
    return {attributes.get(child.get("key", ""), ""): (child.text or "").strip() for child in own}


def _label(element: xml.Element) -> str:
    """The first label that yEd shows in a box, its lines as one."""
    return next((" ".join((label.text or "").split()) for label in _all(element, "NodeLabel")), "")


def _row(element: xml.Element, names: dict[str, str], attributes: dict[str, str]) -> dict[str, str]:
    """The columns of an edge; its ports are attributes, or those of GraphML."""
    ends: dict[str, str] = {}
    for end, tag, port in (("a", "source", "sourceport"), ("b", "target", "targetport")):
        identity = element.get(tag, "")
        if identity not in names:
            raise Refused(f"its {tag} {identity} is no node")
        ends |= {end: names[identity], f"{end}_port": element.get(port, "")}
    return ends | {key: word for key, word in _data(element, attributes).items() if key not in ("a", "b")}
