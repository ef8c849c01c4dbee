"""Networks from what `lldpcli show neighbors -f json` says on each device; a file is called as its device."""

import json
from pathlib import Path
from typing import Any, Iterator

from .documents import read_text
from .plans import Cable, Node, Plan, clock_of
from .refusal import Refused

End = tuple[str, str]


def read(paths: list[str]) -> Plan:
    """The network of the devices' files. A link that both ends report is one; a chassis' MAC address is its clock."""
    clocks: dict[str, str | None] = {Path(path).stem: None for path in paths}
    ends: dict[frozenset[End], tuple[End, End]] = {}
    for path in paths:
        for port, neighbour in _neighbours(path):
            name, clock, peer_port = _peer(neighbour, f"{path}: the neighbour at {port}")
            clocks[name] = clocks.get(name) or clock
            pair = ((Path(path).stem, port), (name, peer_port))
            ends.setdefault(frozenset(pair), pair)
    nodes = [Node(name, clock=clock) for name, clock in clocks.items()]
    return Plan(nodes, [Cable(a, b, a_port, b_port) for (a, a_port), (b, b_port) in ends.values()])


def _neighbours(path: str) -> Iterator[tuple[str, dict[str, Any]]]:
    """Each port of a device with its neighbour: lldpcli writes a list of objects, or one object of the only port."""
    try:
        told = json.loads(read_text(path))["lldp"].get("interface", [])
        for member in told if isinstance(told, list) else [told]:
            yield from member.items()
    except (ValueError, KeyError, TypeError, AttributeError) as why:
        line = why.lineno if isinstance(why, json.JSONDecodeError) else 1
        raise Refused(f"{path}: line {line}: isn't what `lldpcli show neighbors -f json` writes") from why


def _peer(neighbour: dict[str, Any], where: str) -> tuple[str, str | None, str]:
    """A neighbour's name, its clock where it gives a MAC address, and its port."""
    try:
        chassis, port = neighbour["chassis"], neighbour["port"]
        name = "" if "id" in chassis else next(iter(chassis))
        identity = (chassis[name] if name else chassis)["id"]
        clock = clock_of(identity["value"]) if identity["type"] == "mac" else None
        called = port["id"]["value"]
        return name or identity["value"], clock, called if port["id"]["type"] == "ifname" else port.get("descr", called)
    except (KeyError, TypeError, StopIteration) as why:
        raise Refused(f"{where} lacks its chassis or port") from why
