"""Documents: what the tools read of one, and the text of one that they make (docs/FORMATS.md)."""

import json
import re
import sys
import tomllib
from contextlib import contextmanager
from dataclasses import dataclass, field
from functools import cached_property
from itertools import takewhile
from pathlib import Path
from typing import Any, BinaryIO, Iterator

from .refusal import Refused

# the keys of whole numbers, with their least and greatest
RANGES: dict[str, dict[str, tuple[int, int]]] = {
    "network": {
        "announce": (-4, 4),
        "sync": (-4, 4),
        "pdelay": (-4, 4),
        "timeout": (3, 10),
        "lost": (1, 255),
        "threshold": (1, 10**9),
        "turnaround": (1, 10**9),
        "residence": (1, 10**9),
        "sync_timeout": (0, 10),
        "granularity": (0, 1000),
        "noise": (0, 1000),
        "window": (1, 16),
    },
    "system": {
        "priority1": (0, 255),
        "class": (0, 255),
        "accuracy": (0, 255),
        "variance": (0, 65535),
        "priority2": (0, 255),
        "phase": (0, 10**18),
        "drift": (-219902325, 219902325),
        "ports": (0, 16),
    },
    "link": {"min": (1, 16 * 10**9), "max": (1, 16 * 10**9), "loss": (0, 1000)},
}
MOST_SYSTEMS, MOST_LINKS, MOST_PORTS, MOST_EVENTS = 512, 2048, 16, 4096
LAST_EVENT = 8 * 10**14  # ns
LF = b"\n"
# the keys that are times in ns
TIMES = ("threshold", "turnaround", "residence", "granularity", "noise", "phase", "min", "max")


@dataclass(frozen=True, order=True)
class End:
    """A port of a system, at which a link ends."""

    clock: str
    port: int


@dataclass(frozen=True)
class System:
    """A system: its clock, what it is called, its other keys, and whether it goes on with the time that it read."""

    clock: str
    name: str = ""
    keys: dict[str, int] = field(default_factory=dict)
    comment: str = ""
    continues: bool = False


@dataclass(frozen=True)
class Link:
    """A link: its two ends, its other keys, and whether it is up before all events."""

    a: End
    b: End
    keys: dict[str, int] = field(default_factory=dict)
    up: bool = True


@dataclass(frozen=True)
class Event:
    """An event: when, in ns, its kind, whose system, at which port where it is one of a link, and its other keys."""

    at: int
    kind: str
    clock: str
    port: int | None = None
    keys: dict[str, int] = field(default_factory=dict)

    def text(self) -> str:
        """The event as a section of a document."""
        port = "" if self.port is None else f"port = {self.port}\n"
        keys = "".join(f"{key} = {value}\n" for key, value in self.keys.items())
        return f'[[event]]\nat = {self.at}\nkind = "{self.kind}"\nclock = "{self.clock}"\n{port}{keys}'


@dataclass(frozen=True)
class Document:
    """A network and what is changed in it when."""

    systems: tuple[System, ...]
    links: tuple[Link, ...]
    events: tuple[Event, ...] = ()
    network: dict[str, int] = field(default_factory=dict)
    comment: str = ""

    @cached_property
    def _names(self) -> dict[str, str]:
        """The name of each clock that has one."""
        return {system.clock: system.name for system in self.systems if system.name}

    def name(self, clock: str) -> str:
        """What a system is called: its name, else its clock."""
        return self._names.get(clock, clock)

    def named(self, word: str) -> str | None:
        """The clock of the system of that name or clock."""
        clocks = [system.clock for system in self.systems if word.lower() == system.clock or word == system.name]
        return clocks[0] if clocks else None

    @cached_property
    def sync(self) -> int:
        """The Sync interval in ns."""
        return interval(self.network.get("sync", -3))

    @cached_property
    def link_at(self) -> dict[End, int]:
        """The number of the link at each port that has one."""
        return {end: number for number, link in enumerate(self.links) for end in (link.a, link.b)}

    def links_up(self, until: int) -> list[bool]:
        """Of each link whether it is up after all events up to a time, in ns."""
        up = [link.up for link in self.links]
        for event in self.events:
            if event.at <= until and event.kind in ("link_up", "link_down") and event.port is not None:
                up[self.link_at[End(event.clock, event.port)]] = event.kind == "link_up"
        return up

    def link_keys(self, number: int) -> dict[str, int]:
        """The delays of a link, in ns, and its loss, after all events."""
        keys = {"loss": 0} | self.links[number].keys
        for event in self.events:
            if event.kind == "link_set" and event.port is not None:
                if self.link_at[End(event.clock, event.port)] == number:
                    keys |= event.keys
        return {key: keys[key] for key in ("min", "max", "loss")}

    def text(self) -> str:
        """The document as TOML."""
        parts = ["".join(f"# {line}\n" for line in self.comment.splitlines()) + "version = 1\n"]
        if self.network:
            parts.append("[network]\n" + _keys("network", self.network))
        parts += [_system_text(system) for system in self.systems]
        parts += [_link_text(link) for link in self.links]
        parts += [event.text() for event in self.events]
        return "\n".join(parts)


def interval(logarithm: int) -> int:
    """The interval of a logarithm to base 2 of seconds, in ns."""
    return 10**9 << logarithm if logarithm >= 0 else 10**9 >> -logarithm


def _quoted(text: str) -> str:
    """A text as a basic string of TOML."""
    return json.dumps(text, ensure_ascii=False).replace("\x7f", "\\u007f")


def _keys(section: str, keys: dict[str, int], continues: bool = False) -> str:
    """The keys of a section in the order of the format, in which `continues` is behind `drift`."""
    lines = {key: f"{key} = {keys[key]}\n" if key in keys else "" for key in RANGES[section]}
    if continues:
        lines["drift"] += "continues = true\n"
    return "".join(lines.values())


def _system_text(system: System) -> str:
    """A system as a section of a document."""
    comment = "".join(letter if letter.isprintable() else "?" for letter in system.comment)
    return (
        "[[system]]\n"
        + (f"# {comment}\n" if comment else "")
        + f'clock = "{system.clock}"\n'
        + (f"name = {_quoted(system.name)}\n" if system.name else "")
        + _keys("system", system.keys, system.continues)
    )


def _link_text(link: Link) -> str:
    """A link as a section of a document."""
    ends = f'a = "{link.a.clock}"\na_port = {link.a.port}\nb = "{link.b.clock}"\nb_port = {link.b.port}\n'
    return "[[link]]\n" + ends + _keys("link", link.keys) + ("" if link.up else "up = false\n")


def read_file(path: str) -> bytes:
    """A file's octets; `-` is standard input."""
    try:
        return sys.stdin.buffer.read() if path == "-" else Path(path).read_bytes()
    except OSError as why:
        raise Refused(f"{path}: {why.strerror}") from why


@contextmanager
def reading(path: str) -> Iterator[BinaryIO]:
    """A file whose lines are read as they come; `-` is standard input."""
    if path == "-":
        yield sys.stdin.buffer
        return
    try:
        with open(path, "rb") as file:
            yield file
    except OSError as why:
        raise Refused(f"{path}: {why.strerror}") from why


def read_text(path: str) -> str:
    """A file as UTF-8 text, without a byte order mark."""
    return _decoded(read_file(path), path).removeprefix("\ufeff")


def _decoded(octets: bytes, path: str) -> str:
    """A file's octets as UTF-8 text."""
    try:
        return octets.decode()
    except UnicodeDecodeError as why:
        raise Refused(f"{path}: line {octets.count(LF, 0, why.start) + 1}: isn't UTF-8") from why


def read_toml(text: str, path: str) -> dict[str, Any]:
    """A text of TOML 1.0; one that is none is refused at its line."""
    try:
        return tomllib.loads(text)
    except (ValueError, RecursionError) as why:
        told = str(why)
        found = re.fullmatch(r"(.*) \(at (?:line (\d+), column \d+|end of document)\)", told, re.DOTALL)
        line = found[2] or len(text.splitlines()) if found else 1
        raise Refused(f"{path}: line {line}: isn't TOML 1.0: {found[1] if found else told}") from why


def parse(octets: bytes, path: str) -> Document:
    """What the tools need of a document that the program reads."""
    text = _decoded(octets, path).removeprefix("\ufeff")
    top = read_toml(text, path)
    comments = _port_comments(text)
    try:
        if len(comments) != len(top["system"]):
            comments = [""] * len(top["system"])
        return Document(
            tuple(_system(keys, comment) for keys, comment in zip(top["system"], comments)),
            tuple(_link(keys) for keys in top.get("link", [])),
            tuple(_event(keys) for keys in top.get("event", [])),
            _whole("network", top.get("network", {})),
            _first_comment(text),
        )
    except (KeyError, TypeError, AttributeError) as why:
        raise Refused(f"{path}: line 1: isn't a document: {why}") from why


def _first_comment(text: str) -> str:
    """The lines of comment that a document begins with."""
    lines = takewhile(lambda line: line.startswith("#"), text.splitlines())
    return "\n".join(line[1:].strip() for line in lines)


def _port_comments(text: str) -> list[str]:
    """Of each system in the text the comment that names its ports, empty where there is none."""
    comments: list[str] = []
    section = ""
    for line in text.splitlines():
        if found := re.match(r"\s*\[+\s*([^\]\s]+)", line):
            section = found[1].strip("\"'")
            comments += [""] if section == "system" else []
        elif section == "system" and (named := re.fullmatch(r"\s*# (ports: .*)", line)):
            comments[-1] = named[1]
    return comments


def _whole(section: str, keys: dict[str, Any]) -> dict[str, int]:
    """The keys of whole numbers of a section."""
    return {key: keys[key] for key in RANGES[section] if isinstance(keys.get(key), int)}


def _system(keys: dict[str, Any], comment: str) -> System:
    """A system of its keys, and of the comment that names its ports."""
    name = keys.get("name")
    return System(keys["clock"].lower(), name if isinstance(name, str) else "", _whole("system", keys), comment,
                  keys.get("continues") is True)


def _link(keys: dict[str, Any]) -> Link:
    """A link of its keys."""
    a, b = (End(keys[end].lower(), keys[end + "_port"]) for end in "ab")
    return Link(a, b, _whole("link", keys), keys.get("up", True))


def _event(keys: dict[str, Any]) -> Event:
    """An event of its keys."""
    others = {key: keys[key] for key in ("value", "min", "max", "loss") if key in keys}
    return Event(keys["at"], keys["kind"], keys["clock"].lower(), keys.get("port"), others)
