"""Systems and ports by what they are called."""

import re
from difflib import SequenceMatcher
from functools import cached_property
from typing import Iterable, Mapping, Sequence

from .documents import Document, End
from .refusal import Refused

_PORT = re.compile(r"(\d+) is (.*?)(?=, \d+ is |$)", re.ASCII)
_MOST_CHANGES = 2


def ports_comment(names: Mapping[int, str]) -> str:
    """The comment of a system that says what its ports are called; empty where none is called otherwise."""
    return f"ports: {', '.join(f'{number} is {name}' for number, name in names.items())}" if names else ""


def nearest(word: str, names: Iterable[str]) -> str | None:
    """The name that at most two changes make of a word, the first of the nearest."""
    changes = {name: _changes(word, name) for name in names}
    found = min(changes, key=lambda name: changes[name], default=None)
    return found if found is not None and changes[found] <= _MOST_CHANGES else None


def _changes(word: str, name: str) -> int:
    """How many characters are put in, taken out or exchanged."""
    steps = SequenceMatcher(None, word, name, autojunk=False).get_opcodes()
    return sum(max(b - a, d - c) for step, a, b, c, d in steps if step != "equal")


def runs(names: Sequence[str]) -> list[str]:
    """Names in their order, three or more that count on as `A .. B`."""
    groups: list[list[str]] = []
    for name in names:
        if groups and _counts_on(groups[-1][-1], name):
            groups[-1].append(name)
        else:
            groups.append([name])
    return [word for group in groups
            for word in ([f"{group[0]} .. {group[-1]}"] if len(group) > 2 else group)]


def _counts_on(before: str, name: str) -> bool:
    """Whether a name is the one before it with the number at its end one higher."""
    found = re.fullmatch(r"(.*?)(0|[1-9][0-9]*)", before, re.DOTALL)
    return found is not None and name == f"{found[1]}{int(found[2]) + 1}"


class Names:
    """What the systems and ports of a document are called."""

    def __init__(self, document: Document) -> None:
        self._document = document

    @cached_property
    def _clocks(self) -> dict[str, str]:
        """The clock of each name, and of each clock."""
        systems = self._document.systems
        return {system.clock: system.clock for system in systems} | {
            system.name: system.clock for system in reversed(systems) if system.name}

    @cached_property
    def _ports(self) -> dict[str, dict[int, str]]:
        """The names of each system's ports by number, where they have one."""
        return {system.clock: {int(number): name for number, name in _PORT.findall(system.comment)}
                for system in self._document.systems}

    @cached_property
    def _linked(self) -> dict[str, list[int]]:
        """The ports of each system that have a link, by rising number."""
        linked: dict[str, list[int]] = {system.clock: [] for system in self._document.systems}
        for end in sorted(self._document.link_at):
            linked.setdefault(end.clock, []).append(end.port)
        return linked

    def find(self, word: str) -> str | None:
        """The clock of the system of a name, or of a clock in either case."""
        return self._clocks.get(word) or self._clocks.get(word.lower())

    def clock(self, word: str) -> str:
        """The clock of the system that is called so; one that is none is refused, with the nearest name."""
        clock = self.find(word)
        if clock is None:
            near = nearest(word, (system.name or system.clock for system in self._document.systems))
            raise Refused(f"no system {word}" + (f": {near} is near" if near else ""))
        return clock

    def end(self, word: str) -> End:
        """The port that `NAME:PORT` calls, by name or number, or `NAME` alone of a system that has one link."""
        whole = self.find(word)
        name, _, port = ("", "", "") if whole else word.rpartition(":")
        clock = whole or self.clock(name or word)
        linked = self._linked[clock]
        if not port and len(linked) == 1:
            return End(clock, linked[0])
        for number in linked:
            if port and self.port(clock, number) == port:
                return End(clock, number)
        if port.isascii() and port.isdigit() and int(port) in linked:
            return End(clock, int(port))
        raise Refused(f"no port {word}: it has {', '.join(self.port(clock, number) for number in linked) or 'none'}")

    def port(self, clock: str, number: int) -> str:
        """What a port is called: its name, else its number."""
        return self._ports.get(clock, {}).get(number, str(number))

    def number(self, clock: str, number: int) -> str:
        """A port as `NAME:PORT`."""
        return f"{self._document.name(clock)}:{self.port(clock, number)}"
