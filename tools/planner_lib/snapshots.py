"""Who lives at some time of a document, who is better, and which systems are together."""

from functools import cached_property

from .documents import Document

# what a system has by default, as its identity orders it
_IDENTITY = {"priority1": 246, "class": 248, "accuracy": 254, "variance": 17258, "priority2": 248}
NEVER = 255


class Snapshot:
    """The network after all events of a document, or after those up to a time in ns."""

    def __init__(self, document: Document, until: int | None = None) -> None:
        self._document = document
        self._events = [event for event in document.events if until is None or event.at <= until]
        self._last = max((event.at for event in self._events), default=0)

    @cached_property
    def live(self) -> set[str]:
        """The systems that live."""
        live = {system.clock for system in self._document.systems}
        for event in self._events:
            if event.kind == "fail":
                live.discard(event.clock)
            elif event.kind == "recover":
                live.add(event.clock)
        return live

    @cached_property
    def identity(self) -> dict[str, tuple[int | str, ...]]:
        """Of each system what orders it: the best is the least. Its priority1 comes first."""
        priorities = {event.clock: event.keys["value"] for event in self._events if event.kind == "priority1"}
        return {
            system.clock: (priorities.get(system.clock, system.keys.get("priority1", _IDENTITY["priority1"])),
                           *(system.keys.get(key, value) for key, value in list(_IDENTITY.items())[1:]), system.clock)
            for system in self._document.systems}

    @cached_property
    def components(self) -> list[set[str]]:
        """The components of the live systems by the links that are up."""
        beside: dict[str, list[str]] = {clock: [] for clock in self.live}
        for link, up in zip(self._document.links, self._document.links_up(self._last)):
            if up and link.a.clock in self.live and link.b.clock in self.live:
                beside[link.a.clock].append(link.b.clock)
                beside[link.b.clock].append(link.a.clock)
        found: list[set[str]] = []
        left = set(self.live)
        while left:
            part, row = set(), [left.pop()]
            while row:
                part.update(row)
                row = [other for clock in row for other in beside[clock] if other not in part]
            left -= part
            found.append(part)
        return found
