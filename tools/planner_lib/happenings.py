"""What happens to a network: rows of a table of events, and systems that boot late, as the events of a document."""

from dataclasses import dataclass, field, replace
from functools import partial
from heapq import heappop, heappush
from typing import Callable, Mapping, Sequence

from .documents import LAST_EVENT, MOST_EVENTS, Document, End, Event
from .naming import Names
from .refusal import Refused, told_at

# the kinds of a table of events, and the cells that each takes
KINDS: dict[str, tuple[str, ...]] = {
    "link_down": (),
    "link_up": (),
    "link_set": ("min", "max", "jitter", "loss"),
    "fail": (),
    "recover": (),
    "priority1": ("value",),
    "power_off": ("detect",),
    "power_on": (),
    "break": ("detect",),
    "mend": (),
}
CELLS = ("value", "min", "max", "jitter", "loss", "detect")
_OF_SYSTEMS = ("fail", "recover", "priority1", "power_off", "power_on")


@dataclass(frozen=True)
class Happening:
    """A row of a table of events: when, in ns, its kind, the system or port that it names, and its other cells."""

    at: int
    kind: str
    what: str
    cells: dict[str, int] = field(default_factory=dict)
    where: str = ""


class Parts:
    """The systems that devices which don't relay are written as."""

    def __init__(self) -> None:
        self._names: dict[str, list[str]] = {}
        self._by_port: dict[tuple[str, str], str] = {}

    def add(self, device: str, port: str, name: str) -> None:
        """A part of a device, and the port that it has there."""
        self._names.setdefault(device, []).append(name)
        self._by_port[device, port] = name

    def of(self, word: str) -> list[str]:
        """The systems that a name means."""
        return self._names.get(word, [word])

    def with_port(self, word: str) -> str:
        """The part that has the port which `NAME:PORT` names; any other word stays.

        A port that such a device doesn't have is refused.
        """
        device, port = (word, "") if word in self._names else word.rpartition(":")[::2]
        if device in self._names and (not port or (device, port) not in self._by_port):
            ports = [name for owner, name in self._by_port if owner == device and name]
            raise Refused(f"no port {word}: it has {', '.join(ports or self._names[device])}")
        return self._by_port.get((device, port), word)


@dataclass
class _Cable:
    """A link as it is: whether it is up, its delays in ns and its loss, and which systems without power hold it."""

    up: bool
    keys: dict[str, int]
    held_by: set[str] = field(default_factory=set)


def play(quiet: Document, starts: Mapping[str, int], rows: Sequence[Happening], parts: Parts) -> Document:
    """A document with its events: systems boot at their times in ns, and what the rows say happens."""
    player = _Player(quiet, parts)
    player.boot(starts)
    for number, row in enumerate(rows):
        player.plan(row.at, number, partial(player.happen, row, number))
    links = tuple(replace(link, up=cable.up) for link, cable in zip(quiet.links, player.cables))
    events = player.run()
    if len(events) > MOST_EVENTS:
        raise Refused(f"{len(events)} events: a document has at most {MOST_EVENTS}")
    return replace(quiet, links=links, events=tuple(events))


class _Player:
    """Plays what happens in order of time, at one time first what boots, then in the order of the table."""

    def __init__(self, quiet: Document, parts: Parts) -> None:
        self._names = Names(quiet)
        self._parts = parts
        self._places = quiet.link_at
        self._ports = {system.clock: [end for end in sorted(quiet.link_at) if end.clock == system.clock]
                       for system in quiet.systems}
        self.cables = [_Cable(link.up, {"loss": 0} | link.keys) for link in quiet.links]
        self._unseen: dict[str | int, int] = {}
        self._queue: list[tuple[int, int, int, Callable[[], None]]] = []
        self._count = 0
        self._events: list[Event] = []
        self._now = 0

    def plan(self, at: int, number: int, act: Callable[[], None]) -> None:
        """Something that is done at a time in ns, on behalf of the row of that number."""
        if at > LAST_EVENT:
            raise Refused(f"at {at} isn't 0 to {LAST_EVENT}")
        self._count += 1
        heappush(self._queue, (at, number, self._count, act))

    def run(self) -> list[Event]:
        """Does all that is planned; the events that come of it."""
        while self._queue:
            self._now, _, _, act = heappop(self._queue)
            act()
        return self._events

    def boot(self, starts: Mapping[str, int]) -> None:
        """Systems that boot later than at 0: until then they have failed, and their links are down."""
        late = {clock: at for clock, at in starts.items() if at > 0}
        for clock in late:
            self._event("fail", clock)
            for end in self._ports[clock]:
                cable = self.cables[self._places[end]]
                cable.up = False
                cable.held_by.add(clock)
        # at one time all systems first, then their links
        for clock, at in late.items():
            self.plan(at, -2, partial(self._event, "recover", clock))
            self.plan(at, -1, partial(self._give_power, clock))

    def happen(self, row: Happening, number: int) -> None:
        """What a row says."""
        with told_at(row.where):
            if row.kind not in _OF_SYSTEMS:
                self._happen_at(self._names.end(self._parts.with_port(row.what)), row, number)
                return
            for name in self._parts.of(row.what):
                self._happen_to(self._names.clock(name), row, number)

    def _happen_to(self, clock: str, row: Happening, number: int) -> None:
        """What a row says of a system."""
        if row.kind == "power_off":
            self._take_power(clock, row, number)
        elif row.kind == "power_on":
            if clock in self._unseen:
                raise Refused(f"power_on {row.what} before its power_off is seen, at {self._unseen[clock]}")
            self._event("recover", clock)
            self._give_power(clock)
        else:
            self._event(row.kind, clock, keys=row.cells)

    def _happen_at(self, end: End, row: Happening, number: int) -> None:
        """What a row says of the link at a port."""
        place = self._places[end]
        if row.kind == "link_set":
            self._set(end, self._changed(place, row.cells))
        elif row.kind == "break" and "detect" in row.cells:
            self._break_late(end, row, number)
        elif place in self._unseen and row.kind in ("break", "mend"):
            raise Refused(f"{row.kind} {row.what} before its break is seen, at {self._unseen[place]}")
        else:
            kind = {"break": "link_down", "mend": "link_up"}.get(row.kind, row.kind)
            self.cables[place].held_by.clear()
            self._turn(end, kind == "link_up")

    def _take_power(self, clock: str, row: Happening, number: int) -> None:
        """A system loses its power: its links go down, or are found down where their other end has none either."""
        if clock in self._unseen:
            raise Refused(f"power_off {row.what} before that before it is seen, at {self._unseen[clock]}")
        self._event("fail", clock)
        taken = [end for end in self._ports[clock] if self.cables[self._places[end]].up]
        for end in self._ports[clock]:
            cable = self.cables[self._places[end]]
            if cable.up or cable.held_by:
                cable.held_by.add(clock)
        self._seen(clock, row, number, partial(self._turn_down, taken))

    def _give_power(self, clock: str) -> None:
        """The links of a system that has power again come up, but those whose other end has none."""
        for end in self._ports[clock]:
            cable = self.cables[self._places[end]]
            if clock in cable.held_by:
                cable.held_by.remove(clock)
                if not cable.held_by:
                    self._turn(end, True)

    def _break_late(self, end: End, row: Happening, number: int) -> None:
        """A cable breaks: it loses every frame until that is seen, then goes down and is as it was."""
        place = self._places[end]
        if place in self._unseen:
            raise Refused(f"break {row.what} before its break is seen, at {self._unseen[place]}")
        before = dict(self.cables[place].keys)
        self._set(end, before | {"loss": 1000})

        def seen() -> None:
            """What is done once the break is seen."""
            self.cables[place].held_by.clear()
            self._turn(end, False)
            self._set(end, before)

        self._seen(place, row, number, seen)

    def _seen(self, what: str | int, row: Happening, number: int, act: Callable[[], None]) -> None:
        """Does what is seen of a fault of a system or a link: at once, or `detect` later."""
        if "detect" not in row.cells:
            act()
            return

        def later() -> None:
            """What is done once the fault is seen."""
            del self._unseen[what]
            act()

        self._unseen[what] = self._now + row.cells["detect"]
        self.plan(self._unseen[what], number, later)

    def _changed(self, place: int, cells: Mapping[str, int]) -> dict[str, int]:
        """The keys of a link as a row changes them; what the row doesn't say stays."""
        keys = self.cables[place].keys | {key: value for key, value in cells.items() if key != "jitter"}
        if "jitter" in cells:
            keys["max"] = keys["min"] + cells["jitter"]
        if keys["min"] > keys["max"]:
            raise Refused(f"min {keys['min']} is above max {keys['max']}")
        return keys

    def _set(self, end: End, keys: dict[str, int]) -> None:
        """Gives a link delays, in ns, and a loss, from now on."""
        self.cables[self._places[end]].keys = keys
        self._event("link_set", end.clock, end.port, {key: keys[key] for key in ("min", "max", "loss")})

    def _turn(self, end: End, up: bool) -> None:
        """Turns a link up or down."""
        self.cables[self._places[end]].up = up
        self._event("link_up" if up else "link_down", end.clock, end.port)

    def _turn_down(self, ends: Sequence[End]) -> None:
        """Turns links down."""
        for end in ends:
            self._turn(end, False)

    def _event(self, kind: str, clock: str, port: int | None = None, keys: Mapping[str, int] | None = None) -> None:
        """Adds an event of this moment."""
        self._events.append(Event(self._now, kind, clock, port, dict(keys or {})))
