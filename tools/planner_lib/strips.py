"""What each system follows in a stretch, as a strip of colours over the time since its event."""

from dataclasses import dataclass
from typing import Iterator, Mapping, Sequence

from matplotlib.axes import Axes
from matplotlib.figure import Figure

from .charts import as_svg
from .documents import Document
from .naming import runs
from .standing import Standing, SystemStanding
from .timelines import Stretch

# by Okabe and Ito; the darkest comes last
_COLOURS = ("#E69F00", "#56B4E9", "#009E73", "#F0E442", "#0072B2", "#D55E00", "#CC79A7", "#000000")
GREY = "#999999"
_LEAST = 10**6  # ns: what is shorter makes no difference
_NEVER = 255
_MOST_NAMES = 3


@dataclass(frozen=True)
class Look:
    """How a strip looks: its colour, whether it is hatched, pale (no time), or framed (failed)."""

    colour: str = GREY
    hatched: bool = False
    pale: bool = False
    failed: bool = False


@dataclass(frozen=True)
class Piece:
    """How a system looks from one time to another, in ns since the stretch began."""

    begin: int
    end: int
    look: Look


class Colours:
    """The colours of a page: of each root that two or more live systems follow at some time, by rising identity."""

    def __init__(self, stretches: Sequence[Stretch]) -> None:
        self.roots: dict[str, Look] = {}
        shared = sorted({root for standing in _standings(stretches) for root in _shared(standing)})
        for place, root in enumerate(shared):
            self.roots[root] = Look(_COLOURS[place % len(_COLOURS)], place >= len(_COLOURS))

    def of_boxes(self) -> dict[str, str]:
        """The colour of each root, for pictures of the network."""
        return {root: look.colour for root, look in self.roots.items()}

    def look(self, system: SystemStanding) -> Look:
        """How a system looks: grey where its root is no other's, or can't be grandmaster."""
        if system.failed:
            return Look(failed=True)
        own = self.roots.get(system.root, Look())
        return Look(own.colour, own.hatched, not system.has_time)


def _standings(stretches: Sequence[Stretch]) -> Iterator[Standing]:
    """The state of the network at each time at which something changes."""
    for stretch in stretches:
        now = dict(stretch.began)
        yield now
        for place, change in enumerate(stretch.changes):
            now[change.clock] = change.system
            if stretch.changes[place + 1:place + 2] and stretch.changes[place + 1].at == change.at:
                continue
            yield now


def _shared(standing: Standing) -> Iterator[str]:
    """The roots that two or more live systems follow, and that can be grandmaster."""
    count: dict[str, int] = {}
    for system in standing.values():
        if not system.failed:
            count[system.root] = count.get(system.root, 0) + 1
    return (root for root, systems in count.items() if systems > 1 and int(root[:2], 16) != _NEVER)


def strips(document: Document, stretch: Stretch, colours: Colours, sync: int) -> bytes | None:
    """The picture of a stretch as SVG, systems that look alike in one row; None where nothing changes in it.

    The axis ends at 1.2 times the last change, and shows two Sync intervals (in ns) at least.
    """
    looks = {clock: list(pieces(stretch, clock, colours)) for clock in sorted(stretch.ended)}
    last = max((piece.begin for row in looks.values() for piece in row), default=0)
    span = min(max(last * 6 // 5, 2 * sync), stretch.end - stretch.begin)
    if span <= 0 or not stretch.changes:
        return None
    rows = _rows(looks)
    unit, scale = ("ms", 10**6) if span < 2 * 10**9 else ("s", 10**9)
    figure = Figure(figsize=(10.5, 0.7 + 0.24 * len(rows)), layout="constrained")
    axes = figure.add_subplot()
    for place, clocks in enumerate(rows):
        for piece in looks[clocks[0]]:
            if piece.begin < span:
                _bar(axes, place, piece.begin / scale, (min(piece.end, span) - piece.begin) / scale, piece.look)
    axes.set_yticks(range(len(rows)), [_named(document, clocks) for clocks in rows])
    axes.set_ylim(len(rows) - 0.4, -0.6)
    axes.set_xlim(0, span / scale)
    axes.set_xlabel(f"{unit} since the event")
    return as_svg(figure)


def pieces(stretch: Stretch, clock: str, colours: Colours) -> Iterator[Piece]:
    """How a system looks through a stretch; pieces that look alike are one."""
    since, look = 0, colours.look(stretch.began.get(clock, SystemStanding()))
    for change in stretch.changes_of.get(clock, []):
        after = colours.look(change.system)
        if after != look:
            if change.at - stretch.begin > since:
                yield Piece(since, change.at - stretch.begin, look)
            since, look = change.at - stretch.begin, after
    yield Piece(since, stretch.end - stretch.begin, look)


def _rows(looks: Mapping[str, list[Piece]]) -> list[list[str]]:
    """The systems whose strips differ by less than 1 ms, together."""
    rows: list[tuple[list[Piece], list[str]]] = []
    for clock, own in looks.items():
        long = [piece for piece in own if piece.end - piece.begin >= _LEAST]
        row = next((clocks for first, clocks in rows if _alike(first, long)), None)
        if row is None:
            rows.append((long, [clock]))
        else:
            row.append(clock)
    return [clocks for _, clocks in rows]


def _alike(first: list[Piece], second: list[Piece]) -> bool:
    """Whether two strips look the same, but for less than 1 ms."""
    return len(first) == len(second) and all(
        a.look == b.look and abs(a.begin - b.begin) < _LEAST and abs(a.end - b.end) < _LEAST
        for a, b in zip(first, second))


def _named(document: Document, clocks: list[str]) -> str:
    """The systems of a row by name; many are cut short."""
    wanted = set(clocks)
    names = runs([document.name(system.clock) for system in document.systems if system.clock in wanted])
    more = f", .. ({len(clocks)})" if len(names) > _MOST_NAMES else ""
    return ", ".join(names[:_MOST_NAMES]) + more


def _bar(axes: Axes, place: int, begin: float, width: float, look: Look) -> None:
    """A piece of a strip."""
    if look.failed:
        axes.barh(place, width, 0.7, begin, facecolor="none", edgecolor="red", linestyle="dotted")
    else:
        axes.barh(place, width, 0.7, begin, facecolor=look.colour, alpha=0.3 if look.pale else 1.0,
                  hatch="///" if look.hatched else None, edgecolor="white" if look.hatched else "none")
