"""The state of a network: what the report of `run` says, and what the lines of `timeline` add up to."""

from dataclasses import dataclass, field, replace
from decimal import ROUND_HALF_UP, Decimal
from typing import Iterable

from .texts import Line


@dataclass(frozen=True)
class PortStanding:
    """A port's role, and whether it is asCapable."""

    role: str
    capable: bool


@dataclass(frozen=True)
class SystemStanding:
    """A system: the root that it follows, how, and its offset in ns as text where that was printed."""

    root: str = ""
    steps: int = 0
    grandmaster: bool = False
    slave: int | None = None
    known: bool = False
    offset: str | None = None
    failed: bool = False
    ports: dict[int, PortStanding] = field(default_factory=dict)

    @property
    def has_time(self) -> bool:
        """Whether it has an offset, or is its own root."""
        return not self.failed and (self.known or self.slave is None)


Standing = dict[str, SystemStanding]


def _system(line: Line, ports: dict[int, PortStanding]) -> SystemStanding:
    """What a line of a live system says."""
    return SystemStanding(
        root=line["root_id"],
        steps=line["steps"],
        grandmaster=line["gm"],
        slave=line["slave"],
        known=line["offset"] is not None,
        ports=ports,
    )


def in_nanoseconds(scaled: int) -> str:
    """A number of 2^-16 ns in ns with three decimals, to the nearest, half away from 0."""
    exact = Decimal(scaled) / 65536
    rounded = exact.quantize(Decimal("0.001"), ROUND_HALF_UP)
    return str(abs(rounded) if rounded == 0 else rounded)


def of_run(lines: Iterable[Line]) -> tuple[int, Standing]:
    """When a run ended, and the state of the network then."""
    at, standing = 0, {}
    for line in lines:
        if line.kind == "time":
            at = line["at"]
        elif line.kind == "system":
            told = line["offset"]
            offset = None if told is None else in_nanoseconds(told)
            standing[line["clock"]] = replace(_system(line, {}), offset=offset)
        elif line.kind == "system failed":
            standing[line["clock"]] = SystemStanding(failed=True)
        elif line.kind == "port":
            standing[line["clock"]].ports[line["port"]] = PortStanding(line["role"], line["capable"])
    return at, standing


def apply(standing: Standing, line: Line) -> None:
    """Changes the state of a network by a line of `timeline`."""
    if line.kind == "at system":
        before = standing.get(line["clock"], SystemStanding())
        system = _system(line, before.ports)
        standing[line["clock"]] = replace(system, offset=before.offset) if system.known else system
    elif line.kind == "at system failed":
        standing[line["clock"]] = SystemStanding(failed=True)
    elif line.kind == "at port":
        before = standing[line["clock"]]
        port = PortStanding(line["role"], line["capable"])
        standing[line["clock"]] = replace(before, ports=before.ports | {line["port"]: port})
    elif line.kind == "offset":
        standing[line["clock"]] = replace(standing[line["clock"]], offset=str(line["offset"]))
