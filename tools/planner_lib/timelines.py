"""What `timeline` prints, stretch by stretch."""

from dataclasses import dataclass, field
from decimal import Decimal
from functools import cached_property
from typing import Iterable, Sequence

from .standing import Standing, SystemStanding, apply
from .texts import Line


@dataclass(frozen=True)
class Sample:
    """The error of a receipt, or of what is read just before or after one, in ns."""

    at: int
    clock: str
    error: Decimal


@dataclass(frozen=True)
class Change:
    """The state of a system after an act."""

    at: int
    clock: str
    system: SystemStanding


@dataclass
class Stretch:
    """What happens between two times of events; its measures are those of its `after` line, its times of `times`.

    Samples are the errors of receipts, readings those of what is read before and after each receipt and takeover.
    """

    began: Standing
    events: list[Line] = field(default_factory=list)
    changes: list[Change] = field(default_factory=list)
    samples: list[Sample] = field(default_factory=list)
    measures: Line = Line("after", {}, "")
    ended: Standing = field(default_factory=dict)
    accuracy: list[Line] = field(default_factory=list)
    readings: list[Sample] = field(default_factory=list)
    times: Line | None = None

    @cached_property
    def changes_of(self) -> dict[str, list[Change]]:
        """The changes of each system; taken once all are read."""
        changes: dict[str, list[Change]] = {}
        for change in self.changes:
            changes.setdefault(change.clock, []).append(change)
        return changes

    @property
    def begin(self) -> int:
        """When it begins, in ns."""
        return int(self.measures["from"])

    @property
    def end(self) -> int:
        """When it ends, in ns."""
        return int(self.measures["to"])

    @property
    def last_moment(self) -> int:
        """The last time that is its own, in ns: events at its end begin the next."""
        return max(self.begin, self.end - 1)

    def errors(self) -> dict[str, Decimal]:
        """The greatest absolute error of each system in ns: since its bound holds where that is known, else of all."""
        greatest: dict[str, Decimal] = {}
        for sample in self.samples:
            greatest[sample.clock] = max(greatest.get(sample.clock, Decimal(0)), abs(sample.error))
        return greatest | {line["clock"]: line["error"] for line in self.accuracy if line["error"] is not None}


def read(lines: Iterable[Line]) -> list[Stretch]:
    """The stretches of a timeline."""
    stretches: list[Stretch] = []
    now: Standing = {}
    stretch = Stretch({})
    for line in lines:
        apply(now, line)
        if line.kind == "event":
            stretch.events.append(line)
        elif line.kind in ("at system", "at system failed", "at port"):
            stretch.changes.append(Change(line["at"], line["clock"], now[line["clock"]]))
        elif line.kind == "offset":
            if line["error"] is not None:
                stretch.samples.append(Sample(line["at"], line["clock"], line["error"]))
        elif line.kind == "reading":
            stretch.readings += [Sample(line["at"], line["clock"], error) for error in (line["before"], line["after"])
                                 if error is not None]
        elif line.kind == "after":
            stretch.measures, stretch.ended = line, dict(now)
            stretches.append(stretch)
            stretch = Stretch(dict(now))
        elif line.kind == "times":
            stretches[-1].times = line
        elif line.kind == "accuracy":
            stretches[-1].accuracy.append(line)
    return stretches


def joined(stretches: Sequence[Stretch], apart: int) -> list[Stretch]:
    """Stretches of which those that begin less than some ns after the one before are one with it."""
    groups: list[list[Stretch]] = []
    for stretch in stretches:
        if groups and stretch.begin - groups[-1][-1].begin < apart:
            groups[-1].append(stretch)
        else:
            groups.append([stretch])
    return [as_one(group) for group in groups]


def as_one(group: Sequence[Stretch]) -> Stretch:
    """Stretches as one; of several only the times are measured."""
    if len(group) == 1:
        return group[0]
    measures = Line("after", {"from": group[0].begin, "to": group[-1].end}, "")
    return Stretch(
        group[0].began,
        [event for stretch in group for event in stretch.events],
        [change for stretch in group for change in stretch.changes],
        [sample for stretch in group for sample in stretch.samples],
        measures,
        group[-1].ended,
        group[-1].accuracy,
        [reading for stretch in group for reading in stretch.readings],
    )
