"""Errors: those of receipts over steps, and those of what is read over time."""

from decimal import Decimal
from math import ceil, nan
from typing import Iterable, Mapping, Sequence

from matplotlib.axes import Axes
from matplotlib.figure import Figure

from .charts import POINTS, as_svg
from .documents import Document
from .timelines import Sample, Stretch

_SIZE = (10.5, 3.6)


def over_steps(document: Document, stretches: Sequence[Stretch], clocks: Sequence[str],
               bounds: Mapping[str, Decimal], limit: Decimal | None = None) -> bytes | None:
    """Absolute errors in ns by steps from the root, of receipts after the last change of their stretch, as SVG.

    Of all systems median, 99.9 % and greatest; of systems that are named each error as a point. None without any.
    """
    of_steps: dict[int, list[float]] = {}
    shown: dict[int, set[str]] = {}
    for stretch in stretches:
        last = max((change.at for change in stretch.changes), default=stretch.begin)
        for sample in stretch.samples:
            standing = stretch.ended.get(sample.clock)
            if sample.at > last and standing and not standing.failed and (not clocks or sample.clock in clocks):
                of_steps.setdefault(standing.steps, []).append(abs(float(sample.error)))
                shown.setdefault(standing.steps, set()).add(sample.clock)
    if not of_steps:
        return None
    figure = Figure(figsize=_SIZE, layout="constrained")
    axes = figure.add_subplot()
    steps = sorted(of_steps)
    if clocks:
        points = [(step, error) for step in steps for error in of_steps[step]]
        axes.plot(*zip(*points), ".", label=_names(document, clocks), rasterized=len(points) > POINTS)
    else:
        for part, label in ((0.5, "median"), (0.999, "99.9 %"), (1.0, "greatest")):
            axes.plot(steps, [_least_above(of_steps[step], part) for step in steps], ".-", label=label)
    _bounds(axes, bounds_by_steps(stretches[-1], bounds, shown), limit)
    axes.set_xlabel("steps from the root")
    axes.set_ylabel("error in ns")
    axes.set_xlim(0, steps[-1] + 1)
    axes.set_ylim(bottom=0)
    axes.xaxis.get_major_locator().set_params(integer=True)
    axes.legend(loc="upper left")
    return as_svg(figure)


def _least_above(errors: list[float], part: float) -> float:
    """The least error that so large a part of all isn't above."""
    return sorted(errors)[max(ceil(part * len(errors)), 1) - 1]


def bounds_by_steps(stretch: Stretch, bounds: Mapping[str, Decimal],
                    shown: Mapping[int, set[str]]) -> dict[int, float]:
    """The bound in ns at each number of steps, where all systems that are shown there have one at a stretch's end."""
    there = {clock: standing.steps for clock, standing in stretch.ended.items()
             if not standing.failed and standing.slave is not None}
    return {steps: max(float(bounds[clock]) for clock in clocks) for steps, clocks in shown.items()
            if all(clock in bounds and there.get(clock) == steps for clock in clocks)}


def _bounds(axes: Axes, of_steps: Mapping[int, float], limit: Decimal | None) -> None:
    """The bound at each number of steps, and what is required, as lines."""
    if of_steps:
        axes.plot(sorted(of_steps), [of_steps[step] for step in sorted(of_steps)], "k_--", label="bound")
    if limit is not None:
        axes.axhline(float(limit), color="red", linestyle="dotted", label="asked")


def over_time(document: Document, stretches: Sequence[Stretch], clocks: Sequence[str], sync: int) -> bytes | None:
    """Errors in ns over time, as SVG, with events as upright lines. None without any.

    They are those of what is read before and after each receipt, where the stretches have readings, else of receipts.
    Of all systems the envelope, greatest and least; of systems that are named each error as a point. Over more than two
    Sync intervals (in ns) without an error nothing is drawn.
    """
    samples = [sample for stretch in stretches for sample in stretch.readings or stretch.samples
               if not clocks or sample.clock in clocks]
    if not samples:
        return None
    figure = Figure(figsize=_SIZE, layout="constrained")
    axes = figure.add_subplot()
    if clocks:
        for clock in clocks:
            own = [sample for sample in samples if sample.clock == clock]
            axes.plot([sample.at / 1e9 for sample in own], [float(sample.error) for sample in own], ".",
                      label=document.name(clock), rasterized=len(samples) > POINTS)
        axes.legend(loc="upper left")
    else:
        times, least, most = envelope(samples, sync)
        axes.fill_between(times, least, most, color="#56B4E9", edgecolor="#0072B2", linewidth=0.8)
    events = [stretch.begin / 1e9 for stretch in stretches if stretch.events]
    axes.vlines(events, 0, 1, transform=axes.get_xaxis_transform(), color="red", linewidth=0.8,
                rasterized=len(events) > POINTS)
    axes.set_xlabel("time in s")
    axes.set_ylabel("error in ns")
    return as_svg(figure)


def envelope(samples: Sequence[Sample], sync: int) -> tuple[list[float], list[float], list[float]]:
    """The times in s of 1,000 columns, and the least and the greatest error of each in ns.

    NaN ends what would lead over a gap of more than two Sync intervals, which are in ns.
    """
    begin, end = samples[0].at, samples[-1].at
    width = max((end - begin) / POINTS, 1)
    columns: dict[int, list[Sample]] = {}
    for sample in samples:
        columns.setdefault(int((sample.at - begin) / width), []).append(sample)
    times: list[float] = []
    least: list[float] = []
    most: list[float] = []
    before = begin
    for place in sorted(columns):
        own = columns[place]
        if own[0].at - before > 2 * sync:
            _put(times, least, most, before / 1e9, nan, nan)
        errors = [float(sample.error) for sample in own]
        _put(times, least, most, own[0].at / 1e9, min(errors), max(errors))
        before = own[-1].at
    return times, least, most


def _put(times: list[float], least: list[float], most: list[float], time: float, low: float, high: float) -> None:
    """Adds a column: its time in s, and its errors in ns."""
    times.append(time)
    least.append(low)
    most.append(high)


def _names(document: Document, clocks: Iterable[str]) -> str:
    """What systems are called, as one text."""
    return ", ".join(document.name(clock) for clock in clocks)
