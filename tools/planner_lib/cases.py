"""Faults that a page shows: the worst that aren't a cut leaf, and what happens in one of their runs."""

from collections import Counter
from dataclasses import dataclass
from typing import Sequence

from .documents import Document, End, Event
from .faults import Case, Faults
from .timelines import Stretch

_MOST = 3
_WITHOUT_BOUND = 60 * 10**9  # ns: how long a fault is shown of which no bound is known


@dataclass(frozen=True)
class Shown:
    """A fault, how many are like it, when its first run has it, in ns, the document of that run, and its stretches.

    `detect`: how much later it is seen, in ns, where it isn't at once.
    """

    case: Case
    alike: int
    at: int
    detect: int | None
    document: Document
    stretches: Sequence[Stretch] = ()


def worst(document: Document, faults: Faults) -> list[tuple[Case, int]]:
    """The three worst kinds of faults in the order of the program: the first of each, and how many are alike.

    Alike are faults of one kind that cut off as many, leave as many astray, and let wait as long in whole ms. A link
    that cuts off one system and leaves nobody astray is left out, and so is a system that has one link, and its power.
    """
    links = Counter(end.clock for end in document.link_at)
    alike: dict[object, list[Case]] = {}
    for case in faults.cases:
        cut, astray = case.down["cut"], max(case.down["astray"], case.back["astray"])
        if links[case.failed] == 1 if case.failed else (cut, astray) == (1, 0):
            continue
        waits = [line["holdover"] // 10**6 for line in (case.down, case.back)]
        alike.setdefault((case.lines[0].kind, cut, astray, *waits), []).append(case)
    return [(cases[0], len(cases)) for cases in list(alike.values())[:_MOST]]


def events(document: Document, case: Case, at: int, detect: int | None) -> list[Event]:
    """What the program lets happen at the moment of a case, and `detect` later, where it is seen late; both in ns."""
    seen = at + (detect or 0)
    if case.failed is None:
        line = case.lines[0]
        return _broken(document, End(line["a_clock"], line["a_port"]), at, detect)
    made = [Event(at, "fail", case.failed)]
    if case.lines[0].kind == "case power":
        up = document.links_up(at)
        made += [Event(seen, "link_down", end.clock, end.port) for end, number in sorted(document.link_at.items())
                 if end.clock == case.failed and up[number]]
    return made


def _broken(document: Document, end: End, at: int, detect: int | None) -> list[Event]:
    """A link goes down, or loses every frame until that is seen, and is then down as it was."""
    if detect is None:
        return [Event(at, "link_down", end.clock, end.port)]
    keys = document.link_keys(document.link_at[end])
    return [Event(at, "link_set", end.clock, end.port, keys | {"loss": 1000}),
            Event(at + detect, "link_down", end.clock, end.port),
            Event(at + detect, "link_set", end.clock, end.port, keys)]


def end(case: Case, at: int) -> int:
    """When the run of a case is left, in ns: when it has settled."""
    bound = case.down["bound"]
    return at + (_WITHOUT_BOUND if bound is None else int(bound))
