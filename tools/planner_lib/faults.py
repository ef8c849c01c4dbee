"""What `faults` prints: its cases, and parts of it as one."""

from concurrent.futures import ThreadPoolExecutor
from dataclasses import dataclass
from decimal import Decimal
from itertools import groupby
from math import gcd
from typing import Any, Callable, Iterable, Sequence

from . import jobs
from .refusal import Refused
from .texts import Line, read_line

_WORDS = ("choice", "holdover", "error", "without", "roots", "alone")
_CUT = ("cut", "astray")
_TIMES = ("time", "apart", "step", "first")
_BOUNDS = ("bound", "roles_bound")
# what a verdict may name, in the order in which it looks
VERDICTS = (*_WORDS, *_CUT, "bound", *_TIMES)
# what cases are sorted by, and what they are where nothing is said of who is cut off
_ORDER = ("astray", "holdover", "choice", "cut")
_ORDER_WITHOUT_CUT = ("without", "roots", "holdover", "choice", "alone")
_KINDS = ("case link", "case system", "case power")
_MILLISECOND = 10**6  # ns


@dataclass(frozen=True)
class Case:
    """A link, a system or its power that fails and comes back: its lines, and of these `down` and `back`.

    `times` are `down_times` and `back_times`, where they are there.
    """

    lines: tuple[Line, ...]
    down: Line
    back: Line
    times: tuple[Line, ...] = ()

    @property
    def number(self) -> int:
        """Its number among all cases of the document."""
        return int(self.lines[0]["case"])

    def followed(self, line: Line) -> list[Line]:
        """The `follow` lines of down or of back."""
        place = self.lines.index(self.back)
        part = self.lines[:place] if line is self.down else self.lines[place:]
        return [told for told in part if told.kind == "follow"]

    @property
    def failed(self) -> str | None:
        """The system that fails, by clock; None where it is a link."""
        return None if self.lines[0].kind == "case link" else str(self.lines[0]["clock"])

    def rank(self) -> tuple[Any, ...]:
        """What cases are sorted by: the worst first, of equals by number. Waits count in whole ms."""
        has_cut = "cut" in self.down.fields
        greatest = {word: max(size(self.down, word), size(self.back, word))
                    for word in (_ORDER if has_cut else _ORDER_WITHOUT_CUT)}
        if has_cut:
            greatest["holdover"] //= _MILLISECOND
        return (*(-value for value in greatest.values()), self.number)


@dataclass(frozen=True)
class Faults:
    """The text of `faults`, whole or of one part."""

    head: Line
    cases: tuple[Case, ...]
    worst: Line
    verdict: Line
    worst_times: Line | None = None

    def text(self) -> str:
        """The lines as `faults` writes them."""
        lines = [self.head, *(line for case in self.cases for line in case.lines), self.worst,
                 *([self.worst_times] if self.worst_times else []), self.verdict]
        return "".join(f"{line.text}\n" for line in lines)


def measure(line: Line, word: str) -> int | Decimal | None:
    """A measure of a line; None where there is none, as of `choice none` and of `holdover 0 none`."""
    nobody = line.fields.get(f"{word}_clock", "") is None
    return None if nobody and not line[word] else line[word]


def size(line: Line, word: str) -> int | Decimal:
    """A measure for comparing: none is below 0, but a bound that is none above all."""
    value = measure(line, word)
    if value is None:
        return Decimal("Infinity") if word in _BOUNDS else -1
    return value


def read(lines: Sequence[Line], source: str) -> Faults:
    """A text of `faults`."""
    kinds = [line.kind for line in lines]
    if kinds[:1] != ["cases"]:
        raise Refused(f"{source}: line 1: isn't a text of `faults`")
    worst_times = lines[-2] if kinds[-2:-1] == ["worst_times"] else None
    last = len(lines) - (3 if worst_times else 2)
    ends = kinds[-1] == "within" or kinds[-1] == "exceeded" and lines[-1]["word"] in VERDICTS
    if last < 1 or kinds[last] != "worst" or not ends:
        raise Refused(f"{source}: line {len(lines)}: isn't the end of a text of `faults`")
    begins = [place for place, kind in enumerate(kinds) if kind in _KINDS]
    if begins[:1] != [1] and last > 1:
        raise Refused(f"{source}: line 2: `{lines[1].text}` is before any case")
    cases = [_case(lines[begin:end], f"{source}: line {begin + 1}") for begin, end in zip(begins, [*begins[1:], last])]
    return Faults(lines[0], tuple(cases), lines[last], lines[-1], worst_times)


def _case(lines: Sequence[Line], where: str) -> Case:
    """A case of its lines: its head, `down`, `follow` lines, `back`, `follow` lines; times after `down` and `back`."""
    kinds = [kind for kind, _ in groupby(line.kind for line in lines if line.kind != "follow")]
    if kinds[1:] not in (["down", "back"], ["down", "down_times", "back", "back_times"]):
        raise Refused(f"{where}: `{lines[0].text}` isn't followed by `down` and `back`")
    found = {line.kind: line for line in reversed(lines)}
    return Case(tuple(lines), found["down"], found["back"],
                tuple(found[kind] for kind in ("down_times", "back_times") if kind in found))


def in_parts(ask: Callable[..., list[Line]], words: list[str], jobs: int) -> Faults:
    """What `faults` says, run in so many parts at a time."""
    numbers = range(1, jobs + 1)
    with ThreadPoolExecutor(jobs) as pool:
        told = pool.map(lambda part: ask(*words, "--parts", str(jobs), "--part", str(part)), numbers)
        parts = [(f"part.{part}", read(lines, "gptp_sim faults")) for part, lines in zip(numbers, told)]
    return merge(parts, range(jobs, jobs + 1))


def merge(parts: Sequence[tuple[str, Faults]], counts: range) -> Faults:
    """The parts of one run, by their files, as the whole: sorted anew, the worst of all, and the verdict.

    The counts are how many parts there may be.
    """
    heads = {_settings(part.head) for _, part in parts}
    if not parts:
        raise Refused("case 0 is missing")
    if len(heads) != 1:
        raise Refused("the parts differ in moments, seeds or where they begin: " + "; ".join(sorted(heads)))
    with_cut = {"cut" in part.worst.fields for _, part in parts}
    if len(with_cut) != 1:
        raise Refused("some of the parts say who is cut off, some don't: they are of several programs")
    cases = tuple(sorted((case for _, part in parts for case in part.cases), key=Case.rank))
    _whole(sorted(case.number for case in cases), parts, counts)
    head = _line("cases", f"cases {len(cases)} {heads.pop()}")
    words = (*_WORDS, *_CUT) if with_cut.pop() else _WORDS
    worst = _worst("worst", [part.worst for _, part in parts], words, _BOUNDS)
    times = [part.worst_times for _, part in parts if part.worst_times]
    return Faults(head, cases, worst, _verdict([part for _, part in parts]),
                  _worst("worst_times", times, _TIMES) if len(times) == len(parts) else None)


def _line(kind: str, text: str) -> Line:
    """A line of its text."""
    return read_line(text) or Line(kind, {}, text)


def _settings(head: Line) -> str:
    """What all parts have in common."""
    return head.text.split(" ", 2)[2]


def _whole(numbers: Sequence[int], parts: Sequence[tuple[str, Faults]], counts: range) -> None:
    """Refuses cases that aren't 0, 1, .. each once, and a part that isn't there."""
    for wanted, number in enumerate(numbers):
        if number < wanted:
            raise Refused(f"case {number} is there twice")
        if number > wanted:
            where = [f"part.{part}" for part in _could_have(wanted, parts, counts)]
            raise Refused(f"case {wanted} is missing" + (f" ({', '.join(where)})" if where else ""))
    there = {jobs.number(path) for path, _ in parts}
    for part in range(1, counts.start + 1) if counts else ():
        if part not in there:
            raise Refused(f"case {len(numbers)} may be missing (part.{part})")


def _could_have(case: int, parts: Sequence[tuple[str, Faults]], counts: range) -> list[int]:
    """The numbers of the parts that aren't there and could have a case.

    Case c is in part c mod N + 1 of N. Where N isn't known it is any that fits the cases of all parts by number.
    """
    there = {jobs.number(path): part for path, part in parts}
    apart = gcd(*(known.number + 1 - number for number, part in there.items() if number for known in part.cases))
    could = {case % count + 1 for count in counts if apart % count == 0}
    return sorted(could - there.keys())


def _worst(kind: str, lines: Sequence[Line], words: Sequence[str], bounds: Sequence[str] = ()) -> Line:
    """The line of a kind with the greatest of each measure of some, and of each bound behind the word `bound`."""
    told = [part for word in words for part in (word, _greatest(lines, word))]
    told += ["bound"] * bool(bounds) + [_greatest(lines, word) for word in bounds]
    return _line(kind, " ".join([kind, *told]))


def _greatest(lines: Sequence[Line], word: str) -> str:
    """The greatest of a measure of some lines, as it is written."""
    value = max(lines, key=lambda line: size(line, word))[word]
    return "none" if value is None else str(value)


def _verdict(parts: Iterable[Faults]) -> Line:
    """The first word that is exceeded in any part: each part names its first."""
    exceeded = [part.verdict["word"] for part in parts if part.verdict.kind == "exceeded"]
    return _line("exceeded", f"exceeded {min(exceeded, key=VERDICTS.index)}") if exceeded else _line("within", "within")
