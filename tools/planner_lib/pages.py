"""The report: one HTML page without a script that loads nothing."""

from dataclasses import dataclass, field
from decimal import Decimal
from pathlib import Path
from typing import Iterable, Iterator, Mapping, NamedTuple, Sequence

from jinja2 import Environment, FileSystemLoader
from markupsafe import Markup

from . import plots
from .cases import Shown
from .documents import Document, interval
from .drawing import Drawing, Seen, View
from .faults import Case, Faults, measure, size
from .judging import Judgement
from .naming import Names
from .pictures import inline, width
from .quantities import in_seconds, in_units
from .readable import Readable
from .strips import Colours, strips
from .texts import Line
from .timelines import Stretch, as_one, joined

_NONE = "\u2013"
_MOST_EVENTS = 6  # that are shown of a stretch
# the heads of what a line of times says
_TIMES = ("off by at most", "apart by at most", "greatest jump", "last has its time after")
_DEFAULTS = {"announce": 0, "sync": -3, "pdelay": 0, "timeout": 3, "lost": 9, "threshold": 800, "turnaround": 1000,
             "residence": 1000, "sync_timeout": 0}


class Cell(NamedTuple):
    """A cell of a table: what it says, and its class; one without is a number."""

    word: str
    text: str = ""


class Table(NamedTuple):
    """A table: the words of its head, and its rows."""

    head: Sequence[str]
    rows: Sequence[Sequence[Cell]]


@dataclass(frozen=True)
class Told:
    """What a page shows: a document and what the program says of it, and the calls that were made for that."""

    title: str
    document: Document
    stretches: Sequence[Stretch]
    bounds: Mapping[str, Decimal]
    faults: Faults | None = None
    judgement: Judgement | None = None
    cases: Sequence[Shown] = ()
    calls: Sequence[str] = field(default_factory=list)
    seed: int = 1


def page(told: Told) -> str:
    """The page as HTML."""
    environment = Environment(loader=FileSystemLoader(Path(__file__).parent), autoescape=True, trim_blocks=True)
    return environment.get_template("page.html").render(_Page(told).parts())


class _Page:
    """The parts of a page."""

    def __init__(self, told: Told) -> None:
        self._told = told
        self._document = told.document
        self._names = Names(told.document)
        self._readable = Readable(told.document, True)
        shown = [*told.stretches, *(stretch for case in told.cases for stretch in case.stretches)]
        self._colours = Colours(shown)
        self._drawing = Drawing(told.document, fold=False)
        # what happens within two Sync intervals, as where devices boot, is one picture
        self._joined = joined(told.stretches, 2 * told.document.sync)

    def parts(self) -> dict[str, object]:
        """What the template takes."""
        told = self._told
        judgement = told.judgement
        over = plots.over_steps(self._document, told.stretches, (), told.bounds,
                                judgement.asked_error if judgement else None)
        time = plots.over_time(self._document, told.stretches, (), self._document.sync)
        return {
            "title": told.title,
            "comment": self._document.comment.splitlines(),
            "verdict": self._judged(judgement) if judgement else self._measured(),
            "word": ("kept" if judgement.kept else "broken") if judgement else "",
            "word_told": judgement.last_line if judgement else "",
            "settings": self._settings(),
            "calls": told.calls,
            "network": self._network(),
            "stretches": self._stretches(),
            "read": self._read(),
            "roots": [{"fill": _fill(look.colour, look.hatched), "name": self._root(root)}
                      for root, look in self._colours.roots.items()],
            "strips": list(self._strips()),
            "worst": [self._case(case) for case in told.cases],
            "worst_told": "Faults that cut off one leaf alone aren't among them.",
            "over_steps": _picture(over),
            "over_time": _picture(time),
            "details": list(self._details()),
        }

    def _judged(self, judgement: Judgement) -> Table:
        """What is required, what was got, and whether that is kept."""
        return Table(("", "", "got", "asked", "who", "where"),
                     [[Cell("kept" if line.met else "broken", "kept" if line.met else "broken"),
                       *(Cell(word, "text") for word in (line.key, line.got, line.asked, line.who, line.where))]
                      for line in judgement.lines])

    def _measured(self) -> Table:
        """Without requirements: when all have time, the worst wait for it, the worst error, and the worst bound."""
        tried = self._told.faults.cases if self._told.faults else ()
        waits = [(stretch.measures, f"after {self._events(stretch)}") for stretch in self._told.stretches[1:]]
        waits += [(line, f"fault {self._what(case)}") for case in tried for line in (case.down, case.back)]
        errors = [(stretch.times, f"after {self._events(stretch)}")
                  for stretch in self._told.stretches if stretch.times]
        errors += [(line, f"fault {self._what(case)}") for case in tried for line in case.times]
        rows = [("all have time", *self._first_time())]
        rows.append(("longest wait for time", *self._greatest(waits, "holdover")))
        rows.append(("greatest error of what is read, at any moment", *self._greatest(errors, "time")))
        bound = max(self._told.bounds.items(), key=lambda it: it[1], default=("", None))
        rows.append(("greatest bound of an error as it comes", _units(bound[1]), self._whose(bound[0] or None)))
        return Table((), [[Cell(what, "text"), Cell(value), Cell(where, "text")] for what, value, where in rows])

    def _first_time(self) -> tuple[str, str]:
        """When the last system got its time, up to the first stretch at whose end all live and have time; and which."""
        at, clock = None, None
        for stretch in self._told.stretches:
            if stretch.times and stretch.times["first"] is not None:
                at, clock = stretch.begin + stretch.times["first"], stretch.times["first_clock"]
            if not stretch.measures["without"] and not any(system.failed for system in stretch.ended.values()):
                return _units(at), f"{self._whose(clock)} after the start".strip()
        return _NONE, "at the end of no stretch"

    def _greatest(self, lines: Sequence[tuple[Line, str]], name: str) -> tuple[str, str]:
        """The greatest of a measure, and whose and where it is."""
        if not lines:
            return _NONE, ""
        line, where = max(lines, key=lambda it: size(it[0], name))
        return _units(line[name]), f"{self._whose(line[f'{name}_clock'])} {where}".strip()

    def _settings(self) -> Table:
        """The intervals and timeouts, and what the network is made of."""
        document = self._document
        jitters = [link.keys["max"] - link.keys["min"] for link in document.links]
        keys = _DEFAULTS | document.network
        rows = [(key, in_units(interval(keys[key]))) for key in ("announce", "sync", "pdelay")]
        rows += [(key, str(keys[key])) for key in ("timeout", "lost", "sync_timeout")]
        rows += [(key, in_units(keys[key])) for key in ("threshold", "turnaround", "residence")]
        rows += [("seed", str(self._told.seed))]
        rows += [("systems", str(len(document.systems))), ("links", str(len(document.links)))]
        if jitters:
            rows.append(("jitter", f"{in_units(min(jitters))} to {in_units(max(jitters))}"))
        if self._told.faults:
            head = self._told.faults.head
            rows += [("moments", str(head["moments"])), ("seeds", str(head["seeds"])),
                     ("faults from", f"{in_seconds(head['from'])}s")]
        if self._told.judgement and self._told.judgement.detect:
            rows.append(("detect", in_units(self._told.judgement.detect)))
        half = (len(rows) + 1) // 2
        pairs = zip(rows[:half], [*rows[half:], ("", "")])
        return Table((), [[Cell(a, "text"), Cell(b), Cell(c, "text"), Cell(d)] for (a, b), (c, d) in pairs])

    def _network(self) -> Markup:
        """The network at the end of the first stretch at which it is whole, else of the first."""
        whole = (stretch for stretch in self._joined if all(self._document.links_up(stretch.last_moment))
                 and not any(system.failed for system in stretch.ended.values()))
        stretch = next(whole, self._joined[0])
        up = self._document.links_up(stretch.last_moment)
        title = f"at {in_seconds(stretch.end)} s"
        seen = Seen(self._told.bounds, stretch.errors())
        return Markup(inline(self._drawing.svg(View(stretch.ended, up, title, seen, self._colours.of_boxes()))))

    def _stretches(self) -> Table:
        """The table of what happens, stretch by stretch."""
        head = ("from", "to", "events", "choice", "roles", "offsets", "bound", "longest wait", "greatest error",
                "without time", "roots", "alone")
        return Table(head, [self._stretch_row(stretch) for stretch in self._told.stretches])

    def _stretch_row(self, stretch: Stretch) -> list[Cell]:
        """The row of a stretch."""
        line = stretch.measures
        return [
            Cell(f"{in_seconds(stretch.begin)}s"),
            Cell(f"{in_seconds(stretch.end)}s"),
            Cell(self._events(stretch), "text"),
            *(Cell(_units(line[name])) for name in ("choice", "roles", "offsets", "bound")),
            *self._measures(line),
        ]

    def _read(self) -> Table | None:
        """The table of what systems read, stretch by stretch."""
        rows = [[Cell(f"{in_seconds(stretch.begin)}s"), Cell(f"{in_seconds(stretch.end)}s"),
                 Cell(self._events(stretch), "text"), *self._times(stretch.times)]
                for stretch in self._told.stretches if stretch.times]
        return Table(("from", "to", "events", *_TIMES), rows) if rows else None

    def _times(self, line: Line) -> Iterator[Cell]:
        """The words of a line of times, each with its systems."""
        for name in ("time", "apart", "step", "first"):
            whose = [line[f"{name}_clock"], line["behind_clock"] if name == "apart" else None]
            named = ", ".join(self._document.name(clock) for clock in whose if clock)
            yield Cell(f"{_units(measure(line, name))} {named}".strip())

    def _measures(self, line: Line) -> Iterator[Cell]:
        """The words of a line that have a system, and its counts."""
        for name in ("holdover", "error"):
            yield Cell(f"{_units(line[name])} {self._whose(line[f'{name}_clock'])}".strip())
        for name in ("without", "roots", "alone"):
            yield Cell(str(line[name]))

    def _events(self, stretch: Stretch) -> str:
        """The events that begin a stretch; many are cut short."""
        told = [self._event(event["kind"], event["words"]) for event in stretch.events[:_MOST_EVENTS]]
        more = len(stretch.events) - len(told)
        return "; ".join([*told, *([f".. {more} more"] if more else [])]) or "start"

    def _event(self, kind: str, words: Sequence[str]) -> str:
        """An event with names; long words, such as frames, are cut."""
        has_port = kind.startswith("link_") or kind == "inject"
        what = self._names.number(words[0], int(words[1])) if has_port else self._document.name(words[0])
        return " ".join([kind, what, *(word[:40] for word in words[2 if has_port else 1:])])

    def _strips(self) -> Iterator[dict[str, object]]:
        """The strips of stretches that have an event later than 0, and in which something changes."""
        for stretch in self._joined:
            if not any(event["at"] > 0 for event in stretch.events):
                continue
            if picture := strips(self._document, stretch, self._colours, self._document.sync):
                yield {"title": f"{in_seconds(stretch.begin)} s: {self._events(stretch)}",
                       "picture": _picture(picture)}

    def _case(self, shown: Shown) -> dict[str, object]:
        """One of the worst faults: its line in words, its strips, and the network before and while it is down."""
        since = [stretch for stretch in shown.stretches if stretch.begin >= shown.at]
        down = as_one(since) if since else None
        before = next((stretch for stretch in shown.stretches if stretch.end == shown.at), None)
        like = f" ({shown.alike} alike)" if shown.alike > 1 else ""
        seen = f" It is seen {in_units(shown.detect)} later." if shown.detect and len(since) > 1 else ""
        return {
            "title": f"{self._what(shown.case)}{like}",
            "told": self._in_words(shown.case),
            "strips": _picture(strips(self._document, down, self._colours, self._document.sync)) if down else None,
            "caption": f"Shown is moment 0, at {in_seconds(shown.at)} s, of those that were tried.{seen}",
            "pictures": [self._case_picture(stretch, shown) for stretch in (before, down) if stretch],
        }

    def _case_picture(self, stretch: Stretch, shown: Shown) -> dict[str, object]:
        """The network at the end of a stretch of a case, and how wide it is."""
        up = shown.document.links_up(stretch.last_moment)
        title = "before" if stretch.end == shown.at else "while it is down"
        svg = self._drawing.svg(View(stretch.ended, up, title, colour=self._colours.of_boxes()))
        return {"svg": Markup(inline(svg)), "width": width(svg)}

    def _in_words(self, case: Case) -> str:
        """What a fault does, in a sentence for each of down and back."""
        told = []
        for what, line, times in zip(("While it is down", "When it is back"), (case.down, case.back),
                                     case.times or (None, None)):
            choice, clock = line["choice"], line["holdover_clock"]
            stands = "no choice changes" if choice is None else f"the choice is made after {_units(choice)}"
            wait = f"{self._whose(clock)} waits {_units(line['holdover'])}" if clock else "nobody waits"
            cut = f"; {line['cut']} {_are(line['cut'])} cut off" if line["cut"] else ""
            astray = f"; at its end {line['astray']} {_are(line['astray'])} astray" if line["astray"] else ""
            read = f"; what is read is {self._off(times)}" if times else ""
            told.append(f"{what} {stands}, and {wait} for time at most{cut}{astray}{read}.")
        return " ".join(told)

    def _off(self, times: Line) -> str:
        """By how much what is read is off, and jumps."""
        error, step = (f"{_units(times[name])} at most{self._of(times[f'{name}_clock'])}" for name in ("time", "step"))
        return f"off by {error}, and jumps by {step}"

    def _details(self) -> Iterator[dict[str, object]]:
        """What is folded away: all faults, all accuracy lines, and the network at the end of each stretch."""
        if self._told.faults:
            faults = self._told.faults
            yield {"title": f"All {len(faults.cases)} faults", "table": self._faults(faults),
                   "told": f"{self._readable.line(faults.worst.text)}: {faults.verdict.text}"}
            if faults.worst_times:
                yield {"title": f"What is read in all {len(faults.cases)} faults", "table": self._read_in(faults),
                       "told": self._readable.line(faults.worst_times.text)}
        lines = [(stretch, line) for stretch in self._told.stretches for line in stretch.accuracy]
        if lines:
            yield {"title": f"All {len(lines)} bounds of errors", "table": self._accuracy(lines)}
        yield from self._trees()

    def _trees(self) -> Iterator[dict[str, object]]:
        """The tree at the end of each stretch; one that was there before is drawn once."""
        drawn: dict[str, str] = {}
        for stretch in self._joined:
            at, up = f"at {in_seconds(stretch.end)} s", self._document.links_up(stretch.last_moment)
            view = View(stretch.ended, up, "", colour=self._colours.of_boxes())
            before = drawn.setdefault(self._drawing.dot(view), at)
            shown = {"told": f"As {before}."} if before != at else {"picture": Markup(inline(self._drawing.svg(view)))}
            yield {"title": f"The network {at}"} | shown

    def _accuracy(self, lines: Iterable[tuple[Stretch, Line]]) -> Table:
        """The table of bounds of errors."""
        return Table(("after", "system", "greatest error", "bound", "of what is read", "bound", "from"),
                     [[Cell(self._events(stretch), "text"), Cell(self._document.name(line["clock"]), "text"),
                       *(Cell(_units(line[name] if name in line.fields else None))
                         for name in ("error", "bound", "reads", "reads_bound")),
                       Cell(f"{in_seconds(line['from'])}s")]
                      for stretch, line in lines])

    def _faults(self, faults: Faults) -> Table:
        """The cases in the order of the program, two rows each."""
        head = ("case", "what fails", "", "choice", "bound", "longest wait", "greatest error", "without time", "roots",
                "alone", "cut off", "astray", "who is followed")
        rows = []
        for case in faults.cases:
            for line in (case.down, case.back):
                followed = ", ".join(f"{self._root_name(told['root_id'])} by {told['systems']}"
                                     for told in case.followed(line))
                rows.append([Cell(str(case.number)), Cell(self._what(case), "text"), Cell(line.kind, "text"),
                             Cell(_units(line["choice"])), Cell(_units(line["bound"])), *self._measures(line),
                             *(Cell(str(line[word])) for word in ("cut", "astray")), Cell(followed, "text")])
        return Table(head, rows)

    def _read_in(self, faults: Faults) -> Table:
        """What is read in the cases, two rows each."""
        return Table(("case", "what fails", "", *_TIMES),
                     [[Cell(str(case.number)), Cell(self._what(case), "text"), Cell(when, "text"), *self._times(line)]
                      for case in faults.cases for when, line in zip(("down", "back"), case.times)])

    def _what(self, case: Case) -> str:
        """The link or the system that fails."""
        line = case.lines[0]
        if case.failed:
            return f"{self._document.name(case.failed)} {'loses power' if line.kind == 'case power' else 'hangs'}"
        ends = ((line["a_clock"], line["a_port"]), (line["b_clock"], line["b_port"]))
        return f"link {' '.join(self._names.number(clock, port) for clock, port in ends)}"

    def _whose(self, clock: str | None) -> str:
        """What a system is called, where there is one."""
        return "" if clock is None else self._document.name(clock)

    def _of(self, clock: str | None) -> str:
        """A system in brackets, where there is one."""
        return f" ({self._document.name(clock)})" if clock else ""

    def _root(self, root: str) -> str:
        """A root by name, with its priority1."""
        return f"{self._root_name(root)}, priority1 {int(root[:2], 16)}"

    def _root_name(self, root: str) -> str:
        """What the system of an identity is called."""
        return self._document.name(root[12:])


def _are(systems: int) -> str:
    """What one or several are."""
    return "is" if systems == 1 else "are"


def _units(value: int | Decimal | None) -> str:
    """A number of ns with its unit."""
    return _NONE if value is None else in_units(value)


def _picture(svg: bytes | None) -> Markup | None:
    """An SVG file as an element of the page, where there is one."""
    return Markup(inline(svg)) if svg else None


def _fill(colour: str, hatched: bool) -> str:
    """How a root's colour is filled in a legend."""
    return f"repeating-linear-gradient(45deg, {colour} 0 3px, white 3px 5px)" if hatched else colour
