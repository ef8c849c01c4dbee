"""Whether a document keeps what is required of it: a file of requirements, and what the program says."""

from dataclasses import dataclass
from decimal import Decimal
from typing import Any, Callable, Iterable, Iterator, Sequence

from . import faults, snapshots
from .documents import Document, Event
from .faults import Case, Faults
from .naming import Names
from .quantities import in_seconds, in_units
from .requirements import ANSWERED, Requirements
from .texts import Line

_AT = 60 * 10**9  # ns: by then timers that start in step have drifted apart
# the keys that limit a word of the program's lines
_LIMITED = {"settle": "choice", "after_fault": "holdover", "bound": "bound", "time": "time", "apart": "apart",
            "step": "step"}
_AT_ANY_MOMENT = ("time", "apart", "step")
_DOWN = "down"  # what is got of `first` where somebody has failed

Ask = Callable[..., list[Line]]
Value = int | Decimal | None


@dataclass(frozen=True)
class Verdict:
    """Of one requirement: whether it is met, what was got and required, and whose and where that was."""

    key: str
    met: bool
    got: str
    asked: str
    where: str
    who: str = ""

    @property
    def text(self) -> str:
        """The verdict as a line."""
        told = [self.who, _DOWN] if self.got == _DOWN else [self.got, "of", self.asked, self.who]
        words = ["met" if self.met else "broken", self.key, *told, self.where]
        return " ".join(word for word in words if word)


@dataclass(frozen=True)
class Judgement:
    """All verdicts, and the faults that were tried, where any were, and in ns the required error, and `detect`."""

    lines: Sequence[Verdict]
    faults: Faults | None = None
    asked_error: Decimal | None = None
    detect: int | None = None

    @property
    def kept(self) -> bool:
        """Whether all requirements are met."""
        return all(line.met for line in self.lines)

    @property
    def last_line(self) -> str:
        """The line after all verdicts."""
        broken = sum(not line.met for line in self.lines)
        return f"broken {broken} of {len(self.lines)}" if broken else "kept"

    def text(self) -> str:
        """The lines of the judgement."""
        return "".join(f"{line}\n" for line in [*(verdict.text for verdict in self.lines), self.last_line])


class _Judge:
    """The program's words against what is required."""

    def __init__(self, document: Document, asked: dict[str, Any]) -> None:
        self._document = document
        self._names = Names(document)
        self._end = snapshots.Snapshot(document)
        self._asked = asked
        self._last = max((event.at for event in document.events), default=0)

    def judge(self, ask: Ask, jobs: int) -> Judgement:
        """Makes the calls, each once, and compares."""
        limits = [word for key, limited in _LIMITED.items() if key in self._asked
                  for word in (f"--max-{limited}", str(self._asked[key]))]
        times = ["--times"] if self._asked.keys() & {*_AT_ANY_MOMENT} else []
        self._timeline = ask("timeline", "--summary", *(["--times"] if "first" in self._asked else times), *limits)
        self._choice = ask("choice")
        error = self._asked.get("accuracy")
        self._exact = [] if error is None else ask("accuracy", "--always", "--max-error", str(error))
        self._faults = self._tried(ask, jobs, [*times, *limits]) if self._asked["kept_by"] else None
        lines = []
        for key in ANSWERED:
            if self._asked.get(key) if key == "shared" else key in self._asked:
                lines.append(self._worst(key) if key in _LIMITED else getattr(self, f"_{key}")())
        error = self._asked.get("time") if error is None else error
        return Judgement(lines, self._faults, None if error is None else Decimal(error), self._asked.get("detect"))

    def _tried(self, ask: Ask, jobs: int, options: list[str]) -> Faults:
        """What `faults` says, so many parts at a time."""
        kinds = self._asked["kept_by"]
        others = sorted({*kinds} - {"power"})
        words = ["faults", "--at", str(self._last + self._asked.get("at", _AT)), *options]
        words += ["--max-cut", str(self._asked["cut"])] if "cut" in self._asked else []
        words += ["--max-astray", "0"] if self._asked["shared"] else []
        words += [word for key in ("detect", "moments", "seeds", "hold") if key in self._asked
                  for word in (f"--{key}", str(self._asked[key]))]
        words += ["--power"] if "power" in kinds and others else []
        words += ["--only", *(others or ["power"])] if len(others) < 2 else []
        return faults.in_parts(ask, words, jobs)

    def _since(self, key: str) -> int:
        """From which time on, in ns, a stretch has to begin for a key to be asked of it.

        All have to have time by `first`, 0 where it isn't there: what is read counts from the stretch of that time on,
        and so does who has time. A wait for time or for the choice counts from the next event on. A proved bound counts
        from the first event on.
        """
        if key == "bound":
            return min((event.at for event in self._document.events), default=1)
        first = int(self._asked.get("first", 0))
        if key in ("settle", "after_fault"):
            return first + 1
        return max(int(line["from"]) for line in self._timeline if line.kind == "after" and line["from"] <= first)

    def _where(self, line: Line) -> str:
        """Where a stretch is: the start, or its events."""
        told = ", ".join(self._event(event) for event in self._document.events if event.at == line["from"])
        return f"after {in_seconds(line['from'])}s {told}" if line["from"] else "start"

    def _cases(self) -> Iterable[Case]:
        """The single faults that were tried."""
        return self._faults.cases if self._faults else ()

    def _worst(self, key: str) -> Verdict:
        """The greatest of what a key limits, in ns, of equals the first: the document's own stretches come first."""
        word, limit = _LIMITED[key], self._asked[key]
        stretches = [line for line in self._timeline if line.kind == ("times" if key in _AT_ANY_MOMENT else "after")]
        lines = [(line, self._where(line)) for line in stretches if line["from"] >= self._since(key)]
        lines += [(line, self._fault(case)) for case in self._cases()
                  for line in (case.times if key in _AT_ANY_MOMENT else (case.down, case.back))]
        line, where = max(lines, key=lambda it: faults.size(it[0], word), default=(None, "always"))
        value = None if line is None else faults.measure(line, word)
        passed_over = [faults.size(line, word) for line in stretches if line["from"] < self._since(key)]
        above = line is not None and faults.size(line, word) > limit
        met = not above and not self._exceeded(word, limit, value, passed_over)
        if line is None or value is None:
            return Verdict(key, met, "none", in_units(limit), where if above else "always")
        clocks = [line.fields.get(f"{word}_clock"), line.fields.get("behind_clock") if word == "apart" else None]
        return Verdict(key, met, in_units(value), in_units(limit), where,
                       ",".join(self._name(clock) for clock in clocks if isinstance(clock, str)))

    def _exceeded(self, word: str, limit: int, value: Value, passed_over: Sequence[int | Decimal]) -> bool:
        """Whether the program itself says that a limit in ns is exceeded, or may have left that unsaid.

        It asks a limit also of stretches that are passed over here. Where one of those may be above it the verdict says
        nothing of the others, and their lines decide. Of a value with decimals that is the limit they don't tell.
        """
        told: list[bool | None] = [_says(self._timeline[-1], word)]
        if told[0] and any(limit < size or limit == size and isinstance(size, Decimal) for size in passed_over):
            told[0] = None
        if self._faults:
            told.append(_says(self._faults.verdict, word))
        return True in told or None in told and isinstance(value, Decimal) and value == limit

    def _first(self) -> Verdict:
        """When all have time after power-up: by the stretch in which they have to have it."""
        limit = self._asked["first"]
        live, told = snapshots.Snapshot(self._document, limit).live, in_units(limit)
        down = next((system.clock for system in self._document.systems if system.clock not in live), None)
        if down is not None:
            return Verdict("first", False, _DOWN, told, f"at {told}", self._name(down))
        begun = [line for line in self._timeline if line.fields.get("from") == self._since("first")]
        after, times = (next(line for line in begun if line.kind == kind) for kind in ("after", "times"))
        if after["without"] > 0:
            return Verdict("first", False, "none", told, self._where(after))
        at, clock = times["from"] + (times["first"] or 0), times["first_clock"]
        return Verdict("first", at <= limit, in_units(at), told, self._where(after), self._name(clock) if clock else "")

    def _shared(self) -> Verdict:
        """Everybody who isn't cut off has time from one root, component by component."""
        broken = next((found for found in self._unshared() if found[0] > 0), None)
        count, where = broken or (0, "always")
        return Verdict("shared", broken is None, f"{count} astray", "0", where)

    def _unshared(self) -> Iterator[tuple[int, str]]:
        """How many systems are astray where each single fault ends, and at least how many where each stretch does."""
        for line in self._timeline:
            if line.kind == "after" and line["from"] >= self._since("shared"):
                components = len(snapshots.Snapshot(self._document, line["from"]).components)
                yield max(line["without"], line["roots"] + line["alone"] - components), self._where(line)
        for case in self._cases():
            yield max(case.down["astray"], case.back["astray"]), self._fault(case)

    def _cut(self) -> Verdict:
        """How many systems a fault cuts off at most."""
        cuts = ((int(case.down["cut"]), self._fault(case)) for case in self._cases())
        count, where = max([(0, "always"), *cuts], key=lambda it: it[0])
        return Verdict("cut", count <= self._asked["cut"], str(count), str(self._asked["cut"]), where)

    def _grandmaster(self) -> Verdict:
        """Who leads: the first of the list that lives."""
        leaders = self._asked["grandmaster"]
        broken = next((found for found in self._led() if found[0] != found[1]), None)
        name = self._name
        asked = ",".join(name(clock) for clock in leaders)
        if broken is None:
            return Verdict("grandmaster", True, name(leaders[0]), asked, "always")
        return Verdict("grandmaster", False, name(broken[0]) if broken[0] else "none", asked, broken[2])

    def _led(self) -> Iterator[tuple[str | None, str | None, str]]:
        """Who leads, who ought to, and where: in the end, in each down, and in each back that says who is followed.

        Where none of the list is live nobody ought to.
        """
        leaders = [clock for clock in self._asked["grandmaster"] if clock in self._end.live]
        first = next(iter(leaders), None)
        root = next((line["root_id"][12:] for line in self._choice
                     if line.kind == "choice" and line["clock"] == self._asked["grandmaster"][0]), None)
        yield root, self._asked["grandmaster"][0], "always"
        for case in self._cases():
            second = next((clock for clock in leaders if clock != case.failed), None)
            for line, wanted in ((case.down, second), (case.back, first)):
                followed = case.followed(line)
                if wanted is not None and (followed or line is case.down):
                    most = max(followed, key=lambda told: int(told["systems"]), default=None)
                    yield most["root_id"][12:] if most else None, wanted, self._fault(case)

    def _accuracy(self) -> Verdict:
        """By how much what a system reads may be off, in ns, once all have settled: the program decides."""
        within = self._exact[-1].kind == "within"
        systems = [line for line in self._exact if line.kind in ("system bound", "system bound far")]
        unknown = next((line for line in systems if line["always"] is None), None)
        worst = unknown or (max(systems, key=lambda line: Decimal(line["always"])) if systems else None)
        got = "none" if worst is None or worst["always"] is None else in_units(worst["always"])
        return Verdict("accuracy", within, got, in_units(self._asked["accuracy"]), "always",
                       self._name(worst["clock"]) if worst else "")

    def _fault(self, case: Case) -> str:
        """Where a fault is."""
        line = case.lines[0]
        if case.failed:
            return f"fault {line.kind.removeprefix('case ')} {self._name(case.failed)}"
        return f"fault link {self._port(line['a_clock'], line['a_port'])} {self._port(line['b_clock'], line['b_port'])}"

    def _event(self, event: Event) -> str:
        """An event in words."""
        what = self._name(event.clock) if event.port is None else self._port(event.clock, event.port)
        return f"{event.kind} {what}"

    def _name(self, clock: str) -> str:
        """What a system is called, as one word."""
        return self._document.name(clock).replace(" ", "_")

    def _port(self, clock: str, number: int) -> str:
        """What a port is called, as one word."""
        return self._names.number(clock, number).replace(" ", "_")


def judge(path: str, document: Document, ask: Ask, jobs: int) -> Judgement:
    """What the program says against the requirements of a file; `ask` gives the lines of a call of the program."""
    return _Judge(document, Requirements(path, document).asked).judge(ask, jobs)


def _says(verdict: Line, word: str) -> bool | None:
    """Whether a verdict says that the limit of a word is exceeded; None where it names an earlier word alone."""
    if verdict.kind != "exceeded":
        return False
    named, asked = faults.VERDICTS.index(verdict["word"]), faults.VERDICTS.index(word)
    return None if named < asked else named == asked
