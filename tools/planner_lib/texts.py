"""The lines that the commands of gptp_sim write, and how one is read.

A template is the line as docs/FORMATS.md spells it: words in capitals are fields, and those in brackets may be absent.
"""

import re
from dataclasses import dataclass
from decimal import Decimal
from typing import Any, Iterable, Iterator

from .refusal import Refused

Value = str | int | Decimal | bool | None | list[str]

_COUNTS = "without WITHOUT roots ROOTS alone ALONE"
_BOUNDS = "bound BOUND ROLES_BOUND"
_CUT = "[ cut CUT astray ASTRAY]"
_MEASURES = f"holdover HOLDOVER HOLDOVER_CLOCK error ERROR ERROR_CLOCK {_COUNTS}"
_LINK = "A_CLOCK A_PORT B_CLOCK B_PORT"
_SHOWN = "root ROOT_ID steps STEPS gm GM slave SLAVE offset OFFSET"
_BY = "[ by FIELD FIRST SECOND]"
_TIMES = "time TIME TIME_CLOCK apart APART APART_CLOCK BEHIND_CLOCK step STEP STEP_CLOCK first FIRST FIRST_CLOCK"

_TEMPLATES = (
    # run
    ("frame", "frame AT CLOCK PORT TYPE ANSWER HEX"),
    ("time", "time AT"),
    ("change", "change AT calm CALM[ settle SETTLE]"),
    ("system", f"system CLOCK {_SHOWN}"),
    ("system failed", "system CLOCK failed"),
    ("port", "port CLOCK PORT ROLE capable CAPABLE delay DELAY"),
    # certificates, check and compare
    ("certificate", "gptp-certificate VERSION"),
    ("choice", "system CLOCK root ROOT_ID steps STEPS parent OWN_PORT[ PARENT_CLOCK PARENT_PORT]"),
    ("choice far", "system CLOCK far STEPS root ROOT_ID"),
    ("role", "port CLOCK PORT ROLE"),
    ("end", "end"),
    ("accepted", "accepted"),
    ("not accepted", "not accepted NUMBER NAME"),
    ("certificate refused", "certificate refused NUMBER NAME"),
    ("where system", "at system CLOCK"),
    ("where link", f"at link {_LINK}"),
    ("where port", "at port CLOCK PORT"),
    ("where line", "at line LINE"),
    ("first", "first ID"),
    ("second", "second ID"),
    ("equal", "equal ID"),
    # timeline
    ("event", "event AT KIND WORDS"),
    ("at system", f"at AT system CLOCK {_SHOWN}"),
    ("at system failed", "at AT system CLOCK failed"),
    ("at port", "at AT port CLOCK PORT ROLE capable CAPABLE"),
    ("offset", "offset AT CLOCK OFFSET error ERROR"),
    ("reading", "reading AT CLOCK from SOURCE_CLOCK before BEFORE after AFTER step STEP"),
    ("after", f"after FROM to TO choice CHOICE roles ROLES offsets OFFSETS {_MEASURES} {_BOUNDS}"),
    ("times", f"times FROM to TO {_TIMES}"),
    ("accuracy", "accuracy CLOCK error ERROR bound BOUND from FROM[ reads READS bound READS_BOUND]"),
    ("within", "within"),
    ("exceeded", "exceeded WORD"),
    # faults
    ("cases", "cases CASES moments MOMENTS seeds SEEDS from FROM"),
    ("case link", f"case CASE link {_LINK}"),
    ("case system", "case CASE system CLOCK"),
    ("case power", "case CASE power CLOCK"),
    ("down", f"down choice CHOICE {_MEASURES}{_CUT} {_BOUNDS}"),
    ("back", f"back choice CHOICE {_MEASURES}{_CUT} {_BOUNDS}"),
    ("down_times", f"down_times {_TIMES}"),
    ("back_times", f"back_times {_TIMES}"),
    ("follow", "follow ROOT_ID SYSTEMS"),
    ("worst", f"worst choice CHOICE holdover HOLDOVER error ERROR {_COUNTS}{_CUT} {_BOUNDS}"),
    ("worst_times", "worst_times time TIME apart APART step STEP first FIRST"),
    # lint
    ("unknown", "unknown PLACE key KEY[ near NEAR]"),
    ("long", "long link LINK line LINE max MAX needs NEEDS threshold THRESHOLD at AT"),
    ("lossy", "lossy link LINK line LINE loss LOSS from FROM to TO"),
    ("late", "late AT needs NEEDS limit LIMIT"),
    ("unlinked", "unlinked CLOCK"),
    ("apart", "apart AT components COMPONENTS"),
    ("chance", "chance FIRST_ID SECOND_ID"),
    ("nobody", "nobody AT ID"),
    ("calm", "calm AT CALM[ bound BOUND]"),
    # explain
    ("system own", f"system CLOCK own OWN_ID root ROOT_ID steps STEPS{_BY}"),
    ("system own far", f"system CLOCK own OWN_ID root ROOT_ID far STEPS{_BY}"),
    ("path", "path WORDS"),
    ("port slave", "port CLOCK PORT slave to PEER_CLOCK PEER_PORT offers OFFERS"),
    ("port passive", "port CLOCK PORT passive to PEER_CLOCK PEER_PORT offers OFFERS loses FIELD FIRST SECOND"),
    ("port master", "port CLOCK PORT master to PEER_CLOCK PEER_PORT wins FIELD FIRST SECOND"),
    ("port unlinked", "port CLOCK PORT disabled unlinked"),
    ("port disabled", "port CLOCK PORT disabled to PEER_CLOCK PEER_PORT WHY"),
    ("rank", f"rank RANK ID{_BY}[ NEVER]"),
    # accuracy
    ("time", "time AT calm CALM[ from FROM][ age AGE]"),
    ("system bound", "system CLOCK root ROOT_ID steps STEPS error ERROR[ reads READS][ always ALWAYS]"),
    ("system bound far", "system CLOCK root ROOT_ID far STEPS error ERROR[ reads READS][ always ALWAYS]"),
    # refusals, of which the last is one of compare
    ("refused", "refused NUMBER NAME[ WORDS]"),
    ("refused line", "refused WORDS"),
)

_SHAPES = {
    "PLACE": r"top|network|(?:system|link|event) \d+(?: line \d+)?",
    "WORDS": r".+",
    "NUMBER": r"\d+",
    "ROLE": r"disabled|master|slave|passive",
    "NEVER": r"never",
}
_TEXTS = re.compile(r"(?:^|_)(?:clock|id|hex|key|near)$")
_COMPARED = ("first", "second")  # of lines that name a field: its two values, as texts
_CONSTANTS: dict[str, Value] = {"none": None, "yes": True, "no": False}


@dataclass(frozen=True)
class Line:
    """A line that was read: its kind, its fields, and the line as it was."""

    kind: str
    fields: dict[str, Value]
    text: str

    def __getitem__(self, name: str) -> Any:
        """A field, of the type that its template gives it."""
        return self.fields[name]


def _group(field: re.Match[str]) -> str:
    """The group of a field."""
    return f"(?P<{field[0].lower()}>{_SHAPES.get(field[0], '[^ ]+')})"


def _pattern(template: str) -> re.Pattern[str]:
    """The lines that a template makes."""
    optional = re.sub(r"\[(.*?)\]", r"(?:\1)?", template)
    return re.compile(re.sub(r"[A-Z][A-Z_]*", _group, optional))


def _by_first_word() -> dict[str, list[tuple[str, re.Pattern[str]]]]:
    """The patterns that may fit, by the first word of a line."""
    table: dict[str, list[tuple[str, re.Pattern[str]]]] = {}
    for kind, template in _TEMPLATES:
        table.setdefault(re.split(r"[ \[]", template)[0], []).append((kind, _pattern(template)))
    return table


_PATTERNS = _by_first_word()


def _value(name: str, word: str, is_text: bool) -> Value:
    """What a field holds: a number, a truth value, nothing, words, or text."""
    if name == "words":
        return word.split(" ")
    if is_text:
        return None if word == "none" else word
    if re.fullmatch(r"-?\d+", word):
        return int(word)
    if re.fullmatch(r"-?\d+\.\d+", word):
        return Decimal(word)
    return _CONSTANTS.get(word, word)


def read_line(text: str) -> Line | None:
    """The line that a text is, or None where it is none."""
    for kind, pattern in _PATTERNS.get(text.partition(" ")[0], []):
        if found := pattern.fullmatch(text):
            words = {name: word for name, word in found.groupdict().items() if word}
            texts = {name for name in words if _TEXTS.search(name) or name in _COMPARED and "field" in words}
            return Line(kind, {name: _value(name, word, name in texts) for name, word in words.items()}, text)
    return None


@dataclass(frozen=True)
class Span:
    """A field of a line: the name that the template gives it, and where it begins and ends."""

    name: str
    begin: int
    end: int


def spans(text: str) -> list[Span]:
    """The fields of a line in their order; none where it is no line of a command."""
    for _, pattern in _PATTERNS.get(text.partition(" ")[0], []):
        if found := pattern.fullmatch(text):
            return [Span(name, *found.span(name)) for name, word in found.groupdict().items() if word]
    return []


def read_lines(lines: Iterable[str], source: str) -> Iterator[Line]:
    """Each line read; the first that is none is refused."""
    for number, text in enumerate(lines, 1):
        line = read_line(text)
        if line is None:
            raise Refused(f"{source}: line {number}: no line of a command: {text[:60]}")
        yield line
