"""Networks from tables: a row a link, and a row a system (CSV with a header)."""

import csv
import io
import math
import re
from fractions import Fraction
from functools import partial
from typing import Callable, Iterator, Mapping, TypeVar

from .documents import LAST_EVENT, RANGES, TIMES, read_text
from .happenings import CELLS, KINDS, Happening
from .plans import DEFAULT_JITTER, Cable, Node, Plan, clock_of, in_range, links_in_words
from .quantities import in_units, nanoseconds
from .refusal import Refused, told_at

# what light and signals take for a metre, in ns: in fibre 4.9, in twisted pairs 4.8 to 5.6
NS_A_METRE = {"copper": 5, "fibre": 5}

_ENDS = ("a", "a_port", "b", "b_port")
LINK_COLUMNS = (*_ENDS, "min", "max", "jitter", "metres", "medium", "loss")
SYSTEM_COLUMNS = ("name", "clock", "ppm", *RANGES["system"], "continues", "relay", "start")
EVENT_COLUMNS = ("at", "kind", "what", *CELLS)

Row = Mapping[str, str]
T = TypeVar("T")


def read(links: str, systems: str | None, events: str | None, jitter: int | None) -> Plan:
    """The network of a table of links and, where there are ones, of systems and of events.

    The jitter, in ns, is that of links that tell a length or a least delay alone; None is the default, and told.
    """
    cables = _each(links, LINK_COLUMNS, ("a", "b"), partial(cable, jitter=jitter))
    nodes = _each(systems, SYSTEM_COLUMNS, ("name",), node) if systems else []
    rows = _each(events, EVENT_COLUMNS, ("at", "kind", "what"), happening) if events else []
    return Plan(nodes, cables, rows, told_of_jitter(cables))


def told_of_jitter(cables: list[Cable]) -> str:
    """What is said of links whose jitter isn't given; empty where there is none."""
    count = sum(cable.assumed for cable in cables)
    return f"{links_in_words(count)} without jitter: {DEFAULT_JITTER} ns taken (--jitter)" if count else ""


def cable(row: Row, where: str = "", jitter: int | None = None) -> Cable:
    """A link of its columns. The jitter, in ns, is taken where a length or a least delay is given alone."""
    if not row["a"] or not row["b"]:
        raise Refused("a or b is empty")
    keys = {key: _key("link", row, key) for key in RANGES["link"] if row.get(key)}
    if "max" in keys and "min" not in keys:
        raise Refused("of min and max one is empty")
    if row.get("metres"):
        if "min" in keys:
            raise Refused(f"there {'are min and max' if 'max' in keys else 'is min'}, and metres too")
        keys |= _delay(row)
    assumed = False
    if row.get("jitter"):
        if row.get("max"):
            raise Refused("there are max, and jitter too")
        if "min" not in keys:
            raise Refused("there is jitter, and neither metres nor min")
        keys["max"] = keys.get("max", keys["min"]) + nanoseconds(row["jitter"])
    elif "min" in keys and not row.get("max"):
        assumed = jitter is None
        keys["max"] = keys.get("max", keys["min"]) + (DEFAULT_JITTER if jitter is None else jitter)
    if "max" in keys:
        in_range("link", "max", keys["max"])
    return Cable(row["a"], row["b"], row.get("a_port", ""), row.get("b_port", ""), keys, assumed, where)


def node(row: Row, where: str = "") -> Node:
    """A system of its columns."""
    if not row["name"]:
        raise Refused("name is empty")
    clock = None
    if row.get("clock"):
        clock = clock_of(row["clock"])
        if clock is None:
            raise Refused(f"clock {row['clock']} isn't sixteen hexadecimal digits, nor a MAC address")
    keys = {key: _key("system", row, key) for key in RANGES["system"] if row.get(key)}
    if row.get("ppm"):
        if "drift" in keys:
            raise Refused("there is drift, and ppm too")
        keys["drift"] = in_range("system", "drift", _drift(row))
    start = _moment(row, "start") if row.get("start") else None
    return Node(row["name"], keys, clock, start, _says(row, "relay", "yes"), _says(row, "continues", "no"), where=where)


def happening(row: Row, where: str = "") -> Happening:
    """An event of its columns."""
    for name in ("at", "kind", "what"):
        if not row[name]:
            raise Refused(f"{name} is empty")
    kind = row["kind"]
    if kind not in KINDS:
        raise Refused(f"kind {kind} isn't one of {', '.join(KINDS)}")
    given = [name for name in CELLS if row.get(name)]
    for name in given:
        if name not in KINDS[kind]:
            raise Refused(f"{kind} takes no {name}")
    if kind in ("link_set", "priority1") and not given:
        raise Refused(f"{kind} has no {' or '.join(KINDS[kind])}")
    if "max" in given and "jitter" in given:
        raise Refused("there are max, and jitter too")
    return Happening(_moment(row, "at"), kind, row["what"], {name: _cell(row, name) for name in given}, where)


def _cell(row: Row, name: str) -> int:
    """A cell of an event that is a number."""
    if name == "value":
        return in_range("system", "priority1", _whole(row, name), name)
    if name in RANGES["link"]:
        return _key("link", row, name)
    time = nanoseconds(row[name])
    if name == "detect" and time == 0:
        raise Refused("detect 0 isn't 1 or more")
    return time


def _moment(row: Row, name: str) -> int:
    """A time of an event, in ns."""
    at = nanoseconds(row[name])
    if at > LAST_EVENT:
        raise Refused(f"{name} {row[name]} isn't 0 to {in_units(LAST_EVENT)}")
    return at


def _says(row: Row, name: str, default: str) -> bool:
    """Whether a column says yes."""
    word = row.get(name) or default
    if word not in ("yes", "no"):
        raise Refused(f"{name} {word} isn't yes or no")
    return word == "yes"


def _delay(row: Row) -> dict[str, int]:
    """What a cable of so many metres takes, in ns, rounded down and up."""
    medium = row.get("medium") or "copper"
    if medium not in NS_A_METRE:
        raise Refused(f"medium {medium} isn't {' or '.join(NS_A_METRE)}")
    delay = _decimal(row, "metres") * NS_A_METRE[medium]
    return {"min": in_range("link", "min", max(1, math.floor(delay))), "max": in_range("link", "max", math.ceil(delay))}


def _key(section: str, row: Row, key: str) -> int:
    """The value of a key of a section of whole numbers; times may have units."""
    return in_range(section, key, nanoseconds(row[key]) if key in TIMES else _whole(row, key))


def _drift(row: Row) -> int:
    """Parts per million in units of 2^-41, toward 0: 20 are 43980465, and 100 the greatest drift."""
    return int(_decimal(row, "ppm") * 2**41 / 10**6)


def _whole(row: Row, key: str) -> int:
    """A cell that is a whole number."""
    if not re.fullmatch(r"[-+]?[0-9]{1,30}", row[key]):
        raise Refused(f"{key} {row[key]} isn't a whole number")
    return int(row[key])


def _decimal(row: Row, key: str) -> Fraction:
    """A cell that is a decimal number, exactly."""
    if not re.fullmatch(r"[-+]?(?:[0-9]{1,30}(?:\.[0-9]{0,30})?|\.[0-9]{1,30})", row[key]):
        raise Refused(f"{key} {row[key]} isn't a number")
    return Fraction(row[key])


def _each(path: str, columns: tuple[str, ...], required: tuple[str, ...], member: Callable[[Row, str], T]) -> list[T]:
    """The members of a table, each of its row and its place; what is refused is reported with that."""
    members = []
    for number, row in _rows(path, columns, required):
        where = f"{path}: line {number}"
        with told_at(where):
            members.append(member(row, where))
    return members


def _rows(path: str, columns: tuple[str, ...], required: tuple[str, ...]) -> Iterator[tuple[int, Row]]:
    """The rows of a table by column, with their lines. Columns that begin with # are passed over, and empty rows.

    Cells are parted by commas, semicolons or tabs: what the first line has most of.
    """
    text = read_text(path)
    head = text.partition("\n")[0]
    reader = csv.DictReader(io.StringIO(text, newline=""), delimiter=max(",;\t", key=head.count), strict=True)
    try:
        found = [(name or "").strip() for name in reader.fieldnames or []]
        _columns(path, found, columns, required)
        reader.fieldnames = found
        for row in reader:
            if None in row or None in row.values():
                raise Refused(f"{path}: line {reader.line_num}: there aren't {len(found)} columns")
            if any(word.strip() for word in row.values()):
                yield reader.line_num, {name: word.strip() for name, word in row.items()}
    except csv.Error as why:
        raise Refused(f"{path}: line {reader.line_num}: {why}") from why


def _columns(path: str, found: list[str], columns: tuple[str, ...], required: tuple[str, ...]) -> None:
    """Refuses a head that lacks a column, or has one that isn't known."""
    for name in required:
        if name not in found:
            raise Refused(f"{path}: line 1: there is no column `{name}`")
    for place, name in enumerate(found):
        if name in columns and name in found[:place]:
            raise Refused(f"{path}: line 1: the column `{name}` is there twice")
        if name not in columns and not name.startswith("#"):
            raise Refused(f"{path}: line 1: the column `{name}` isn't one of {', '.join(columns)}")
