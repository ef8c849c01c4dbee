"""What is required of a plan: a table `[require]` in TOML."""

import re
from typing import Any

from . import snapshots
from .documents import Document, read_text, read_toml
from .naming import Names, nearest
from .options import FAULTS_KINDS
from .quantities import in_units, nanoseconds
from .refusal import Refused

# the keys in the order in which they are answered
ANSWERED = ("first", "time", "apart", "step", "after_fault", "settle", "shared", "cut", "grandmaster", "accuracy",
            "bound")
_HOW = ("kept_by", "detect", "moments", "seeds", "hold", "at")
_TIMES = {  # with the least of each, in ns
    "first": 0, "time": 0, "apart": 0, "step": 0, "after_fault": 0, "settle": 0, "accuracy": 0, "bound": 0, "detect": 1,
    "hold": 1, "at": 0,
}
_LONGEST = 10**15  # ns
_COUNTS = {"cut": (0, 10**15), "moments": (1, 1000), "seeds": (1, 1000)}


class Requirements:
    """What a file requires: times in ns, numbers, and who is to lead, by clock, in order."""

    def __init__(self, path: str, document: Document) -> None:
        self._path = path
        self._text = read_text(path)
        top = read_toml(self._text, path)
        for name in top:
            if name != "require":
                raise self._at(name, f"{name} isn't the table [require]")
        table = top.get("require")
        if not isinstance(table, dict):
            raise Refused(f"{path}: line 1: there is no table [require]")
        self.asked: dict[str, Any] = {"kept_by": list(FAULTS_KINDS), "shared": True}
        self.asked |= {key: self._read(key, value, document) for key, value in table.items()}

    def _at(self, key: str, why: str) -> Refused:
        """A refusal at the line of a key."""
        lines = self._text.splitlines()
        here = rf"""\s*\[?\s*["']?{re.escape(key)}["']?\s*[=\]]"""
        line = next((number for number, line in enumerate(lines, 1) if re.match(here, line)), 1)
        return Refused(f"{self._path}: line {line}: {why}")

    def _read(self, key: str, value: object, document: Document) -> object:
        """The value of a key."""
        if key not in (*ANSWERED, *_HOW):
            near = nearest(key, (*ANSWERED, *_HOW))
            raise self._at(key, f"no key {key}" + (f": {near} is near" if near else ""))
        try:
            if key in _TIMES and isinstance(value, str | int) and not isinstance(value, bool):
                return self._time(key, str(value))
            if key in _COUNTS and isinstance(value, int) and not isinstance(value, bool):
                return self._count(key, value)
            if key == "shared" and isinstance(value, bool):
                return value
            if key in ("grandmaster", "kept_by") and isinstance(value, list) and all(
                    isinstance(word, str) for word in value):
                return self._leaders(value, document) if key == "grandmaster" else self._kept_by(value)
        except Refused as why:
            raise self._at(key, str(why)) from why
        kind = ("a time" if key in _TIMES else "a whole number" if key in _COUNTS
                else "true or false" if key == "shared" else "a list of texts")
        raise self._at(key, f"{key} isn't {kind}")

    @staticmethod
    def _time(key: str, value: str) -> int:
        """A time in ns of the range of its key."""
        time = nanoseconds(value)
        if not _TIMES[key] <= time <= _LONGEST:
            raise Refused(f"{key} {value} isn't {in_units(_TIMES[key])} to {in_units(_LONGEST)}")
        return time

    @staticmethod
    def _count(key: str, value: int) -> int:
        """A number of the range of its key."""
        least, most = _COUNTS[key]
        if not least <= value <= most:
            raise Refused(f"{key} {value} isn't {least} to {most}")
        return value

    @staticmethod
    def _leaders(names: list[str], document: Document) -> list[str]:
        """The clocks of those who are to lead."""
        known, identity = Names(document), snapshots.Snapshot(document).identity
        clocks = [known.clock(name) for name in names]
        for name, clock in zip(names, clocks):
            if identity[clock][0] == snapshots.NEVER:
                raise Refused(f"{name} can't be grandmaster: its priority1 is 255")
        if not clocks:
            raise Refused("grandmaster is empty")
        return clocks

    @staticmethod
    def _kept_by(kinds: list[str]) -> list[str]:
        """The kinds of single faults that are tried."""
        for kind in kinds:
            if kind not in FAULTS_KINDS:
                raise Refused(f"kept_by {kind} isn't one of {', '.join(FAULTS_KINDS)}")
        return kinds
