"""Times with units: how they are read, and how they are written."""

import re
from decimal import ROUND_HALF_UP, Decimal
from fractions import Fraction

from .refusal import Refused

_NS = {"ns": 1, "us": 10**3, "ms": 10**6, "s": 10**9}
_TIME = re.compile(r"(\d{1,30}(?:\.\d{1,30})?) ?(ns|us|ms|s)?", re.ASCII)


def nanoseconds(text: str) -> int:
    """The whole number of ns, 0 or more, that a text spells: `62.5 ms`, `1s`, `40`; without a unit it is in ns."""
    found = _TIME.fullmatch(text)
    time = Fraction(found[1]) * _NS[found[2] or "ns"] if found else None
    if time is None or time.denominator != 1:
        raise Refused(f"{text} isn't a time")
    return time.numerator


def in_units(time: int | Decimal) -> str:
    """A time in ns as one word: below 10^3 in ns, else in us, ms or s, with three decimals at most, to the nearest."""
    exact = Decimal(time)
    unit = next((unit for unit, size in _NS.items() if abs(exact) < 1000 * size), "s")
    rounded = (exact / _NS[unit]).quantize(Decimal("0.001"), ROUND_HALF_UP)
    return f"{short(abs(rounded) if rounded == 0 else rounded)}{unit}"


def in_seconds(at: int) -> str:
    """A time of whole ns in s, exactly, without a unit."""
    return short(Decimal(at).scaleb(-9))


def short(number: Decimal) -> str:
    """A number without the zeros at the end of its decimals."""
    text = f"{number:f}"
    return text.rstrip("0").rstrip(".") if "." in text else text
