"""Arguments of the command line: what each spells, and how one that spells nothing is refused."""

import argparse
import re
from typing import Callable

from .documents import RANGES, TIMES
from .plans import in_range
from .quantities import in_units, nanoseconds
from .refusal import Refused


def time(least: int, most: int) -> Callable[[str], int]:
    """A time of a range in ns: `20 s`, `62.5ms`, `40`."""

    def read(text: str) -> int:
        """The time in ns that an argument spells."""
        at = _nanoseconds(text)
        if not least <= at <= most:
            raise argparse.ArgumentTypeError(f"'{text}' isn't {in_units(least)} to {in_units(most)}")
        return at

    return read


def _nanoseconds(text: str) -> int:
    """A time in ns; one that is none is an error of usage."""
    try:
        return nanoseconds(text)
    except Refused as why:
        raise argparse.ArgumentTypeError(str(why)) from why


def whole(least: int, most: int) -> Callable[[str], int]:
    """A whole number of a range."""

    def read(text: str) -> int:
        """The number that an argument spells."""
        if not re.fullmatch(r"[0-9]+", text) or not least <= int(text) <= most:
            raise argparse.ArgumentTypeError(f"'{text}' isn't a whole number of {least} to {most}")
        return int(text)

    return read


def delay(text: str) -> tuple[int, int]:
    """MIN-MAX, two times, or one for both; in ns."""
    least, _, most = text.partition("-")
    try:
        bounds = nanoseconds(least), nanoseconds(most or least)
    except Refused:
        bounds = 0, 0
    if not 1 <= bounds[0] <= bounds[1] <= RANGES["link"]["max"][1]:
        raise argparse.ArgumentTypeError(f"'{text}' isn't MIN-MAX in ns, such as 100-110")
    return bounds


def setting(text: str) -> tuple[str, str, int]:
    """KEY=VALUE of [network], or system.KEY=VALUE, link.KEY=VALUE of each system, each link; times may have units."""
    name, _, value = text.partition("=")
    section, _, key = name.rpartition(".")
    section = section or "network"
    if key not in RANGES.get(section, {}) or not (key in TIMES or re.fullmatch(r"-?[0-9]+", value)):
        raise argparse.ArgumentTypeError(f"'{text}' isn't KEY=VALUE, with a key of docs/FORMATS.md and a whole number")
    try:
        return section, key, in_range(section, key, nanoseconds(value) if key in TIMES else int(value))
    except Refused as why:
        raise argparse.ArgumentTypeError(str(why)) from why


FAULTS_KINDS = ("links", "systems", "power")


def kind(text: str) -> str:
    """Which kind of single faults."""
    if text not in FAULTS_KINDS:
        raise argparse.ArgumentTypeError(f"'{text}' isn't one of {', '.join(FAULTS_KINDS)}")
    return text


_LONGEST = 10**15  # ns
# the options of `faults` that a part takes as the whole does
FAULTS_OPTIONS: dict[str, Callable[[str], int | str]] = {
    "--seeds": whole(1, 1000),
    "--moments": whole(1, 1000),
    "--at": time(0, _LONGEST),
    "--hold": time(1, _LONGEST),
    "--only": kind,
    "--detect": time(1, _LONGEST),
    "--max-choice": time(0, _LONGEST),
    "--max-holdover": time(0, _LONGEST),
    "--max-error": time(0, _LONGEST),
    "--max-without": whole(0, _LONGEST),
    "--max-roots": whole(0, _LONGEST),
    "--max-alone": whole(0, _LONGEST),
    "--max-cut": whole(0, _LONGEST),
    "--max-astray": whole(0, _LONGEST),
    "--max-bound": time(0, _LONGEST),
    "--max-time": time(0, _LONGEST),
    "--max-apart": time(0, _LONGEST),
    "--max-step": time(0, _LONGEST),
    "--max-first": time(0, _LONGEST),
}
# and those that take no value
FAULTS_FLAGS = ("--power", "--times")
