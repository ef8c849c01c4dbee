"""How a call ends that can't be done."""

from contextlib import contextmanager
from typing import Iterator


class Refused(Exception):
    """An input is refused; the text is the one line that says why."""


class NotBuilt(Exception):
    """The program isn't built; the text says what to do."""

    def __init__(self) -> None:
        super().__init__("not built: run ./gptp_sim --prove once, or set GPTP_SIM")


class MissingPackage(Exception):
    """A program that draws isn't there; the text names the Debian package that has it."""


@contextmanager
def told_at(place: str) -> Iterator[None]:
    """What is refused within is reported with its place; an empty one isn't."""
    try:
        yield
    except Refused as why:
        raise Refused(f"{place}: {why}" if place else str(why)) from why
