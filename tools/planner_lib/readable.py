"""Lines of the program with names in place of clocks and identities, and times with units."""

import re
from decimal import Decimal
from typing import Iterator

from .documents import Document
from .naming import Names
from .quantities import in_seconds, in_units
from .texts import Span, spans

_DIGITS = re.compile(r"(?<!\S)(?:[0-9a-f]{12})?[0-9a-f]{16}(?!\S)")
_NUMBER = re.compile(r"-?\d+(?:\.\d+)?", re.ASCII)
_PORTS = ("port", "a_port", "b_port", "peer_port", "own_port", "parent_port")
_MOMENTS = ("at", "from", "to")
# the words that a number of ns comes after
_BEFORE = frozenset((
    "choice", "roles", "offsets", "holdover", "error", "bound", "first", "time", "apart", "step", "reads", "age",
    "always", "settle", "max", "needs", "limit", "threshold",
))


class Readable:
    """Makes lines of the program readable by a document's names; what isn't the program's passes through."""

    def __init__(self, document: Document, units: bool) -> None:
        self._document = document
        self._names = Names(document)
        self._units = units

    def line(self, text: str) -> str:
        """A line, without its end, with names, and with units where they are wanted."""
        edits = {found.span(): self._named(found[0]) for found in _DIGITS.finditer(text)}
        for span in spans(text):
            edits |= dict(self._field(text, span))
        made, done = "", 0
        for (begin, end), word in sorted(edits.items()):
            made += text[done:begin] + word
            done = end
        return made + text[done:]

    def _named(self, digits: str) -> str:
        """A clock as its name, an identity as `P1:NAME`; others as they are."""
        clock = digits[-16:]
        if self._names.find(clock) is None:
            return digits
        name = self._document.name(clock).replace(" ", "_")
        return name if digits == clock else f"{int(digits[:2], 16)}:{name}"

    def _field(self, text: str, span: Span) -> Iterator[tuple[tuple[int, int], str]]:
        """What a field of a known line becomes, where it becomes another."""
        word = text[span.begin:span.end]
        before = text[:span.begin].split(" ")[-2:-1]
        if span.name in _PORTS and before and self._names.find(before[0]):
            yield (span.begin, span.end), self._names.port(before[0], int(word)).replace(" ", "_")
        elif self._units and _NUMBER.fullmatch(word):
            if span.name in _MOMENTS:
                yield (span.begin, span.end), f"{in_seconds(int(word))}s"
            elif span.name == "roles_bound" or before and before[0] in _BEFORE:
                yield (span.begin, span.end), in_units(Decimal(word))
