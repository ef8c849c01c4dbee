"""Lines of the commands as JSON lines."""

import json
from decimal import Decimal
from typing import Iterable, Iterator

from .texts import Line, Value


def json_lines(lines: Iterable[Line]) -> Iterator[str]:
    """An object a line: `line` is its kind, and then its fields come. Numbers keep all their decimals."""
    for line in lines:
        members = {"line": line.kind} | line.fields
        yield "{" + ", ".join(f"{json.dumps(name)}: {_json(value)}" for name, value in members.items()) + "}\n"


def _json(value: Value) -> str:
    """A value as JSON has it."""
    return str(value) if isinstance(value, Decimal) else json.dumps(value)
