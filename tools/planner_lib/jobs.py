"""One run of `faults` as parts: a script that computes them, and the folder that it fills."""

import re
import shlex
from pathlib import Path
from typing import Sequence

from .called import CALL
from .refusal import Refused

MOST_PARTS = 10000
_PART = re.compile(r"part\.([1-9][0-9]*)")
_NEW = ".new"  # after the name of a part until it is whole
_COUNT = "parts"  # the file of a folder that says how many parts there are


def folder(path: Path, document: str, octets: bytes, parts: int) -> str:
    """Makes the folder of a run, with a copy of the document and the number of parts; the path of the copy.

    One that is there is gone on with, if it is for the same document and number of parts.
    """
    path.mkdir(parents=True, exist_ok=True)
    for name, wanted in ((document, octets), (_COUNT, f"{parts}\n".encode())):
        file = path / name
        if file.exists() and file.read_bytes() != wanted:
            raise Refused(f"{file} is of another run: give another folder by -o, or remove this one")
        file.write_bytes(wanted)
    return str(path / document)


def counts(paths: Sequence[str]) -> range:
    """How many parts a run may have: what their folder says, else as many as the greatest number or more."""
    numbered = [Path(path) for path in paths if number(path)]
    said = {int(text) for path in numbered if (text := _said(path.parent / _COUNT)).isdecimal()}
    if len(said) > 1:
        raise Refused(f"the parts are of several runs: of {' and '.join(map(str, sorted(said)))} parts")
    least = max([*said, *(number(str(path)) for path in numbered)], default=1)
    return range(least, (least if said else MOST_PARTS) + 1) if numbered else range(0)


def number(path: str) -> int:
    """The number of a part by its name, 0 where that has none."""
    found = _PART.fullmatch(Path(path).name)
    return int(found[1]) if found else 0


def is_broken_off(path: str) -> bool:
    """Whether a file is a part that isn't whole: a part has its name only when it is."""
    return _PART.fullmatch(Path(path).name.removesuffix(_NEW)) is not None and path.endswith(_NEW)


def _said(path: Path) -> str:
    """What a file says; nothing where there is none."""
    return path.read_text(errors="replace").strip() if path.is_file() else ""


def parallel(program: str, copy: str, parts: int, words: Sequence[str]) -> str:
    """The script for GNU parallel, which shows how far it is and goes on where it was stopped."""
    place = shlex.quote(str(Path(copy).parent))
    line = _part(program, copy, parts, "{}", words)
    return (f"#!/bin/sh\nseq {parts} | parallel --bar --joblog {place}/log --resume {shlex.quote(line)}\n"
            + _merge(place))


def slurm(program: str, copy: str, parts: int, words: Sequence[str]) -> str:
    """The file for sbatch: an array of jobs."""
    folder = Path(copy).parent
    if " " in str(folder):
        raise Refused(f"{folder}: sbatch takes no blanks in a path: give another folder by -o")
    return (f"#!/bin/sh\n#SBATCH --array=1-{parts}\n#SBATCH --output={folder}/log.%a\n"
            f"{_part(program, copy, parts, '$SLURM_ARRAY_TASK_ID', words)}\n" + _merge(shlex.quote(str(folder))))


def _part(program: str, copy: str, parts: int, part: str, words: Sequence[str]) -> str:
    """The line that computes a part; it has its name only when it is whole, also where it says `exceeded`."""
    made = f"{shlex.quote(str(Path(copy).parent))}/part.{part}"
    call = f"{program} faults --parts {parts} --part"
    options = "".join(f" {shlex.quote(word)}" for word in words)
    return f"{call} {part}{options} < {shlex.quote(copy)} > {made}{_NEW}; test $? -le 1 && mv {made}{_NEW} {made}"


def _merge(folder: str) -> str:
    """The comment that says how the parts are merged."""
    return f"# {CALL} merge {folder}/part.*\n"
