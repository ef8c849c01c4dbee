"""What the package says of rights."""

import shutil
from pathlib import Path

from .facts import MAINTAINER, TOP

_HEAD = f"""\
This package holds gptp_sim. The file BUILT beside this one says of which commit
of its repository it is, and with which toolchain it was built.

Copyright 2026 {MAINTAINER}

No licence has been given yet. Nobody has the right to copy, change or pass on
gptp_sim or this package until its authors give one.

The program holds code of the Rattle toolchain: of its library, and of its ports
of the crates below, each under the licence that stands there.
"""


def _crates() -> list[str]:
    """The toolchain's crates that crates.txt names: those to the right of a colon that have no line of their own."""
    lines = [line.partition(":") for line in (TOP / "crates.txt").read_text().splitlines() if line[:1].isalpha()]
    ours = {name for name, _, _ in lines}
    return sorted({name for _, _, below in lines for name in below.split()} - ours)


def _licence(crate: str) -> str:
    """The licence of a crate as the toolchain has it; of two the one by MIT, which is the shorter."""
    folder = Path(shutil.which("rt") or "").resolve().parents[1] / "rattle" / crate
    return next(path for path in (folder / "LICENSE-MIT", folder / "LICENSE") if path.is_file()).read_text()


def text() -> str:
    """The text of the file `copyright`."""
    return _HEAD + "".join(f"\n---- {crate}\n\n{_licence(crate).strip()}\n" for crate in _crates())
