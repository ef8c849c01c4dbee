"""The files of a package, as they are below /usr."""

import gzip
import os
import subprocess
from pathlib import Path

from . import copyright
from .completion import completion
from .facts import MAINTAINER, NAME, TOP, Facts, tracked
from .helps import pages
from .manuals import manuals

_DATA = TOP / "tools/package_data"


def put(path: Path, what: str | bytes, mode: int = 0o644) -> None:
    """A file, with the folders above it."""
    path.parent.mkdir(parents=True, exist_ok=True)
    path.write_bytes(what.encode() if isinstance(what, str) else what)
    path.chmod(mode)


def _packed(text: str) -> bytes:
    """What `gzip -9n` makes of a text."""
    return gzip.compress(text.encode(), 9, mtime=0)


def _put_programs(usr: Path, program: Path) -> None:
    """The program without its symbols, and the planner's tool with what it is made of."""
    put(usr / "bin/gptp_sim", program.read_bytes(), 0o755)
    subprocess.run(["strip", "--strip-all", "--remove-section=.comment", usr / "bin/gptp_sim"], check=True)
    put(usr / "bin/gptp_planner", (_DATA / "gptp_planner").read_bytes(), 0o755)
    share = usr / "share" / NAME
    put(share / "gptp_planner", (TOP / "tools/planner").read_bytes(), 0o755)
    for path in tracked("tools/planner_lib"):
        put(share / path.relative_to("tools"), (TOP / path).read_bytes())


def _put_helps(usr: Path, facts: Facts) -> None:
    """Manual pages and completion, of the helps of the programs that were put there."""
    for name in ("gptp_sim", "gptp_planner"):
        told = pages(usr / "bin" / name)
        for page, text in manuals(told, facts).items():
            put(usr / "share/man/man1" / f"{page}.gz", _packed(text))
        put(usr / "share/bash-completion/completions" / name, completion(told))


def _put_documents(usr: Path, facts: Facts) -> None:
    """README, docs/ and examples/ beside each other, and what the package says of itself."""
    doc = usr / "share/doc" / NAME
    for path in tracked("README.md", "docs", "examples"):
        put(doc / path, (TOP / path).read_bytes())
    put(doc / "BUILT", facts.built)
    put(doc / "copyright", copyright.text())
    put(doc / "changelog.gz", _packed(
        f"{NAME} ({facts.version}) unstable; urgency=medium\n\n"
        f"  * Made of commit {facts.commit}.\n\n"
        f" -- {MAINTAINER}  {facts.date}\n"))


def lay_out(usr: Path, facts: Facts) -> None:
    """All files, each with the time of the commit."""
    _put_programs(usr, facts.program)
    _put_helps(usr, facts)
    _put_documents(usr, facts)
    date_all(usr, facts.epoch)


def date_all(folder: Path, epoch: int) -> None:
    """Gives all files and folders one time, and folders one mode."""
    for path in [folder, *folder.rglob("*")]:
        if path.is_dir():
            path.chmod(0o755)
        os.utime(path, (epoch, epoch), follow_symlinks=False)
