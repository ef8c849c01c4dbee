"""Manual pages, of what the commands' help says, by Debian's help2man."""

import os
import re
import subprocess
import tempfile
from pathlib import Path

from .facts import NAME, Facts
from .helps import Page


def _related(page: Page, pages: list[Page]) -> list[str]:
    """The pages of the commands next to one: above it, and below it."""
    return [other.name for other in pages
            if other.words == page.words[:-1] or other.words[:-1] == page.words]


def _see_also(page: Page, pages: list[Page]) -> str:
    named = ",\n".join(f".BR {name} (1)" for name in _related(page, pages))
    return f"[see also]\n{named}\n.PP\nDocuments and examples stand in /usr/share/doc/{NAME}.\n"


def _kept_lines(roff: str) -> str:
    """A block of lines that is indented further is an excerpt: its lines are kept as they are."""
    return re.sub(r"^\.IP\n((?:[^.\n].*\n)+)", r".IP\n.nf\n\1.fi\n", roff, flags=re.MULTILINE)


def _manual(page: Page, pages: list[Page], facts: Facts, folder: Path) -> str:
    """One page. help2man calls a program for its help: here that is a script that writes the help as it was read."""
    text = re.sub(r"\n(?=(?:Output|Example): )", "\n\n", page.text)
    (folder / "help").write_text(text)
    (folder / "include").write_text(_see_also(page, pages))
    script = folder / page.name
    script.write_text(f"#!/bin/sh\ncat {folder}/help\n")
    script.chmod(0o755)
    ended = subprocess.run(
        ["help2man", "--no-info", "--section=1", f"--name={page.about}", f"--version-string={facts.version}",
         f"--source={NAME} {facts.version}", "--manual=gptp_sim", f"--include={folder}/include", script],
        env=os.environ | {"SOURCE_DATE_EPOCH": str(facts.epoch), "LC_ALL": "C.UTF-8", "TZ": "UTC"},
        stdout=subprocess.PIPE, text=True, check=True)
    return _kept_lines(ended.stdout)


def manuals(pages: list[Page], facts: Facts) -> dict[str, str]:
    """The manual pages by the names of their files."""
    made = {}
    for page in pages:
        with tempfile.TemporaryDirectory() as folder:
            made[f"{page.name}.1"] = _manual(page, pages, facts, Path(folder))
    return made
