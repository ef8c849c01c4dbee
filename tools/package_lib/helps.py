"""The commands of a program and their options, as its help has them."""

import os
import re
import subprocess
from dataclasses import dataclass
from pathlib import Path

# wide, so that no line is folded
_ENVIRONMENT = {"COLUMNS": "1000", "LC_ALL": "C.UTF-8"}

# what argparse writes, as clap writes it; what is said of a long option begins a line of its own
_AS_CLAP = (
    (r"^usage:", "Usage:"),
    (r"^positional arguments:\n +COMMAND$", "Commands:"),
    (r"^positional arguments:", "Arguments:"),
    (r"^options:", "Options:"),
    (r"\n {8,}(?=\S)", "  "),
)


@dataclass(frozen=True)
class Page:
    """The help of a program or of one of its commands."""

    words: tuple[str, ...]
    text: str

    @property
    def name(self) -> str:
        """What its manual page is called."""
        return "-".join(self.words)

    @property
    def about(self) -> str:
        """What it does, in one line: the first paragraph that isn't its usage."""
        told = next(part for part in self.text.strip().split("\n\n") if not part.startswith("Usage:"))
        return told.rstrip(".")

    def _terms(self, head: str) -> list[str]:
        """What a section lists: of each line what is before two blanks."""
        section = re.search(rf"^{head}:\n((?: .*\n)+)", self.text + "\n", re.MULTILINE)
        return [line.strip().split("  ")[0] for line in section[1].splitlines()] if section else []

    @property
    def commands(self) -> list[str]:
        """The commands that it lists."""
        return self._terms("Commands")

    @property
    def options(self) -> list[str]:
        """The options that it lists, in their long form where they have one."""
        return [re.findall(r"(?<!\S)-[\w-]+", term)[-1] for term in self._terms("Options")]


def _ask(program: Path, words: tuple[str, ...]) -> Page:
    """The help of one command. clap writes it to standard error, argparse to standard output."""
    ended = subprocess.run([program, *words, "--help"], env=os.environ | _ENVIRONMENT, stdin=subprocess.DEVNULL,
                           stdout=subprocess.PIPE, stderr=subprocess.STDOUT, text=True, check=False)
    text = ended.stdout
    for pattern, instead in _AS_CLAP:
        text = re.sub(pattern, instead, text, flags=re.MULTILINE)
    return Page((program.name, *words), text)


def pages(program: Path, words: tuple[str, ...] = ()) -> list[Page]:
    """The help of a program and of all its commands, each before those below it; `help` itself has none."""
    first = _ask(program, words)
    below = [pages(program, (*words, name)) for name in first.commands if name != "help"]
    return [first, *(page for each in below for page in each)]
