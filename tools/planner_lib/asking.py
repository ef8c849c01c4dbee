"""The program's own answers: its words with names and times taken in, and its lines as they come."""

import os
import re
import shlex
import shutil
import subprocess
from pathlib import Path
from typing import Iterator

from .documents import Document
from .naming import Names
from .quantities import nanoseconds
from .program import NOT_BUILT
from .refusal import NotBuilt, Refused

_LAUNCHER = Path(__file__).resolve().parents[2] / "gptp_sim"
# the options that take a time
TIMES = ("--until", "--at", "--hold", "--detect", "--reads", "--max-choice", "--max-holdover", "--max-error",
         "--max-bound", "--max-time", "--max-apart", "--max-step", "--max-first")
_CLOCK = re.compile(r"[0-9a-fA-F]{16}")


def program() -> str:
    """What is called: what GPTP_SIM names, else the launcher, which builds nothing where GPTP_SIM_BUILD is no."""
    return os.environ.get("GPTP_SIM") or str(_LAUNCHER)


def shell_word() -> str:
    """How a script calls the program, from whatever folder."""
    named = os.environ.get("GPTP_SIM")
    if named:
        return shlex.quote(str(Path(shutil.which(named) or named).resolve()))
    return f"GPTP_SIM_BUILD=no {shlex.quote(str(_LAUNCHER))}"


def words_for(document: Document, words: list[str]) -> list[str]:
    """The program's words: times in ns after the options that take one, and the clock that `explain` takes."""
    names = Names(document)
    made = words[:1]
    for word in words[1:]:
        option, equals, value = word.partition("=")
        if equals and option in TIMES:
            made.append(f"{option}={nanoseconds(value)}")
        elif made[-1] in TIMES:
            made.append(str(nanoseconds(word)))
        elif words[0] == "explain" and not word.startswith("-") and not _CLOCK.fullmatch(word):
            made.append(names.clock(word))
        else:
            made.append(word)
    return made


class Answer:
    """A call of the program: its lines as octets, with their ends, as they come, and then its status."""

    def __init__(self, words: list[str], octets: bytes) -> None:
        self.status = 0
        try:
            self._process = subprocess.Popen([program(), *words], stdin=subprocess.PIPE, stdout=subprocess.PIPE,
                                             env=os.environ | {"GPTP_SIM_BUILD": "no"})
        except OSError as why:
            raise Refused(f"{program()}: {why.strerror}") from why
        self._octets = octets

    def __iter__(self) -> Iterator[bytes]:
        """The lines as they come; the status is known after the last."""
        with self._process as process:
            assert process.stdin and process.stdout
            try:
                process.stdin.write(self._octets)
                process.stdin.close()
            except BrokenPipeError:
                pass  # it ends without reading all: its status says why
            yield from process.stdout
        self.status = process.returncode
        if self.status == NOT_BUILT:
            raise NotBuilt
