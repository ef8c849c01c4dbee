"""Which package it is, and what it is made from."""

import hashlib
import os
import re
import subprocess
from dataclasses import dataclass
from datetime import datetime, timezone
from email.utils import format_datetime
from pathlib import Path

TOP = Path(__file__).resolve().parents[2]

# Debian's names have no underscore
NAME = "gptp-sim"
ARCHITECTURE = "amd64"
MAINTAINER = "Raluyeko maintainers <maintainers@users.noreply.raluyeko.example>"

# the version of the program, as its source gives it
VERSION = re.findall(r'"gptp_sim ([0-9.]+)\\n"', (TOP / "crates/gptp_commands/src/version.rt").read_text())[0]


def git(*words: str) -> str:
    """What git says of the repository, whoever owns it."""
    return subprocess.run(["git", "-c", f"safe.directory={TOP}", *words], cwd=TOP, stdout=subprocess.PIPE, text=True,
                          check=True).stdout.strip()


def tracked(*folders: str) -> list[Path]:
    """The files of folders that the repository keeps, by their paths from its top."""
    return [Path(line) for line in git("ls-files", *folders).splitlines()]


@dataclass(frozen=True)
class Facts:
    """What a package says of itself."""

    version: str
    commit: str
    epoch: int
    toolchain: str
    program: Path

    @property
    def date(self) -> str:
        """When the commit was made."""
        return format_datetime(datetime.fromtimestamp(self.epoch, timezone.utc))

    @property
    def built(self) -> str:
        """What the program was proved and built from, and with: the text of BUILT."""
        octets = self.program.read_bytes()
        return (f"version {self.version}\ncommit {self.commit}\ntoolchain {self.toolchain}\n"
                f"program with its symbols: sha256 {hashlib.sha256(octets).hexdigest()}, {len(octets)} octets\n")


def facts(program: Path, version: str) -> Facts:
    """The facts of a program that was built from the repository as it is."""
    commit, epoch = git("log", "-1", "--format=%H %ct").split()
    changed = " with changes" if git("status", "--porcelain", "--untracked-files=no") else ""
    toolchain = subprocess.run(["rt", "version"], stdout=subprocess.PIPE, text=True, check=True).stdout.strip()
    return Facts(version, commit + changed, int(os.environ.get("SOURCE_DATE_EPOCH", epoch)), toolchain, program)
