"""The program that is run: the launcher at the top of the repository, or what GPTP_SIM names."""

import os
import re
import subprocess
from functools import cache
from pathlib import Path

from .refusal import NotBuilt, Refused

_TOP = Path(__file__).resolve().parents[2]
NOT_BUILT = 69  # of the launcher, which then neither builds nor runs the program


@cache
def _built() -> str:
    """The repository's program, where the launcher finds that it is built from its sources."""
    launcher = _TOP / "gptp_sim"
    ended = _call([str(launcher), "compare"], b"")
    if ended.returncode != 0:
        raise Refused(f"{launcher}: ends with {ended.returncode}")
    return str(_TOP / "crates/gptp_sim/out/gptp_sim")


def _call(command: list[str], octets: bytes) -> subprocess.CompletedProcess[bytes]:
    """How a program ends for an input. A launcher builds nothing, and runs nothing that isn't built."""
    environment = os.environ | {"GPTP_SIM_BUILD": "no"}
    ended = subprocess.run(command, input=octets, capture_output=True, check=False, env=environment)
    if ended.returncode == NOT_BUILT:
        raise NotBuilt
    return ended


def _refusal(program: str, document: bytes, told: str) -> str:
    """Why a document is refused: `lint` prints the place of the same fault, of which the line comes first."""
    lines = _call([program, "lint"], document).stdout.decode("ascii", errors="replace").splitlines()
    whole = lines[0] if lines and lines[0].startswith(told) else told
    found = re.match(r"refused .*? line (\d+)", whole)
    return f"line {found[1]}: {whole}" if found else whole


def ask(words: list[str], document: bytes, source: str) -> list[str]:
    """The lines that the program writes for a document. A refusal is printed with the name of the document's file."""
    program = os.environ.get("GPTP_SIM") or _built()
    try:
        ended = _call([program, *words], document)
    except OSError as why:
        raise Refused(f"{program}: {why.strerror}") from why
    told = ended.stderr.decode(errors="replace").strip().partition("\n")[0]
    lines = ended.stdout.decode("ascii", errors="replace").splitlines()
    if ended.returncode == 1 and lines and lines[0].startswith("refused "):
        raise Refused(f"{source}: {_refusal(program, document, lines[0])}")
    if ended.returncode == 2:
        raise Refused(f"gptp_sim doesn't read `{' '.join(words)}`: {told}")
    if ended.returncode not in (0, 1):
        raise Refused(f"gptp_sim {words[0]} ends with {ended.returncode}: {told}")
    return lines
