"""Which program a tool tries: the words --built and --program of its command line."""

import argparse
import subprocess
from pathlib import Path

TOP = Path(__file__).resolve().parent.parent
BUILT = TOP / "crates/gptp_sim/out/gptp_sim"


def words(about: str | None) -> argparse.ArgumentParser:
    """A parser of both words, whose help begins with what a tool says of itself."""
    parser = argparse.ArgumentParser(description=about, formatter_class=argparse.RawDescriptionHelpFormatter)
    parser.add_argument("--built", action="store_true",
                        help="take the program as it is built; else the launcher proves and builds it first")
    parser.add_argument("--program", type=Path, help="take another program")
    return parser


def program(asked: argparse.Namespace) -> Path:
    """The program that is tried, built where that is asked for."""
    if asked.program:
        return Path(asked.program).resolve()
    if not asked.built:
        subprocess.run([TOP / "gptp_sim", "--prove"], check=True)
    return BUILT
