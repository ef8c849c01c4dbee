"""The package as a tarball, to be unpacked anywhere."""

import subprocess
from pathlib import Path

from .facts import ARCHITECTURE, NAME, Facts


def tarball(root: Path, facts: Facts, folder: Path) -> Path:
    """Builds the tarball of what is in ROOT/usr, in a folder: bin/ and share/ within one folder."""
    made = folder / f"{NAME}_{facts.version}_{ARCHITECTURE}.tar.gz"
    subprocess.run(
        ["tar", "-C", root, "--sort=name", f"--mtime=@{facts.epoch}", "--owner=root:0", "--group=root:0",
         "--format=gnu", f"--transform=s,^usr,{NAME}-{facts.version},",
         "--use-compress-program=gzip -9n", "-cf", made.resolve(), "usr"], check=True)
    return made
