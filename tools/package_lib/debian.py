"""The package as Debian has it."""

import ast
import hashlib
import os
import subprocess
import sys
import tempfile
from pathlib import Path

from planner_lib import pictures

from .facts import ARCHITECTURE, MAINTAINER, NAME, TOP, Facts
from .tree import date_all, put

_CONTROL = """\
Package: {name}
Version: {facts.version}
Section: net
Priority: optional
Architecture: {architecture}
Maintainer: {maintainer}
Installed-Size: {size}
Depends: {depends}
Recommends: {recommends}
Description: proved simulator of networks that run gPTP
 gptp_sim simulates end stations and time-aware bridges that run gPTP
 (IEEE 802.1AS-2020), and says which clock each system follows, how soon after
 a fault, and how exact its time is. Each of its functions is proved.
 .
 gptp_planner draws networks and makes documents over it, and isn't proved.
"""


def _python_packages() -> set[str]:
    """Those of the modules that the tool imports beside Python's own, called as Debian's Python policy says."""
    modules = set()
    for path in (TOP / "tools/planner_lib").glob("*.py"):
        for node in ast.walk(ast.parse(path.read_text())):
            if isinstance(node, ast.Import):
                modules |= {alias.name.partition(".")[0] for alias in node.names}
            elif isinstance(node, ast.ImportFrom) and node.level == 0 and node.module:
                modules.add(node.module.partition(".")[0])
    return {f"python3-{module.lower().replace('_', '-')}" for module in modules - sys.stdlib_module_names}


def _c_library(program: Path) -> str:
    """The libraries that the program needs, as Debian calls them, with the least version that has its symbols."""
    with tempfile.TemporaryDirectory() as folder:
        (Path(folder) / "debian").mkdir()
        (Path(folder) / "debian/control").write_text("Source: none\n\nPackage: none\nArchitecture: any\n")
        told = subprocess.run(["dpkg-shlibdeps", "-O", program.resolve()], cwd=folder, stdout=subprocess.PIPE,
                              text=True, check=True)
    return told.stdout.strip().partition("=")[2]


def _control(usr: Path, facts: Facts) -> str:
    sizes = [-(-path.lstat().st_size // 1024) if path.is_file() and not path.is_symlink() else 1
             for path in usr.rglob("*")]
    # what only some commands of the planner's tool take, which say so
    recommended = _python_packages() | set(pictures._PACKAGES.values())
    return _CONTROL.format(
        name=NAME, architecture=ARCHITECTURE, maintainer=MAINTAINER, facts=facts, size=sum(sizes),
        depends=f"{_c_library(usr / 'bin/gptp_sim')}, python3 (>= 3.11)", recommends=", ".join(sorted(recommended)))


def _sums(root: Path) -> str:
    return "".join(f"{hashlib.md5(path.read_bytes()).hexdigest()}  {path.relative_to(root)}\n"
                   for path in sorted((root / "usr").rglob("*")) if path.is_file())


def package(root: Path, facts: Facts, folder: Path) -> Path:
    """Builds the package of what is in ROOT/usr, in a folder."""
    made = folder / f"{NAME}_{facts.version}_{ARCHITECTURE}.deb"
    put(root / "DEBIAN/md5sums", _sums(root))
    put(root / "DEBIAN/control", _control(root / "usr", facts))
    date_all(root, facts.epoch)
    subprocess.run(["dpkg-deb", "--root-owner-group", "--threads-max=1", "-Zxz", "--build", root, made],
                   env=os.environ | {"SOURCE_DATE_EPOCH": str(facts.epoch)}, stdout=subprocess.DEVNULL, check=True)
    return made
