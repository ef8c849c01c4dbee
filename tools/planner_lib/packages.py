"""Debian's packages that only some commands take."""

import sys
from importlib import import_module
from typing import Mapping

from .refusal import MissingPackage


def need(command: str, packages: Mapping[str, str]) -> None:
    """Ends a command whose modules aren't there, with the package of the first that lacks."""
    for module, package in packages.items():
        try:
            import_module(module)
        except ImportError as why:
            raise MissingPackage(f"{command} takes Debian's {package}; this is {sys.executable}") from why
