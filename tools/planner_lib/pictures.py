"""The programs that draw, and their SVG as a part of a page."""

import re
import shutil
import subprocess

from .refusal import MissingPackage, Refused

_SHARED = ('text-anchor="middle"', 'font-family="Helvetica,sans-Serif"')  # what Graphviz says of each text
_PACKAGES = {"dot": "graphviz", "neato": "graphviz"}


def draw(command: list[str], text: str) -> bytes:
    """What a drawing program writes for a text."""
    if shutil.which(command[0]) is None:
        raise MissingPackage(f"{command[0]} isn't there: it comes with the Debian package {_PACKAGES[command[0]]}")
    ended = subprocess.run(command, input=text.encode(), capture_output=True, check=False)
    if ended.returncode != 0:
        told = ended.stderr.decode(errors="replace").strip().partition("\n")[0]
        raise Refused(f"{command[0]} ends with {ended.returncode}: {told}")
    return ended.stdout


def inline(svg: bytes) -> str:
    """An SVG file as an element of an HTML page: as wide as there is room, at most as wide as it was made.

    Its head, comments, tooltips, names of groups and of namespaces are left out, and what all its texts have in common
    is said once.
    """
    text = svg.decode()
    element = re.sub(r"""\s+xmlns(:\w+)?=(?:"[^"]*"|'[^']*')""", "", text[text.index("<svg"):])
    element = re.sub(r"<!--.*?-->\s*|<title>.*?</title>\s*", "", element, flags=re.DOTALL)
    element = re.sub(r'<g id="[^"]*"(?: class="[^"]*")?', "<g", element)
    head, _, rest = element.partition(">")
    head = re.sub(r' (width|height)="[0-9.]+pt"', "", head)
    shared = "".join(f" {name}" for name in _SHARED if name in rest)
    for name in _SHARED:
        rest = rest.replace(f"<text {name}", "<text").replace(f" {name}", "")
    return f'{head}{shared} width="100%" style="max-width: {width(svg)}px">{rest}'


def width(svg: bytes) -> int:
    """How wide an SVG file was made, in pixels: four of them are three points."""
    found = re.search(rb'<svg[^>]*? width="([0-9.]+)pt"', svg)
    return round(float(found[1]) * 4 / 3) if found else 0
