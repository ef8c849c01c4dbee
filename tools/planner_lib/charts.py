"""Pictures by matplotlib: the same octets each time, with text as text."""

import io

import matplotlib
from matplotlib.figure import Figure

POINTS = 1000  # a picture with more of them shows them as pixels
_NOTHING = dict.fromkeys(("Date", "Creator", "Format", "Type"))


def as_svg(figure: Figure) -> bytes:
    """A figure as an SVG file that says neither when nor by what it was made, and loads nothing."""
    written = io.BytesIO()
    with matplotlib.rc_context({"svg.hashsalt": "gptp_sim", "svg.fonttype": "none"}):
        figure.savefig(written, format="svg", metadata=_NOTHING)
    return written.getvalue()
