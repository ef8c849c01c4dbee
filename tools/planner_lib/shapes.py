"""Networks of a plain shape. The first system is meant to be the grandmaster: its priority1 is 100."""

from .plans import Cable, Node, few

Shape = tuple[list[Node], list[Cable]]


def _nodes(names: list[str]) -> list[Node]:
    """Systems of these names, of which the first is to lead."""
    return [Node(name, {"priority1": 100} if place == 0 else {}) for place, name in enumerate(names)]


def line(count: int) -> Shape:
    """Systems in a row: port 1 to the one before, port 2 to the one after."""
    names = [f"system {place}" for place in range(1, count + 1)]
    return _nodes(names), [Cable(a, b) for a, b in zip(names, names[1:])]


def ring(count: int) -> Shape:
    """A row whose last system is joined to the first."""
    nodes, cables = line(count)
    return nodes, [*cables, Cable(nodes[-1].name, nodes[0].name)]


def star(count: int) -> Shape:
    """A bridge in the middle of so many stations."""
    stations = [f"station {place}" for place in range(1, count + 1)]
    return _nodes(["bridge", *stations]), [Cable("bridge", station) for station in stations]


def tree(branches: int, depth: int) -> Shape:
    """A tree of bridges, each above the leaves with so many below it, so many levels below its root."""
    few(sum(branches**level for level in range(depth + 1)))
    levels = [["root"]]
    cables = []
    for _ in range(depth):
        below = [(above, f"{'' if above == 'root' else above + '.'}{branch}")
                 for above in levels[-1] for branch in range(1, branches + 1)]
        cables += [Cable(above, name) for above, name in below]
        levels.append([name for _, name in below])
    return _nodes([name for level in levels for name in level]), cables


def grid(width: int, height: int) -> Shape:
    """Bridges in rows, each joined to those beside, above and below it."""
    few(width * height)
    names = {(x, y): f"bridge {x},{y}" for y in range(1, height + 1) for x in range(1, width + 1)}
    cables = []
    for (x, y), name in names.items():
        cables += [Cable(name, names[beside]) for beside in ((x + 1, y), (x, y + 1)) if beside in names]
    return _nodes(list(names.values())), cables
