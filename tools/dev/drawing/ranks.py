"""Where boxes stand that arrows join: each above all that it points to, with as few crossings as a simple search finds."""
from typing import Dict, List, Tuple

Arrows = Dict[str, List[str]]
# A name, or a place where an arrow passes a row on its way: the two names and the row.
Node = Tuple[str, ...]


def reach(arrows: Arrows, name: str) -> "set[str]":
    found: "set[str]" = set()
    open_names = [name]
    while open_names:
        for other in arrows[open_names.pop()]:
            if other not in found:
                found.add(other)
                open_names.append(other)
    return found


def reduced(arrows: Arrows) -> Arrows:
    """Without the arrows that a way over others says too."""
    return {name: [other for other in others if not any(other in reach(arrows, one) for one in others if one != other)]
            for name, others in arrows.items()}


def rows_of(arrows: Arrows) -> Dict[str, int]:
    """The row of each name, from 0 at the bottom; a name stands as high as those that point to it let it."""
    height: Dict[str, int] = {}

    def lowest(name: str) -> int:
        if name not in height:
            height[name] = max((lowest(other) + 1 for other in arrows[name]), default=0)
        return height[name]

    for name in arrows:
        lowest(name)
    users: Arrows = {name: [one for one in arrows if name in arrows[one]] for name in arrows}
    row: Dict[str, int] = {}

    def highest(name: str) -> int:
        if name not in row:
            row[name] = min((highest(one) - 1 for one in users[name]), default=height[name])
        return row[name]

    return {name: highest(name) for name in arrows}


def _crossings(rows: List[List[Node]], links: List[Tuple[Node, Node]]) -> int:
    place = {node: (height, at) for height, row in enumerate(rows) for at, node in enumerate(row)}
    between: Dict[int, List[Tuple[int, int]]] = {}
    for above, below in links:
        between.setdefault(place[above][0], []).append((place[above][1], place[below][1]))
    return sum((one[0] - two[0]) * (one[1] - two[1]) < 0 for pairs in between.values() for one in pairs for two in pairs) // 2


def placed(arrows: Arrows) -> Tuple[List[List[Node]], Dict[Tuple[str, str], List[Node]]]:
    """The rows from the bottom, each from left to right, and of each arrow the places that it passes."""
    row = rows_of(arrows)
    rows: List[List[Node]] = [[] for _ in range(max(row.values()) + 1)]
    for name in arrows:
        rows[row[name]].append((name,))
    ways: Dict[Tuple[str, str], List[Node]] = {}
    links: List[Tuple[Node, Node]] = []
    for name, others in arrows.items():
        for other in others:
            passed: List[Node] = [(name, other, str(height)) for height in range(row[name] - 1, row[other], -1)]
            for node in passed:
                rows[int(node[2])].append(node)
            way: List[Node] = [(name,), *passed, (other,)]
            ways[name, other] = way
            links += zip(way, way[1:])
    best = [list(one) for one in rows]
    for turn in range(40):
        is_up = turn % 2 == 0
        order = range(1, len(rows)) if is_up else range(len(rows) - 2, -1, -1)
        for height in order:
            beside = {node: at / max(1, len(rows[height + (-1 if is_up else 1)]) - 1) for at, node in enumerate(rows[height + (-1 if is_up else 1)])}
            centre: Dict[Node, float] = {}
            for at, node in enumerate(rows[height]):
                near = [beside[two if one == node else one] for one, two in links if node in (one, two) and (two if one == node else one) in beside]
                centre[node] = sum(near) / len(near) if near else at / max(1, len(rows[height]) - 1)
            rows[height].sort(key=lambda node: centre[node])
        if _crossings(rows, links) < _crossings(best, links):
            best = [list(one) for one in rows]
    return best, ways
