"""Chooses strata: the longest strict path from each relation, where no strict edge lies on a circle."""
from typing import NamedTuple, Optional

from new_enemy_tools import limits
from new_enemy_tools.edges import Edge, Name
from new_enemy_tools.importing.refusals import Refusals


class Reason(NamedTuple):
    """What gives an edge: a rule or a tuple, with its file and line."""

    file: str
    line: int
    text: str
    is_tuple: bool
    # whether it came in the days before
    is_before: bool = False


class Edges:
    """The edges of rules and tuples, each with the first reason for it and how many there are."""

    def __init__(self) -> None:
        self.reasons: dict[Edge, Reason] = {}
        self.counts: dict[Edge, int] = {}
        self.readers_of: dict[Name, list[Edge]] = {}
        self.reads: dict[Name, list[Edge]] = {}

    def add(self, edge: Edge, reason: Reason) -> None:
        if edge not in self.reasons:
            self.reasons[edge] = reason
            self.reads.setdefault(edge.reader, []).append(edge)
            self.readers_of.setdefault(edge.read, []).append(edge)
        self.counts[edge] = self.counts.get(edge, 0) + 1

    def take_away(self, edge: Edge) -> None:
        for known in self.reads[edge.reader], self.readers_of[edge.read]:
            known.remove(edge)
        del self.reasons[edge], self.counts[edge]

    def circle(self, edge: Edge) -> list[Edge]:
        """The edge, and a shortest way back where there is one."""
        return [edge] + (self.path(edge.read, edge.reader) or [])

    def path(self, start: Name, end: Name) -> Optional[list[Edge]]:
        """A shortest path of edges from reader to read."""
        came: dict[Name, Optional[Edge]] = {start: None}
        todo = [start]
        for name in todo:
            if name == end:
                break
            for edge in self.reads.get(name, ()):
                if edge.read not in came:
                    came[edge.read] = edge
                    todo.append(edge.read)
        if end not in came:
            return None
        found: list[Edge] = []
        last = came[end]
        while last is not None:
            found.append(last)
            last = came[last.reader]
        return found[::-1]

    def readers(self, names: set[Name]) -> set[Name]:
        """All relations that lead to some of these."""
        reached, todo = set(names), list(names)
        while todo:
            for edge in self.readers_of.get(todo.pop(), ()):
                if edge.reader not in reached:
                    reached.add(edge.reader)
                    todo.append(edge.reader)
        return reached


def components(names: list[Name], edges: Edges) -> list[list[Name]]:
    """Strongly connected components, what is read before its readers (Tarjan's, without recursion)."""
    index: dict[Name, int] = {}
    low: dict[Name, int] = {}
    on_stack: set[Name] = set()
    stack: list[Name] = []
    found: list[list[Name]] = []
    for root in names:
        if root in index:
            continue
        work = [(root, iter(edges.reads.get(root, ())))]
        index[root] = low[root] = len(index)
        stack.append(root)
        on_stack.add(root)
        while work:
            name, rest = work[-1]
            edge = next(rest, None)
            if edge is None:
                work.pop()
                if work:
                    low[work[-1][0]] = min(low[work[-1][0]], low[name])
                if low[name] == index[name]:
                    found.append(_popped(stack, on_stack, name))
            elif edge.read not in index:
                index[edge.read] = low[edge.read] = len(index)
                stack.append(edge.read)
                on_stack.add(edge.read)
                work.append((edge.read, iter(edges.reads.get(edge.read, ()))))
            elif edge.read in on_stack:
                low[name] = min(low[name], index[edge.read])
    return found


def _popped(stack: list[Name], on_stack: set[Name], down_to: Name) -> list[Name]:
    component = []
    while True:
        name = stack.pop()
        on_stack.remove(name)
        component.append(name)
        if name == down_to:
            return component


def choose(names: list[Name], edges: Edges, refusals: Refusals) -> dict[Name, int]:
    """A stratum for each relation; a strict edge on a circle is refused."""
    strata: dict[Name, int] = {}
    for component in components(names, edges):
        inside = set(component)
        stratum = 0
        for name in component:
            for edge in edges.reads.get(name, ()):
                if edge.read not in inside:
                    stratum = max(stratum, strata[edge.read] + edge.strict)
                elif edge.strict:
                    _refuse(edge, edges, refusals)
        strata.update(dict.fromkeys(component, stratum))
    for name, stratum in strata.items():
        if stratum > limits.STRATUM:
            reason = edges.reasons[next(edge for edge in edges.reads[name])]
            refusals.refuse(reason.file, reason.line, "%s#%s would have stratum %d, and the highest is %d"
                            % (*name, stratum, limits.STRATUM))
    return strata


def _on_circles(names: list[Name], edges: Edges) -> list[Edge]:
    inside = {name: number for number, component in enumerate(components(names, edges)) for name in component}
    return [edge for edge in edges.reasons if inside.get(edge.reader, -1) == inside.get(edge.read, -2)]


def taking_circles_away(names: list[Name], edges: Edges) -> set[Name]:
    """The relations that hang on one which takes away what leads to relations that read one another in a circle."""
    leading = edges.readers({edge.reader for edge in _on_circles(names, edges)})
    return edges.readers({edge.reader for edge in edges.reasons if edge.strict and edge.read in leading})


def open_circles(names: list[Name], edges: Edges) -> list[tuple[Edge, str]]:
    """Takes away edges of the day's tuples until no strict edge lies on a circle with one; each with what is told of its circle.

    Each round takes one edge away. What rules alone make stays, and what came the days before.
    """
    taken: list[tuple[Edge, str]] = []
    while True:
        circles = (edges.circle(edge) for edge in _on_circles(names, edges) if edge.strict)
        tuples = next(filter(None, ([edge for edge in circle if edges.reasons[edge].is_tuple and not edges.reasons[edge].is_before]
                                    for circle in circles)), None)
        if tuples is None:
            return taken
        edge = min(tuples, key=lambda one: edges.counts[one])
        reason = edges.reasons[edge]
        taken.append((edge, "%s:%d: by %s and what is like it %s, and so a relation takes away what rests on it: such tuples are left out, and "
                            "the checks that hang on them" % (reason.file, reason.line, reason.text, edge)))
        edges.take_away(edge)


def _refuse(strict: Edge, edges: Edges, refusals: Refusals) -> None:
    """Names each edge of a circle through a strict edge; the last tuple of it is the one at fault."""
    circle = edges.circle(strict)
    told = []
    for edge in circle:
        reason, count = edges.reasons[edge], edges.counts[edge]
        more = ", and %d more like it" % (count - 1) if reason.is_tuple and count > 1 else ""
        told.append("%s by %s at %s:%d%s" % (edge, reason.text, reason.file, reason.line, more))
    reasons = [edges.reasons[edge] for edge in circle]
    at_fault = ([reason for reason in reasons if reason.is_tuple] or reasons)[-1]
    refusals.refuse(at_fault.file, at_fault.line, "recursion through exclusion, by %s: %s"
                    % (at_fault.text, "; ".join(told)))
