"""The edges of rules and of tuples, in the order in which docs/FORMATS.md looks at them."""
from typing import Callable, Iterable, Iterator, NamedTuple, Optional

from new_enemy_tools.rules import Declaration, Rules, places
from new_enemy_tools.texts import Tuple, Userset

Name = tuple[str, str]
Pair = tuple[str, str, str, str]


class Edge(NamedTuple):
    """The relation whose rule reads, the one that is read, and whether under a subtracted side."""

    reader: Name
    read: Name
    strict: bool

    def __str__(self) -> str:
        return "%s#%s reads %s#%s%s" % (*self.reader, *self.read, " strictly" if self.strict else "")


def rule_edges(declaration: Declaration) -> Iterator[Edge]:
    """A rule's `computed` reads a relation of its own declaration."""
    for relation in declaration.relations:
        for place in places(relation.rewrite):
            if place.form == "computed":
                yield Edge((declaration.name, relation.name), (declaration.name, place.names[0]), place.strict)


def tuple_edges(rules: Rules, given: Tuple) -> Iterator[Edge]:
    if not isinstance(given.user, Userset):
        return
    namespace, stored = given.set.namespace, given.set.relation
    to = given.user.namespace
    if rules.is_declared(to, given.user.relation):
        for rewrite in rules.rewrites(namespace, stored):
            for place in places(rewrite):
                if place.form == "this":
                    yield Edge((namespace, stored), (to, given.user.relation), place.strict)
    for relation in rules.relations(namespace):
        for rewrite in rules.rewrites(namespace, relation):
            for place in places(rewrite):
                if place.form == "tuple_to" and place.names[0] == stored and rules.is_declared(to, place.names[1]):
                    yield Edge((namespace, relation), (to, place.names[1]), place.strict)


def pair_of(of: Userset, user: Userset) -> Pair:
    return of.namespace, of.relation, user.namespace, user.relation


class TupleEdges:
    """The edges of tuples, looked up once for each pair of relations, with the first tuple of each pair."""

    def __init__(self, rules: Rules):
        self.rules = rules
        self.known: dict[Pair, list[Edge]] = {}
        self.first: dict[Pair, Tuple] = {}

    def of(self, given: Tuple) -> list[Edge]:
        if not isinstance(given.user, Userset):
            return []
        pair = pair_of(given.set, given.user)
        if pair not in self.known:
            self.known[pair] = list(tuple_edges(self.rules, given))
        return self.known[pair]

    def keep(self, given: Tuple) -> None:
        if isinstance(given.user, Userset):
            self.first.setdefault(pair_of(given.set, given.user), given)

    def forget(self) -> None:
        """The rules have changed."""
        self.known.clear()


def first_broken(edges: Iterable[Edge], stratum: Callable[[str, str], int]) -> Optional[Edge]:
    for edge in edges:
        reader, read = stratum(*edge.reader), stratum(*edge.read)
        if read > reader or (edge.strict and read == reader):
            return edge
    return None
