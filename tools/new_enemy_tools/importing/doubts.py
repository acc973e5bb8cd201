"""Which checks hang on a tuple or a rule that was left out, or on what a service denies and the rules do not."""
from bisect import bisect_right
from collections import Counter
from itertools import islice
from typing import Iterable, Iterator, Mapping, Optional

from new_enemy_tools.edges import Name
from new_enemy_tools.importing import causes
from new_enemy_tools.importing.checks import Checks, column
from new_enemy_tools.importing.commits import Touches
from new_enemy_tools.importing.strata import Edges, taking_circles_away
from new_enemy_tools.rules import Place, Rules, places
from new_enemy_tools.texts import Tuple, Userset

Node = tuple[str, str, str]
Places = Mapping[str, list[tuple[str, Place]]]
# So many usersets are gone through for a check, and so many answers are known at once.
MOST, MOST_KNOWN = 10_000, 1 << 16


class Circles:
    """The tuples of usersets by the userset that has them, each with its touches; those of the days before count as stored at any time."""

    def __init__(self) -> None:
        self.users: dict[Node, list[tuple[Userset, Optional[Touches]]]] = {}
        self.count, self.has_before = 0, False
        self.known: dict[tuple[Node, int, int], bool] = {}

    def take(self, stored: dict[Tuple, Touches], before: Iterable[Tuple]) -> None:
        """Takes what is new of these, and once those of the days before."""
        # What is new stands last, and may be little of it.
        given: list[tuple[Tuple, Optional[Touches]]] = list(islice(reversed(stored.items()), len(stored) - self.count))
        self.count = len(stored)
        if not self.has_before:
            self.has_before = True
            given += [(one, None) for one in before]
        for one, touches in given:
            if isinstance(one.user, Userset):
                self.users.setdefault((one.set.namespace, one.set.id, one.set.relation), []).append((one.user, touches))
        self.known.clear()

    def deny(self, node: Node, low: int, high: int, rules: Places) -> bool:
        """Whether a userset hangs on one that takes away what leads into a circle, by the tuples that are stored from one revision to another;
        also where it leads to more usersets than are gone through."""
        if (node, low, high) not in self.known:
            if len(self.known) >= MOST_KNOWN:
                self.known.clear()
            self.known[node, low, high] = self._denies(node, low, high, rules)
        return self.known[node, low, high]

    def _denies(self, node: Node, low: int, high: int, rules: Places) -> bool:
        reads: dict[Node, set[tuple[Node, bool]]] = {}
        todo, count = [node], 0
        while todo:
            at = todo.pop()
            if at not in reads:
                reads[at] = set(islice(self._read(at, low, high, rules), MOST))
                count += 1 + len(reads[at])
                if count > MOST:
                    return True
                todo += [one for one, _ in reads[at]]
        readers: dict[Node, list[Node]] = {}
        for at, listed in reads.items():
            for one in {to for to, _ in listed}:
                readers.setdefault(one, []).append(at)
        left = {at: len({to for to, _ in listed}) for at, listed in reads.items()}
        # What reads nothing leads nowhere, nor does what reads such alone; the others lead into a circle.
        ends = [at for at, number in left.items() if not number]
        for end in ends:
            for at in readers.get(end, ()):
                left[at] -= 1
                ends += [] if left[at] else [at]
        return any(is_strict and left[to] for listed in reads.values() for to, is_strict in listed)

    def _read(self, node: Node, low: int, high: int, rules: Places) -> Iterator[tuple[Node, bool]]:
        of, thing, relation = node
        for name, place in rules.get(of, ()):
            if name != relation:
                continue
            if place.form == "computed":
                yield (of, thing, place.names[0]), place.strict
                continue
            is_own = place.form == "this"
            for user, touches in self.users.get((of, thing, relation if is_own else place.names[0]), ()):
                if touches is None or _is_stored(touches, low, high):
                    yield (user.namespace, user.id, user.relation if is_own else place.names[1]), place.strict


def _is_stored(touches: Touches, low: int, high: int) -> bool:
    """Whether a tuple is stored at some revision from one to another."""
    at = bisect_right(touches, (low, True))
    return at > 0 and touches[at - 1][1] or any(live for revision, live in touches[at:bisect_right(touches, (high, True))])


class Doubts:
    """What leads to the usersets in doubt, by all rules and all tuples ever; but circles of usersets by those of one time."""

    def __init__(self, given: list[tuple[str, Optional[str], str]], rules: Rules, edges: Edges):
        self.rules, self.edges = rules, edges
        self.places: Places = {of: [(name, place) for name in rules.relations(of) for rewrite in rules.rewrites(of, name)
                                    for place in places(rewrite)] for of in rules.current}
        relations = {(of, relation) for of, id_text, relation in given if id_text is None}
        relations |= {(of, name) for of, listed in self.places.items() for name, place in listed
                      if place.form == "tuple_to" and (of, place.names[0]) in relations}
        self.relations = edges.readers(relations) if relations else set()
        self.nodes: set[Node] = {(of, id_text, relation) for of, id_text, relation in given if id_text is not None}
        # those that may hang on a circle under a subtracted side, and by which tuples they do; or all of some relations may
        self.denied: set[Node] = set()
        self.circles: Optional[Circles] = None
        self.circling: set[Name] = set()

    def __bool__(self) -> bool:
        return bool(self.relations or self.nodes or self.denied or self.circling)

    def take_circling(self) -> bool:
        """Whether relations take away what leads into a circle, by the edges of rules and tuples; which they are."""
        self.circling = taking_circles_away([(of, name) for of in self.rules.current for name in self.rules.relations(of)], self.edges)
        return bool(self.circling)

    def spread(self, stored: Iterable[Tuple], denies_circles: bool) -> None:
        """Goes from each userset in doubt to those whose rules read it; also from those that take away what leads into a circle of usersets,
        where a service denies these whatever the rules say."""
        denies_circles = denies_circles and self.take_circling()
        self.circling = set()
        if not self.nodes and not denies_circles:
            return
        by_object: dict[tuple[str, str], list[Tuple]] = {}
        for one in stored:
            if isinstance(one.user, Userset):
                by_object.setdefault(one.user[:2], []).append(one)
        if denies_circles:
            self.denied = self._taking_circles_away(by_object)
        for nodes in self.nodes, self.denied:
            todo = list(nodes)
            while todo:
                node = todo.pop()
                for reader, _ in self._readers(node, by_object):
                    if reader not in nodes:
                        nodes.add(reader)
                        todo.append(reader)

    def _taking_circles_away(self, by_object: Mapping[tuple[str, str], list[Tuple]]) -> set[Node]:
        readers: dict[Node, list[tuple[Node, bool]]] = {}
        todo: list[Node] = [(of, thing, one.user.relation) for (of, thing), listed in by_object.items() for one in listed
                            if isinstance(one.user, Userset)]
        while todo:
            node = todo.pop()
            if node not in readers:
                readers[node] = list(self._readers(node, by_object))
                todo += [reader for reader, _ in readers[node]]
        # What reads nothing leads nowhere, nor does what reads such alone; the others lead into a circle.
        reads = Counter(reader for listed in readers.values() for reader, _ in listed)
        ends = [node for node in readers if not reads[node]]
        for node in ends:
            for reader, _ in readers[node]:
                reads[reader] -= 1
                ends += [] if reads[reader] else [reader]
        return {reader for node in readers.keys() - set(ends) for reader, is_strict in readers[node] if is_strict}

    def _readers(self, node: Node, by_object: Mapping[tuple[str, str], list[Tuple]]) -> Iterator[tuple[Node, bool]]:
        """The usersets whose rules read one, each with whether under a subtracted side."""
        of, id_text, relation = node
        for name, place in self.places.get(of, ()):
            if place.names[:1] == (relation,):
                yield (of, id_text, name), place.strict
        for one in by_object.get((of, id_text), ()):
            is_user = isinstance(one.user, Userset) and one.user.relation == relation
            for name, place in self.places.get(one.set.namespace, ()):
                if is_user and (name, place.form) == (one.set.relation, "this") or place.names == (one.set.relation, relation):
                    yield (one.set.namespace, one.set.id, name), place.strict

    def has_any(self, checks: Checks) -> bool:
        """Whether one of these checks may hang on something in doubt."""
        asked = ((checks.pairs[pair][0], thing, checks.pairs[pair][1]) for pair, thing in zip(column(checks.pair_of), checks.objects.split("\n")))
        return not (self.relations | self.circling).isdisjoint(checks.pairs) or bool(self.nodes or self.denied) and any(
            one in self.nodes or one in self.denied for one in asked)

    def cause(self, goal: Userset, low: Optional[int], high: Optional[int]) -> Optional[str]:
        """Why a check of a userset from one revision to another is not audited; None where nothing of it is in doubt."""
        node: Node = (goal.namespace, goal.id, goal.relation)
        if (goal.namespace, goal.relation) in self.relations or node in self.nodes:
            return causes.HANGS_ON_LEFT_OUT
        if node not in self.denied and (goal.namespace, goal.relation) not in self.circling:
            return None
        is_denied = self.circles is None or low is None or high is None or self.circles.deny(node, low, high, self.places)
        return causes.CIRCLE_TAKEN_AWAY if is_denied else None
