"""What the rules mean of one goal at one snapshot: the usersets that it leads to, and which of them hold.

The answers explain; the program's audit does not lean on them.
"""
from typing import Iterator, NamedTuple, Optional

from new_enemy_tools import limits
from new_enemy_tools.faults import ToolFault
from new_enemy_tools.rules import Place, Rules, form_of, places
from new_enemy_tools.store import Store
from new_enemy_tools.strictjson import Object
from new_enemy_tools.texts import Tuple, Userset


class Outgrown(ToolFault):
    """A goal leads to more than is looked at."""

    def __init__(self) -> None:
        super().__init__("the goal leads to more than %s usersets, or reads them more than %s times; it is not looked at" % (
            format(limits.CONE_USERSETS, ","), format(limits.CONE_LINKS, ",")))


def refuse_outgrown(usersets: int, read: int) -> None:
    """Raises Outgrown where a goal leads to more usersets than this, or more links are read."""
    if usersets > limits.CONE_USERSETS or read > limits.CONE_LINKS:
        raise Outgrown


class Link(NamedTuple):
    """A userset that a rule reads, by which form, and whether under a subtracted side."""

    to: Userset
    form: str
    strict: bool


class Via(NamedTuple):
    """A userset that a place of a rule reads, and the stored tuple by which it does; a computed one has none."""

    to: Userset
    stored: Optional[Tuple]


def links(rules: Rules, store: Store, of: Userset, at: int) -> list[Link]:
    """What the rule of a userset reads, declared usersets alone."""
    found = []
    for place in rules.places_during(of.namespace, of.relation, at, at):
        for to, _ in ways(store, of, place, at):
            if rules.rewrite_at(to.namespace, to.relation, at) is not None:
                found.append(Link(to, " ".join((place.form,) + place.names), place.strict))
    return found


def ways(store: Store, of: Userset, place: Place, at: int) -> Iterator[Via]:
    """The usersets that a place of a rule reads."""
    if place.form == "computed":
        yield Via(Userset(of.namespace, of.id, place.names[0]), None)
        return
    holder = of if place.form == "this" else Userset(of.namespace, of.id, place.names[0])
    for user in store.usersets(holder, at):
        to = user if place.form == "this" else Userset(user.namespace, user.id, place.names[1])
        yield Via(to, Tuple(holder, user))


class Step(NamedTuple):
    """A step of evidence: one userset that the user is in, or a closed list of those he is not in."""

    yes: bool
    sets: list[Userset]


class Known:
    """What is known of one user at one timestamp, and what it says of rules."""

    def __init__(self, rules: Rules, store: Store, user: int, at: int):
        self.rules, self.store, self.user, self.at = rules, store, user, at
        self.known: dict[Userset, bool] = {}

    def is_declared(self, node: Userset) -> bool:
        return self.rules.rewrite_at(node.namespace, node.relation, self.at) is not None

    def of_rule(self, node: Userset) -> Optional[bool]:
        """True where the rule of a userset is established, False where it is refuted or there is none."""
        rewrite = self.rules.rewrite_at(node.namespace, node.relation, self.at)
        return False if rewrite is None else self._body(node, rewrite)

    def _body(self, node: Userset, rewrite: Object) -> Optional[bool]:
        """Whether a rule holds; None where that hangs on what is not known yet."""
        form = form_of(rewrite)
        inner = rewrite[form]
        if form == "exclusion":
            base = self._body(node, inner["base"])
            subtracted = self._body(node, inner["subtract"])
            return _all([base, None if subtracted is None else not subtracted])
        if form in ("union", "intersection"):
            children = [self._body(node, child) for child in inner]
            return _any(children) if form == "union" else _all(children)
        if form == "this" and self.store.has(Tuple(node, self.user), self.at):
            return True
        place = next(places(rewrite))
        return _any([self.state(to) for to, _ in ways(self.store, node, place, self.at)])

    def state(self, to: Userset) -> Optional[bool]:
        """Whether the user is in a userset, as far as that is known."""
        return self.known.get(to) if self.is_declared(to) else False


class Settled(Known):
    """Each userset that a goal leads to, settled stratum by stratum; raises Outgrown."""

    def __init__(self, rules: Rules, store: Store, goal: Tuple, at: int):
        assert isinstance(goal.user, int)
        super().__init__(rules, store, goal.user, at)
        self.goal = goal
        self.cone = self._cone()
        self.steps: list[Step] = []
        by_stratum: dict[int, list[Userset]] = {}
        for node in self.cone:
            by_stratum.setdefault(rules.stratum(node.namespace, node.relation), []).append(node)
        for stratum in sorted(by_stratum):
            self._settle(by_stratum[stratum])

    def holds(self) -> bool:
        return self.known.get(self.goal.set, False)

    def _cone(self) -> dict[Userset, list[Link]]:
        """Each userset is gone through once; raises Outgrown."""
        cone: dict[Userset, list[Link]] = {}
        todo, read = [self.goal.set], 0
        if not self.is_declared(self.goal.set):
            return cone
        while todo:
            node = todo.pop()
            if node not in cone:
                cone[node] = links(self.rules, self.store, node, self.at)
                read += len(cone[node])
                refuse_outgrown(len(cone), read)
                todo += [link.to for link in cone[node] if link.to not in cone]
        return cone

    def _settle(self, nodes: list[Userset]) -> None:
        """Those whose rule comes to hold, one by one; what is left when none does is in no set of them."""
        readers: dict[Userset, list[Userset]] = {}
        for node in nodes:
            for link in self.cone[node]:
                readers.setdefault(link.to, []).append(node)
        todo = list(reversed(nodes))
        while todo:
            node = todo.pop()
            if node not in self.known and self.of_rule(node) is True:
                self.known[node] = True
                self.steps.append(Step(True, [node]))
                todo += [reader for reader in readers.get(node, ()) if reader not in self.known]
        left = [node for node in nodes if node not in self.known]
        self.known.update(dict.fromkeys(left, False))
        if left:
            self.steps.append(Step(False, left))


def _any(answers: list[Optional[bool]]) -> Optional[bool]:
    if True in answers:
        return True
    return None if None in answers else False


def _all(answers: list[Optional[bool]]) -> Optional[bool]:
    if False in answers:
        return False
    return None if None in answers else True
