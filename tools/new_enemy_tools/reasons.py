"""Why a goal holds or does not: the path through groups and folders, from the steps of evidence."""
from typing import NamedTuple, Optional

from new_enemy_tools.meaning import Known, ways
from new_enemy_tools.rules import form_of, places
from new_enemy_tools.strictjson import Object
from new_enemy_tools.texts import Tuple, Userset


class Ground(NamedTuple):
    """One thing that a rule's holding, or its not holding, rests on."""

    # Where the rule reads the user's own tuple: that tuple, and its last touch, if any.
    own: Optional[Tuple] = None
    touch: Optional[tuple[int, bool]] = None
    # Where it reads a userset: that, the stored tuple that leads to it, since when it is stored, and why the user is in it or not.
    to: Optional[Userset] = None
    stored: Optional[Tuple] = None
    since: Optional[int] = None
    why: Optional["Reason"] = None
    # Where it reads a tupleset in which nothing is stored.
    empty: Optional[Userset] = None
    # Whether that is on a subtracted side.
    subtracted: bool = False


class Reason(NamedTuple):
    """Why the user is in a userset or not. A relation that is not declared has no grounds, and nobody is in it."""

    of: Userset
    holds: bool
    grounds: list[Ground]
    # How many grounds are not told, and why a userset has none that are: `above` where it has them there, `long` where too
    # much was told already.
    more: int = 0
    cut: str = ""


class Reasons:
    """The reasons of a goal, by what the steps of evidence made known, in their order. Few usersets are told, so that recursion and
    text stay short however long a path is."""

    def __init__(self, known: Known, goal: Userset, usersets: int = 40, grounds: int = 10):
        self.known, self.goal = known, goal
        self.rank = {node: place for place, node in enumerate(known.known)}
        self.left, self.most = usersets, grounds
        self.explained: set[Userset] = set()

    def of_goal(self) -> Reason:
        return self._reason(self.goal)

    def _reason(self, node: Userset) -> Reason:
        holds = self.known.known.get(node, False)
        rewrite = self.known.rules.rewrite_at(node.namespace, node.relation, self.known.at)
        if rewrite is None:
            return Reason(node, False, [])
        if node in self.explained or not self.left:
            return Reason(node, holds, [], cut="above" if node in self.explained else "long")
        self.left -= 1
        self.explained.add(node)
        grounds = self._grounds(node, rewrite, holds) or []
        shown = [one if one.to is None else one._replace(why=self._reason(one.to)) for one in grounds[:self.most]]
        return Reason(node, holds, shown, len(grounds) - len(shown))

    def _grounds(self, node: Userset, rewrite: Object, wanted: bool) -> Optional[list[Ground]]:
        """What shows that a part of a node's rule holds, or does not; None where it is the other way."""
        form = form_of(rewrite)
        inner = rewrite[form]
        if form == "exclusion":
            return self._of_exclusion(node, inner, wanted)
        if form in ("union", "intersection"):
            listed = [self._grounds(node, child, wanted) for child in inner]
            if (form == "union") == wanted:
                # One child is enough; the shortest says it best.
                shown = [one for one in listed if one is not None]
                return min(shown, key=_cost) if shown else None
            return None if None in listed else [ground for one in listed if one for ground in one]
        return self._of_leaf(node, rewrite, wanted)

    def _of_exclusion(self, node: Userset, inner: Object, wanted: bool) -> Optional[list[Ground]]:
        base = self._grounds(node, inner["base"], wanted)
        if base is not None and not wanted:
            return base
        subtracted = self._grounds(node, inner["subtract"], not wanted)
        if subtracted is None or (wanted and base is None):
            return None
        marked = [one._replace(subtracted=True) for one in subtracted]
        return [*(base or []), *marked] if wanted else marked

    def _of_leaf(self, node: Userset, rewrite: Object, wanted: bool) -> Optional[list[Ground]]:
        known, place = self.known, next(places(rewrite))
        own = Tuple(node, known.user)
        found: list[Ground] = []
        if place.form == "this":
            touch = known.store.last_touch(own, known.at)
            is_stored = touch is not None and touch[1]
            if is_stored:
                return [Ground(own=own, touch=touch)] if wanted else None
            found.append(Ground(own=own, touch=touch))
        read = list(ways(known.store, node, place, known.at))
        if wanted:
            usable = [one for one in read if self._is_usable(one.to, node)]
            best = min(usable, key=lambda one: self.rank[one.to], default=None)
            return None if best is None else [self._ground(best.to, best.stored)]
        if any(known.state(one.to) is not False for one in read):
            return None
        if place.form == "tuple_to" and not read:
            return [Ground(empty=Userset(node.namespace, node.id, place.names[0]))]
        return found + [self._ground(one.to, one.stored) for one in read]

    def _is_usable(self, to: Userset, node: Userset) -> bool:
        """Whether the user is in a userset, and that was found before it was found of the node."""
        return self.known.state(to) is True and self.rank[to] < self.rank[node]

    def _ground(self, to: Userset, stored: Optional[Tuple]) -> Ground:
        touch = None if stored is None else self.known.store.last_touch(stored, self.known.at)
        return Ground(to=to, stored=stored, since=None if touch is None else touch[0])


def _cost(grounds: list[Ground]) -> int:
    """How many usersets more the grounds lead to."""
    return sum(ground.to is not None for ground in grounds)
