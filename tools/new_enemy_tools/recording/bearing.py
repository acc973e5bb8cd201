"""Which changes bear on a question: by the names of the rules alone, whatever is stored, so rather too many than too few."""
from typing import Optional

from new_enemy_tools.importing.events import EVERY, Relationship
from new_enemy_tools.importing.service import ServiceRules
from new_enemy_tools.rules import places

Name = tuple[str, str]


class Bearing:
    """All rules so far, and of each relation that was asked for the relations that it reads: of its own object, and of any."""

    def __init__(self) -> None:
        self.reads: dict[Name, set[tuple[Name, bool]]] = {}
        self.found: dict[Name, tuple[set[str], set[Name]]] = {}

    def add(self, rules: ServiceRules) -> None:
        self.found.clear()
        for name, relations in rules.event.namespaces.items():
            for relation in relations:
                reads = self.reads.setdefault((name, relation.name), set())
                # A userset that is stored leads to another object.
                reads.update(((of, user), False) for of, user in rules.takes.get((name, relation.name), ())
                             if user is not None and user != EVERY)
                for place in places(relation.rewrite):
                    if place.form == "computed":
                        reads.add(((name, place.names[0]), True))
                    elif place.form == "tuple_to":
                        reads.add(((name, place.names[0]), True))
                        reads.update(((of, place.names[1]), False) for of, _ in rules.takes.get((name, place.names[0]), ()))

    def _of(self, goal: Name) -> tuple[set[str], set[Name]]:
        """The relations of the goal's own object, and those of any, that it reads. Each relation is gone through twice at most."""
        found = self.found.get(goal)
        if found is None:
            seen, waiting = {(goal, True)}, [(goal, True)]
            while waiting:
                name, is_own = waiting.pop()
                for of, stays in self.reads.get(name, ()):
                    one = (of, is_own and stays)
                    if one not in seen:
                        seen.add(one)
                        waiting.append(one)
            found = {name[1] for name, is_own in seen if is_own}, {name for name, is_own in seen if not is_own}
            self.found[goal] = found
        return found

    def bears(self, given: Optional[Relationship], goal: Relationship) -> bool:
        """Whether a change of a tuple may change the answer; one that could not be read may change any."""
        if given is None:
            return True
        own, others = self._of((goal.type, goal.relation))
        if (given.type, given.relation) in others:
            return True
        return given.relation in own and given[:2] == goal[:2]
