"""What a goal leads to over a time, and the commits that touch it."""
from typing import Optional

from new_enemy_tools.entries import Commit
from new_enemy_tools.meaning import refuse_outgrown
from new_enemy_tools.texts import Tuple, Userset
from new_enemy_tools.token_order import Window
from new_enemy_tools.trace import Trace


class Reach:
    """The usersets that a goal leads to at some moment from a window's low to its high, and those whose tuples are read there.

    Where no commit of the window touches these, the goal's answer is the same at both ends. Raises Outgrown.
    """

    def __init__(self, trace: Trace, goal: Tuple, window: Window):
        self.trace, self.goal, self.window = trace, goal, window
        self.nodes: set[Userset] = set()
        self.read: set[Userset] = set()
        # Each userset is gone through once, with the usersets ever stored in those that it reads.
        todo, read = [goal.set], 0
        while todo:
            node = todo.pop()
            if node not in self.nodes:
                self.nodes.add(node)
                found = self._next(node)
                read += len(found)
                refuse_outgrown(len(self.nodes), read)
                todo += found
        self.namespaces = {node.namespace for node in self.nodes}

    def _next(self, node: Userset) -> list[Userset]:
        found: list[Userset] = []
        for place in self.trace.rules.places_during(node.namespace, node.relation, *self.window):
            if place.form == "computed":
                found.append(Userset(node.namespace, node.id, place.names[0]))
            elif place.form == "this":
                self.read.add(node)
                found += self.trace.store.usersets_during(node, *self.window)
            else:
                tupleset = Userset(node.namespace, node.id, place.names[0])
                self.read.add(tupleset)
                found += [Userset(parent.namespace, parent.id, place.names[1])
                          for parent in self.trace.store.usersets_during(tupleset, *self.window)]
        return found

    def touching(self) -> list[int]:
        """The timestamps of the window's commits that touch what the goal leads to, new rules among them."""
        low, high = self.window
        found = {one.at for one in self.trace.rules.declarations
                 if one.at is not None and low < one.at <= high and one.name in self.namespaces}
        for of in self.read:
            found.update(self.trace.store.times_of_usersets(of, low, high))
            found.update(at for at, _ in self.trace.store.touches_during(Tuple(of, self.goal.user), low, high))
        return sorted(found)

    def bears(self, given: Tuple) -> bool:
        """Whether a tuple is of those that the goal's answer may hang on."""
        return given.set in self.read and (isinstance(given.user, Userset) or given.user == self.goal.user)


def commit_at(trace: Trace, at: int) -> Optional[Commit]:
    place = trace.commits.place_at(at)
    return None if place is None else trace.commits[place]
