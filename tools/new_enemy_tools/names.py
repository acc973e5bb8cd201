"""What things are called for people: by the table of ids where there is one, or as the trace calls them."""
from typing import NamedTuple, Optional

from new_enemy_tools.ids import Ids
from new_enemy_tools.texts import Tuple, Userset


class Question(NamedTuple):
    """The parts of a goal."""

    namespace: str
    object: str
    relation: str
    user: str


class Names:
    def __init__(self, ids: Optional[Ids]):
        self.ids = ids

    def tuple(self, given: Tuple) -> str:
        return self.ids.tuple_of(given) if self.ids else str(given)

    def userset(self, of: Userset) -> str:
        return self.ids.userset_of(of) if self.ids else str(of)

    def user(self, number: int) -> str:
        return self.ids.user_of(number) if self.ids else str(number)

    def relation(self, name: str) -> str:
        return self.ids.name_of("relation", name) if self.ids else name

    def version(self, label: str) -> str:
        return self.ids.id_of("version", label) if self.ids else label

    def question(self, goal: Tuple) -> Question:
        assert isinstance(goal.user, int)
        of, ids = goal.set, self.ids
        if ids is None:
            return Question(of.namespace, of.id, of.relation, str(goal.user))
        return Question(ids.name_of("namespace", of.namespace), ids.id_of("object", of.id), ids.name_of("relation", of.relation),
                        ids.user_of(goal.user))
