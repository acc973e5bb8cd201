"""Every user of a type, where a tuple names them all: a userset of a namespace that the importer adds.

It has an object for each type, whose relation stores each user of the type that a tuple or a check names. A check asks for one user,
who is among them, so what the tuple gives or takes away is exactly what the service means.
"""
from typing import Iterator, Optional, Union

from new_enemy_tools.importing.events import EVERY, Event, Relationship, RelationRule
from new_enemy_tools.importing.spool import Lines, WriteRow
from new_enemy_tools.texts import Userset

NAMESPACE = "every"
RELATION = "user"
# Below all revisions, which are counted from 0.
BEFORE = -1


class Wildcards:
    """The types whose users some tuple names all at once; without lines such tuples have no form, since later lines name other users."""

    def __init__(self, lines: Optional[Lines]):
        self.first: Union[Event, WriteRow, None] = None
        self.have_form = lines is not None
        self.tuples = 0
        self.users: dict[str, dict[Relationship, None]] = {}
        if lines is None:
            return
        taken = {name for event in lines.rules for name in event.namespaces}
        self.namespace = NAMESPACE
        while self.namespace in taken:
            self.namespace += "_"
        for event in lines.events() if lines.facts.has_every else ():
            for given in (*event.add, *event.remove):
                if given[5] == EVERY:
                    self.first = self.first or event
                    self.tuples += 1
                    self.users.setdefault(given[3], {})
        for user_type, user_id in lines.users() if self.first else ():
            if user_type in self.users:
                self.users[user_type][Relationship(self.namespace, user_type, RELATION, user_type, user_id)] = None

    def set_of(self, user_type: str) -> Userset:
        return Userset(self.namespace, user_type, RELATION)

    def rules(self) -> list[Event]:
        if self.first is None:
            return []
        rule = RelationRule(RELATION, {"this": {}}, self.first.line)
        return [Event("rules", self.first.file, self.first.line, namespaces={self.namespace: [rule]})]

    def write(self) -> Optional[Event]:
        """The write of all users, before all others."""
        if self.first is None:
            return None
        listed = [member for members in self.users.values() for member in members]
        return Event("write", self.first.file, self.first.line, BEFORE, "every user of a type", add=listed)

    def summary_lines(self) -> Iterator[str]:
        if self.first is not None:
            types = ", ".join("%d of type %s" % (len(members), name) for name, members in self.users.items())
            yield "wildcards %d: a tuple for every user of a type stands for the users that the log names, %s" % (self.tuples, types)
