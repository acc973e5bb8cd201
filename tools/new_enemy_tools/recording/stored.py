"""The tuples that a service has, or that its changes left so far, kept small: each is one text."""
from typing import Iterator, Optional

from new_enemy_tools.importing.events import Relationship
from new_enemy_tools.recording.overlap import Change

# Stands in no part of a tuple that can be read.
APART = "\n"


class Stored:
    def __init__(self) -> None:
        # of each tuple why it has no form in a log; and changes that can't be read
        self.tuples: dict[str, Optional[str]] = {}
        self.odd: list[Change] = []
        self.count = 0

    def take(self, change: Change) -> None:
        self.count += 1
        if change.given is None or not self.put(change.given, change.reason, change.live):
            self.odd.append(change)

    def put(self, given: Relationship, reason: Optional[str], live: bool = True) -> bool:
        """Whether a tuple could be kept, or taken away."""
        text = APART.join(one or "" for one in given)
        if text.count(APART) != len(Relationship._fields) - 1:
            return False
        if live:
            self.tuples[text] = reason
        else:
            self.tuples.pop(text, None)
        return True

    def items(self) -> Iterator[tuple[Relationship, Optional[str]]]:
        for text, reason in self.tuples.items():
            of, id_text, relation, user_type, user_id, user_relation = text.split(APART)
            yield Relationship(of, id_text, relation, user_type, user_id, user_relation or None), reason
