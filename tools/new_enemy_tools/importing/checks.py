"""Many plain checks of a file as columns, with the lines that stand among them.

The table of ids renames nothing that a plain check names, but for its user and its type and relation. What many checks share stands
once: their types and relations, their users, and what they looked at.
"""
from array import array
from itertools import repeat
from typing import Any, Iterable, Iterator, NamedTuple, Optional

from new_enemy_tools.importing.times import nanoseconds

# The plain values of a line.
Row = tuple[Any, ...]
# In place of a line: the checks behind it are the first of a type and relation.
NAMES = "names"
# In place of the token of a check that names a version: it asked for the newest state, and so for all that its version has to show.
NEWEST = -2
Other = tuple[int, int, Row]


class Look(NamedTuple):
    """What a check looked at and was told, as the fields of an Entry."""

    reply: bool
    snapshot: Optional[int]
    shown: str
    token: Optional[int]
    version: Optional[str]
    asked: Optional[Row]


class Checks(NamedTuple):
    """The columns have an item for each check: its pair, user and look by their places, its object, its line, and its time and its sequence, if
    any has one, where -1 stands for none.

    `others` are rows, each with the number of checks before it, and of the users that these have.
    """

    file: str
    pairs: list[tuple[str, str]]
    users: list[tuple[str, str]]
    looks: list[Row]
    pair_of: bytes
    user_of: bytes
    look_of: bytes
    objects: str
    lines: bytes
    times: str
    others: list[Other]
    sequences: bytes = b""

    @property
    def size(self) -> int:
        return len(self.lines) // array("Q").itemsize

    @property
    def first(self) -> int:
        """The line of the first check."""
        return column(self.lines, "Q")[0]

    def entries(self) -> Iterator[Row]:
        """The checks as rows, each with the fields of an Entry."""
        times = self.times.split("\n") if self.times else repeat("")
        sequences: Iterable[int] = column(self.sequences, "q") if self.sequences else repeat(-1)
        for pair, thing, user, look, line, time, sequence in zip(column(self.pair_of), self.objects.split("\n"), column(self.user_of),
                                                                 column(self.look_of), column(self.lines, "Q"), times, sequences):
            of, relation = self.pairs[pair]
            reply, snapshot, shown, token, version, asked = self.looks[look]
            yield ("check", self.file, line, (of, thing, relation, *self.users[user], None), reply, snapshot, shown, token, version,
                   None, False, asked, None if sequence < 0 else (sequence, 0), nanoseconds(time) if time else None, self.file, None, None)

    def rows(self) -> Iterator[Row]:
        """All lines as rows, in order."""
        entries, at = self.entries(), 0
        for place, _, row in self.others:
            for _ in range(at, place):
                yield next(entries)
            at = place
            if row[0] != NAMES:
                yield row
        yield from entries


def column(data: bytes, kind: str = "I") -> "array[int]":
    made: "array[int]" = array(kind)
    made.frombytes(data)
    return made
