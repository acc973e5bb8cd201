"""What happens in a service whose logs are made: writes, checks with right replies, and content checks, drawn by a seed."""
from random import Random
from typing import Dict, Iterator, List, NamedTuple, Optional, Set, Tuple, Union

# Type, id, relation, and the user's type, id and relation.
Given = Tuple[str, str, str, str, str, Optional[str]]
Userset = Tuple[str, str, Optional[str]]
RELATIONS = ("viewer", "editor", "owner")
# Of a hundred lines so many are writes, and content checks; and of checks so many name a version.
WRITES, CONTENTS, VERSIONED = 10, 2, 25


class Size(NamedTuple):
    """How many there are, and of a hundred new tuples how many put a group into a group."""

    things: int = 60_000
    users: int = 20_000
    groups: int = 300
    nested: int = 0


class Write(NamedTuple):
    at: int
    add: List[Given]
    remove: List[Given]


class Check(NamedTuple):
    """`version` is the label that is shown or, of a content check, saved."""

    at: int
    goal: Given
    reply: bool
    version: Optional[str] = None
    token: Optional[int] = None
    is_content: bool = False


class World:
    """Documents that users and groups view, edit and own; whoever edits views, and whoever owns edits."""

    def __init__(self, seed: int, size: Size = Size()):
        self.random, self.size = Random(seed), size
        self.at = 0
        # the tuples of each userset, by its type, id and relation
        self.stored: Dict[Userset, Set[Given]] = {}
        # those of them that name a group, in order
        self.grouped: Dict[Userset, Dict[Given, None]] = {}
        self.listed: List[Given] = []
        self.versions: List[Tuple[str, str, str, int]] = []

    def events(self) -> Iterator[Union[Write, Check]]:
        """Without an end."""
        draw = self.random.randrange
        yield self.write()
        while True:
            kind = draw(100)
            if kind < WRITES:
                yield self.write()
            elif kind < WRITES + CONTENTS:
                yield self.content()
            else:
                yield self.check(draw(100) < VERSIONED)

    def _user(self) -> str:
        return "u-%08x" % (self.random.randrange(self.size.users) * 2654435761 % (1 << 32))

    def _new(self) -> Given:
        draw = self.random.randrange
        if self.size.nested and draw(100) < self.size.nested:
            return "group", "team-%d" % draw(self.size.groups), "member", "group", "team-%d" % draw(self.size.groups), "member"
        if draw(10) == 0:
            return "group", "team-%d" % draw(self.size.groups), "member", "user", self._user(), None
        thing, relation = "report-2024-%06d" % draw(self.size.things), RELATIONS[draw(3)]
        if draw(10) == 0:
            return "document", thing, relation, "group", "team-%d" % draw(self.size.groups), "member"
        return "document", thing, relation, "user", self._user(), None

    def write(self) -> Write:
        """Most are of one tuple; some take one away."""
        self.at += 1
        made = Write(self.at, [], [])
        while not made.add:
            for _ in range(self.random.choice((1, 1, 1, 1, 2, 3))):
                new = self._new()
                if new not in self.stored.setdefault(new[:3], set()):
                    self.stored[new[:3]].add(new)
                    if new[5] is not None:
                        self.grouped.setdefault(new[:3], {})[new] = None
                    made.add.append(new)
        if self.listed and self.random.randrange(4) == 0:
            place = self.random.randrange(len(self.listed))
            gone, self.listed[place] = self.listed[place], self.listed[-1]
            self.listed.pop()
            self.stored[gone[:3]].discard(gone)
            self.grouped.get(gone[:3], {}).pop(gone, None)
            made.remove.append(gone)
        self.listed += made.add
        return made

    def _holds(self, thing: str, relation: str, user: str) -> bool:
        waiting: List[Userset] = [("document", thing, one) for one in RELATIONS[RELATIONS.index(relation):]]
        seen = set(waiting)
        for userset in waiting:
            if (*userset, "user", user, None) in self.stored.get(userset, ()):
                return True
            for given in self.grouped.get(userset, ()):
                if given[3:6] not in seen:
                    seen.add(given[3:6])
                    waiting.append(given[3:6])
        return False

    def _asked(self) -> Given:
        """Half of the checks are of what a tuple names."""
        if self.random.randrange(2):
            given = self.listed[self.random.randrange(len(self.listed))]
            if given[0] == "document" and given[5] is None:
                return (*given[:2], "viewer", *given[3:])
        return "document", "report-2024-%06d" % self.random.randrange(self.size.things), "viewer", "user", self._user(), None

    def check(self, is_versioned: bool) -> Check:
        goal, version, token = self._asked(), None, None
        if is_versioned and self.versions:
            thing, _, version, token = self.versions[self.random.randrange(len(self.versions))]
            goal = ("document", thing, *goal[2:])
        return Check(self.at, goal, self._holds(goal[1], goal[2], goal[4]), version, token)

    def content(self) -> Check:
        """One that was allowed saves a version."""
        goal = self._asked()
        goal = (*goal[:2], "editor", *goal[3:])
        reply = self._holds(goal[1], "editor", goal[4])
        version = "v%d-%d" % (self.at, len(self.versions)) if reply else None
        if version is not None:
            self.versions.append((goal[1], goal[4], version, self.at))
        return Check(self.at, goal, reply, version, self.at if reply else None, True)
