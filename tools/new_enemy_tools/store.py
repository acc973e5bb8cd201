"""The store at a timestamp: the fold of the touches."""
from bisect import bisect_right
from typing import Iterator, Optional

from new_enemy_tools import texts
from new_enemy_tools.texts import Tuple, Userset

NINE = b"9"[0]
Touches = list[tuple[int, bool]]
# a user, a timestamp, and whether the tuple was added
Touched = tuple[bytes, int, bool]
# So many touches at most are told apart by their users at once, and some more.
TOLD_APART = 1 << 17


def _place(touches: Touches, at: int) -> int:
    """How many touches are at a timestamp or below."""
    return bisect_right(touches, (at, True))


def _is_live(touches: Touches, at: int) -> bool:
    number = _place(touches, at)
    return number > 0 and touches[number - 1][1]


class _Users:
    """The users that a userset ever had, as texts, each with its touches; and those that are usersets."""

    def __init__(self, touched: list[Touched]):
        self.touches: dict[bytes, Touches] = {}
        self.sets: dict[bytes, tuple[Userset, Touches]] = {}
        for user, at, live in touched:
            self.add(user, at, live)

    def add(self, user: bytes, at: int, live: bool) -> None:
        listed = self.touches.get(user)
        if listed is None:
            listed = self.touches[user] = []
            if user[0] > NINE:
                self.sets[user] = texts.userset_of(user.decode()), listed
        listed.append((at, live))


NOBODY = _Users([])


class Store:
    """Touches are kept by the text of their userset; the users of one are told apart where it is asked for."""

    def __init__(self) -> None:
        self._touches: dict[bytes, list[Touched]] = {}
        self._users: dict[bytes, _Users] = {}
        self._told_apart = 0

    def touch(self, at: int, given: Tuple, live: bool) -> None:
        self.touch_texts(at, [(str(given.set).encode(), str(given.user).encode())], live)

    def touch_texts(self, at: int, pairs: list[tuple[bytes, bytes]], live: bool) -> None:
        """As `touch`, of tuples as the texts of their usersets and users."""
        known, told_apart = self._touches, self._users
        for of, user in pairs:
            listed = known.get(of)
            if listed is None:
                known[of] = [(user, at, live)]
                told_apart.pop(of, None)
                continue
            listed.append((user, at, live))
            if of in told_apart:
                told_apart[of].add(user, at, live)

    def untouched(self, pairs: list[tuple[bytes, bytes]]) -> list[bytes]:
        """Those of the usersets that were never touched before."""
        known = self._touches
        return [of for of, _ in pairs if of not in known]

    def knows(self, of: bytes) -> bool:
        """Whether a userset of this text was ever touched."""
        return of in self._touches

    def _of(self, of: bytes) -> _Users:
        users = self._users.get(of)
        if users is None:
            if self._told_apart > TOLD_APART:
                self._users.clear()
                self._told_apart = 0
            listed = self._touched(of)
            self._told_apart += 1 if listed is None else len(listed)
            users = self._users[of] = NOBODY if listed is None else _Users(listed)
        return users

    def _touched(self, of: bytes) -> Optional[list[Touched]]:
        return self._touches.get(of)

    def _of_set(self, of: Userset) -> _Users:
        return self._of(str(of).encode())

    # By texts

    def has_text(self, of: bytes, user: bytes, at: int) -> bool:
        """As `has`."""
        touches = self._of(of).touches.get(user)
        return touches is not None and _is_live(touches, at)

    def set_texts(self, of: bytes, at: int) -> list[bytes]:
        """As `usersets`."""
        sets = self._of(of).sets
        return [user for user, (_, touches) in sets.items() if _is_live(touches, at)] if sets else []

    # By values

    def touches(self, given: Tuple) -> Touches:
        """All touches of a tuple, with their timestamps."""
        return self._of_set(given.set).touches.get(str(given.user).encode(), [])

    def touches_during(self, given: Tuple, low: int, high: int) -> Touches:
        """Those above one timestamp, up to another."""
        touches = self.touches(given)
        return touches[_place(touches, low):_place(touches, high)]

    def has(self, given: Tuple, at: int) -> bool:
        return _is_live(self.touches(given), at)

    def last_touch(self, given: Tuple, at: int) -> Optional[tuple[int, bool]]:
        """The last touch at a timestamp or below."""
        touches = self.touches(given)
        number = _place(touches, at)
        return touches[number - 1] if number else None

    def usersets(self, of: Userset, at: int) -> Iterator[Userset]:
        """The usersets stored in a userset."""
        for user, touches in self._of_set(of).sets.values():
            if _is_live(touches, at):
                yield user

    def usersets_during(self, of: Userset, low: int, high: int) -> Iterator[Userset]:
        """The usersets stored at some moment from one timestamp to another."""
        for user, touches in self._of_set(of).sets.values():
            first = _place(touches, low)
            if first > 0 and touches[first - 1][1] or any(live for _, live in touches[first:_place(touches, high)]):
                yield user

    def times_of_usersets(self, of: Userset, low: int, high: int) -> Iterator[int]:
        """When usersets were added to a userset or removed, above one timestamp, up to another."""
        for _, touches in self._of_set(of).sets.values():
            for at, _ in touches[_place(touches, low):_place(touches, high)]:
                yield at
