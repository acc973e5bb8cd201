"""SpiceDB on PostgreSQL, whose tokens say which transactions they see: commits are numbered as they come from the watch stream.

The snapshot of a reply is the number of commits that it sees, where these are the first ones. That can be said when the stream has
come to a token that sees all that the reply saw.
"""
from collections import deque

from new_enemy_tools.importing.reading import Bad
from new_enemy_tools.importing.zedtokens import Snapshot

# Of so many transactions it is remembered which they were.
REMEMBERED = 5_000
# So many of the last tokens of the stream are looked at.
TOKENS = 8


class Transactions:
    def __init__(self, base: Snapshot, count: int):
        self.base, self.count = base, count
        self.tokens: deque[Snapshot] = deque([base], TOKENS)
        # the last transactions in their order, each with the highest up to it
        self.order: list[int] = []
        self.highest: list[int] = []
        # the highest of those before
        self.forgotten = 0

    def watch(self, token: Snapshot) -> None:
        self.tokens.appendleft(token)

    def add(self, transaction: int) -> int:
        """The number of a transaction that wrote."""
        self.order.append(transaction)
        self.highest.append(max(transaction, self.highest[-1] if self.highest else 0))
        self.count += 1
        if len(self.order) > 2 * REMEMBERED:
            self.forgotten = self.highest[REMEMBERED - 1]
            del self.order[:REMEMBERED], self.highest[:REMEMBERED]
        return self.count

    def reaches(self, snapshot: Snapshot) -> bool:
        """Whether all that a snapshot sees has come."""
        return any(token.contains(snapshot) for token in self.tokens)

    def _last_seen(self, snapshot: Snapshot) -> int:
        """Behind how many of the remembered transactions the last one stands that a snapshot sees."""
        place = len(self.order)
        while place and not snapshot.sees(self.order[place - 1]):
            place -= 1
        return place

    def number(self, snapshot: Snapshot) -> int:
        """How many commits a snapshot sees; raises Bad where these are not the first ones."""
        if not snapshot.contains(self.base):
            raise Bad("a snapshot is from before the log")
        place = last = self._last_seen(snapshot)
        while place and self.highest[place - 1] >= snapshot.xmin:
            if not snapshot.sees(self.order[place - 1]):
                raise Bad("a snapshot sees no beginning of the order of commits")
            place -= 1
        if snapshot.xmin <= self.forgotten:
            raise Bad("a snapshot is too old")
        return self.count - len(self.order) + last

    def demanded(self, token: Snapshot) -> int:
        """The first number of commits that have all that a token sees."""
        return self.count - len(self.order) + self._last_seen(token)
