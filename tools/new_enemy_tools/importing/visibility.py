"""Snapshots of PostgreSQL as numbers: the transactions of a log in an order of which each snapshot sees the first few.

Snapshots are taken one by one where they go together with those before: of two, one has to see all that the other sees. Those of
checks come before those of writers, which see a transaction that had not come to an end; then those that see the first of the
watch stream; then those that most checks have. Transactions are put into the order that these give, and into that of the stream
where none tells them apart. A snapshot that was not taken sees no beginning of that order.
"""
from bisect import bisect_left
from collections import Counter
from typing import Any, Callable, NamedTuple, Optional

from new_enemy_tools.importing import causes
from new_enemy_tools.importing.events import Entry, Event, Line, Stamp, put_stamp
from new_enemy_tools.importing.order import ordered
from new_enemy_tools.importing.refusals import Refusals
from new_enemy_tools.importing.spool import Lines
from new_enemy_tools.importing.zedtokens import Snapshot


class Seen(NamedTuple):
    """What a snapshot sees of the transactions of a log, which are numbered by their ids: those below `end`, without those
    that are missing, and one more."""

    end: int
    missing: frozenset[int]
    extra: Optional[int]

    @property
    def size(self) -> int:
        return self.end - len(self.missing) + (self.extra is not None)

    def has(self, number: int) -> bool:
        return number == self.extra or number < self.end and number not in self.missing

    def within(self, other: "Seen") -> bool:
        if any(self.has(number) for number in other.missing) or self.extra is not None and not other.has(self.extra):
            return False
        above = range(other.end, max(other.end, self.end))
        hidden = sum(number in above and number != other.extra for number in self.missing)
        return hidden + (other.extra is not None and other.extra in above) == len(above)


class History:
    """The transactions of a log, in the order of its watch stream, and the snapshots that look at them, each with a count."""

    def __init__(self, stream: list[int], snapshots: Counter[Snapshot]):
        self.ids = sorted(stream)
        self.places = {transaction: place for place, transaction in enumerate(stream)}
        self.seen = {snapshot: self._seen(snapshot) for snapshot in snapshots}
        counts: Counter[Seen] = Counter()
        for snapshot, count in snapshots.items():
            counts[self.seen[snapshot]] += count
        whole = {self.seen[snapshot] for snapshot in snapshots if snapshot.own is None}
        least = self._least_behind()
        self.chain: list[Seen] = []
        self.sizes: list[int] = []
        self.numbers: dict[Seen, int] = {}
        for seen in sorted(counts, key=lambda seen: (seen not in whole, not self._is_first(seen, least), -counts[seen], seen.size)):
            self._take(seen)

    def _seen(self, snapshot: Snapshot) -> Seen:
        end = bisect_left(self.ids, snapshot.xmax)
        missing = {bisect_left(self.ids, one) for one in snapshot.running if one in self.places and one != snapshot.own}
        own = bisect_left(self.ids, snapshot.own) if snapshot.own in self.places else -1
        return Seen(end, frozenset(missing), own if own >= end else None)

    def _least_behind(self) -> list[tuple[int, int]]:
        """Behind each number of transactions, the two least places in the stream."""
        count = len(self.ids)
        found = [(count, count)]
        for transaction in reversed(self.ids):
            first, second, _ = sorted((*found[-1], self.places[transaction]))
            found.append((first, second))
        return found[::-1]

    def _is_first(self, seen: Seen, least: list[tuple[int, int]]) -> bool:
        """Whether it sees the first of the stream: the first that it does not see stands where they end."""
        one, other = least[seen.end]
        unseen = other if seen.extra is not None and self.places[self.ids[seen.extra]] == one else one
        return min([self.places[self.ids[number]] for number in seen.missing] + [unseen]) == seen.size

    def _take(self, seen: Seen) -> None:
        place = bisect_left(self.sizes, seen.size)
        if place and not self.chain[place - 1].within(seen):
            return
        if place < len(self.chain) and not seen.within(self.chain[place]):
            return
        self.numbers[seen] = seen.size
        if self.sizes[place:place + 1] != [seen.size]:
            self.chain.insert(place, seen)
            self.sizes.insert(place, seen.size)

    def _first_that(self, holds: Callable[[Seen], bool]) -> int:
        """The place in the chain of the first of which it holds, as of all behind; its length where there is none."""
        low, high = 0, len(self.chain)
        while low < high:
            middle = (low + high) // 2
            low, high = (low, middle) if holds(self.chain[middle]) else (middle + 1, high)
        return low

    def order(self) -> list[int]:
        """All transactions, so that each snapshot that was taken sees the first of them."""
        ranks = {transaction: self._first_that(lambda seen: seen.has(number)) for number, transaction in enumerate(self.ids)}
        return sorted(self.places, key=lambda transaction: (ranks[transaction], self.places[transaction]))

    def number(self, snapshot: Snapshot) -> Optional[int]:
        """How many transactions it sees, where these are the first."""
        return self.numbers.get(self.seen[snapshot])

    def least_with(self, snapshot: Snapshot) -> int:
        """The first snapshot that was taken and sees all that it sees; all transactions where none does."""
        place = self._first_that(self.seen[snapshot].within)
        return self.sizes[place] if place < len(self.sizes) else len(self.ids)


def placed(lines: list[Line], base: Optional[Snapshot], skew: Optional[int], refusals: Refusals) -> Lines:
    """Puts numbers for snapshots, and the writes into their order; the lines that have a number."""
    for event in lines:
        if isinstance(event, Event) and event.asked is not None:
            event.asked = _snapshots(event.asked)
    # What is wrong with the order is refused once, where all lines are put into it.
    writes = ordered([event for event in lines if isinstance(event, Event) and event.asked is not None], skew, Refusals())
    for event in writes:
        if base is not None and base.sees(_own(event)):
            refusals.refuse(event.file, event.line, "its revision %s is not later than that of the base state" % event.shown)
    asked = {id(line): _snapshots(line.asked) for line in lines if isinstance(line, Entry)}
    snapshots: Counter[Snapshot] = Counter(one[0] for one in asked.values())
    told = [one for pair in asked.values() for one in pair if one is not None] + [_wrote(event) for event in writes]
    snapshots.update(dict.fromkeys(told, 0))
    history = History(list(dict.fromkeys(map(_own, writes))), snapshots)
    numbers = {transaction: number for number, transaction in enumerate(history.order(), 1)}
    for event in writes:
        event.revision = numbers[_own(event)]
    lines = _in_order(lines, writes)
    for event in writes:
        event.asked = None
    made = Lines()
    for line in lines:
        found = _place(line, asked[id(line)], history, base, refusals) if isinstance(line, Entry) else line
        if found is not None:
            made.add(found)
    return made


def _snapshots(asked: Optional[tuple[Any, ...]]) -> tuple[Any, ...]:
    """The snapshots of a row."""
    return tuple(one and Snapshot(*one) for one in asked or ())


def _wrote(event: Event) -> Snapshot:
    """The snapshot of a write."""
    assert event.asked is not None
    snapshot: Snapshot = event.asked[0]
    return snapshot


def _own(event: Event) -> int:
    """The transaction that wrote."""
    own = _wrote(event).own
    assert own is not None
    return own


def _in_order(lines: list[Line], writes: list[Event]) -> list[Line]:
    """The writes in their order, each in the place and with the stamp of the one that the stream has there."""
    slots = {id(event): other for event, other in zip(writes, sorted(writes, key=lambda event: event.revision or 0))}
    stamps = {id(event): Stamp(event.sequence and event.sequence[0], event.time, event.clock) for event in writes}
    found: list[Line] = []
    for line in lines:
        other = slots.get(id(line))
        found.append(line if other is None or other is line else put_stamp(other, stamps[id(line)]))
    return found


def _place(entry: Entry, asked: tuple[Any, ...], history: History, base: Optional[Snapshot], refusals: Refusals) -> Optional[Entry]:
    snapshot, token = asked
    number = -1 if base is not None and not snapshot.contains(base) else history.number(snapshot)
    if number is None:
        refusals.unmapped_check(entry, causes.NO_BEGINNING, entry.shown)
        return None
    demanded = entry.token if token is None else history.number(token)
    if token is not None and demanded is None:
        if entry.version is not None:
            refusals.unmapped_check(entry, causes.TOKEN_NO_BEGINNING, str(token))
            return None
        demanded = history.least_with(token)
    return entry._replace(snapshot=number, token=demanded, asked=None)
