"""Where the commits of OpenFGA stand, and from when to when each may have come.

The log has one order of commits; of two whose times overlap it is not known whether it is theirs.

1. Each read of the changes begins some way back, at a token at least --overlap seconds old. What it has seen is known by the tuple, whether
   it came or went, and the service's time. A read that shows less than one before, as a replica may, counts for nothing.
2. A change did not come before a read began that did not show it, and had come when one ended that did; a write that passed came between its
   request and its answer. Its changes with one time, side by side, are one commit; others are one each. Where a write has no answer yet,
   they are placed when it has one, or two seconds after it was asked.
3. The log has the changes in the order in which they had surely come. Those of one tuple come and go by turns. Where one does not, or one is
   shown later than another behind it, it is not known whether the tuple is there, until it changes again at a time that is surely later: the
   log names it for the recorder that goes on, and one of the changes alone has it as one without a form.
4. A check waits for a read that began behind its answer, for one more where changes came meanwhile, and for the writes that it may have
   seen. A content check stands behind all changes that were known when it began; it is a gap where a change before it in the log need not
   have come. What bears on a question is told by the names of the rules.
"""
from bisect import bisect_right
from typing import Callable, Iterable, NamedTuple, Optional

from new_enemy_tools.importing.events import Relationship
from new_enemy_tools.importing.reading import Bad
from new_enemy_tools.recording.overlap import Change

# Of so many commits it is remembered when they came.
KEPT = 200_000


class Row:
    """A commit: it had not come at `low`, and had at `high`, by the clock of all processes. Commits of one `unit` are one write; one
    without changes is of rules."""

    __slots__ = ("low", "high", "changes", "unit")

    def __init__(self, low: int, high: int, *changes: Change):
        self.low, self.high, self.changes = low, high, changes
        self.unit = 0

    def tuples(self) -> set[Optional[Relationship]]:
        return {change.given for change in self.changes} - {None}


class Window(NamedTuple):
    """A check saw all commits up to `low`, and none behind `high`."""

    low: int
    high: int


class Places:
    def __init__(self, revision: int = 0, high: int = 0, kept: int = KEPT) -> None:
        self.kept = kept
        # the revision before the first row, and when all up to it had come; and from when on it is remembered what came
        self.before, self.high, self.oldest = revision, high, 0
        self.rows: list[Row] = []
        self.ends: list[int] = []

    @property
    def revision(self) -> int:
        return self.before + len(self.rows)

    def row(self, revision: int) -> Optional[Row]:
        return self.rows[revision - self.before - 1] if revision > self.before else None

    def add(self, rows: Iterable[Row]) -> None:
        """Puts commits behind all others."""
        for row in rows:
            self.rows.append(row)
            self.ends.append(max(row.high, self.ends[-1] if self.ends else self.high))
        if len(self.rows) > self.kept:
            cut = self.kept // 2
            self.before, self.high = self.before + cut, self.ends[cut - 1]
            self.oldest = self.high
            del self.rows[:cut], self.ends[:cut]

    def lower(self, count: int, high: int) -> None:
        """The last so many commits had come at a time."""
        start = max(0, len(self.rows) - count)
        for place in range(start, len(self.rows)):
            row = self.rows[place]
            row.high = min(row.high, high)
            self.ends[place] = max(row.high, self.ends[place - 1] if place else self.high)

    def known(self, clock: int) -> int:
        """Up to which revision all commits had come at a time."""
        return self.before + bisect_right(self.ends, clock)

    def window(self, began: int, ended: int) -> Window:
        """What a check may have seen; raises Bad where that is not remembered."""
        if began < self.oldest:
            raise Bad("a check took too long for the changes that came meanwhile")
        low, high = self.known(began), self.revision
        while high > low and self.rows[high - self.before - 1].low >= ended:
            high -= 1
        return Window(low, high)

    def surely(self, window: Window, began: int, bears: Callable[[Row], bool]) -> int:
        """Up to where a check surely saw what bears on its question; before that there may be others that it need not have seen."""
        for place in range(window.high - self.before, window.low - self.before, -1):
            if self.rows[place - 1].high <= began and bears(self.rows[place - 1]):
                return self.before + place
        return window.low

    def has_unknown(self, window: Window, clock: int, bears: Callable[[Row], bool]) -> bool:
        """Whether a commit of a window bears on a question that had not surely come at a time."""
        return any(row.high > clock and bears(row) for row in self.rows[window.low - self.before:window.high - self.before])

    def is_unsure(self, window: Window, bears: Callable[[Row], bool]) -> bool:
        """Whether two commits in a window bear on a question and may have come the other way round.

        What it goes back over for a commit are those of its own write, or of its own tuple; there the first other one ends it.
        """
        found: list[tuple[int, Row]] = []
        for place in range(window.low - self.before, window.high - self.before):
            row = self.rows[place]
            if not bears(row):
                continue
            for earlier, one in reversed(found):
                if self.ends[earlier] <= row.low:
                    break
                if one.high > row.low and not _is_together(one, row):
                    return True
            found.append((place, row))
        return False


def _is_together(one: Row, other: Row) -> bool:
    """Whether the order of two commits is known, or does not matter."""
    if one.unit and one.unit == other.unit:
        return True
    return not one.tuples().isdisjoint(other.tuples())


def by_turns(changes: list[Change], live: Callable[[Change], Optional[bool]]) -> tuple[list[Change], list[Change]]:
    """The changes of a reading with those of each tuple by turns, and those that are no turn of their tuple.

    A tuple comes and goes, and the feed may have two such changes the other way round. `live` says whether it was there before, None
    where that is not known.
    """
    of: dict[object, list[int]] = {}
    for place, change in enumerate(changes):
        if change.given is not None:
            of.setdefault(change.given, []).append(place)
    made, odd = list(changes), []
    for listed in of.values():
        first = changes[listed[0]]
        was = live(first)
        comes = [changes[place] for place in listed if changes[place].live]
        goes = [changes[place] for place in listed if not changes[place].live]
        turn = (not was) if was is not None else len(comes) > len(goes) or len(comes) == len(goes) and first.live
        for place in listed:
            side = comes if turn else goes
            if not side:
                side = goes if turn else comes
                odd.append(side[0])
            made[place] = side.pop(0)
            turn = not made[place].live
    return made, odd
