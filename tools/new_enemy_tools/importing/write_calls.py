"""Writes of which a log has the calls that made them."""
import marshal
from bisect import bisect_left, bisect_right
from collections import Counter
from copy import copy
from itertools import accumulate, chain, groupby
from typing import Callable, Iterator, NamedTuple, Optional, Union

from new_enemy_tools.importing.checks import Row, column
from new_enemy_tools.importing.events import Event
from new_enemy_tools.importing.keyed_hash import short
from new_enemy_tools.importing.packed_blocks import Indexer, Packed
from new_enemy_tools.importing.refusals import Refusals
from new_enemy_tools.importing.spool import CALL, CHECKS, Lines, WriteRow, found_in, row_of

ORDER = "%s:%d: a check saw this write before the line of its call: each such write is put before what saw it, and none is called F4"

UNSHOWN = ("this Write is not among the changes, which go on behind its `time`: changes are missing; give all of them as ReadChanges "
           "answers them")
# A call is logged behind its write: by the service's request timeout at most.
TOOK = 3 * 10 ** 9
# A mark is a change and a time, of so many bits each, and a time counts from long ago.
BITS = 64
MASK, EPOCH = (1 << BITS) - 1, 1 << BITS - 1
UNSHOWN_TIMELESS = "this Write has no `time`, and is not among the changes: read them once more behind it, or give each line of Write its `time`"


class Unshown(NamedTuple):
    """A call whose write the service's changes do not show, and from when on they may lack it."""

    since: int
    file: str
    line: int


def _marks(row: WriteRow, time: int) -> Iterator[int]:
    """A number for each tuple that a write adds or removes: first what it does, then a time. Of many, numbers take little memory."""
    for is_added, side in ((True, row.add), (False, row.remove)):
        for given in side:
            yield short((is_added, *given)) << BITS | time + EPOCH


def _times_of(marks: list[int], change: int) -> list[int]:
    """The times at which a change was made, each once, by marks in their order."""
    start, end = bisect_left(marks, change << BITS), bisect_left(marks, (change + 1) << BITS)
    return [(mark & MASK) - EPOCH for mark, _ in groupby(marks[start:end])]


def unshown(lines: Lines, has_base: bool, refusals: Refusals) -> Optional[Unshown]:
    """The first call whose write the changes do not show, which end before it; where they go on behind it, it is refused. What stands
    before them belongs to the base state, where there is one."""
    changes = sorted(mark for row in lines.writes() for mark in _marks(row, row.revision or 0))
    if not changes:
        return None
    first, last = (find(mark & MASK for mark in changes) - EPOCH for find in (min, max))
    calls = sorted(mark for row in lines.calls() if row.time is not None and (not has_base or row.time > first) for mark in _marks(row, row.time))
    timeless = Counter(mark >> BITS for row in lines.calls() if row.time is None for mark in _marks(row, 0))
    # the marks of calls that have no change of their own; and of those without a time the changes, with how many there are
    missing, fewer = set[int](), dict[int, int]()
    for change in chain((change for change, _ in groupby(calls, lambda mark: mark >> BITS)), timeless):
        known, listed = _times_of(changes, change), _times_of(calls, change)
        if len(known) < len(listed):
            time = next(time for place, time in enumerate(listed) if bisect_right(known, time) <= place)
            missing.add(change << BITS | time + EPOCH)
        elif len(known) < len(listed) + timeless[change]:
            fewer[change] = len(known)
    found: list[Unshown] = []
    for row in lines.calls() if missing or fewer else ():
        for mark in _marks(row, row.time or 0):
            if row.time is not None and mark in missing and row.time <= last:
                refusals.refuse(row.file, row.line, UNSHOWN)
            elif row.time is not None and mark in missing:
                found.append(Unshown(max(last + 1, row.time - TOOK), row.file, row.line))
            elif row.time is None and fewer.get(mark >> BITS) == 0 and not has_base:
                refusals.refuse(row.file, row.line, UNSHOWN_TIMELESS)
            elif row.time is None and mark >> BITS in fewer:
                found.append(Unshown(last + 1, row.file, row.line))
    return min(found, default=None)


def _rows(lines: Lines) -> Iterator[Union[Event, Row]]:
    """The lines as rows; rules have none."""
    return (row_of(line) if isinstance(line, Event) and line.kind != "rules" else line for line in lines.rows())


def _seen_by(row: Row) -> Optional[int]:
    """The revision that a line saw; what is written later saw all before."""
    seen: Optional[int]
    if row[0] in CHECKS:
        seen = row[5] if row[9] is None else row[9]
    else:
        seen = None if row[5] or row[3] is None else row[3] - 1
    return seen


class Seen:
    """The revisions that lines saw, as far as these rise, and the places of those lines."""

    def __init__(self) -> None:
        self.revisions: list[int] = []
        self.places: list[int] = []

    def take(self, place: int, row: Row) -> None:
        revision = _seen_by(row)
        if revision is not None and (not self.revisions or revision > self.revisions[-1]):
            self.revisions.append(revision)
            self.places.append(place)

    def first(self, revision: int) -> Optional[int]:
        """The place of the first line that saw a revision, if one did."""
        at = bisect_left(self.revisions, revision)
        return self.places[at] if at < len(self.places) else None


def _in_place(lines: Lines) -> Optional[Lines]:
    """The lines with each call as a write in its place, and blocks as they are; None where another line writes, or one saw a call that
    stands behind it."""
    made, highest = Lines(ids=lines.ids), -1
    made.rules, made.facts = lines.rules, copy(lines.facts)
    made.facts.has_calls = False
    for batch in lines.spool.batches():
        found = found_in(batch)
        # the highest revision that the checks up to each saw
        highs = list[int]()
        if isinstance(found, Packed):
            checks = found.checks()
            looked: list[int] = [look[1] for look in checks.looks]
            highs += accumulate(map(looked.__getitem__, column(checks.look_of)), max)
        for at, row in found.among() if isinstance(found, Packed) else ((0, row) for row in found):
            if row[0] == "rules":
                continue
            highest = max(highest, highs[at - 1]) if at else highest
            if row[0] == "write" and not row[5] or row[0] == CALL and row[3] <= highest:
                return None
            seen = _seen_by(row)
            highest = highest if seen is None else max(highest, seen)
        highest = max([highest, *highs[-1:]])
        if isinstance(found, Packed):
            odd = [one._replace(row=_written(one.row)) for one in found.head.odd]
            made.spool.add_batch(found._replace(head=found.head._replace(odd=odd)).dumped())
        else:
            made.spool.add_batch(marshal.dumps(list(map(_written, found))))
    return made


def _written(row: Row) -> Row:
    return ("write", *row[1:]) if row[0] == CALL else row


def without_calls(lines: Lines, indexer: Indexer) -> tuple[Lines, int]:
    """The lines without calls, blocks as blocks, and how many there were."""
    made, count = Lines(ids=lines.ids), 0
    made.rules, made.facts = lines.rules, copy(lines.facts)
    made.facts.has_calls = False
    for batch in lines.spool.batches():
        found = found_in(batch)
        if isinstance(found, Packed):
            checks = found.checks()
            others = [one for one in checks.others if one[2][0] != CALL]
            count += len(checks.others) - len(others)
            made.spool.add_batch(batch if len(others) == len(checks.others) else indexer.read(checks._replace(others=others)))
        else:
            rows = [row for row in found if row[0] != CALL]
            count += len(found) - len(rows)
            made.spool.add_batch(marshal.dumps(rows))
    return made, count


def with_calls(lines: Lines, key_of: Callable[[Row], object], has_revisions: bool, refusals: Refusals) -> tuple[Lines, int]:
    """The lines with calls as the writes that they are, and of how many calls the log's own changes have the write, as both have one key.

    Where calls have revisions that checks see, each is put before the first line that saw it; those without a number as yet stay calls.
    """
    in_place = _in_place(lines) if has_revisions and not lines.facts.has_asked else None
    if in_place is not None:
        return in_place, 0
    known = {key_of(row) for row in lines.writes()}
    seen, moved = Seen(), dict[int, list[Row]]()
    places: dict[int, Optional[int]] = {}
    for place, row in enumerate(_rows(lines)):
        if isinstance(row, Event):
            continue
        if row[0] == CALL:
            # One that says no revision was refused, or is not wanted.
            is_placed = row[3] is not None or row[12] is not None
            places[place] = place if is_placed and key_of(row) not in known else None
            first = seen.first(row[3]) if has_revisions and places[place] is not None and row[12] is None else None
            if first is not None:
                refusals.note("calls", ORDER % row[1:3])
                places[place] = None
                moved.setdefault(first, []).append(row)
        seen.take(place, row)
    made, count = Lines(ids=lines.ids), 0
    for place, row in enumerate(_rows(lines)):
        for call in sorted(moved.get(place, ()), key=lambda one: (one[3], one[2])):
            made.add_row(("write", *call[1:]))
        if isinstance(row, Event):
            made.add(row)
        elif row[0] != CALL:
            made.add_row(row)
        elif places[place] is not None:
            # One of PostgreSQL has its number later.
            made.add_row(row if row[12] is not None else _written(row))
        else:
            count += key_of(row) in known
    return made, count
