"""OpenFGA's changes feed: revisions are places in it, counted from 1 behind the base state, and timestamps are labels."""
import marshal
from bisect import bisect_right
from functools import cached_property
from itertools import accumulate, starmap
from typing import Any, Callable, Iterable, Iterator, NamedTuple, Optional, Union, cast

from new_enemy_tools.importing.causes import NO_ONE_SNAPSHOT, OTHER_MODEL
from new_enemy_tools.importing.checks import Row
from new_enemy_tools.importing.events import Entry, Event, Relationship, is_whole
from new_enemy_tools.importing.keyed_hash import short
from new_enemy_tools.importing.models import BEFORE, Given, Models, OtherModel, TwoModels
from new_enemy_tools.importing.order import ordered
from new_enemy_tools.importing.packed_blocks import Index, Moments, Odd, Packed, Stood, stood_of
from new_enemy_tools.importing.pages import read_again
from new_enemy_tools.importing.reading import Bad
from new_enemy_tools.importing.refusals import Refusals
from new_enemy_tools.importing.service import WITHOUT_CONDITION
from new_enemy_tools.importing.spool import CHECKS, Lines, WriteRow, row_of
from new_enemy_tools.importing.times import nanoseconds
from new_enemy_tools.importing.write_calls import Unshown

NOT_TAKEN = "tuple that the model does not take"
# The places of so many moments are known at once; and so many tuples that are stored, behind which none is looked at any more.
MOST, MOST_STORED = 1 << 15, 1 << 20
STORED = ("this change writes a tuple that is stored already, and the service refuses that: a change before it is missing, or the base state is "
          "of another time")

NO_SNAPSHOT = ("the check has none of `snapshot` and `snapshot_between`, and OpenFGA does not say which state it looked at: run `ne record`, "
               "or add one of them to each line")


class Moment(NamedTuple):
    """A place of the feed, or a timestamp, as a line gives it."""

    place: Optional[int]
    time: Optional[int]
    shown: str


class Asked(NamedTuple):
    """What a check says of its snapshot: one moment, or two between which it was evaluated; and what its token demands."""

    snapshot: tuple[Any, ...]
    token: Optional[Moment]
    model: Optional[str]


def moment_of(value: Any, what: str) -> Moment:
    if is_whole(value):
        return Moment(value, None, "place %d" % value)
    time = nanoseconds(value)
    if time is None:
        raise Bad("%s is no place in the changes feed and no timestamp" % what)
    return Moment(None, time, value)


def asked_of(value: dict[str, Any], token: object, model: object) -> Asked:
    """What the keys of a check's line ask; raises Bad."""
    snapshot, between = value.get("snapshot"), value.get("snapshot_between")
    if (snapshot is None) == (between is None):
        raise Bad("the check has both of `snapshot` and `snapshot_between`; give one" if between else NO_SNAPSHOT)
    if between is None:
        found: tuple[Moment, ...] = (moment_of(snapshot, "`snapshot`"),)
    elif isinstance(between, list) and len(between) == 2:
        found = tuple(moment_of(one, "`snapshot_between`") for one in between)
    else:
        raise Bad("`snapshot_between` is no list of two places or timestamps")
    if not isinstance(model, (str, type(None))):
        raise Bad("`authorization_model_id` is no text")
    return Asked(found, None if token is None else moment_of(token, "`token`"), model or None)


def shown_of(asked: Asked) -> str:
    shown: list[str] = [moment.shown for moment in asked.snapshot]
    return shown[0] if len(shown) == 1 else "between %s and %s" % tuple(shown)


class Feed:
    """The changes in their order. Those of one timestamp may be one write of the service or several."""

    def __init__(self, base: Moment, times: list[int]):
        # a write from which on the log may lack changes
        self.ends: Optional[Unshown] = None
        self.first = base.place or 0
        self.base_time = base.time
        self.times = times
        self.sorted = sorted(times)
        self.highest: list[int] = list(accumulate(times, max))

    @cached_property
    def earliest(self) -> dict[int, int]:
        """The first place of each time."""
        return dict(zip(reversed(self.times), range(len(self.times), 0, -1)))

    @cached_property
    def latest(self) -> dict[int, int]:
        """The last place of each time."""
        return dict(zip(self.times, range(1, len(self.times) + 1)))

    def place(self, moment: Moment, what: str) -> int:
        """The one place of a moment, -1 where it lies before the base state; raises Bad."""
        if moment.place is not None:
            return self._counted(moment.place)
        assert moment.time is not None
        self._refuse_unshown(moment.time, moment.shown, what)
        if self.base_time is not None and moment.time < self.base_time:
            return -1
        count = bisect_right(self.sorted, moment.time)
        if count and self.highest[count - 1] > moment.time:
            raise Bad("%s %s is not one place: changes at or before it stand behind later ones; give the place in the feed"
                      % (what, moment.shown))
        return count

    def _refuse_unshown(self, time: Optional[int], shown: str, what: str) -> None:
        if self.ends is not None and time is not None and time >= self.ends.since:
            raise Bad("%s %s may be behind the Write of %s:%d, which the changes do not show: read them once more behind it"
                      % (what, shown, self.ends.file, self.ends.line))

    def _counted(self, place: int) -> int:
        if place - self.first > len(self.times):
            raise Bad("place %d is beyond the feed, which ends at place %d" % (place, self.first + len(self.times)))
        return max(place - self.first, -1)

    def range(self, low: Moment, high: Moment) -> tuple[int, int]:
        """The places from one moment to another; of changes that share a timestamp the first, and the last."""
        self._refuse_unshown(high.time, high.shown, "`snapshot_between` to")
        start = self.earliest[low.time] if low.time in self.earliest else self.place(low, "`snapshot_between` from")
        end = self.latest[high.time] if high.time in self.latest else self.place(high, "`snapshot_between` to")
        if start > end:
            raise Bad("`snapshot_between` is no range: %s stands behind %s" % (low.shown, high.shown))
        return start, end


class Placing:
    """Puts numbers for the timestamps of changes and for what checks ask, and the relations of the trace for those of models."""

    def __init__(self, feed: Feed, models: Models, refusals: Refusals):
        self.feed, self.models, self.refusals = feed, models, refusals
        self.known: dict[Row, int] = {}

    def check(self, entry: Entry) -> Optional[Entry]:
        """A check with its numbers; None where it is left out or refused."""
        assert entry.asked is not None
        try:
            snapshot, lowest, token = _numbers(Asked(*entry.asked), self.feed)
            token = entry.token if token is None else token
            name = self.models.name_at(entry.goal[2], entry.asked[2], snapshot if lowest is None else lowest, snapshot)
            goal = (*entry.goal[:2], name, *entry.goal[3:])
            return entry._replace(goal=goal, snapshot=snapshot, lowest=lowest, token=token, asked=None)
        except OtherModel:
            self.refusals.unmapped_check(entry, OTHER_MODEL, entry.question)
        except TwoModels as fault:
            self.refusals.refuse(entry.file, entry.line, str(fault))
        except Bad as fault:
            self.refusals.unmapped_check(entry, NO_ONE_SNAPSHOT, str(fault))
        return None

    def write(self, row: WriteRow, revision: int) -> WriteRow:
        """A write of the trace; those of one timestamp are a group."""
        add, remove = self._tuples(row, row.add, True), self._tuples(row, row.remove, False)
        return row._replace(revision=revision, group=None if row.base else row.revision, add=add, remove=remove, asked=None)

    def _tuples(self, row: WriteRow, given: list[Row], live: bool) -> list[Row]:
        """Each tuple once for each relation that has it. What no model takes no check sees; but such a write had a model, which the log lacks."""
        found: list[Row] = []
        for one in given:
            key = (one[0], one[2], one[3], one[5])
            names, in_doubt = self.models.takes(key), self.models.taking_with_condition(key)
            if live and row.asked is not None:
                self._leave_out(row, one, row.asked[0], self.models.all_names(one[2]))
                continue
            if live and in_doubt:
                self._leave_out(row, one, WITHOUT_CONDITION, in_doubt)
            elif not names and not in_doubt and not self.models.is_taken(key):
                if live and not row.base:
                    self._leave_out(row, one, NOT_TAKEN, self.models.all_names(one[2]))
                    self.refusals.has_other_rules = True
                else:
                    self.refusals.pass_over("stored tuple that no model takes, so that no check sees it")
            found += [(*one[:2], name, *one[3:5], user_relation) for name, user_relation in names]
        return found

    def _leave_out(self, row: WriteRow, given: Row, reason: str, names: list[str]) -> None:
        """Leaves a tuple out of these relations, which are in doubt."""
        self.refusals.unmapped(row.file, row.line, reason, str(Relationship(*given)))
        self.refusals.has_older |= row.base
        for name in names:
            self.refusals.doubt(given[0], given[1], name)

    def block(self, given: Packed, places: list[Optional[int]]) -> Optional[Packed]:
        """A block with numbers, whose rows that are taken by themselves have none yet; None where each line has to be looked at by itself."""
        index = given.head
        first = places[0] if places else 0
        # By their sequences changes may stand in another order than their lines.
        if not self.models.is_plain or index.asked.is_between or first is None or places != list(range(first, first + len(places))) or any(
                self.models.takes((of, relation, user_type, None)) != [(relation, None)] for of, relation, user_type in index.keys):
            return None
        asked = index.asked
        try:
            numbers = [self._place(moment, "snapshot") for moment in asked.listed]
            for model in asked.models:
                # One that names none is of the model that is in force at its place.
                for place in set(numbers[:asked.snapshots]) if model is None and len(self.models.used) > 1 else (0,):
                    self.models.name_at("", model, place, place)
        except (OtherModel, TwoModels, Bad):
            return None
        snapshots = numbers[:asked.snapshots]
        revisions = {*snapshots, *(max(place, 0) for place in numbers[asked.snapshots:])}
        return Packed(index._replace(lowest=min(snapshots, default=None), revisions=list(revisions), asked=Moments([], 0, [], False), stood=b"",
                                     writes=list(range(first, first + len(places))), is_rising=True), *given[1:3], first, numbers)

    def _place(self, moment: Row, what: str) -> int:
        """The place of a moment; those of the last ones are known."""
        found = self.known.get(moment)
        if found is None:
            if len(self.known) >= MOST:
                self.known.clear()
            found = self.known[moment] = self.feed.place(Moment(*moment), what)
        return found

    def doubts(self) -> None:
        """What is in doubt of a relation is so for each model."""
        self.refusals.doubts = [(of, id_text, name) for of, id_text, relation in self.refusals.doubts for name in self.models.all_names(relation)]


def placed(lines: Lines, base: Moment, given: Given, skew: Optional[int], refusals: Refusals, ends: Optional[Unshown] = None) -> Lines:
    """The lines of a trace for those of a log with these models; those that have a place. From `ends` on changes may be missing."""
    feed, models, places = _changes(lines, base, given, skew, refusals)
    feed.ends = ends
    for model in models.used:
        if model in given.apart and model not in models.in_force:
            refusals.merge(given.apart[model])
    placing, made, at = Placing(feed, models, refusals), Lines(), 0
    placing.doubts()
    made.add(models.rules())

    def numbered(row: Row, place: Optional[int]) -> Optional[Row]:
        if row[0] in CHECKS:
            kept = placing.check(Entry._make(row))
            return None if kept is None else row_of(kept)
        if place is None:
            refusals.pass_over("change that was read twice")
            return None
        return tuple(placing.write(WriteRow._make(row), place))

    for found in lines.stream():
        if isinstance(found, Packed):
            mine, at = places[at:at + len(found.head.writes)], at + len(found.head.writes)
            _add_block(found, placing.block(found, mine) if skew is None and not lines.facts.is_sequenced else None, mine, numbered, made)
        elif not isinstance(found, Event) or found.kind != "rules":
            line = row_of(found) if isinstance(found, Event) else found
            row = numbered(line, places[at] if is_change(line) else 0)
            at += is_change(line)
            if row is not None:
                made.add_row(row)
    # What checks that name their models ask, another model does not change.
    refusals.has_other_rules = refusals.has_other_rules and None in _asked(lines)
    return made


def is_change(row: Row) -> bool:
    """Whether a row is a change of the feed, and no base state."""
    return row[0] == "write" and not row[5]


def _add_block(given: Packed, block: Optional[Packed], places: list[Optional[int]], numbered: Callable[[Row, Optional[int]], Optional[Row]],
               made: Lines) -> None:
    """Adds a block as it was placed, or else line by line; also where a row of it is left out, so that those beside it stand together."""
    done: dict[int, Optional[Row]] = {}
    if block is not None:
        odd, writes = list[Odd](), 0
        for one in given.head.odd:
            row = done[id(one.row)] = numbered(one.row, places[one.writes + writes] if is_change(one.row) else 0)
            writes += is_change(one.row)
            odd += [] if row is None else [one._replace(row=row)]
        if len(odd) == len(given.head.odd):
            made.add_packed(block._replace(head=block.head._replace(odd=odd)))
            return
    next_place = iter(places)
    for row in given.rows():
        place = next(next_place) if is_change(row) else 0
        kept = done[id(row)] if id(row) in done else numbered(row, place)
        if kept is not None:
            made.add_row(kept)


def _changes(lines: Lines, base: Moment, given: Given, skew: Optional[int],
             refusals: Refusals) -> tuple[Feed, Models, list[Optional[int]]]:
    """The feed and the models of a log, and the place of each change in the order of its lines; none for one that was read twice."""
    def changes() -> Iterator[Union[Event, WriteRow]]:
        return (event for event in lines.events() if event.revision is not None and not event.base)

    are_sorted = skew is not None or all(event.sequence is not None for event in changes())
    as_read = list(changes()) if are_sorted else []
    # What is wrong with the order is refused once, where all lines are put into it.
    # Rows of writes have the fields that order them.
    in_order: Iterable[Any] = ordered(cast("list[Event]", as_read), skew, Refusals()) if are_sorted else changes()
    repeated = Repeated(event.revision for event in in_order if event.kind != "rules") if are_sorted else Repeated(_times(lines))
    stored = Stored(lines, refusals)
    starts = [(BEFORE, model) for model in range(given.first)]
    times: list[int] = []
    places: list[Optional[int]] = []
    by_event: dict[int, Optional[int]] = {}
    again = None if are_sorted else read_again(lines, refusals.pages)
    for found in in_order if are_sorted else lines.stream():
        if isinstance(found, Packed) and again is None and (base.time is None or min(found.head.writes, default=base.time) > base.time) \
                and repeated.take(found.head):
            places += range(len(times) + 1, len(times) + len(found.head.writes) + 1)
            times += found.head.writes
            stored.take(found.head.file, starmap(Stood, marshal.loads(found.head.stood)))
            continue
        for event in _changes_in(found):
            if event.kind == "rules":
                # By times of several clocks it is not known where a model begins.
                starts.append((BEFORE if skew else len(times), event.asked[0]))
                continue
            if base.time is not None and event.revision <= base.time:
                refusals.refuse(event.file, event.line, "its revision %s is not later than that of the base state" % event.shown)
            is_again = repeated.has(event) if again is None else next(again, False)
            if not is_again:
                times.append(event.revision)
                stored.take(event.file, stood_of([event if isinstance(event, tuple) else row_of(event)]))
            if are_sorted:
                by_event[id(event)] = None if is_again else len(times)
            else:
                places.append(None if is_again else len(times))
    if are_sorted:
        places = [by_event.get(id(event), 0) for event in as_read if event.kind != "rules"]
    return Feed(base, times), Models(given.models, starts, _asked(lines) if len(given.models) > 1 else ()), places


def _changes_in(found: Any) -> Iterator[Any]:
    """The changes of a block or of a line, and the models that come into force."""
    rows = (WriteRow._make(row) for _, row in found.among() if row[0] == "write") if isinstance(found, Packed) else (found,)
    return (row for row in rows if isinstance(row, (Event, WriteRow)) and row.revision is not None and not row.base)


def _times(lines: Lines) -> Iterator[int]:
    """The times of all changes, as they stand."""
    for found in lines.stream():
        if isinstance(found, Packed):
            yield from found.head.writes
        else:
            yield from (event.revision for event in _changes_in(found) if event.kind != "rules")


class Repeated:
    """Which changes stand in the log a second time, as those of a page that was read twice do.

    What is kept is of one timestamp, and of those whose changes do not stand together. No tuple is added twice with nothing between.
    """

    def __init__(self, times: Iterable[int]):
        seen: set[int] = set()
        self.apart: dict[int, set[tuple[bool, Row]]] = {}
        last = None
        for time in times:
            if time != last and time in seen:
                self.apart[time] = set()
            seen.add(time)
            last = time
        self.time: Optional[int] = None
        # of the changes that stand together, each tuple with whether it is stored
        self.touched: dict[Row, bool] = {}

    def take(self, index: Index) -> bool:
        """Takes the changes of a block, the next in order, where none was there before; False where each has to be looked at."""
        if not index.writes or not index.is_once or index.writes[0] == self.time or not self.apart.keys().isdisjoint(index.writes):
            return False
        self._leave()
        self.time, self.touched = index.writes[-1], dict(index.touched)
        return True

    def _leave(self) -> None:
        """Notes what stood together."""
        if self.time in self.apart:
            self.apart[self.time].update((live, given) for given, live in self.touched.items())

    def has(self, event: Any) -> bool:
        """Whether a change, the next in order, was there before."""
        if event.revision != self.time:
            self._leave()
            self.time, self.touched = event.revision, {}
        is_again = False
        for live, listed in ((True, event.add), (False, event.remove)):
            for given in map(tuple, listed):
                is_again = self.touched.get(given) == live or (live, given) in self.apart.get(event.revision, ())
                self.touched[given] = live
        return is_again


class Stored:
    """The tuples that are stored, in short. A write of one that is says that a change is missing, where none was left out."""

    def __init__(self, lines: Lines, refusals: Refusals):
        self.refusals = refusals
        self.keys: set[int] = set()
        self.is_known = True
        for event in lines.events() if lines.facts.last_base >= 0 else ():
            if isinstance(event, WriteRow) and event.base:
                self.keys.update(map(short, map(tuple, event.add)))

    def take(self, file: str, changes: Iterable[Stood]) -> None:
        """Takes the changes that are next in order."""
        self.is_known &= len(self.keys) <= MOST_STORED
        for one in changes if self.is_known else ():
            if one.is_again or one.first and one.key in self.keys:
                self.refusals.refuse(file, one.line, STORED)
            if one.last:
                self.keys.add(one.key)
            else:
                self.keys.discard(one.key)


def _asked(lines: Lines) -> Iterator[Optional[str]]:
    """The models that checks name; of many together once."""
    for found in lines.stream():
        if isinstance(found, Packed):
            yield from found.head.asked.models
        for row in (odd.row for odd in found.head.odd) if isinstance(found, Packed) else (found,):
            if isinstance(row, tuple) and row[0] in CHECKS and row[11]:
                yield row[11][2]


def _numbers(asked: Asked, feed: Feed) -> tuple[int, Optional[int], Optional[int]]:
    """The place of a check's snapshot, the lowest where it has several, and the place of its token; raises Bad."""
    moments = [Moment(*one) for one in asked.snapshot]
    lowest = None
    if len(moments) == 1:
        snapshot = feed.place(moments[0], "snapshot")
    else:
        lowest, snapshot = feed.range(*moments)
    return snapshot, lowest, None if asked.token is None else max(feed.place(Moment(*asked.token), "token"), 0)
