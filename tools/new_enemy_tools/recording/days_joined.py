"""The logs of several recorders as one log that goes on from day to day (docs/DAILY.md, "Several recorders").

Each day all logs are joined anew, as far as each of them has come, and what the days before have is left out. The joined log is cut at a
place among the changes that the closed files of each log have passed; a log that is named as ended holds nothing back.
"""
import heapq
from hashlib import sha256
from typing import Any, Callable, Collection, Iterable, Iterator, NamedTuple, Sequence, TypeVar

from new_enemy_tools.importing.events import Relationship
from new_enemy_tools.importing.times import nanoseconds
from new_enemy_tools.recording.joining import UNORDERED, Join, Moved, OfPlaces, Placed, beginning_of, by_beginning, lost
from new_enemy_tools.recording.lines import time_text
from new_enemy_tools.recording.own_events import NEVER
from new_enemy_tools.recording.sketches import Given, JoinFault, Sketch, Unreached, Value, last_of, version_of

LATE = "content that stands before what a joined day has, in a log that was not there then"
ENTRIES = ("check", "content")


class Taken(NamedTuple):
    """What the days so far have of a log: its first `lines`, but for those that are `held`; `is_over` where it was named as ended."""

    name: str
    lines: int = 0
    held: Collection[int] = ()
    is_over: bool = False


class Before(NamedTuple):
    """Up to which place the days so far have the changes, the checksum of these, what they have of each log, in the order of the logs, and the
    tuples of which they say that these do not come by turns."""

    place: int = 0
    changes: str = ""
    logs: Sequence[Taken] = ()
    odd: Sequence[Sequence[Any]] = ()


def kept(value: dict[str, Any]) -> Before:
    """As it was kept in JSON, by older tools without what is odd."""
    return Before(value["place"], value["changes"], [Taken(*one) for one in value["logs"]], value.get("odd", ()))


class Waiting(NamedTuple):
    """How many checks of closed files a day leaves to a later one, and the logs that are waited for, each with when what it has ends."""

    checks: int
    logs: list[tuple[str, str]]


def join_day(given: list[Given], over: set[str], skew: int, before: Before = Before()) -> "DayJoin":
    """Joins the logs but for those that begin behind what the others have so far; `over` are the names of those that ended for good."""
    refuse_missing([one.name for one in given], before)
    return without_late(given, over, before, lambda some, late: DayJoin(some, over, skew, before, late))


def refuse_missing(names: Iterable[str], before: Before) -> None:
    """Raises JoinFault where a log is not given that was joined before."""
    missing = sorted({one.name for one in before.logs} - set(names))
    if missing:
        raise JoinFault("%s was joined on the days before, and is not given; give the folders of all logs each day" % missing[0])


Made = TypeVar("Made", bound="DayJoin")


def without_late(given: list[Given], over: set[str], before: Before, made: Callable[[list[Given], list[Given]], Made]) -> Made:
    """What is made of the logs, and of those that are left out since they begin behind the others; raises JoinFault."""
    late: list[Given] = []
    while True:
        try:
            return made([one for one in given if one not in late], late)
        except Unreached as fault:
            if any(fault.name == one.name for one in before.logs) or all(one.name in over for one in given if one.name != fault.name):
                raise
            late += [one for one in given if one.name == fault.name]


class DayJoin(Join):
    """The lines that one day has of the logs. `over` are the names of those that ended for good, and `late` are those that are left to a
    later day whole."""

    def __init__(self, given: list[Given], over: set[str], skew: int, before: Before, late: list[Given]):
        self.before = {one.name: one for one in before.logs}
        self.start, self.over, self.late = before.place, over, late
        self.odd = {Relationship(*one) for one in before.odd}
        super().__init__(given, skew)
        if before.logs and self._sum(self.start) != before.changes:
            raise JoinFault("the logs have other changes, or in another order, than those that the days before were made of; give the same "
                            "logs, or begin a new folder of days")
        self.taken = [self.before.get(one.given.name, Taken(one.given.name)) for one in self.sketches]
        self.skipped = [frozenset(one.held) for one in self.taken]
        self.counts = [one.lines for one in self.taken]
        # what is left to a later day, and the logs for which some check of a version waits
        self.left: dict[tuple[int, int], Value] = {}
        self.asked: set[int] = set()
        # of each log when its last line at each place was written, and when the last of those that are not gone through
        self.times: list[dict[int, int]] = [{} for _ in self.sketches]
        self.earlier = self._earlier_times()
        self.cut = self._cut()
        self.reaches = list(map(self._reach, range(len(self.sketches))))

    def _in_order(self, sketches: list[Sketch]) -> list[Sketch]:
        """Those of the days before in their order, and behind them those that are new."""
        of = {one.given.name: one for one in sketches}
        for one in sketches:
            if self.before and beginning_of(one) < beginning_of(of[next(iter(self.before))]):
                raise JoinFault("%s begins before the first log of the days before; give each log from the first day on" % one.given.name)
            others = [other for other in sketches if other is not one]
            if one.store is None and any(other.given.name not in self.over for other in others) and one.revision > max(map(last_of, others)):
                raise Unreached(one.given.name, "begins behind what the other logs have")
        return [of[name] for name in self.before] + by_beginning([one for one in sketches if one.given.name not in self.before])

    def _places(self) -> OfPlaces:
        return OfPlaces(self.sketches, len(self.before), self.start, self.odd)

    def _earlier_times(self) -> list[int]:
        return [0] * len(self.sketches)

    def _is_live(self, log: int) -> bool:
        return self.sketches[log].given.name not in self.over

    def _moved(self, log: int, revision: int, value: Value) -> Moved:
        """A check that names a state to which its log has not come yet stands nowhere so far."""
        if self._is_live(log) and not self.way.is_known(log, value):
            return Moved(NEVER, value)
        return super()._moved(log, revision, value)

    def _sum(self, place: int) -> str:
        """The checksum of the changes up to a place."""
        made = sha256()
        for one in range(1, place + 1):
            made.update(repr(sorted(map(repr, self.way.spine.keys(one)))).encode())
        return made.hexdigest()

    def _is_taken(self, placed: Placed) -> bool:
        return placed.number < self.taken[placed.log].lines and placed.number not in self.skipped[placed.log]

    # Where the day ends

    def _passed(self) -> dict[int, int]:
        """Of each log that goes on the place up to which it has all changes."""
        return {log: self.way.passed(log) for log in range(len(self.sketches)) if self._is_live(log)}

    def _cut(self) -> int:
        """The last place that each log has passed; content is not parted from what it may have seen."""
        spans = [span for log in range(len(self.sketches)) for span in self._spans(log)]
        cut = max(self.start, min(self._passed().values(), default=self.way.spine.count))
        while cut > self.start:
            parted = min((place for place, reach in spans if place <= cut < reach), default=None)
            if parted is None:
                break
            cut = max(self.start, parted - 1)
        return cut

    def _spans(self, log: int) -> Iterator[tuple[int, int]]:
        """Of each content check of a log that no day has the place, and the last one that it may have seen; notes the times of all lines."""
        times = self.times[log]
        for placed in self._placed(log):
            at = nanoseconds(placed.value.get("time"))
            if at is not None:
                times[placed.come] = max(at, times.get(placed.come, 0))
            if placed.value["event"] == "content" and not self._is_taken(placed):
                yield placed.come, NEVER if placed.place == NEVER else self.way.reach(placed.value)

    def _reach(self, log: int) -> int:
        """Until when the day has what was saved through a log."""
        one, times = self.sketches[log], self.times[log]
        if one.timed[1]:
            return NEVER
        if any(place > self.cut for place in times):
            return max([self.earlier[log], *(at for place, at in times.items() if place <= self.cut)])
        return one.until if self._is_live(log) else NEVER

    # Lines

    def lines(self) -> Iterator[Value]:
        for one, taken in zip(self.sketches, self.taken):
            if taken.name not in self.before:
                yield from one.headless
        at = self.start
        for placed in heapq.merge(*map(self._placed, range(len(self.sketches)))):
            if self._is_taken(placed):
                version = version_of(placed.value)
                if version is not None and placed.value["event"] != "check":
                    self.done.add(version)
                    yield from (one.value for one in self.held.pop(version, ()))
            elif self._waits(placed):
                self.left[placed.log, placed.number] = placed.value
            else:
                self.counts[placed.log] = max(self.counts[placed.log], placed.number + 1)
                for place in range(at + 1, placed.place + 1):
                    yield from self.way.spine.lines(place)
                at = max(at, placed.place)
                yield from self._ordered(self._on_time(placed))
        for place in range(at + 1, self.cut + 1):
            yield from self.way.spine.lines(place)
        for listed in self.held.values():
            self.left.update(((one.log, one.number), one.value) for one in listed)
        end = max(one.until for one in self.sketches)
        for one, taken in zip(self.sketches, self.taken):
            if taken.name in self.over and not taken.is_over and not one.given.is_closed and not one.timed[1]:
                yield self._open_gap(one, end)

    def _on_time(self, placed: Placed) -> Placed:
        """Content of a log that is new, and that would stand behind changes that it need not have seen, is left out."""
        if placed.value["event"] != "content" or placed.place >= self.start:
            return placed
        told = {key: placed.value[key] for key in ("file", "line", "clock")}
        return placed._replace(value={**lost(placed.value, LATE), **told})

    def _waits(self, placed: Placed) -> bool:
        """Whether a line is left to a later day: what names a state behind this one, and a check of a version that no log has so far, as long as
        it may be saved through one that has not come as far."""
        value = placed.value
        if placed.place > self.cut or value["event"] in ENTRIES and self.way.reach(value) > self.cut:
            return True
        version, at = version_of(value), nanoseconds(value.get("time"))
        if value["event"] != "check" or version is None or version in self.issued or at is None:
            return False
        behind = {log for log, reach in enumerate(self.reaches) if reach - (0 if log == placed.log else self.skew) < at}
        self.asked |= behind
        return bool(behind)

    def after(self) -> Before:
        """What the next day goes on from, when all lines were given."""
        left: dict[int, list[int]] = {}
        for log, number in sorted(self.left):
            if number < self.counts[log]:
                left.setdefault(log, []).append(number)
        return Before(self.cut, self._sum(self.cut), [
            Taken(one.name, self.counts[log], left.get(log, []), one.is_over or one.name in self.over) for log, one in enumerate(self.taken)],
            sorted((list(one) for one in self.odd.union(self.way.spine.odd_until(self.cut))), key=repr))

    def waiting(self) -> Waiting:
        passed = self._passed()
        least = min(passed.values(), default=0)
        logs = sorted({log for log, place in passed.items() if place == least} | self.asked) if self.left or self.late else []
        late = sum(row.value["event"] in ENTRIES for one in self.late for row in one.rows())
        left = sum(value["event"] in ENTRIES or value.get("reason") == UNORDERED for value in self.left.values())
        return Waiting(late + left,
                       [(self.sketches[log].given.name, time_text(self.sketches[log].until)) for log in logs])
