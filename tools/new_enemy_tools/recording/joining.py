"""The logs of several recorders of one service as one log (docs/RECORDING.md, "Several recorders").

The feed of the changes is what all share. Each line keeps its place among the changes; content stands before what shows it.
"""
import heapq
from bisect import bisect_right
from typing import Collection, Iterator, NamedTuple, Optional, Sequence, Union

from new_enemy_tools.importing.events import Event, Relationship, read_events
from new_enemy_tools.importing.refusals import Refusals
from new_enemy_tools.importing.service import ServiceRules
from new_enemy_tools.importing.times import nanoseconds
from new_enemy_tools.recording.bearing import Bearing
from new_enemy_tools.recording.lines import time_text
from new_enemy_tools.recording.own_events import NEVER, Own, issued_by, lines_of, open_gap, placing_of, refuse_other_store
from new_enemy_tools.recording.overheard import of_store
from new_enemy_tools.recording.sketches import Change, Given, JoinFault, Row, Sketch, Value, Version, last_of, refuse_unlike, version_of
from new_enemy_tools.recording.spine import Numbered, Spine, Track

# Which came first of changes that bear on a check, one recorder has in another way than another.
UNORDERED = "changes that the recorders have in different orders"
UNKNOWN = "the content version may have been saved through a recorder whose log ends before"
OPEN = "%s is not closed, or full, since it is still written or its recorder was killed"


class Placed(NamedTuple):
    """A line with its place among the changes; those of one place stand by the numbers of their logs, and in their order there. `come` is the
    place to which its log had come."""

    place: int
    log: int
    number: int
    value: Value
    come: int


class Standing(NamedTuple):
    """A line of a log by its number there, the revision to which the log had come, and whether its base state was still to be ended."""

    number: int
    row: Row
    revision: int
    is_base: bool


class Moved(NamedTuple):
    """Where a check stands among the changes of all logs; without a value where that can't be said."""

    place: int
    value: Optional[Value]


class OfNumbers:
    """Of SpiceDB: a revision is the same in all logs."""

    def __init__(self, sketches: list[Sketch]):
        self.spine, self.sketches = Numbered(sketches), sketches

    def place(self, log: int, revision: int) -> int:
        return bisect_right(self.spine.numbers, revision)

    def moved(self, log: int, revision: int, value: Value) -> Moved:
        return Moved(self.place(log, revision), value)

    def passed(self, log: int) -> int:
        """The place up to which a log has all changes."""
        return self.place(log, last_of(self.sketches[log]))

    def is_known(self, log: int, value: Value) -> bool:
        """Whether a log has come to all states that its check names."""
        return True

    def reach(self, value: Value) -> int:
        """The last place that a check of the joined log names."""
        return 0


class OfPlaces:
    """Of OpenFGA: a revision is a place in the recorder's own order of the changes."""

    def __init__(self, sketches: list[Sketch], known: int = 0, place: int = 0, odd: Collection[Relationship] = ()):
        """Of the first so many logs the order of the changes up to a place is known already, and stays; so do tuples that are `odd`."""
        self.spine, self.sketches = Spine(sketches[0], odd), sketches
        for number, one in enumerate(sketches[1:], 1):
            if number == known:
                self.spine.fix(place)
            self.spine.add(one)
        self.tracks: list[Track] = self.spine.end()
        self.bearing = _bearing(sketches)

    def _step(self, log: int, revision: int) -> int:
        return bisect_right(self.sketches[log].numbers, revision)

    def place(self, log: int, revision: int) -> int:
        return self.tracks[log].span[self._step(log, revision)]

    def moved(self, log: int, revision: int, value: Value) -> Moved:
        """A check with the places of its states among the changes of all logs."""
        place, track, goal = self.place(log, revision), self.tracks[log], Relationship(*value["goal"])
        key = next(one for one in ("newest_between", "snapshot_between", "snapshot") if one in value)
        low, high = (value[key],) * 2 if key == "snapshot" else value[key]
        spans = track.spans(self._step(log, low), self._step(log, high), lambda change: self._bears(change, goal))
        is_content = value["event"] == "content"
        # A content check stands behind all that was known when it began, and saw no less.
        least = place if is_content else 0
        if spans is None or any(one.high < least for one in spans):
            return Moved(place, None)
        first, last = max(least, min(one.low for one in spans)), max(one.high for one in spans)
        made = dict(value)
        if key == "snapshot":
            last = first if is_content else last
            made[key] = self.spine.number(last)
        else:
            made[key] = [self.spine.number(first), self.spine.number(last)]
        token = value.get("token")
        if token is not None and token == value.get("snapshot"):
            made["token"] = made["snapshot"]
        elif token is not None:
            whole = track.whole(self._step(log, token))
            if whole is None:
                return Moved(place, None)
            made["token"] = self.spine.number(whole)
        return Moved(max(place, last if not is_content else 0), made)

    def passed(self, log: int) -> int:
        return self.tracks[log].solid[-1]

    def is_known(self, log: int, value: Value) -> bool:
        return _highest(value) <= last_of(self.sketches[log])

    def reach(self, value: Value) -> int:
        return _highest(value) - self.spine.base

    def _bears(self, change: Change, goal: Relationship) -> bool:
        return not change.tuples or any(self.bearing.bears(one, goal) for one in change.tuples)


def _highest(value: Value) -> int:
    """The highest revision that a check names."""
    named: list[int] = [one for key in ("snapshot", "token") if (one := value.get(key)) is not None]
    named += [value[key][1] for key in ("newest_between", "snapshot_between") if value.get(key) is not None]
    return max(named)


def _bearing(sketches: list[Sketch]) -> Bearing:
    """Which changes bear on a question, by all rules and by what relations take in these logs."""
    takes: dict[tuple[str, str], set[tuple[str, Optional[str]]]] = {}
    found = Bearing()
    for sketch in sketches:
        listed = [sketch.base, *(change.tuples for step in sketch.steps for change in step)]
        for one in (one for tuples in listed for one in tuples):
            takes.setdefault((one.type, one.relation), set()).add((one.user_type, one.user_relation))
    for sketch in sketches:
        rules = [sketch.rules, *(change.value for step in sketch.steps for change in step if change.is_rules)]
        for event in read_events(((1, one) for one in rules), sketch.given.name, Refusals()):
            assert isinstance(event, Event)
            found.add(ServiceRules(event, None, takes))
    return found


def beginning_of(sketch: Sketch) -> int:
    """Behind how many changes a log begins, or at which revision."""
    return sketch.revision if sketch.count is None else sketch.count


def by_beginning(sketches: list[Sketch]) -> list[Sketch]:
    """Logs in the order in which they begin. Of two that begin behind as many changes that is later whose model another log has as a
    change; where none has it so far, whose model has the later id, a ULID."""
    came = {change.value.get("model") for sketch in sketches for step in sketch.steps for change in step if change.is_rules}
    models = [(one, (one.rules or {}).get("model")) for one in sketches]
    return [one for one, _ in sorted(models, key=lambda given: (beginning_of(given[0]), given[1] in came, given[1] or ""))]


class Join:
    """Goes twice through logs: once for their changes, and once for all lines. `skew` is by how many nanoseconds the clocks of the
    machines may be apart, and `stale` how old the answers may be that applications tell of and that did not ask for the newest state."""

    def __init__(self, given: list[Given], skew: int, own: Sequence[Own] = (), stale: int = 0):
        self.skew = skew
        if not given:
            raise JoinFault("events of an application need a log of the changes: that of `ne record --changes-only`")
        sketches = list(map(self._sketched, given))
        refuse_unlike(sketches)
        self.service, store = sketches[0].service, sketches[0].store
        self.sketches = self._in_order(sketches)
        self.way: Union[OfNumbers, OfPlaces] = OfNumbers(self.sketches) if store is None else self._places()
        self.own = [of_store(one, store) if one.store is None and one.service == self.service == "openfga" else one for one in own]
        refuse_other_store(self.own, self.service, store)
        bearing = self.way.bearing if isinstance(self.way, OfPlaces) else None
        self.timed = placing_of(self.sketches, self.own, skew, stale, bearing) if self.own else None
        self.issued: set[Version] = set().union(*(one.issued for one in self.sketches), *map(issued_by, self.own))
        # until when each log has all that was saved through its recorder
        self.untils = [one.until - skew - (0 if one.given.is_closed else one.waited) for one in self.sketches]
        for number, one in enumerate(self.sketches):
            if one.timed[1]:
                # Nothing is saved through it.
                self.untils[number] = NEVER
        self.untils += [one.until - skew for one in self.own]
        self.done: set[Version] = set()
        self.told: set[Version] = set()
        self.held: dict[Version, list[Placed]] = {}

    def _sketched(self, given: Given) -> Sketch:
        return Sketch(given).read()

    def _in_order(self, sketches: list[Sketch]) -> list[Sketch]:
        return by_beginning(sketches)

    def _places(self) -> OfPlaces:
        return OfPlaces(self.sketches)

    def _moved(self, log: int, revision: int, value: Value) -> Moved:
        return self.way.moved(log, revision, value)

    def lines(self) -> Iterator[Value]:
        """The joined log without its head and its end."""
        for sketch in self.sketches:
            # What was saved before it began may be shown by any check.
            yield from sketch.headless
        at = 0
        logs = [self._placed(log) for log in range(len(self.sketches))]
        logs += [self._said(number, own) for number, own in enumerate(self.own, len(logs))]
        for placed in heapq.merge(*logs):
            while at < placed.place:
                at += 1
                yield from self.way.spine.lines(at)
            yield from self._ordered(placed)
        for place in range(at + 1, self.way.spine.count + 1):
            yield from self.way.spine.lines(place)
        for listed in self.held.values():
            yield from (one.value for one in listed)
        yield from self._open()

    def _rows(self, log: int) -> Iterator[Standing]:
        """The lines of a log, but for those that say nothing of a place."""
        sketch, is_base = self.sketches[log], True
        revision = sketch.revision
        for number, row in enumerate(sketch.given.rows()):
            if not says_nothing(row.value, is_base):
                yield Standing(number, row, revision, is_base)
            is_base = is_base and row.value["event"] != "place"
            if row.value["event"] in ("rules", "write") and not is_base:
                revision = row.value["revision"]

    def _placed(self, log: int) -> Iterator[Placed]:
        """The lines of a log, but for its changes, in the order of their places."""
        sketch = self.sketches[log]
        for number, row, revision, is_base in self._rows(log):
            value, event, come = row.value, row.value["event"], self.way.place(log, revision)
            if is_of_base(value, is_base):
                if log == 0:
                    yield Placed(0, log, number, value, 0)
            elif event in ("check", "content"):
                moved = self._moved(log, revision, value)
                told = {"file": row.file, "line": row.line, "clock": sketch.given.name}
                yield Placed(moved.place, log, number, {**(lost(value) if moved.value is None else moved.value), **told}, come)
            elif event == "gap" and (value.get("from") is None or sketch.timed[1] and not value.get("lost")):
                # Nothing was asked through a recorder of the changes alone.
                continue
            else:
                yield Placed(come, log, number, self._earlier(value) if event == "gap" else value, come)

    def _said(self, number: int, own: Own) -> Iterator[Placed]:
        """What an application says, in the order of the places."""
        assert self.timed is not None
        log, timed = self.timed
        found = []
        for line, (row, said) in enumerate(lines_of(own, timed)):
            value, place = said.value, self.way.place(log, said.revision)
            if value["event"] in ("check", "content"):
                moved = self.way.moved(log, said.revision, value)
                value, place = lost(value) if moved.value is None else moved.value, moved.place
            elif value["event"] == "gap":
                value = self._earlier(value)
            found.append(Placed(place, number, line, value if value["event"] == "gap" else {
                **value, "file": row.file, "line": row.line, "clock": own.name}, place))
        return iter(found)

    def _earlier(self, value: Value) -> Value:
        """A gap that begins earlier, by as much as the clocks may be apart."""
        since = nanoseconds(value["from"])
        return {**value, "from": time_text((since or 0) - self.skew)}

    def _ordered(self, placed: Placed) -> Iterator[Value]:
        """A line, and what waited for it; a check of a version waits for the content check of that."""
        value, version = placed.value, version_of(placed.value)
        if version is None or value["event"] == "gap":
            yield value
        elif value["event"] == "check" and version in self.issued and version not in self.done:
            self.held.setdefault(version, []).append(placed)
        else:
            if value["event"] == "check" and version not in self.issued and version not in self.told and self._may_be_saved(placed):
                self.told.add(version)
                yield {"event": "unmapped", "reason": UNKNOWN, "version": list(version), "file": value["file"], "line": value["line"]}
            yield value
            if value["event"] != "check":
                self.done.add(version)
                yield from (one.value for one in self.held.pop(version, ()))

    def _may_be_saved(self, placed: Placed) -> bool:
        """Whether a version may have been saved through a recorder whose log ends before it is shown."""
        at = nanoseconds(placed.value.get("time"))
        return at is None or any(log != placed.log and until < at for log, until in enumerate(self.untils))

    def _open(self) -> Iterator[Value]:
        end = max(max(one.until, one.timed[1]) for one in self.sketches)
        for own in self.own:
            gap = open_gap(own, end, self.skew)
            if gap is not None:
                yield gap
        for one in self.sketches:
            if not one.given.is_closed and not one.timed[1]:
                yield self._open_gap(one, end)

    def _open_gap(self, one: Sketch, end: int) -> Value:
        """What a log does not have that was not closed."""
        return {"event": "gap", "from": time_text(max(0, one.until - self.skew - one.waited)), "to": time_text(end),
                "reason": OPEN % one.given.name, "time": time_text(end)}


def is_of_base(value: Value, is_base: bool) -> bool:
    """Whether a line is a part of the base state, before the end of that."""
    event = value["event"]
    return is_base and (event in ("rules", "write") or event == "unmapped" and bool(value.get("userset")))


def says_nothing(value: Value, is_base: bool) -> bool:
    """Whether a line is told by other lines, or of no check."""
    event = value["event"]
    is_change = event in ("rules", "write") or event == "unmapped" and bool(value.get("userset"))
    return is_change and not is_base or event in ("feed", "log", "place", "closed", "read")


def lost(value: Value, reason: str = UNORDERED) -> Value:
    """The line of a check whose place can't be said."""
    goal, version = Relationship(*value["goal"]), version_of(value)
    saved = {"version": list(version)} if version is not None and value["event"] == "content" else {}
    return {"event": "unmapped", "reason": reason, "detail": str(goal), **saved}
