"""The logs of several recorders as one log that grows while these do (docs/MONITORING.md, "Several recorders").

Each round takes what the logs have by then, by the rules of a day of `ne day` (`days_joined.py`). Between rounds
are kept what the logs say of changes, and the lines that wait for another log; a line that was taken is let go. It has
no file and no clock.
"""
from typing import Iterator, NamedTuple, Optional, Sequence

from new_enemy_tools.importing.times import nanoseconds
from new_enemy_tools.recording.days_joined import ENTRIES, Before, DayJoin, Taken, refuse_missing, without_late
from new_enemy_tools.recording.joining import Placed, Standing, is_of_base, says_nothing
from new_enemy_tools.recording.own_events import NEVER
from new_enemy_tools.recording.sketches import Given, Row, Sketch, Unreached, Value, Version, last_of, version_of


class Waiting(NamedTuple):
    """A line that no round has taken, and when it was read."""

    standing: Standing
    size: int
    read: float


class Log:
    """What is known of a log so far, and its lines that wait."""

    def __init__(self, name: str, taken: Taken):
        self.name, self.taken = name, taken
        self.sketch = Sketch(Given(name, lambda: iter(()), False))
        self.lines: list[Waiting] = []
        self.count = self.bytes = 0
        # when the last of the lines was written that are not kept any more
        self.earlier = 0

    def take(self, row: Row, size: int, now: float) -> None:
        """Takes its next line; raises JoinFault."""
        number, is_base, value = self.count, self.sketch.is_base, row.value
        revision = last_of(self.sketch)
        self.count += 1
        self.sketch.take(row)
        self.sketch.given = self.sketch.given._replace(is_closed=value["event"] == "closed" and not value.get("full"))
        if says_nothing(value, is_base):
            return
        if self._is_taken(number):
            self._note(value)
            return
        self.lines.append(Waiting(Standing(number, row, revision, is_base), size, now))
        self.bytes += size

    def _is_taken(self, number: int) -> bool:
        return number < self.taken.lines and number not in self.taken.held

    def _note(self, value: Value) -> None:
        self.earlier = max(self.earlier, nanoseconds(value.get("time")) or 0)

    def let_go(self, taken: Taken) -> list[Value]:
        """Lets the lines go that were taken."""
        self.taken = taken._replace(held=frozenset(taken.held))
        gone = [one for one in self.lines if self._is_taken(one.standing.number)]
        self.lines = [one for one in self.lines if not self._is_taken(one.standing.number)]
        self.bytes = sum(one.size for one in self.lines)
        for one in gone:
            self._note(one.standing.row.value)
        return [one.standing.row.value for one in gone]


class Round(DayJoin):
    """What the logs have that no round before has taken. `late` says of which lines it is too late to wait for what only another log could
    say of their version."""

    def __init__(self, join: "LiveJoin", given: list[Given], left_out: list[Given], over: set[str], now: float):
        self.logs, self.now, self.hold = join.logs, now, join.hold
        super().__init__(given, over, join.skew, join.before, left_out)
        self.done, self.told = join.done, join.told

    def _sketched(self, given: Given) -> Sketch:
        return self.logs[given.name].sketch

    def _log(self, log: int) -> Log:
        return self.logs[self.sketches[log].given.name]

    def _rows(self, log: int) -> Iterator[Standing]:
        return (one.standing for one in self._log(log).lines)

    def _earlier_times(self) -> list[int]:
        return [self._log(log).earlier for log in range(len(self.sketches))]

    def _reach(self, log: int) -> int:
        """A recorder may still write of what was asked so long before its last line."""
        found = super()._reach(log)
        return found if found == NEVER or self.sketches[log].given.is_closed else found - self.sketches[log].waited

    def _waits(self, placed: Placed) -> bool:
        if not super()._waits(placed):
            return False
        value = placed.value
        is_ahead = placed.place > self.cut or value["event"] in ENTRIES and self.way.reach(value) > self.cut
        return is_ahead or placed.number not in self._late(placed.log)

    def _late(self, log: int) -> set[int]:
        return {one.standing.number for one in self._log(log).lines if one.read + self.hold <= self.now}


class LiveJoin:
    """`hold` says for how many seconds a check waits for a version that another log may have. `before` and `told` are what an earlier one
    has left."""

    def __init__(self, names: Sequence[str], skew: int, hold: float, before: Before = Before(), told: Sequence[Version] = ()):
        refuse_missing(names, before)
        self.skew, self.hold, self.before = skew, hold, before
        taken = {one.name: one._replace(held=frozenset(one.held)) for one in before.logs}
        self.logs = {name: Log(name, taken.get(name, Taken(name))) for name in names}
        # versions whose content was given out, and of which it was said that they may have been saved elsewhere
        self.done: set[Version] = set()
        self.told: set[Version] = set(told)
        # the logs for which some line waits
        self.waits_for: list[str] = []

    def take(self, name: str, row: Row, size: int, now: float) -> None:
        """Takes the next line of a log; of a revision all lines have to come before the next round. Raises JoinFault."""
        log = self.logs[name]
        before = len(log.lines)
        log.take(row, size, now)
        if len(log.lines) == before:
            self._note_done(row.value)

    def _note_done(self, value: Value) -> None:
        version = version_of(value)
        if version is not None and value["event"] not in ("check", "gap"):
            self.done.add(version)

    def round(self, over: set[str], now: float) -> list[Value]:
        """The lines of the joined log that can be given out; `over` are the logs that have ended, and whose last line was taken. Raises
        JoinFault. Those that were joined before have to be read as far again."""
        given = [log.sketch.given for log in self.logs.values() if log.sketch.is_begun]
        if not given or any(self.logs[one.name].count < one.lines for one in self.before.logs):
            return []
        is_first = not self.before.logs
        try:
            made = without_late(given, over, self.before, lambda some, late: Round(self, some, late, over, now))
        except Unreached as fault:
            if fault.name in over or not fault.is_behind:
                raise
            self.waits_for = [fault.name]
            return []
        lines = list(made.lines())
        self.before = made.after()
        self.waits_for = [name for name, _ in made.waiting().logs] + [one.name for one in made.late]
        for taken in self.before.logs:
            for value in self.logs[taken.name].let_go(taken):
                self._note_done(value)
        if is_first:
            # No later round has lines of the base state.
            for log in self.logs.values():
                if log.sketch.is_begun:
                    log.lines = [one for one in log.lines if not is_of_base(one.standing.row.value, one.standing.is_base)]
            return with_place(lines, made.sketches[0].revision)
        return lines

    @property
    def service(self) -> Optional[str]:
        """Of which service the logs are, when one of them says that."""
        return next((log.sketch.service for log in self.logs.values() if log.sketch.service), None)

    @property
    def oldest(self) -> Optional[int]:
        """When the first reply was given of those that wait."""
        times = (nanoseconds(one.standing.row.value.get("time")) for log in self.logs.values() for one in log.lines
                 if one.standing.row.value["event"] in ENTRIES)
        return min((at for at in times if at is not None), default=None)

    @property
    def waiting(self) -> int:
        """How many checks wait."""
        return sum(one.standing.row.value["event"] in ENTRIES for log in self.logs.values() for one in log.lines)


def with_place(lines: list[Value], revision: int) -> list[Value]:
    """With a line behind the base state, which says that it is whole."""
    end = max(place for place, value in enumerate(lines, 1) if value.get("base"))
    while end < len(lines) and is_of_base(lines[end], True) and lines[end].get("revision") is None:
        end += 1
    return [*lines[:end], {"event": "place", "revision": revision}, *lines[end:]]
