"""Lines of a log that were read, and which of them an import can take now: those that no line behind them may still
move.

Held are: the base state until all of it is there; the last write, until it is seen that no other line has its
revision; a check that may have looked at states up to one that the log does not have yet; and a check of a version
that nobody issued so far, since a gap or a line that is told later may say why. What is held for too long is taken as
it is, as an import of a whole log would take it at its end.
"""
import re
from collections import deque
from datetime import timezone, tzinfo
from itertools import islice
from typing import Callable, Iterator, NamedTuple, Optional

from new_enemy_tools import strictjson
from new_enemy_tools.importing.times import nanoseconds
from new_enemy_tools.monitoring.midnights import Midnight, midnight_after
from new_enemy_tools.monitoring.stream import Chunk

BETWEEN = re.compile(rb'"(?:newest|snapshot)_between":\[[0-9]+,([0-9]{1,20})\]')
REVISION = re.compile(rb'"revision":([0-9]{1,20})')
TIME = re.compile(rb'"time":"([0-9]{4}-[0-9]{2}-[0-9]{2}[^"]*)"')
CHECKS = (b'{"event":"check"', b'{"event":"content"')
WRITE, GAP, UNMAPPED, PLACE = (b'{"event":"%s"' % kind for kind in (b"write", b"gap", b"unmapped", b"place"))
# A recorder puts the writes of one revision into its log at once.
WRITE_WAIT = 0.5
# A check waits so long for states that it may have looked at.
STATE_WAIT = 5.0
# So many lines are taken at once, where they can be cut so.
LINES = 4_096

# So many bytes are read ahead, and so many where lines are held.
MOST, MOST_HELD = 4 << 20, 64 << 20

Issues = Callable[[str, str, str], bool]


def time_of(raw: bytes) -> Optional[int]:
    """When the reply of a check's line was given."""
    found = TIME.search(raw)
    return None if found is None else nanoseconds(found[1].decode())


class Line(NamedTuple):
    """A line with its file and number, and when it was read."""

    file: str
    number: int
    raw: bytes
    read: float


class Unknown(NamedTuple):
    """A check of a version that nobody issued so far: its place, the version, and until when by its own time and by
    the clock something may say why."""

    place: int
    key: tuple[str, str, str]
    time: Optional[int]
    until: float


class Ready(NamedTuple):
    """Lines that can be taken; and whether the next ones are of another day."""

    chunks: list[Chunk]
    is_over: bool


class Holding:
    """Places count all lines that were ever put here."""

    def __init__(self, hold: float, is_begun: bool, stop: Optional[tuple[str, int]] = None,
                 zone: tzinfo = timezone.utc):
        """`stop` is a line, by its file and number, before which the run has to end; its days are those of the zone."""
        self.hold, self.is_begun, self.stop, self.zone = hold, is_begun, stop, zone
        self.lines: deque[Line] = deque()
        self.bytes = 0
        # the end of the day of the newest check
        self.midnight: Optional[Midnight] = None
        self._taken = self._seen = 0
        self._last, self._need, self._need_since = -1, -1, 0.0
        # behind how many lines they can be cut
        self._cuts: deque[int] = deque()
        self._unknown: deque[Unknown] = deque()
        self._issued: dict[tuple[str, str, str], int] = {}
        self._newest: Optional[int] = None
        # the places of lines that begin another day
        self._days: deque[int] = deque()

    @property
    def has_room(self) -> bool:
        """Whether more lines may be read: few ahead, and where some are held so many that what they wait for can
        come; the base state has any length."""
        is_seen = self._seen == self._taken + len(self.lines)
        if is_seen and not self.is_begun:
            return True
        is_held = bool(self._unknown) or is_seen and not self._cuts
        return self.bytes < (MOST_HELD if is_held else MOST)

    @property
    def oldest(self) -> Optional[int]:
        """When the first reply was given of those that are held."""
        return next((time_of(line.raw) for line in self.lines if line.raw.startswith(CHECKS)), None)

    def put(self, chunk: Chunk, now: float) -> None:
        for number, raw in enumerate(chunk.data.splitlines(True), chunk.first):
            self.lines.append(Line(chunk.file, number, raw, now))
        self.bytes += len(chunk.data)

    def ready(self, issues: Issues, revision: int, now: float) -> Ready:
        """What can be taken by an import that knows versions, behind its last revision."""
        self._last = max(self._last, revision)
        for line in islice(self.lines, self._seen - self._taken, None):
            self._see(line, issues, now)
        self._cut_late(now)
        end = self._end(issues, now)
        is_over = bool(self._days) and end >= self._days[0]
        while self._days and end >= self._days[0]:
            self._days.popleft()
        return Ready(list(self._chunks(end)), is_over)

    def _see(self, line: Line, issues: Issues, now: float) -> None:
        raw, place = line.raw, self._seen
        if self.stop == (line.file, line.number):
            self._days.append(place)
            self._cut(place)
        is_write = raw.startswith(WRITE)
        if not is_write and self._seen > self._taken and self._need <= self._last and self.is_begun:
            # No line has the revision of the write before it any more.
            self._cut(place)
        self._seen += 1
        if raw.startswith(CHECKS):
            self._see_check(raw, place, issues, now)
        elif raw.startswith(GAP) or raw.startswith(UNMAPPED) and b'"version":' in raw:
            self._explain()
        elif raw.startswith(PLACE):
            self.is_begun = True
        elif is_write and (found := REVISION.search(raw)) is not None:
            self._last = max(self._last, int(found[1]))
        if not is_write and self._need <= self._last and self.is_begun:
            self._cut(self._seen)

    def _explain(self) -> None:
        """A line says why versions may be unknown that checks before it name; it is taken together with these."""
        if self._unknown:
            first = self._unknown[0].place
            self._cuts = deque(place for place in self._cuts if place <= first)
            self._unknown.clear()

    def _cut(self, place: int) -> None:
        if not self._cuts or self._cuts[-1] < place:
            self._cuts.append(place)

    def _see_check(self, raw: bytes, place: int, issues: Issues, now: float) -> None:
        self._see_day(raw, place)
        between = BETWEEN.search(raw)
        if between is not None and int(between[1]) > self._need:
            self._need, self._need_since = int(between[1]), now
        if self._unknown:
            self._newest = max(self._newest or 0, time_of(raw) or 0)
        if b'"version":' not in raw:
            return
        try:
            value = strictjson.object_of(raw)
            of, thing, label = str(value["goal"][0]), str(value["goal"][1]), str(value["version"])
        except (strictjson.NotJson, KeyError, TypeError, IndexError):
            # The import refuses it by name.
            return
        if raw.startswith(CHECKS[1]):
            self._issued.setdefault((of, thing, label), place)
        elif (of, thing, label) not in self._issued and not issues(of, thing, label):
            self._unknown.append(Unknown(place, (of, thing, label), time_of(raw), now + self.hold))

    def _see_day(self, raw: bytes, place: int) -> None:
        # A recorder writes times in UTC.
        found = TIME.search(raw)
        if found is None or self.midnight is not None and found[1] < self.midnight.text:
            return
        at = nanoseconds(found[1].decode())
        if at is not None:
            if self.midnight is not None:
                self._days.append(place)
            self.midnight = midnight_after(at, self.zone)

    def _cut_late(self, now: float) -> None:
        """Behind all lines, where they were held for too long."""
        if not self.lines or not self.is_begun:
            return
        waited = now - self.lines[-1].read
        is_long = waited >= WRITE_WAIT if self._need <= self._last else now - self._need_since >= STATE_WAIT
        if is_long:
            self._cut(self._seen)

    def _end(self, issues: Issues, now: float) -> int:
        """Up to which place lines can be taken."""
        while self._unknown and (self._unknown[0].place < self._taken or self._is_late(self._unknown[0], now)
                                 or issues(*self._unknown[0].key)):
            self._unknown.popleft()
        limit = self._unknown[0].place if self._unknown else self._seen
        end = self._taken
        while self._cuts and self._cuts[0] <= limit:
            if end > self._taken and self._cuts[0] > self._taken + LINES:
                break
            if self._days and end >= self._days[0]:
                break
            end = self._cuts.popleft()
        return end

    def _is_late(self, unknown: Unknown, now: float) -> bool:
        """Whether nothing that is told now would say any more why nobody issued a version."""
        room = int(self.hold * 1e9)
        is_behind = self._newest is not None and unknown.time is not None and self._newest >= unknown.time + room
        return unknown.until <= now or is_behind

    def _chunks(self, end: int) -> Iterator[Chunk]:
        taken = [self.lines.popleft() for _ in range(end - self._taken)]
        self._taken = end
        self.bytes -= sum(len(line.raw) for line in taken)
        self._issued = {key: place for key, place in self._issued.items() if place >= end} if self._issued else {}
        start = 0
        for place in range(1, len(taken) + 1):
            if place == len(taken) or taken[place].file != taken[start].file:
                yield Chunk(taken[start].file, taken[start].number, b"".join(line.raw for line in taken[start:place]))
                start = place
