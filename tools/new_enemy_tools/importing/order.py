"""The order of events: that of one sequencer, or that of clocks that may be apart by so many milliseconds.

The order of two events can change a finding where they are two writes, a write and a content check, a write and a check whose snapshot takes
it in, or a content check and a check of its version.
"""
from collections import deque
from typing import Generic, Iterable, Iterator, Optional, TypeVar

from new_enemy_tools.importing import causes
from new_enemy_tools.importing.events import Entry, Event, Line
from new_enemy_tools.importing.refusals import Refusals
from new_enemy_tools.importing.sorting import sorted_lines
from new_enemy_tools.importing.spool import Facts

Some = TypeVar("Some", bound=Line)
MILLISECOND = 1_000_000


class Placed(Generic[Some]):
    """A line, and whether it is left out."""

    def __init__(self, line: Some):
        self.line, self.is_out = line, False

    def lines_left(self) -> tuple[Some, ...]:
        return () if self.is_out else (self.line,)


def lowest_of(entry: Entry) -> int:
    """The earliest revision that a check may have looked at."""
    lowest = entry.snapshot if entry.lowest is None else entry.lowest
    assert lowest is not None
    return lowest


def in_order(lines: Iterable[Line], facts: Facts, skew: Optional[int], refusals: Refusals) -> Iterable[Line]:
    """The lines in their order; of those that stamps order only what may still move is in memory."""
    if skew is not None:
        return _apart(sorted_lines(_timed(lines, refusals), _time), skew * MILLISECOND, refusals)
    if facts.is_sequenced:
        return _once(sorted_lines(lines, _sequence), refusals)
    files = facts.sources
    if len(files) > 1 and not facts.is_chained:
        second = list(files)[1]
        refusals.refuse(second, files[second], "events of several files (%s) have no order: give each line the `sequence` "
                        "of one sequencer, or a `time` and --skew MS" % ", ".join(files))
    return lines


def is_before_base(line: Line, place: int, facts: Facts, skew: Optional[int]) -> bool:
    """Of lines that stamps order whether one stands before the base state: by their stamps where both have them, else where it does in its file."""
    if skew is not None and facts.base_time is not None and line.time is not None:
        return line.time < facts.base_time
    if skew is None and facts.is_sequenced and facts.base_sequence is not None and line.sequence is not None:
        return line.sequence < facts.base_sequence
    return place <= facts.last_base and line.file == facts.base_source[0]


def ordered(lines: list[Some], skew: Optional[int], refusals: Refusals) -> list[Some]:
    """Lines by their stamps, or as they stand."""
    if skew is not None:
        return list(_apart(sorted(_timed(lines, refusals), key=_time), skew * MILLISECOND, refusals))
    if lines and all(line.sequence is not None for line in lines):
        return list(_once(sorted(lines, key=_sequence), refusals))
    return lines


def _sequence(event: Line) -> tuple[int, int]:
    """A gap that does not say where it stands may be anywhere, and so stands before all else."""
    return event.sequence or (-1, 0)


def _time(event: Line) -> int:
    assert event.time is not None
    return event.time


def _once(events: Iterable[Some], refusals: Refusals) -> Iterator[Some]:
    """Lines in order, of which no two may have one number."""
    before: Optional[Line] = None
    for event in events:
        if before is not None and before.sequence is not None and before.sequence == event.sequence:
            refusals.refuse(event.file, event.line, "sequence %d stands at %s:%d too"
                            % (before.sequence[0], before.file, before.line))
        before = event
        yield event


def _timed(events: Iterable[Some], refusals: Refusals) -> Iterator[Some]:
    """Those that have a time; of one clock in one file they rise. Files of one clock may be given in any order."""
    last: dict[tuple[str, str], Line] = {}
    for event in events:
        if event.time is None:
            _leave_out(event, causes.WITHOUT_TIME, "the line has no `time`, which --skew orders by", refusals)
            continue
        before = last.get((event.clock, event.file))
        if before is not None and event.time < _time(before):
            refusals.refuse(event.file, event.line, "its time is before that of %s:%d, of the same clock"
                            % (before.file, before.line))
        last[event.clock, event.file] = event
        yield event


def _apart(events: Iterable[Some], skew: int, refusals: Refusals) -> Iterator[Some]:
    """Lines in the order of their times, without checks of which it is not known whether they came before another one."""
    near: deque[Placed[Some]] = deque()
    for event in events:
        while near and _time(event) - _time(near[0].line) > skew:
            yield from near.popleft().lines_left()
        placed = Placed(event)
        for other in reversed(near):
            before = other.line
            is_unsure = event.clock != before.clock or event.file != before.file and event.time == before.time
            if is_unsure and not placed.is_out and not other.is_out and _matters(event, before):
                apart = format((_time(event) - _time(before)) / MILLISECOND, "g")
                told = "which came first, this %s or the %s at %s:%d, is not known: they are %s ms apart, and the skew is %d ms" % (
                    event.kind, before.kind, before.file, before.line, apart, skew // MILLISECOND)
                out = placed if isinstance(event, Entry) else other
                _leave_out(out.line, causes.ORDER_UNKNOWN, told, refusals, event)
                out.is_out = True
        near.append(placed)
    for placed in near:
        yield from placed.lines_left()


def _leave_out(event: Line, cause: str, told: str, refusals: Refusals, at: Optional[Line] = None) -> None:
    """A check is not audited, and a write or rules are refused, at the line of another event, if one is given."""
    at = at or event
    if isinstance(event, Event):
        refusals.refuse(at.file, at.line, told)
    else:
        refusals.unmapped_check(event, cause, told)


def _matters(one: Line, other: Line) -> bool:
    """Whether the order of two events can change a finding."""
    if isinstance(one, Event) or isinstance(other, Event):
        events = [event for event in (one, other) if isinstance(event, Event) and event.kind in ("write", "rules")]
        checks = [entry for entry in (one, other) if isinstance(entry, Entry) and entry.kind == "check"]
        return bool(events) and (not checks or (events[0].revision or 0) <= (checks[0].snapshot or 0))
    return {one.kind, other.kind} == {"check", "content"} and one.version is not None and one.version == other.version \
        and one.goal[:2] == other.goal[:2]
