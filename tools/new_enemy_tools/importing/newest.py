"""Content checks that say they were evaluated at the newest state: each is put right behind the commit of its snapshot.

A line that is logged a little behind its evaluation would else stand behind commits that the check could not see.

It is not believed where a later commit was certainly visible before it: where another check saw that commit and was evaluated before (by both
times, on different clocks by more than the skew); where a line without `time` that stands before it did; or where the commit has a `time`
before it by more than the skew. It is then audited without a version, and counted.
"""
from bisect import bisect_left, bisect_right
from typing import Any, NamedTuple, Optional

from new_enemy_tools.importing import causes
from new_enemy_tools.importing.events import Entry, Event, Line
from new_enemy_tools.importing.order import lowest_of
from new_enemy_tools.importing.refusals import Refusals


class Seen(NamedTuple):
    """The highest revision that some entries surely saw, and one that did."""

    revision: int
    event: Optional[Entry]


class Entries:
    """Entries by a number that rises, each with the highest revision that it or one before it surely saw."""

    def __init__(self, given: list[tuple[int, Entry]]):
        self.at: list[int] = []
        self.seen = [Seen(-1, None)]
        for at, event in sorted(given, key=lambda one: one[0]):
            self.at.append(at)
            self.seen.append(max(self.seen[-1], Seen(lowest_of(event), event), key=lambda seen: seen.revision))

    def before(self, at: int) -> Seen:
        return self.seen[bisect_left(self.at, at)]


class Witnesses:
    """What was surely visible before an entry: by times where both have one, else by the order of the lines."""

    def __init__(self, stream: list[Line], skew: Optional[int]):
        self.skew = None if skew is None else skew * 1_000_000
        entries = [(number, event) for number, event in enumerate(stream) if isinstance(event, Entry)]
        timed = [(event.time, event) for _, event in entries if event.time is not None]
        self.by_line = Entries(entries)
        self.untimed = Entries([one for one in entries if one[1].time is None])
        self.timed = Entries(timed)
        clocks: dict[str, list[tuple[int, Entry]]] = {}
        for one in timed:
            clocks.setdefault(one[1].clock, []).append(one)
        self.clocks = {clock: Entries(listed) for clock, listed in clocks.items()}

    def before(self, number: int, event: Entry) -> Seen:
        if event.time is None:
            return self.by_line.before(number)
        found = [self.untimed.before(number), self.clocks[event.clock].before(event.time)]
        if self.skew is not None:
            found.append(self.timed.before(event.time - self.skew))
        return max(found, key=lambda seen: seen.revision)

    def is_surely_before(self, commit: Event, event: Entry) -> bool:
        """Whether a commit came before an entry by times that --skew compares."""
        margin = 0 if commit.clock == event.clock else self.skew or 0
        return self.skew is not None and commit.time is not None and event.time is not None and commit.time + margin < event.time


def put_newest(stream: list[Line], skew: Optional[int], refusals: Refusals) -> list[Line]:
    """The events with each such content check in its place, as far up as the checks of its version let it."""
    witnesses = Witnesses(stream, skew)
    writes = [(number, event) for number, event in enumerate(stream) if isinstance(event, Event) and event.revision is not None]
    revisions = [event.revision or 0 for _, event in writes]
    named: dict[tuple[Any, ...], int] = {}
    for number, event in enumerate(stream):
        if isinstance(event, Entry) and event.kind == "check" and event.version is not None:
            named.setdefault((*event.goal[:2], event.version), number)
    places: list[tuple[int, int, int]] = []
    kept: list[Line] = []
    for number, event in enumerate(stream):
        count, place = len(writes), (number, 0, number)
        if isinstance(event, Entry) and event.newest and event.lowest is None:
            count = bisect_right(revisions, event.snapshot or 0)
        if isinstance(event, Entry) and count < len(writes) and writes[count][0] < number:
            later = writes[count][1]
            seen = witnesses.before(number, event)
            was_seen = seen.revision >= revisions[count]
            if was_seen or witnesses.is_surely_before(later, event):
                event = _without_version(event, seen.event if was_seen and seen.event else later, refusals)
                places.append((number, 0, number))
                kept.append(event)
                continue
            behind = writes[count - 1][0] if count else -1
            first = named.get((*event.goal[:2], event.version), number)
            place = (max(behind, first if first < number else behind), 1, number)
        places.append(place)
        kept.append(event)
    return [event for _, event in sorted(zip(places, kept), key=lambda one: one[0])]


def _without_version(event: Entry, witness: Line, refusals: Refusals) -> Entry:
    """A check of the same question: where it stands among the commits is not known, and its version is left out."""
    said = "the commit came" if isinstance(witness, Event) else "it was seen"
    refusals.note(causes.NOT_NEWEST, "%s:%d: a content check is said to be newest, and a later commit was visible before; %s at %s:%d. Give both "
                  "lines the `time` of their evaluation, or leave out `newest`" % (event.file, event.line, said, witness.file, witness.line))
    return refusals.as_check(event, causes.NOT_NEWEST)
