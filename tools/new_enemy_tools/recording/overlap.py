"""Which changes of a feed are new, where each reading begins again some way back.

OpenFGA gives a change its place in the feed before it commits: a later commit may stand before an earlier one, and behind a token it
would never come. So a reading begins at a token that is old enough, and what was shown before is known by what it is.
"""
from collections import deque
from typing import Iterable, NamedTuple, Optional

from new_enemy_tools.importing.events import Relationship
from new_enemy_tools.recording.lines import tuple_list


class Change:
    """A change of the feed: a tuple and whether it is there now, the service's time, and why it has no form in a log. One that can't be
    read has no tuple, and the userset where that can be read. `revision` is where it stands in the log, once it does; `follows` whether
    the change before it in the feed was new with it; `is_late` whether a change of its tuple that stands behind it was shown before."""

    __slots__ = ("given", "live", "time", "reason", "userset", "revision", "follows", "is_late")

    def __init__(self, given: Optional[Relationship], live: bool, time: int, reason: Optional[str] = None,
                 userset: Optional[tuple[str, str, str]] = None):
        self.given, self.live, self.time, self.reason, self.userset = given, live, time, reason, userset
        self.revision, self.follows, self.is_late = 0, False, False

    @property
    def form(self) -> Optional[tuple[str, ...]]:
        """The tuple as a line has it."""
        return None if self.given is None or self.reason else tuple(tuple_list(self.given))


class Known(NamedTuple):
    """A change that an earlier log has: its tuple as a line has it, None where it has no form, and its revision."""

    given: Optional[tuple[str, ...]]
    live: bool
    revision: int


class Mark(NamedTuple):
    """A token with the reading that gave it, when that had ended, and the last change before it."""

    reading: int
    received: int
    cursor: Optional[str]
    last: Optional[Change]


class Read(NamedTuple):
    """What a reading gave that is new, in the order of the feed; and from where a later recorder goes on: of the last `behind` changes
    of the log those come again that are not `apart`."""

    changes: list[Change]
    cursor: Optional[str]
    behind: int
    apart: list[Change]


class Overlap:
    """`back` is how long a token has to be known before a reading begins at it, in nanoseconds."""

    def __init__(self, cursor: Optional[str], back: int):
        self.cursor, self.back = cursor, back
        # what the feed has shown behind the cursor, in its order
        self.shown: list[Change] = []
        self.marks: deque[Mark] = deque()
        self.mark = Mark(0, 0, cursor, None)
        # what is new since the mark, each with its reading
        self.since: list[tuple[int, Change]] = []
        self.reading = 0

    def go_on(self, listed: list[Change], known: list[Known], apart: Iterable[int], end: Optional[str],
              received: int) -> Optional[list[Change]]:
        """Behind the cursor come changes that an earlier log has, but for those of the revisions apart; and others, which are given: all of them
        where there is none. None where some do not come."""
        left: dict[tuple[Optional[tuple[str, ...]], bool], deque[int]] = {}
        others = set(apart)
        for one in known:
            if one.revision in others:
                change = Change(None, one.live, 0)
                change.revision = one.revision
                self.since.append((0, change))
            else:
                left.setdefault((one.given, one.live), deque()).append(one.revision)
        new = []
        for change in listed:
            form = change.form
            # A line without a tuple does not say whether one came or went.
            found = left.get((form, change.live)) or left.get((None, True))
            if found:
                change.revision = found.popleft()
                self.since.append((0, change))
            else:
                new.append(change)
        if any(left.values()):
            self.since.clear()
            return None
        self.since.sort(key=lambda one: one[1].revision)
        self.since += [(1, change) for change in new]
        self.reading, self.shown = 1, list(listed)
        self.marks.append(Mark(1, received, end, listed[-1] if listed else None))
        return new

    def take(self, listed: list[Change], end: Optional[str], began: int, received: int) -> Optional[Read]:
        """Takes all that the feed has behind the cursor; None where it does not show what it showed before."""
        left: dict[tuple[Optional[Relationship], bool, int], deque[Change]] = {}
        for change in self.shown:
            left.setdefault((change.given, change.live, change.time), deque()).append(change)
        now, new = list[Change](), list[Change]()
        for change in listed:
            found = left.get((change.given, change.live, change.time))
            if found:
                now.append(found.popleft())
            else:
                change.follows = bool(new) and now[-1] is new[-1]
                now.append(change)
                new.append(change)
        if any(left.values()):
            return None
        shown, fresh = set[Optional[Relationship]](), set(map(id, new))
        for change in reversed(now if new else ()):
            if id(change) not in fresh:
                shown.add(change.given)
            else:
                change.is_late = change.given in shown
        self.reading += 1
        self.shown = now
        self.since += [(self.reading, change) for change in new]
        if now and (not self.marks or self.marks[-1].last is not now[-1]):
            self.marks.append(Mark(self.reading, received, end, now[-1]))
        while self.marks and self.marks[0].received <= began - self.back:
            self._advance(self.marks.popleft())
        return Read(new, self.mark.cursor, len(self.since), self._apart())

    def _advance(self, mark: Mark) -> None:
        """Later readings begin at a mark."""
        for place, change in enumerate(self.shown):
            if change is mark.last:
                del self.shown[:place + 1]
                break
        self.cursor, self.mark = mark.cursor, mark
        self.since = [one for one in self.since if one[0] > mark.reading]

    def _apart(self) -> list[Change]:
        """What is new since the mark and stands before it in the feed."""
        place = next((place for place, change in enumerate(self.shown) if change is self.mark.last), -1)
        behind = set(map(id, self.shown[place + 1:]))
        return [change for _, change in self.since if id(change) not in behind]
