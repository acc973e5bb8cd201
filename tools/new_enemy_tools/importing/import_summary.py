"""What is told of a trace that was written."""
from collections import Counter
from typing import Callable, Iterator, Optional

from new_enemy_tools.coverage import Coverage
from new_enemy_tools.importing.events import Entry
from new_enemy_tools.importing.refusals import Refusals
from new_enemy_tools.importing.times import nanoseconds


class Counts:
    """How many lines of each kind there are, and what of them findings look at."""

    def __init__(self) -> None:
        self.commits = self.checks = self.contents = 0
        # of checks in part by cause; and the times of the first and the last
        self.in_part: Counter[str] = Counter()
        self.since: Optional[int] = None
        self.until: Optional[int] = None
        self.has_token = self.has_named = self.has_issued = self.has_change = self.has_commit_behind = False

    @property
    def count(self) -> int:
        return self.commits + self.checks + self.contents

    def merge(self, other: "Counts") -> None:
        """Takes those of lines that stand behind."""
        self.has_commit_behind |= other.has_commit_behind or other.has_change and bool(self.checks or self.contents)
        for name in ("commits", "checks", "contents"):
            setattr(self, name, getattr(self, name) + getattr(other, name))
        for name in ("has_token", "has_named", "has_issued", "has_change"):
            setattr(self, name, getattr(self, name) or getattr(other, name))
        self.in_part.update(other.in_part)
        self._take_time(other.since)
        self._take_time(other.until)

    def take_commit(self, lines: int) -> None:
        self.commits += lines
        self.take_change()

    def take_change(self) -> None:
        self.has_change = True
        self.has_commit_behind |= bool(self.checks or self.contents)

    def take_entry(self, entry: Entry, has_token: bool) -> None:
        if entry.kind == "check":
            self.checks += 1
            self.has_token |= has_token
            self.has_named |= entry.version is not None or entry.part is not None
        else:
            self.contents += 1
            self.has_issued |= entry.reply
        if entry.part is not None:
            self.in_part[entry.part] += 1
        self._take_time(entry.time)

    def take_times(self, times: str) -> None:
        """The times of many checks in UTC, one a line; their letters have the order of times where they have none for the zone."""
        listed = [one[:-1] for one in (times if times.isupper() else times.upper()).split("\n") if one]
        for one in (min(listed), max(listed)) if listed else ():
            self._take_time(nanoseconds(one + "Z"))

    def _take_time(self, time: Optional[int]) -> None:
        if time is not None:
            self.since = time if self.since is None else min(self.since, time)
            self.until = time if self.until is None else max(self.until, time)

    def cannot_show(self) -> Iterator[str]:
        """The findings that no audit can have, each with the reason."""
        no_name = None if self.has_named else "no check names a content version"
        reasons = {
            "F1 stale": None if self.has_token else "no check carries a token",
            "F2 old token": no_name if self.contents else "there is no content check",
            "F3 not latest": None if self.contents else "there is no content check",
            "F4 open snapshot": None if self.has_commit_behind else "no commit stands behind a check",
            "F5 wrong token": None if self.has_issued else "there is no content check with the reply true",
            "F6 unknown version": no_name,
        }
        if not self.checks and not self.contents:
            reasons.update(dict.fromkeys(("F7 no evidence", "F8 bad evidence", "F9 silent evidence", "F10 wrong reply"),
                                         "there is no check"))
        for finding, reason in reasons.items():
            if reason:
                yield "cannot show %s: %s" % (finding, reason)


class Written:
    """The lines of a trace that is being written, many at a time, and what there is to tell of it behind the last."""

    def __init__(self, chunks: Iterator[bytes], counts: Counts, notes: Callable[[], Iterator[str]]):
        self.chunks, self.counts, self.notes = chunks, counts, notes

    def coverage(self, refusals: Refusals) -> Coverage:
        """What of the log's checks stands in the trace, when all lines were taken."""
        counts = self.counts
        return refusals.coverage(counts.checks + counts.contents, counts.in_part, counts.since, counts.until)

    def lines(self, coverage: Coverage) -> Iterator[str]:
        yield "commits %d, checks %d, content checks %d" % (self.counts.commits, self.counts.checks, self.counts.contents)
        yield from () if coverage.is_plain else coverage.lines()
        yield from self.notes()
        yield from self.counts.cannot_show()
