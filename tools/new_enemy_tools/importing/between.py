"""Checks that were evaluated between two revisions: right where they are right at one state in between.

Such a check becomes an entry at a state where its reply is right, and the audit judges it there. Where there is no such state it
becomes one entry for each, so that the audit says of each that the reply is wrong.
"""
from bisect import bisect_left, bisect_right
from typing import Iterable, Iterator, NamedTuple, Optional

from new_enemy_tools.held_goals import Answers
from new_enemy_tools.importing.commits import Commit, Writer
from new_enemy_tools.rules import Declaration, Rules
from new_enemy_tools.store import Store
from new_enemy_tools.texts import Tuple

STATES = 1_000


class Spans:
    """The revisions that some check looks at, many at a time, and from where to where others look; these are gone through where one is asked
    for."""

    def __init__(self, spans: Iterable[tuple[list[int], list[tuple[int, int]]]]):
        self.spans: Optional[Iterable[tuple[list[int], list[tuple[int, int]]]]] = spans
        self.points: set[int] = set()
        self.starts: list[int] = []
        self.ends: list[int] = []

    def _gather(self, spans: Iterable[tuple[list[int], list[tuple[int, int]]]]) -> None:
        wide: set[tuple[int, int]] = set()
        for points, some in spans:
            self.points.update(points)
            wide.update(some)
        for low, high in sorted(wide):
            if self.ends and low <= self.ends[-1]:
                self.ends[-1] = max(high, self.ends[-1])
            else:
                self.starts.append(low)
                self.ends.append(high)

    def has(self, revision: int) -> bool:
        if self.spans is not None:
            self._gather(self.spans)
            self.spans = None
        if revision in self.points:
            return True
        place = bisect_right(self.starts, revision) - 1
        return place >= 0 and revision <= self.ends[place]


class Asked(NamedTuple):
    """A check between two revisions, with what its findings hang on."""

    kind: str
    goal: Tuple
    reply: bool
    lowest: int
    highest: int
    token: Optional[int]
    newest: bool = False


class States:
    """The states of a log by their revisions, and what holds in them; all names are those of the trace."""

    def __init__(self) -> None:
        self.store, self.rules = Store(), Rules()
        self.answers = Answers(self.rules, self.store)
        self.revisions: list[int] = []
        self.right = self.wrong = self.entries = 0

    def take(self, commit: Commit, writer: Writer) -> None:
        assert commit.revision is not None
        for given, touch in commit.touched.items():
            self.store.touch(commit.revision, writer.named(given), touch.live)

    def take_rules(self, declarations: Iterable[Declaration]) -> None:
        for one in declarations:
            self.rules.keep(one)

    def count(self, low: int, high: int) -> int:
        return bisect_right(self.revisions, high) - bisect_left(self.revisions, low)

    def chosen(self, asked: Asked, place: int, may_go_on: bool = False) -> list[int]:
        """The revision for a check that stands behind so many commits, or those of all states, at most STATES.

        None where the log may go on, some state is behind it, and at none that is known the check is right and without a finding.
        """
        if asked.kind == "check" and not self._findings(asked, asked.highest, place) and self._is_right(asked, asked.highest):
            # Of most checks no other state is asked for.
            self.right += 1
            return [asked.highest]
        is_open = may_go_on and (not self.revisions or self.revisions[-1] < asked.highest)
        between = self.revisions[bisect_left(self.revisions, asked.lowest):bisect_right(self.revisions, asked.highest)]
        latest_first = sorted({asked.lowest, asked.highest, *between}, reverse=True)
        listed = sorted(latest_first, key=lambda at: self._findings(asked, at, place))
        if asked.newest and asked.kind == "content":
            # The earliest that it can be, so that no later check of its version has to see more than there was.
            listed.sort(key=lambda at: (asked.token not in (None, at), at))
        for at in listed:
            if self._is_right(asked, at):
                if is_open and self._findings(asked, at, place):
                    break
                self.right += 1
                return [at]
        if is_open:
            return []
        self.wrong += 1
        self.entries += len(listed)
        return listed

    def _is_right(self, asked: Asked, at: int) -> bool:
        return self.answers.holds(asked.goal, at) == asked.reply

    def _findings(self, asked: Asked, at: int, place: int) -> int:
        """How many findings on its own tokens and order the check would have at a revision."""
        count = place < len(self.revisions) and self.revisions[place] <= at
        if asked.kind == "check":
            return count + (asked.token is not None and asked.token > at)
        return count + (place > 0 and self.revisions[place - 1] > at) + (asked.reply and asked.token != at)

    def place(self, at: int) -> int:
        """Behind how many commits a state is."""
        return bisect_right(self.revisions, at)

    def summary_lines(self) -> Iterator[str]:
        """Of how many checks it is not known which state they were answered from."""
        count = self.right + self.wrong
        if count:
            yield "%s may have looked at any state between two that are known: %d right at one of them%s" % (
                "1 check" if count == 1 else "%d checks" % count, self.right,
                ", %d wrong at each of them (%d entries)" % (self.wrong, self.entries) if self.wrong else "")
