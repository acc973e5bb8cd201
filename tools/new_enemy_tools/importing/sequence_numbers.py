"""The numbers that one sequencer gives to the lines of a log, and those of which the log has no line."""
from typing import TYPE_CHECKING, Iterator, NamedTuple, Optional

from new_enemy_tools.importing import causes

if TYPE_CHECKING:
    from new_enemy_tools.importing.refusals import Refusals

# So many runs are kept before those that belong together become one.
FEW = 1_000


class Run(NamedTuple):
    """Numbers one behind the other, and where the first of them stands."""

    first: int
    last: int
    file: str
    line: int


class Hole(NamedTuple):
    """Numbers that no line has, and the line behind them."""

    first: int
    last: int
    behind: Run


class Numbers:
    """Those of lines in any order. `before` is the last of the days before. Where numbers are said to have holes none is
    kept."""

    def __init__(self, before: Optional[int] = None, has_holes: bool = False):
        self.runs: list[Run] = []
        self.before, self.has_holes = before, has_holes
        self._most = FEW

    def add(self, number: int, file: str, line: int, last: Optional[int] = None) -> None:
        """That of a line; or of lines from there on, which have all up to another one."""
        before, last = self.runs[-1] if self.runs else None, number if last is None else last
        if before is not None and number == before.last + 1:
            self.runs[-1] = before._replace(last=last)
        elif before is None or not number == last == before.last:
            self.runs.append(Run(number, last, file, line))

    def merge(self, other: "Numbers") -> None:
        """Takes those of other lines away from there."""
        self.runs += () if self.has_holes else other.runs
        other.runs = []
        if len(self.runs) > self._most:
            self._join()
            self._most = 2 * len(self.runs) + FEW

    def _join(self) -> None:
        """Makes one of runs that stand one behind the other."""
        runs, self.runs = sorted(self.runs), []
        for run in runs:
            last = self.runs[-1] if self.runs else None
            if last is None or run.first > last.last + 1:
                self.runs.append(run)
            elif run.last > last.last:
                self.runs[-1] = last._replace(last=run.last)

    @property
    def last(self) -> Optional[int]:
        """The greatest number, also of the days before, which the next day goes on from."""
        return None if self.has_holes else max((run.last for run in self.runs), default=self.before)

    def holes(self) -> Iterator[Hole]:
        """In order. Of what stands before the first number of all nothing is known."""
        self._join()
        last = self.before
        for run in self.runs:
            if last is not None and run.first > last + 1:
                yield Hole(last + 1, run.first - 1, run)
            last = run.last

    def first_missing(self, refusals: "Refusals") -> Optional[int]:
        """The first number that no line has, if there is one; all of them are counted and told as lost."""
        holes = list(self.holes())
        first = self.runs[0] if self.runs else None
        if self.before is not None and first is not None and first.first <= self.before:
            refusals.refuse(first.file, first.line, "its `sequence` %d is not behind %d, the last of the day before: one "
                            "sequencer numbers all days; or give --sequence-has-holes" % (first.first, self.before))
        # A line that is refused is not missing, and may have said its number.
        if not holes or refusals.refused:
            return None
        count = sum(hole.last - hole.first + 1 for hole in holes)
        begin, end, behind = holes[0]
        which = "is %d" % begin if begin == end else "are %d to %d" % (begin, end)
        told = _counted(len(holes), "hole"), _counted(count, "number"), which, behind.file, behind.line
        refusals.gap("sequence", "the sequence has %s, of %s; the first %s before %s:%d. A check behind a missing line is not "
                     "audited, since that may be a write: find these lines, or give --sequence-has-holes where the numbers have "
                     "holes and no line is missing" % told)
        refusals.lose(causes.NO_LINE, count, None)
        return begin


def _counted(count: int, what: str) -> str:
    return "%d %s%s" % (count, what, "" if count == 1 else "s")
