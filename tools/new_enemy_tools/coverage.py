"""The sum of what was looked at, the same in every form: checks audited whole, in part and not at all, those lost in gaps, and from when to
when.

The checks of a trace are its entries, but for those that say `again`: a check that may have looked at any of several states has an entry at
each where its reply is right at none, and is one check. Of a check that is audited in part its line says `part`, the cause. The last line
that an import writes has the key `coverage`, with what stands in no line of the trace. The program passes these keys over.
"""
import re
from collections import Counter
from typing import Any, Callable, Iterator, Mapping, NamedTuple, Optional

from new_enemy_tools import trace_lines
from new_enemy_tools.importing.causes import not_looked_for
from new_enemy_tools.importing.times import nanoseconds, text_of_time
from new_enemy_tools.shown import plain
from new_enemy_tools.trace_lines import Counted, counted_in

# Nothing was found, and not everything was looked at.
INCOMPLETE = 6
# A text of a stranger in the sum: without letters that JSON escapes, and so long at most.
ODD = re.compile(r'["\\\x00-\x1f\x7f]')
LONGEST = 80
# So many causes are told apart; a sum stands on one line.
MOST = 40
OTHERS = "other causes"


class Coverage(NamedTuple):
    """What of the checks of a log was looked at. Times are nanoseconds since 1970."""

    # audited, whole or in part
    checks: int = 0
    in_part: Mapping[str, int] = {}
    not_audited: Mapping[str, int] = {}
    # in gaps, as the recorder counted them, by its reasons
    lost: Mapping[str, int] = {}
    # gaps in which nobody counted, and how long those were together whose length is known
    uncounted: int = 0
    dark: int = 0
    since: Optional[int] = None
    until: Optional[int] = None
    # how many logs have a last file that is not closed, and the number of the last file of a recorder's
    open: int = 0
    last_file: Optional[int] = None
    # why it is not known what was left out, if so
    unknown: Optional[str] = None
    # checks of other stores, which are not recorded since somebody said that they are no concern: told, and no part of what is to be looked at
    elsewhere: int = 0
    # of the gaps in which nobody counted those of which it is not known how long they were
    undated: int = 0

    @property
    def whole(self) -> int:
        return self.checks - sum(self.in_part.values())

    @property
    def unaudited(self) -> int:
        """How many checks were not looked at whole, as far as they were counted."""
        return sum(map(_count, (self.in_part, self.not_audited, self.lost)))

    @property
    def is_whole(self) -> bool:
        """Whether there are checks, and all that is known to have been asked was looked at."""
        return self.checks > 0 and not self.unaudited and not self.uncounted and not self.open and self.unknown is None

    @property
    def is_empty(self) -> bool:
        """Whether nothing is known to have been asked."""
        return not (self.checks or self.unaudited or self.uncounted or self.open or self.unknown)

    @property
    def is_plain(self) -> bool:
        """Whether there is nothing to say beside the count of entries."""
        return not self.elsewhere and (self.is_whole or self.is_empty)

    @property
    def percent(self) -> float:
        """How much was not looked at: of the checks that were counted, and of the time in which nobody counted. A gap of which it is not known
        how long it was may be all of that."""
        asked = self.checks + _count(self.not_audited) + _count(self.lost)
        if not asked or self.unknown is not None:
            return 100.0
        counted = 100 * self.unaudited / asked
        if not self.uncounted:
            return counted
        if self.undated or self.since is None or self.until is None or self.until <= self.since or not self.dark:
            return 100.0
        return min(100.0, counted + 100 * self.dark / (self.until - self.since))

    def status(self, allowed: float = 0) -> int:
        """0 where all was looked at, or all but so many percent, and also where nothing was asked; else 6. What an open log may lack is not
        known, and is taken for less than any percent."""
        is_below = self.checks > 0 and self.percent <= allowed and (allowed > 0 or not self.open)
        return 0 if self.is_whole or self.is_empty or is_below else INCOMPLETE

    def without(self, struck: Counter[str]) -> "Coverage":
        """With some of its checks that an audit did not look at after all, by cause."""
        return self._replace(checks=self.checks - _count(struck), not_audited=_sum(self.not_audited, struck))

    def plus(self, other: "Coverage") -> "Coverage":
        """Of two stretches of a log."""
        times = [one for one in (self.since, self.until, other.since, other.until) if one is not None]
        return Coverage(self.checks + other.checks, _sum(self.in_part, other.in_part),
                        _sum(self.not_audited, other.not_audited), _sum(self.lost, other.lost),
                        self.uncounted + other.uncounted, self.dark + other.dark, min(times, default=None), max(times, default=None),
                        self.open + other.open, self.last_file if other.last_file is None else other.last_file,
                        self.unknown or other.unknown, self.elsewhere + other.elsewhere, self.undated + other.undated)

    def row(self) -> dict[str, Any]:
        """As an object of JSON; a key stands there where it has a value."""
        found: dict[str, Any] = {"checks": self.checks, "whole": self.whole, **{
            name: dict(value) for name, value in zip(("in_part", "not_audited", "lost"), self[1:4]) if value}}
        found.update({name: value for name, value in (("uncounted_gaps", self.uncounted), ("uncounted_ns", self.dark), ("undated_gaps", self.undated),
                                                      ("open", self.open), ("last_file", self.last_file), ("unknown", self.unknown),
                                                      ("other_stores", self.elsewhere)) if value})
        found.update({name: text_of_time(value) for name, value in (("from", self.since), ("to", self.until)) if value is not None})
        return found

    def lines(self, number: Callable[[int], str] = str) -> Iterator[str]:
        """As sentences, one a line: what was audited, and what was not; numbers are written so."""
        yield self.counts(number) + self._when
        for cause, count in sorted(self.in_part.items()):
            yield "audited in part %s: %s; not looked for: %s" % (number(count), plain(cause), ", ".join(not_looked_for(cause)))
        for words, counts in (("not audited", self.not_audited), ("lost in gaps", self.lost)):
            for cause, count in sorted(counts.items()):
                yield "%s %s: %s" % (words, number(count), plain(cause))
        if self.uncounted:
            yield "gaps in which nobody counted what was asked: %s%s" % (
                number(self.uncounted), ", of unknown length %s" % number(self.undated) if self.undated else "")
        if self.open:
            yield "the log is open: its last file%s is not closed, or full, so more may follow" % ("" if self.last_file is None else ", %d," % self.last_file)
        if self.unknown is not None:
            yield "not known what was left out: %s" % plain(self.unknown)

    @property
    def said(self) -> str:
        """The sum in one sentence."""
        return self.counts() + self._when

    @property
    def _when(self) -> str:
        return "" if self.since is None or self.until is None else ", from %s to %s" % (text_of_time(self.since), text_of_time(self.until))

    def counts(self, number: Callable[[int], str] = str) -> str:
        """The same without its times."""
        counts = [("in part", self.in_part), ("not audited", self.not_audited), ("lost in gaps", self.lost)]
        said = ["%s whole" % number(self.whole)] + ["%s %s" % (number(_count(counted)), words) for words, counted in counts if counted]
        if self.uncounted:
            said.append("and what was asked in %s gap%s" % (number(self.uncounted), "" if self.uncounted == 1 else "s"))
        if self.elsewhere:
            said.append("%s of other stores, which are not recorded" % number(self.elsewhere))
        return "checks: " + ", ".join(said)

    @property
    def state(self) -> str:
        """`whole`, `incomplete`, or `empty` where there was no check to look at."""
        return "whole" if self.is_whole else "empty" if self.is_empty else "incomplete"


def _count(counts: Mapping[str, int]) -> int:
    return sum(counts.values())


def _sum(one: Mapping[str, int], other: Mapping[str, int]) -> dict[str, int]:
    return counted(Counter(one) + Counter(other))


def counted(counts: Mapping[str, int]) -> dict[str, int]:
    """Counts by causes that a line can have: texts that need no escape, and so many at most."""
    found: Counter[str] = Counter()
    for cause, count in counts.items():
        found[ODD.sub("?", cause)[:LONGEST]] += count
    listed = sorted(found.items(), key=lambda one: (-one[1], one[0]))
    kept = dict(sorted(listed[:MOST]))
    rest = sum(count for _, count in listed[MOST:])
    return {**kept, OTHERS: kept.get(OTHERS, 0) + rest} if rest else kept


def of_row(value: object) -> Coverage:
    """The sum that `row` gave; raises ValueError of anything else."""
    if not isinstance(value, dict):
        raise ValueError
    counts = []
    for name in ("in_part", "not_audited", "lost"):
        given = value.get(name, {})
        if not isinstance(given, dict) or not all(type(one) is int and one >= 0 for one in given.values()):
            raise ValueError
        counts.append(counted(given))
    numbers = [value.get(name, 0) for name in ("checks", "uncounted_gaps", "uncounted_ns", "open", "other_stores", "undated_gaps")]
    if not all(type(one) is int and one >= 0 for one in numbers):
        raise ValueError
    in_part, not_audited, lost = counts
    last, unknown = value.get("last_file"), value.get("unknown")
    return Coverage(numbers[0], in_part, not_audited, lost, numbers[1], numbers[2], nanoseconds(value.get("from")),
                    nanoseconds(value.get("to")), numbers[3], last if type(last) is int else None,
                    None if unknown is None else ODD.sub("?", str(unknown)), numbers[4], numbers[5])


def mark_of(coverage: Coverage) -> str:
    """What the last line of a trace says: all but what its lines say themselves."""
    return trace_lines.mark_text(coverage=coverage._replace(in_part={}).row())


def marks_in(data: bytes) -> list[Coverage]:
    """What imports said in lines of a trace, one for each."""
    found = []
    for mark in trace_lines.coverages_in(data):
        try:
            found.append(of_row(mark))
        except ValueError:
            found.append(Coverage(unknown="the trace has a sum that cannot be read"))
    return found


def coverage_of(lines: Counted, marks: list[Coverage], is_imported: bool) -> Coverage:
    """The sum for lines of a trace, with the sums that imports left in them."""
    said = Coverage()
    for mark in marks:
        said = said.plus(mark)
    unknown = said.unknown
    if is_imported and not marks:
        unknown = "the trace does not say what its import left out; import the logs again"
    elif marks and said.checks != lines.entries:
        unknown = "the trace has %d checks, and its import left %d in it" % (lines.entries, said.checks)
    return said._replace(checks=lines.entries, in_part=dict(lines.part), unknown=unknown)


def coverage_in(data: bytes) -> Coverage:
    """The sum of a trace. One that no import wrote has what stands in its lines; of a part of a cut, whose other lines are blank, it is not
    known how many checks its import left in it."""
    lines, marks = counted_in(data), marks_in(data)
    if data.startswith(b"\n") or b"\n\n" in data:
        marks = [mark._replace(checks=lines.entries if not number else 0) for number, mark in enumerate(marks)]
        return coverage_of(lines, marks, False)
    return coverage_of(lines, marks, trace_lines.is_imported(data))
