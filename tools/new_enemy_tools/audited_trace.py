"""A trace that an audit has read to its end: what is asked of it is read, and no more.

Each of its lines has to begin as importers write them, which tells what it is, and rules may not change. A line is looked at when it is
asked for; one that has another form raises OtherForm, and then the trace has to be read in full.
"""
from bisect import bisect_right
from collections import Counter
from itertools import accumulate, compress, repeat
from operator import eq, itemgetter, lt
from typing import Iterable, Optional

from new_enemy_tools.entries import Commit, LateEntries
from new_enemy_tools.quick_reach import Look, Sight
from new_enemy_tools.store import Store, Touched
from new_enemy_tools.texts import Tuple, Userset
from new_enemy_tools.trace import Refusal, Trace
from new_enemy_tools.trace_lines import (CHECK_START as CHECK, COMMIT_START as COMMIT, CONTENT_START as CONTENT, NAMESPACE_START as NAMESPACE, TOUCHED,
                                         OtherForm, QuickCommit, ids_in, quick_commit, quick_entry, refuse_other_keys, times_of)

# A line with its number.
Numbered = tuple[int, bytes]
# So many usersets are searched for among all commits before these are listed by the usersets that they touch.
SEARCHES = 40


class LateStore(Store):
    """Reads the commits that touch a userset when it is asked for."""

    def __init__(self, ats: list[int], commits: list[bytes]):
        super().__init__()
        self._ats, self._commits = ats, commits
        self._text = b"\n".join(commits)
        self._ends: list[int] = []
        # of each userset the places of the commits that touch it, where many usersets were asked for
        self._places: dict[bytes, list[int]] = {}
        self._asked = 0
        self._read: dict[int, QuickCommit] = {}

    def _touched(self, of: bytes) -> Optional[list[Touched]]:
        listed: list[Touched] = []
        for place in self._places_of(of):
            commit, at = self._commit(place), self._ats[place]
            listed += [(user, at, live) for pairs, live in ((commit.add, True), (commit.remove, False)) for other, user in pairs if other == of]
        return listed or None

    def _places_of(self, text: bytes) -> list[int]:
        self._asked += 1
        if self._asked <= SEARCHES:
            return self._search(b'"%s@' % text)
        if not self._places:
            known = self._places
            for place, raw in enumerate(self._commits):
                for of in TOUCHED.findall(raw):
                    if of in known:
                        known[of].append(place)
                    else:
                        known[of] = [place]
        return list(dict.fromkeys(self._places.get(text, ())))

    def _search(self, start: bytes) -> list[int]:
        """The places of the commits in which a text stands."""
        self._ends = self._ends or list(accumulate([len(raw) + 1 for raw in self._commits]))
        found, at = [], self._text.find(start)
        while at >= 0:
            place = bisect_right(self._ends, at)
            found.append(place)
            at = self._text.find(start, self._ends[place])
        return found

    def _commit(self, place: int) -> QuickCommit:
        commit = self._read.get(place) or quick_commit(self._commits[place])
        if commit is None:
            raise OtherForm
        self._read[place] = commit
        return commit


class AuditedTrace(Trace):
    """As Trace, of lines that begin as importers write them; of content checks those that may issue versions."""

    def __init__(self, rules: Iterable[Numbered], commits: list[int], raws: list[bytes], contents: Iterable[Numbered]):
        super().__init__()
        try:
            for line, raw in rules:
                self.take(line, raw)
        except Refusal:
            raise OtherForm from None
        self._raws = raws
        ats = times_of(raws)
        if len(ats) != len(commits) or not all(map(lt, ats, ats[1:])):
            raise OtherForm
        self.commits.keep_all(commits, ats, raws)
        self.store = LateStore(ats, raws)
        self._issues = iter(contents)
        self._sight: Optional[Sight] = None

    def keep_late(self, lines: list[bytes], count: int) -> None:
        """Has for entries so many of a trace's lines, which are looked at when they are asked for."""
        self.entries = LateEntries(self._entry_again, lines, (CHECK, CONTENT), count)

    def line_that_issues(self, of: Userset, version: str) -> Optional[int]:
        for line, raw in self._issues:
            entry = quick_entry(raw)
            if entry is None:
                raise OtherForm
            self.issue(line, entry)
        return super().line_that_issues(of, version)

    def look(self, goal: Tuple, low: int, high: int) -> Optional[Look]:
        if self._sight is None:
            self._sight = Sight(self.rules, self._raws, self.commits.ats)
        return self._sight.look(goal, low, high)

    def _commit_again(self, line: int, raw: bytes) -> Commit:
        if quick_commit(raw) is None:
            raise OtherForm
        return super()._commit_again(line, raw)


def read_audited(data: bytes) -> Trace:
    """The trace of bytes; raises OtherForm where a line does not begin so. Blank lines are those of other parts of a cut."""
    lines = data.split(b"\n")
    starts = list(map(itemgetter(slice(len(COMMIT))), lines))
    begun = Counter(starts)
    blank, entries, commits = begun.pop(b"", 0), begun.pop(CHECK[:len(COMMIT)], 0) + begun.pop(CONTENT[:len(COMMIT)], 0), begun.pop(COMMIT, 0)
    head = next((place for place, line in enumerate(lines) if not line.startswith(NAMESPACE)), len(lines))
    if head != sum(begun.values()):
        raise OtherForm
    refuse_other_keys(data, len(lines) - blank, commits)
    are_commits = list(map(eq, starts, repeat(COMMIT)))
    trace = AuditedTrace(enumerate(lines[:head], 1), list(compress(range(1, len(lines) + 1), are_commits)), list(compress(lines, are_commits)),
                         ((line, raw) for line, raw in enumerate(lines, 1) if raw.startswith(CONTENT)))
    trace.keep_late(lines, entries)
    trace.table = ids_in(data)
    return trace
