"""An import that stays in memory between the lines that it is given, a few at a time.

It takes lines by the rules of `ne import events --go-on`, and writes lines of a trace for them. What it cannot know
of lines to come it does not know: who gives it lines holds those back that others behind them may still move
(`holding.py`).
"""
import marshal
from collections import Counter
from typing import Iterator, NamedTuple, Optional

from new_enemy_tools.coverage import Coverage
from new_enemy_tools.edges import Name
from new_enemy_tools.faults import MonitorFault
from new_enemy_tools.ids import Ids
from new_enemy_tools.importing import going_on
from new_enemy_tools.importing.between import Spans
from new_enemy_tools.importing.doubts import Doubts
from new_enemy_tools.importing.going_on import Left, Named, numbered
from new_enemy_tools.importing.import_summary import Counts, Written
from new_enemy_tools.importing.located import Block
from new_enemy_tools.importing.neutral import Events
from new_enemy_tools.importing.refusals import Refusals
from new_enemy_tools.importing.spool import Lines, Spool
from new_enemy_tools.importing.strata import Reason
from new_enemy_tools.importing.trace_maker import Core, GoesOn
from new_enemy_tools.importing.trace_texts import Shown
from new_enemy_tools.importing.wildcards import Wildcards
from new_enemy_tools.progress import Progress
from new_enemy_tools.trace_lines import with_mark
from new_enemy_tools.windowing.state import State

# What an import that this leaves says of its kind, so that `ne day` does not go on from it in the middle of a file.
SERVICE = "events, by ne monitor"


class Chunk(NamedTuple):
    """Whole lines of a file of the log, and the number of the first."""

    file: str
    first: int
    data: bytes


class NewStrata(Exception):
    """Lines by which relations need other strata than the lines before were written with: they have to begin another
    trace."""


class Numbering:
    """The timestamps of revisions as `going_on.numbered` gives them; all are gone through only where one stands
    between two others."""

    def __init__(self, before: list[Named]):
        self.rows: list[Named] = []
        self.at: dict[int, int] = {}
        self._lines: dict[int, int] = {}
        self._put(before)

    def _put(self, rows: list[Named]) -> None:
        self.rows = rows
        self.at = {one.revision: one.at for one in rows}
        self._lines = {one.revision: one.lines for one in rows}

    def take(self, wanted: dict[int, int]) -> dict[int, int]:
        """Of each revision so far the timestamp."""
        last = self.rows[-1].revision if self.rows else -1
        if any(self._lines.get(revision, -1) < lines for revision, lines in wanted.items() if revision <= last):
            self._put(numbered(wanted, self.rows))
            return self.at
        behind = {revision: lines for revision, lines in wanted.items() if revision > last}
        for one in numbered(behind, self.rows[-1:])[len(self.rows[-1:]):]:
            self.rows.append(one)
            self.at[one.revision], self._lines[one.revision] = one.at, one.lines
        return self.at


class Stream(Core):
    """The import of a run: it goes on from what the one before left, with the state behind that."""

    def __init__(self, ids: Ids, before: Optional[Left], state: State, has_between: bool):
        """`has_between` says whether checks may have looked at any state between two, as those of OpenFGA."""
        goes_on = GoesOn(SERVICE, "the log", before, None if before is None else state)
        super().__init__(ids, None, Refusals(is_chained=True), Progress(), goes_on)
        self.has_between, self.total = has_between, Counts()
        # whether lines were taken, and whether some of the trace were written
        self.is_begun = self.is_written = False
        self.numbering = Numbering([] if before is None else before.named)
        self.strata: dict[Name, int] = {}
        self._rules = 0
        # what reads a file, and learns the usual forms of its lines
        self._events: Optional[Events] = None
        # what the runs before know of versions, and whether they may lack some
        self._before_issued = set() if before is None else {one.key for one in before.issued}
        self._is_unknown_before = before is not None and (before.is_older or before.has_gap or before.has_lost_version)

    def take(self, chunk: Chunk) -> bytes:
        """The lines of the trace; raises MonitorFault where the import refuses something, and NewStrata."""
        lines = self._read(chunk)
        self._refuse()
        if self.is_begun:
            self._go_on(lines)
        else:
            self._start(lines)
        self.taken.take_all(self._stream(lines), Spans(lines.spans() if lines.facts.has_groups else ()))
        strata = self._chosen_strata()
        self._refuse()
        text = self._written(self._shown(strata))
        self.is_begun = True
        self._refuse()
        return text

    def _read(self, chunk: Chunk) -> Lines:
        lines = Lines(ids=self.ids)
        lines.facts.is_chained = True
        if self._events is None or self._events.path != chunk.file:
            self._events = Events(chunk.file, self.refusals)
        for piece in self._events.pieces(Block(chunk.first, chunk.data), self.refusals):
            lines.add_piece(piece)
        return lines

    def _spread(self, doubts: Doubts) -> None:
        """To go from all tuples to what hangs on circles would take long for each few lines. So each check goes by itself, on from what it asks,
        up to as many usersets as `Circles` says, where its relation may hang on a circle at all."""
        doubts.spread(self._stored(), False)
        if self.refusals.denies_circles and doubts.take_circling():
            doubts.circles = self._circles()

    def _refuse(self) -> None:
        if self.refusals.refused:
            raise MonitorFault("; ".join(self.refusals.lines()[:3]))

    def _start(self, lines: Lines) -> None:
        before, facts, goes_on = self._before, lines.facts, self.goes_on
        if before is None and facts.last_base < 0:
            raise MonitorFault("the log has no base state at its beginning; give the whole folder of a recorder's log")
        facts.has_between |= self.has_between
        base = self._begin(lines, Wildcards(None), None, self.refusals)
        if before is not None and goes_on is not None and goes_on.state is not None and self.has_between:
            self.oldest = going_on.take_states(self.taken.states, before, goes_on.state)
        self.commits_before = len(self.taken.states.revisions)
        if base:
            self.taken.keep(base)

    def _go_on(self, lines: Lines) -> None:
        """What was taken stays, and the lines before stand in the trace already."""
        going_on.refuse_unfit(lines.facts, False, True, "the log", self.refusals)
        if lines.facts.has_between and not self.has_between:
            raise MonitorFault("the log has a check between two states, which a log of SpiceDB has not")
        self.taken.items, self.taken.wanted, self.counts = Spool(), {}, Counts()
        self.commits_before = len(self.taken.states.revisions)
        new = [event for event in lines.rules if event.revision is not None]
        if new:
            rules = self.declared.rules
            known = {(name, relation) for name in rules.current for relation in rules.relations(name)}
            going_on.refuse_new_tuplesets(new, known, self.declared.tuplesets, self.refusals)
            self._refuse()
            self.declared.take(new)
            self.writer.tuple_edges.forget()
            for one in self.writer.stored:
                for edge in self.writer.tuple_edges.of(one):
                    self.edges.add(edge, Reason("the lines before", 1, "a rule or tuple", True, True))

    def _times(self, strata: dict[Name, int]) -> dict[int, int]:
        if self.taken.base_revision is not None:
            self.taken.wanted.setdefault(self.taken.base_revision, 1)
        self.taken.named = self.numbering.take(self.taken.wanted)
        return self.numbering.at

    def _shown(self, strata: dict[Name, int]) -> Shown:
        if self.is_written and any(strata[name] != stratum for name, stratum in self.strata.items()):
            raise NewStrata
        shown = self._shown_by(strata)
        if not self.is_written:
            self._begin_lines(shown, strata)
        self.strata = strata
        return shown

    def _written(self, shown: Shown) -> bytes:
        # The lines of checks are made many at a time, and without the mark.
        mark, shown.mark = shown.mark, ""
        text = ("" if self.is_written else "".join(shown.head())).encode() + b"".join(self._pieces(shown))
        self.total.merge(self.counts)
        if mark and text:
            line, _, rest = text.partition(b"\n")
            text = b"%s\n%s" % (with_mark(line, mark), rest)
        self.is_written |= bool(text)
        return text

    def _pieces(self, shown: Shown) -> Iterator[bytes]:
        if not self.has_between:
            for batch in self._stored_batches():
                piece, counts = self._piece(shown, batch)
                self.counts.merge(counts)
                yield piece
            return
        rules = list(shown.declarations(self.declared))
        self.taken.states.take_rules(rules[self._rules:])
        self._rules = len(rules)
        self.taken.states.revisions.sort()
        rows = (row for batch in self._stored_batches() for row in marshal.loads(batch))
        yield "".join(self._texts(rows, shown, self.counts)).encode()

    def issues(self, of: str, thing: str, label: str) -> bool:
        """Whether a check of a version can be placed: the version is known, or what may have issued it is known to be
        missing."""
        key = (of, thing, label)
        if not self.is_begun:
            return key in self._before_issued or self._is_unknown_before
        taken = self.taken
        is_lost = taken.may_be_older or taken.has_gap or self.refusals.has_lost_version
        return is_lost or key in taken.issued or key in self.refusals.versions

    def last_revision(self) -> int:
        """That of the last commit, or of the base state; -1 before the first line."""
        return -1 if not self.is_begun or self.taken.last is None else self.taken.last

    def coverage(self) -> Coverage:
        """What of the lines so far stands in the trace."""
        counts = self.total
        return self.refusals.coverage(counts.checks + counts.contents, Counter(counts.in_part), counts.since,
                                      counts.until)

    def summary_lines(self) -> Iterator[str]:
        """As an import of all lines says it."""
        written = Written(iter(()), self.total, lambda: iter(() if not self.is_begun else self.taken.states.summary_lines()))
        yield from self.refusals.summary_lines()
        yield from written.lines(self.coverage())

    def leave(self) -> Left:
        """What the next run goes on from."""
        left = going_on.left_by(SERVICE, self._before, self.declared, self.strata, self.edges, self.taken,
                                self.numbering.rows, None)
        return going_on.with_left_out(left, self.refusals, self.taken)
