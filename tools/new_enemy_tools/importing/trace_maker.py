"""From neutral events to a trace: order, commits, dense timestamps, strata, and the lines.

The lines of an import are gone through twice. First commits are made, goals get their texts and revisions are gathered; what a line
of the trace needs is kept in a spool. Then timestamps and strata are known, and the lines are written.
"""
import marshal
from functools import partial
from itertools import chain, islice
from typing import Any, Callable, Iterable, Iterator, NamedTuple, Optional, Union

from new_enemy_tools.edges import Name, Pair, pair_of
from new_enemy_tools.ids import Ids
from new_enemy_tools.importing import causes, going_on
from new_enemy_tools.importing.between import STATES, Asked, Spans
from new_enemy_tools.importing.commits import Commit, Writer
from new_enemy_tools.importing.declared import Declared
from new_enemy_tools.importing.doubts import Circles, Doubts
from new_enemy_tools.importing.events import Entry, Event
from new_enemy_tools.importing.first_pass import Taken
from new_enemy_tools.importing.going_on import Left
from new_enemy_tools.importing.import_summary import Counts, Written
from new_enemy_tools.importing.newest import put_newest
from new_enemy_tools.importing.order import in_order, is_before_base
from new_enemy_tools.importing.packed_blocks import Packed, StoredBlock
from new_enemy_tools.importing.prefetching import Ahead
from new_enemy_tools.importing.refusals import Refusals
from new_enemy_tools.importing.spool import BATCH, CHECKS, Facts, Lines
from new_enemy_tools.importing.strata import Edges, choose, open_circles
from new_enemy_tools.importing.trace_texts import Shown
from new_enemy_tools.importing.wildcards import Wildcards
from new_enemy_tools.parting.sharing import shared
from new_enemy_tools.progress import Progress
from new_enemy_tools.texts import Tuple, Userset, parse_tuple
from new_enemy_tools.trace_lines import with_mark
from new_enemy_tools.windowing.state import State

CIRCULAR = "tuple through which a relation takes away what it rests on"


class Given(NamedTuple):
    """The lines of an import, and the revision of its base state.

    `more` adds lines while it is gone through; then `end` gives all of them.
    """

    lines: Lines
    base: Optional[int]
    more: Iterator[object]
    end: Callable[[], Lines]


class GoesOn:
    """An import that goes on from what another one left, or is the first of some that do."""

    def __init__(self, service: str, file: str, before: Optional[Left], state: Optional[State] = None):
        self.service, self.file, self.before, self.state = service, file, before, state
        self.chain: Optional[list[Any]] = None if before is None else before.chain
        self.left: Optional[Left] = None


def _stored_in(batch: bytes) -> Union[StoredBlock, list[tuple[Any, ...]]]:
    """What a batch of kept lines has: a block, or rows."""
    found = marshal.loads(batch)
    return StoredBlock(*found) if isinstance(found, tuple) else found


class Core:
    def __init__(self, ids: Ids, skew: Optional[int], refusals: Refusals, progress: Progress, goes_on: Optional[GoesOn] = None):
        self.ids, self.skew, self.refusals, self.progress = ids, skew, refusals, progress
        self.goes_on = goes_on
        # of the days before how many commits are known, and the first state where not all are
        self.commits_before = 0
        self.oldest: Optional[int] = None
        self.counts = Counts()
        self.circles = Circles()
        # of tuples that are left out the namespaces and relations of both sides, by the names of the trace
        self.circular: set[Pair] = set()
        # the first number of the sequence that no line has, also on the days before, and the last that one has
        self.missing = None if self._before is None else self._before.missing
        self.last_number: Optional[int] = None

    def trace(self, given: Given, jobs: int = 1) -> Optional[Written]:
        """The trace, whose lines are still to be written, by so many processes; None where something was refused."""
        ahead = self._taken_ahead(given)
        for _ in given.more:
            pass
        missing = given.lines.facts.numbers.first_missing(self.refusals)
        self.missing = missing if self.missing is None else self.missing
        self.last_number = given.lines.facts.numbers.last
        lines = given.end()
        wildcards = self._wildcards(lines)
        if ahead is not None and ahead.stands(lines):
            self.refusals.merge(ahead.refusals)
            self.taken.refusals = self.refusals
        else:
            self._take_all(given, lines, wildcards)
        strata = self._chosen_strata()
        if self.refusals.refused:
            return None
        shown = self._shown_by(strata)
        self._begin_lines(shown, strata)
        return Written(self._chunks(shown, jobs), self.counts, lambda: chain(wildcards.summary_lines(), self.taken.states.summary_lines()))

    def _chosen_strata(self) -> dict[Name, int]:
        names = [(name, relation) for name in self.declared.rules.current for relation in self.declared.rules.relations(name)]
        self._open_circles(names)
        return choose(names, self.edges, self.refusals)

    def _shown_by(self, strata: dict[Name, int]) -> Shown:
        return Shown(self.declared, self.ids, strata, self._times(strata), self.taken.demanded)

    def _begin_lines(self, shown: Shown, strata: dict[Name, int]) -> None:
        """Of a trace that begins the rules, and of one that goes on what has another stratum now."""
        if self._before is None:
            shown.begin()
        else:
            shown.go_on(going_on.has_other_strata(self._before, strata))

    def _open_circles(self, names: list[Name]) -> None:
        """Leaves tuples out through which a relation takes away what it rests on; a trace has no form for them. What rests on them is in doubt."""
        known = self.writer.tuple_edges.known
        for edge, told in open_circles(names, self.edges):
            pairs = {pair for pair, found in known.items() if edge in found}
            out = [one for one in self.writer.stored if isinstance(one.user, Userset) and pair_of(one.set, one.user) in pairs]
            self.refusals.note("circle", told)
            self.refusals.left_out[CIRCULAR] += len(out)
            self.refusals.doubts += [(one.set.namespace, one.set.id, one.set.relation) for one in out]
            for one in map(self.writer.named, out):
                if isinstance(one.user, Userset):
                    self.circular.add(pair_of(one.set, one.user))

    def _without_circular(self, row: tuple[Any, ...]) -> tuple[Any, ...]:
        """A commit without the tuples that are left out."""
        def kept(listed: list[str]) -> list[str]:
            return [text for text in listed if not self._is_circular(parse_tuple(text))]
        return (*row[:-1], [(kept(add), kept(remove)) for add, remove in row[-1]])

    def _is_circular(self, given: Tuple) -> bool:
        return isinstance(given.user, Userset) and pair_of(given.set, given.user) in self.circular

    @property
    def _before(self) -> Optional[Left]:
        return None if self.goes_on is None else self.goes_on.before

    # The first time

    def _begin(self, lines: Lines, wildcards: Wildcards, base: Optional[int], refusals: Refusals) -> Optional[Commit]:
        """Begins with the rules, and what is known of the days before; the commit of the base state, if the lines have one."""
        before, self.edges = self._before, Edges()
        rules = wildcards.rules() + lines.declared() if before is None else going_on.events_of(before) + going_on.new_rules(before, lines, refusals)
        if self.goes_on is not None:
            going_on.refuse_unfit(lines.facts, before is None, self.goes_on.state is not None, self.goes_on.file, refusals)
        if before is not None:
            going_on.add_edges(before, self.edges)
        self.declared = Declared(rules, self.edges, refusals)
        self.writer = Writer(self.declared, wildcards, self.ids, self.edges, refusals)
        if before is not None:
            going_on.take_left_out(before, refusals)
        commit = self._base(lines)
        self.taken = Taken(self.declared, self.writer, self.ids, refusals, self.progress, self._base_revision(commit, base),
                           bool(commit and commit.touched) or self.refusals.has_older or refusals.has_older, lines.facts.has_between)
        self.taken.missing = self.missing
        if before is not None:
            going_on.take_up(before, self.taken)
        return commit

    def _taken_ahead(self, given: Given) -> Optional[Ahead]:
        """Where a log has nothing that hangs on all of its lines, they are taken while others are still read; None where it has."""
        if self.skew is not None:
            return None
        if self._before is None:
            # Rules stand before all else.
            next(given.more, None)
        ahead = Ahead(given.lines, Refusals(self.refusals.is_strict), self.refusals)
        if self._before is None and (self.goes_on is not None or not ahead.may_begin()):
            return None
        self._begin(given.lines, self._wildcards(given.lines), given.base, ahead.refusals)
        self.taken.take_all(ahead.stream(given.more), Spans(()))
        return ahead

    def _wildcards(self, lines: Lines) -> Wildcards:
        return Wildcards(lines if self.goes_on is None else None)

    def _take_all(self, given: Given, lines: Lines, wildcards: Wildcards) -> None:
        self.ids.forget()
        base, before = self._begin(lines, wildcards, given.base, self.refusals), self._before
        if before is not None and self.goes_on is not None and self.goes_on.state is not None and lines.facts.has_between:
            self.oldest = going_on.take_states(self.taken.states, before, self.goes_on.state)
            self.commits_before = len(self.taken.states.revisions)
        for commit in (self._every(wildcards), base):
            if commit:
                self.taken.keep(commit)
        self.taken.take_all(self._stream(lines), Spans(lines.spans() if lines.facts.has_groups else ()))

    def _times(self, strata: dict[Name, int]) -> dict[int, int]:
        """The last timestamp of each revision."""
        if self.goes_on is None:
            return self.taken.timestamps()
        before, base = self._before, self.taken.base_revision
        if base is not None:
            self.taken.wanted.setdefault(base, 1)
        named = going_on.numbered(self.taken.wanted, before.named if before else [])
        self.goes_on.left = going_on.left_by(self.goes_on.service, before, self.declared, strata, self.edges, self.taken, named, self.goes_on.chain)
        self.goes_on.left = self.goes_on.left._replace(sequence=self.last_number, missing=self.missing)
        times = {one.revision: one.at for one in named}
        self.taken.named = times
        return times

    # Order and commits

    def _base(self, lines: Lines) -> Optional[Commit]:
        base = None
        for event in islice(lines, lines.facts.last_base + 1):
            if isinstance(event, Event) and event.base:
                base = base or Commit(event)
                if event.revision != base.revision:
                    self.refusals.refuse(event.file, event.line, "a base state has one revision, and %s:%d has %s"
                                         % (base.event.file, base.event.line, base.event.shown))
                self.writer.write(base, event)
        return base

    def _base_revision(self, commit: Optional[Commit], base: Optional[int]) -> Optional[int]:
        if self._before is not None:
            return self._before.base
        return commit.revision if commit else base

    def _every(self, wildcards: Wildcards) -> Optional[Commit]:
        event = wildcards.write()
        commit = Commit(event) if event else None
        if commit and event:
            self.writer.write(commit, event)
        return commit

    def _stream(self, lines: Lines) -> Iterable[Union[Packed, Event, tuple[Any, ...]]]:
        """Everything behind the base state, in order. Entries are rows, or what has a row's fields, or many together."""
        facts = lines.facts
        is_in_order = facts.is_sequenced and facts.is_rising and facts.last_base < 0
        if self.skew is None and (is_in_order or not facts.is_sequenced) and not facts.has_newest:
            if facts.last_base < 0 and (is_in_order or len(facts.sources) < 2):
                return lines.stream()
            return in_order(self._behind_base(lines.stream(facts.last_base), facts), facts, self.skew, self.refusals)
        stream = in_order(self._behind_base(lines, facts), facts, self.skew, self.refusals)
        return put_newest(list(stream), self.skew, self.refusals) if facts.has_newest else stream

    def _behind_base(self, lines: Iterable[Any], facts: Facts) -> Iterator[Any]:
        is_stamped = self.skew is not None or facts.is_sequenced
        for place, line in enumerate(lines):
            if isinstance(line, tuple):
                if is_before_base(Entry._make(line), place, facts, self.skew) if is_stamped else place <= facts.last_base:
                    self.refusals.unmapped_check(Entry._make(line), causes.BEFORE_BASE, "%s:%d gives base state behind it" % facts.base_source)
                else:
                    yield line
            elif not line.base and not (line.kind == "rules" and line.revision is None):
                yield line

    # The second time

    def _stored_batches(self) -> Iterator[bytes]:
        """The batches of the spool, without checks that hang on what was left out, and versions that are not known by all lines."""
        refusals, doubts = self.refusals, self._doubts()
        self._spread(doubts)
        if not (doubts or refusals.versions or refusals.has_lost_version or refusals.gap_since is not None):
            yield from self.taken.items.batches()
            return
        for batch in self.taken.items.batches():
            found = _stored_in(batch)
            labels = {label for _, _, label in refusals.versions}
            if isinstance(found, StoredBlock) and labels.isdisjoint(look[4] for look in found.checks.looks) and not doubts.has_any(found.checks):
                if not any(self._may_change(row, doubts) for _, row in found.among(self._is_end, self.writer.commit_of)):
                    yield batch
                    continue
            rows = list(found.rows(self._is_end, self.writer.commit_of) if isinstance(found, StoredBlock) else found)
            yield marshal.dumps([row for row in (self._kept_row(one, doubts) for one in rows) if row])

    def _is_end(self, revision: int) -> bool:
        """Whether a commit ends at a revision; each that is named is one at which one does."""
        return revision in self.taken.wanted

    def _spread(self, doubts: Doubts) -> None:
        """Finds out what is in doubt. Where the tuples of the days before are not known, all of a relation that may hang on a circle is."""
        is_known = self._before is None or self.goes_on is not None and self.goes_on.state is not None
        doubts.spread(self._stored(), self.refusals.denies_circles and is_known)
        if doubts.denied:
            doubts.circles = self._circles()
        elif self.refusals.denies_circles and not is_known:
            doubts.take_circling()

    def _circles(self) -> Circles:
        self.circles.take(self.writer.stored, self._stored_before())
        return self.circles

    def _stored(self) -> Iterable[Tuple]:
        """The tuples of usersets ever, by the names of the service."""
        return chain(self.writer.stored, self._stored_before())

    def _stored_before(self) -> Iterable[Tuple]:
        """The tuples of usersets of the days before that the state has, by the names of the service."""
        return () if self.goes_on is None or self.goes_on.state is None else going_on.stored_in(self.goes_on.state, self.ids)

    def _doubts(self) -> Doubts:
        """What is in doubt; where the tuples of the days before are not known, whole relations are."""
        doubts = self.refusals.doubts
        if self._before is not None and self.goes_on is not None and self.goes_on.state is None:
            doubts = [(of, None, relation) for of, _, relation in doubts]
        return Doubts(doubts, self.declared.rules, self.edges)

    def left(self) -> Optional[Left]:
        """What the import of the next day goes on from, when all lines are written."""
        left = None if self.goes_on is None else self.goes_on.left
        return None if left is None else going_on.with_left_out(left, self.refusals, self.taken)

    def _may_change(self, row: tuple[Any, ...], doubts: Doubts) -> bool:
        """Whether a row is perhaps not kept as it is."""
        if row[0] not in CHECKS:
            return bool(self.circular) and row[0] == "commit"
        return doubts.cause(Userset(*row[3][:3]), None, None) is not None or row[0] == "check" and row[8] is not None

    def _kept_row(self, row: tuple[Any, ...], doubts: Doubts) -> Optional[tuple[Any, ...]]:
        """A row as it is kept; None of a check that is not audited."""
        if row[0] not in CHECKS:
            return self._without_circular(row) if self.circular and row[0] == "commit" else row
        entry = Entry._make(row)
        cause = doubts.cause(Userset(*entry.goal[:3]), entry.snapshot if entry.lowest is None else entry.lowest, entry.snapshot)
        if cause is not None:
            self._leave_out(entry, cause, entry.question)
            return None
        return row if entry.kind != "check" or entry.version is None else tuple(self.taken.known(entry, True))

    def _leave_out(self, entry: Entry, cause: str, detail: str = "") -> None:
        """Counts a check that is not audited; a version that it issued is not known with it."""
        self.refusals.unmapped_check(entry, cause, detail)
        if entry.kind == "content" and entry.version is not None:
            self.taken.issued.pop((entry.goal[0], entry.goal[1], entry.version), None)

    def _chunks(self, shown: Shown, jobs: int) -> Iterator[bytes]:
        """The lines of the trace. Where none hangs on others, batches of them are made by many processes."""
        head = "".join(shown.head()).encode()
        yield head
        if (head or self._before is not None) and not self.taken.has_between:
            # What the first line says is not for the processes that make the others.
            first, shown.mark = shown.mark, ""
            self.ids.is_closed = True
            for piece, counts in shared(partial(self._piece, shown), self._stored_batches(), jobs):
                self.counts.merge(counts)
                self.progress.step("wrote %s events", self.counts.count)
                if first and piece:
                    line, _, rest = piece.partition(b"\n")
                    piece, first = b"%s\n%s" % (with_mark(line, first), rest), ""
                yield piece
            self.ids.is_closed = False
            return
        self.taken.states.take_rules(shown.declarations(self.declared))
        self.taken.states.revisions.sort()
        texts = self._texts((row for batch in self._stored_batches() for row in marshal.loads(batch)), shown, self.counts)
        while some := list(islice(texts, BATCH)):
            yield "".join(some).encode()

    def _piece(self, shown: Shown, batch: bytes) -> tuple[bytes, Counts]:
        counts, found = Counts(), _stored_in(batch)
        texts = self._block_texts(found, shown, counts) if isinstance(found, StoredBlock) else self._texts(found, shown, counts)
        return "".join(texts).encode(), counts

    def _block_texts(self, stored: StoredBlock, shown: Shown, counts: Counts) -> list[str]:
        """The lines of many checks, and of what stands among them."""
        checks = stored.checks
        made, done = shown.checks(checks), 0
        counts.has_token |= any(look[3] is not None for look in checks.looks)
        counts.has_named |= any(look[4] is not None for look in checks.looks)
        counts.take_times(checks.times)
        texts: list[str] = []
        for at, row in chain(stored.among(self._is_end, self.writer.commit_of), ((len(made), None),)):
            counts.checks += at - done
            texts += made[done:at]
            done = at
            if row:
                texts += self._lines(row, shown, counts)
        return texts

    @staticmethod
    def _lines(row: tuple[Any, ...], shown: Shown, counts: Counts) -> Iterable[str]:
        """The lines of a row that hangs on no other."""
        if row[0] in CHECKS:
            counts.take_entry(Entry._make(row), row[7] is not None)
            return (shown.entry(row),)
        if row[0] == "commit":
            counts.take_commit(len(row[-1]))
            return shown.commit(*row[1:])
        counts.take_change()
        return shown.change(*row[1:])

    def _texts(self, rows: Iterable[tuple[Any, ...]], shown: Shown, counts: Counts) -> Iterator[str]:
        """Each line with its end."""
        place = self.commits_before
        waiting: dict[int, list[str]] = {}
        for row in rows:
            if row[0] == "check" and row[8] is not None and self.refusals.versions:
                # Its content check may have found no state meanwhile.
                row = tuple(self.taken.known(Entry._make(row), True))
            if row[0] in CHECKS and row[9] is not None:
                yield from self._between(Entry._make(row), place, shown, waiting)
                continue
            yield from self._lines(row, shown, counts)
            if row[0] not in CHECKS:
                place += 1
                yield from waiting.pop(place, ())

    def _between(self, entry: Entry, place: int, shown: Shown, waiting: dict[int, list[str]]) -> Iterator[str]:
        """An entry at the state where its reply is right; or at each, the others as plain checks.

        Where the newest state was asked for, the token is that state, and the entry waits until the trace has come to it.
        """
        if self.oldest is not None and entry.lowest is not None and entry.lowest < self.oldest:
            self._leave_out(entry, causes.STATE_NOT_KEPT)
            return
        assert entry.lowest is not None and entry.snapshot is not None
        count = self.taken.states.count(entry.lowest, entry.snapshot)
        if count >= STATES:
            self._leave_out(entry, causes.TOO_WIDE, "%d commits, and %d states at most are looked at" % (count, STATES))
            return
        goal = Tuple(self.writer.named_set(*entry.goal[:3]), self.ids.number("user", *entry.goal[3:5]))
        asked = Asked(entry.kind, goal, entry.reply, entry.lowest, entry.snapshot, entry.token, entry.newest)
        chosen = self.taken.states.chosen(asked, place, self.goes_on is not None)
        if not chosen:
            self._leave_out(entry, causes.STATE_TO_COME)
            return
        self.counts.take_entry(entry, entry.token is not None or entry.newest)
        first, *others = chosen
        has_token = entry.newest and entry.token is None and (entry.kind == "check" or entry.reply)
        token = first if has_token else self.taken.demanded(entry.goal, entry.version, first, entry.token)
        made = [entry._replace(snapshot=first, token=token)]
        made += [entry._replace(kind="check", snapshot=at, token=None, version=None, part=None, named=None) for at in others]
        for number, one in enumerate(made):
            behind = self.taken.states.place(one.snapshot or 0) if entry.newest else place
            line = shown.entry(one, number > 0, str(goal))
            if behind > place:
                waiting.setdefault(behind, []).append(line)
            else:
                yield line
