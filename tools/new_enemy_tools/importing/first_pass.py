"""The first time through the lines of an import: commits are made, users get their numbers, and revisions are gathered.

What a line of the trace needs is kept in a spool. Of many checks that stand together what they name is taken once.
"""
import marshal
from typing import Any, Iterable, Mapping, Optional, Sequence, Union

from new_enemy_tools.edges import Name
from new_enemy_tools.ids import Ids
from new_enemy_tools.importing import causes
from new_enemy_tools.importing.between import Spans, States
from new_enemy_tools.importing.checks import NEWEST
from new_enemy_tools.importing.commits import Commit, Writer
from new_enemy_tools.importing.declared import Declared
from new_enemy_tools.importing.events import Entry, Event
from new_enemy_tools.importing.packed_blocks import Index, Packed, Run, Version
from new_enemy_tools.importing.refusals import Refusals
from new_enemy_tools.importing.spool import Spool, line_of, row_of
from new_enemy_tools.progress import Progress

Item = Union[Commit, Event]

class Taken:
    """What is known of the lines so far."""

    def __init__(self, declared: Declared, writer: Writer, ids: Ids, refusals: Refusals, progress: Progress,
                 base_revision: Optional[int], may_be_older: bool, has_between: bool):
        self.declared, self.writer, self.ids, self.refusals, self.progress = declared, writer, ids, refusals, progress
        self.base_revision, self.has_between = base_revision, has_between
        # of each version its content check, in short, with its file and line
        self.issued: dict[Version, tuple[tuple[Any, ...], str, int]] = {}
        # the versions whose labels were saved again at another state
        self.twice: set[Version] = set()
        # the revisions that are named, each with how many lines of the trace it takes
        self.wanted: dict[int, int] = {}
        # those that the lines before were given timestamps of, where an import goes on
        self.named: Mapping[int, int] = {}
        self.states = States()
        self.items = Spool()
        self.has_gap = False
        # whether something was stored before the log, and versions may have been saved
        self.may_be_older = may_be_older
        # of the rows of a block that are taken by themselves those that are kept, each with its place and the number of checks before it
        self.among: Optional[list[tuple[int, int, tuple[Any, ...]]]] = None
        self.at = 0, 0
        # the commit to which a write behind it may belong
        self.open: Optional[Commit] = None
        self.last = base_revision
        # where the last write stood; none where it is the base state
        self.last_place: Optional[tuple[str, int, Optional[str]]] = None
        # the first number of the sequence that no line has
        self.missing: Optional[int] = None
        self.count = 0
        self.declared_names: set[Name] = set()

    def take_all(self, stream: Iterable[Union[Packed, Event, tuple[Any, ...]]], spans: Spans) -> None:
        for line in stream:
            if isinstance(line, Packed):
                self._take_block(line, spans)
            else:
                self._take(line, spans)
        self._close()

    def _take(self, line: Union[Event, tuple[Any, ...]], spans: Spans) -> None:
        """Writes of one revision that stand together become one commit."""
        self.count += 1
        if isinstance(line, tuple):
            self._close()
            if self.missing is not None and self._is_behind_missing(line):
                return
            kept = line if self._is_known(line) else self._taken(line)
            if kept is not None:
                self._keep(row_of(kept) if isinstance(kept, Entry) else kept)
            return
        self.progress.step("ordered %s events", self.count)
        if line.base or line.revision is None:
            self.has_gap |= line.kind == "gap"
            return
        if self.open and self._goes_on(self.open, line, spans):
            self.last = line.revision
            return
        if self.last is not None and line.revision <= self.last:
            self._refuse(line, "its revision %s is not later than that of %s" % (
                line.shown, "%s:%d, %s" % self.last_place if self.last_place else "the base state"))
            return
        self.last, self.last_place = line.revision, (line.file, line.line, line.shown)
        self._close()
        if line.kind == "write":
            self.open = Commit(line)
            self.writer.write(self.open, line)
        else:
            self.keep(line)

    def _is_behind_missing(self, row: tuple[Any, ...]) -> bool:
        """Whether a check may stand behind a line that is missing; such a line may be a write, so the check is not audited."""
        entry = Entry._make(row)
        if self.missing is None or entry.sequence is not None and entry.sequence[0] < self.missing:
            return False
        self.refusals.unmapped_check(entry, causes.LINE_MISSING, entry.question)
        return True

    def _close(self) -> None:
        """Keeps the commit that is open."""
        if self.open:
            self.keep(self.open)
            self.open = None

    def _take_block(self, block: Packed, spans: Spans) -> None:
        """Takes what many lines name once for all of them."""
        index = block.head
        if self.missing is not None or not self._is_plain(index):
            for row in block.rows():
                self._take(line_of(row), spans)
            return
        for revision in index.revisions:
            self.wanted.setdefault(revision, 1)
        self.among, self.at, behind = [], (0, 0), (0, 0)
        *names, rest = marshal.loads(block.names)
        writes = issued = 0
        for named, (place, at, *before, row) in zip(names, index.odd):
            self._take_before(block, named, (writes, issued), before, spans)
            writes, issued = before
            if (place, at) != behind:
                self._close()
            self.at, behind = (place, at), (place + 1, at)
            self._take(line_of(row), spans)
        self._take_before(block, rest, (writes, issued), (len(index.plain), len(index.issued)), spans)
        if behind != (index.rows, index.checks):
            self._close()
        self.count += index.lines - len(index.odd)
        self.items.add_batch(block.packed_with(self.among))
        self.among = None

    def _is_plain(self, index: Index) -> bool:
        """Whether all lines of a block are of declared relations, behind what stands before it and none before the base state, and each becomes
        one line of a trace with rules. A check of a version that the log does not know is audited in part."""
        declared = self.declared
        return bool(declared.head) and not self.has_between and index.is_rising and all(
            declared.rules.is_declared(*pair) for pair in index.pairs) and (
            self.base_revision is None or index.lowest is None or index.lowest >= self.base_revision) and all(
            key[:2] not in declared.tuplesets for key in index.keys) and (
            not index.plain or self.last is None or index.writes[index.plain[0]] > self.last) and all(
            version in self.issued and version not in self.twice for version in index.named) and all(
            one.version not in self.issued for one in index.issued) and all(
            row[0] != "content" or (*row[3][:2], row[8]) not in self.issued for *_, row in index.odd)

    def _take_before(self, block: Packed, names: list[Run], start: Sequence[int], end: Sequence[int], spans: Spans) -> None:
        """Takes what is named up to a row, and the plain writes and the saved versions between two places of each."""
        for run in names:
            self.ids.add(*run)
        self._take_writes(block.head, start[0], end[0], spans)
        self._take_issued(block, start[1], end[1])

    def _take_writes(self, index: Index, start: int, end: int, spans: Spans) -> None:
        """Takes plain writes; those of one commit end where some check looks."""
        if start == end:
            return
        self._close()
        revisions = [index.writes[place] for place in index.plain[start:end]]
        if index.joined:
            joined = {number - start for number in index.joined}
            revisions = [one for number, one in enumerate(revisions, 1) if number not in joined or spans.has(one)]
        self.wanted.update(dict.fromkeys(revisions, 1))
        self.last, self.last_place = revisions[-1], (index.file, *index.last)

    def _take_issued(self, block: Packed, start: int, end: int) -> None:
        for version, goal, snapshot, token, asked, line in block.head.issued[start:end]:
            if asked is not None and block.places is not None:
                snapshot, token = block.places[asked[0]], token if asked[1] is None else max(block.places[asked[1]], 0)
            self.issued[version] = ((tuple(goal), True, snapshot, None, token), block.head.file, line)

    def _keep(self, row: tuple[Any, ...]) -> None:
        if self.among is None:
            self.items.add(row)
        else:
            self.among.append((*self.at, row))

    def _goes_on(self, commit: Commit, event: Event, spans: Spans) -> bool:
        """Takes a write into the commit before it, where it belongs there."""
        if event.kind != "write":
            return False
        if commit.revision == event.revision and self.writer.is_repeated(commit, event):
            self.refusals.pass_over("write that was logged before")
            return True
        if commit.revision != event.revision and (not commit.takes(event) or spans.has(commit.revision or 0)):
            return False
        self.writer.write(commit, event)
        return True

    def _refuse(self, event: Event, text: str) -> None:
        self.refusals.refuse(event.file, event.line, text)

    def keep(self, item: Item) -> None:
        """Keeps a commit or a change of rules."""
        event = item.event if isinstance(item, Commit) else item
        revision = item.revision
        assert revision is not None
        self.states.revisions += [revision] * self.has_between
        source = (revision, event.shown, event.file, event.line, event.time)
        if isinstance(item, Commit):
            self.wanted[revision] = len(item.lines())
            self._keep(("commit", *source, item.lines()))
            if self.has_between:
                self.states.take(item, self.writer)
        else:
            self.wanted[revision] = len(self.declared.changes.get(revision, ()))
            self._keep(("rules", *source))

    def _is_known(self, row: tuple[Any, ...]) -> bool:
        """Whether a check names nothing that was not seen before, so that there is nothing to do with it."""
        goal, snapshot, token = row[3], row[5], row[7]
        return row[8] is None and row[9] is None and row[0] == "check" and snapshot in self.wanted and (
            token is None or token in self.wanted) and (goal[0], goal[2]) in self.declared_names and self.ids.has(goal) and (
            self.base_revision is None or snapshot >= self.base_revision)

    def _taken(self, row: tuple[Any, ...]) -> Optional[tuple[Any, ...]]:
        """Gives what an entry names its numbers and gathers its revisions; the entry as it is kept, if it is."""
        kind, _, _, goal, _, snapshot, shown, token, version, lowest = row[:10]
        if not self._is_declared(goal[0], goal[2]):
            self.refusals.unmapped_check(Entry._make(row), causes.UNKNOWN_RELATION, Entry._make(row).question)
            return None
        if self.base_revision is not None and (snapshot if lowest is None else lowest) < self.base_revision:
            self.refusals.unmapped_check(Entry._make(row), causes.BEFORE_BASE, "its snapshot is %s" % shown)
            return None
        wanted = self.wanted
        if snapshot not in wanted:
            wanted[snapshot] = 1
        if token not in (None, NEWEST) and token not in wanted:
            wanted[token] = 1
        if lowest is not None and lowest not in wanted:
            wanted[lowest] = 1
        self.ids.note(goal)
        if version is None and kind == "check":
            return row
        entry = self._versioned(Entry._make(row))
        if entry.version is not None:
            self.ids.version(entry.version)
        return entry

    def _is_declared(self, of: str, relation: str) -> bool:
        if (of, relation) in self.declared_names:
            return True
        if not self.declared.rules.is_declared(of, relation):
            return False
        self.declared_names.add((of, relation))
        self.ids.name("namespace", of)
        self.ids.name("relation", relation)
        return True

    def _is_in_gap(self, time: Optional[int]) -> bool:
        """Whether something of a time may hang on what was lost before it, in a gap that is told further behind."""
        since = self.refusals.gap_since
        return since is not None and time is not None and time >= since

    def _versioned(self, entry: Entry) -> Entry:
        """An entry with its version, where the log knows that, and else without; an entry without one is audited in part."""
        key = (entry.goal[0], entry.goal[1], entry.version or "")
        if entry.version == "" and entry.kind == "check":
            return entry._replace(version=None, part=causes.LABEL_EMPTY)
        if entry.kind == "check":
            return entry if entry.version is None else self.known(entry)
        if entry.reply != bool(entry.version):
            return self.refusals.as_check(entry, causes.CONTENT_ODD)
        if entry.version is None:
            return entry
        short, before = (tuple(entry.goal), entry.reply, entry.snapshot, entry.lowest, entry.token), self.issued.get(key)
        if before is None:
            self.issued[key] = (short, entry.file, entry.line)
            return entry
        if before[0] != short:
            self.twice.add(key)
            self.refusals.note(causes.LABEL_AGAIN, "%s:%d: version %s of %s:%s was saved at %s:%d already; give each version a label of its own"
                               % (entry.file, entry.line, entry.version, *key[:2], *before[1:]))
        return entry._replace(kind="check", version=None, newest=entry.newest and entry.lowest is not None, part=causes.LABEL_AGAIN,
                              named=entry.version)

    def known(self, entry: Entry, is_late: bool = False) -> Entry:
        """A check that names a version, without it where the log does not know it and does not have all that came before; once more when all
        lines are known, by what stands behind it."""
        key = (entry.goal[0], entry.goal[1], entry.version or "")
        if key in self.issued:
            return entry._replace(part=causes.LABEL_TWICE) if key in self.twice and not is_late else entry
        if key in self.refusals.versions:
            return entry._replace(version=None, part=causes.VERSION_LEFT_OUT, named=entry.version)
        if self.may_be_older or self.has_gap and not is_late or self.refusals.has_lost_version or self._is_in_gap(entry.time):
            return entry._replace(version=None, part=causes.VERSION_UNKNOWN, named=entry.version)
        return entry

    def demanded(self, goal: tuple[Any, ...], version: Optional[str], snapshot: int, token: Optional[int]) -> Optional[int]:
        """The revision that a check demanded. Who asks for the newest state asks for that of the version, too."""
        if token != NEWEST or version is None:
            return None if token == NEWEST else token
        before = self.issued.get((goal[0], goal[1], version or ""))
        issued = before[0][4] if before else None
        return max(snapshot, issued) if issued is not None and (issued in self.wanted or issued in self.named) else snapshot

    def timestamps(self) -> dict[int, int]:
        """The last timestamp of each revision: dense, and as many for a commit as it has lines."""
        if self.base_revision is not None:
            self.wanted.setdefault(self.base_revision, 1)
        at = 0
        for revision in sorted(self.wanted):
            at += max(1, self.wanted[revision])
            self.wanted[revision] = at
        return self.wanted
