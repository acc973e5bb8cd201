"""What is gone through several times and does not stay in memory: rows of plain values, in a file of their own."""
import marshal
import tempfile
from operator import lt
from typing import IO, Iterable, Iterator, NamedTuple, Optional, Union

from new_enemy_tools.ids import Ids
from new_enemy_tools.importing.checks import NEWEST, Other, Row
from new_enemy_tools.importing.events import EVERY, Entry, Event, Line, Relationship
from new_enemy_tools.importing.packed_blocks import Packed, packed_of
from new_enemy_tools.importing.sequence_numbers import Numbers

BATCH = 1 << 12
CHECKS = ("check", "content")
# A write that the line of the call says that made it, and not the service's changes; such rows are writes, or are let go, before all else.
CALL = "call"


class Spool:
    """Rows in order, batch by batch; only the last batch is in memory."""

    def __init__(self) -> None:
        self.rows: list[Row] = []
        self.file: Optional[IO[bytes]] = None
        self.starts: list[tuple[int, int]] = []

    def add(self, row: Row) -> None:
        self.rows.append(row)
        if len(self.rows) >= BATCH:
            self._spill()

    def add_batch(self, data: bytes) -> None:
        """Rows as another process wrote them."""
        self._spill()
        self._write(data)

    def _spill(self) -> None:
        if self.rows:
            self._write(marshal.dumps(self.rows))
            self.rows = []

    def _write(self, data: bytes) -> None:
        if self.file is None:
            self.file = tempfile.TemporaryFile()
        at = self.starts[-1][1] if self.starts else 0
        self.file.seek(at)
        self.file.write(data)
        self.starts.append((at, at + len(data)))

    def batch(self, number: int) -> bytes:
        """A batch that is not in memory."""
        assert self.file is not None
        start, end = self.starts[number]
        self.file.seek(start)
        return self.file.read(end - start)

    def batches(self, first: int = 0) -> Iterator[bytes]:
        """The rows as they are handed to other processes, from a batch on."""
        for number in range(first, len(self.starts)):
            yield self.batch(number)
        if self.rows:
            yield marshal.dumps(self.rows)


class WriteRow(NamedTuple):
    """The row of a write, which has the fields of an Event."""

    kind: str
    file: str
    line: int
    revision: Optional[int]
    shown: Optional[str]
    base: bool
    group: Optional[int]
    sequence: Optional[tuple[int, int]]
    time: Optional[int]
    clock: str
    add: list[Row]
    remove: list[Row]
    asked: Optional[Row]


class Facts:
    """What has to be known of all lines before they are gone through."""

    def __init__(self) -> None:
        self.count = 0
        self.last_base = -1
        self.base_source = ("", 0)
        # the last sequence and time of the base state, where it has one
        self.base_sequence: Optional[tuple[int, int]] = None
        self.base_time: Optional[int] = None
        # of the files that lines say they come from the first line of each whose place matters, and of those that they are read from
        self.files: dict[str, int] = {}
        self.paths: dict[str, int] = {}
        # that which lines are read from, where it may be another than they say
        self.path = ""
        self.is_sequenced = True
        # the first sequence and the last, and whether all lines but the first rules have one, each a greater one than the line before
        self.sequences: Optional[tuple[tuple[int, int], tuple[int, int]]] = None
        self.is_rising = True
        # those of all lines, also of lines that have no event
        self.numbers = Numbers()
        self.is_chained = False
        self.has_newest = self.has_between = self.has_groups = self.has_every = self.has_asked = self.has_calls = False

    def note(self, line: Union[Line, WriteRow]) -> None:
        self.count += 1
        self.has_asked |= line.asked is not None
        if isinstance(line, Entry):
            self.has_newest |= line.newest and line.lowest is None
            self.has_between |= line.lowest is not None
            self.note_sequence(line.sequence)
        elif line.kind != "rules" or line.revision is not None:
            self.note_sequence(line.sequence)
        if not isinstance(line, Entry):
            if line.base:
                self.last_base, self.base_source = self.count - 1, (line.file, line.line)
                self._note_base(line.sequence, line.time)
            self.has_calls |= line.kind == CALL
            self.has_groups |= line.group is not None
            self.has_every |= any(given[5] == EVERY for given in line.add) or any(given[5] == EVERY for given in line.remove)
            if line.base or line.revision is None and line.asked is None:
                return
        if line.file not in self.files:
            self.files[line.file] = line.line
        self.paths.setdefault(self.path or line.file, line.line)
        self.is_sequenced &= line.sequence is not None

    @property
    def sources(self) -> dict[str, int]:
        """The files between whose lines order is not known: they may be of one file that says it has them of several, or the other way round."""
        return max(self.files, self.paths, key=len)

    def _note_base(self, sequence: Optional[tuple[int, int]], time: Optional[int]) -> None:
        self.base_sequence = max(filter(None, (self.base_sequence, sequence)), default=None)
        self.base_time = max((one for one in (self.base_time, time) if one is not None), default=None)

    def note_sequence(self, sequence: Optional[tuple[int, int]]) -> None:
        """The sequence of the next line."""
        if sequence is None or self.sequences is not None and sequence <= self.sequences[1]:
            self.is_rising = False
        else:
            self.sequences = (sequence if self.sequences is None else self.sequences[0]), sequence

    def note_sequences(self, numbers: list[int], lines: list[int], file: str) -> None:
        """Those of lines between which no other one stands."""
        first, last = numbers[0], numbers[-1]
        is_run = numbers == list(range(first, first + len(numbers)))
        self.note_sequence((first, 0))
        if is_run:
            self.numbers.add(first, file, lines[0], last)
        else:
            self.is_rising &= all(map(lt, numbers, numbers[1:]))
            for number, line in zip(numbers, lines):
                self.numbers.add(number, file, line)
        if self.is_rising and self.sequences is not None:
            self.sequences = self.sequences[0], (last, 0)

    def note_checks(self, file: str, first: int, has_all: bool = False) -> None:
        """Lines of a file, of which the first is told, and whether all have a sequence, which is noted of each."""
        self.files.setdefault(file, first)
        self.paths.setdefault(file, first)
        self.is_sequenced &= has_all
        self.is_rising &= has_all

    def merge(self, other: "Facts") -> None:
        """Those of lines that stand behind."""
        if other.last_base >= 0:
            self.last_base, self.base_source = self.count + other.last_base, other.base_source
            self._note_base(other.base_sequence, other.base_time)
        self.count += other.count
        for known, more in ((self.files, other.files), (self.paths, other.paths)):
            known.update((file, line) for file, line in more.items() if file not in known)
        self.is_sequenced &= other.is_sequenced
        self.numbers.merge(other.numbers)
        self.is_rising &= other.is_rising and (self.sequences is None or other.sequences is None or self.sequences[1] < other.sequences[0])
        if self.sequences is None or other.sequences is None:
            self.sequences = self.sequences or other.sequences
        else:
            self.sequences = self.sequences[0], other.sequences[1]
        for name in ("has_newest", "has_between", "has_groups", "has_every", "has_asked", "has_calls"):
            setattr(self, name, getattr(self, name) or getattr(other, name))


class Read(NamedTuple):
    """Lines as another process can take them, and what has to be known of them."""

    data: bytes
    facts: Facts


def plain(value: object) -> object:
    """A value as a row can have it: tuples with names become tuples."""
    return tuple(map(plain, value)) if isinstance(value, tuple) else value


def row_of(line: Line) -> Row:
    if isinstance(line, Entry):
        return (*line[:3], tuple(line.goal), *line[4:11], plain(line.asked), *line[12:])
    return (line.kind, line.file, line.line, line.revision, line.shown, line.base, line.group, line.sequence, line.time, line.clock,
            [tuple(given) for given in line.add], [tuple(given) for given in line.remove], plain(line.asked))


def line_of(row: Row) -> Union[Event, Row]:
    """A write as it was before it became a row; a check stays a row."""
    if row[0] in CHECKS:
        return row
    relationship = Relationship._make
    fields: Row = (*row[:10], list(map(relationship, row[10])), list(map(relationship, row[11])), row[12])
    return Event(*fields)


def found_in(batch: bytes) -> Union[Packed, list[Row]]:
    """What a batch of lines has: a block as it was read, or rows."""
    found = marshal.loads(batch)
    return packed_of(found) if isinstance(found, tuple) else found


def _taken_alone(found: Union[Packed, list[Row]]) -> list[Row]:
    """The rows of a batch, of a block those that were taken by themselves."""
    return [odd.row for odd in found.head.odd] if isinstance(found, Packed) else found


class Lines:
    """The writes, rules and checks of an import, in order."""

    def __init__(self, given: Iterable[Line] = (), ids: Optional[Ids] = None):
        # that of the days before is known to all who read
        self.ids = ids or Ids()
        self.spool, self.facts = Spool(), Facts()
        self.rules: list[Event] = []
        for line in given:
            self.add(line)

    def add(self, line: Line) -> None:
        self.facts.note(line)
        if isinstance(line, Event) and line.kind == "rules":
            self.spool.add(("rules", len(self.rules)))
            self.rules.append(line)
        else:
            self.spool.add(row_of(line))

    def declared(self) -> list[Event]:
        """The rules by their revisions, behind those from the beginning, in whatever order they were read."""
        return sorted(self.rules, key=lambda event: -1 if event.revision is None else event.revision)

    def add_row(self, row: Row) -> None:
        """Adds a check or a write as the row that it is."""
        self.facts.note(Entry._make(row) if row[0] in CHECKS else WriteRow._make(row))
        self.spool.add(row)

    def add_piece(self, piece: Union[Read, Event]) -> None:
        """What was read of a block: rules, or lines that stand behind all before."""
        if isinstance(piece, Event):
            self.add(piece)
        else:
            self.facts.merge(piece.facts)
            self.spool.add_batch(piece.data)

    def add_packed(self, packed: Packed) -> None:
        """Adds a block whose revisions were placed."""
        facts, index = Facts(), packed.head
        facts.files[index.file] = facts.paths[index.file] = index.first
        facts.has_groups = bool(index.plain)
        facts.is_sequenced = facts.is_rising = False
        for _, *_, row in index.odd:
            facts.note(Entry._make(row) if row[0] in CHECKS else WriteRow._make(row))
        facts.count = index.lines
        self.add_piece(Read(packed.dumped(), facts))

    def __iter__(self) -> Iterator[Line]:
        for line in self.rows():
            yield Entry._make(line) if isinstance(line, tuple) else line

    def rows(self) -> Iterator[Union[Event, Row]]:
        """As the lines themselves, but checks are plain rows with the fields of an Entry."""
        for batch in self.spool.batches():
            found = found_in(batch)
            yield from map(self._line, found.rows() if isinstance(found, Packed) else found)

    def stream(self, behind: int = -1) -> Iterator[Union[Packed, Event, Row]]:
        """As `rows`, but many lines together where they were read so, and stand behind a place."""
        place = -1
        for batch in self.spool.batches():
            found = found_in(batch)
            if isinstance(found, Packed) and place >= behind:
                yield found
                continue
            for place, row in enumerate(found.rows() if isinstance(found, Packed) else found, place + 1):
                yield self._line(row)

    def growing(self, more: Iterator[object]) -> Iterator[Union[Packed, Event, Row]]:
        """As `stream`, while `more` adds lines when it is gone through."""
        given = 0
        for _ in more:
            while given < len(self.spool.starts):
                yield from self._of_batch(next(self.spool.batches(given)))
                given += 1
        for batch in self.spool.batches(given):
            yield from self._of_batch(batch)

    def _of_batch(self, batch: bytes) -> Iterator[Union[Packed, Event, Row]]:
        found = found_in(batch)
        if isinstance(found, Packed):
            yield found
        else:
            yield from map(self._line, found)

    def events(self) -> Iterator[Union[Event, WriteRow]]:
        """Those of the lines that are no checks; writes as their rows."""
        for batch in self.spool.batches():
            found = found_in(batch)
            for row in (row for _, row in found.among()) if isinstance(found, Packed) else found:
                if row[0] == "write":
                    yield WriteRow._make(row)
                elif row[0] == "rules":
                    yield self.rules[row[1]]

    def calls(self) -> Iterator[WriteRow]:
        """The writes that calls say which made them; in a block such rows are taken by themselves."""
        for batch in self.spool.batches():
            found = found_in(batch)
            yield from (WriteRow._make(row) for row in _taken_alone(found) if row[0] == CALL)

    def writes(self) -> Iterator[WriteRow]:
        """The writes behind the base state."""
        return (row for row in self.events() if isinstance(row, WriteRow) and not row.base)

    def users(self) -> Iterator[tuple[str, str]]:
        """The users that lines name, by type and id, in the order in which they are named first."""
        for batch in self.spool.batches():
            found, given = found_in(batch), 0
            users, others = list[tuple[str, str]](), list[Other]()
            if isinstance(found, Packed):
                checks = found.checks()
                users, others = checks.users, checks.others
            else:
                others = [(0, 0, row) for row in found]
            for _, seen, row in others:
                yield from users[given:seen]
                given = seen
                if row[0] in CHECKS:
                    yield row[3][3:5]
                elif row[0] == "write":
                    yield from (one[3:5] for one in row[10] + row[11] if one[5] is None)
            yield from users[given:]

    def spans(self) -> Iterator[tuple[list[int], list[tuple[int, int]]]]:
        """Where checks looked, and what they demanded, many at a time; and from where to where others looked."""
        for batch in self.spool.batches():
            found = found_in(batch)
            points, wide = (found.head.revisions, list[tuple[int, int]]()) if isinstance(found, Packed) else ([], [])
            for row in _taken_alone(found):
                if row[0] in CHECKS:
                    if row[9] in (None, row[5]):
                        points.append(row[5])
                    else:
                        wide.append((row[9], row[5]))
                    if row[7] not in (None, NEWEST):
                        points.append(row[7])
            yield points, wide

    def _line(self, row: Row) -> Union[Event, Row]:
        return self.rules[row[1]] if row[0] == "rules" else line_of(row)
