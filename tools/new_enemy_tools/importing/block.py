"""Reads blocks of a log: lines of a usual shape by that shape, all others in full."""
import re
from array import array
from typing import Any, Callable, Iterable, Iterator, Mapping, NamedTuple, Optional, Union

from new_enemy_tools.importing.checks import NAMES, NEWEST, Checks, Look, Other, Row
from new_enemy_tools.importing.events import Event, Line
from new_enemy_tools.importing.line_shapes import QUOTE, Form, Said, Shape, Shapes, needed, shape_of
from new_enemy_tools.importing.located import BLANK, Block
from new_enemy_tools.importing.packed_blocks import Indexer
from new_enemy_tools.importing.pairing import Full, Match, Pairing
from new_enemy_tools.importing.printed import time_of as time_of_epoch
from new_enemy_tools.importing.spool import CALL, CHECKS, Facts, Read, row_of
from new_enemy_tools.importing.times import nanoseconds

# So many shapes are known at most, and so many lines are looked at for one.
MOST = 64
TRIES = 200
DAY = len("2024-05-06")

# The type, the relation, and the user's type and relation of a tuple.
Names = tuple[str, str, str, Optional[str]]


class When(NamedTuple):
    """The revision of a write, and its time where that is no key of its own."""

    revision: int
    shown: str
    time: Optional[int] = None


# A check or content check that looked somewhere between two states; and what has shapes, since other lines of a log are
# few, and are read in full.
BETWEEN = "between"
# the names of these two states
SNAPSHOT_BETWEEN, NEWEST_BETWEEN = ("lowest", "highest"), ("newest_lowest", "newest_highest")
LEARNT = ("check", "content", BETWEEN, "write", CALL)


class Usual(NamedTuple):
    """What a log has by the thousand: the forms of its checks, content checks and writes, and what the values of a line mean.

    A write is taken where its relation takes its user, by type, relation, and the user's type and relation.
    """

    check: tuple[Form, ...]
    content: tuple[Form, ...]
    write: tuple[Form, ...]
    look_of: Callable[[Said], Optional[Look]]
    when_of: Callable[[Said], Optional[When]]
    takes: Callable[[str, str, str, Optional[str]], bool]
    # what stands for the relation of a user that has one
    relation_of: Callable[[Optional[bytes]], Optional[str]] = lambda given: given and given.decode() or None
    # calls that wrote
    call: tuple[Form, ...] = ()
    between: tuple[Form, ...] = ()


class Columns:
    """The columns of the checks of a block, as they are read."""

    def __init__(self, path: str):
        self.path, self.facts, self.rows = path, Facts(), 0
        self.facts.path = path
        self.pairs: dict[tuple[bytes, bytes], int] = {}
        self.users: dict[tuple[bytes, bytes], int] = {}
        self.looks: list[Row] = []
        self.pair_of: list[int] = []
        self.user_of: list[int] = []
        self.look_of: list[int] = []
        self.objects: list[bytes] = []
        self.lines: list[int] = []
        self.times: list[bytes] = []
        self.sequences: list[int] = []
        # those of the last lines that were read by their shapes, and these lines
        self.run: list[int] = []
        self.run_lines: list[int] = []
        # whether all lines that were read by their shapes have a sequence
        self.has_all = True
        self.others: list[Other] = []
        # the first line that was read by its shape
        self.first = 0

    def add_names(self, of: bytes, relation: bytes) -> int:
        """The place of a type and relation that are new."""
        self.others.append((len(self.lines), len(self.users), (NAMES, of.decode(), relation.decode())))
        self.pairs[of, relation] = len(self.pairs)
        return len(self.pairs) - 1

    def add_look(self, look: Optional[Look]) -> int:
        """The place of a new look, -1 where there is none."""
        if look is None:
            return -1
        self.facts.has_asked |= look.asked is not None
        self.looks.append(tuple(look))
        return len(self.looks) - 1

    def add_time(self, time: bytes) -> None:
        """The time of the check that is next."""
        if len(self.times) < len(self.lines):
            self.times += [b""] * (len(self.lines) - len(self.times))
        self.times.append(time)

    def add_sequence(self, sequence: int, line: int) -> None:
        """That of the line that is next."""
        self.run.append(sequence)
        self.run_lines.append(line)

    def add_checks_sequence(self, sequence: int, line: int) -> None:
        """That of the check that is next."""
        self.add_sequence(sequence, line)
        if len(self.sequences) < len(self.lines):
            self.sequences += [-1] * (len(self.lines) - len(self.sequences))
        self.sequences.append(sequence)

    def add(self, line: Line) -> None:
        """A line that was read in full."""
        self._note()
        self.facts.note(line)
        self._add_row(row_of(line))

    def add_usual(self, row: Row) -> None:
        """A write or a content check that was read by its shape."""
        self.first = self.first or (self.lines[0] if self.lines else row[2])
        self.facts.has_asked |= row[0] == "content" and row[11] is not None
        self.facts.has_calls |= row[0] == CALL
        self._add_row(row)

    def _add_row(self, row: Row) -> None:
        self.rows += 1
        self.others.append((len(self.lines), len(self.users), row))

    def _note(self) -> None:
        """Notes the lines up to here that were read by their shapes."""
        if self.run:
            self.facts.note_sequences(self.run, self.run_lines, self.path)
            self.run, self.run_lines = [], []
        self.facts.count = len(self.lines) + self.rows
        first = self.first or (self.lines[0] if self.lines else 0)
        if first:
            self.facts.note_checks(self.path, first, self.has_all)

    def checks(self) -> Checks:
        times = self.times and self.times + [b""] * (len(self.lines) - len(self.times))
        return Checks(self.path, _texts(self.pairs), _texts(self.users), self.looks, array("I", self.pair_of).tobytes(),
                      array("I", self.user_of).tobytes(), array("I", self.look_of).tobytes(), b"\n".join(self.objects).decode(),
                      array("Q", self.lines).tobytes(), b"\n".join(times).decode(), self.others,
                      array("q", self.sequences + [-1] * (len(self.lines) - len(self.sequences))).tobytes() if self.sequences else b"")

    def read(self, indexer: Indexer) -> Read:
        self._note()
        return Read(indexer.read(self.checks()), self.facts)


def _texts(pairs: Mapping[tuple[bytes, bytes], int]) -> list[tuple[str, str]]:
    return [(one.decode(), other.decode()) for one, other in pairs]


class Reader:
    """Reads a log's blocks, and learns the shapes of its lines."""

    def __init__(self, path: str, usual: Usual, indexer: Indexer):
        self.path, self.usual, self.indexer = path, usual, indexer
        self.shapes = Shapes()
        self.tried = 0
        # for lines that say that a call ended
        self.ends: list[Match] = []
        self.days: dict[bytes, bool] = {}
        # by the bytes of their names, these names where such tuples may be written
        self.taken: dict[tuple[Any, ...], Optional[Names]] = {}

    def pieces(self, block: Block, full: Full, pairing: Optional[Pairing] = None) -> Iterator[Union[Read, Event]]:
        """The lines of a block, with rules apart, which have no row."""
        lines: Iterable[tuple[int, bytes]] = enumerate(block.data.split(b"\n"), block.first)
        lines = iter(lines if pairing is None else pairing.lines(lines))
        given: list[Line] = []
        while True:
            columns = Columns(self.path)
            for number, line in self._odd(lines, columns):
                given = full(number, line)
                if any(one.kind == "rules" for one in given):
                    break
                for one in given:
                    columns.add(one)
                if given and len(self.shapes.listed) < MOST and self.tried < TRIES:
                    self._learn(number, line, [row_of(one) for one in given])
            else:
                yield columns.read(self.indexer)
                return
            yield columns.read(self.indexer)
            # such a line has nothing else
            yield from [one for one in given if isinstance(one, Event)]

    def _odd(self, lines: Iterable[tuple[int, bytes]], columns: Columns) -> Iterator[tuple[int, bytes]]:
        """Takes the lines of usual shapes, and gives the others."""
        by_quotes, others, pairs, users = self.shapes.by_quotes, self.shapes.others, columns.pairs, columns.users
        put_pair, put_user, put_look = columns.pair_of.append, columns.user_of.append, columns.look_of.append
        put_object, put_line, look_of, days = columns.objects.append, columns.lines.append, self.usual.look_of, self.days
        self.shapes.sort()
        for shape in self.shapes.listed:
            shape.looks.clear()
        for number, raw in lines:
            line = raw.strip(BLANK)
            if not line:
                continue
            for shape in by_quotes.get(line.count(QUOTE), others):
                found = shape.match(line)
                if found:
                    break
            else:
                yield number, line
                continue
            shape.hits += 1
            time = b""
            if shape.time:
                time = found[shape.time]
                if time is None or not days.get(time[:DAY]):
                    time = self._time_of(shape, found)
                if not time:
                    yield number, line
                    continue
            if shape.kind != "check":
                if not self._take_rows(columns, number, shape, found, time):
                    yield number, line
                continue
            said = found.group(*shape.rest)
            look = shape.looks.get(said)
            if look is None:
                look = shape.looks[said] = columns.add_look(look_of(dict(zip(shape.names, said))))
            if look < 0:
                yield number, line
                continue
            if time:
                columns.add_time(time)
            if shape.sequence:
                columns.add_checks_sequence(int(found[shape.sequence]), number)
            else:
                columns.has_all = False
            of, thing, relation, user_type, user_id = found.group(*shape.goal)
            pair = pairs.get((of, relation))
            put_pair(columns.add_names(of, relation) if pair is None else pair)
            put_user(users.setdefault((user_type, user_id), len(users)))
            put_look(look)
            put_object(thing)
            put_line(number)

    def _take_rows(self, columns: Columns, number: int, shape: Shape, found: re.Match[bytes], time: bytes) -> bool:
        """Takes a line that is no check; False where it has to be read in full."""
        read = {"content": self._content, BETWEEN: self._between}.get(shape.kind, self._writes)
        rows = read(number, shape, found, time)
        if rows:
            columns.facts.has_between |= shape.kind == BETWEEN
            if shape.sequence:
                columns.add_sequence(int(found[shape.sequence]), number)
            else:
                columns.has_all = False
            for row in rows:
                columns.add_usual(row)
        return bool(rows)

    def _content(self, number: int, shape: Shape, found: re.Match[bytes], time: bytes) -> list[Row]:
        """The row of a content check; nothing where it has to be read in full."""
        look = self.usual.look_of(shape.said(found))
        if look is None:
            return []
        reply, snapshot, shown, token, version, asked = look
        token = None if token == NEWEST else token
        goal = (*map(bytes.decode, found.group(*shape.goal)), None)
        return [("content", self.path, number, goal, reply, snapshot, shown, token, version, None, False, asked, sequence_in(shape, found),
                 nanoseconds(time.decode()) if time else None, self.path, None, None)]

    def _between(self, number: int, shape: Shape, found: re.Match[bytes], time: bytes) -> list[Row]:
        """The row of an entry between two states; nothing where it has to be read in full."""
        said = shape.said(found)
        is_newest = NEWEST_BETWEEN[0] in said
        low, high = NEWEST_BETWEEN if is_newest else SNAPSHOT_BETWEEN
        lowest, snapshot = int(needed(said, low)), int(needed(said, high))
        if lowest > snapshot:
            return []
        token, version = said.get("token"), said.get("version")
        goal = (*map(bytes.decode, found.group(*shape.goal)), None)
        return [(needed(said, "event").decode(), self.path, number, goal, said["reply"] == b"true", snapshot,
                 "between %d and %d" % (lowest, snapshot), None if token is None else int(token),
                 None if version is None else version.decode(), lowest, is_newest, None, sequence_in(shape, found),
                 nanoseconds(time.decode()) if time else None, self.path, None, None)]

    def _writes(self, number: int, shape: Shape, found: re.Match[bytes], time: bytes) -> list[Row]:
        """The rows of writes; nothing where they have to be read in full."""
        said, rows = shape.said(found), list[Row]()
        for item, (is_first, is_added) in zip(shape.items, shape.sides):
            of, thing, relation, user_type, user_id = found.group(*item.goal)
            key = of, relation, user_type, found[item.user_relation] if item.user_relation else None
            if key not in self.taken:
                self.taken[key] = self._names(*key)
            names = self.taken[key]
            if names is None:
                return []
            if is_first:
                when = self.usual.when_of({**said, **item.said(found)})
                if when is None:
                    return []
                at = nanoseconds(time.decode()) if time else when.time
                rows.append((shape.kind, self.path, number, when.revision, when.shown, False, None, sequence_in(shape, found), at,
                             self.path, [], [], None))
            rows[-1][10 if is_added else 11].append((names[0], thing.decode(), names[1], names[2], user_id.decode(), names[3]))
        return rows

    def _names(self, of: bytes, relation: bytes, user_type: bytes, user_relation: Optional[bytes]) -> Optional[Names]:
        """The names of tuples that may be written so."""
        names = of.decode(), relation.decode(), user_type.decode(), self.usual.relation_of(user_relation)
        return names if self.usual.takes(*names) else None

    def _learn(self, number: int, line: bytes, rows: list[Row]) -> None:
        """Learns the shape of a line, where it gives what the line was read as; none gives a line of the base state, and
        these are long."""
        first = rows[0]
        kind = BETWEEN if first[0] in CHECKS and first[9] is not None else first[0]
        is_base = kind == "write" and first[5]
        if is_base or kind not in LEARNT or len(rows) > 1 and {row[0] for row in rows} != {"write"}:
            return
        self.tried += 1
        shape = next(filter(None, (shape_of(line, form) for form in getattr(self.usual, kind))), None)
        # a check says its snapshot and its reply
        if shape is None or kind == "check" and len(shape.rest) < 2:
            return
        shape.kind = kind
        if kind in ("write", CALL):
            found = shape.match(line)
            shape.sides = [] if found is None else sides_of(shape, found, rows)
        known, self.shapes = self.shapes, Shapes(shape)
        columns = Columns(self.path)
        is_right = not list(self._odd([(number, line)], columns)) and list(columns.checks().rows()) == rows
        shape.looks.clear()
        self.shapes = known
        if is_right:
            known.add(shape)

    def _time_of(self, shape: Shape, found: re.Match[bytes]) -> bytes:
        """The time of a line; nothing where the line has to be read in full."""
        time: Optional[bytes] = found[shape.time]
        if time is None:
            return (time_of_epoch(float(found[shape.epoch])) or "").encode()
        return time if self._is_day(time) else b""

    def _is_day(self, time: bytes) -> bool:
        """Whether a time has a day that there is."""
        known = self.days.get(time[:DAY])
        if known is None:
            known = self.days[time[:DAY]] = nanoseconds(time.decode()) is not None
        return known


def sequence_in(shape: Shape, found: re.Match[bytes]) -> Optional[tuple[int, int]]:
    return (int(found[shape.sequence]), 0) if shape.sequence else None


def sides_of(shape: Shape, found: re.Match[bytes], rows: list[Row]) -> list[tuple[bool, bool]]:
    """Of each tuple of a line whether it is the first of the writes that were read of it, and whether it is added; nothing where that is
    not certain, as where one is both added and removed."""
    sides: list[tuple[bool, bool]] = []
    left = [[list(row[10]), list(row[11])] for row in rows]
    is_first = True
    for item in shape.items:
        goal = tuple(text.decode() for text in found.group(*item.goal))
        nexts = [bool(side) and side[0][:5] == goal for side in left[0]] if left else []
        if nexts.count(True) != 1:
            return []
        side = nexts.index(True)
        left[0][side].pop(0)
        sides.append((is_first, side == 0))
        is_first = not any(left[0])
        if is_first:
            left.pop(0)
    return [] if left else sides
