"""A block of lines as it was read: its columns, which one process alone unpacks at the end, and what has to be known to take them at once.

Most writes and content checks stand for themselves. What hangs on what stands before or behind the block, or has an edge between usersets,
is taken row by row, among the others.
"""
import marshal
from itertools import groupby
from operator import itemgetter
from typing import Any, Callable, Collection, Iterable, Iterator, Mapping, NamedTuple, Optional

from new_enemy_tools.edges import Name
from new_enemy_tools.ids import Ids
from new_enemy_tools.importing.checks import NAMES, NEWEST, Checks, Other, Row, column
from new_enemy_tools.importing.keyed_hash import short

# So many tuples fit on a line of a trace, whatever their names.
FEW = 1_000
# A kind and type of names with their ids, as the table of ids has them.
Run = tuple[str, str, list[str]]
# Where a version was saved: the type and id of its object, and its label.
Version = tuple[str, str, str]
# By the moments of a feed their places in it.
Numbers = Mapping[Row, int]


class Odd(NamedTuple):
    """A row that is taken by itself: its place among the rows, and how many checks, plain writes and versions stand before it."""

    place: int
    at: int
    writes: int
    issued: int
    row: Row


class Issued(NamedTuple):
    """A version that a content check saves, by its place; `asked` are its snapshot and its token among the moments."""

    version: Version
    goal: Row
    snapshot: Optional[int]
    token: Optional[int]
    asked: Optional[tuple[int, Optional[int]]]
    line: int


class Stood(NamedTuple):
    """A tuple in short, whether the first change of it and the last one of some add it, and the line of the first, or of one that adds it
    behind another one that does."""

    key: int
    first: bool
    last: bool
    line: int
    is_again: bool


class Moments(NamedTuple):
    """What is asked of a feed: moments, each once, those of snapshots first, of which there are so many; the models; and whether something
    looks between two moments."""

    listed: list[Row]
    snapshots: int
    models: list[Optional[str]]
    is_between: bool


class Index(NamedTuple):
    """What has to be known of a block's lines to take them at once."""

    file: str
    # the number of the first of them, and how many there are
    first: int
    lines: int
    # how many checks are in columns, and how many rows stand among them
    checks: int
    rows: int
    # the types and relations that are named, and of plain writes these with the types of their users
    pairs: list[Name]
    keys: list[tuple[str, str, str]]
    # the lowest snapshot, and the revisions that are named
    lowest: Optional[int]
    revisions: list[int]
    # where these have no numbers yet
    asked: Moments
    # the versions that are named and were not saved before within the block; and those that are saved
    named: list[Version]
    issued: list[Issued]
    # the revisions of all writes, whether they rise, which of them are plain, and of these which may be of one commit with the one before
    writes: list[int]
    is_rising: bool
    plain: list[int]
    joined: list[int]
    # of the last plain write the line, and what its revision is called
    last: tuple[int, str]
    odd: list[Odd]
    # where writes are changes of a feed, whether none touches a tuple again that another one of its time does, and what those of the last time touch
    is_once: bool
    touched: dict[Row, bool]
    # of such changes the tuples that they touch, as Stood has them; they are looked at once
    stood: bytes


class Packed(NamedTuple):
    """A block; `names` are what gets a number up to each row that is taken by itself, and behind the last. Where revisions are places in a
    feed, `first` is that of its first write, and `places` are those of its moments."""

    head: Index
    names: bytes
    data: bytes
    first: Optional[int] = None
    places: Optional[list[int]] = None

    def dumped(self) -> bytes:
        odd, issued = [tuple(one) for one in self.head.odd], [tuple(one) for one in self.head.issued]
        head = self.head._replace(odd=odd, issued=issued, asked=tuple(self.head.asked))  # type: ignore[arg-type]
        return marshal.dumps((tuple(head), *self[1:]))

    def checks(self) -> Checks:
        checks = Checks(*marshal.loads(self.data))
        return numbered(checks, self._numbers(checks))

    def _numbers(self, checks: Checks) -> Optional[Numbers]:
        return numbers_of(checks, {one.place for one in self.head.odd}, self.places)

    def packed_with(self, rows: list[tuple[int, int, Row]]) -> bytes:
        """The block as it is kept: these rows in place of those that were taken by themselves."""
        return marshal.dumps((self.data, [odd.place for odd in self.head.odd], rows, self.first, self.places))

    def among(self) -> Iterator[tuple[int, Row]]:
        """The rows among the checks with the number of checks before each."""
        odd, checks = {one.place: one.row for one in self.head.odd}, Checks(*marshal.loads(self.data))
        writes, base, numbers = 0, (self.first or 0), self._numbers(checks)
        for place, (at, _, row) in enumerate(checks.others):
            is_write = row[0] == "write" and not row[5]
            if place in odd:
                row = odd[place]
            elif row[0] != NAMES:
                row = placed_row(row, None if self.first is None else base + writes, numbers)
            writes += is_write
            if row[0] != NAMES:
                yield at, row

    def rows(self) -> Iterator[Row]:
        """All lines as rows, in order."""
        entries, done = self.checks().entries(), 0
        for at, row in self.among():
            for _ in range(done, at):
                yield next(entries)
            done = at
            yield row
        yield from entries


def packed_of(found: tuple[Any, ...]) -> Packed:
    """What `dumped` gives, when it was loaded."""
    index, *rest = found
    made = Index(*index)
    return Packed(made._replace(odd=[Odd(*one) for one in made.odd], issued=[Issued(*one) for one in made.issued], asked=Moments(*made.asked)),
                  *rest)


def moments_of(checks: Checks, contents: Collection[int]) -> Moments:
    """What a block asks of a feed, with its content checks at these places."""
    asked = [look[5] for look in checks.looks] + [checks.others[place][2][11] for place in sorted(contents)]
    snapshots = dict.fromkeys([moment for moments, _, _ in asked for moment in moments])
    found = {**snapshots, **dict.fromkeys([token for _, token, _ in asked])}
    found.pop(None, None)
    return Moments(list(found), len(snapshots), list(dict.fromkeys([model for _, _, model in asked])),
                   any(len(moments) > 1 for moments, _, _ in asked))


def numbers_of(checks: Checks, odd: Collection[int], places: Optional[list[int]]) -> Optional[Numbers]:
    """The places of what a block asks, where some rows are taken by themselves."""
    if places is None:
        return None
    contents = {place for place, (_, _, row) in enumerate(checks.others) if row[0] == "content" and place not in odd}
    return dict(zip(moments_of(checks, contents).listed, places))


def numbered(checks: Checks, numbers: Optional[Numbers]) -> Checks:
    """Checks with numbers for what is asked."""
    if numbers is None:
        return checks
    return checks._replace(looks=[
        (reply, numbers[moments[0]], shown, token if demanded is None else max(numbers[demanded], 0), version, None)
        for reply, _, shown, token, version, (moments, demanded, _) in checks.looks])


def placed_row(row: Row, place: Optional[int], numbers: Optional[Numbers]) -> Row:
    """A plain write with its place in the feed, where there is one, or a content check with numbers for what is asked."""
    if numbers is None:
        return row
    if row[0] == "write":
        return (*row[:3], place, row[4], row[5], row[3], *row[7:])
    moments, demanded, _ = row[11]
    return (*row[:5], numbers[moments[0]], row[6], row[7] if demanded is None else max(numbers[demanded], 0), *row[8:11], None, *row[12:])


class _Names(Ids):
    """What gets a number, in order, where it has none yet: ids of one kind and type together."""

    def __init__(self) -> None:
        super().__init__()
        self.runs: list[Run] = []

    def number(self, kind: str, of: str, id_text: str) -> int:
        self.add(kind, of, [id_text])
        return 0

    def add(self, kind: str, of: str, ids: list[str]) -> None:
        if self.runs and self.runs[-1][0] == kind and self.runs[-1][1] == of:
            self.runs[-1][2].extend(ids)
        else:
            self.runs.append((kind, of, ids))

    def add_users(self, users: list[tuple[str, str]]) -> None:
        for of, some in groupby(users, itemgetter(0)):
            self.add("user", of, [id_text for _, id_text in some])

    def part(self) -> list[Run]:
        """What was added since this was asked last."""
        runs, self.runs = self.runs, []
        return runs


class Indexer:
    """Makes the index of blocks. `tuplesets` are those that are known before the log is read."""

    def __init__(self, tuplesets: Collection[Name] = (), has_groups: bool = False):
        """With groups, writes of one revision that stand together may be one commit."""
        self.tuplesets, self.has_groups = frozenset(tuplesets), has_groups

    def read(self, checks: Checks) -> bytes:
        """A block of lines as others take it: packed, or rows where most are taken by themselves."""
        joined, contents = self._plain_writes(checks), _plain_contents(checks)
        if not checks.size and 2 * (len(joined) + len(contents)) < len(checks.others):
            return marshal.dumps([row for _, _, row in checks.others])
        return self._packed(checks, joined, contents).dumped()

    def _packed(self, checks: Checks, joined: dict[int, bool], contents: set[int]) -> Packed:
        """By the places of plain writes and of plain content checks."""
        others, names, parts = checks.others, _Names(), list[list[Run]]()
        pairs, keys = dict.fromkeys(checks.pairs), dict[tuple[str, str, str], None]()
        revisions = {revision for look in checks.looks for revision in (look[1], look[3])}
        lows = [look[1] for look in checks.looks]
        asked = moments_of(checks, contents) if self.has_groups else Moments([], 0, [], False)
        numbers = dict(zip(asked.listed, range(len(asked.listed))))
        writes: list[int] = []
        plain: list[int] = []
        joins: list[int] = []
        issued: list[Issued] = []
        odd: list[Odd] = []
        saved: dict[Version, int] = {}
        given, last = 0, (0, "")
        for place, (at, seen, row) in enumerate(others):
            if seen > given:
                names.add_users(checks.users[given:seen])
                given = seen
            if row[0] == NAMES:
                names.name("namespace", row[1])
                names.name("relation", row[2])
                continue
            if place in joined:
                for of, thing, relation, user_type, user_id, _ in (*row[10], *row[11]):
                    names.number("user", user_type, user_id)
                    names.name("relation", relation)
                    names.name("namespace", of)
                    names.object(of, thing)
                    keys[of, relation, user_type] = None
                if joined[place]:
                    joins.append(len(plain))
                plain.append(len(writes))
                last = row[2], row[4]
            elif place in contents:
                goal, version = row[3], row[8]
                names.name("namespace", goal[0])
                names.name("relation", goal[2])
                names.note(goal)
                pairs[goal[0], goal[2]] = None
                lows.append(row[5])
                revisions |= {row[5], row[7]}
                if version is not None:
                    names.version(version)
                    saved[goal[0], goal[1], version] = at
                    looked = (numbers[row[11][0][0]], numbers.get(row[11][1])) if self.has_groups else None
                    issued.append(Issued((goal[0], goal[1], version), goal, row[5], row[7], looked, row[2]))
            else:
                parts.append(names.part())
                odd.append(Odd(place, at, len(plain), len(issued), row))
            if row[0] == "write" and not row[5]:
                writes.append(row[3])
        names.add_users(checks.users[given:])
        pairs.update(dict.fromkeys(key[:2] for key in keys))
        rows = [row[2] for _, _, row in others if row[0] != NAMES]
        is_rising = None not in writes and all(before <= one for before, one in zip(writes, writes[1:]))
        is_once, touched = _touched(others) if self.has_groups else (False, {})
        stood = [tuple(one) for one in stood_of(row for _, _, row in others if row[0] == "write" and not row[5])] if self.has_groups else []
        index = Index(checks.file, min([checks.first, *rows[:1]] if checks.size else rows[:1], default=0), checks.size + len(rows), checks.size,
                     len(others), list(pairs), list(keys),
                     min((low for low in lows if low is not None), default=None), [one for one in revisions if one not in (None, NEWEST)],
                     asked, _named(checks, saved), issued, writes, is_rising, plain, joins, last, odd, is_once, touched, marshal.dumps(stood))
        return Packed(index, marshal.dumps([*parts, names.part()]), marshal.dumps(tuple(checks)))

    def _plain_writes(self, checks: Checks) -> dict[int, bool]:
        """The places of writes that stand for themselves, each with whether it may be of one commit with the one before it."""
        writes = [(place, at, row) for place, (at, _, row) in enumerate(checks.others) if row[0] == "write" and not row[5]]
        found: dict[int, bool] = {}
        # Revisions that are no numbers are put in order with all lines.
        start, count = 0, 0 if any(row[3] is None for _, _, row in writes) else len(writes)
        while start < count:
            end, (place, at, row) = start + 1, writes[start]
            while end < count and writes[end][0] == place + end - start and writes[end][1] == at and writes[end][2][3] == row[3]:
                end += 1
            # What is first or last may be of one commit with what the blocks beside have.
            is_inner = (place > 0 or at > 0) and (writes[end - 1][0] < len(checks.others) - 1 or writes[end - 1][1] < checks.size)
            is_apart = self.has_groups or end - start == 1 and (start == 0 or writes[start - 1][2][3] < row[3]) and (
                end == count or row[3] < writes[end][2][3])
            if is_inner and is_apart and self._are_plain([one for _, _, one in writes[start:end]]):
                found.update((one, one > place) for one, _, _ in writes[start:end])
            start = end
        return found

    def _are_plain(self, rows: list[Row]) -> bool:
        """Whether writes of one commit at most touch few tuples of single users, each once."""
        tuples: list[Row] = []
        for row in rows:
            if row[12] is not None or not row[10] and not row[11]:
                return False
            tuples += map(tuple, row[10])
            tuples += map(tuple, row[11])
        return len(tuples) <= FEW and len(set(tuples)) == len(tuples) and all(
            one[5] is None and (one[0], one[2]) not in self.tuplesets for one in tuples)


def _plain_contents(checks: Checks) -> set[int]:
    """The places of content checks that save a version which no other of the block saves, or are denied and save none."""
    found: dict[int, Optional[Version]] = {}
    counts: dict[Optional[Version], int] = {}
    for place, (_, _, row) in enumerate(checks.others):
        if row[0] != "content":
            continue
        version = None if row[8] is None else (row[3][0], row[3][1], row[8])
        counts[version] = counts.get(version, 0) + 1
        if row[4] == bool(row[8]) and row[8] != "" and row[9] is None and not row[10] and row[15] is None:
            found[place] = version
    return {place for place, version in found.items() if version is None or counts[version] == 1}


def _named(checks: Checks, saved: dict[Version, int]) -> list[Version]:
    """The versions that checks name and that were not saved before them."""
    labels = {place: look[4] for place, look in enumerate(checks.looks) if look[4] is not None}
    if not labels:
        return []
    types, size = [of for of, _ in checks.pairs], checks.size
    found: dict[Version, None] = {}
    for number, (pair, thing, look) in enumerate(zip(column(checks.pair_of), checks.objects.split("\n"), column(checks.look_of))):
        if look in labels:
            version = types[pair], thing, labels[look]
            if saved.get(version, size) > number:
                found[version] = None
    return list(found)


def _touched(others: list[Other]) -> tuple[bool, dict[Row, bool]]:
    """Whether no tuple is touched twice at one time, and what the writes of the last time touch, each with whether it is stored then."""
    time, is_once, touched = None, True, dict[Row, bool]()
    for _, _, row in others:
        if row[0] == "write" and not row[5]:
            if row[3] != time:
                time, touched = row[3], {}
            for live, listed in ((True, row[10]), (False, row[11])):
                is_once &= touched.keys().isdisjoint(listed)
                touched.update(dict.fromkeys(listed, live))
    return is_once, touched


def stood_of(rows: Iterable[Row]) -> Iterator[Stood]:
    """The tuples that changes touch, each once."""
    found: dict[int, Stood] = {}
    for row in rows:
        for live, listed in ((False, row[11]), (True, row[10])):
            for key in map(short, map(tuple, listed)):
                before = found.get(key)
                if before is None:
                    found[key] = Stood(key, live, live, row[2], False)
                elif live and before.last and not before.is_again:
                    found[key] = before._replace(line=row[2], is_again=True)
                else:
                    found[key] = before._replace(last=live)
    return iter(found.values())


class StoredBlock:
    """A block as it is kept for the trace: rows in place of those that were taken by themselves, each with its place among the rows, and how
    many checks stand before it."""

    def __init__(self, data: bytes, odd: list[int], rows: list[tuple[int, int, Row]], first: Optional[int], places: Optional[list[int]]):
        checks, self.odd, self.alone, self.first = Checks(*marshal.loads(data)), set(odd), rows, first
        self.numbers = numbers_of(checks, self.odd, places)
        self.others, self.checks = checks.others, numbered(checks, self.numbers)

    def among(self, is_end: Callable[[int], bool], commit_of: Callable[[list[Row]], Row]) -> Iterator[tuple[int, Row]]:
        """The rows among the checks, each with the number of checks before it; plain writes as commits, which end at some revisions."""
        alone, given, writes, open_rows = self.alone, 0, 0, list[Row]()
        for place, (at, _, row) in enumerate(self.others):
            while given < len(alone) and alone[given][0] <= place:
                yield alone[given][1:]
                given += 1
            is_write = row[0] == "write" and not row[5]
            if row[0] != NAMES and place not in self.odd:
                one = placed_row(row, None if self.first is None else self.first + writes, self.numbers)
                if not is_write:
                    yield at, one
                else:
                    open_rows.append(one)
                    if is_end(one[3]):
                        yield at, commit_of(open_rows)
                        open_rows = []
            writes += is_write
        yield from (one[1:] for one in alone[given:])

    def rows(self, is_end: Callable[[int], bool], commit_of: Callable[[list[Row]], Row]) -> Iterator[Row]:
        """All lines as rows, in order."""
        entries, done = self.checks.entries(), 0
        for at, row in self.among(is_end, commit_of):
            for _ in range(done, at):
                yield next(entries)
            done = at
            yield row
        yield from entries
