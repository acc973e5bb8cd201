"""The usual shapes of a log's lines.

A line that was read in full gives an expression, which takes each line that differs from it in the values of some known keys alone:
such a line is not parsed again. Values that are written in any unusual way are not taken, nor is a line with a key that is not known.
"""
import re
from typing import Any, Callable, Iterable, Iterator, Mapping, NamedTuple, Optional

from new_enemy_tools import limits

Path = tuple[str, ...]
# The values of a line by their names.
Said = Mapping[str, Optional[bytes]]
TOKEN = re.compile(rb'([{}\[\]:,])|"([^"\\]*)"|[^ \t{}\[\]:,"]+')
TEXT = rb"[ !#-\[\]-~]"
# of a text that is cut at its first `:` and at `#`: before the first, and behind
PART = rb"[!$-9;-\[\]-~]"
REST = rb"[!$-\[\]-~]"
WHOLE = rb"(0|[1-9][0-9]{0,17})"
REPLY = rb"(true|false)"
ID = rb"[!$-?A-\[\]-}][!$-?A-\[\]-~]{0,%d}" % (limits.OBJECT_ID_BYTES - 1)
LABEL = rb'"([ !#-\[\]-}]%s{0,%d})"' % (TEXT, limits.VERSION_BYTES - 1)
TIME = rb'"(\d{4}-\d\d-\d\d[Tt](?:[01]\d|2[0-3]):[0-5]\d:[0-5]\d(?:\.\d{1,9})?[Zz])"'
# a time, or seconds since 1970
STAMP = rb"(?:%s|([1-9][0-9]{0,9}\.[0-9]{1,9}))" % TIME
GOAL = ("type", "id", "relation", "user_type", "user_id")
USER_RELATION = "user_relation"
# the id of a call, of which only matters that it stands twice
CALL_ID = "call"
# A plain value that nothing reads.
FREE = rb'(?:"%s*"|-?(?:0|[1-9][0-9]{0,17})(?:\.[0-9]{1,18})?(?:[eE][-+]?[0-9]{1,2})?|true|false|null)' % TEXT
QUOTE = b'"'
# In the path of a key, the place of one of several items of a list.
ITEM = "*"


class Field(NamedTuple):
    """The values of a key that are taken, and the name of each group among them; and whether all are texts, or none is."""

    pattern: bytes
    names: tuple[str, ...]
    is_steady: bool = True


def field(pattern: bytes, *names: str, is_steady: bool = True) -> Field:
    return Field(pattern, names, is_steady)


# of a key that a line may have with null; and of one that nothing reads
NULL = field(b"(?!)")
UNREAD = field(FREE, is_steady=False)
CALL = field(b'"(?P<call>[!#-\\[\\]-~]+)"', CALL_ID)
SAME_CALL = field(b'"(?P=call)"')


class Form(NamedTuple):
    """The keys of one kind of line: those whose values may differ, those that a line may have with any one value, and those of which nothing
    reads the value. Where `read` names the keys of a whole line that something reads, all others are such; such a line stands so deep."""

    fields: Mapping[Path, Field]
    fixed: frozenset[Path]
    free: frozenset[Path] = frozenset()
    read: Optional[frozenset[str]] = None
    depth: int = 0

    @property
    def holders(self) -> frozenset[Path]:
        """What the keys stand in."""
        return frozenset(path[:count] for path in (*self.fields, *self.fixed, *self.free) for count in range(len(path)))

    def is_free(self, path: Path) -> bool:
        is_known = self.read is None or len(path) <= self.depth or path[self.depth] in self.read
        return path in self.free or not is_known


def form(fields: Mapping[str, Field], *fixed: str, free: Iterable[str] = (), read: Optional[frozenset[str]] = None,
         depth: int = 0) -> Form:
    """Of paths whose keys stand between dots, as snake_case has them; a dot within a key is a hyphen there."""
    def split(paths: Iterable[str]) -> frozenset[Path]:
        return frozenset(tuple(path.split(".")) for path in paths)
    return Form({tuple(path.split(".")): one for path, one in fields.items()}, split(fixed), split(free), read, depth)


class Item(NamedTuple):
    """A tuple of a line: the groups of its parts, and of the relation of its user, 0 where it has none; and what is said of it alone."""

    goal: tuple[int, ...]
    user_relation: int
    names: tuple[str, ...]
    rest: tuple[int, ...]

    def said(self, found: re.Match[bytes]) -> dict[str, Optional[bytes]]:
        return dict(zip(self.names, map(found.group, self.rest)))


def item_of(groups: dict[str, int]) -> Item:
    """Takes the groups of a tuple out of those that are named."""
    goal = tuple(groups.pop(name) for name in GOAL)
    return Item(goal, groups.pop(USER_RELATION, 0), tuple(groups), tuple(groups.values()))


class Shape:
    """An expression for lines, and the places of its groups."""

    __slots__ = ("match", "quotes", "is_steady", "items", "goal", "rest", "names", "time", "epoch", "sequence", "hits", "looks", "kind", "sides")

    def __init__(self, match: Callable[[bytes], Optional[re.Match[bytes]]], quotes: int, is_steady: bool, line: dict[str, int],
                 items: Iterable[dict[str, int]]):
        """The groups by their names: those of the line, and of each of its items. A line has so many quotation marks; of one that is steady
        all have."""
        self.match, self.quotes, self.is_steady = match, quotes, is_steady
        line.pop(CALL_ID, 0)
        # 0 where the lines have none
        self.time, self.epoch, self.sequence = (line.pop(name, 0) for name in ("time", "epoch", "sequence"))
        self.items = [item_of(line)._replace(names=(), rest=())] if GOAL[0] in line else [item_of(one) for one in items]
        self.goal = self.items[0].goal
        self.names, self.rest = tuple(line), tuple(line.values())
        self.hits = 0
        # of a block, by the values of `rest`
        self.looks: dict[tuple[Any, ...], int] = {}
        self.kind = "check"
        # of each tuple of writes whether it is the first of its write, and whether it is added
        self.sides: list[tuple[bool, bool]] = []

    def said(self, found: re.Match[bytes]) -> dict[str, Optional[bytes]]:
        """What a line says beside its goal, by names."""
        return dict(zip(self.names, map(found.group, self.rest)))


def needed(said: Said, name: str) -> bytes:
    """A value that a line has to say."""
    value = said[name]
    assert value is not None
    return value


def _key(text: bytes) -> str:
    """A key as the paths of forms have it."""
    return re.sub("[A-Z]", lambda found: "_" + found[0].lower(), text.decode()).replace(".", "-")


def _places(raw: bytes) -> Iterator[tuple[Path, int, int]]:
    """The values of a line of JSON without escapes, and where they stand; of objects and lists the first letter alone."""
    path: list[Any] = []
    for token in TOKEN.finditer(raw):
        mark = token[1]
        if mark in (b"}", b"]"):
            path.pop()
        elif mark == b",":
            path[-1] = path[-1] + 1 if isinstance(path[-1], int) else None
        elif mark != b":":
            if path and path[-1] is None:
                path[-1] = _key(token[2])
                continue
            yield tuple(map(str, path)), token.start(), token.end()
            if mark:
                path.append(None if mark == b"{" else 0)


def _item_at(path: Path, holders: frozenset[Path]) -> tuple[Path, Path]:
    """The place of the item of a list that a key stands in, and its path without that; nothing and the path where it stands in none."""
    for at, part in enumerate(path):
        if part.isdigit() and (*path[:at], ITEM) in holders:
            return path[:at + 1], (*path[:at], ITEM, *path[at + 1:])
    return (), path


def shape_of(raw: bytes, given: Form) -> Optional[Shape]:
    """The shape of a line that was read; None where it has a key that is not known, an unusual value, or a carriage return within."""
    if b"\\" in raw or b"\r" in raw:
        return None
    parts: list[bytes] = []
    groups: dict[Path, dict[str, int]] = {}
    at, count, holders, is_steady = 0, 0, given.holders, True
    for path, start, end in _places(raw):
        value = raw[start:end]
        item, key = _item_at(path, holders)
        is_free = given.is_free(path)
        taken = UNREAD if is_free else given.fields.get(key)
        if value in (b"{", b"["):
            if key not in holders and not is_free:
                return None
        elif taken is not None and (is_free or value != b"null"):
            if taken is not SAME_CALL and not re.fullmatch(taken.pattern, value):
                return None
            parts += [re.escape(raw[at:start]), taken.pattern]
            is_steady &= taken.is_steady
            for name in taken.names:
                count += 1
                if groups.setdefault(item, {}).setdefault(name, count) != count:
                    return None
            at = end
        elif taken is None and key not in given.fixed:
            return None
    line = groups.pop((), {})
    goals = [line] if GOAL[0] in line else list(groups.values())
    if not goals or not all(set(GOAL) <= one.keys() for one in goals) or GOAL[0] in line and groups:
        return None
    match = re.compile(b"".join(parts) + re.escape(raw[at:])).fullmatch
    return Shape(match, raw.count(QUOTE), is_steady, line, groups.values())


def flat_expression(raw: bytes, fixed: frozenset[str]) -> Optional[Callable[[bytes], Optional[re.Match[bytes]]]]:
    """For lines that differ from this one in plain values of other keys than these; none where it has anything else."""
    if b"\\" in raw or b"\r" in raw:
        return None
    parts, at = list[bytes](), 0
    for path, start, end in _places(raw):
        if len(path) > 1 or path and raw[start:end] in (b"{", b"["):
            return None
        if path and path[0] not in fixed:
            if not re.fullmatch(FREE, raw[start:end]):
                return None
            parts += [re.escape(raw[at:start]), FREE]
            at = end
    return re.compile(b"".join(parts) + re.escape(raw[at:])).fullmatch


class Shapes:
    """The shapes that are known, the usual ones first."""

    def __init__(self, *listed: Shape):
        self.listed = list(listed)
        # by the number of quotation marks of a line the shapes that it may have, the likely ones first; and those that lines of any
        # number may have
        self.by_quotes: dict[int, list[Shape]] = {}
        self.others: list[Shape] = []
        self.sort()

    def add(self, shape: Shape) -> None:
        self.listed.append(shape)
        self.sort()

    def sort(self) -> None:
        self.listed.sort(key=lambda shape: -shape.hits)
        self.others[:] = [shape for shape in self.listed if not shape.is_steady]
        for quotes in {shape.quotes for shape in self.listed}:
            self.by_quotes[quotes] = [shape for shape in self.listed if shape.quotes == quotes] + [
                shape for shape in self.others if shape.quotes != quotes]
