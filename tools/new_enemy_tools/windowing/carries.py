"""A carry, as `new_enemy follow` writes it (docs/FORMATS.md): its items, and what these say as lines of a trace.

An item is kept as its bytes, since one of them has the whole store; what it says is read where somebody asks.
"""
import json
import re
from array import array
from hashlib import sha256
from typing import Iterable, Iterator, NamedTuple, Optional

from new_enemy_tools import strictjson
from new_enemy_tools.faults import WindowFault
from new_enemy_tools.trace_lines import Pair, quick_commit, quick_touch

FIRST = b"new_enemy carry 1\n"
# The last line: this, the checksum of all before it, and a newline.
SEAL = b"sha256 "
SEALED = len(SEAL) + 65
NO_BEFORE = b"no carry before"
ENTRIES = ("check", "content")
FEW, BLOCK = 16, 1 << 14
KINDS = {kind.encode(): kind for kind in ENTRIES}
# Of an entry its kind, line and snapshot, and how long its label is, which stands behind.
ENTRY = re.compile(rb"(check|content) ([0-9]+)\n(?:yes|no)\ngoal [^\n]*\nsnapshot ([0-9]+)\n(?:no zookie|zookie [^\n]*)\n(?:no version\n|version ([0-9]+) )")
# Of a commit its line and timestamp, of one that touches a tuple all of it, of others how many tuples it adds, which stand behind, each on a line.
TOUCH = re.compile(rb"commit ([0-9]+)\nat ([0-9]+)\nadds (?:1\n[^\n]*\nremoves 0|0\nremoves 1\n[^\n]*)\n")
COMMIT = re.compile(rb"commit ([0-9]+)\nat ([0-9]+)\nadds ([0-9]+)\n")


class Item(NamedTuple):
    # declaration, commit, check or content
    kind: str
    line: int
    # the timestamp of a commit or of a change of rules, -1 of other rules; of an entry its snapshot
    number: int
    text: bytes


class Carry:
    """Its items are gone over as often as somebody asks, and not kept."""

    def __init__(self, data: bytes, name: str):
        """Raises WindowFault where these bytes are no carry, or not as it was written."""
        self.data = data
        if not data.startswith(FIRST):
            raise WindowFault("%s is no carry that this version reads" % name)
        end = len(data) - SEALED
        if data[end:] != b"%s%s\n" % (SEAL, sha256(memoryview(data)[:end]).hexdigest().encode()):
            raise WindowFault("%s was cut short or altered: its checksum is another" % name)
        try:
            reader = _Reader(data, len(FIRST))
            self.lines, self.base, self.versions = map(reader.number, (b"lines", b"base", b"versions"))
            reader.before()
            self._count = reader.number(b"items")
            self._start = reader.at
            self._go_over()
        except (ValueError, KeyError, TypeError):
            raise WindowFault("%s is no carry that this version reads" % name) from None

    def _go_over(self) -> None:
        # the timestamp of the last commit or change of rules; the lines of commits and entries; and where entries stand
        self.last, self.kept, self._entries = -1, array("Q"), array("Q")
        reader = _Reader(self.data, self._start)
        for _ in range(self._count):
            start, item = reader.at, reader.item()
            if item.kind in ENTRIES:
                self._entries.append(start)
            else:
                self.last = max(self.last, item.number)
            if item.kind != "declaration":
                self.kept.append(item.line)
        if reader.at != len(self.data) - SEALED:
            raise ValueError

    def __iter__(self) -> Iterator[Item]:
        reader = _Reader(self.data, self._start)
        for _ in range(self._count):
            yield reader.item()

    def entries(self) -> Iterator[Item]:
        for start in self._entries:
            yield _Reader(self.data, start).item()

    @property
    def seal(self) -> str:
        """The checksum that its last line says."""
        return self.data[-65:-1].decode()

    def having(self, items: Iterable[Item]) -> "Carry":
        """The same with other items; it goes on from no carry."""
        return carry_of(self.lines, self.base, items, self.versions)


def carry_of(lines: int, base: int, items: Iterable[Item], versions: int = 0) -> Carry:
    texts = [item.text for item in items]
    body = b"%slines %d\nbase %d\nversions %d\n%s\nitems %d\n%s" % (FIRST, lines, base, versions, NO_BEFORE, len(texts), b"".join(texts))
    return Carry(b"%s%s%s\n" % (body, SEAL, sha256(body).hexdigest().encode()), "a carry that was made")


class _Reader:
    """Reads fields one behind the other; raises ValueError where there is another one."""

    def __init__(self, data: bytes, at: int = 0):
        self.data, self.at = data, at

    def line(self) -> bytes:
        start, self.at = self.at, self.data.index(b"\n", self.at) + 1
        return self.data[start:self.at - 1]

    def word(self, name: bytes) -> bytes:
        line = self.line()
        if not line.startswith(name + b" "):
            raise ValueError
        return line[len(name) + 1:]

    def number(self, name: bytes) -> int:
        return int(self.word(name))

    def counted(self, name: bytes = b"") -> bytes:
        """A text behind its length, which may have ends of lines."""
        if self.data[self.at:self.at + len(name)] != name:
            raise ValueError
        start = self.data.index(b" ", self.at + len(name)) + 1
        end = start + int(self.data[self.at + len(name):start - 1])
        self.at = end + 1
        return self.data[start:end]

    def optional(self, name: bytes) -> Optional[bytes]:
        if self.data.startswith(b"no " + name + b"\n", self.at):
            self.line()
            return None
        return self.counted(name + b" ")

    def before(self) -> None:
        """Passes the checksum of the carry before."""
        if self.data.startswith(NO_BEFORE + b"\n", self.at):
            self.line()
        else:
            self.counted(b"before ")

    def item(self) -> Item:
        start, data = self.at, self.data
        found = ENTRY.match(data, start)
        if found is not None:
            # A label may have ends of lines.
            self.at = found.end() + (0 if found[4] is None else int(found[4]) + 1)
            return Item(KINDS[found[1]], int(found[2]), int(found[3]), data[start:self.at])
        found = TOUCH.match(data, start)
        if found is not None:
            self.at = found.end()
            return Item("commit", int(found[1]), int(found[2]), found[0])
        found = COMMIT.match(data, start)
        if found is not None:
            self.at = found.end()
            self.skip(int(found[3]))
            self.skip(self.number(b"removes"))
            return Item("commit", int(found[1]), int(found[2]), data[start:self.at])
        line = self.number(b"declaration")
        at = strictjson.object_of(self.counted()).get("at")
        return Item("declaration", line, -1 if at is None else int(at), data[start:self.at])

    def skip(self, lines: int) -> None:
        """Passes so many lines; of the store they are many."""
        while (count := self.data.count(b"\n", self.at, self.at + BLOCK) if lines > FEW else 0) and count < lines:
            self.at, lines = self.at + BLOCK, lines - count
        for _ in range(lines):
            self.at = self.data.index(b"\n", self.at) + 1

    def entry(self, kind: str) -> strictjson.Object:
        reply = self.line()
        found: strictjson.Object = {"kind": kind, "goal": self.counted(b"goal ").decode(), "snapshot": self.number(b"snapshot"),
                                    "reply": {b"yes": True, b"no": False}[reply]}
        for name in ("zookie", "version"):
            value = self.optional(name.encode())
            if value is not None:
                found[name] = value.decode()
        return found

    def tuples(self, name: bytes) -> Iterator[bytes]:
        for _ in range(self.number(name)):
            yield self.line().partition(b" ")[2]


def raw_of(item: Item) -> bytes:
    """What an item says, as a line of a trace."""
    reader = _Reader(item.text, item.text.index(b"\n") + 1)
    if item.kind == "declaration":
        return reader.counted()
    if item.kind in ENTRIES:
        return strictjson.encode(reader.entry(item.kind)).encode()
    reader.line()
    lists = [b",".join(map(_quoted, reader.tuples(name))) for name in (b"adds", b"removes")]
    said = b"".join(b',"%s":[%s]' % one for one in zip((b"add", b"remove"), lists) if one[1])
    return b'{"kind":"commit","at":%d%s}' % (item.number, said)


def adds_as(item: Item, raw: bytes) -> bool:
    """Whether the item of a commit adds what a line does."""
    adds = touched_by(raw)[0]
    reader = _Reader(item.text, item.text.index(b"\nadds ") + 1)
    count = reader.number(b"adds")
    return count == len(adds) and set(adds) == {reader.line().partition(b" ")[2] for _ in range(count)}


def _quoted(text: bytes) -> bytes:
    if b'"' in text or b"\\" in text:
        return json.dumps(text.decode(), ensure_ascii=False).encode()
    return b'"%s"' % text


def _counted(text: bytes) -> bytes:
    return b"%d %s" % (len(text), text)


def declaration(line: int, at: int, raw: bytes) -> Item:
    return Item("declaration", line, at, b"declaration %d\n%s\n" % (line, _counted(raw)))


def commit(line: int, at: int, adds: list[bytes], removes: list[bytes]) -> Item:
    lists = [b"%s %d\n%s" % (name, len(some), b"".join(_counted(one) + b"\n" for one in some)) for name, some in ((b"adds", adds), (b"removes", removes))]
    return Item("commit", line, at, b"commit %d\nat %d\n%s" % (line, at, b"".join(lists)))


def entry(line: int, raw: bytes) -> Item:
    """Of a line of a trace that is a check or content check."""
    value = strictjson.object_of(raw)
    more = [b"no %s\n" % name.encode() if value.get(name) is None else b"%s %s\n" % (name.encode(), _counted(str(value[name]).encode()))
            for name in ("zookie", "version")]
    text = b"%s %d\n%s\ngoal %s\nsnapshot %d\n%s" % (str(value["kind"]).encode(), line, b"yes" if value["reply"] else b"no",
                                                    _counted(str(value["goal"]).encode()), value["snapshot"], b"".join(more))
    return Item(str(value["kind"]), line, int(value["snapshot"]), text)


def touched_by(raw: bytes) -> tuple[list[bytes], list[bytes]]:
    """The texts of the tuples that a commit adds and removes."""
    touch = quick_touch(raw)
    if touch is not None:
        return ([touch[0]], []) if touch[1] else ([], [touch[0]])
    quick = quick_commit(raw)
    if quick is not None:
        return _texts(quick.add), _texts(quick.remove)
    value = strictjson.object_of(raw)
    add, remove = [[text.encode() for text in value.get(key) or []] for key in ("add", "remove")]
    return add, remove


def _texts(pairs: list[Pair]) -> list[bytes]:
    return [b"%s@%s" % pair for pair in pairs]
