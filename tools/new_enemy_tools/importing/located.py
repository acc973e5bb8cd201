"""JSON of a service, with the line of each object and value, from JSON lines or from a text over many lines."""
import errno
import json
import os
import re
import shutil
import tempfile
from bisect import bisect_left
from itertools import islice
from json.decoder import scanstring  # type: ignore[attr-defined]
from json.scanner import NUMBER_RE  # type: ignore[import]
from typing import IO, Any, Iterator, NamedTuple, NoReturn

from new_enemy_tools import limits
from new_enemy_tools.importing.opened import Unpacked, opened
from new_enemy_tools.importing.refusals import Refusals
from new_enemy_tools.strictjson import has_half_pair, is_nested_too_deep

try:
    import orjson  # type: ignore[import]
except ImportError:
    orjson = None  # type: ignore[assignment]

BLOCK = 1 << 20
BLANK = b" \t\r"
# Some programs put a byte order mark before a text.
MARK = b"\xef\xbb\xbf"
STRANGE = re.compile(rb'"[ \t\r]+:|[0-9]{18}|[0-9][.eE]|-0')
# OpenFGA's log has each answer of a call that streams them under this key.
STREAMED = "raw_response"
HALF = "half of a pair of code units stands alone"


class Malformed(Exception):
    def __init__(self, line: int, why: str):
        super().__init__(why)
        self.line = line


class Object(dict[str, Any]):
    """An object that knows its line and those of its values."""

    line = 0

    def __init__(self, line: int):
        super().__init__()
        self.line = line
        self.lines: dict[str, int] = {}


class List(list[Any]):
    line = 0


def line_of(value: object, default: int) -> int:
    return getattr(value, "line", default)


def line_at(value: object, key: str, default: int) -> int:
    """The line of a value of an object."""
    return value.lines.get(key, value.line) if isinstance(value, Object) else default


def _no_constant(text: str) -> None:
    raise ValueError("%s is no JSON" % text)


def _once(pairs: list[tuple[str, object]]) -> dict[str, Any]:
    made = dict(pairs)
    if len(made) != len(pairs):
        keys = [key for key, _ in pairs if key != STREAMED]
        for key in keys:
            if keys.count(key) > 1:
                raise ValueError("the key %r stands twice" % key)
        made[STREAMED] = [value for key, value in pairs if key == STREAMED]
    return made


DECODER = json.JSONDecoder(object_pairs_hook=_once, parse_constant=_no_constant)
WORDS = {"true": True, "false": False, "null": None}


class _Reader:
    def __init__(self, text: str):
        self.text = text
        self.at = 0
        self.ends = [place for place, letter in enumerate(text) if letter == "\n"]

    def line(self) -> int:
        return bisect_left(self.ends, self.at) + 1

    def fail(self, why: str) -> NoReturn:
        raise Malformed(self.line(), why)

    def skip(self) -> str:
        """Goes to the next letter that is no space, and answers it."""
        while self.at < len(self.text) and self.text[self.at] in " \t\r\n":
            self.at += 1
        return self.text[self.at:self.at + 1]

    def take(self, letter: str) -> None:
        if self.skip() != letter:
            self.fail("not JSON: %r should stand here" % letter)
        self.at += 1

    def value(self, depth: int = 0) -> object:
        letter = self.skip()
        if depth > limits.NESTING:
            self.fail("nested too deep")
        if letter == "{":
            return self.object(depth)
        if letter == "[":
            return self.list(depth)
        if letter == '"':
            return self.string()
        for word, value in WORDS.items():
            if self.text.startswith(word, self.at):
                self.at += len(word)
                return value
        found = NUMBER_RE.match(self.text, self.at)
        if not found:
            self.fail("not JSON")
        self.at = found.end()
        return json.loads(found[0])

    def string(self) -> str:
        try:
            text, self.at = scanstring(self.text, self.at + 1, True)
        except json.JSONDecodeError:
            self.fail("not JSON: a text without an end, or with a letter that has to be escaped")
        if has_half_pair(text):
            self.fail(HALF)
        return str(text)

    def object(self, depth: int) -> Object:
        made = Object(self.line())
        self.at += 1
        while self.skip() != "}":
            if made:
                self.take(",")
            if self.skip() != '"':
                self.fail("not JSON: a key should stand here")
            line, key = self.line(), self.string()
            if key in made:
                raise Malformed(line, "the key %r stands twice" % key)
            self.take(":")
            made[key] = self.value(depth + 1)
            made.lines[key] = line
        self.at += 1
        return made

    def list(self, depth: int) -> List:
        made = List()
        made.line = self.line()
        self.at += 1
        while self.skip() != "]":
            if made:
                self.take(",")
            made.append(self.value(depth + 1))
        self.at += 1
        return made


def parse(text: str) -> object:
    """One value over many lines; raises Malformed."""
    reader = _Reader(text)
    value = reader.value()
    if reader.skip():
        reader.fail("not JSON: more text behind the value")
    return value


def read_text(path: str) -> str:
    """The text of a file; raises Malformed where it is no UTF-8."""
    with open(path, "rb") as file:
        return text_of(file.read())


def text_of(data: bytes) -> str:
    try:
        return data.removeprefix(MARK).decode("utf-8")
    except UnicodeDecodeError as fault:
        raise Malformed(data.count(b"\n", 0, fault.start) + 1, "the bytes are no UTF-8") from None


def _whole_values(text: str) -> Iterator[tuple[int, object]]:
    reader = _Reader(text)
    while reader.skip():
        yield reader.line(), reader.value()


def _is_lines(data: bytes) -> bool:
    """Whether most lines look like an object each, so that a faulty one among them is refused alone."""
    filled = [line for line in map(bytes.strip, data.split(b"\n")) if line]
    return 2 * sum(line[:1] == b"{" and line[-1:] == b"}" for line in filled) >= len(filled)


def line_value(raw: bytes) -> object:
    """The value of a line; raises ValueError."""
    if is_nested_too_deep(raw):
        raise ValueError("nested too deep")
    if orjson is not None:
        try:
            value = orjson.loads(raw)
            # A line that is written back as it is has no key twice, and nothing that is read in another way.
            if orjson.dumps(value) == raw or _is_plain(raw, value):
                return value
        except ValueError:
            pass
    try:
        line = raw.decode("utf-8")
    except UnicodeDecodeError:
        raise ValueError("the bytes are no UTF-8") from None
    value = DECODER.decode(line)
    if "\\u" in line and has_half_pair(value):
        raise ValueError(HALF)
    return value


def _is_plain(raw: bytes, value: object) -> bool:
    """Whether a line with spaces has each key once, and no number that the two libraries read differently."""
    return b"\\" not in raw and not STRANGE.search(raw) and raw.count(b'":') == _pairs(value)


def _pairs(value: object) -> int:
    if isinstance(value, dict):
        return len(value) + sum(map(_pairs, value.values()))
    return sum(map(_pairs, value)) if isinstance(value, list) else 0


class Block(NamedTuple):
    """Whole lines of a file, and the number of the first."""

    first: int
    data: bytes


class Place(NamedTuple):
    """Where a block stands: the number of its first line, and from where on so many bytes."""

    first: int
    start: int
    size: int


def _unmarked(place: Place, data: bytes) -> bytes:
    return data.removeprefix(MARK) if place.start == 0 else data


class Source:
    """A file that is read several times; what comes by a pipe, and what a compressed file has, is kept in a file meanwhile."""

    def __init__(self, path: str):
        self.path = path
        self.file: IO[bytes] = opened(path)
        if not self.file.seekable() or isinstance(self.file, Unpacked):
            kept = tempfile.TemporaryFile()
            shutil.copyfileobj(self.file, kept)
            kept.flush()
            self.file = kept
        self.size = os.fstat(self.file.fileno()).st_size

    def blocks(self) -> Iterator[Block]:
        return (block for _, block in self.placed())

    def placed(self) -> Iterator[tuple[Place, Block]]:
        """Each block with its place."""
        first, start = 1, 0
        self.file.seek(0)
        while data := self.file.read(BLOCK):
            data += self.file.readline()
            place = Place(first, start, len(data))
            yield place, Block(first, _unmarked(place, data))
            first, start = first + data.count(b"\n"), start + len(data)
            self.file.seek(start)
        if start < self.size:
            raise self._cut_short()

    def block(self, place: Place) -> Block:
        """The block at a place, also for another process that has the file."""
        data = os.pread(self.file.fileno(), place.size, place.start)
        if len(data) < place.size:
            raise self._cut_short()
        return Block(place.first, _unmarked(place, data))

    def _cut_short(self) -> OSError:
        return OSError(errno.EIO, "the file was cut short while it was read", self.path)

    def is_lines(self) -> bool:
        """Whether the file has a value on each line, by its first lines."""
        return all(_is_lines(block.data) for block in islice(self.blocks(), 1))

    def values(self, refusals: Refusals) -> Iterator[tuple[int, Any]]:
        """The JSON values with their lines, whichever way they stand in the file."""
        if self.is_lines():
            for block in self.blocks():
                yield from block_values(block, self.path, refusals)
            return
        try:
            self.file.seek(0)
            yield from _whole_values(text_of(self.file.read()))
        except Malformed as fault:
            refusals.refuse(self.path, fault.line, str(fault))


def block_values(block: Block, path: str, refusals: Refusals) -> Iterator[tuple[int, object]]:
    """The JSON values of lines with their numbers; what is no JSON is refused."""
    for number, line in enumerate(block.data.split(b"\n"), block.first):
        line = line.strip(BLANK)
        if line:
            yield from line_values(number, line, path, refusals)


def line_values(number: int, line: bytes, path: str, refusals: Refusals) -> Iterator[tuple[int, object]]:
    """The JSON value of one line, or none where it is refused."""
    try:
        yield number, line_value(line)
    except ValueError as fault:
        refusals.refuse(path, number, "not JSON" if isinstance(fault, json.JSONDecodeError) else str(fault))


def values(path: str, refusals: Refusals) -> Iterator[tuple[int, Any]]:
    """The JSON values of a file with their lines; what is no JSON is refused."""
    yield from Source(path).values(refusals)
