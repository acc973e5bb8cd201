"""Reads along with HTTP/1.1 messages on their way, whole or in pieces as they come.

It is strict: what a service might read in another way is no message here, so that no answer is taken for that of another request.
"""
import re
from functools import lru_cache
from posixpath import normpath
from typing import Callable, Optional
from urllib.parse import unquote

# A longer head, or a line of a chunk, is none that is read along.
HEAD = 64 << 10
# Of a longer body nothing is kept.
BODY = 16 << 20
NAME = re.compile(rb"[!#$%&'+*.^_`|~0-9A-Za-z-]+")
# A line that ends in one way, and has no other sign that some read as an end.
STRAY = re.compile(rb"(?<!\r)\n|\r(?!\n|\Z)|\x00")
# The first line of a request that is read along.
REQUEST = re.compile(rb"[!#$%&'+*.^_`|~0-9A-Za-z-]+ [!-~]+ HTTP/1\.[01]")
CONTROL = re.compile(rb"[\x00-\x08\x0a-\x1f\x7f]")
# A head in which all is as it should be; and the headers that are read of it.
PLAIN = re.compile(rb"[!#$%&'+*.^_`|~0-9A-Za-z-][^\x00-\x08\x0a-\x1f\x7f]*(?:\r\n[!#$%&'+*.^_`|~0-9A-Za-z-]+:[^\x00-\x08\x0a-\x1f\x7f]*)*\r\n\r\n")
READ = re.compile(rb"\r\n(content-length|content-encoding|transfer-encoding|expect|x-content-(?:save|version|token)):([^\r]*)", re.IGNORECASE)
SIZE = re.compile(rb"([0-9A-Fa-f]{1,15})[ \t]*(?:;.*)?", re.DOTALL)
Raw = Callable[[bytes], None]


class Strange(Exception):
    """Something that is no HTTP/1.1, or none that is read along."""


def _refuse_field(line: bytes) -> None:
    """Raises Strange of a header, or of a trailer, that is none."""
    name, colon, value = line.partition(b":")
    if not colon:
        raise Strange("a header without a colon")
    if not NAME.fullmatch(name):
        raise Strange("a header whose name has blanks or other signs")
    if CONTROL.search(value):
        raise Strange("a header with a sign that is no text")


class Head:
    """The first line of a message and the headers that are read, by their names in small letters; of one that stands twice the last, and its name."""

    def __init__(self, raw: bytes, is_plain: bool = False):
        self.first, *rest = raw.split(b"\r\n", 1 if is_plain else -1)
        self.words = self.first.decode("latin-1").split(" ", 2)
        if len(self.words) < 2:
            raise Strange("a first line of fewer than two words")
        for one in () if is_plain else rest:
            _refuse_field(one)
        self.values: dict[str, bytes] = {}
        self.twice: list[str] = []
        for name, value in READ.findall(raw):
            key = name.decode().lower()
            if key in self.values:
                self.twice.append(key)
            self.values[key] = value.strip(b" \t")

    @property
    def is_request(self) -> bool:
        return REQUEST.fullmatch(self.first) is not None

    def text(self, name: str) -> Optional[str]:
        value = self.values.get(name)
        return None if value is None else value.decode("latin-1")

    def length(self) -> Optional[int]:
        """How long the body is by its header; None where no header says so, -1 where it comes in chunks."""
        given, coding = self.values.get("content-length"), self.values.get("transfer-encoding")
        if "content-length" in self.twice or "transfer-encoding" in self.twice or given is not None and coding is not None:
            raise Strange("a message that says twice how long it is")
        if coding is not None:
            # A reader of HTTP/1.0 may pass over it.
            if coding.lower() != b"chunked" or b"HTTP/1.0" in self.first:
                raise Strange("a transfer-encoding that is not read along")
            return -1
        if given is None:
            return None
        if not given.isdigit() or len(given) > 15:
            raise Strange("a content-length that is no number")
        return int(given)


@lru_cache(256)
def path_of(target: str) -> str:
    """The path that a request names, as services or what stands before them may read it: decoded, without a query, a fragment, the name of
    a host, or steps that lead back."""
    path = target.split("#")[0].split("?")[0]
    if not path.startswith("/"):
        path = "/" + (path.partition("://")[2].partition("/")[2] if "://" in path else path)
    return normpath(unquote(path))


@lru_cache(256)
def loose(path: str) -> str:
    """A path as the most lenient service may read it."""
    for _ in range(2):
        path = unquote(path)
    return normpath(path.replace("\\", "/")).lower()


class Messages:
    """The messages of one side. `begun` is told each head and answers how long its body is, as `Head.length` does; `ended` the body; and
    `raw` each piece of a message as it came, behind its head."""

    def __init__(self, begun: Callable[[Head], Optional[int]], ended: Callable[[Optional[bytes]], None], raw: Raw = lambda data: None,
                 most: Callable[[], int] = lambda: BODY):
        self.begun, self.ended, self.raw, self.most = begun, ended, raw, most
        # what has come, and how much of it was cut off: what is left is copied once for all that comes at once
        self.data, self.at = b"", 0
        self.left: Optional[int] = None
        self.body = bytearray()
        # whether bodies are kept, which `begun` may say of each
        self.is_wanted = self.is_kept = True
        # up to where what is left has no stray end of a line
        self.seen = 0
        self._step: Callable[[], bool] = self._head

    def feed(self, data: bytes) -> None:
        """Takes bytes as they came; raises Strange."""
        self.data += data
        try:
            while self.at < len(self.data) and self._step():
                pass
        finally:
            self.data, self.at = self.data[self.at:], 0

    def end(self) -> None:
        """The side has ended; so has a body that goes on to the end."""
        if self._step == self._to_end:
            self._finish()

    def _left(self) -> int:
        """How much has come and is still here."""
        return len(self.data) - self.at

    def _cut(self, count: int) -> bytes:
        found = self.data[self.at:self.at + count]
        self.at, self.seen = self.at + count, 0
        return found

    def _begins(self, text: bytes) -> bool:
        return self.data.startswith(text, self.at)

    def _find(self, end: bytes) -> int:
        """How long a line or a head is; -1 where the end has not come. What has been looked at is not looked at again."""
        at = self.data.find(end, self.at + max(0, self.seen - len(end)))
        stray = STRAY.search(self.data, self.at + max(0, self.seen - 1), at if at >= 0 else len(self.data))
        if stray:
            raise Strange("a line with a stray end in it")
        if at < 0:
            self.seen = self._left()
            if self.seen > HEAD:
                raise Strange("a line of more than %d bytes" % HEAD)
            return -1
        return at - self.at

    def _head(self) -> bool:
        # Most come whole.
        plain = None if self.seen else PLAIN.match(self.data, self.at)
        at = plain.end() - self.at - 4 if plain else self._end_of_head()
        if at < 0:
            return False
        # Where it is strange, nothing of it is taken.
        length, behind = self.begun(Head(self.data[self.at:self.at + at], plain is not None)), at + 4
        self.is_kept = self.is_wanted
        if length is not None and 0 <= length <= BODY and self._left() >= behind + length:
            whole = self._cut(behind + length)
            self.raw(whole)
            self.ended(whole[behind:])
            return True
        self.raw(self._cut(behind))
        self.left = length
        self._step = self._to_end if length is None else self._chunk if length < 0 else self._counted
        return True

    def _end_of_head(self) -> int:
        while self._begins(b"\r\n"):
            self.raw(self._cut(2))
        if self._left() and not NAME.match(self.data, self.at):
            if self._left() == 1 and self._begins(b"\r"):
                return -1
            raise Strange("a first line that begins with no word")
        return self._find(b"\r\n\r\n")

    def _take(self, count: int) -> int:
        """Moves at most so many bytes to the body."""
        taken = self._cut(min(count, self._left()))
        if self.is_kept:
            self.body += taken
            if len(self.body) > self.most():
                self.body, self.is_kept = bytearray(), False
        self.raw(taken)
        return len(taken)

    def _counted(self) -> bool:
        assert self.left is not None
        self.left -= self._take(self.left)
        return self.left == 0 and self._finish()

    def _to_end(self) -> bool:
        self._take(self._left())
        return False

    def _line(self) -> Optional[bytes]:
        at = self._find(b"\r\n")
        if at < 0:
            return None
        found = self._cut(at + 2)
        self.raw(found)
        return found[:-2]

    def _chunk(self) -> bool:
        line = self._line()
        if line is None:
            return False
        found = SIZE.fullmatch(line)
        if not found:
            raise Strange("a chunk without its length")
        self.left = int(found[1], 16)
        self._step = self._chunk_data if self.left else self._trailer
        return True

    def _chunk_data(self) -> bool:
        assert self.left is not None
        self.left -= self._take(self.left)
        if self.left or self._left() < 2:
            return False
        if not self._begins(b"\r\n"):
            raise Strange("a chunk that is longer than it says")
        self.raw(self._cut(2))
        self._step = self._chunk
        return True

    def _trailer(self) -> bool:
        line = self._line()
        if line is None:
            return False
        if line:
            _refuse_field(line)
            if READ.match(b"\r\n" + line):
                # Some put trailers to the headers.
                raise Strange("a trailer that says what a header says")
        return bool(line) or self._finish()

    def _finish(self) -> bool:
        body = bytes(self.body) if self.is_kept else None
        self.body, self._step = bytearray(), self._head
        self.ended(body)
        return True
