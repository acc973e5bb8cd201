"""The lines of a file, many at a time."""
from typing import Iterator, Optional, Protocol

from new_enemy_tools import limits
from new_enemy_tools.files import split_joined

BLOCK = 1 << 18


class Source(Protocol):
    """What bytes are read from: at most so many at a time, and none at the end."""

    def read(self, size: int) -> bytes: ...


class Blocks:
    """The lines of a file in blocks of whole lines, each with its newline, up to the first that is too long.

    Of that one the bytes stand in `too_long` that are too many by one; nothing behind it is read, as no audit would read it.
    A trace ends before a line `---`; what was read behind it is `rest`, and None where there is no such line.
    """

    def __init__(self, file: Source, given: bytes = b"", is_trace: bool = False):
        self.file = file
        self.given = given
        self.is_trace = is_trace
        self.too_long = b""
        self.rest: Optional[bytes] = None

    def __iter__(self) -> Iterator[bytes]:
        for block in self._whole():
            if self.is_trace and b"---\n" in block:
                block, behind = split_joined(block)
                self.rest = None if behind is None else behind + self.given
            block = self._up_to_long(block)
            if block:
                yield block
            if self.too_long or self.rest is not None:
                return

    def _whole(self) -> Iterator[bytes]:
        """What is read, cut behind newlines; the last line gets one where it has none."""
        given = self.given
        while True:
            more = self.file.read(BLOCK)
            given += more
            end = given.rfind(b"\n") + 1
            if not more or len(given) - end > limits.LINE_BYTES:
                break
            block, given = given[:end], given[end:]
            self.given = given
            if block:
                yield block
        self.given = b""
        if given:
            yield given if given.endswith(b"\n") else given + b"\n"

    def _up_to_long(self, block: bytes) -> bytes:
        if len(block) - 1 <= limits.LINE_BYTES:
            return block
        start = 0
        while start < len(block):
            end = block.index(b"\n", start)
            if end - start > limits.LINE_BYTES:
                self.too_long = block[start:start + limits.LINE_BYTES + 1] + b"\n"
                return block[:start]
            start = end + 1
        return block
