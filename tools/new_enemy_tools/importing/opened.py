"""Logs that are read as they are, or unpacked where they are compressed by gzip."""
import errno
import gzip
import zlib
from typing import IO, Any, Iterator

MAGIC = b"\x1f\x8b"


class Unpacked(gzip.GzipFile):
    """What a compressed file has; reading raises OSError where it is cut or changed."""

    def _tried(self, work: Any, *given: Any) -> Any:
        try:
            return work(*given)
        except (EOFError, zlib.error, gzip.BadGzipFile):
            raise OSError(errno.EIO, "it is compressed, and was cut or changed", self.name) from None

    def read(self, size: Any = -1) -> bytes:
        found: bytes = self._tried(super().read, size)
        return found

    def readline(self, size: Any = -1) -> bytes:
        found: bytes = self._tried(super().readline, size)
        return found

    def __iter__(self) -> Iterator[bytes]:
        while line := self.readline():
            yield line


def opened(path: str) -> IO[bytes]:
    """A file to read; of a compressed one what it has. A pipe is never looked into."""
    file: IO[bytes] = open(path, "rb")
    if not file.seekable():
        return file
    is_packed = file.read(len(MAGIC)) == MAGIC
    file.seek(0)
    if not is_packed:
        return file
    file.close()
    return Unpacked(path, "rb")  # type: ignore[return-value]
