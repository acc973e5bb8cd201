"""A trace in pieces, where it has more bytes than one program takes.

The pieces of TRACE are TRACE.1, TRACE.2 and so on; one behind the other they are the trace. TRACE itself is then an index of one line,
which tells how many bytes each piece has, with a digest of them. Each piece but the last ends within a line, so that no program takes
one for a trace, as it takes no index.
"""
import json
import os
from contextlib import suppress
from types import TracebackType
from typing import TYPE_CHECKING, BinaryIO, Callable, NamedTuple, Optional

from new_enemy_tools.faults import PartsFault, ToolFault, naming

if TYPE_CHECKING:
    from hashlib import blake2b

START = b'{"kind":"pieces",'
FORMAT = 1
# A cut has at most so many parts, and an index so many pieces, of less than 100 bytes each.
MOST_PARTS = 999
INDEX_BYTES = 1 << 17
# A line has more than its last braces in so many bytes.
LEAST_BYTES = 1_000
ENDS = b"}\n"
BLOCK = 1 << 20


def _digest() -> "blake2b":
    # It takes long to load, and most commands do not need it.
    from hashlib import blake2b
    return blake2b(digest_size=16)


def digest_of(*paths: str) -> str:
    """The checksum of some files, one behind the other."""
    digest = _digest()
    for path in paths:
        with open(path, "rb") as file:
            while data := file.read(BLOCK):
                digest.update(data)
    return digest.hexdigest()


class InPieces(ToolFault):
    """A trace in pieces, given to what takes a trace as one file."""

    def __init__(self, path: str):
        super().__init__("%s: the trace is in pieces, since it has more bytes than one program takes" % path)
        self.details = ["cut it into parts: tools/ne parts cut N %s FOLDER" % path,
                        "and give one of its parts, as FOLDER/part1.trace, whose lines have the numbers of the whole"]


class Piece(NamedTuple):
    path: str
    bytes: int
    digest: str


def piece_path(path: str, number: int) -> str:
    """Of the trace at a path, the piece of a number, from 1."""
    return "%s.%d" % (path, number)


def refuse_pieces(path: str, data: bytes) -> None:
    """Raises InPieces where what a trace's file has is an index of pieces."""
    if data.startswith(START):
        raise InPieces(path)


def pieces_of(path: str) -> Optional[list[Piece]]:
    """The pieces of a trace; None where it is one file. Raises PartsFault where the index is none."""
    with open(path, "rb") as file:
        if file.read(len(START)) != START:
            return None
        data = START + file.read(INDEX_BYTES)
    try:
        value = json.loads(data)
        if value["format"] != FORMAT or not 1 <= len(value["pieces"]) <= MOST_PARTS:
            raise ValueError
        pieces = [Piece(piece_path(path, number), one["bytes"], one["digest"]) for number, one in enumerate(value["pieces"], 1)]
        if not all(type(one.bytes) is int and isinstance(one.digest, str) for one in pieces):
            raise ValueError
    except (ValueError, TypeError, KeyError):
        raise PartsFault("%s is no index of the pieces of a trace" % path) from None
    return pieces


class PiecesReader:
    """The bytes of pieces, one behind the other; raises PartsFault where one is missing, or is not as it was written."""

    def __init__(self, pieces: list[Piece]):
        for piece in pieces:
            if not os.path.exists(piece.path):
                raise PartsFault("%s is not there, which is a piece of the trace" % piece.path)
            if os.path.getsize(piece.path) != piece.bytes:
                raise PartsFault("%s has %d bytes, and the piece that was written has %d"
                                 % (piece.path, os.path.getsize(piece.path), piece.bytes))
        self._left = list(reversed(pieces))
        self._file: Optional[BinaryIO] = None
        self._digest = _digest()

    def read(self, size: int) -> bytes:
        """The next bytes, at most so many; none at the end."""
        # as often as there are pieces
        while self._left:
            piece = self._left[-1]
            if self._file is None:
                self._file = open(piece.path, "rb")
            data = self._file.read(size)
            if data:
                self._digest.update(data)
                return data
            self.close()
            if self._digest.hexdigest() != piece.digest:
                raise PartsFault("%s is another piece than the one that was written with its index" % piece.path)
            self._digest = _digest()
            self._left.pop()
        return b""

    def close(self) -> None:
        if self._file is not None:
            self._file.close()
            self._file = None

    def __enter__(self) -> "PiecesReader":
        return self

    def __exit__(self, _kind: Optional[type[BaseException]], _fault: Optional[BaseException], _trace: Optional[TracebackType]) -> None:
        self.close()


class PiecesWriter:
    """Writes a trace: one file, or pieces of at most so many bytes. Nothing has its name before `keep`."""

    def __init__(self, path: str, most: int):
        self.path, self.most = path, most
        self.size = 0
        self.pieces: list[Piece] = []
        # pieces that have their names, while the trace has not
        self._named: list[str] = []
        self._file: BinaryIO = open(self._beside(1), "wb")
        self._written = 0
        # The last lines wait: where no more come, they may fill a piece to its end.
        self._held = b""

    def write(self, lines: bytes) -> None:
        """Takes whole lines."""
        if lines:
            self._put(self._held, True)
            self._held = lines

    def end(self) -> None:
        """What was held is written, and the last file is closed. One file has no index, and needs no digest."""
        self._put(self._held, False)
        self._close()
        if len(self.pieces) > 1:
            self.pieces = [piece._replace(digest=digest_of(self._beside(number))) for number, piece in enumerate(self.pieces, 1)]

    def _put(self, data: bytes, has_more: bool) -> None:
        # each time a piece is filled, but for the braces of a line's end
        while len(data) + has_more > self.most - self._written:
            end = self.most - self._written
            while end > 1 and data[end - 1] in ENDS:
                end -= 1
            self._append(data[:end])
            data = data[end:]
            self._next()
        self._append(data)

    def _append(self, data: bytes) -> None:
        with naming(self.path):
            self._file.write(data)
        self._written += len(data)
        self.size += len(data)

    def _close(self) -> None:
        with naming(self.path):
            self._file.close()
        self.pieces.append(Piece(piece_path(self.path, len(self.pieces) + 1), self._written, ""))

    def _next(self) -> None:
        self._close()
        if len(self.pieces) == MOST_PARTS:
            raise ToolFault("the trace has more than %d pieces of %d bytes, and a cut has no more parts" % (MOST_PARTS, self.most))
        self._file = open(self._beside(len(self.pieces) + 1), "wb")
        self._written = 0

    def keep(self, before: Callable[[], None]) -> None:
        """Gives the files their names, and calls `before` before the last of them, that of the trace, is given.

        Until then what stands there is the trace that was there before; its pieces, if it has any, are refused where some are new.
        """
        old = self._old()
        if len(self.pieces) > 1:
            for number, piece in enumerate(self.pieces, 1):
                os.replace(self._beside(number), piece.path)
                self._named.append(piece.path)
            with naming(self.path), open(self.path + ".part", "w", encoding="utf-8") as file:
                listed = [{"bytes": piece.bytes, "digest": piece.digest} for piece in self.pieces]
                file.write(START.decode() + json.dumps({"format": FORMAT, "pieces": listed}, separators=(",", ":"))[1:] + "\n")
        before()
        os.replace(self.path + ".part", self.path)
        self._named = []
        for piece in old[len(self.pieces) if len(self.pieces) > 1 else 0:]:
            with suppress(FileNotFoundError):
                os.remove(piece.path)

    def _old(self) -> list[Piece]:
        """The pieces of the trace that stood there before."""
        try:
            return pieces_of(self.path) or []
        except (PartsFault, FileNotFoundError):
            return []

    def remove(self) -> None:
        """Takes away what was not kept."""
        self._file.close()
        for path in self._named + [self._beside(number) for number in range(1, len(self.pieces) + 2)]:
            with suppress(FileNotFoundError):
                os.remove(path)

    def _beside(self, number: int) -> str:
        """Where a piece stands for now; the first may be all of the trace."""
        return (self.path if number == 1 else piece_path(self.path, number)) + ".part"
