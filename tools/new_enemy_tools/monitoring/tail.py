"""The files of one recorder's log as they grow: whole lines, behind a place, with the chain of the files looked at."""
import hashlib
import json
import os
import re
from typing import IO, Any, NamedTuple, Optional

from new_enemy_tools.faults import MonitorFault
from new_enemy_tools.importing.opened import opened
from new_enemy_tools.limits import LINE_BYTES
from new_enemy_tools.monitoring.stream import Chunk

PIECE = 1 << 20
NAME = re.compile(r"([0-9]{6,})\.jsonl(?:\.gz)?")
AS_WRITTEN = "give the file as tools/record wrote it"
START, LOG, CLOSED = b'{"event":"', b'{"event":"log"', b'{"event":"closed"'


class Place(NamedTuple):
    """Where a run begins: the number of a file, how many of its lines stand before, and the hash of the file before
    it."""

    file: int = 1
    lines: int = 0
    before: Optional[str] = None


class Tail:
    def __init__(self, folder: str, place: Place):
        self.folder = folder
        self.service: Optional[str] = None
        self.number, self.before, self._skip = place.file, place.before, place.lines
        # of each file that may be named in a place its hash of the one before
        self.befores: dict[int, Optional[str]] = {place.file: place.before}
        self._file: Optional[IO[bytes]] = None
        self._begin()

    def _begin(self) -> None:
        # up to where the file's lines were read, how many these are, and their hash
        self._at = self._count = 0
        self._hash = hashlib.sha256()
        self._is_closed = False

    def name_of(self, number: int) -> str:
        """As a log's lines are told to come from; a file that was compressed meanwhile has the same name."""
        return os.path.join(self.folder, "%06d.jsonl" % number)

    def place_at(self, file: str, line: int) -> Place:
        """The place before a line."""
        number = int(os.path.basename(file)[:-len(".jsonl")])
        return Place(number, line - 1, self.befores[number])

    def here(self) -> Place:
        """The place behind all that was read."""
        return Place(self.number, self._count, self.befores[self.number])

    def first_service(self) -> Optional[str]:
        """Of which service the log is, by the first line that is there; None where none is there yet."""
        if self.service is None and self._open():
            assert self._file is not None
            self._file.seek(0)
            line = self._file.readline(PIECE)
            self.service = str(_value(line).get("service")) if line.endswith(b"\n") else None
        return self.service

    def forget(self, before: int) -> None:
        self.befores = {number: one for number, one in self.befores.items() if number >= before}

    def read(self) -> Optional[Chunk]:
        """More whole lines; None where there are none now. Raises MonitorFault where the log is not one that goes on
        so."""
        while self._open():
            chunk = self._lines()
            if chunk is not None:
                return chunk
            if not self._is_closed:
                return None
            self._next()
        return None

    def _open(self) -> bool:
        if self._file is not None:
            return True
        path = self.name_of(self.number)
        for one in (path, path + ".gz", path):
            try:
                self._file = opened(one)
                self._begin()
                return True
            except FileNotFoundError:
                continue
        others = [int(found[1]) for found in map(NAME.fullmatch, os.listdir(self.folder)) if found]
        if any(number > self.number for number in others):
            raise MonitorFault("file %d of the log in %s is missing, and others go on from it; give it back"
                               % (self.number, self.folder))
        return False

    def _next(self) -> None:
        """Goes on with the file behind one that is closed."""
        assert self._file is not None
        self._file.close()
        self._file, self.before = None, self._hash.hexdigest()
        self.number, self._skip = self.number + 1, 0
        self.befores[self.number] = self.before
        self._begin()

    def _lines(self) -> Optional[Chunk]:
        """More lines of the file that is open, behind those before the place where this began."""
        assert self._file is not None
        path = self.name_of(self.number)
        while True:
            self._file.seek(self._at)
            data = self._file.read(PIECE)
            # What was written by half may be cut by the next recorder, and is read again.
            end = data.rfind(b"\n") + 1
            if not end:
                self._refuse_odd(path, len(data))
                return None
            first, lines = self._count + 1, data[:end]
            if self._is_closed:
                self._refuse_behind(path, first)
            self._check(path, lines, first)
            self._at += end
            self._count += lines.count(b"\n")
            chunk = self._behind(path, first, lines)
            if chunk is not None:
                return chunk

    def _behind(self, path: str, first: int, lines: bytes) -> Optional[Chunk]:
        """Without the lines before the place where this began."""
        skip = max(0, self._skip - first + 1)
        kept = lines if not skip else b"".join(lines.splitlines(True)[skip:])
        return Chunk(path, first + skip, kept) if kept else None

    def _refuse_odd(self, path: str, rest: int) -> None:
        assert self._file is not None
        if rest > LINE_BYTES:
            raise MonitorFault("%s:%d: the line is longer than %d bytes" % (path, self._count + 1, LINE_BYTES))
        if self._is_closed:
            return
        found = os.fstat(self._file.fileno())
        if found.st_size < self._at and not os.path.exists(path + ".gz"):
            raise MonitorFault("%s was cut behind line %d, and lines were read behind that; give it back as it was"
                               % (path, self._count))
        if found.st_nlink == 0 and not os.path.exists(path + ".gz"):
            raise MonitorFault("%s was taken away, or is another file now; begin another folder of the monitor" % path)

    def _check(self, path: str, lines: bytes, first: int) -> None:
        """Looks at the lines of the chain, and that each is one as a recorder writes them."""
        if not lines.startswith(START) or lines.count(b"\n" + START) + 1 != lines.count(b"\n"):
            odd = next(place for place, line in enumerate(lines.split(b"\n")) if not line.startswith(START))
            raise MonitorFault("%s:%d: the line is none that tools/record writes; give the folder as its recorder "
                               "left it" % (path, first + odd))
        if first == 1:
            self._check_head(path, lines[:lines.find(b"\n")])
        at = lines.rfind(b"\n", 0, -1) + 1
        last, closing = lines[at:], (b"\n" + lines).find(b"\n" + CLOSED)
        if 0 <= closing < at:
            self._refuse_behind(path, first + lines.count(b"\n", 0, closing) + 1)
        if not last.startswith(CLOSED):
            self._hash.update(lines)
            return
        self._hash.update(lines[:at])
        said, count = _value(last), self._count + lines.count(b"\n") - 1
        if (said.get("count"), said.get("sha256")) != (count, self._hash.hexdigest()):
            raise MonitorFault("%s:%d: the file was changed or cut after it was written: its last line tells of other "
                               "lines than these; %s" % (path, count + 1, AS_WRITTEN))
        self._is_closed = True

    @staticmethod
    def _refuse_behind(path: str, line: int) -> None:
        raise MonitorFault("%s:%d: lines stand behind the one that closes the file; %s" % (path, line, AS_WRITTEN))

    def _check_head(self, path: str, line: bytes) -> None:
        head = _value(line)
        if not line.startswith(LOG) or head.get("number") != self.number:
            raise MonitorFault("%s:1: this is no file of a recorder's log; give the folder that tools/ne record writes "
                               "(--out)" % path)
        if head.get("before") != self.before:
            raise MonitorFault("%s:1: it goes on from another file than the one before it; give the files of one log, "
                               "as tools/record wrote them" % path)


def _value(line: bytes) -> dict[str, Any]:
    try:
        value = json.loads(line)
    except ValueError:
        value = None
    return value if isinstance(value, dict) else {}
