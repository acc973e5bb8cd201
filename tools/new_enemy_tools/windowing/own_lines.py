"""The own lines of a window: those of a file, which is not to change while it is read."""
import os
from functools import reduce
from typing import BinaryIO, Iterator, Optional

from new_enemy_tools import limits, trace_lines
from new_enemy_tools.faults import WindowFault
from new_enemy_tools.parting.blocks import Blocks
from new_enemy_tools.trace_lines import Counted, commit_at, counted_in, kind_of
from new_enemy_tools.trace_pieces import START

# A line of the log: its number, and its bytes.
Numbered = tuple[int, bytes]


class Own:
    def __init__(self, path: str, counted: Optional[Counted] = None):
        """What is counted in the lines is not counted again."""
        self.path, self._counted = path, counted
        with open(path, "rb") as file:
            if file.read(len(START)) == START:
                raise WindowFault("%s: the trace is in pieces, since it has more bytes than one program takes; give a shorter stretch of the log" % path)
            self._seen = _stamp(file)

    @property
    def size(self) -> int:
        return self._seen[0]

    def open(self) -> BinaryIO:
        return open(self.path, "rb")

    def blocks(self) -> Iterator[bytes]:
        with self.open() as file:
            yield from Blocks(file)

    def count(self) -> int:
        return sum(block.count(b"\n") for block in self.blocks())

    @property
    def counted(self) -> Counted:
        if self._counted is None:
            self._counted = reduce(Counted.plus, map(counted_in, self.blocks()), Counted())
        return self._counted

    def strata(self) -> dict[tuple[str, str], int]:
        """The strata of relations, where the first line says that they are others than in the windows before."""
        with self.open() as file:
            return strata_in(file.readline(limits.LINE_BYTES + 1))

    def first_commit(self) -> Optional[int]:
        """The timestamp of the first commit."""
        for block in self.blocks():
            for raw in block.split(b"\n")[:-1]:
                if b"commit" in raw and (at := commit_at(raw)) is not None:
                    return at
        return None

    def refuse_changed(self) -> None:
        with self.open() as file:
            if _stamp(file) != self._seen:
                raise WindowFault("%s changed while it was read: give a copy, or the part that is complete" % self.path)

    def numbered(self, before: int, lines: set[int]) -> dict[int, bytes]:
        """Some lines by their numbers in the log, of which so many came before."""
        found: dict[int, bytes] = {}
        low = before
        wanted = sorted((line for line in lines if line > before), reverse=True)
        for block in self.blocks() if wanted else ():
            high = low + block.count(b"\n")
            if wanted[-1] <= high:
                raws = block.split(b"\n")
                while wanted and wanted[-1] <= high:
                    line = wanted.pop()
                    found[line] = raws[line - low - 1]
            if not wanted:
                break
            low = high
        return found

    def but_checks(self, before: int) -> Iterator[tuple[str, Numbered]]:
        """The rules, commits and content checks by their kinds, each with its number in the log."""
        line = before
        for block in self.blocks():
            for line, raw in enumerate(block.split(b"\n")[:-1], line + 1):
                kind = kind_of(raw)
                if kind not in ("", "check"):
                    yield kind, (line, raw)


def strata_in(line: bytes) -> dict[tuple[str, str], int]:
    return {(name, relation): stratum for name, relation, stratum in trace_lines.strata_in(line)}


def _stamp(file: BinaryIO) -> tuple[int, int]:
    found = os.fstat(file.fileno())
    return found.st_size, found.st_mtime_ns
