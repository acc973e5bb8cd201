"""Spreads a block of lines over the parts."""
from array import array
from typing import NamedTuple, Sequence

from new_enemy_tools.parting.placing import EVERYWHERE, Objects, line_of, object_of
from new_enemy_tools.trace_lines import OBJECTS as ENTRIES, RECORDS

JOINED = 1 << 22


class Spread(NamedTuple):
    """A block of lines, as it stands in the parts."""

    # of each part, pieces of bytes that have, one behind the other, as many lines as the block
    pieces: list[list[bytes]]
    # of a trace, the part of each line
    table: "array[int]"


class Spreader:
    """The lines of a block, put one behind the other. Each stands in its part or everywhere, and is blank elsewhere."""

    def __init__(self, parts: int):
        # those of no part are there for the numbers' sake
        self.pieces: list[list[bytes]] = [[] for _ in range(parts + 1)]
        # how many lines each part has
        self.lines = [0] * (parts + 1)
        # how many bytes stand everywhere
        self.shared = 0

    def put(self, before: int, part: int, line: bytes) -> None:
        """Puts a line of one part, behind so many lines."""
        self.pieces[part] += b"\n" * (before - self.lines[part]), line
        self.lines[part] = before + 1

    def put_everywhere(self, before: int, lines: bytes, count: int = 1) -> None:
        """Puts so many lines of every part, behind so many."""
        self.shared += len(lines)
        for part in range(1, len(self.pieces)):
            self.pieces[part] += b"\n" * (before - self.lines[part]), lines
            self.lines[part] = before + count

    def spread(self, lines: int, table: "array[int]") -> Spread:
        """What the parts have, each of so many lines; joined, but for much that stands everywhere, which is kept once."""
        pieces = self.pieces[1:]
        for part, blank in zip(pieces, self.lines[1:]):
            part.append(b"\n" * (lines - blank))
        is_little = self.shared * len(pieces) <= JOINED
        return Spread([[b"".join(part)] for part in pieces] if is_little else pieces, table)


def spread_trace(parts: int, objects: Objects, block: bytes) -> Spread:
    spreader, table, number = Spreader(parts), array("H"), 0
    pieces, ends = spreader.pieces, spreader.lines
    for line, thing, other in ENTRIES.findall(block):
        if thing:
            # as `put`, without a call
            part = objects[thing]
            pieces[part] += b"\n" * (number - ends[part]), line
            table.append(part)
            number += 1
            ends[part] = number
            continue
        count = line.count(b"\n") or 1
        found = object_of(other)
        part = EVERYWHERE if found is None else objects[found]
        if part == EVERYWHERE:
            spreader.put_everywhere(number, line or other, count)
        else:
            spreader.put(number, part, other)
        table.extend([part] * count)
        number += count
    return spreader.spread(number, table)


def spread_evidence(parts: int, table: Sequence[int], block: bytes) -> Spread:
    """Spreads records, by a table of the part of each line of the trace."""
    spreader, number, count = Spreader(parts), 0, len(table)
    pieces, ends = spreader.pieces, spreader.lines
    for record, text, other in RECORDS.findall(block):
        if not text and record:
            number += record.count(b"\n")
            continue
        line = line_of(other) if other else int(text)
        part = table[line] if line is not None and line < count else EVERYWHERE
        if part == EVERYWHERE:
            spreader.put_everywhere(number, record or other)
        else:
            # as `put`, without a call
            pieces[part] += b"\n" * (number - ends[part]), record or other
            ends[part] = number + 1
        number += 1
    return spreader.spread(number, array("H"))
