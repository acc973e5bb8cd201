"""Lines in the order of their stamps: sorted batches in a file; only those are in memory that the order has come to."""
import marshal
from heapq import heappop, heappush
from itertools import islice
from typing import Any, Callable, Iterable, Iterator

from new_enemy_tools.importing.checks import Row
from new_enemy_tools.importing.events import Entry, Event, Line
from new_enemy_tools.importing.spool import BATCH, Spool, line_of, row_of

# A number, or several.
Stamp = Any


def sorted_lines(given: Iterable[Line], stamp_of: Callable[[Line], Stamp]) -> Iterator[Line]:
    """As `sorted` has them. Lines of a log stand almost in their order, so few batches of it reach over one another."""
    spool, firsts, rules = Spool(), list[Stamp](), list[Event]()
    lines = iter(given)
    while batch := sorted(islice(lines, BATCH), key=stamp_of):
        firsts.append(stamp_of(batch[0]))
        spool.add_batch(marshal.dumps([_row_of(line, rules) for line in batch]))
    heap: list[tuple[Stamp, int, int, Line, Iterator[Row]]] = []
    # the batches that are still in the file, the first of them at the end
    waiting = sorted(range(len(firsts)), key=firsts.__getitem__, reverse=True)
    while waiting or heap:
        while waiting and (not heap or firsts[waiting[-1]] <= heap[0][0]):
            number = waiting.pop()
            _push(heap, number, 0, iter(marshal.loads(spool.batch(number))), stamp_of, rules)
        _, number, place, line, rest = heappop(heap)
        yield line
        _push(heap, number, place + 1, rest, stamp_of, rules)


def _push(heap: list[tuple[Stamp, int, int, Line, Iterator[Row]]], number: int, place: int, rows: Iterator[Row],
          stamp_of: Callable[[Line], Stamp], rules: list[Event]) -> None:
    """The next line of a batch; of two with one stamp the one that stands first is given first."""
    for row in islice(rows, 1):
        found = rules[row[1]] if row[0] == "rules" else line_of(row)
        line: Line = Entry._make(found) if isinstance(found, tuple) else found
        heappush(heap, (stamp_of(line), number, place, line, rows))


def _row_of(line: Line, rules: list[Event]) -> Row:
    """The row of a line; rules have none."""
    if not isinstance(line, Event) or line.kind != "rules":
        return row_of(line)
    rules.append(line)
    return "rules", len(rules) - 1
