"""The state of a window as it was before states had carries, made into one.

It is a file: an object of JSON, a row for each line that a window was read behind, and a checksum. A row is a letter, the number of the line in the
log, a number, and the line as it is:

  r  rules, with their timestamp or -1
  f  a line of the store at the base, in the place of a commit that it replaces, with its timestamp
  c  a commit above the base, with its timestamp
  v  a content check whose version may still be named, with its window
  h  an entry that is held over, with its window
  e  the record of evidence of the entry before it, with its window; a run makes its own
"""
import json
from hashlib import blake2b
from io import BytesIO
from typing import Any, Iterable, Iterator

from new_enemy_tools.faults import WindowFault
from new_enemy_tools.files import read_bytes
from new_enemy_tools.windowing.carries import Item, carry_of, commit, declaration, entry, touched_by
from new_enemy_tools.windowing.state import Head, Row, State

FORMAT = 1
START = b'{"new_enemy_state":'
KINDS = "rfcvhe"
SUM = b"sum "


def converted(path: str) -> State:
    """Raises WindowFault where a file is no such state, or not as it was written."""
    data = read_bytes(path)
    if not data.startswith(START):
        raise WindowFault("%s is no state of a window" % path)
    end = data.rfind(b"\n", 0, len(data) - 1) + 1
    last = data[end:]
    if not last.startswith(SUM) or not last.endswith(b"\n"):
        raise WindowFault("%s is cut short: its last line is no checksum" % path)
    if last != SUM + blake2b(memoryview(data)[:end], digest_size=32).hexdigest().encode() + b"\n":
        raise WindowFault("%s was altered: its checksum is another" % path)
    lines = BytesIO(data)
    try:
        head = json.loads(lines.readline())
        if head["new_enemy_state"] != FORMAT:
            raise ValueError
        return _state_of(head, list(_rows_of(iter(lines.readline, last))))
    except (ValueError, KeyError, TypeError, AttributeError):
        raise WindowFault("%s is no state that this version reads" % path) from None


def _rows_of(lines: Iterable[bytes]) -> Iterator[Row]:
    """Lines have their ends."""
    for line in lines:
        kind, number, other, raw = line.split(b" ", 3)
        yield Row(KINDS[KINDS.index(kind.decode())], int(number), int(other), raw[:-1])


def _state_of(head: dict[str, Any], rows: list[Row]) -> State:
    lines, base, last = int(head["lines"]), head["base"], int(head["last"])
    items = sorted([*_store_of(rows), *(item for row in rows for item in _item_of(row))], key=lambda item: item.line)
    first = next((item.number for item in items if item.kind == "commit"), 0)
    carry = carry_of(lines, first if base is None else int(base), items)
    wanted = set(carry.kept)
    carried = {row.line: row.raw for row in rows if row.kind in "cvh" and row.line in wanted}
    # Of the windows before the last it is known which lines are of them as far as versions and entries go on.
    sizes = [max((row.line for row in rows if row.kind in "vh" and row.number <= window), default=0) for window in range(1, int(head["window"]))]
    ends = [[0, int(at)] for at in head["ends"]]
    if ends:
        ends[-1] = [lines, last]
    found = Head(int(head["window"]), ends, [*sizes, lines], [], 0 if head["has_dropped"] else None, None)
    return State(found, carry, carried, carry.seal, [row for row in rows if row.kind != "e"])


def _store_of(rows: list[Row]) -> Iterator[Item]:
    """The store at the base as one commit, in the place of the last that it replaces."""
    store = [row for row in rows if row.kind == "f"]
    if store:
        yield commit(store[-1].line, store[-1].number, [text for row in store for text in touched_by(row.raw)[0]], [])


def _item_of(row: Row) -> Iterator[Item]:
    if row.kind == "r":
        yield declaration(row.line, row.number, row.raw)
    elif row.kind == "c":
        yield commit(row.line, row.number, *touched_by(row.raw))
    elif row.kind in "vh":
        yield entry(row.line, row.raw)
