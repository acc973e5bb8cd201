"""The files of tools/record: each begins with the hash of the one before, and ends with its count of lines and its own hash."""
import hashlib
import json
from typing import Any, NamedTuple, Optional

from new_enemy_tools.importing.opened import opened
from new_enemy_tools.importing.refusals import Refusals

BLOCK = 1 << 20
# A first line may name many tuples that are in doubt.
LONGEST = 4 << 20


class Head(NamedTuple):
    """The first line of a file: its number, and the hash of the file before it."""

    number: int
    before: Optional[str]


class End(NamedTuple):
    """How many lines a file has before its last, and their hash; what the last line says of them, where it closes the file, and whether another
    file is to follow."""

    lines: int
    found: str
    said: Optional[tuple[Any, ...]]
    is_full: bool


def _line(raw: bytes, kind: str) -> Optional[dict[str, Any]]:
    try:
        value = json.loads(raw)
    except ValueError:
        return None
    return value if isinstance(value, dict) and value.get("event") == kind else None


def head_of(path: str) -> Optional[Head]:
    """The head of a file; None where the file is none of a chain."""
    with opened(path) as file:
        value = _line(file.readline(LONGEST), "log") if file.seekable() else None
    if value is None or not isinstance(value.get("number"), int) or not isinstance(value.get("before"), (str, type(None))):
        return None
    return Head(value["number"], value.get("before"))


def end_of(path: str) -> End:
    made, count, last = hashlib.sha256(), 0, b""
    with opened(path) as file:
        while data := file.read(BLOCK):
            last += data
            # The last line is not among those before it, and may still come in part.
            start = last.rstrip(b"\n").rfind(b"\n") + 1
            made.update(last[:start])
            count += last.count(b"\n", 0, start)
            last = last[start:]
    closed = _line(last, "closed")
    return End(count, made.hexdigest(), None if closed is None else (closed.get("count"), closed.get("sha256")), bool((closed or {}).get("full")))


def in_chain(paths: list[str], refusals: Refusals, after: Optional[list[Any]] = None, goes_on: bool = False) -> Optional[list[str]]:
    """The files of a chain in their order, all checked; None where they are none of a chain, or not all of them. `after` is the number
    and the hash of a file that they go on from, and `goes_on` says that others will go on from them."""
    found = {path: head_of(path) for path in paths}
    heads = {path: head for path, head in found.items() if head is not None}
    if len(heads) < len(found):
        return None
    ordered = sorted(heads, key=lambda path: heads[path].number)
    before: Optional[tuple[str, int, Optional[str]]] = None if after is None else ("the last file of the day before", after[0], after[1])
    for path in ordered:
        _refuse_unlinked(path, heads[path], before, refusals)
        end = end_of(path)
        if end.said is not None and end.said != (end.lines, end.found):
            refusals.refuse(path, end.lines + 1, "the file was changed or cut after it was written: its last line tells of other lines "
                            "than these; give the file as tools/record wrote it")
        elif end.said is None and path != ordered[-1]:
            refusals.refuse(path, 1, "the file is not closed, and others go on from it; give it as tools/record left it")
        elif end.said is None:
            if is_closed_within(path):
                refusals.refuse(path, 1, "lines stand behind the one that closes the file; give the file as tools/record wrote it")
            refusals.open += 1
            refusals.gap(path, "gap at the end: %s is not closed, since it is still written or its recorder was killed" % path)
        elif path == ordered[-1] and end.is_full and not goes_on:
            refusals.open += 1
            refusals.gap(path, "gap at the end: %s is full, and no file follows, since it is still to come or the recorder was killed" % path)
        elif path == ordered[-1]:
            refusals.note("end", "the log ends with file %d, which is closed" % heads[path].number)
        before = (path, heads[path].number, end.found if end.said else None)
    refusals.last_file = heads[ordered[-1]].number
    refusals.is_chained = True
    return ordered


def _refuse_unlinked(path: str, head: Head, before: Optional[tuple[str, int, Optional[str]]], refusals: Refusals) -> None:
    if before is None:
        if head.number != 1:
            refusals.refuse(path, 1, "files 1 to %d of the log are missing, with its base state; give all files from the first on"
                            % (head.number - 1))
    elif head.number == before[1]:
        refusals.refuse(path, 1, "%s is file %d too; give the files of one log" % (before[0], head.number))
    elif head.number != before[1] + 1:
        missing = "file %d" % (before[1] + 1) if head.number == before[1] + 2 else "files %d to %d" % (before[1] + 1, head.number - 1)
        refusals.refuse(path, 1, "%s of the log, between it and %s, is missing; give all files" % (missing, before[0]))
    elif before[2] is not None and head.before != before[2]:
        refusals.refuse(path, 1, "it goes on from another file than %s; give the files of one log, as tools/record wrote them" % before[0])


def is_closed_within(path: str) -> bool:
    """Whether some line of a file says that it closes it."""
    with opened(path) as file:
        return any(b'"closed"' in raw and _line(raw, "closed") is not None for raw in file)


def last_of(path: str) -> Optional[list[Any]]:
    """The number and the hash of a file of a chain, and how many lines it has before its last; None where it is not closed."""
    head, end = head_of(path), end_of(path)
    return None if head is None or end.said is None else [head.number, end.found, end.lines]
