"""The pages in which changes were asked for: each begins where another one ends, or a page is missing."""
from operator import itemgetter
from typing import TYPE_CHECKING, Iterable, Iterator, NamedTuple, Optional

if TYPE_CHECKING:
    from new_enemy_tools.importing.refusals import Refusals
    from new_enemy_tools.importing.spool import Lines, WriteRow

MISSING = ("these changes go on from a `continuation_token` that no page of the log gives: a page of changes is missing; give "
           "all pages from the first on, or from the base state on")


class Page(NamedTuple):
    """In short the token that a page begins behind, if any, and the one that it ends with; how many changes it has, where it
    stands, and its number of the sequence."""

    behind: Optional[int]
    ends: int
    changes: int
    file: str
    line: int
    sequence: Optional[int]


def paged(writes: "Iterable[WriteRow]", pages: Iterable[Page]) -> "Iterator[tuple[WriteRow, Optional[int]]]":
    """Each change with the number of the page that has it, if one does; both are in the order of the files."""
    waiting = ((number, page) for number, page in enumerate(pages) if page.changes)
    found = next(waiting, None)
    left = found[1].changes if found else 0
    for row in writes:
        if found is None or row.file != found[1].file or row.line < found[1].line:
            yield row, None
            continue
        yield row, found[0]
        left -= 1
        if not left:
            found = next(waiting, None)
            left = found[1].changes if found else 0


def read_again(lines: "Lines", pages: list[Page]) -> Optional[Iterator[bool]]:
    """Of each change, in the order of the files, whether a page before had it, by the tokens; None where these do not tell, or tell of none."""
    ends: dict[Optional[int], int] = {page.behind: 0 for page in pages[:1]}
    again, count = list[int](), 0
    for page in pages:
        if page.behind not in ends:
            return None
        start = ends[page.behind]
        again.append(max(0, min(page.changes, count - start)))
        count = max(count, start + page.changes)
        ends.setdefault(page.ends, start + page.changes)
    marks = bytearray()
    for _, number in paged(lines.writes(), pages) if any(again) else ():
        if number is None:
            return None
        again[number] -= 1
        marks.append(again[number] >= 0)
    return map(bool, marks) if marks else None


def refuse_missing(lines: "Lines", is_by_time: bool, has_base: bool, refusals: "Refusals") -> None:
    """A page begins behind one that stands before it, or behind any where that is not known; the first may where the base state
    ends. One page may begin behind changes that stand before it and have no request."""
    pages, is_sequenced = refusals.pages, lines.facts.is_sequenced
    bare = [row for row, number in paged(lines.writes(), pages) if number is None] if pages else []
    places = [page.sequence if is_sequenced else page.line for page in pages]
    is_known = not is_by_time and None not in places
    if bare and not is_known:
        return
    events: list[tuple[int, Optional[Page]]] = [(place or 0, page) for place, page in zip(places, pages)]
    events += [(row.sequence[0] if is_sequenced and row.sequence else row.line, None) for row in bare]
    ends = {page.ends for page in pages if page.ends != page.behind and not is_known}
    first = pages[0].behind if pages and has_base else None
    is_open = False
    for _, page in sorted(events, key=itemgetter(0)) if is_known else events:
        if page is None:
            is_open = True
            continue
        if page.behind is not None and page.behind not in ends and page.behind != first:
            if not is_open:
                refusals.refuse(page.file, page.line, MISSING)
            is_open = False
            ends.add(page.behind)
        ends.add(page.ends)
