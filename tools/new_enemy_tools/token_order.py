"""The findings on tokens of one entry, as docs/FORMATS.md has them, and the commits that each says were ignored."""
from typing import Iterator, NamedTuple, Optional

from new_enemy_tools import texts
from new_enemy_tools.entries import Entry
from new_enemy_tools.trace import Trace


class Window(NamedTuple):
    """Commits above one timestamp, up to another."""

    low: int
    high: int


def zookie_at(entry: Entry) -> Optional[int]:
    return None if entry.zookie is None else texts.parse_zookie(entry.zookie)[0]


def order_findings(trace: Trace, entry: Entry) -> Iterator[tuple[str, Optional[int]]]:
    """Each finding with the line that it refers to."""
    at, commits = zookie_at(entry), trace.commits
    before = commits.before(entry.line)
    is_check = entry.kind == "check"
    if is_check and at is not None and at > entry.snapshot:
        yield "F1 stale", None
    if is_check and entry.issued_on is not None:
        if at is None or at < trace.entries[entry.issued_on].snapshot:
            yield "F2 old token", entry.issued_on
    if not is_check and before and commits.ats[before - 1] > entry.snapshot:
        yield "F3 not latest", commits.lines[before - 1]
    if before < len(commits) and commits.ats[before] <= entry.snapshot:
        yield "F4 open snapshot", commits.lines[before]
    if not is_check and entry.reply and not _is_right_token(entry):
        yield "F5 wrong token", None
    if is_check and entry.version is not None and entry.issued_on is None:
        yield "F6 unknown version", None


def order_lines(trace: Trace) -> list[str]:
    """The report's lines on tokens."""
    return ["line %d: %s%s" % (one.line, finding, ", see line %d" % related if related else "")
            for one in trace.entries.values() for finding, related in order_findings(trace, one)]


def _is_right_token(entry: Entry) -> bool:
    if entry.zookie is None:
        return False
    at, kind = texts.parse_zookie(entry.zookie)
    return at == entry.snapshot and kind not in ("w", "r")


def ignored(trace: Trace, entry: Entry, finding: str) -> Window:
    """The commits that an entry with a finding on tokens ignored; it ends at the newest state that had to be seen."""
    before, high = trace.commits.before(entry.line), entry.snapshot
    if finding == "F4":
        return Window(trace.commits.ats[before] - 1, high)
    if finding == "F1":
        high = zookie_at(entry) or 0
    elif finding == "F2" and entry.issued_on is not None:
        high = trace.entries[entry.issued_on].snapshot
    elif finding in ("F3", "F6") and before:
        # What an unknown version's check had to see is not known; it is no newer than the last commit.
        high = trace.commits.ats[before - 1]
    return Window(entry.snapshot, max(high, entry.snapshot))
