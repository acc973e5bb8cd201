"""Commits and entries as a trace keeps them: by their lines, each read in full where it is asked for."""
from bisect import bisect_left, bisect_right
from collections.abc import Mapping, Sequence
from typing import Callable, Iterator, NamedTuple, Optional, Union, overload

from new_enemy_tools.texts import Tuple


class Commit(NamedTuple):
    """A commit; a change of rules is one without tuples."""

    line: int
    at: int
    add: list[Tuple]
    remove: list[Tuple]
    source: Optional[str]
    revision: Optional[str]
    changes: Optional[str]
    time: Optional[str] = None


class Entry(NamedTuple):
    kind: str
    line: int
    goal: Tuple
    snapshot: int
    reply: bool
    zookie: Optional[str]
    version: Optional[str]
    issued_on: Optional[int]
    source: Optional[str]
    revision: Optional[str]
    # when it was asked, as the log has it
    time: Optional[str] = None
    # why it is audited in part
    part: Optional[str] = None
    # whether it is a check that stands before, at another state
    again: bool = False


class Commits(Sequence[Commit]):
    """In order; their lines and timestamps both rise."""

    def __init__(self, read: Callable[[int, bytes], Commit]):
        self.lines: list[int] = []
        self.ats: list[int] = []
        self._kept: list[Union[Commit, bytes]] = []
        self._read = read

    def keep(self, line: int, at: int, commit: Union[Commit, bytes]) -> None:
        """Keeps a commit, or its line as bytes."""
        self.lines.append(line)
        self.ats.append(at)
        self._kept.append(commit)

    def keep_all(self, lines: list[int], ats: list[int], commits: list[bytes]) -> None:
        """Keeps the lines of all commits."""
        self.lines, self.ats, self._kept = lines, ats, list(commits)

    def __len__(self) -> int:
        return len(self._kept)

    @overload
    def __getitem__(self, place: int) -> Commit: ...

    @overload
    def __getitem__(self, place: slice) -> Sequence[Commit]: ...

    def __getitem__(self, place: Union[int, slice]) -> Union[Commit, Sequence[Commit]]:
        if isinstance(place, slice):
            return [self[one] for one in range(*place.indices(len(self)))]
        kept = self._kept[place]
        if isinstance(kept, bytes):
            kept = self._kept[place] = self._read(self.lines[place], kept)
        return kept

    def commit_or_line(self, place: int) -> Union[Commit, bytes]:
        """A commit, or its line as bytes where it was not read in full yet."""
        return self._kept[place]

    def before(self, line: int) -> int:
        """How many stand before a line."""
        return bisect_left(self.lines, line)

    def during(self, low: int, high: int) -> range:
        """The places of those above one timestamp, up to another."""
        return range(bisect_right(self.ats, low), bisect_right(self.ats, high))

    def place_at(self, at: int) -> Optional[int]:
        """The place of the commit at a timestamp."""
        place = bisect_left(self.ats, at)
        return place if place < len(self.ats) and self.ats[place] == at else None


class Entries(Mapping[int, Entry]):
    """By their lines, in order."""

    def __init__(self, read: Callable[[int, bytes], Entry]):
        self._kept: dict[int, Union[Entry, bytes]] = {}
        self._read = read

    def keep(self, line: int, entry: Union[Entry, bytes]) -> None:
        """Keeps an entry, or its line as bytes."""
        self._kept[line] = entry

    def __len__(self) -> int:
        return len(self._kept)

    def __iter__(self) -> Iterator[int]:
        return iter(self._kept)

    def __contains__(self, line: object) -> bool:
        return line in self._kept

    def __getitem__(self, line: int) -> Entry:
        kept = self._kept[line]
        if isinstance(kept, bytes):
            kept = self._kept[line] = self._read(line, kept)
        return kept


class LateEntries(Entries):
    """Those among the lines of a trace that begin so; where they stand is looked at when they are asked for."""

    def __init__(self, read: Callable[[int, bytes], Entry], lines: list[bytes], starts: tuple[bytes, ...], count: int):
        super().__init__(read)
        self._lines, self._starts, self._count = lines, starts, count

    def __len__(self) -> int:
        return self._count

    def __iter__(self) -> Iterator[int]:
        return (number for number, line in enumerate(self._lines, 1) if line.startswith(self._starts))

    def __contains__(self, line: object) -> bool:
        return line in self._kept or isinstance(line, int) and 0 < line <= len(self._lines) and self._lines[line - 1].startswith(self._starts)

    def __getitem__(self, line: int) -> Entry:
        kept = self._kept.get(line)
        if isinstance(kept, Entry):
            return kept
        if line not in self:
            raise KeyError(line)
        read = self._kept[line] = self._read(line, self._lines[line - 1])
        return read
