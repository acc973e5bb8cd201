"""The order of a log: commits as the service gives them, and each entry behind what it saw and before what it could not see.

A commit waits while a content check is under way that began before the commit was known: it may have been evaluated before. What the
proxy and the service tell comes on two ways, so times tell what was first: those of the one clock that all processes of a machine have.
"""
import heapq
from bisect import bisect_right
from collections import deque
from typing import Callable, NamedTuple, Optional, Union

# Of so many revisions it is remembered when they were known.
MOMENTS = 100_000


class Commit(NamedTuple):
    """A revision of the service with its lines, of which so many are changes, and when it was received; `cursor` is what the service goes on by, and `rules` the
    hash of new rules. Of the last `behind` changes up to this one, those come again behind the cursor that are not `apart`."""

    revision: int
    data: bytes
    received: int
    cursor: Optional[str] = None
    rules: Optional[str] = None
    behind: int = 0
    apart: tuple[int, ...] = ()
    changes: int = 1


class Ready(NamedTuple):
    """An entry of a call with all that it needs, to be written right behind the commits up to its place, and by one write
    with those up to `reach`, which it names: a recorder that goes on may have these in another order."""

    place: int
    number: int
    since: int
    data: bytes
    call: int
    reach: int


class Known:
    """The newest revision that was known at each time."""

    def __init__(self, revision: int = 0):
        self.times, self.best = [0], [revision]

    def add(self, at: int, revision: int) -> None:
        place = bisect_right(self.times, at)
        if self.best[place - 1] >= revision:
            return
        self.times.insert(place, at)
        self.best.insert(place, revision)
        for later in range(place + 1, len(self.best)):
            if self.best[later] >= revision:
                break
            self.best[later] = revision
        if len(self.times) > MOMENTS:
            self.times, self.best = [0, *self.times[-MOMENTS // 2:]], [self.best[-MOMENTS // 2 - 1], *self.best[-MOMENTS // 2:]]

    def at(self, time: int) -> int:
        return self.best[bisect_right(self.times, time) - 1]


class Sequencer:
    def __init__(self) -> None:
        # all that the proxy told up to this time has come
        self.told_until = 0
        self.commits: deque[Commit] = deque()
        self.ready: list[Ready] = []
        # content checks under way, each with the newest revision that was known when it began
        self.saves: dict[int, int] = {}
        self.reached = self.written = 0
        self._number = 0
        # how long the lines are that wait
        self.size = 0

    def put_commit(self, commit: Commit) -> None:
        self.commits.append(commit)
        self.reached = max(self.reached, commit.revision)

    def put_entry(self, place: int, since: int, data: bytes, call: int, reach: int = 0) -> None:
        self._number += 1
        self.size += len(data)
        heapq.heappush(self.ready, Ready(place, self._number, since, data, call, reach))

    def drained(self) -> list[Union[Commit, Ready]]:
        """What can be written now, in order."""
        found = self._next()
        while True:
            last = next((one.revision for one in reversed(found) if isinstance(one, Commit)), self.written)
            cut = next((place for place, one in enumerate(found) if isinstance(one, Ready) and one.reach > last), len(found))
            if cut == len(found):
                self.written = last
                return found
            for one in reversed(found[cut:]):
                self._put_back(one)
            del found[cut:]

    def _put_back(self, one: Union[Commit, Ready]) -> None:
        if isinstance(one, Commit):
            self.commits.appendleft(one)
        else:
            self.size += len(one.data)
            heapq.heappush(self.ready, one)

    def _next(self) -> list[Union[Commit, Ready]]:
        """What has all before it."""
        found: list[Union[Commit, Ready]] = []
        oldest = min(self.saves.values(), default=None)
        while True:
            limit = self.commits[0].revision - 1 if self.commits else self.reached
            while self.ready and self.ready[0].place <= limit:
                found.append(heapq.heappop(self.ready))
                self.size -= len(found[-1].data)
            first = self.commits[0] if self.commits else None
            if first is None or first.received > self.told_until or oldest is not None and oldest < first.revision:
                return found
            found.append(self.commits.popleft())

    def take_out(self, which: Callable[[Ready], bool]) -> list[Ready]:
        """Takes out some of the entries that wait."""
        found = [one for one in self.ready if which(one)]
        if found:
            self.ready = [one for one in self.ready if not which(one)]
            heapq.heapify(self.ready)
            self.size = sum(len(one.data) for one in self.ready)
        return found
