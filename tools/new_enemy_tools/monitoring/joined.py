"""The logs of several recorders, joined while they grow into a log on the disk, which a monitor reads as that of one
recorder.

What was joined since the last run ended is joined anew by a monitor that is begun again: `joined.json` says how long
the joined log was then, and what stands behind that is cut.
"""
import json
import os
import time
from collections import deque
from typing import Any, NamedTuple, Optional

from new_enemy_tools.commands.join import value_of
from new_enemy_tools.faults import DeviceFault, MonitorFault
from new_enemy_tools.files import write_whole
from new_enemy_tools.importing.events import read_events
from new_enemy_tools.importing.refusals import Refusals
from new_enemy_tools.monitoring.holding import WRITE_WAIT
from new_enemy_tools.monitoring.pure_monitor import Unjoined
from new_enemy_tools.monitoring.stream import Chunk
from new_enemy_tools.monitoring.tail import Place, Tail
from new_enemy_tools.recording.days_joined import Before, kept
from new_enemy_tools.recording.lines import ENCODE
from new_enemy_tools.recording.live_joined import LiveJoin
from new_enemy_tools.recording.log_files import LogFault, LogFiles
from new_enemy_tools.recording.sketches import JOINED, Row

FOLDER, STATE = "joined", "joined.json"
# So large a file of the joined log becomes, and so many bytes of all logs may wait.
FILE, MOST = 64 << 20, 64 << 20
# Between two rounds at least, in seconds, and where lines wait at most; and so much of the time they may take.
LEAST, LONGEST, SHARE = 0.05, 1.0, 0.25
CHANGES = ("write", "rules", "unmapped")


class Several(NamedTuple):
    """The logs, as they are given: their folders, by how many nanoseconds the clocks of their machines may be apart,
    and those whose recorder has ended for good."""

    folders: tuple[str, ...]
    skew: int
    ended: frozenset[str]


class Unread(NamedTuple):
    """A line that was read, and is not joined yet; its size, and when it was read."""

    row: Row
    size: int
    read: float


class Reader:
    """The lines of a log, but for the last change: other lines of its revision may still come."""

    def __init__(self, folder: str):
        self.folder = folder
        self.tail: Optional[Tail] = None
        self.unread: deque[Unread] = deque()
        self.is_at_end = False

    def read(self, now: float) -> list[Unread]:
        """More lines; raises MonitorFault, or JoinFault."""
        if self.tail is None and os.path.isdir(self.folder):
            self.tail = Tail(self.folder, Place())
        chunk = None if self.tail is None else self.tail.read()
        self.is_at_end = chunk is None
        if chunk is not None:
            self.unread += [Unread(row, size, now) for row, size in rows_of(chunk)]
        count = len(self.unread) if self._is_whole(now) else self._whole()
        return [self.unread.popleft() for _ in range(count)]

    def _is_whole(self, now: float) -> bool:
        return not self.unread or now - self.unread[-1].read >= WRITE_WAIT

    def _whole(self) -> int:
        """How many lines stand before the last change."""
        count, last = len(self.unread), self.unread[-1].row.value
        while count and _is_of(self.unread[count - 1].row, last.get("revision")):
            count -= 1
        return count


def _is_of(row: Row, revision: Optional[int]) -> bool:
    """Whether a line may be of a change, by its revision."""
    return row.value["event"] in CHANGES and row.value.get("revision") in (None, revision)


def rows_of(chunk: Chunk) -> list[tuple[Row, int]]:
    """The lines with their sizes; raises MonitorFault or JoinFault where one can't be read."""
    found, refusals = [], Refusals(is_chained=True)
    for number, raw in enumerate(chunk.data.splitlines(True), chunk.first):
        row = Row(chunk.file, number, value_of(raw, chunk.file, number))
        for _ in read_events([(number, row.value)], chunk.file, refusals):
            pass
        found.append((row, len(raw)))
    if refusals.refused:
        raise MonitorFault("; ".join(refusals.lines()[:3]))
    return found


class JoinedLog:
    def __init__(self, out: str, several: Several, hold: float, is_first: bool):
        """`is_first` says that no run was kept."""
        self.several, self.folder, self.path = several, os.path.join(out, FOLDER), os.path.join(out, STATE)
        self.readers = {folder: Reader(folder) for folder in several.folders}
        self.began, self.next, self.was_new = time.monotonic(), 0.0, False
        os.makedirs(self.folder, exist_ok=True)
        state = self._state(is_first)
        self.length = (state["number"], state["size"])
        self.files = self._cut()
        self.join = LiveJoin(several.folders, several.skew, hold, kept(state), [(one[0], one[1], one[2]) for one in state["told"]])

    def _state(self, is_first: bool) -> dict[str, Any]:
        if os.path.exists(self.path):
            with open(self.path, encoding="utf-8") as file:
                found: dict[str, Any] = json.load(file)
                return found
        if not is_first:
            raise MonitorFault("the runs before are of one log that was not joined; give that, or another folder of the "
                               "monitor")
        return {"number": 0, "size": 0, **Before()._asdict(), "told": []}

    def read(self, is_once: bool) -> bool:
        """Joins what can be joined; whether more may come at once."""
        is_more = False
        for folder, reader in self.readers.items():
            if self._has_room(folder):
                for row, size, now in reader.read(time.monotonic()):
                    self.join.take(folder, row, size, now)
                    self.was_new = True
                is_more |= not reader.is_at_end
        at_end = {folder for folder, reader in self.readers.items() if reader.is_at_end and not reader.unread}
        is_last = is_once and len(at_end) == len(self.readers)
        over = at_end if is_last else at_end & self.several.ended
        now = time.monotonic()
        if is_last or now >= self.next and (self.was_new or self.join.waiting) and self._may_begin():
            self._round(over, now)
        return is_more or is_once and not is_last

    def _has_room(self, folder: str) -> bool:
        """A log that is ahead of the others waits for them on the disk."""
        log = self.join.logs[folder]
        return log.bytes < MOST // len(self.readers) or folder in self.join.waits_for or not log.sketch.is_begun

    def _may_begin(self) -> bool:
        """The first round waits for the base states of all logs that there are, for some time."""
        unbegun = [folder for folder, log in self.join.logs.items() if not log.sketch.is_begun and os.path.isdir(folder)]
        return bool(self.join.before.logs) or not unbegun or time.monotonic() - self.began > self.join.hold

    def _round(self, over: set[str], now: float) -> None:
        self.was_new = False
        data = b"".join(ENCODE(value).encode() + b"\n" for value in self.join.round(over, now))
        if data:
            self.files.service = JOINED + str(self.join.service)
            try:
                self.files.add(data)
            except LogFault as fault:
                raise self._unwritten(fault) from None
        took = time.monotonic() - now
        self.next = now + max(LEAST if self.was_new or not self.join.waiting else LONGEST / 4, took / SHARE)

    def _cut(self) -> LogFiles:
        """Goes on where the joined log was when it was kept, before anybody reads it."""
        # Of which service the logs are is known when they are read.
        files = LogFiles(self.folder, "", size=FILE, age=float("inf"))
        try:
            files.go_on(*self.length)
        except LogFault as fault:
            raise self._unwritten(fault) from None
        return files

    def _unwritten(self, fault: LogFault) -> DeviceFault:
        return DeviceFault("cannot write %s: %s" % (self.folder, fault))

    def unjoined(self) -> Unjoined:
        unbegun = tuple(folder for folder, log in self.join.logs.items() if not log.sketch.is_begun)
        return Unjoined(self.join.waiting, self.join.oldest, tuple(self.join.waits_for) or unbegun, unbegun)

    def keep(self) -> None:
        """Keeps how far the logs are joined, before a run is kept that has lines of it."""
        if self.files.descriptor is not None:
            os.fsync(self.files.descriptor)
            self.length = (self.files.number, self.files.size)
        write_whole(self.path, [json.dumps({"number": self.length[0], "size": self.length[1],
                                            **self.join.before._asdict(), "told": sorted(self.join.told)})])

    def forget(self, before: int) -> None:
        """Takes files away that no run needs any more."""
        for name in os.listdir(self.folder):
            if int(name.partition(".")[0]) < before:
                os.remove(os.path.join(self.folder, name))
