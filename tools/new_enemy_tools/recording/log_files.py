"""The files of a log: each begins with the hash of the one before, and is closed with its count of lines and its own hash.

A line is written whole or not at all. What a killed recorder left is cut behind its last whole line, and closed by the next with a gap.
"""
import fcntl
import gzip
import hashlib
import json
import os
import queue
import re
import shutil
import sys
import threading
import time
from collections import deque
from typing import Any, Callable, Iterable, NamedTuple, Optional

from new_enemy_tools.importing.opened import opened
from new_enemy_tools.importing.times import nanoseconds
from new_enemy_tools.recording.lines import gap_line, line, time_text
from new_enemy_tools.recording.overlap import Known

NAME = re.compile(r"[0-9]{6}\.jsonl(?:\.gz)?")
# The revision of a line, and the last one that a content check of OpenFGA looked at.
REVISION = re.compile(rb'"revision":([0-9]+)')
NAMED = re.compile(rb'"(?:newest_between":\[[0-9]+,|snapshot":)([0-9]+)')
PACKED = ".gz"
# What is compressed by half, in no list of the log's files.
PART = re.compile(r"\.[0-9]{6}\.part")
# So long the end of a recorder waits for what is compressed.
PATIENCE = 5.0
SIZE = 512 << 20
AGE = 3600.0
KILLED = "the recorder was killed"
# What each file begins with.
HEAD = b'{"event":"log"'
# So many writes that are not shown stand on a line.
ON_A_LINE = 100
# So much later than it should may what waits be given up, and that be told.
LATER = 2.0


class LogFault(Exception):
    """The log can't be written or read now; what was to be written is still to be written."""


class InUse(Exception):
    """Another recorder writes to the folder."""


# Tuples as a line has them; an empty one stands for all.
Doubts = tuple[tuple[str, ...], ...]
# A tuple as a line has it, and whether it came or went.
Key = tuple[tuple[str, ...], bool]


class Unshown(NamedTuple):
    """A write that had its answer, and that the changes have yet to show: its number in the log, what it made, nothing where that is not known,
    and when it was asked and answered."""

    number: int
    keys: tuple[Key, ...]
    asked: int
    answered: int

    @property
    def values(self) -> dict[str, Any]:
        """As it stands in a line."""
        sides = {"add": [one for one, live in self.keys if live], "remove": [one for one, live in self.keys if not live]}
        return {"number": self.number, **{side: found for side, found in sides.items() if found}, "asked": time_text(self.asked),
                "answered": time_text(self.answered)}


class Place(NamedTuple):
    """Where the changes of the service are: what it gave to go on by, the last revision, and the hash of the rules in force.

    `behind` is how many changes the log has that come again where the service goes on by that; those of the revisions `apart`, among the
    last so many, do not. `store` is OpenFGA's, where that is known. Of the tuples in `doubts` it is not known whether they are there.
    `late` is how late the changes are shown at least, in seconds, where a write had proved it.
    """

    cursor: Optional[str]
    revision: int
    rules: Optional[str]
    behind: int = 0
    apart: tuple[int, ...] = ()
    store: Optional[str] = None
    doubts: Doubts = ()
    late: float = 0.0

    @property
    def keys(self) -> dict[str, Any]:
        """As it stands in a line; `doubts` and `late` only where they are others than before, and in the first of a file."""
        return {"cursor": self.cursor, "revision": self.revision, "rules_sha256": self.rules, "behind": self.behind or None,
                "apart": list(self.apart) or None}


class Left(NamedTuple):
    """What an earlier recorder left: its last place, how many writes it wrote behind that and the last revision, until when the log tells of
    all, the revision of the base state, and the first tuples of its last writes, as far as they may come again. One that ended before it had
    a next file for a full one was killed. `unshown` are the writes that the changes had not shown, as far as it had heard of them, and `heard` is until
    when it had: the time of its last line."""

    place: Place
    writes: int
    revision: int
    time: Optional[str]
    base: int
    changes: list[Known] = []
    was_killed: bool = False
    unshown: tuple[Unshown, ...] = ()
    heard: Optional[int] = None

    @property
    def behind(self) -> int:
        """How many revisions the log has behind what the service goes on by."""
        return self.revision - self.place.revision + self.place.behind


class _Found(NamedTuple):
    number: int
    before: Optional[str]
    hold: float


class LogFiles:
    def __init__(self, folder: str, service: str, size: int = SIZE, age: float = AGE, hold: float = 0.0, packs: bool = False):
        """`packs` says whether files are compressed when they are closed."""
        self.folder, self.service, self.limit, self.age, self.hold = folder, service, size, age, hold
        self.packer = Packer() if packs else None
        self.hold_of_left = hold
        # until when the log tells of all, or knows what waits; None where it has no line yet
        self.until: Optional[int] = None
        self.descriptor: Optional[int] = None
        self.number = 0
        self.before: Optional[str] = None
        self.place = Place(None, 0, None)
        # what each file says first of the writes that are not shown
        self.unshown: Callable[[], Iterable[Unshown]] = tuple
        self._lock: Optional[int] = None
        # whether no recorder had the folder before
        self.is_first = False
        self._begin_counts()

    def _begin_counts(self) -> None:
        self.size = self.count = 0
        self.hash = hashlib.sha256()
        self.opened = time.monotonic()

    # The beginning

    def lock(self) -> None:
        """Keeps the folder for this recorder; raises InUse, or LogFault where there is no such folder."""
        try:
            os.makedirs(self.folder, exist_ok=True)
            path = os.path.join(self.folder, "lock")
            if self._lock is None:
                self.is_first = not os.path.exists(path)
                self._lock = os.open(path, os.O_CREAT | os.O_RDWR, 0o600)
            fcntl.flock(self._lock, fcntl.LOCK_EX | fcntl.LOCK_NB)
        except BlockingIOError:
            raise InUse from None
        except OSError as fault:
            raise LogFault(fault.strerror) from None

    def recover(self) -> Optional[Left]:
        """Closes what an earlier recorder left, and says where it was; raises LogFault."""
        try:
            for name in os.listdir(self.folder):
                if PART.fullmatch(name):
                    os.remove(os.path.join(self.folder, name))
            names = sorted(name for name in os.listdir(self.folder) if NAME.fullmatch(name))
            for name in [name for name in names if name + PACKED in names]:
                # It was compressed whole, and not removed.
                os.remove(os.path.join(self.folder, name))
                names.remove(name)
            while names:
                path = os.path.join(self.folder, names[-1])
                found = self._take_over(path, [os.path.join(self.folder, name) for name in names[-2:-1]])
                if found is not None:
                    paths = [os.path.join(self.folder, name) for name in names]
                    changes = _last_changes(paths, found.writes + found.place.behind)
                    base = _base_of(paths[0])
                    self._pack_all(paths)
                    return found._replace(base=base, changes=changes)
                # What was begun and has no base state yet is of no use.
                os.remove(path)
                names.pop()
        except OSError as fault:
            raise LogFault(fault.strerror) from None
        return None

    def _take_over(self, path: str, earlier: list[str]) -> Optional[Left]:
        """Reads a file and closes it; None where it has no beginning, with the base state where it is the first. `earlier` is the file before it."""
        head, store, size, closed, hashed = None, None, 0, None, hashlib.sha256()
        place, writes, revision, last, count = Place(None, 0, None), 0, 0, None, 0
        unshown, told, wanted = dict[int, Unshown](), 0, 0
        end = _end_of(path) if self.service == "openfga" else None
        with opened(path) as file:
            for raw in file:
                value = None if size == end else _value_of(raw)
                if value is None or closed:
                    break
                if head is None:
                    if value.get("event") != "log":
                        raise LogFault("%s is no file of a log; give another folder" % path)
                    if value.get("service") != self.service:
                        raise LogFault("it has a log of %s; give another folder" % value.get("service"))
                    head = _Found(value["number"], value.get("before"), value.get("hold", 0.0))
                kind = value.get("event")
                if kind in ("log", "feed"):
                    store = value.get("store")
                if kind in ("log", "place"):
                    place, writes = _place_of(value, place), 0
                    revision = place.revision
                    if kind == "log":
                        wanted = value.get("unshown", 0)
                    else:
                        told += _take_unshown(unshown, value)
                elif kind in ("write", "rules") and not value.get("base") and value.get("revision") is not None:
                    writes, revision = writes + (kind == "write"), value["revision"]
                elif kind == "closed":
                    closed = value
                    continue
                if kind != "write":
                    # The time of a write is the service's.
                    last = value.get("time") or last
                hashed.update(raw)
                size, count = size + len(raw), count + 1
        if head is None and not _is_cut_head(path):
            raise LogFault("%s is no file of a log; give another folder" % path)
        if head is None or place.rules is None:
            return None
        self.hold_of_left, heard = max(self.hold, head.hold), nanoseconds(last)
        if told < wanted:
            # It was cut before it had told them all again.
            unshown = _unshown_in(earlier)
        if closed is None:
            now = time.time_ns()
            gap = self._gap_of_killed(last, now)
            hashed.update(gap)
            self._close_left(path, size, gap + line("closed", count=count + 1, sha256=hashed.hexdigest()))
            last = time_text(now)
        self.number, self.before, place = head.number, hashed.hexdigest(), place._replace(store=store)
        # A file may follow that has no changes.
        self.place = place._replace(revision=revision, behind=writes + place.behind)
        self.unshown = unshown.values
        was_killed, at = closed is not None and bool(closed.get("full")), nanoseconds(last)
        if was_killed and at is not None:
            at = self._since_killed(at)
        self.until = at
        return Left(place, writes, revision, None if at is None else time_text(at), 0, was_killed=was_killed, unshown=tuple(unshown.values()), heard=heard)

    def _since_killed(self, last: int) -> int:
        """What waited when a recorder was killed had its answer so long before the last line, or later."""
        return last - int((self.hold_of_left + LATER) * 1e9)

    def _gap_of_killed(self, last: Optional[str], now: int) -> bytes:
        """By a clock that was set back since the last line nobody knows how long the recorder went on."""
        at = nanoseconds(last)
        if at is None or at > now:
            return gap_line(None, max(at or 0, now), KILLED)
        return gap_line(self._since_killed(at), now, KILLED)

    @staticmethod
    def _close_left(path: str, size: int, end: bytes) -> None:
        """Cuts a file behind its last whole line, and ends it."""
        descriptor = os.open(path, os.O_RDWR)
        try:
            os.ftruncate(descriptor, size)
            os.lseek(descriptor, size, os.SEEK_SET)
            _write_all(descriptor, end)
            os.fsync(descriptor)
        finally:
            os.close(descriptor)

    def go_on(self, number: int, size: int) -> None:
        """Goes on in a file as it was at a size; what was written behind that is taken away. Raises LogFault."""
        try:
            for name in os.listdir(self.folder):
                if NAME.fullmatch(name) and int(name[:6]) > number:
                    os.remove(os.path.join(self.folder, name))
            if not number:
                return
            path = os.path.join(self.folder, "%06d.jsonl" % number)
            descriptor = os.open(path, os.O_RDWR)
            if os.fstat(descriptor).st_size < size:
                os.close(descriptor)
                raise LogFault("%s was cut; begin another folder" % path)
            os.ftruncate(descriptor, size)
            with open(path, "rb") as file:
                self._begin_counts()
                for raw in file:
                    self.hash.update(raw)
                    self.count += 1
            self.number, self.size, self.descriptor = number, size, descriptor
        except OSError as fault:
            raise LogFault("%s: %s" % (fault.filename, fault.strerror)) from None

    # Lines

    def add(self, data: bytes, goes_on: bool = False) -> None:
        """Adds whole lines, to the same file where they go on from the last; raises LogFault where none of them was added."""
        if not goes_on and self.descriptor is not None and self.size and (self.size + len(data) > self.limit or time.monotonic() - self.opened > self.age):
            self.close(True)
        if self.descriptor is None:
            self._open()
        self._put(data)

    def _open(self) -> None:
        path = os.path.join(self.folder, "%06d.jsonl" % (self.number + 1))
        try:
            self.descriptor = os.open(path, os.O_CREAT | os.O_TRUNC | os.O_WRONLY, 0o600)
        except OSError as fault:
            raise LogFault(fault.strerror) from None
        self._begin_counts()
        until = time.time_ns() if self.until is None else self.until
        unshown = [one.values for one in self.unshown()]
        head = line("log", number=self.number + 1, before=self.before, service=self.service, store=self.place.store,
                    hold=self.hold or None, time=time_text(until), **self.place.keys, doubts=self.place.doubts or None,
                    late=self.place.late or None, unshown=len(unshown) or None)
        more = [line("place", **self.place.keys, unshown=unshown[at:at + ON_A_LINE]) for at in range(0, len(unshown), ON_A_LINE)]
        try:
            self._put(head + b"".join(more))
        except LogFault:
            os.close(self.descriptor)
            self.descriptor = None
            raise
        self.number += 1

    def _put(self, data: bytes) -> None:
        assert self.descriptor is not None
        try:
            # A write that failed may have left a part of a line.
            if os.lseek(self.descriptor, 0, os.SEEK_END) != self.size:
                os.ftruncate(self.descriptor, self.size)
                os.lseek(self.descriptor, self.size, os.SEEK_SET)
            _write_all(self.descriptor, data)
        except OSError as fault:
            raise LogFault(fault.strerror) from None
        self.size += len(data)
        self.count += data.count(b"\n")
        self.hash.update(data)

    def close(self, is_full: bool = False) -> None:
        """Ends the file with its count and hash, and says where another is to follow; raises LogFault."""
        if self.descriptor is None:
            return
        self._put(line("place", **self.place.keys))
        found, count = self.hash.hexdigest(), self.count
        self._put(line("closed", count=count, sha256=found, full=is_full or None))
        try:
            os.fsync(self.descriptor)
            os.close(self.descriptor)
        except OSError:
            pass
        self.descriptor, self.before = None, found
        self._pack_all([os.path.join(self.folder, "%06d.jsonl" % self.number)])

    def _pack_all(self, paths: list[str]) -> None:
        """Compresses files that are closed, in a thread of its own."""
        if self.packer is not None:
            for path in paths:
                if not path.endswith(PACKED):
                    self.packer.take(path)


class Packer:
    """Compresses closed files; each is there whole all the time, by one of its names."""

    def __init__(self) -> None:
        self.waiting: queue.SimpleQueue[Optional[str]] = queue.SimpleQueue()
        self.thread: Optional[threading.Thread] = None

    def take(self, path: str) -> None:
        self.waiting.put(path)
        if self.thread is None:
            self.thread = threading.Thread(target=self._run, daemon=True)
            self.thread.start()

    def end(self) -> None:
        """Waits a little until all are compressed; what is not then is so by the next recorder."""
        if self.thread is not None:
            self.waiting.put(None)
            self.thread.join(PATIENCE)

    def _run(self) -> None:
        while (path := self.waiting.get()) is not None:
            try:
                pack(path)
            except OSError as fault:
                # The log is whole as it is.
                sys.stderr.write("record: %s is not compressed: %s\n" % (path, fault.strerror))


def pack(path: str) -> None:
    """Puts a compressed file in the place of a file."""
    folder, name = os.path.split(path)
    part = os.path.join(folder, ".%s.part" % name.partition(".")[0])
    try:
        descriptor = os.open(part, os.O_CREAT | os.O_TRUNC | os.O_WRONLY, 0o600)
        with open(path, "rb") as given, open(descriptor, "wb") as raw:
            with gzip.GzipFile("", "wb", 6, raw, 0) as made:
                shutil.copyfileobj(given, made, 1 << 20)
            raw.flush()
            os.fsync(raw.fileno())
        os.replace(part, path + PACKED)
        os.remove(path)
    finally:
        if os.path.exists(part):
            os.remove(part)


def _value_of(raw: bytes) -> Optional[dict[str, Any]]:
    """The object of a whole line; None where it was cut or is none."""
    if not raw.endswith(b"}\n"):
        return None
    # Of the lines that are most of a log, nothing is needed but their time.
    if raw.startswith((b'{"event":"check"', b'{"event":"content"')):
        found = re.search(rb'"time":"([^"]*)"', raw)
        return {"event": "check", "time": found and found[1].decode()}
    try:
        value = json.loads(raw)
    except ValueError:
        return None
    return value if isinstance(value, dict) else None


def _end_of(path: str) -> Optional[int]:
    """Before which line a file of OpenFGA that is not closed was cut in the midst of a write: a content check that names
    changes which the file does not have. They may come again in another order."""
    size = revision = 0
    ahead = list[tuple[int, int]]()
    with opened(path) as file:
        for raw in file:
            if raw.startswith((b'{"event":"write"', b'{"event":"rules"', b'{"event":"log"', b'{"event":"place"')):
                revision = max(revision, int(found[1]) if (found := REVISION.search(raw)) else 0)
            elif raw.startswith(b'{"event":"content"') and (found := NAMED.search(raw)):
                ahead.append((int(found[1]), size))
            elif raw.startswith(b'{"event":"closed"'):
                return None
            size += len(raw)
    return min((at for reach, at in ahead if reach > revision), default=None)


def _place_of(value: dict[str, Any], before: Place) -> Place:
    doubts: Doubts = tuple([tuple(one) for one in value["doubts"]]) if "doubts" in value else before.doubts
    return Place(value.get("cursor"), value.get("revision", 0), value.get("rules_sha256"), value.get("behind", 0), tuple(value.get("apart", ())),
                 doubts=doubts, late=value.get("late", before.late))


def _is_cut_head(path: str) -> bool:
    """Whether a file has nothing but a part of its first line."""
    with opened(path) as file:
        data = file.readline()
        return not data.endswith(b"\n") and (data.startswith(HEAD) or HEAD.startswith(data))


def _take_unshown(unshown: dict[int, Unshown], value: dict[str, Any]) -> int:
    """Takes the writes that a line tells of, and out those that are shown; how many it tells of."""
    listed = value.get("unshown", ())
    unshown.update((one.number, one) for one in map(_unshown_of, listed))
    for number in value.get("shown", ()):
        unshown.pop(number, None)
    return len(listed)


def _unshown_in(paths: list[str]) -> dict[int, Unshown]:
    """The writes that are not shown by the end of a file, if there is one."""
    found: dict[int, Unshown] = {}
    for path in paths:
        with opened(path) as file:
            for raw in file:
                value = _value_of(raw) if raw.startswith(b'{"event":"place"') else None
                _take_unshown(found, value or {})
    return found


def _unshown_of(value: dict[str, Any]) -> Unshown:
    keys = tuple((tuple(one), side == "add") for side in ("add", "remove") for one in value.get(side, ()))
    return Unshown(value["number"], keys, nanoseconds(value["asked"]) or 0, nanoseconds(value["answered"]) or 0)


def _last_changes(paths: list[str], count: int) -> list[Known]:
    """The first tuples of the last writes of a log; as many files are read as have them."""
    found: list[Known] = []
    for path in reversed(paths):
        if len(found) >= count:
            break
        listed: deque[Known] = deque((), count)
        with opened(path) as file:
            for raw in file:
                value = _value_of(raw) if raw.startswith((b'{"event":"write"', b'{"event":"feed"')) else None
                if value is not None and value["event"] == "feed":
                    listed += [Known(given and tuple(given), live, 0) for given, live in value.get("last", ())]
                elif value is not None and not value.get("base"):
                    given = (value.get("add") or value.get("remove") or [None])[0]
                    listed.append(Known(given and tuple(given), not value.get("remove"), value["revision"]))
        found = [*listed, *found]
    return found[len(found) - count:] if count else []


def _base_of(path: str) -> int:
    """The revision of the base state, which stands first in the first file."""
    with opened(path) as file:
        for raw in file:
            value = _value_of(raw) or {}
            if value.get("base"):
                return int(value["revision"])
    return 0


def _write_all(descriptor: int, data: bytes) -> None:
    view = memoryview(data)
    while view:
        view = view[os.write(descriptor, view):]
