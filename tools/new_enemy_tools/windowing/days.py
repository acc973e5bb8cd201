"""A folder of days: of each what was found, and of the last what the next one goes on from.

A day is made in a folder of its own, which is renamed when all of it is there; so a run that is killed leaves the days as they were.
`told` stands in the folder of a day whose report was written out.
"""
import fcntl
import json
import os
import re
import shutil
from typing import Any, BinaryIO, Iterator, NamedTuple, Optional, Sequence

from new_enemy_tools.faults import WindowFault
from new_enemy_tools.labels import Labels
from new_enemy_tools.windowing.state import CARRY, FILES, OLD_STATE, State, seal_in

WORK = "work"
INDEX, PAGE = "index.html", "report.html"
# What a run writes out, a line for each group of findings.
MAIL = "mail.txt"
# So many days before are told beside a day.
COMPARED = 3
DAY = re.compile("day[0-9]{6,}")
# What a day goes on from; the last two days have it. Of joined logs JOIN says what the days so far have of each; OLD_STATE is what days of
# earlier versions have in place of a carry.
JOIN = "joined"
# Of a day that a monitor kept, what its next run goes on from.
MONITORED = "monitored.json"
GOING_ON = (*FILES, OLD_STATE, "left", "ids.jsonl", JOIN, MONITORED)
# The folder of a joined log while it is imported.
JOINED_LOG = "joined_log"
TRACES = ("trace.zst", "trace.gz", "lines.json")
# What names nobody.
STAYS = ("summary.json", "told")
KEPT = 2


class Summary(NamedTuple):
    """What is known of a day beside its report."""

    logs: list[str]
    # the checksum of the logs' bytes
    digest: str
    status: int
    entries: int
    findings: int
    not_audited: int
    held_over: int
    verdict: str = ""
    # what was looked at
    coverage: dict[str, Any] = {}
    # how many checks name a content version and carry a token
    looked: dict[str, int] = {}
    # how many checks of joined logs wait for what another log has not closed yet
    held_back: int = 0
    # the checksum of what its import left
    left: str = ""
    # the checksums of its report, and of its trace where that is kept, by the names of the files
    kept: dict[str, str] = {}


class Days:
    """The days of a folder, for one run at a time."""

    def __init__(self, folder: str):
        self.folder = folder
        os.makedirs(folder, exist_ok=True)
        # A run that was killed may have left half of an index.
        others = [name for name in os.listdir(folder) if name not in ("lock", WORK, INDEX, INDEX + ".part") and not DAY.fullmatch(name)]
        if others or os.path.exists(self.work()) and not os.path.exists(os.path.join(folder, "lock")):
            raise WindowFault("%s has %s, and is no folder of days: give one that is empty or not there" % (folder, (others or [WORK])[0]))
        # A lock of this kind goes with its process, and not with those that it began.
        self._lock: BinaryIO = open(os.path.join(folder, "lock"), "ab")
        try:
            fcntl.lockf(self._lock, fcntl.LOCK_EX | fcntl.LOCK_NB)
        except OSError:
            self._lock.close()
            raise WindowFault("another run works in %s" % folder) from None
        self.numbers = sorted(int(name[3:]) for name in os.listdir(folder) if DAY.fullmatch(name))

    def close(self) -> None:
        self._lock.close()

    @property
    def last(self) -> Optional[int]:
        return self.numbers[-1] if self.numbers else None

    def path(self, number: int, name: str) -> str:
        return os.path.join(self.folder, "day%06d" % number, name)

    def before(self, name: str) -> Optional[str]:
        """A file of the last day, where it is there."""
        path = None if self.last is None else self.path(self.last, name)
        return path if path is not None and os.path.exists(path) else None

    @property
    def last_folder(self) -> Optional[str]:
        return None if self.last is None else os.path.dirname(self.path(self.last, CARRY))

    def refuse_other(self, state: State) -> None:
        """Refuses a state that is not that of the last day, or goes on from another one than that of the day before."""
        last = self.last or 0
        previous = seal_in(os.path.dirname(self.path(last - 1, CARRY)))
        if state.head.window != last or previous is not None and state.head.before != previous:
            raise WindowFault("the state of day %d is not that of this folder: it stands for %d windows, or goes on from another state"
                              % (last, state.head.window))

    def work(self, name: str = "") -> str:
        return os.path.join(self.folder, WORK, name)

    def end(self) -> None:
        """Takes away the folder that is worked in."""
        if os.path.exists(self.work()):
            shutil.rmtree(self.work())

    def keep(self) -> int:
        """Makes a day of the folder that was worked in; its number."""
        number = 1 + (self.last or 0)
        for name in [*os.listdir(self.work()), ""]:
            to_disk(self.work(name))
        os.rename(self.work(), os.path.dirname(self.path(number, CARRY)))
        to_disk(self.folder)
        self.numbers.append(number)
        return number

    def tidy(self, traces: int) -> None:
        """Takes away what older days went on from, and the traces of all but so many days."""
        for names, count in ((GOING_ON, KEPT), (TRACES, traces)):
            self._take_away(names, count)

    def _take_away(self, names: Sequence[str], count: int) -> None:
        """Files of all but the last so many days."""
        for number in self.numbers[:max(0, len(self.numbers) - count)]:
            for name in names:
                if os.path.exists(self.path(number, name)):
                    os.remove(self.path(number, name))

    def forget(self, count: int) -> None:
        """Takes away what names users of all but the last so many days, and what was asked; what the next day goes on from stays, and a day that
        is still to be told."""
        for number in filter(self.is_told, self.numbers[:max(0, len(self.numbers) - count)]):
            folder = os.path.dirname(self.path(number, "summary.json"))
            for name in os.listdir(folder):
                if name not in STAYS and name not in GOING_ON:
                    os.remove(os.path.join(folder, name))

    def summary(self, number: int) -> Summary:
        with open(self.path(number, "summary.json"), encoding="utf-8") as file:
            return Summary(**json.load(file))

    def page(self, number: int) -> str:
        """The page of a day as the index links to it; an empty text where it has none."""
        return "day%06d/%s" % (number, PAGE) if os.path.exists(self.path(number, PAGE)) else ""

    def is_told(self, number: int) -> bool:
        return os.path.exists(self.path(number, "told"))

    def tell(self, number: int) -> str:
        """The report of a day, as it is written out."""
        # Days of an earlier version have the report alone.
        path = next(path for path in (self.path(number, name) for name in (MAIL, "report.txt")) if os.path.exists(path))
        with open(path, encoding="utf-8") as file:
            return file.read()

    def mark_told(self, number: int) -> None:
        with open(self.path(number, "told"), "w", encoding="utf-8"):
            pass

    def day_of(self, digest: str) -> Optional[int]:
        """The day of logs with a checksum."""
        return next((number for number in reversed(self.numbers) if self.summary(number).digest == digest), None)


def compared(labels: Labels, before: list[tuple[int, dict[str, int]]]) -> Iterator[str]:
    """How many checks of a day name a version and carry a token, beside the days before it with checks; a release that dropped the header,
    or the token, is seen by it."""
    known = [(number, of) for number, of in ((number, labels_of(one)) for number, one in before) if of is not None and of.checks]
    if not known or not labels.checks:
        return
    for words, count in (("name a content version", Labels.naming), ("carry a token", Labels.carrying)):
        now, shares = count(labels) / labels.checks, [count(of) / of.checks for _, of in known]
        if not any(shares):
            continue
        less = "; that is less than half of each day before" if now < min(shares) / 2 else ""
        yield "checks that %s: %d of %d; before: %s%s" % (words, count(labels), labels.checks, ", ".join(
            "%d of %d (day %d)" % (count(of), of.checks, number) for number, of in known), less)


def labels_of(given: dict[str, int]) -> Optional[Labels]:
    """What a summary says; None of a day of an earlier version."""
    return Labels(**given) if given else None


def to_disk(path: str) -> None:
    place = os.open(path, os.O_RDONLY)
    try:
        os.fsync(place)
    finally:
        os.close(place)
