"""What a recorder's log has of the changes, and of what else joined logs have to know before they are written."""
from typing import Any, Callable, Iterator, NamedTuple, Optional

from new_enemy_tools.faults import ToolFault
from new_enemy_tools.importing.events import Relationship
from new_enemy_tools.importing.reading import Bad
from new_enemy_tools.importing.times import nanoseconds
from new_enemy_tools.importing.zedtokens import Older, read_revision
from new_enemy_tools.recording.log_files import LATER

Value = dict[str, Any]
# The type and id of an object, and the label of a version of it.
Version = tuple[str, str, str]
JOINED = "joined "
# Behind all revisions.
FAR = 1 << 200
# So long a check may wait, where its log does not say that it is longer.
WAITED = 31 * 10 ** 9


class JoinFault(ToolFault):
    """Why logs can't be joined."""


class Unreached(JoinFault):
    """A log begins with changes that the others do not have, or do not have yet. Where it `is_behind` them, it may be that which of their changes
    it began with only its own next ones tell."""

    def __init__(self, name: str, why: str, is_behind: bool = False):
        super().__init__("%s %s" % (name, why))
        self.name, self.is_behind = name, is_behind


class Row(NamedTuple):
    """A line of a log, and where it stands."""

    file: str
    line: int
    value: Value


class Given(NamedTuple):
    """A recorder's log, which can be gone through several times; `is_closed` where its last file is."""

    name: str
    rows: Callable[[], Iterator[Row]]
    is_closed: bool


class Change:
    """A line of changes: what it is known by in other logs, its tuples, and the lines of what has no form before and behind it."""

    __slots__ = ("key", "value", "tuples", "before", "behind", "came")

    def __init__(self, key: tuple[Any, ...], value: Value, tuples: list[Relationship]):
        self.key, self.value, self.tuples = key, value, tuples
        self.before: list[Value] = []
        self.behind: list[Value] = []
        # from when to when it came, where the log says that
        self.came: Optional[tuple[int, int]] = None

    @property
    def is_rules(self) -> bool:
        event: str = self.value["event"]
        return event == "rules"


def tuples_of(value: Value) -> list[Relationship]:
    return [Relationship(*one) for side in ("add", "remove") for one in value.get(side) or ()]


def version_of(value: Value) -> Optional[Version]:
    """The version that a line saves or shows, or that a line without a form may have saved."""
    version = value.get("version")
    if isinstance(version, list):
        return (version[0], version[1], version[2])
    return None if version is None else (value["goal"][0], value["goal"][1], version)


class Sketch:
    """What a log begins with and its changes, step by step: each is a revision with its lines."""

    def __init__(self, given: Given):
        self.given = given
        self.service = ""
        self.store: Optional[str] = None
        # how many changes the feed had had when the log began; and when it ends
        self.count: Optional[int] = None
        self.until = 0
        # what waited when its recorder was killed had its answer so long before its last line, or later
        self.waited = WAITED
        self.base: set[Relationship] = set()
        self.revision = 0
        self.rules: Optional[Value] = None
        # relations of objects that the base state has without a form
        self.unformed: set[tuple[str, ...]] = set()
        self.numbers: list[int] = []
        self.steps: list[list[Change]] = []
        self.issued: set[Version] = set()
        # gaps of which it is not known when they begin
        self.headless: list[Value] = []
        self.is_base = True
        # from when to when the log has all changes, where it says when each came; and until when it had them when the last came
        self.timed = (0, 0)
        # of SpiceDB since when all changes up to each revision were known; and from which one to before which one the rules are not
        self.reads: list[tuple[int, int]] = []
        self.unsure: list[tuple[int, int]] = []
        self._pending: list[Value] = []
        self._rules_change: Optional[Change] = None

    def read(self) -> "Sketch":
        """Takes the whole log; raises JoinFault."""
        for row in self.given.rows():
            self.take(row)
        if not self.is_begun:
            raise JoinFault("%s has no base state; give the whole log, from its first file on" % self.given.name)
        return self

    @property
    def is_begun(self) -> bool:
        """Whether its base state is whole."""
        return self.rules is not None and not self.is_base

    def take(self, row: Row) -> None:
        value, event = row.value, row.value["event"]
        if event != "write":
            # The time of a write is the service's.
            self.until = max(self.until, nanoseconds(value.get("time")) or 0)
        if event == "unmapped" and value.get("userset"):
            self._take_unformed(value)
            return
        if event == "log" and value.get("hold") is not None:
            self.waited = max(self.waited, int((value["hold"] + LATER) * 1e9))
        if event == "log" and not self.service:
            self.service = str(value.get("service"))
            if self.service.startswith(JOINED):
                raise JoinFault("%s is a joined log; give the recorders' own" % self.given.name)
        elif event == "feed":
            self.store, self.count = value["store"], value["changes"]
        elif event == "read":
            until = nanoseconds(value.get("until")) or 0
            self.timed = (self.timed[0] or until, until)
            if value.get("unsure"):
                self.unsure.append((value["revision"], FAR))
            elif value.get("revision") is not None:
                self.reads.append((until, value["revision"]))
        elif event == "place":
            self._take_place(value)
        elif event in ("write", "rules"):
            self._take_change(value)
            return
        elif event in ("content", "unmapped") and value.get("version") is not None:
            version = version_of(value)
            assert version is not None
            self.issued.add(version)
        elif event == "gap" and value.get("from") is None:
            self.headless.append(value)
        self._rules_change = None

    def _take_place(self, value: Value) -> None:
        if self.is_base and self.service == "spicedb" and value.get("cursor"):
            try:
                found = read_revision(value["cursor"])
            except (Older, Bad):
                found = None
            if found is None or found.snapshot is not None:
                raise JoinFault("%s is of SpiceDB on PostgreSQL, where each recorder numbers the commits by itself; such logs can't be joined"
                                % self.given.name)
        self.is_base = False

    def _take_unformed(self, value: Value) -> None:
        if self.is_base:
            self.unformed.add(tuple(value["userset"]))
        elif self._rules_change is not None:
            self._rules_change.behind.append(value)
        else:
            self._pending.append(value)

    def _take_change(self, value: Value) -> None:
        tuples = tuples_of(value) if value["event"] == "write" else []
        if value.get("base"):
            self.base.update(tuples)
            self.revision = value["revision"]
            return
        if value.get("revision") is None:
            self.rules = value
            return
        if value["event"] == "rules":
            self.unsure = [(start, min(end, value["revision"])) for start, end in self.unsure]
        change = Change(self._key(value, tuples), value, tuples)
        change.before, self._pending = self._pending, []
        if value.get("came") is not None:
            since, end = value["came"]
            # What came while no recorder ran, the last reading did not have.
            change.came = (nanoseconds(since) or self.timed[1], nanoseconds(end) or 0)
        self._rules_change = change if change.is_rules else None
        if self.numbers and self.numbers[-1] == value["revision"]:
            self.steps[-1].append(change)
        else:
            self.numbers.append(value["revision"])
            self.steps.append([change])

    def _key(self, value: Value, tuples: list[Relationship]) -> tuple[Any, ...]:
        """What a change is known by: of SpiceDB its revision, of OpenFGA its time, its tuple and whether that came or went."""
        if self.service == "spicedb":
            return (value["revision"], value["event"])
        if value["event"] == "rules":
            if value.get("model") is None:
                raise JoinFault("%s does not say which model came; it was written by a recorder that is too old to be joined" % self.given.name)
            return ("rules", value["model"])
        if value.get("time") is None:
            raise JoinFault("%s does not say when its changes came; it was written by a recorder that is too old to be joined" % self.given.name)
        return (value["time"], tuples[0] if tuples else None, bool(value.get("add")))


def last_of(sketch: Sketch) -> int:
    """The last revision of a log."""
    return sketch.numbers[-1] if sketch.numbers else sketch.revision


def refuse_unlike(sketches: list[Sketch]) -> None:
    """Raises JoinFault where logs are of different services or stores."""
    first = sketches[0]
    for one in sketches[1:]:
        if one.service != first.service:
            raise JoinFault("%s is a log of %s, and %s of %s" % (one.given.name, one.service, first.given.name, first.service))
        if one.store != first.store:
            raise JoinFault("%s is a log of the store %s, and %s of %s" % (one.given.name, one.store, first.given.name, first.store))
    for one in sketches:
        if one.service != "spicedb" and one.store is None:
            raise JoinFault("%s does not say which store it is of; it was written by a recorder that is too old to be joined" % one.given.name)
