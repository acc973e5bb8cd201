"""Neutral events: what the front ends hand to the core, and their form as JSON lines."""
import sys
from dataclasses import dataclass, field
from typing import Any, Iterable, Iterator, NamedTuple, Optional, Union

from new_enemy_tools.importing.checks import NEWEST
from new_enemy_tools.importing.printed import hint_of
from new_enemy_tools.importing.refusals import Refusals
from new_enemy_tools.importing.times import nanoseconds
from new_enemy_tools.keys import unread, unread_in_expression
from new_enemy_tools.rules import RulesFault, places, shape_of_expression


# The reason of a gap at the beginning of a recorder's log.
BEGINS = "the log begins"
# In place of the relation of a userset: every user of a type.
EVERY = "*"
STAMP = frozenset(("sequence", "time", "clock"))
EVERY_EVENT = STAMP | {"event", "file", "line"}
ENTRY = EVERY_EVENT | {"goal", "snapshot", "snapshot_between", "newest_between", "reply", "token", "version"}
KEYS = {"rules": EVERY_EVENT | {"revision", "model", "namespaces", "came"},
        "write": EVERY_EVENT | {"revision", "base", "add", "remove", "came"},
        "check": ENTRY | {"newest"}, "content": ENTRY | {"newest"},
        "gap": EVERY_EVENT | {"from", "to", "reason", "lost"}, "elsewhere": EVERY_EVENT | {"count"}, "unmapped": EVERY_EVENT | {"reason", "detail", "userset", "version", "base"},
        "feed": EVERY_EVENT | {"store", "changes", "last"}, "read": EVERY_EVENT | {"until", "revision", "unsure"}, "log": EVERY_EVENT | {"number", "before", "service", "store", "hold", "cursor", "revision", "rules_sha256", "behind", "apart", "doubts", "late", "unshown"},
        "place": EVERY_EVENT | {"cursor", "revision", "rules_sha256", "behind", "apart", "doubts", "late", "unshown", "shown"}, "closed": EVERY_EVENT | {"count", "sha256", "full"}}
# Lines of a recorder for itself and for the chain of its files.
RECORDER = frozenset(("log", "feed", "read", "place", "closed"))
NAMESPACE, RELATION = frozenset(("name", "relations")), frozenset(("name", "rewrite"))
SLOTS = {"slots": True} if sys.version_info >= (3, 10) else {}


class Relationship(NamedTuple):
    """A tuple of a service; `user_relation` is None where the user stands for itself, and EVERY for all of its type."""

    type: str
    id: str
    relation: str
    user_type: str
    user_id: str
    user_relation: Optional[str] = None

    def __str__(self) -> str:
        user = "%s:%s" % (self.user_type, self.user_id)
        plain = self.user_relation in (None, EVERY)
        return "%s:%s#%s@%s" % (*self[:3], user if plain else "%s#%s" % (user, self.user_relation))


    @property
    def is_every(self) -> bool:
        return self.user_relation == EVERY


class RelationRule(NamedTuple):
    """A rule and its line; its file where that is not the one of all rules beside it."""

    name: str
    rewrite: dict[str, Any]
    line: int
    file: Optional[str] = None


class Entry(NamedTuple):
    """A check or a content check; its snapshot and token are numbers that rise with the service's time.

    One with a `lowest` was evaluated somewhere from there to its snapshot; where it is the `newest` too, the newest state was asked for.
    `asked` is what the service says of its snapshot and token,
    where that is no number yet.
    """

    kind: str
    file: str
    line: int
    goal: tuple[Any, ...]
    reply: bool
    snapshot: Optional[int]
    shown: str
    token: Optional[int] = None
    version: Optional[str] = None
    lowest: Optional[int] = None
    newest: bool = False
    asked: Optional[tuple[Any, ...]] = None
    sequence: Optional[tuple[int, int]] = None
    time: Optional[int] = None
    clock: str = ""
    # why it is audited in part, and the label of the version that it names and the trace does not
    part: Optional[str] = None
    named: Optional[str] = None

    @property
    def question(self) -> str:
        return str(Relationship(*self.goal))


@dataclass(**SLOTS)
class Event:
    """A write, or rules; its revision is a number that rises with the service's time.

    Writes of one `group` that stand together are one commit, where no check looks between them.
    """

    kind: str
    file: str
    line: int
    revision: Optional[int] = None
    shown: Optional[str] = None
    base: bool = False
    group: Optional[int] = None
    sequence: Optional[tuple[int, int]] = None
    time: Optional[int] = None
    clock: str = ""
    add: list[Relationship] = field(default_factory=list)
    remove: list[Relationship] = field(default_factory=list)
    asked: Optional[tuple[Any, ...]] = None
    namespaces: dict[str, list[RelationRule]] = field(default_factory=dict)


Line = Union[Entry, Event]


class Stamp(NamedTuple):
    """Where an event stands in time."""

    sequence: Optional[int]
    time: Optional[int]
    clock: str


def is_whole(value: object) -> bool:
    return isinstance(value, int) and not isinstance(value, bool) and value >= 0


def stamp_of(value: dict[str, Any], file: str, line: int, refusals: Refusals) -> Stamp:
    """The keys that a recorder may add to any line: `sequence`, `time` and `clock`."""
    if STAMP.isdisjoint(value):
        return Stamp(None, None, file)
    sequence, time, clock = value.get("sequence"), value.get("time"), value.get("clock")
    if sequence is not None and not is_whole(sequence):
        refusals.refuse(file, line, "`sequence` is no whole number")
        sequence = None
    nanos = nanoseconds(time)
    if time is not None and nanos is None:
        refusals.refuse(file, line, "`time` is no time of RFC 3339")
    if clock is not None and not isinstance(clock, str):
        refusals.refuse(file, line, "`clock` is no text")
        clock = None
    return Stamp(sequence, nanos, clock or file)


def note_number(value: object, file: str, line: int, refusals: Refusals) -> None:
    """Notes the number of a line, whatever else it says."""
    number = value.get("sequence") if isinstance(value, dict) else None
    if number is not None and is_whole(number):
        refusals.numbers.add(number, file, line)


def sequence_of(stamp: Stamp, place: int = 0) -> Optional[tuple[int, int]]:
    return None if stamp.sequence is None else (stamp.sequence, place)


def put_stamp(event: Event, stamp: Stamp, place: int = 0) -> Event:
    event.sequence = sequence_of(stamp, place)
    event.time, event.clock = stamp.time, stamp.clock
    return event


class _Fault(Exception):
    """Why an event is refused."""


def _refuse_unread(value: object, known: frozenset[str], where: str = "") -> None:
    for key in unread(value, known):
        raise _Fault(key.said(where and " in " + where))


def newest_of(value: dict[str, Any], fault: type) -> bool:
    """Whether a content check says that it was evaluated at the newest state; raises the fault that is given."""
    newest = value.get("newest")
    if not isinstance(newest, (bool, type(None))):
        raise fault("`newest` is neither true nor false")
    if newest and value.get("snapshot_between") is not None:
        raise fault("`newest` goes with one `snapshot`, and not with `snapshot_between`")
    return bool(newest)


def _are_texts(value: list[Any]) -> bool:
    try:
        return "" not in value and "".join(value) != ""
    except TypeError:
        return False


def _relationship(value: object, where: str, is_goal: bool = False) -> Relationship:
    sizes = (5,) if is_goal else (5, 6)
    if not isinstance(value, list) or len(value) not in sizes or not _are_texts(value):
        raise _Fault("%s is no list of %s texts" % (where, " or ".join(map(str, sizes))))
    if value[5:] == [EVERY] and value[4] != EVERY:
        raise _Fault("%s has `*` for the relation of one user; every user of a type is [.., type, \"*\", \"*\"]" % where)
    return Relationship(*value)


def _namespaces(value: dict[str, Any], line: int) -> dict[str, list[RelationRule]]:
    found: dict[str, list[RelationRule]] = {}
    listed = value.get("namespaces")
    if not isinstance(listed, list):
        raise _Fault("`namespaces` is no list")
    for number, namespace in enumerate(listed):
        where = "namespaces[%d]" % number
        if not isinstance(namespace, dict) or not isinstance(namespace.get("name"), str) \
                or not isinstance(namespace.get("relations"), list):
            raise _Fault("%s has no name or no relations" % where)
        _refuse_unread(namespace, NAMESPACE, where)
        if namespace["name"] in found:
            raise _Fault("namespace %s stands twice" % namespace["name"])
        found[namespace["name"]] = [_rule(given, where, line) for given in namespace["relations"]]
        _refuse_names(namespace["name"], found[namespace["name"]])
    return found


def _rule(given: object, where: str, line: int) -> RelationRule:
    if not isinstance(given, dict) or not isinstance(given.get("name"), str):
        raise _Fault("a relation of %s has no name" % where)
    _refuse_unread(given, RELATION, "relation %s" % given["name"])
    rewrite = given.get("rewrite", {"this": {}})
    try:
        shape_of_expression(rewrite, "the rewrite of %s" % given["name"])
    except RulesFault as fault:
        raise _Fault(fault.where) from None
    for key in unread_in_expression(rewrite):
        raise _Fault(key.said(" in the rewrite of " + given["name"]))
    return RelationRule(given["name"], rewrite, line)


def _refuse_names(namespace: str, relations: list[RelationRule]) -> None:
    names = [relation.name for relation in relations]
    for relation in relations:
        if names.count(relation.name) > 1:
            raise _Fault("relation %s#%s stands twice" % (namespace, relation.name))
        for place in places(relation.rewrite):
            if place.names and place.names[0] not in names:
                raise _Fault("%s#%s reads %s, which %s does not declare"
                             % (namespace, relation.name, place.names[0], namespace))


def _whole(value: dict[str, Any], key: str) -> int:
    if not is_whole(value.get(key)):
        raise _Fault("`%s` is no whole number" % key)
    return int(value[key])


def _whole_or_none(value: dict[str, Any], key: str) -> Optional[int]:
    return None if value.get(key) is None else _whole(value, key)


def _write(event: Event, value: dict[str, Any]) -> None:
    event.revision = _whole(value, "revision")
    event.shown = str(event.revision)
    if not isinstance(value.get("base"), (bool, type(None))):
        raise _Fault("`base` is neither true nor false")
    event.base = value.get("base") is True
    for key in ("add", "remove"):
        listed = [] if value.get(key) is None else value[key]
        if not isinstance(listed, list):
            raise _Fault("`%s` is no list" % key)
        getattr(event, key).extend(_relationship(given, "%s[%d]" % (key, place)) for place, given in enumerate(listed))
    if event.base and event.remove:
        raise _Fault("a base state removes nothing")


def _snapshot(value: dict[str, Any]) -> tuple[Optional[int], int]:
    """The lowest revision that a check may have looked at, where there are several, and the highest."""
    key = "snapshot_between" if value.get("newest_between") is None else "newest_between"
    between = value.get(key)
    if between is None:
        return None, _whole(value, "snapshot")
    for other in "snapshot", "snapshot_between":
        if other != key and value.get(other) is not None:
            raise _Fault("both `%s` and `%s`" % (other, key))
    if not isinstance(between, list) or len(between) != 2 or not all(map(is_whole, between)) or between[0] > between[1]:
        raise _Fault("`%s` is no list of two whole numbers, the lower one first" % key)
    return between[0], between[1]


def _entry(kind: str, file: str, line: int, value: dict[str, Any], stamp: Stamp) -> Entry:
    goal = _relationship(value.get("goal"), "`goal`", True)
    lowest, snapshot = _snapshot(value)
    shown = str(snapshot) if lowest is None else "between %d and %d" % (lowest, snapshot)
    token = _whole_or_none(value, "token")
    if not isinstance(value.get("reply"), bool):
        raise _Fault("`reply` is neither true nor false")
    newest = newest_of(value, _Fault)
    if not isinstance(value.get("version"), (str, type(None))):
        raise _Fault("`version` is no text")
    if kind == "check" and newest:
        newest, token = False, NEWEST if token is None and value.get("version") is not None else token
    newest |= value.get("newest_between") is not None
    return Entry(kind, file, line, goal, value["reply"], snapshot, shown, token, value.get("version"), lowest, newest, None,
                 sequence_of(stamp), stamp.time, stamp.clock)


def _gap(event: Event, value: dict[str, Any], refusals: Refusals) -> None:
    """A time of which a recorder says that its log has not all of it."""
    start, end, lost = value.get("from"), value.get("to"), value.get("lost")
    since = nanoseconds(start)
    if nanoseconds(end) is None or start is not None and since is None or not isinstance(value.get("reason"), str):
        raise _Fault("a gap has no `reason`, or its `from` and `to` are no times of RFC 3339")
    if lost is not None and not is_whole(lost):
        raise _Fault("`lost` of a gap is no whole number")
    count = " (%d lost)" % lost if is_whole(lost) and lost else ""
    refusals.gap("%s:%d" % (event.file, event.line),
                 "gap %sto %s: %s%s" % ("" if start is None else "from %s " % start, end, value["reason"], count), since)
    # What was asked before a log begins is no part of it.
    if lost or value["reason"] != BEGINS:
        until = nanoseconds(end)
        refusals.lose(value["reason"], lost or None, None if since is None or until is None else max(0, until - since))


def _unmapped(value: dict[str, Any], file: str, line: int, refusals: Refusals) -> None:
    """What a recorder saw and has no form for."""
    userset, version, reason = value.get("userset"), value.get("version"), value.get("reason")
    for key, listed, may_be_none in ("userset", userset, 1), ("version", version, None):
        # A userset without an id is all of its relation.
        if listed is not None and (not isinstance(listed, list) or len(listed) != 3 or not all(
                isinstance(one, str) or one is None and place == may_be_none for place, one in enumerate(listed))):
            raise _Fault("`%s` is no list of three texts" % key)
    if not isinstance(reason, str):
        raise _Fault("`reason` is no text")
    detail = str(value.get("detail") or "")
    if userset:
        refusals.unmapped(file, line, reason, detail)
        refusals.doubt(*userset)
        refusals.has_older |= value.get("base") is True
    else:
        refusals.unread_check(file, line, reason, detail)
    if version:
        refusals.versions.add((version[0], version[1], version[2]))


def _event(value: object, file: str, line: int, refusals: Refusals) -> Optional[Line]:
    if not isinstance(value, dict) or not isinstance(value.get("event"), str) or value["event"] not in KEYS:
        raise _Fault("`event` is none of rules, write, check, content%s" % hint_of(value))
    _refuse_unread(value, KEYS[value["event"]])
    if value["event"] in RECORDER:
        if not refusals.is_chained:
            raise _Fault("a line `%s` stands in the files of tools/record alone, which are checked as a chain, and this is none that can be: "
                         "give all of them, as tools/record wrote them" % value["event"])
        refusals.denies_circles |= value.get("service") == "openfga"
        return None
    stamp = stamp_of(value, file, line, refusals)
    source, source_line = value.get("file", file), value.get("line", line)
    if not isinstance(source, str) or not is_whole(source_line):
        raise _Fault("`file` is no text or `line` no whole number")
    if value["event"] in ("check", "content"):
        return _entry(str(value["event"]), source, source_line, value, stamp)
    event = put_stamp(Event(value["event"], source, source_line), stamp)
    if event.kind == "unmapped":
        _unmapped(value, source, source_line, refusals)
        return None
    if event.kind == "elsewhere":
        refusals.elsewhere += _whole(value, "count")
        return None
    if event.kind == "gap":
        _gap(event, value, refusals)
    elif event.kind == "rules":
        event.revision = _whole_or_none(value, "revision")
        event.shown = None if event.revision is None else str(event.revision)
        event.namespaces = _namespaces(value, source_line)
    else:
        _write(event, value)
    return event


def read_events(values: Iterable[tuple[int, object]], path: str, refusals: Refusals) -> Iterator[Line]:
    """Neutral events from JSON lines."""
    for line, value in values:
        note_number(value, path, line, refusals)
        try:
            event = _event(value, path, line, refusals)
            if event is not None:
                yield event
        except _Fault as fault:
            refusals.refuse(path, line, str(fault))
