"""What applications say of the checks that they asked (examples/recorder/new_enemy_events.py), beside a log of the changes alone.

An application knows when a check was asked and answered, by its clock. Of OpenFGA the log of the changes says from when to when each may
have come: a check saw what had surely come when it was asked, and nothing that came when it had its answer. Of SpiceDB the answer says
what it saw, and the log since when all changes up to a revision were known.
"""
from collections import Counter
from functools import partial
from typing import Any, Iterator, NamedTuple, Optional, Sequence, Union

from new_enemy_tools.importing import causes
from new_enemy_tools.importing.between import STATES
from new_enemy_tools.importing.events import EVERY, Relationship, is_whole
from new_enemy_tools.importing.times import nanoseconds
from new_enemy_tools.importing.zedtokens import Older, read_revision
from new_enemy_tools.keys import unread
from new_enemy_tools.recording.bearing import Bearing
from new_enemy_tools.recording.lines import time_text
from new_enemy_tools.recording.overlap import Change as Changed
from new_enemy_tools.recording.places import Places, Row as Came
from new_enemy_tools.recording.sequencer import Known
from new_enemy_tools.recording.sketches import Given, JoinFault, Row, Sketch, Value, Version

KEYS = {"own": frozenset(("event", "format", "service", "store", "time")),
        "asked": frozenset(("event", "began", "ended", "goal", "reply", "newest", "saves", "shows")),
        "lost": frozenset(("event", "from", "to", "count")), "over": frozenset(("event", "time", "asked"))}
# What a check says besides.
ASKED = {"openfga": frozenset(("model",)), "spicedb": frozenset(("snapshot", "token"))}
UNORDERED = "changes that came at once, in an order that is not known"
BEFORE = "a check before the log of the changes begins"
BEHIND = "a check that the log of the changes does not reach"
MANY = "more than %d changes came while a check was under way" % STATES
OTHER = "a check by another model than the latest"
UNSURE = "the rules at a snapshot are not known"
LOST = "an application could not write its events"
NEVER = 1 << 62


class Own(NamedTuple):
    """What a process of an application says: the service and its store, until when, and its checks with where they stand; `is_over` where it
    ended. Of what was overheard (overheard.py) each line says its store, and of some it is counted why they are passed over."""

    name: str
    service: str
    store: Optional[str]
    until: int
    rows: list[Row]
    is_over: bool
    passed: Counter[str] = Counter()


def _fault(row: Row, why: str) -> JoinFault:
    return JoinFault("%s:%d: %s" % (row.file, row.line, why))


def _read_times(row: Row, *names: str) -> list[int]:
    times = [nanoseconds(row.value.get(name)) for name in names]
    if None in times or sorted(times) != times:  # type: ignore[type-var]
        raise _fault(row, "%s are no times of RFC 3339 in their order" % " and ".join("`%s`" % name for name in names))
    return times  # type: ignore[return-value]


def _refuse_odd(row: Row, service: str) -> None:
    value, event = row.value, row.value["event"]
    if event not in KEYS:
        raise _fault(row, "`event` is none of own, asked, lost, over")
    for key in unread(value, KEYS[event] | (ASKED[service] if event == "asked" else frozenset())):
        raise _fault(row, key.said())
    if event == "asked":
        goal = value.get("goal")
        if not isinstance(goal, list) or len(goal) != 5 or not all(isinstance(one, str) and one for one in goal):
            raise _fault(row, "`goal` is no list of 5 texts")
        if not isinstance(value.get("reply"), bool) or not isinstance(value.get("newest", False), bool):
            raise _fault(row, "`reply` or `newest` is neither true nor false")
        for name in {"saves", "shows", *ASKED[service]} & value.keys():
            if not isinstance(value[name], str) or not value[name]:
                raise _fault(row, "`%s` is no text, or an empty one" % name)
        for name in ASKED["spicedb"] & value.keys():
            _number(row, value[name])
        if service == "spicedb" and "snapshot" not in value:
            raise _fault(row, "the check has no `snapshot`, the token of its reply (`checkedAt`)")
        if {"saves", "shows"} <= value.keys():
            raise _fault(row, "`saves` beside `shows`")
        _read_times(row, "began", "ended")
    elif event == "lost":
        _read_times(row, "from", "to")
    if event in ("lost", "over") and not is_whole(value.get("count" if event == "lost" else "asked")):
        raise _fault(row, "a count is no whole number")


def own_of(given: Given) -> Own:
    """The events of one process; raises JoinFault."""
    rows = list(given.rows())
    head = rows[0].value if rows else {"event": ""}
    service, store = str(head.get("service")), head.get("store")
    is_known = service == "spicedb" and store is None or service == "openfga" and isinstance(store, str)
    if head["event"] != "own" or head.get("format") != 1 or not is_known:
        raise JoinFault("%s does not begin with a line `own` of format 1, and of service openfga with a store, or spicedb" % given.name)
    for row in rows:
        _refuse_odd(row, service)
    last, asked = rows[-1], [row for row in rows if row.value["event"] == "asked"]
    is_over = last.value["event"] == "over"
    if is_over and last.value["asked"] != len(asked):
        raise _fault(last, "the file has %d checks, and %d were written: it was changed or cut" % (len(asked), last.value["asked"]))
    if sum(row.value["event"] in ("own", "over") for row in rows) != 1 + is_over:
        raise JoinFault("%s has more than one beginning or end" % given.name)
    times = [nanoseconds(row.value.get(key)) or 0 for row in rows for key in ("ended", "to", "time")]
    return Own(given.name, service, store, max(times), [row for row in rows if row.value["event"] in ("asked", "lost")], is_over)


def issued_by(own: Own) -> set[Version]:
    return {(row.value["goal"][0], row.value["goal"][1], row.value["saves"]) for row in own.rows if row.value.get("saves") and row.value["reply"]}


def refuse_other_store(own: list[Own], service: str, store: Optional[str]) -> None:
    for one in own:
        if one.service != service:
            raise JoinFault("%s is of %s, and the logs of %s" % (one.name, one.service, service))
        if one.store != store:
            raise JoinFault("%s is of the store %s, and the logs of %s" % (one.name, one.store, store))


def _number(row: Row, token: str) -> int:
    """The revision of a token of SpiceDB; raises JoinFault."""
    try:
        found = read_revision(token)
    except Older:
        found = None
    if found is None or found.number is None:
        raise _fault(row, "%r is no token with a revision that is a number" % token[:80])
    return found.number


def _no_one_user(goal: list[str]) -> Optional[str]:
    """Why a check is not of one user, if it is not; no service takes these letters in an id."""
    return causes.USER_USERSET if "#" in goal[4] else causes.USER_WILDCARD if goal[4] == EVERY else None


class Said(NamedTuple):
    """A line of an application as a recorder would have written it, behind so many changes of the log; or why it can't be."""

    revision: int
    value: Value


class Placing:
    """What places the checks of applications among the changes of a log."""

    def known(self, at: int) -> int:
        """The newest revision that was surely known at a time."""
        raise NotImplementedError

    def looked(self, row: Row, began: int, ended: int) -> Union[str, Said]:
        """Behind which revision a check stands, and what it says of the state that it saw; or why that can't be said."""
        raise NotImplementedError

    def said(self, row: Row) -> Said:
        value = row.value
        if value["event"] == "unmapped":
            at = nanoseconds(value["time"]) or 0
            return Said(self.known(at), {key: one for key, one in value.items() if key not in ("store", "time")})
        if value["event"] == "lost":
            lost = {"event": "gap", "from": value["from"], "to": value["to"], "reason": value.get("reason", LOST), "lost": value["count"], "time": value["to"]}
            return Said(self.known(nanoseconds(value["to"]) or 0), lost)
        began, ended = _read_times(row, "began", "ended")
        looked = _no_one_user(value["goal"]) or self.looked(row, began, ended)
        is_content = value.get("saves") is not None
        made: Value = {"event": "content" if is_content else "check", "goal": value["goal"], "reply": value["reply"]}
        if value["reply"] or not is_content:
            made["version"] = value.get("saves") or value.get("shows")
        if isinstance(looked, str):
            version = made.get("version") if is_content else None
            saved = {} if version is None else {"version": [*value["goal"][:2], version]}
            return Said(self.known(began), {"event": "unmapped", "reason": looked, "detail": str(Relationship(*value["goal"])), **saved})
        kept = {key: one for key, one in {**made, **looked.value}.items() if one is not None}
        return Said(looked.revision, {**kept, "time": time_text(ended)})


class Tokened(Placing):
    """Of SpiceDB: by the tokens of the answers. Known is what Watch had given, and what an answer had shown, by clocks that are apart by no
    more than `skew`."""

    def __init__(self, sketch: Sketch, own: Sequence[Own], skew: int):
        self.sketch, self.history = sketch, Known(sketch.revision)
        shown = [(at + skew, revision) for at, revision in sketch.reads]
        shown += [(_read_times(row, "ended")[0] + skew, _number(row, row.value["snapshot"]))
                  for one in own for row in one.rows if row.value["event"] == "asked"]
        for at, revision in sorted(shown):
            self.history.add(at, revision)
        # what Watch gave last: when, and up to which revision
        self.until = max(at for at, _ in sketch.reads) + skew
        self.reached = max(revision for _, revision in sketch.reads)

    def known(self, at: int) -> int:
        return self.history.at(at)

    def looked(self, row: Row, began: int, ended: int) -> Union[str, Said]:
        value, snapshot = row.value, _number(row, row.value["snapshot"])
        is_content, token = value.get("saves") is not None, value.get("token") and _number(row, value["token"])
        place = max(self.known(began), snapshot)
        hangs_on_known = is_content or token is None and value.get("newest")
        if is_content:
            token = (token or snapshot) if value["reply"] else None
        elif token is None and value.get("newest"):
            token = place
        if snapshot < self.sketch.revision:
            return BEFORE
        if max(place, token or 0) > self.reached or hangs_on_known and began > self.until:
            return BEHIND
        if any(start <= snapshot < end for start, end in self.sketch.unsure):
            return UNSURE
        return Said(place, {"snapshot": snapshot, "token": token})


class Timed(Placing):
    """The changes of a log, each with the times between which it came, by a clock that is apart by no more than `skew`."""

    def __init__(self, sketch: Sketch, skew: int, stale: int, bearing: Bearing):
        self.bearing, self.skew, self.stale = bearing, skew, stale
        assert sketch.rules is not None
        # each model, and the revision from which on it is in force
        self.models: list[tuple[int, Optional[str]]] = [(sketch.revision, sketch.rules.get("model"))]
        began, self.until = sketch.timed
        self.began = began + skew
        self.places = Places(sketch.revision, began + skew, NEVER)
        for step in sketch.steps:
            if step[0].came is None:
                raise JoinFault("%s does not say of all changes when they came" % sketch.given.name)
            since, end = step[0].came
            changes = [Changed(given, True, 0) for change in step for given in change.tuples or (None,)]
            if step[0].is_rules:
                self.models.append((step[0].value["revision"], step[0].value.get("model")))
            self.places.add([Came(since - skew, end + skew, *([] if step[0].is_rules else changes))])

    def known(self, at: int) -> int:
        return self.places.known(at)

    def looked(self, row: Row, began: int, ended: int) -> Union[str, Said]:
        value = row.value
        is_newest = value.get("newest") or value.get("saves") is not None
        began -= 0 if is_newest else self.stale
        if began < self.began:
            return BEFORE
        if ended + self.skew > self.until:
            return BEHIND
        window = self.places.window(began, ended)
        if window.high - window.low >= STATES:
            return MANY
        bears = partial(self._bears, Relationship(*value["goal"]))
        if self.places.is_unsure(window, bears):
            return UNORDERED
        low = self.places.surely(window, began, bears)
        if value.get("model") is not None and self._models(low, window.high) != {value["model"]}:
            return OTHER
        if value.get("saves") is None:
            return Said(window.high, {"newest_between" if is_newest else "snapshot_between": [low, window.high]})
        place = self.places.surely(window, began, lambda row: True)
        if self.places.has_unknown(window._replace(low=low, high=max(low, place)), began, bears):
            return UNORDERED
        return Said(place, {"newest_between": [max(low, place), window.high]})

    def _models(self, low: int, high: int) -> set[Optional[str]]:
        """The models that were in force from one revision to another."""
        ends = [start for start, _ in self.models[1:]] + [NEVER]
        return {model for (start, model), end in zip(self.models, ends) if start <= high and end > low}

    def _bears(self, goal: Relationship, row: Came) -> bool:
        return not row.changes or any(self.bearing.bears(change.given, goal) for change in row.changes)


def placing_of(sketches: list[Sketch], own: Sequence[Own], skew: int, stale: int, bearing: Optional[Bearing]) -> tuple[int, Placing]:
    """The log of the changes by which the events of applications are placed: the one that says when they came, for longest."""
    found: list[tuple[int, int]] = [(one.timed[1] - one.timed[0], number) for number, one in enumerate(sketches) if one.timed[1]]
    if not found:
        raise JoinFault("events of an application need a log of the changes: that of `ne record --changes-only`")
    number = max(found)[1]
    return number, Tokened(sketches[number], own, skew) if bearing is None else Timed(sketches[number], skew, stale, bearing)


def lines_of(own: Own, timed: Placing) -> Iterator[tuple[Row, Said]]:
    """The lines of a process in the order of their places."""
    return iter(sorted(((row, timed.said(row)) for row in own.rows), key=lambda one: one[1].revision))


def open_gap(own: Own, end: int, skew: int) -> Optional[dict[str, Any]]:
    """What a process did not say that did not end as it should."""
    if own.is_over:
        return None
    return {"event": "gap", "from": time_text(max(0, own.until - skew)), "to": time_text(max(end, own.until)), "time": time_text(max(end, own.until)),
            "reason": "%s has no end, since its process runs or was killed" % own.name}
