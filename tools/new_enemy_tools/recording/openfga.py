"""OpenFGA: its calls, and where its checks stand among its changes.

A revision is a number: that of a change in the log, counted from its beginning, or of a change of the model. OpenFGA does not say which
state a reply was computed on, and its feed does not have the order of the commits. Of each change it is known from when to when it may
have come (`places.py`): by the readings that did not show it and those that did, and by the write that made it, where that passed here.
A check saw what had come when it was passed on, and nothing that came behind its answer.
"""
import re
from bisect import bisect_right
from collections import deque
from functools import partial
from typing import Any, Iterator, NamedTuple, Optional, Union

from new_enemy_tools.importing.between import STATES
from new_enemy_tools.importing.events import Relationship
from new_enemy_tools.importing.openfga import CONSISTENCY
from new_enemy_tools.importing.openfga_answers import answers_of, relationship_of
from new_enemy_tools.importing.reading import Bad, get
from new_enemy_tools.importing.refusals import Refusals
from new_enemy_tools.importing.service import Answer, ServiceRules
from new_enemy_tools.importing.times import nanoseconds
from new_enemy_tools.recording.bearing import Bearing
from new_enemy_tools.recording.bodies import UNHEARD, request_of, response_of
from new_enemy_tools.recording.core import FULL, WAITING, Asked, Begun, Core
from new_enemy_tools.recording.grpc_calls import GRPC
from new_enemy_tools.recording.http_reading import loose
from new_enemy_tools.recording.lines import ODD, Came, line, time_text, tuple_list, unmapped_line, write_line
from new_enemy_tools.recording.log_files import Doubts, Left, Place, Unshown
from new_enemy_tools.recording.messages import QUIET, UNKNOWN, Ended, Started, Writes
from new_enemy_tools.recording.openfga_messages import MESSAGES
from new_enemy_tools.recording.overlap import Change, Read
from new_enemy_tools.recording.places import Places, Row, Window, by_turns
from new_enemy_tools.recording.ruled import Takes, Unread, ruled
from new_enemy_tools.recording.sequencer import Commit
from new_enemy_tools.recording.stored import Stored

PATH = re.compile(r"/stores/([^/]+)/(check|batch-check|list-objects|streamed-list-objects|list-users|write)")
# Whatever else is asked of a store may be a decision, but for these; so may what is asked by the names of gRPC.
MAY_DECIDE = re.compile(r"/stores/[^/]+/(?!(?:authorization-models|assertions|changes|expand|read|write)(?:/|\Z))|/openfga\.")
CALLS = {"check": "check", "batch-check": "batch", "list-objects": "list", "list-users": "list", "streamed-list-objects": "stream",
         "write": "write"}
REQUESTS = {call: "".join(word.title() for word in call.split("-")) + "Request" for call in CALLS}
# Of so many changes the times are remembered.
TIMES = 100_000
# Of so many changes it is remembered where each tuple's stand, for writes whose answers come later.
RECENT = 20_000
# So many changes of writes may wait until they are shown; and so many tuples may be in doubt, before all are.
MADE = 40_000
TAINTED = 1_000
# Where no changes come, that is told so often.
TOLD = 10 ** 9
# A check waits so long for a write without an answer, which it may have seen.
OPEN = 2 * 10 ** 9
UNSHOWN = "a write was answered that the changes did not show within %g seconds"
UNORDERED = "changes that came at once, in an order that is not known"
CONSISTENT = "a check with an unknown consistency"
OTHER_STORE = "a check of another store; the one that is recorded was the only one when the recorder began"
NOT_NAMED = "a check of another store than --store names (see --ignore-other-stores)"
Rules = tuple[Optional[ServiceRules], Refusals]
Key = tuple[Relationship, bool]


def call_of(method: str, path: str) -> Optional[str]:
    """The kind of a call; None of one that decides nothing."""
    found = PATH.search(path) if method == "POST" else None
    if found and found.end() == len(path):
        return CALLS[found[2]]
    return UNKNOWN if method not in QUIET and MAY_DECIDE.search(loose(path)) else None


def refuse_unknown(path: str, request: object) -> None:
    """Raises Bad where a request over HTTP has a field that its call does not have, as far as that is known."""
    MESSAGES.refuse_unknown(REQUESTS[path.rpartition("/")[2]], request)


class Base(NamedTuple):
    """What the feed begins with, from and to when it was read: what is stored, and the last changes in that; or where an earlier log is left
    the changes that it does not have."""

    store: Optional[str]
    left: Optional[Left]
    stored: Stored
    changes: list[Change]
    cursor: Optional[str]
    rules: Optional[ServiceRules]
    refusals: Refusals
    began: int
    received: int


class Changes(NamedTuple):
    """What a reading gave, from and to when; whether it was of one page; and rules where they are others than before, or can't be read.
    `skips` says whether others may have come before those, which were not read."""

    began: int
    received: int
    is_single: bool
    read: Read
    rules: Optional[Rules]
    skips: bool = False


class Waiting(NamedTuple):
    """A call that waits for a reading behind it: it saw what was known at `since`."""

    message: Ended
    answers: list[Answer]
    since: int
    newest: bool
    token: Optional[int]
    model: Optional[str]


class Made:
    """What a write made that has its answer, and the readings have yet to prove: each of its changes, None where too many wait. It was
    asked and answered at times of the clock of all processes, and answered at a time. `note` is its number in the log."""

    def __init__(self, number: int, keys: list[Optional[Key]], asked: int, answered: int, at: int):
        self.number, self.keys, self.asked, self.answered, self.at = number, keys, asked, answered, at
        self.note = 0

    @property
    def unshown(self) -> Unshown:
        keys = tuple((tuple(tuple_list(key[0])), key[1]) for key in self.keys if key is not None)
        return Unshown(self.note, keys, self.at - (self.answered - self.asked), self.at)


class Taint(NamedTuple):
    why: str
    until: int = 0


class Unsure(NamedTuple):
    """A write that has its answer and made one of several changes of a tuple, it is not known which: when it was answered, the last of
    these changes, and until when all of them had come."""

    given: Relationship
    answered: int
    last: int
    until: int


class Model(NamedTuple):
    """A model and the revision from which on it is in force; one that can't be read has no id."""

    id: Optional[str]
    start: int


class OpenFga:
    """`stale`, `hold` and `horizon` in nanoseconds: how long it may answer from its cache, how long a check waits, and how late the
    changes are shown at least, which is learnt where a write proves that it is more."""

    def __init__(self, store: Optional[str], stale: int, hold: int, horizon: int = 0, tells: bool = False, ignores: bool = False):
        """`tells` says whether the log has from when to when each change may have come, for checks that do not pass here; `ignores` whether
        checks of other stores are no loss, since somebody said so."""
        self.store, self.stale, self.hold, self.horizon, self.tells = store, stale, hold, horizon, tells
        self.ignores, self.other_store = ignores, NOT_NAMED if store else OTHER_STORE
        # until when all changes are in the log, as it was told last
        self.told = 0
        self.takes, self.bearing = Takes(), Bearing()
        self.models: list[Model] = []
        self.muddled: list[tuple[int, int]] = []
        self.places = Places()
        # readings that came before all that the proxy told up to their time
        self.unplaced: deque[Changes] = deque()
        # of the last reading when it began, how many commits it gave, and whether it was of one page
        self.began, self.last = 0, (0, False)
        self.waits: list[Waiting] = []
        # how many decisions those have, or had when that was counted last
        self.weight = 0
        # writes under way by their numbers, with when they were asked, and those that have an answer
        self.open: dict[int, int] = {}
        self.made: deque[Made] = deque()
        # how many of these the log was told of; those that it is to be told of, and that are no more, with the last revision then
        self.notes = 0
        self.fresh: list[Made] = []
        self.gone: deque[tuple[int, int]] = deque()
        # writes with an answer that were told before the log went on, and whether the last change that it had of each tuple then was a coming
        self.early = Writes()
        self.last_live: dict[tuple[str, ...], bool] = {}
        self.unsure: deque[Unsure] = deque()
        # of the last changes where those of each key stand; and of each tuple whether it was there last
        self.recent: deque[tuple[Key, int]] = deque()
        self.shown: dict[Key, deque[int]] = {}
        self.live: dict[Relationship, bool] = {}
        # tuples of which it is not known whether they are there, and why; and until when their changes may have come
        self.tainted: dict[Optional[Relationship], Taint] = {}
        # these as a line has them, for the recorder that goes on; and the horizon that was learnt, in seconds
        self.doubts: Doubts = ()
        self.learnt = 0.0
        # of each change its time, or the latest before it, and its revision
        self.times: list[int] = []
        self.stands: list[int] = []
        self.first = 0
        self.is_from_empty = False

    # What the feed tells

    def take(self, message: Any, core: Core) -> None:
        if isinstance(message, Base):
            self._take_base(message, core)
        elif isinstance(message, Changes):
            self.unplaced.append(message)

    def moved(self, core: Core) -> None:
        """Places what was read before all that the proxy told has come."""
        until = core.sequencer.told_until
        while self.unplaced and self.unplaced[0].received <= until and not self._may_be_one(self.unplaced[0], until):
            self._take_changes(self.unplaced.popleft(), core)

    def _may_be_one(self, message: Changes, until: int) -> bool:
        """Whether changes that stand side by side with one time may be of a write that has no answer yet, and then are one commit."""
        changes = message.read.changes
        return any(one.follows and one.time == before.time for before, one in zip(changes, changes[1:])) and any(
            until - OPEN < asked < message.received for asked in self.open.values())

    def _take_base(self, base: Base, core: Core) -> None:
        """The base state, which is what all changes so far left; or the changes since an earlier log."""
        left = base.left
        self.store, self.places = base.store, Places(left.revision if left else 0)
        rules = ruled(base.rules, base.refusals, self.places.revision + 1, left is None)
        self._take_names(rules.rules)
        is_empty = not base.stored.count and not base.changes
        self.is_from_empty = left is None and is_empty
        place = Place(None, 0, rules.hash) if left is None else left.place
        lines: list[bytes] = []
        for change in base.changes if left else ():
            self.places.add([Row(0, base.received, change)])
            lines.append(self._line(change, self.places.revision, self._came(None, base.received, core)))
        if place.rules != rules.hash:
            self.places.add([Row(0, base.received)])
            lines.append(ruled(base.rules, base.refusals, self.places.revision, False, self._came(None, base.received, core)).data)
        revision = self.places.revision
        self.models = [Model(rules.id or "", revision)]
        self.places = Places(revision, base.received)
        self.began, self.first = base.began, base.received
        core.sequencer.reached = core.sequencer.written = revision
        behind = (left.writes if left else 0) + place.behind + len(base.changes)
        self.tainted = {Relationship(*one) if one else None: Taint(ODD, base.received) for one in place.doubts}
        self.doubts, self.learnt = place.doubts, place.late
        self.horizon = max(self.horizon, min(round(self.learnt * 1e9), self.hold // 2))
        self.last_live = {one.given: one.live for one in (left.changes if left else ()) if one.given is not None}
        self.last_live.update((one.form, one.live) for one in base.changes if one.form is not None)
        if left is not None:
            self._take_unshown(left, base, core)
        self.early = Writes()
        place = Place(base.cursor, revision, rules.hash, behind, place.apart, base.store, place.doubts, place.late)
        core.begin_log(Begun(lines if left else self._base_lines(rules.data, base), is_empty, place))

    def _take_unshown(self, left: Left, base: Base, core: Core) -> None:
        """The writes that the log before does not show, nor what came since; what was answered behind its last line it had not heard of."""
        for one in left.unshown:
            keys: list[Optional[Key]] = [(Relationship(*form), live) for form, live in one.keys]
            ahead = core.now.wall - core.now.clock
            # By a clock that was set meanwhile they may come to stand behind this reading.
            asked, answered = min(one.asked - ahead, base.began), min(one.answered - ahead, base.began)
            self._wait_for(Made(0, keys or [None], asked, answered, one.answered))
        for message in self.early.kept:
            # A line has its time to microseconds.
            if left.heard is None or message.at // 1000 > left.heard // 1000:
                core.tried(message, partial(self._note, message))

    def _wait_for(self, made: Made) -> None:
        """Waits until a write is shown, but for what the base state has of it, or what the log had before: of each tuple that changed lately its
        last change is known."""
        if made.asked < self.first:
            made.keys = [key for key in made.keys if key is None or self.last_live.get(tuple(tuple_list(key[0]))) is not key[1]]
        if not made.keys:
            return
        if len(self.made) < MADE:
            self.made.append(made)
        else:
            self._settle(self.made[-1])
            self.made[-1] = made = Made(0, [None], self.made[-1].asked, made.answered, made.at)
        self.notes += 1
        made.note = self.notes
        self.fresh.append(made)

    def _settle(self, made: Made) -> None:
        """What a write made is shown, or waited for no longer."""
        self.gone.append((self.places.revision, made.note))

    def unshown(self) -> list[Unshown]:
        return [made.unshown for made in self.made]

    def noted(self, revision: int) -> tuple[list[Unshown], list[int]]:
        fresh, self.fresh, shown = self.fresh, [], list[int]()
        while self.gone and self.gone[0][0] <= revision:
            shown.append(self.gone.popleft()[1])
        return [made.unshown for made in fresh], shown

    def _base_lines(self, rules: bytes, base: Base) -> Iterator[bytes]:
        """The rules and the base state, which may be long; and the last changes in it, which come again where another recorder goes on."""
        last = [[form, form is None or change.live] for change in base.changes for form in [change.form]]
        yield line("feed", store=self.store, changes=base.stored.count, last=last or None) + rules + b"".join(map(_unread_line, base.stored.odd))
        yield from self.takes.base_lines(0, base.stored.items())

    def _take_names(self, rules: ServiceRules) -> None:
        self.takes.add(rules)
        self.bearing.add(rules)

    def _came(self, low: Optional[int], high: int, core: Core) -> Optional[Came]:
        """From when to when something came, by the clock of the wall, where that is told."""
        return (None if low is None else core.earliest(low), core.latest(high)) if self.tells else None

    def _line(self, change: Change, revision: int, came: Optional[Came] = None) -> bytes:
        """A change as the log has it."""
        change.revision = revision
        self.times.append(max(change.time, self.times[-1] if self.times else 0))
        self.stands.append(revision)
        if change.given is None:
            return _unread_line(change) + write_line(revision, [], [], change.time, came)
        kept, unmapped = self.takes.sorted_out([(change.given, change.reason)])
        add, remove = (kept, []) if change.live else ([], kept)
        return unmapped + write_line(revision, add, remove, change.time, came)

    def _take_changes(self, message: Changes, core: Core) -> None:
        before = self.places.revision
        changes, odd = by_turns(message.read.changes, lambda change: None if change.given is None else self.live.get(change.given))
        odd += [change for change in changes if change.is_late]
        rows = self._rows(changes, message)
        if message.read.changes and self.last[1] and message.is_single and not self.horizon:
            # What one page showed came before what it did not show.
            self.places.lower(self.last[0], min(row.high for row in rows))
        self._put_rows(rows, message, odd, core)
        for change in odd:
            self._taint(change.given, Taint(ODD, message.received))
        if message.rules is not None:
            self._take_rules(*message.rules, message, core)
            if message.read.changes or message.skips:
                # Which of them came first is not known.
                self.muddled.append((before, self.places.revision))
        self.began, began_before = message.began, self.began
        self.last = (0 if message.rules is not None else self.places.revision - before, message.is_single)
        for listed in self.times, self.stands:
            del listed[:max(0, len(listed) - TIMES)]
        core.sequencer.reached = self.places.revision
        if self.tells and (message.read.changes or message.rules or message.began - self.told > TOLD):
            self.told = message.began
            until = time_text(core.earliest(message.began) - self.horizon)
            core.put_commit(Commit(self.places.revision, line("read", until=until), message.received, changes=0))
        self._prove(message.began, message.received)
        self._give_up(message.received - self.hold, core)
        self._forget()
        self._put_waiting(message, began_before, core)

    def _rows(self, changes: list[Change], message: Changes) -> list[Row]:
        """The commits of a reading in the order that the log has, each with the times between which it came."""
        # How late changes are shown may be learnt of these.
        found = self._makers(changes, message)
        low, rows = self.began - self.horizon, []
        is_as_read = changes == message.read.changes
        for group in _writes(changes, found) if is_as_read else [[place] for place in range(len(changes))]:
            made = found[group[0]]
            high = message.received if made is None else min(message.received, made.answered)
            rows.append(Row(low, high, *(changes[place] for place in group)))
        later: dict[Optional[Relationship], int] = {}
        for row in reversed(rows):
            # A tuple's changes come one behind the other.
            row.high = min([row.high, *(later[one] for one in row.tuples() if one in later)])
            later.update(dict.fromkeys(row.tuples(), row.high))
        return sorted(rows, key=lambda row: row.high)

    def _makers(self, changes: list[Change], message: Changes) -> list[Optional[Made]]:
        """Of each change a write that has its answer, and made it or a later one of its tuple."""
        wanted: dict[Key, deque[Made]] = {}
        for made in self.made:
            if made.asked < message.received:
                for key in made.keys:
                    if key is not None and not self._after(key, made.asked):
                        wanted.setdefault(key, deque()).append(made)
        makers: list[Optional[Made]] = []
        for change in changes:
            found = wanted.get((change.given, change.live)) if change.given is not None else None
            maker = found.popleft() if found else None
            makers.append(maker)
            if maker is not None and self.began - self.horizon > maker.answered:
                self._learn(message.received - maker.asked)
        return _spread(changes, makers)

    def _learn(self, late: int) -> None:
        """A write that had its answer was not shown by a reading behind it, so the changes are shown late."""
        late = min(late, self.hold // 2)
        if late > self.horizon:
            for row in self.places.rows[-STATES:]:
                row.low -= late - self.horizon
            self.horizon, self.learnt = late, late / 1e9

    def _put_rows(self, rows: list[Row], message: Changes, odd: list[Change], core: Core) -> None:
        for row in rows:
            self.places.add([row])
            revision = self.places.revision
            came = self._came(row.low, row.high, core)
            data = b"".join(self._doubt(change, odd) + self._line(change, revision, came) for change in row.changes)
            commit = Commit(revision, data, message.received, changes=len(row.changes))
            if row is rows[-1]:
                apart = tuple(sorted(one.revision for one in message.read.apart))
                commit = commit._replace(cursor=message.read.cursor, behind=message.read.behind, apart=apart)
            core.put_commit(commit)
            for change in row.changes:
                self._remember(change, row)

    def _remember(self, change: Change, row: Row) -> None:
        if change.given is not None:
            self.live[change.given] = change.live
            self._clear(change.given, row)
            self.recent.append(((change.given, change.live), change.revision))
            self.shown.setdefault((change.given, change.live), deque()).append(change.revision)

    def _doubt(self, change: Change, odd: list[Change]) -> bytes:
        """Says in a log of the changes alone that it is not known what a change leaves, since no check passes here that could be a gap."""
        if not self.tells or change.given is None or all(one is not change for one in odd):
            return b""
        return unmapped_line(ODD, str(change.given), change.given[:3])

    def _take_rules(self, rules: Optional[ServiceRules], refusals: Refusals, message: Changes, core: Core) -> None:
        revision = self.places.revision
        try:
            found = ruled(rules, refusals, revision + 1, False, self._came(self.began, message.received, core))
        except Unread as fault:
            core.say("a new model can't be read: %s" % fault)
            core.lose("a model that can't be read", 0)
            self.models.append(Model(None, revision))
            return
        self.places.add([Row(self.began, message.received)])
        self._take_names(found.rules)
        self.models.append(Model(found.id or "", revision + 1))
        core.put_commit(Commit(revision + 1, found.data, message.received, None, found.hash))

    def _forget(self) -> None:
        """Of changes that stand far back it is not remembered any more where they are."""
        while self.unsure and self.unsure[0].until <= self.places.oldest:
            self.unsure.popleft()
        while len(self.recent) > RECENT:
            key, _ = self.recent.popleft()
            shown = self.shown[key]
            shown.popleft()
            if not shown:
                del self.shown[key]
                if (key[0], not key[1]) not in self.shown:
                    self.live.pop(key[0], None)

    # Writes

    def begin(self, message: Started) -> None:
        self.open[message.number] = message.clock

    def _note(self, message: Ended) -> None:
        """What a write made that has its answer. Where it is no fault that a tuple is there, or is not, it may have made nothing."""
        asked = self.open.pop(message.number, message.clock - (message.at - message.begun))
        if message.request is None or message.response is None or not 200 <= message.status < 300:
            return
        request, keys = self._request(message), []
        for part, otherwise, live in ("writes", "on_duplicate", True), ("deletes", "on_missing", False):
            given = get(request, part)
            keys += [(relationship_of(one), live) for one in get(given, "tuple_keys") or ()
                     if (get(given, otherwise) or "error") == "error"]
        self._wait_for(Made(message.number, [*keys], asked, message.clock, message.at))

    def _after(self, key: Key, asked: int) -> list[int]:
        """The changes of a key that a write may have made which was asked at a time."""
        found = []
        for revision in reversed(self.shown.get(key, ())):
            row = self.places.row(revision)
            if row is None or row.high <= asked:
                break
            found.append(revision)
        return found

    def _prove(self, began: int, received: int) -> None:
        """What a reading shows that began behind the answers of writes: their changes, and which these are where there is one only."""
        kept: deque[Made] = deque()
        for made in self.made:
            if made.answered > began - self.horizon:
                kept.append(made)
                continue
            made.keys = [key for key in made.keys if key is None or not self._is_proved(key, made, received)]
            if made.keys:
                kept.append(made)
            else:
                self._settle(made)
        self.made = kept

    def _is_proved(self, key: Key, made: Made, received: int) -> bool:
        """Whether the change of a write was shown."""
        found = self._after(key, made.asked)
        rows = [(revision, row) for revision, row in zip(found, map(self.places.row, found)) if row is not None and row.low < made.answered]
        if len(rows) == 1:
            _, row = rows[0]
            row.low, row.unit = max(row.low, made.asked), made.number
        elif rows:
            self.unsure.append(Unsure(key[0], made.answered, rows[0][0], received))
        return bool(found)

    def _may_be_another(self, since: int, low: int, goals: list[Relationship]) -> bool:
        """Whether a check surely saw a write that bears on its question, and it is not known whether that made a change which the check
        need not have seen. It looks at what was proved since the check began."""
        for one in reversed(self.unsure):
            if one.until <= since:
                break
            if one.answered <= since and one.last > low and any(self.bearing.bears(one.given, goal) for goal in goals):
                return True
        return False

    def _give_up(self, before: int, core: Core) -> None:
        """What was made before a time and is not shown yet is waited for no longer; the calls that need it are lost, and later ones that
        it bears on."""
        while self.made and self.made[0].answered < before:
            first = self.made.popleft()
            for key in first.keys:
                if key is not None:
                    self._taint(key[0], Taint(UNSHOWN % (self.hold / 1e9)))
                else:
                    self.tainted = {None: Taint(UNSHOWN % (self.hold / 1e9))}
                    self._tell_doubts()
            self._settle(first)
            lost = [one for one in self.waits if one.message.clock >= first.asked]
            self.waits = [one for one in self.waits if one.message.clock < first.asked]
            for one in lost:
                core.forget(one.message.number)
            since = min([first.at, *(one.message.begun for one in lost)])
            core.lose(UNSHOWN % (self.hold / 1e9), since, sum(len(one.answers) for one in lost))
        for number, asked in list(self.open.items()):
            if asked < before:
                del self.open[number]

    def _taint(self, given: Optional[Relationship], taint: Taint) -> None:
        if given is not None:
            self.tainted[given] = taint
            if len(self.tainted) > TAINTED:
                # Too many to be told from others.
                self.tainted = {None: taint}
            self._tell_doubts()

    def _tell_doubts(self) -> None:
        self.doubts = tuple(() if one is None else tuple(tuple_list(one)) for one in self.tainted)

    def _clear(self, given: Relationship, row: Row) -> None:
        """A tuple has changed again: where that came behind all before, it is as this change says. Else it may be one that was missed between two."""
        taint = self.tainted.get(given)
        if taint is not None and row.low < taint.until:
            self.tainted[given] = taint._replace(until=max(taint.until, row.high))
        elif taint is not None:
            del self.tainted[given]
            self._tell_doubts()

    # Calls

    def known(self, clock: int) -> int:
        return self.places.known(clock)

    def overhear(self, message: Ended) -> None:
        """No answer says what it saw."""

    def waiting(self) -> bool:
        return bool(self.waits)

    def late(self, before: int) -> list[Ended]:
        found = [one.message for one in self.waits if one.message.clock < before]
        if found:
            self.waits = [one for one in self.waits if one.message.clock >= before]
        self._weigh()
        return found

    def end(self, message: Ended, asked: Asked, core: Core) -> None:
        if message.call == "write":
            if core.is_ready:
                self._note(message)
            else:
                self.early.keep(message)
            self.open.pop(message.number, None)
            return
        request = self._request(message)
        if request is None:
            if not self.ignores:
                core.elsewhere += 1
                raise Bad(self.other_store)
            core.pass_elsewhere()
        answers = [] if request is None else list(answers_of(request, response_of(message), UNHEARD))
        if not answers:
            core.forget(message.number)
            return
        newest = message.save is not None or asks_for_newest(request)
        since = self._since(asked.clock, 0 if newest else self.stale)
        token = None if message.token is None or newest and message.save is None else self._place_of(message.token)
        self.weight += len(answers)
        if self.weight > WAITING:
            raise Bad(FULL)
        self.waits.append(Waiting(message.without_bodies(), answers, since, newest, token, get(request, "authorization_model_id") or None))

    def _request(self, message: Ended) -> Any:
        """What a call asks of the store that is recorded, None where it is of another; over gRPC the request names it."""
        if message.encoding == GRPC:
            request = request_of(message)
            return request if self.store in (None, get(request, "store_id")) else None
        if message.path.split("/")[-3:-1] != ["stores", self.store]:
            return None
        request = request_of(message)
        refuse_unknown(message.path, request)
        return request

    def _since(self, clock: int, stale: int) -> int:
        """When that was known which a check has seen at least that may have its answer from a cache so old. What was told late may have been asked
        before the base state was read."""
        since = clock - stale
        if since < self.first and not self.is_from_empty:
            raise Bad("a check may have seen a state from before the log")
        return since

    def _place_of(self, token: str) -> int:
        """The last change at or before a time."""
        at = nanoseconds(token)
        if at is None:
            raise Bad("X-Content-Token is no time of RFC 3339")
        place = bisect_right(self.times, at)
        if place:
            return self.stands[place - 1]
        if not self.is_from_empty or len(self.times) == TIMES:
            raise Bad("X-Content-Token is from before the log, or too old")
        return 0

    def _put_waiting(self, message: Changes, began_before: int, core: Core) -> None:
        """Places the calls that a reading shows all of which they may have seen: it began behind them, and no write is left that they may
        have seen and that it does not prove. What changes came meanwhile is told by the reading behind that one, so a call with such waits
        for it too."""
        first = min((made.asked for made in self.made), default=None)
        for asked in self.open.values():
            if asked > message.began - OPEN:
                first = asked if first is None else min(first, asked)
        waiting, self.waits = self.waits, []
        for one in waiting:
            ended = one.message.clock
            is_early = ended + self.horizon > message.began or first is not None and first <= ended
            if is_early or ended + self.horizon > began_before and self.places.known(one.since) < self.places.revision:
                self.waits.append(one)
            else:
                core.tried(one.message, partial(self._put, one, core))
        self._weigh()

    def _weigh(self) -> None:
        self.weight = sum(len(one.answers) for one in self.waits)

    def _put(self, one: Waiting, core: Core) -> None:
        window = self.places.window(one.since, one.message.clock)
        span = self._span(one, window)
        if isinstance(span, str):
            core.forget(one.message.number)
            core.lose(span, one.message.begun, len(one.answers))
            return
        low, high = span
        values: dict[str, Any] = {"token": one.token}
        if low < high:
            values["newest_between" if one.newest else "snapshot_between"] = [low, high]
        else:
            values["snapshot"] = low
            values["token"] = low if one.newest and one.token is None else one.token
        # A content check stands before all that it may not have seen, and behind all that was known.
        place = self._known_last(one, window) if one.message.save is not None else self.places.revision
        core.put_entries(one.message, one.answers, place, **values)

    def _known_last(self, one: Waiting, window: Window) -> int:
        """The last change that was known when a check began; before it there may be others that were not."""
        return self.places.surely(window, one.since, lambda row: True)

    def _span(self, one: Waiting, window: Window) -> Union[str, Window]:
        """From where to where in a window a check may have looked; or why that can't be said."""
        if any(window.low < end and window.high > start for start, end in self.muddled):
            return "the model and tuples changed at once"
        if window.high - window.low >= STATES:
            return "more than %d changes came while a check was under way" % STATES
        goals = [answer.goal for answer in one.answers]
        for given, taint in self.tainted.items():
            if any(self.bearing.bears(given, goal) for goal in goals):
                return taint.why
        if window.low == window.high:
            return self._of_model(one, window)
        if self._may_be_another(one.since, window.low, goals):
            return UNORDERED
        if self.places.is_unsure(window, lambda row: True) and any(self.places.is_unsure(window, partial(self._bears, goal)) for goal in goals):
            return UNORDERED
        low = min(self.places.surely(window, one.since, partial(self._bears, goal)) for goal in goals)
        least = self._known_last(one, window) if one.message.save is not None else low
        if any(self.places.has_unknown(Window(low, least), one.since, partial(self._bears, goal)) for goal in goals):
            return UNORDERED
        return self._of_model(one, Window(max(low, least), window.high))

    def _bears(self, goal: Relationship, row: Row) -> bool:
        return not row.changes or any(self.bearing.bears(change.given, goal) for change in row.changes)

    def _of_model(self, one: Waiting, window: Window) -> Union[str, Window]:
        """The part of a window in which the model was in force that a check names."""
        for model, behind in zip(self.models, [*self.models[1:], None]):
            start, end = max(window.low, model.start), window.high if behind is None else min(window.high, behind.start - 1)
            if start <= end and model.id is None:
                return "a model that can't be read"
            if start <= end and model.id == one.model:
                return Window(start, end)
        return window if one.model is None else "a check by another model than the latest"


def asks_for_newest(request: object) -> bool:
    """Whether a request asks for the newest state, by a name or a number; raises Bad where it can't be told."""
    found = get(request, "consistency")
    if isinstance(found, bool) or not isinstance(found, (str, int, type(None))) or found not in CONSISTENCY:
        raise Bad(CONSISTENT)
    return CONSISTENCY[found]


def _spread(changes: list[Change], makers: list[Optional[Made]]) -> list[Optional[Made]]:
    """The makers, also of changes that stand beside one of the same write with its time."""
    found, last = list(makers), len(changes) - 1
    for places, step in (range(1, last + 1), -1), (range(last - 1, -1, -1), 1):
        for place in places:
            change, beside, made = changes[place], changes[place + step], found[place + step]
            follows = change.follows if step < 0 else beside.follows
            if found[place] is None and made is not None and follows and change.time == beside.time and (change.given, change.live) in made.keys:
                found[place] = made
    return found


def _writes(changes: list[Change], makers: list[Optional[Made]]) -> list[list[int]]:
    """The places of changes, those of a write together that stand side by side in the feed with one time: they came at once."""
    found: list[list[int]] = []
    for place, (change, made) in enumerate(zip(changes, makers)):
        is_next = bool(found) and made is not None and made is makers[place - 1] and not change.reason and not changes[place - 1].reason
        if is_next and change.follows and change.time == changes[place - 1].time:
            found[-1].append(place)
        else:
            found.append([place])
    return found


def _unread_line(change: Change) -> bytes:
    return unmapped_line(change.reason or "tuple that can't be read", userset=change.userset)
