"""SpiceDB: its calls, and its changes by Watch.

A revision is the one in the service's tokens, or on PostgreSQL the number of a commit. A reply says by `checkedAt` which it was computed on.
"""
import re
import time
from collections import deque
from functools import partial
from itertools import chain
from typing import Any, Callable, Iterable, Iterator, NamedTuple, Optional, Protocol

from new_enemy_tools.importing.events import Relationship
from new_enemy_tools.importing.reading import Bad, get
from new_enemy_tools.importing.refusals import Refusals
from new_enemy_tools.importing.service import Answer, ServiceRules
from new_enemy_tools.importing.spicedb import OPERATIONS
from new_enemy_tools.importing.spicedb_answers import answers_of, relationship_of, revision_at
from new_enemy_tools.importing.spicedb_schema import Parser
from new_enemy_tools.importing.zedtokens import Older, Revision, Snapshot, read_revision
from new_enemy_tools.recording.asking import FeedFault
from new_enemy_tools.recording.bodies import UNHEARD, request_of, response_of
from new_enemy_tools.recording.core import FULL, WAITING, Asked, Begun, Core
from new_enemy_tools.recording.http_reading import loose
from new_enemy_tools.recording.lines import line, time_text, write_line
from new_enemy_tools.recording.log_files import Doubts, Left, Place, Unshown
from new_enemy_tools.recording.messages import QUIET, UNKNOWN, Ended, Started, Writes
from new_enemy_tools.recording.own_events import UNSURE
from new_enemy_tools.recording.ruled import Takes, Unread, refuse_unread, ruled
from new_enemy_tools.recording.sequencer import Commit, Known
from new_enemy_tools.recording.sketches import FAR
from new_enemy_tools.recording.spicedb_messages import MESSAGES
from new_enemy_tools.recording.stored import Stored
from new_enemy_tools.recording.transactions import Transactions

CALLS = {"/v1/permissions/check": "check", "/v1/permissions/checkbulk": "batch",
         "/v1/experimental/permissions/bulkcheckpermission": "batch", "/v1/permissions/resources": "stream",
         "/v1/permissions/subjects": "stream", "/v1/relationships/write": "write", "/v1/relationships/delete": "write"}
MAY_DECIDE = re.compile(r"/v1/(?:experimental/)?permissions/(?!expand(?:/|\Z))|/authzed\.api\.")
# A stream that ended is opened again after so long.
AGAIN = 0.05
# Of so many transactions it is remembered that they came.
RECENT = 10_000
# Where no changes come, a log of the changes alone says so this often, as far as there are checkpoints.
TOLD = 10 ** 9


def call_of(method: str, path: str) -> Optional[str]:
    """The kind of a call; None of one that decides nothing."""
    found = CALLS.get(path[path.rfind("/v1/"):]) if method == "POST" else None
    return found or (UNKNOWN if method not in QUIET and MAY_DECIDE.search(loose(path)) else None)


class Source(Protocol):
    """The recorder's own requests, over HTTP or gRPC; all raise FeedFault."""

    def schema(self) -> tuple[str, str]:
        """The text, and the token of the moment at which it was read."""

    def relationships(self, of: str, token: str) -> Iterable[dict[str, Any]]:
        """All of a type, at the moment of a token."""

    def use_key(self, key: str) -> None:
        """Takes another key for what is asked from now on."""

    def watch(self, token: str) -> Iterable[dict[str, Any]]:
        """The responses of Watch behind a token, until the stream ends."""


class Update(NamedTuple):
    given: Relationship
    live: bool
    reason: Optional[str]


class Watched(NamedTuple):
    """A response of Watch, with the rules where it says that they changed; `is_known` where an earlier log has it."""

    revision: Revision
    token: str
    updates: list[Update]
    rules: Optional[tuple[Optional[ServiceRules], Refusals]]
    received: int
    is_known: bool


class Unsure(NamedTuple):
    """From one revision to before another the rules are not known. On PostgreSQL they are from the commits so far on."""

    start: int
    end: int


class Base(NamedTuple):
    """What the feed begins with; no relationships where it goes on from an earlier log. `head` is what the service had by `received`."""

    left: Optional[Left]
    revision: Revision
    token: str
    stored: Stored
    rules: Optional[ServiceRules]
    refusals: Refusals
    head: Revision
    received: int


def revision_of(token: object) -> Revision:
    """The revision of a token; raises Bad."""
    try:
        revision = read_revision(token)
    except Older as fault:
        raise Bad("a token %s" % fault) from None
    if revision is None:
        raise Bad("a token without a revision")
    return revision


def _sees(read: Revision, revision: Revision) -> bool:
    """Whether what was read at one revision has what came at another."""
    if read.snapshot is None or revision.snapshot is None:
        return (revision.number or 0) <= (read.number or 0)
    return revision.snapshot.own is not None and read.snapshot.sees(revision.snapshot.own)


def _is_past(revision: Revision, read: Revision) -> bool:
    """Whether all that was read at one revision has come with a response of Watch at another."""
    if read.snapshot is None or revision.snapshot is None:
        return (revision.number or 0) >= (read.number or 0)
    own = revision.snapshot.own
    return own >= read.snapshot.xmax if own is not None else revision.snapshot.contains(read.snapshot)


def _response(message: Ended) -> Any:
    """An answer; of a stream the parts that are no fault."""
    response = response_of(message)
    return [one for one in response if get(one, "error") is None] if message.call == "stream" else response


def read_rules(text: str) -> tuple[Optional[ServiceRules], Refusals]:
    refusals = Refusals()
    return Parser(text, "the schema", refusals).schema(), refusals


def demanded_by(request: Any) -> Any:
    """The token that a request demands to be seen."""
    consistency = get(request, "consistency")
    return get(get(consistency, "atLeastAsFresh") or get(consistency, "atExactSnapshot"), "token")


def _traits(given: object) -> Optional[str]:
    try:
        MESSAGES.refuse_unknown("Relationship", given)
    except Bad as fault:
        return str(fault)
    return "caveat" if get(given, "optionalCaveat") else "expiration" if get(given, "optionalExpiresAt") else None


class Feed:
    """Reads the changes, in a thread of its own."""

    def __init__(self, source: Source, is_alone: bool = False):
        """`is_alone` where the changes alone are recorded, and joined with what others say of the checks."""
        self.source, self.is_alone = source, is_alone
        self.token: Optional[str] = None
        # the last number, or the last transactions, that came; and how many to come an earlier log has
        self.number = 0
        self.recent: deque[Optional[int]] = deque((), RECENT)
        self.known = 0
        # responses behind rules that were read later than they changed, and when these were read
        self.held: list[Watched] = []
        self.read_at: Optional[Revision] = None

    def run(self, left: Optional[Left], put: Callable[[Any], None]) -> None:
        try:
            if self.token is None:
                put(self._base(left))
            while True:
                for watched, read_at in self._watched():
                    for one in self._sure(watched, read_at):
                        put(one)
                time.sleep(AGAIN)
        except (Bad, Unread) as fault:
            raise FeedFault(str(fault)) from None

    def use_key(self, key: str) -> None:
        self.source.use_key(key)

    def _base(self, left: Optional[Left]) -> Base:
        text, token = self.source.schema()
        rules, refusals = read_rules(text)
        refuse_unread(rules, refusals)
        assert rules is not None
        head, received = revision_of(token), time.monotonic_ns()
        if left is not None:
            token = left.place.cursor or token
        revision = revision_of(token)
        if self.is_alone and revision.snapshot is not None:
            raise FeedFault("the changes alone of SpiceDB on PostgreSQL can't be joined with checks; give its logs to ne import spicedb", True)
        if left is not None:
            self.token, self.known = token, left.behind if revision.snapshot else 0
            self.number = left.revision
            # The stream may begin with that.
            self.recent.append(revision.snapshot and revision.snapshot.own)
            return Base(left, revision, token, Stored(), rules, refusals, head, received)
        stored = Stored()
        for of in rules.event.namespaces:
            for given in self.source.relationships(of, token) if rules.event.namespaces[of] else ():
                if not stored.put(relationship_of(given), _traits(given)):
                    raise Bad("a relationship with a line's end in it: %r" % (given,))
        self.token, self.number = token, revision.number or 0
        # What came while these were read is known too.
        head, received = revision_of(self.source.schema()[1]), time.monotonic_ns()
        return Base(None, revision, token, stored, rules, refusals, head, received)

    def _watched(self) -> Iterator[tuple[Watched, Revision]]:
        """The responses, each with the revision at which its rules were read."""
        assert self.token is not None
        for response in self.source.watch(self.token):
            received = time.monotonic_ns()
            token = get(get(response, "changesThrough"), "token")
            revision = revision_of(token)
            if self._is_old(revision, response):
                continue
            updates = []
            for update in get(response, "updates") or ():
                given = get(update, "relationship")
                updates.append(Update(relationship_of(given), OPERATIONS[get(update, "operation")], _traits(given)))
            rules, read_at = None, revision
            if get(response, "schemaUpdated"):
                text, schema_token = self.source.schema()
                rules, read_at = read_rules(text), revision_of(schema_token)
            is_known = self.known > 0 and bool(updates or rules)
            self.known -= is_known
            self.token, self.number = token, revision.number or 0
            self.recent.append(revision.snapshot and revision.snapshot.own)
            yield Watched(revision, token, updates, rules, received, is_known), read_at

    def _is_old(self, revision: Revision, response: Any) -> bool:
        """Whether a response came before, as it may where a stream is opened again."""
        has_change = bool(get(response, "updates") or get(response, "schemaUpdated"))
        if revision.snapshot is None:
            # That there is still nothing more matters where checks are told by others.
            is_again = self.is_alone and not has_change
            return (revision.number or 0) < self.number + (0 if is_again else 1)
        if has_change and revision.snapshot.own is None:
            raise Bad("the snapshot of a change does not name the transaction that wrote")
        return has_change and revision.snapshot.own in self.recent

    def _sure(self, watched: Watched, read_at: Revision) -> list[Any]:
        """What can be told: rules that were read later than they changed wait until it is known that they did not change again."""
        found: list[Any] = []
        if self.held and watched.rules is not None and self.read_at is not None and _sees(self.read_at, watched.revision):
            found = [Unsure(self.held[0].revision.number or 0, watched.revision.number or FAR), *(one._replace(rules=None) for one in self.held)]
            self.held = []
        if watched.rules is not None:
            self.read_at = read_at
        self.held.append(watched)
        if self.read_at is None or _is_past(watched.revision, self.read_at):
            found += self.held
            self.held, self.read_at = [], None
        return found


class Waiting(NamedTuple):
    """A call on PostgreSQL, which waits for the commits that it saw, or should have seen; `begun` is when, by the clock of all processes. Of
    its request what it demands is kept, and not the rest, which may be long."""

    message: Ended
    request: Any
    answers: list[Answer]
    begun: int
    snapshot: Snapshot
    demanded: Optional[Snapshot]


class Answered(NamedTuple):
    """What an answer on PostgreSQL saw. It is known since then, and has a number when the changes have come to it."""

    clock: int
    snapshot: Snapshot


class SpiceDb:
    def __init__(self, tells: bool = False) -> None:
        """`tells` says whether the log has when all up to a revision was known, for checks that do not pass here."""
        self.tells, self.told = tells, 0
        self.history, self.base = Known(), 0
        self.takes = Takes()
        self.unsure: list[Unsure] = []
        self.placed_at = 0
        self.doubts: Doubts = ()
        self.learnt = 0.0
        # on PostgreSQL
        self.transactions: Optional[Transactions] = None
        self.pending: list[Waiting] = []
        # how many decisions those have
        self.weight = 0
        self.answered: list[Answered] = []
        # writes with an answer that were told before the log began or went on
        self.early = Writes()

    # What the feed tells

    def take(self, message: Any, core: Core) -> None:
        if isinstance(message, Base):
            self._take_base(message, core)
        elif isinstance(message, Unsure):
            if self.transactions is not None:
                message = message._replace(start=self.transactions.count)
            self.unsure.append(message)
            core.lose("the schema changed twice before its text was read", 0, 0)
            self._tell(message.start, core.now.clock, core, True)
            # What waits was put there when these rules were not known to be unsure.
            start = message.start
            core.lose_entries(lambda one: one.place >= start, UNSURE)
        elif isinstance(message, Watched):
            self._take_watched(message, core)

    def _take_base(self, base: Base, core: Core) -> None:
        left = base.left
        revision = left.revision if left else base.revision.number or 0
        if base.revision.snapshot is not None:
            self.transactions = Transactions(base.revision.snapshot, left.revision - left.behind if left else 0)
        rules = ruled(base.rules, base.refusals, revision + 1, left is None)
        self.takes.add(rules.rules)
        lines: Iterable[bytes] = []
        if left is None:
            lines = chain([rules.data], self.takes.base_lines(revision, base.stored.items()), [self._read(revision, core.now.wall)])
        elif left.place.rules != rules.hash and self.transactions is None:
            # Nothing was recorded meanwhile, so it does not matter where in between they changed.
            revision += 1
            # Where they changed, Watch says when it comes to it.
            lines = [rules.data, self._read(revision, core.now.wall, True)]
        self.base = revision if left is None else left.base
        self.history = Known(revision)
        core.sequencer.reached = revision
        core.begin_log(Begun(lines, not base.stored.tuples, self._first_place(base, revision, rules.hash)))
        # What answers had shown that no log has, the service has too.
        self._hear(base.received, base.head)
        early, self.early = self.early, Writes()
        for message in early.kept:
            core.tried(message, partial(self._take_written, message))

    def _first_place(self, base: Base, revision: int, rules: str) -> Place:
        """Where the changes are when the log begins; on PostgreSQL the log may have some that come again."""
        behind = base.left.behind if base.left and self.transactions is not None else 0
        return Place(base.token, revision, rules, behind)

    def _revision(self, message: Watched) -> int:
        """The number of a response of Watch; on PostgreSQL, how many commits there are by then."""
        snapshot = message.revision.snapshot
        if self.transactions is None or snapshot is None:
            return message.revision.number or 0
        self.transactions.watch(snapshot)
        return self.transactions.add(snapshot.own or 0) if message.updates or message.rules else self.transactions.count

    def _take_watched(self, message: Watched, core: Core) -> None:
        revision = self._revision(message)
        if not message.is_known:
            self._put_watched(message, revision, core)
        answered, self.answered = self.answered, []
        for told in answered:
            self._learn(told)
        waiting, self.pending, self.weight = self.pending, [], 0
        for one in waiting:
            core.tried(one.message, partial(self._wait, one, core))

    def _put_watched(self, message: Watched, revision: int, core: Core) -> None:
        self.history.add(message.received, revision)
        if message.rules is not None:
            try:
                found = ruled(*message.rules, revision, False)
                self.takes.add(found.rules)
                self.unsure = [one._replace(end=min(one.end, revision)) for one in self.unsure]
                core.put_commit(Commit(revision, found.data, message.received, message.token, found.hash))
            except Unread as fault:
                core.say(str(fault))
                self.unsure.append(Unsure(revision, FAR))
                self._tell(revision, message.received, core, True)
                core.lose("a schema that can't be read", 0, 0)
        elif message.updates:
            core.put_commit(self._commit(message, revision, core.now.wall - (core.now.clock - message.received)))
        else:
            self._checkpoint(message, revision, core)
        if message.updates or message.rules is not None or message.received - self.told > TOLD:
            self._tell(revision, message.received, core)

    def _tell(self, revision: int, clock: int, core: Core, unsure: Optional[bool] = None) -> None:
        """Since when all changes up to a revision are known, where the log has that; or from which one on the rules are not."""
        if self.tells:
            self.told = clock if unsure is None else self.told
            data = self._read(revision, core.latest(clock), unsure)
            core.put_commit(Commit(revision, data, clock, changes=0))

    def _read(self, revision: int, at: int, unsure: Optional[bool] = None) -> bytes:
        return line("read", until=time_text(at), revision=revision, unsure=unsure) if self.tells else b""

    def _commit(self, message: Watched, revision: int, came: int) -> Commit:
        """The changes of a response, and when it came, by the wall clock."""
        sides = []
        for live in (True, False):
            kept, unmapped = self.takes.sorted_out((one.given, one.reason) for one in message.updates if one.live == live)
            sides.append((kept, unmapped))
        (add, first), (remove, second) = sides
        return Commit(revision, first + second + write_line(revision, add, remove, came), message.received, message.token)

    def _checkpoint(self, message: Watched, revision: int, core: Core) -> None:
        """All changes up to here are known; now and then that is written, so that a later recorder goes on from there."""
        core.sequencer.reached = max(core.sequencer.reached, revision)
        if core.ticks - self.placed_at > 300:
            self.placed_at = core.ticks
            core.put_commit(Commit(revision, b"", message.received, message.token))

    def moved(self, core: Core) -> None:
        """What the proxy tells needs not come before what the service does: tokens say what was seen."""

    # Calls

    def begin(self, message: Started) -> None:
        """The answer of a write says what it made."""

    def known(self, clock: int) -> int:
        return self.history.at(clock)

    def waiting(self) -> bool:
        return bool(self.pending)

    def late(self, before: int) -> list[Ended]:
        found = [one.message for one in self.pending if one.message.clock < before]
        self.pending = [one for one in self.pending if one.message.clock >= before]
        self.weight = sum(len(one.answers) for one in self.pending)
        self.answered = [one for one in self.answered if one.clock >= before]
        return found

    def end(self, message: Ended, asked: Asked, core: Core) -> None:
        if message.call == "write" and not 200 <= message.status < 300:
            return
        if message.call == "write":
            if core.is_ready:
                self._take_written(message)
            else:
                self.early.keep(message)
            return
        request, response = request_of(message), _response(message)
        MESSAGES.refuse_unknown("Consistency", get(request, "consistency"))
        self.decided(message, request, response, asked, core)

    def overhear(self, message: Ended) -> None:
        """Its answer shows all the same what has come."""
        try:
            response = _response(message)
            if response:
                self._hear(message.clock, revision_at(response))
        except Bad:
            # It is lost, whatever it says.
            return

    def _take_written(self, message: Ended) -> None:
        """What a write made is known when it has its answer."""
        response = response_of(message)
        self._hear(message.clock, revision_of(get(get(response, "writtenAt") or get(response, "deletedAt"), "token")))

    def _hear(self, clock: int, revision: Revision) -> None:
        """An answer shows what has come by then; raises Bad."""
        if (revision.snapshot is None) != (self.transactions is None):
            raise Bad("a token is of another datastore than those of the changes")
        if revision.snapshot is not None:
            self._learn(Answered(clock, revision.snapshot))
        else:
            self.history.add(clock, revision.number or 0)

    def unshown(self) -> list[Unshown]:
        """Replies name their snapshots, so that none is judged without what it saw."""
        return []

    def noted(self, revision: int) -> tuple[list[Unshown], list[int]]:
        return [], []

    def decided(self, message: Ended, request: Any, response: Any, asked: Asked, core: Core) -> None:
        """Puts the decisions of a call behind all that it saw, and behind all that was surely visible when it began."""
        answers = list(answers_of(request, response, UNHEARD)) if response else []
        if not answers:
            core.forget(message.number)
            return
        revision = revision_at(response)
        message = message.without_bodies()
        self._hear(message.clock, revision)
        if revision.snapshot is not None:
            token = demanded_by(request) if message.save is None else message.token
            demanded = None if token is None else revision_of(token).snapshot
            if self.weight > WAITING:
                raise Bad(FULL)
            kept = {"consistency": get(request, "consistency")}
            self._wait(Waiting(message, kept, answers, asked.clock, revision.snapshot, demanded), core)
            return
        # What had come by then may have been told a little later than the beginning.
        self._place(message, request, answers, self.history.at(asked.clock), revision.number or 0, core)

    def _learn(self, answered: Answered) -> None:
        """What an answer on PostgreSQL saw is known, when its number is."""
        if self.transactions is not None and self.transactions.reaches(answered.snapshot):
            self.history.add(answered.clock, self.transactions.demanded(answered.snapshot))
        else:
            self.answered.append(answered)

    def _wait(self, one: Waiting, core: Core) -> None:
        """Places a call on PostgreSQL, or lets it wait; also for the numbers of all answers before it, which come in their order."""
        assert self.transactions is not None
        is_known = not self.answered or self.answered[0].clock > one.begun
        if is_known and self.transactions.reaches(one.snapshot) and (one.demanded is None or self.transactions.reaches(one.demanded)):
            self._place(*one[:3], self.history.at(one.begun), self.transactions.number(one.snapshot), core)
        else:
            self.pending.append(one)
            self.weight += len(one.answers)

    def _place(self, message: Ended, request: Any, answers: list[Answer], known: int, snapshot: int, core: Core) -> None:
        unsure = any(one.start <= snapshot < one.end for one in self.unsure)
        if unsure or snapshot < self.base:
            core.forget(message.number)
            core.lose(UNSURE if unsure else "a snapshot is from before the log", message.begun, len(answers))
            return
        token = self._token(message, request, snapshot, known)
        core.put_entries(message, answers, max(known, snapshot), snapshot=snapshot, token=token)

    def _token(self, message: Ended, request: Any, snapshot: int, known: int) -> Optional[int]:
        """What is stored with content, or what the request demanded."""
        if message.save is not None:
            return snapshot if message.token is None else self._demanded(message.token)
        demanded = demanded_by(request)
        if demanded is not None:
            return self._demanded(demanded)
        if not get(get(request, "consistency"), "fullyConsistent"):
            return None
        # The newest that was visible when the check began.
        return max(snapshot, known)

    def _demanded(self, token: object) -> int:
        """The revision that a token demands to be seen."""
        revision = revision_of(token)
        if (revision.snapshot is None) != (self.transactions is None):
            raise Bad("a token is of another datastore than those of the changes")
        if self.transactions is not None and revision.snapshot is not None:
            return self.transactions.demanded(revision.snapshot)
        return revision.number or 0
