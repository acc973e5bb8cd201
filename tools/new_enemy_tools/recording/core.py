"""The recorder as a machine: what the proxy, the service's changes and the clock tell goes in, lines of the log and gaps come out.

It has no socket, no clock, no thread and no file: who drives it says what time it is. `keeper.py` has the devices around it, and
`tools/dev/simulate` drives it through interleavings by seeds.
"""
from collections import Counter
from functools import partial
from itertools import chain
from typing import Any, Callable, Iterable, Iterator, NamedTuple, Optional, Protocol

from new_enemy_tools.importing.reading import Bad
from new_enemy_tools.importing.service import Answer
from new_enemy_tools.importing.times import nanoseconds
from new_enemy_tools.recording.lines import elsewhere_line, gap_line, line, time_text, unmapped_line
from new_enemy_tools.recording.log_files import KILLED, Doubts, Left, Place, Unshown
from new_enemy_tools.recording.messages import CHECKS, Beat, Bye, Ended, Lost, Started
from new_enemy_tools.recording.sequencer import Commit, Ready, Sequencer

FOREVER = 1 << 63
# By less than this a clock was not set: the two clocks are read one behind the other.
NOISE = 10_000_000
SET = "the clock of the recorder's machine was set"
UNTOLD = "the proxy was killed, with what it had not told yet"
# Gaps behind the first one are told together, so often, and checks of other stores.
TOGETHER = 10 ** 9
# So many causes are told apart, and so much of one is told: what stands in some comes from a client.
CAUSES, LONGEST = 1000, 200
# So many bytes of lines, and so many decisions that have no line yet, may wait for the changes.
ROOM, WAITING = 64 << 20, 200_000
FULL = "too many decisions wait for the changes"
# What a gap calls the requests of a call.
KINDS = {"check": "checks", "batch": "batches of checks", "list": "lists", "stream": "lists"}


class Now(NamedTuple):
    """What time it is, in nanoseconds: since 1970, and by the clock that all processes of a machine share."""

    wall: int
    clock: int


class Begun(NamedTuple):
    """The log can begin, or go on: the lines that stand first, whether the store was empty, and where the changes are."""

    data: Iterable[bytes]
    is_empty: bool
    place: Place


class Faulty(NamedTuple):
    """The changes of the service can't be read, from now on or for good."""

    reason: str


class Asked(NamedTuple):
    """When a check began, the newest revision that was known then, and what a gap calls it; `is_early` where the log had not begun."""

    clock: int
    known: int
    kind: str = ""
    is_early: bool = False


class Service(Protocol):
    """What a service knows of its calls and its changes."""

    def take(self, message: Any, core: "Core") -> None:
        """Takes what the feed of the changes put."""

    def moved(self, core: "Core") -> None:
        """All that the proxy told up to `core.sequencer.told_until` has come."""

    def begin(self, message: Started) -> None:
        """A call that is no check is passed on."""

    def known(self, clock: int) -> int:
        """The newest revision that is surely visible to a check that begins at a time."""

    def end(self, message: Ended, asked: Asked, core: "Core") -> None:
        """A call has its answer."""

    def overhear(self, message: Ended) -> None:
        """A check that is not recorded has its answer."""

    def waiting(self) -> bool:
        """Whether entries wait for the feed."""

    def late(self, before: int) -> list[Ended]:
        """Takes out the calls that have waited for the feed since before a time."""

    @property
    def doubts(self) -> Doubts:
        """The tuples of which it is not known whether they are there."""

    @property
    def learnt(self) -> float:
        """How late the changes are shown at least, in seconds, as far as that was learnt."""

    def unshown(self) -> list[Unshown]:
        """The writes that had their answer and are not shown yet."""

    def noted(self, revision: int) -> tuple[list[Unshown], list[int]]:
        """Takes out those that came since the last time, and the numbers of those that are no more, as the log up to a revision tells."""


class Gaps:
    """What the log has not, told together where it goes on; the first at once, so that it stands before all that hangs on it."""

    def __init__(self) -> None:
        self.open: dict[str, Lost] = {}
        self.told: Optional[int] = None

    def add(self, reason: str, start: int, end: int, amount: int = 1) -> None:
        # The clock of the wall may have been set back meanwhile.
        start, end = min(start, end), max(start, end)
        before = self.open.get(reason)
        self.open[reason] = Lost(start, end, amount, reason) if before is None else Lost(
            min(before.start, start), max(before.end, end), before.amount + amount, reason)

    def take(self) -> tuple[int, int]:
        """How much was lost, which is then told, and since when."""
        lost, since = sum(one.amount for one in self.open.values()), min((one.start for one in self.open.values()), default=FOREVER)
        self.open.clear()
        return lost, since

    def lines(self, now: Now, at_once: bool, until: Optional[int] = None) -> bytes:
        if not self.open or not at_once and self.told is not None and now.clock - self.told < TOGETHER:
            return b""
        found = b"".join(gap_line(one.start, one.end, one.reason, one.amount, until) for one in self.open.values())
        self.open.clear()
        self.told = now.clock
        return found


class Core:
    """`take` takes an event, `tick` the time alone, `drained` gives the lines that can be written, and `end` ends it."""

    def __init__(self, service: Service, hold: float):
        self.service, self.hold = service, hold
        self.now = Now(0, 0)
        # how far the clock of the wall is ahead of the one that all processes share, and was at least and at most: it may be set
        self.ahead: Optional[tuple[int, int, int]] = None
        self.sequencer, self.gaps = Sequencer(), Gaps()
        self.is_ready = self.is_over = False
        # when the log began, or went on
        self.begun = 0
        # when the service last told of its changes, and whether they can't be read
        self.fed: Optional[int] = None
        self.is_faulty = False
        # how many decisions stand in the log, and how many were lost, by cause
        self.recorded = 0
        self.lost: Counter[str] = Counter()
        # how many calls were of other stores than the one that is recorded; and how many of them, which are no gap, no line has told, and when
        # one did
        self.elsewhere = self.untold = self.told_at = 0
        self.ticks = self.ticked = 0
        # what an earlier recorder left, and whether there was none
        self.left: Optional[Left] = None
        self.is_first = True
        # where the changes are behind the lines that were given, and before the last of these
        self.place = self.before = Place(None, 0, None)
        # the checks without an answer, and those with one that are neither in the log nor in a gap yet
        self.asked: dict[int, Asked] = {}
        self.held: dict[int, Asked] = {}
        self.saves_since: dict[int, int] = {}
        self.unheld: set[int] = set()
        self.unsaid: list[bytes] = []
        # what stands first, in pieces, and is to be written before anything else is taken
        self.first: Optional[Iterator[bytes]] = None
        # what is to be told on standard error
        self.told: list[str] = []

    # Events

    def take(self, message: Any, now: Now) -> None:
        self._come_to(now)
        try:
            if isinstance(message, (Started, Ended, Beat)):
                self._tell_until(message.clock)
            if isinstance(message, Started):
                self._begin(message)
            elif isinstance(message, Ended):
                self._end(message)
            elif isinstance(message, Lost):
                self._add_gap(message.reason, message.start, message.end, message.amount)
                # What goes back farther would be lost with this recorder.
                self._say_gaps(now.wall - message.start > TOGETHER)
            elif isinstance(message, Bye):
                if not message.at and not self.is_over:
                    self._lose_untold()
                self.is_over = True
                self._tell_until(FOREVER)
            elif isinstance(message, Faulty):
                self.is_faulty = True
                self.say(message.reason)
            elif not isinstance(message, Beat):
                self.fed, self.is_faulty = now.clock, False
                self.service.take(message, self)
                self.service.moved(self)
        except Exception as fault:
            self.lose(_reason(fault), 0)

    def _come_to(self, now: Now) -> None:
        self.now, ahead = now, now.wall - now.clock
        last, least, most = self.ahead or (ahead, ahead, ahead)
        if self.ahead is None:
            self.ahead = ahead, ahead, ahead
        elif abs(ahead - last) > NOISE:
            self.ahead = ahead, min(least, ahead), max(most, ahead)
            if self.is_ready:
                # What waits now may have had its answer by the other time, and be lost with this recorder.
                self.unsaid.append(gap_line(now.clock - int(self.hold * 1e9) + min(last, ahead), now.clock + max(last, ahead), SET))

    def earliest(self, clock: int) -> int:
        """What the clock of the wall said then, at least."""
        return clock + (self.ahead or (0, 0, 0))[1]

    def latest(self, clock: int) -> int:
        """What the clock of the wall said then, at most."""
        return clock + (self.ahead or (0, 0, self.now.wall - self.now.clock))[2]

    def until(self) -> int:
        """Until when all that had its answer has come, or is in the gap before the log: the last line of a recorder that is killed says so."""
        return min(self.now.wall, max(self.sequencer.told_until, self.begun) + (self.now.wall - self.now.clock))

    def _back(self) -> int:
        """How far the clock of the wall was set back."""
        return max(0, (self.ahead[2] - self.ahead[0]) if self.ahead else 0)

    def _tell_until(self, clock: int) -> None:
        self.sequencer.told_until = max(clock, self.sequencer.told_until)
        self.service.moved(self)

    def _lose_untold(self) -> None:
        """The proxy was killed, and with it what it had not told yet."""
        self.say("the proxy is gone")
        until, told = self.now.wall, self.sequencer.told_until
        self.miss(UNTOLD, self.earliest(told) if told else until, until, 0)

    def _begin(self, message: Started) -> None:
        if message.call not in CHECKS:
            self.service.begin(message)
            return
        known = self.service.known(message.clock)
        kind = "content checks" if message.save else KINDS[message.call]
        self.asked[message.number] = Asked(message.clock, known, kind, not self.is_ready)
        if message.save and self.is_ready:
            self.sequencer.saves[message.number] = known
            self.saves_since[message.number] = message.clock

    def _end(self, message: Ended) -> None:
        asked = self.asked.pop(message.number, None)
        is_late = message.number in self.unheld
        self.unheld.discard(message.number)
        if message.call not in CHECKS:
            self.service.end(message, Asked(0, 0), self)
        elif message.status < 200 or message.status >= 400:
            self.forget(message.number)
        elif is_late:
            self.lose("an answer took longer than %g seconds" % self.hold, message.begun)
        elif asked is None or asked.is_early:
            if self.is_ready and message.response is not None:
                self.service.overhear(message)
            self.lose("the recorder was beginning", message.begun)
        elif message.response is None:
            self.forget(message.number)
            self.lose("an answer broke off, or was too long to be kept", message.begun)
        elif message.request is None and message.strange is not None:
            self.forget(message.number)
            self.lose(message.strange, message.begun)
        else:
            self.held[message.number] = asked
            self.tried(message, partial(self.service.end, message, asked, self))

    def begin_log(self, message: Begun) -> None:
        """The log goes on: the time before it is a gap, but for a log that begins with an empty store."""
        lost, first = self.gaps.take()
        gap = b"" if self.is_first and message.is_empty and not lost else self._gap_before(lost, first)
        self.first = chain([gap], message.data, [place_line(message.place)])
        self.place, self.is_ready, self.begun = message.place, True, self.now.clock
        self.say("recording")

    def _gap_before(self, lost: int, first: int) -> bytes:
        """The gap up to now, of a log that goes on or begins. What was lost may have been asked before the recorder that had the folder ended."""
        back = self._back()
        until = self.now.wall + back
        if self.left is None:
            return gap_line(None, until, "the log begins", lost)
        since, reason = nanoseconds(self.left.time), KILLED if self.left.was_killed else "the recorder did not run"
        if since is None or since > until:
            return gap_line(None, max(since or 0, until), reason, lost)
        return gap_line(min(since - back, first), until, reason, lost)

    # What a service puts into the log

    def say(self, text: str) -> None:
        self.told.append(text)

    def lose(self, reason: str, since: int, count: int = 1) -> None:
        """Something is not recorded, since a time or now."""
        self._add_gap(reason, since or self.now.wall, self.now.wall, count)
        self._say_gaps(False)

    def miss(self, reason: str, start: int, end: int, count: int) -> None:
        """Something was not recorded here, from and to a time, and is told at once."""
        self._add_gap(reason, start, end, count)
        self._say_gaps(True)

    def lose_entries(self, which: Callable[[Ready], bool], reason: str) -> None:
        """Some of the entries that wait for their place get none."""
        for one in self.sequencer.take_out(which):
            self.forget(one.call)
            self.lose(reason, self.earliest(one.since), one.data.count(b"\n"))

    def _add_gap(self, reason: str, start: int, end: int, count: int) -> None:
        if reason not in self.lost and len(self.lost) >= CAUSES:
            reason = "other causes than %d" % CAUSES
        # What was lost by the old time may be shown by the new one, and the other way round.
        back = self._back()
        self.gaps.add(reason, start - back, end + back, count)
        self.lost[reason] += count

    def tried(self, message: Ended, work: Callable[[], None]) -> None:
        """Does something for a call; where that fails, this one call is a gap."""
        try:
            work()
        except Exception as fault:
            self.forget(message.number)
            self.lose(_reason(fault), message.begun)

    def _say_gaps(self, at_once: bool) -> None:
        if self.is_ready:
            self.unsaid.append(self.gaps.lines(self.now, at_once, self.until()))

    def pass_elsewhere(self) -> None:
        """A call is of another store, and no gap."""
        self.elsewhere += 1
        self.untold += 1

    def _say_elsewhere(self) -> None:
        if self.untold:
            self.unsaid.append(elsewhere_line(self.untold, self.until()))
            self.untold, self.told_at = 0, self.now.clock

    def forget(self, number: int) -> None:
        """Of a call nothing more is to be written."""
        self.held.pop(number, None)
        self._let_go(number)

    def _let_go(self, number: int) -> None:
        """Commits do not wait for a content check any more."""
        self.sequencer.saves.pop(number, None)
        self.saves_since.pop(number, None)

    def put_commit(self, commit: Commit) -> None:
        self.sequencer.put_commit(commit)

    def put_entries(self, message: Ended, answers: list[Answer], place: int, **values: Any) -> None:
        """The entries of a call, which has all that it needs."""
        self._let_go(message.number)
        refuse_headers(message, answers)
        made = b"".join(_entry(message, answer, values) for answer in answers)
        if self.sequencer.size > ROOM:
            raise Bad(FULL)
        if made:
            high = max(values.get("newest_between") or values.get("snapshot_between") or [values.get("snapshot", place)])
            self.sequencer.put_entry(place, message.clock, made, message.number, high if high > place else 0)

    # Time, and the lines

    def tick(self, now: Now) -> None:
        """Gives up what has waited for too long; where that could not be done for a while, it is told at once."""
        is_late, self.ticked = now.clock - self.ticked > TOGETHER, now.clock
        self._come_to(now)
        self.ticks += 1
        before = now.clock - int(self.hold * 1e9)
        for number, since in list(self.saves_since.items()):
            if since < before and number in self.asked:
                self._let_go(number)
                self.unheld.add(number)
        behind = "the changes were more than %g seconds behind" % self.hold
        self.lose_entries(lambda one: one.since < before, behind)
        for message in self.service.late(before):
            self.forget(message.number)
            self.lose(behind, message.begun)
        self._say_gaps(is_late)
        if now.clock - self.told_at >= TOGETHER:
            self._say_elsewhere()

    def drained(self, now: Optional[Now] = None) -> bytes:
        """The lines that can be written now; `place` is then where the changes are behind them. Where it is time, the rest is given up that
        waited for too long, and what tells of that stands in front: no line is in the log whose time would say that all before is told."""
        self.before = self.place
        first, self.first, made = list(self.first or ()), None, self._in_order()
        if now is not None:
            self.tick(now)
        unsaid, self.unsaid = self.unsaid, []
        return b"".join([*first, *self._noted(made), *unsaid, *made])

    def _noted(self, made: list[bytes]) -> list[bytes]:
        """The writes that are not shown stand in front of all whose time says that they were heard of; those that are no more are told last."""
        unshown, shown = self.service.noted(self.place.revision) if self.is_ready else ([], [])
        if shown:
            made.append(place_line(self.place, shown=shown))
        heard = max((one.answered for one in unshown), default=0)
        return [place_line(self.before, unshown=[one.values for one in unshown], time=time_text(heard))] if unshown else []

    def _in_order(self) -> list[bytes]:
        made: list[bytes] = []
        for one in self.sequencer.drained() if self.is_ready else ():
            if isinstance(one, Commit):
                made.append(one.data)
                self.place = _moved(self.place, one)
                if one.cursor is not None or one.rules is not None:
                    made.append(place_line(self.place))
            else:
                made.append(one.data)
                self.recorded += one.data.count(b"\n")
                self.held.pop(one.call, None)
        if self.is_ready and self.service.doubts != self.place.doubts:
            self.place = self.place._replace(doubts=self.service.doubts)
            made.append(place_line(self.place, doubts=self.place.doubts))
        if self.is_ready and self.service.learnt != self.place.late:
            self.place = self.place._replace(late=self.service.learnt)
            made.append(place_line(self.place, late=self.place.late))
        return made

    # The end

    def end_asked(self, now: Now) -> None:
        """The proxy is gone: what has no answer gets none."""
        self._come_to(now)
        self._lose_open(self.asked, "the recorder ended before their answers")

    def is_waiting(self) -> bool:
        """Whether entries wait for the changes that they need."""
        return self.is_ready and (bool(self.sequencer.ready) or self.service.waiting())

    def end(self, now: Now) -> None:
        """Nothing more comes: what waits is lost."""
        self._come_to(now)
        if self.elsewhere:
            self.say("checks of other stores, which are not recorded: %d" % self.elsewhere)
        self._say_elsewhere()
        self.sequencer.ready = []
        self._lose_open(self.held, "the recorder ended before the changes that these needed")

    def end_unbegun(self) -> bytes:
        """The recorder ends before the log could begin or go on; what passed is a gap behind what there is of it."""
        lost, first = self.gaps.take()
        if self.left is not None:
            return self._gap_before(lost, first)
        self.say("the log was never begun; requests that passed and stand in no log: %d" % lost)
        return b""

    def _lose_open(self, calls: dict[int, Asked], reason: str) -> None:
        """The recorder ends with these calls; each is counted."""
        for number, asked in list(calls.items()):
            self.forget(number)
            self.gaps.add("%s: %s" % (reason, asked.kind), self.earliest(asked.clock), self.latest(self.now.clock))
        calls.clear()
        self._say_gaps(True)


def _moved(place: Place, commit: Commit) -> Place:
    """Where the changes are behind a commit."""
    rules = commit.rules or place.rules
    if commit.cursor is not None:
        return place._replace(cursor=commit.cursor, revision=commit.revision, rules=rules, behind=commit.behind, apart=commit.apart)
    return place._replace(revision=commit.revision, rules=rules, behind=place.behind + (0 if commit.rules else commit.changes))


def _reason(fault: Exception) -> str:
    return str(fault)[:LONGEST] if isinstance(fault, Bad) else "a line can't be understood (%s)" % type(fault).__name__


def place_line(place: Place, **more: Any) -> bytes:
    return line("place", **place.keys, **more)


def refuse_headers(message: Ended, answers: list[Answer]) -> None:
    """Raises Bad where what the application says with a call can't be used."""
    if message.strange is not None:
        raise Bad(message.strange)
    if message.save is not None and message.version is not None:
        raise Bad("X-Content-Save and X-Content-Version on one call")
    if message.save is not None and len(answers) > 1:
        raise Bad("X-Content-Save on a call that asks more than one question")
    if message.version is not None and len({one.goal[:2] for one in answers}) > 1:
        raise Bad("X-Content-Version on a call about several objects")
    if "" in (message.save, message.version):
        raise Bad("X-Content-Save or X-Content-Version without a label")


def _entry(message: Ended, answer: Answer, values: dict[str, Any]) -> bytes:
    goal, reply = answer.goal, answer.reply
    is_content = message.save is not None
    version = message.save if is_content and reply else message.version if not is_content else None
    if answer.unmapped:
        issued = (goal.type, goal.id, version) if is_content and version is not None else None
        return unmapped_line(answer.unmapped, str(goal), version=issued)
    if is_content and not reply:
        values = {**values, "token": None}
    return line("content" if is_content else "check", goal=list(goal[:5]), **values, reply=reply, version=version,
                time=time_text(message.at))
