"""The monitor as a pure machine: what it reads, hears and is answered goes in, with the time, and what is to be done
comes out.

Of what it gives out `Keep` has to be on the disk before a `Send` behind it is sent, so that a monitor which is killed
loses nothing; and who sends marks what a receiver has before it is answered here, so that nothing is told twice that
was marked. A run that begins anew is given the lines of the log since the run's beginning, the rows that were kept, and
the marks.
"""
import json
from collections import Counter, deque
from datetime import timezone, tzinfo
from typing import Iterable, Iterator, Mapping, NamedTuple, Optional, Union

from new_enemy_tools.audit_summary import Telling
from new_enemy_tools.coverage import Coverage
from new_enemy_tools.monitoring.alerts import Alert, Known, Row, Stories, line_of
from new_enemy_tools.monitoring.delivery import Delivery, Send
from new_enemy_tools.monitoring.holding import Holding
from new_enemy_tools.monitoring.midnights import midnight_after
from new_enemy_tools.monitoring.run import Run
from new_enemy_tools.monitoring.stream import Chunk, NewStrata


class Settings(NamedTuple):
    receivers: tuple[str, ...]
    effects: frozenset[str] = frozenset(("wrong", "changed", "undecided"))
    # how often at most a story that goes on is told again, in seconds
    again: float = 600.0
    # the lag in seconds, and the share of checks that were not looked at whole, in percent, beyond which there is an
    # alert
    most_lag: float = 60.0
    most_loss: float = 1.0
    # so long a check of an unknown version is held
    hold: float = 31.0
    day_bytes: int = 1 << 28
    # whose days the runs are
    zone: tzinfo = timezone.utc


class Feed(NamedTuple):
    """Lines of the trace, for the program and for the run's file."""

    data: bytes


class Keep(NamedTuple):
    """A row that has to be on the disk."""

    row: Row


class EndRun(NamedTuple):
    """The run's lines are all given out. Whoever hears it ends the run, keeps it, and begins the next."""

    why: str


class BeginAnew(NamedTuple):
    """The run has to end before a line, by its file and number, which it has taken already: so it is begun anew, up
    to there."""

    stop: tuple[str, int]


# So many alerts are shown.
RECENT = 100

Out = Union[Feed, Keep, Send, EndRun, BeginAnew]


class Unjoined(NamedTuple):
    """The checks that wait for the logs of other recorders: how many, when the first had its reply, and the logs that
    are waited for; and the logs that have no base state so far."""

    checks: int = 0
    oldest: Optional[int] = None
    logs: tuple[str, ...] = ()
    unbegun: tuple[str, ...] = ()


class Core:
    def __init__(self, settings: Settings, rows: Iterable[Row], marks: Mapping[str, int]):
        """`marks` has of each receiver up to which alert it has them."""
        self.settings = settings
        self.delivery = Delivery(settings.receivers)
        # of the run, and of the next alert
        self.number, self.next = 0, 1
        # findings by kind and effect, in all; and in the runs that have ended
        self.counts: Counter[tuple[str, str]] = Counter()
        self.ended: Counter[tuple[str, str]] = Counter()
        self.alerts: Counter[str] = Counter()
        self.unjoined = Unjoined()
        # the last alerts, for who looks
        self.recent: deque[Row] = deque((), RECENT)
        # bounds that are passed now
        self.passed: dict[str, bool] = {"lag": False, "loss": False}
        # why the monitor before this one stopped, until this one has come to the end of the log
        self.stopped_by: Optional[str] = None
        # of the runs by their numbers the stories that were told
        self._told: dict[int, dict[str, Known]] = {}
        self._read(rows, marks)

    def _read(self, rows: Iterable[Row], marks: Mapping[str, int]) -> None:
        # A journal may have been taken away; a number that was marked is given to no other alert.
        self.next = max([self.next, *(number + 1 for number in marks.values())])
        for row in rows:
            self.next = max(self.next, row.get("next", 0), row.get("alert", 0) + 1)
            self._note(row)
            if "alert" in row:
                self.recent.append(row["text"])
            for receiver in row.get("to", ()):
                if row["alert"] > marks.get(receiver, 0):
                    self.delivery.put(Send(receiver, row["alert"], line_of(row["text"])))

    def _note(self, row: Row) -> None:
        """What a kept row says of stories and bounds."""
        self.passed.update(row.get("passed", {}))
        self.stopped_by = row.get("stopped_by", self.stopped_by)
        if "alert" not in row:
            return
        text, told = row["text"], self._told.setdefault(row["run"], {})
        if row.get("story"):
            is_first = text["kind"] == "finding"
            told[row["story"]] = Known(row["alert"] if is_first else text["first"],
                                       text["id"] if is_first else text["first_id"], 0, text["count"])
        elif text["kind"] == "stopped":
            self.stopped_by = text.get("why")
        elif text["kind"] in self.passed:
            self.passed[text["kind"]] = text["state"] == "passed"

    def begin(self, run: Run, number: int, stories: dict[str, Known], holding: Holding, now: float) -> None:
        """Begins a run, with the stories of the one before; or begins it anew, after a monitor that was killed in it."""
        self.run, self.number, self.holding, self.counts = run, number, holding, Counter(self.ended)
        self._told = {number: self._told.get(number, {})}
        self.stories = Stories(self.settings.effects, stories, self._told[number], now)

    # What comes in

    def read(self, chunk: Chunk, now: float) -> None:
        self.holding.put(chunk, now)

    @property
    def has_room(self) -> bool:
        """Whether more of the log may be read."""
        return self.holding.has_room

    def move(self, now: float) -> Iterator[Out]:
        """Takes what can be taken of the lines that were read."""
        ready = self.holding.ready(self.run.stream.issues, self.run.stream.last_revision(), now)
        for chunk in ready.chunks:
            try:
                text = self.run.take(chunk)
            except NewStrata:
                yield BeginAnew((chunk.file, chunk.first))
                return
            if text:
                yield Feed(text)
        if ready.is_over and self.run.bytes:
            yield EndRun("relations need other strata" if self.holding.stop is not None else "the day is over")
        elif self.run.bytes >= self.settings.day_bytes and ready.chunks:
            yield EndRun("the run is full")

    def pass_time(self, wall: int) -> Iterator[Out]:
        """Ends the run where its day is over by the clock, in nanoseconds, and no check of that day is held; to be
        called when all of the log was read."""
        holding = self.holding
        if not self.run.bytes:
            return
        if holding.midnight is None:
            # There was no check.
            holding.midnight = midnight_after(wall, self.settings.zone)
        is_held = holding.oldest is not None and holding.oldest < holding.midnight.at
        if wall - int(self.settings.hold * 1e9) >= holding.midnight.at and not is_held:
            holding.midnight = midnight_after(wall, self.settings.zone)
            yield EndRun("the day is over")

    def said(self, line: str, now: float) -> None:
        self.run.said(line, now)

    def tell(self, now: float, is_end: bool = False) -> Iterator[Out]:
        """The alerts of what was found."""
        telling = self.run.ready_findings(now, is_end)
        if telling is not None:
            yield from self._taken(telling, now)
        yield from self._put(self.stories.again(self.next, self.settings.again, now, is_end))

    def _taken(self, telling: Telling, now: float) -> Iterator[Out]:
        for told in telling.told:
            self.counts[told.finding.finding, told.effect.word] += 1
        yield from self._put(self.stories.take(self.run, telling, self.next, self.number, now))

    def answered(self, receiver: str, number: int, fault: Optional[str], now: float) -> None:
        self.delivery.answered(receiver, number, fault, now)

    def due(self, now: float) -> Iterator[Out]:
        yield from self.delivery.due(now)

    def look(self, wall: int) -> Iterator[Out]:
        """Looks whether a bound is passed. `wall` is the time in nanoseconds. A run that begins anew is looked at
        when it has come to the end of the log, or has not for as long as replies may wait."""
        if self.stopped_by is not None:
            self.stopped_by = None
            yield from self._stop("ended", "the monitor audits again", None)
        lag = self.lag(wall)
        yield from self._bound("lag", lag, self.settings.most_lag,
                               "a reply of %.1f seconds ago is not audited yet%s" % (lag, self._waits_for()))
        yield from self.look_at_loss()

    def look_at_loss(self) -> Iterator[Out]:
        """Looks at the bound of the loss; also where the run ends, since the next one counts anew, and says nothing before something is asked."""
        coverage = self.coverage()
        if coverage.is_empty:
            return
        loss = 0.0 if coverage.is_whole else coverage._replace(open=0).percent
        yield from self._bound("loss", loss, self.settings.most_loss,
                               "%s; that is %.2f percent that was not looked at whole" % (
            coverage.counts(), loss))

    def _waits_for(self) -> str:
        checks, logs = self.unjoined.checks, self.unjoined.logs
        return "; %d wait for %s" % (checks, " and ".join(logs)) if checks else ""

    def _bound(self, name: str, value: float, most: float, said: str) -> Iterator[Out]:
        """An alert where a bound is passed, and one when the value is at half of it again."""
        is_passed = self.passed[name]
        if value > most and not is_passed or is_passed and value <= most / 2:
            self.passed[name] = not is_passed
            state = "ended" if is_passed else "passed"
            how = "is within its bound again" if is_passed else "is above %g" % most
            yield from self._put([Alert(self.next, None, {
                "alert": self.next, "id": "%s-%d" % (name, self.next), "kind": name, "state": state,
                "value": round(value, 3), "bound": most, "said": "%s %s: %s" % (name, how, said)})])

    def stopped(self, why: str) -> Iterator[Out]:
        """An alert that the monitor can't go on; once, however often it is begun again."""
        if why != self.stopped_by:
            self.stopped_by = why
            yield from self._stop("passed", "the monitor stopped, and nothing is audited: %s" % why, why)

    def _stop(self, state: str, said: str, why: Optional[str]) -> Iterator[Out]:
        text = {"alert": self.next, "id": "stopped-%d" % self.next, "kind": "stopped", "state": state, "said": said}
        yield from self._put([Alert(self.next, None, text if why is None else {**text, "why": why})])

    def _put(self, alerts: list[Alert]) -> Iterator[Out]:
        for alert in alerts:
            self.next = max(self.next, alert.number + 1)
            self.alerts[alert.text["kind"]] += 1
            row: Row = {"alert": alert.number, "run": self.number, "story": alert.story,
                        "to": list(self.settings.receivers), "text": alert.text}
            self._note(row)
            self.recent.append(alert.text)
            yield Keep(row)
            for receiver in self.settings.receivers:
                self.delivery.put(Send(receiver, alert.number, line_of(alert.text)))

    def leave(self) -> dict[str, Known]:
        """The stories that the next run knows of this one, when all of it is told."""
        self.ended = Counter(self.counts)
        return self.stories.leave()

    # What is known

    def lag(self, wall: int) -> float:
        """For how many seconds the oldest reply has waited that was read, and is not settled."""
        times = [time for time in (self.run.since, self.holding.oldest, self.unjoined.oldest) if time is not None]
        return max(0.0, (wall - min(times)) / 1e9) if times else 0.0

    def coverage(self) -> Coverage:
        return self.run.coverage()

    def kept_rows(self) -> Iterator[Row]:
        """What a journal still needs at the beginning of a run, which knows the stories itself: alerts that some
        receiver has not got."""
        waiting: dict[int, list[str]] = {}
        texts: dict[int, str] = {}
        for receiver, sends in self.delivery.waiting.items():
            for send in sends:
                waiting.setdefault(send.number, []).append(receiver)
                texts[send.number] = send.text
        for number in sorted(waiting):
            yield {"alert": number, "run": 0, "story": None, "to": waiting[number], "text": json.loads(texts[number])}
        yield {"next": self.next, "passed": self.passed, "stopped_by": self.stopped_by}
