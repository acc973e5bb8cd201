"""The story of a finding that mattered: what changed, what was checked, where the check looked, and what it had to see, by time."""
from typing import Iterator, NamedTuple, Optional

from new_enemy_tools.effects import Effects, RatedFinding
from new_enemy_tools.entries import Commit, Entry
from new_enemy_tools.explanations import turn_of
from new_enemy_tools.meaning import Settled
from new_enemy_tools.names import Names
from new_enemy_tools.reach import Reach, commit_at
from new_enemy_tools.reasons import Reason, Reasons
from new_enemy_tools.token_order import Window, ignored, zookie_at
from new_enemy_tools.trace import Trace

# Of one commit, and of commits, so many are told.
TUPLES = 4
COMMITS = 6
USERSETS, GROUNDS = 12, 4
# So many commits are looked at for the one after which a reply was right; there may be a thousand stories.
LOOKED = 50


class Event(NamedTuple):
    """Something that happened at a timestamp; of those at one timestamp, what changed comes before what was checked."""

    at: int
    order: int
    mark: str
    text: str
    where: str
    is_ignored: bool
    # the service's own, where the import kept it
    revision: str
    # when a change was made, or a check was asked, where the log says so
    time: str = ""


class Picture(NamedTuple):
    """What the rules say at a timestamp, and why."""

    title: str
    reason: Reason


class Story(NamedTuple):
    title: str
    question: str
    events: list[Event]
    remarks: list[str]
    pictures: list[Picture]


class Teller:
    """Tells the stories of a trace."""

    def __init__(self, trace: Trace, names: Names):
        self.trace, self.names = trace, names
        self.effects = Effects(trace)

    def story(self, told: RatedFinding) -> Story:
        entry, finding = told.entry, told.finding
        window = Window(entry.snapshot, entry.snapshot) if finding.finding == "F10" else ignored(self.trace, entry, finding.finding)
        pictures = list(self._pictures(told, window))
        events = {*self._ways(entry, pictures[0].reason), *self._ignored(entry, window), *self._checks(entry, window)}
        if finding.finding == "F10":
            events.update(self._turn(entry))
        # One event for a commit that is told for two reasons; that it was ignored counts.
        kept: dict[tuple[int, str], Event] = {}
        for event in sorted(events):
            known = kept.get((event.at, event.text))
            kept[event.at, event.text] = event if known is None or event.is_ignored else known
        return Story(self._title(told), self._question(entry), sorted(kept.values()), list(self._remarks(told, window)), pictures)

    def short_story(self, told: RatedFinding, why: str) -> Story:
        """The story of a finding whose goal is not looked at."""
        window = Window(told.entry.snapshot, told.entry.snapshot)
        return Story(self._title(told), self._question(told.entry), sorted(self._checks(told.entry, window)),
                     ["No more is told: %s." % why], [])

    def _title(self, told: RatedFinding) -> str:
        user = self.names.question(told.entry.goal).user
        return "%s%s was %s: %s %s" % ("" if self.names.ids else "User ", user, told.outcome, told.finding.finding, told.finding.text)

    def _question(self, entry: Entry) -> str:
        return "%s %s, and the service said %s" % (
            "Content check of" if entry.kind == "content" else "Check of", self.names.tuple(entry.goal), _word(entry.reply))

    def _pictures(self, told: RatedFinding, window: Window) -> Iterator[Picture]:
        entry = told.entry
        low = window.low if told.finding.finding == "F4" else entry.snapshot
        heads = [(low, "What the check saw, at %d" if window.high != low else "What the rules say, at %d")]
        if window.high != low:
            heads.append((window.high, "What it had to see, at %d"))
        for at, head in heads:
            settled = Settled(self.trace.rules, self.trace.store, entry.goal, at)
            reason = Reasons(settled, entry.goal.set, USERSETS, GROUNDS).of_goal()
            yield Picture("%s: %s" % (head % at, "allowed" if reason.holds else "denied"), reason)

    # Events

    def _where(self, line: int, source: Optional[str]) -> str:
        return "line %d%s" % (line, ", " + source if source else "")

    def _commit(self, at: int, wanted: Reach, is_ignored: bool) -> Event:
        commit = commit_at(self.trace, at)
        assert commit is not None
        return Event(at, 0, "change", self._touched(commit, wanted), self._where(commit.line, commit.source), is_ignored,
                     commit.revision or "", commit.time or "")

    def _touched(self, commit: Commit, wanted: Reach) -> str:
        if commit.changes is not None:
            return "The rules of namespace %s changed" % commit.changes
        touched = [(one, "added") for one in commit.add] + [(one, "removed") for one in commit.remove]
        bearing = [(one, verb) for one, verb in touched if wanted.bears(one)]
        said = ["%s was %s" % (self.names.tuple(one), verb) for one, verb in bearing[:TUPLES]]
        more = len(bearing) - len(said)
        return "; ".join(said) + ("; and %d more" % more if more else "")

    def _ways(self, entry: Entry, reason: Reason) -> Iterator[Event]:
        """The commits by which the way of the answer came to be."""
        reach = Reach(self.trace, entry.goal, Window(-1, entry.snapshot))
        times: set[int] = set()
        _times(reason, times)
        for at in sorted(times)[-COMMITS:]:
            yield self._commit(at, reach, False)

    def _ignored(self, entry: Entry, window: Window) -> Iterator[Event]:
        if window.high > window.low:
            reach = Reach(self.trace, entry.goal, window)
            for at in reach.touching()[-COMMITS:]:
                yield self._commit(at, reach, True)

    def _turn(self, entry: Entry) -> Iterator[Event]:
        """Of a wrong reply, the commit at which it came to be wrong."""
        turn = turn_of(self.trace, self.effects, entry, LOOKED)
        if turn is not None:
            yield self._commit(turn.at, Reach(self.trace, entry.goal, Window(turn.at - 1, turn.at)), turn.is_after)

    def _checks(self, entry: Entry, window: Window) -> Iterator[Event]:
        where, token = self._where(entry.line, entry.source), zookie_at(entry)
        if entry.issued_on is not None:
            issued = self.trace.entries[entry.issued_on]
            yield Event(issued.snapshot, 1, "content", "Content was checked for %s and got version %s" % (
                self.names.tuple(issued.goal), self.names.version(issued.version or "")), self._where(issued.line, issued.source), False,
                        issued.revision or "", _asked(issued))
        if entry.kind == "check" and token is not None:
            yield Event(token, 2, "token", "The token of the request demanded this", where, False, "")
        yield Event(entry.snapshot, 3, "looked", "The %s looked here, and the service said %s" % (
            "content check" if entry.kind == "content" else "check", _word(entry.reply)), where, False, entry.revision or "", _asked(entry))
        if window.high > window.low:
            yield Event(window.high, 4, "seen", "This had to be seen; the answer here is %s" % _word(not entry.reply), "", False, "")

    def _remarks(self, told: RatedFinding, window: Window) -> Iterator[str]:
        entry, kind = told.entry, told.finding.finding
        if kind == "F2" and entry.zookie is None:
            yield "The request carried no token, so it demanded nothing."
        if kind == "F4":
            yield "The commits that were ignored stand behind the check in the trace: they were made after it was answered."
        if kind == "F6":
            yield "No earlier line issues version %s, so what had to be seen is taken to be the last commit before the check." % (
                self.names.version(entry.version or ""))
        hidden = 0 if window.high <= window.low else len(Reach(self.trace, entry.goal, window).touching()) - COMMITS
        if hidden > 0:
            yield "%d more ignored commits bear on the question; the last %d are shown." % (hidden, COMMITS)


def _times(reason: Reason, found: set[int]) -> None:
    for ground in reason.grounds:
        if ground.touch is not None:
            found.add(ground.touch[0])
        if ground.since is not None:
            found.add(ground.since)
        if ground.why is not None:
            _times(ground.why, found)


def _asked(entry: Entry) -> str:
    return "asked %s" % entry.time if entry.time else ""


def _word(answer: bool) -> str:
    return "yes" if answer else "no"
