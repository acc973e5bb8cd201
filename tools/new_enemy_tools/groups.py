"""Findings by what was wrong: a reply that a service kept and gave again and again is one group, however often it was asked for.

The requests of a group have the question and the reply in common, what became of it, and the change that was ignored. Of findings that
mattered, those of one request are in one group, that of the worst. Others are in one group by their kind and the question.
"""
from typing import Iterable, Iterator, NamedTuple, Optional

from new_enemy_tools.effects import RANKS, RatedFinding
from new_enemy_tools.labels import Labels

KINDS = {"wrong": "wrong", "undecided": "undecided", "possible": "harmless", "none": "harmless"}
Key = tuple[object, ...]


class Counts(NamedTuple):
    """How many replies are of each kind."""

    wrong: int = 0
    let_in: int = 0
    kept_out: int = 0
    undecided: int = 0
    harmless: int = 0


class Sums(NamedTuple):
    """How many requests got replies of each kind; one with several findings, or at several states, counts once, by the worst. And how many
    replies these are to distinct questions, of which so many let a new enemy in."""

    requests: Counts
    distinct: Counts
    new_enemies: int

    def has_stale_count(self, labels: Labels) -> bool:
        """Whether a count of stale answers says something: where none could be looked for, none is no answer."""
        return self.requests.let_in + self.requests.kept_out > 0 or not labels.is_none

    def said(self, labels: Labels) -> str:
        replies, stale = self.distinct, "stale answers to checks not looked for"
        if self.has_stale_count(labels):
            stale = "%s that let someone in%s, %d that kept someone out%s" % (
                "1 stale answer" if replies.let_in == 1 else "%d stale answers" % replies.let_in, self._asked("let_in"), replies.kept_out,
                self._asked("kept_out"))
        said = "%s wrong%s, %s, " % ("1 reply" if replies.wrong == 1 else "%d replies" % replies.wrong, self._asked("wrong"), stale)
        said += "%d undecided%s, " % (replies.undecided, self._asked("undecided")) if replies.undecided else ""
        said += "%d harmless%s" % (replies.harmless, self._asked("harmless"))
        if self.new_enemies:
            said += "; of these %s" % ("1 let a new enemy in" if self.new_enemies == 1 else "%d let new enemies in" % self.new_enemies)
        return said + ("; " + labels.counted if labels.counted else "")

    def _asked(self, kind: str) -> str:
        """Of replies that were given more than once, to how many requests."""
        requests = getattr(self.requests, kind)
        return "" if requests == getattr(self.distinct, kind) else " (%d requests)" % requests


class Group(NamedTuple):
    """Findings of one kind of wrong, the worst first; how many requests have them, and when the first and the last was asked."""

    findings: list[RatedFinding]
    requests: int
    since: Optional[str]
    until: Optional[str]

    @property
    def worst(self) -> RatedFinding:
        return self.findings[0]

    @property
    def is_new_enemy(self) -> bool:
        return any(one.is_new_enemy for one in self.findings)

    @property
    def others(self) -> list[str]:
        """The kinds of its findings beside that of the worst."""
        kinds = dict.fromkeys("%s %s" % (one.finding.finding, one.finding.text) for one in self.findings)
        return list(kinds)[1:]

    @property
    def said(self) -> str:
        """How often and when it was asked; nothing where that was once, at a time that is not known."""
        if self.requests == 1:
            return "" if self.since is None else "asked %s" % self.since
        times = "" if self.since is None or self.until is None else " from %s to %s" % (self.since, self.until)
        return "asked %d times%s" % (self.requests, times)


class Replies:
    """The findings of an audit by their requests."""

    def __init__(self, findings: list[RatedFinding]):
        self.findings = findings
        self._again = {one.reply for one in findings if one.entry.again}
        # of each request its worst finding
        self._worst: dict[Key, RatedFinding] = {}
        for one in findings:
            request = self._request(one)
            known = self._worst.get(request)
            if known is None or RANKS[one.effect.word] < RANKS[known.effect.word]:
                self._worst[request] = one

    def _request(self, one: RatedFinding) -> Key:
        return one.reply if one.reply in self._again else (one.finding.line,)

    def _key(self, one: RatedFinding) -> Key:
        entry, worst = one.entry, self._worst[self._request(one)]
        if one.outcome is None:
            return entry.kind, entry.goal, entry.reply, one.effect.word, one.finding.finding
        return entry.kind, entry.goal, entry.reply, worst.effect.word, None if worst.change is None else worst.change.at

    def groups(self) -> list[Group]:
        """New enemies first, then the worst."""
        found: dict[Key, list[RatedFinding]] = {}
        for one in self.findings:
            found.setdefault(self._key(one), []).append(one)
        groups = [self._group(told) for told in found.values()]
        return sorted(groups, key=lambda group: (not group.is_new_enemy, RANKS[group.worst.effect.word]))

    def _group(self, told: list[RatedFinding]) -> Group:
        told = sorted(told, key=lambda one: RANKS[one.effect.word])
        # Of one length up to the seconds, and with a fraction behind it or none.
        times = sorted((one.entry.time for one in told if one.entry.time is not None), key=lambda time: time.rstrip("Z"))
        return Group(told, len({self._request(one) for one in told}), times[0] if times else None, times[-1] if times else None)

    def sums(self) -> Sums:
        worst = list(self._worst.values())
        distinct = {self._key(one): one for one in worst}
        enemies = {self._key(one) for one in self.findings if one.is_new_enemy}
        return Sums(_counts(worst), _counts(distinct.values()), len(enemies))


def _counts(told: Iterable[RatedFinding]) -> Counts:
    counts = dict.fromkeys(Counts._fields, 0)
    for one in told:
        kind = ("let_in" if one.entry.reply else "kept_out") if one.effect.word == "changed" else KINDS[one.effect.word]
        counts[kind] += 1
    return Counts(**counts)


def listed(groups: list[Group]) -> Iterator[RatedFinding]:
    """The worst finding of each group, and behind these all others."""
    yield from (group.worst for group in groups)
    for group in groups:
        yield from group.findings[1:]
