"""What is to be told of an audit: its findings with their entries and effects, their sums, and what is left out."""
from collections import Counter
from datetime import date
from typing import Callable, NamedTuple, Optional

from new_enemy_tools.baseline import key_of
from new_enemy_tools.changes import Changes
from new_enemy_tools.coverage import INCOMPLETE, Coverage
from new_enemy_tools.effects import Effect, Effects, RatedFinding, by_effect
from new_enemy_tools.entries import Entry
from new_enemy_tools.findings import ON_TOKENS, Finding, Report, ReportFault
from new_enemy_tools.groups import Group, Replies, Sums
from new_enemy_tools.ignoring import Row
from new_enemy_tools.labels import Labels
from new_enemy_tools.names import Names
from new_enemy_tools.token_order import order_findings
from new_enemy_tools.trace import Trace

# Of so many findings the count is told.
STEP = 64


class Telling(NamedTuple):
    """New enemies come first, and then the worst findings."""

    told: list[RatedFinding]
    # with the row that hides each
    ignored: list[tuple[RatedFinding, Row]]
    # those of the baseline
    known: list[RatedFinding]
    trace: Trace
    names: Names
    path: str
    report: Report
    sums: Sums
    labels: Labels
    coverage: Coverage
    # how many findings are told once with those of their checks at other states
    others: int
    # the findings that are told, by what was wrong
    groups: list[Group]
    # of a day how many of its checks wait for one whose writes come to their snapshots, and for other logs; and the lines of entries that
    # were not judged with it
    held_over: int = 0
    held_back: int = 0
    unjudged: frozenset[int] = frozenset()
    # how many replies were not compared with the report, which does not name its trace
    uncompared: int = 0

    @property
    def service(self) -> Optional[str]:
        """That of the logs, where the table of ids says it."""
        return None if self.names.ids is None else self.names.ids.service

    @property
    def said(self) -> str:
        """The sums as a sentence, with what is not told."""
        left = [("%d ignored", len(self.ignored)), ("%d known from the baseline", len(self.known)),
                ("%d of the same checks at other states", self.others)]
        not_told = ", ".join(words % count for words, count in left if count)
        return self.sums.said(self.labels) + ("; not told: " + not_told if not_told else "")

    @property
    def notes(self) -> list[str]:
        """What was not looked at, and what to do about it."""
        return self.unaudited() + ([] if self.labels.note is None else [self.labels.note])

    def unaudited(self, number: Callable[[int], str] = str) -> list[str]:
        """What was not looked at; numbers are written so."""
        covered = [] if self.coverage.is_plain else list(self.coverage.lines(number))
        if self.coverage.is_empty:
            covered.append("nothing was audited: the trace has no check")
        if self.held_over:
            covered.append("held over %s: the replies of these checks are judged with the day whose writes come to their snapshots" % number(self.held_over))
        if self.held_back:
            covered.append("held back %s: these checks are audited when all logs have come as far" % number(self.held_back))
        if self.uncompared:
            covered.append("the report does not name its trace, and of %s of the %s replies it was not looked whether this trace gives what it says" % (
                number(self.uncompared), number(len(self.trace.entries))))
        return covered

    @property
    def verdict(self) -> str:
        """That of the report; of a clean one `incomplete` where not everything was looked at, and `empty` where nothing was asked."""
        is_clean = self.report.verdict == "clean"
        return self.report.verdict if not is_clean or self.coverage.is_whole else self.coverage.state

    def status(self, allowed: float, fails_on_some: bool = False) -> int:
        """6 where more than so many percent of the checks were not looked at whole, and no finding is told or only some of them make who asks
        fail; else 0, also where nothing was asked, as of an import and a window."""
        return 0 if self.told and not fails_on_some or self.coverage.status(allowed) == 0 else INCOMPLETE


def _entry_of(number: int, finding: Finding, trace: Trace) -> Entry:
    """The entry of a finding; raises ReportFault where the trace has none on that line."""
    entry = trace.entries.get(finding.line)
    if finding.related is None and entry is not None:
        return entry
    for line in (finding.line, finding.related):
        if line is not None and trace.at_of(line) is None:
            raise ReportFault("report line %d: the trace has no entry or commit on line %d" % (number, line))
    if entry is None:
        raise ReportFault("report line %d: line %d of the trace is no entry" % (number, finding.line))
    return entry


def told_of(trace: Trace, report: Report, step: Callable[[int], None] = lambda count: None) -> list[RatedFinding]:
    """Each finding with its entry and effect, by effect; raises ReportFault where a report is not of this trace."""
    if report.entries != len(trace.entries):
        raise ReportFault("the report has %d entries, and the trace %d" % (report.entries, len(trace.entries)))
    effects = Effects(trace)
    changes, told = Changes(trace, effects), []
    for number, finding in enumerate(report.findings, 1):
        entry = _entry_of(number, finding, trace)
        if finding.finding in ON_TOKENS:
            _refuse_other(number, finding, entry, trace)
        told.append(_rated(trace, changes, finding, entry, effects.of(entry, finding.finding)))
        if number % STEP == 1:
            step(number)
    return by_effect(told)


def _rated(trace: Trace, changes: Changes, finding: Finding, entry: Entry, effect: Effect) -> RatedFinding:
    told = RatedFinding(finding, entry, effect, changes.of(entry, finding.finding, effect))
    if told.outcome != "let in" or entry.kind != "check" or entry.issued_on is None or told.change is None:
        return told
    return told._replace(is_new_enemy=told.change.at <= trace.entries[entry.issued_on].snapshot)


def _refuse_other(number: int, finding: Finding, entry: Entry, trace: Trace) -> None:
    """Raises ReportFault where the trace does not give a finding on tokens."""
    said = "%s %s" % (finding.finding, finding.text)
    if (said, finding.related) not in order_findings(trace, entry):
        raise ReportFault("report line %d: by this trace, line %d has no `%s%s`" % (
            number, entry.line, said, ", see line %d" % finding.related if finding.related else ""))


class LeftOut(NamedTuple):
    """What a report is asked not to tell."""

    rows: list[Row]
    baseline: Counter[str]
    today: date


def once_a_reply(told: list[RatedFinding]) -> tuple[list[RatedFinding], int]:
    """The findings without those that a check has at another state too, and how many those are."""
    again = {one.reply for one in told if one.entry.again}
    seen: set[tuple[object, ...]] = set()
    kept = []
    for one in told:
        key = (*one.reply, one.finding.finding)
        if one.reply not in again or key not in seen:
            kept.append(one)
        seen.add(key)
    return kept, len(told) - len(kept)


def parts_of(told: RatedFinding, names: Names) -> dict[str, str]:
    """What a finding is found by."""
    return {"finding": told.finding.finding, "effect": told.effect.word, "kind": told.entry.kind, "key": key_of(told, names),
            **names.question(told.entry.goal)._asdict()}


def telling_of(told: list[RatedFinding], trace: Trace, names: Names, path: str, report: Report, labels: Labels, coverage: Coverage,
               out: Optional[LeftOut] = None) -> Telling:
    """Each finding is told, ignored, or known from the baseline; a key that stands there once is known once. Of a check that stands in the
    trace at several states a finding of each kind is told once."""
    told, others = once_a_reply(told)
    rows = [] if out is None else [row for row in out.rows if row.until >= out.today]
    left = Counter() if out is None else Counter(out.baseline)
    if not rows and not left:
        replies = Replies(told)
        return Telling(told, [], [], trace, names, path, report, replies.sums(), labels, coverage, others, replies.groups())
    said: list[RatedFinding] = []
    ignored: list[tuple[RatedFinding, Row]] = []
    known: list[RatedFinding] = []
    for one in told:
        parts = parts_of(one, names)
        row = next((row for row in rows if row.hides(parts)), None)
        if row is not None:
            ignored.append((one, row))
        elif left and left[parts["key"]] > 0:
            left[parts["key"]] -= 1
            known.append(one)
        else:
            said.append(one)
    replies = Replies(said)
    return Telling(said, ignored, known, trace, names, path, report, replies.sums(), labels, coverage, others, replies.groups())


def warnings_of(telling: Telling, out: LeftOut) -> list[str]:
    """What is to be said of rows that hide nothing any more."""
    used = {row.place for _, row in telling.ignored}
    said = []
    for row in out.rows:
        if row.until < out.today:
            said.append("%s: ended on %s (%s); what it hid is told again" % (row.place, row.until, row.reason))
        elif row.place not in used:
            said.append("%s: hides nothing" % row.place)
    return said
