"""The findings of a window with their effects, as `ne report` tells them; lines are those of the log."""
from typing import NamedTuple, Optional

from new_enemy_tools.audit_summary import Telling, telling_of, told_of
from new_enemy_tools.audited_trace import AuditedTrace, Numbered
from new_enemy_tools.faults import ToolFault
from new_enemy_tools.findings import ON_TOKENS, Report
from new_enemy_tools.ids import Ids
from new_enemy_tools.labels import labels_of
from new_enemy_tools.names import Names
from new_enemy_tools.report_forms import FORMS, group_lines
from new_enemy_tools.trace import Trace, read_lines
from new_enemy_tools.trace_lines import (CHECK_START as CHECK, COMMIT_START as COMMIT, CONTENT_START as CONTENT, NAMESPACE_START as NAMESPACE, OtherForm,
                                         may_issue, refuse_other_keys)
from new_enemy_tools.windowing.audited_window import Audited
from new_enemy_tools.windowing.own_lines import Own


# Of rows of a carry the kinds of lines that they stand for; what an entry that waits is shows later.
KINDS = {"r": "namespace", "f": "commit", "c": "commit", "v": "content", "h": "content"}


class Lines(NamedTuple):
    """What the effects of a window's findings hang on: its rules and commits, the content checks that issue versions, and the entries that
    have findings, each in the order of the log."""

    rules: list[Numbered]
    commits: list[Numbered]
    issued: list[Numbered]
    wanted: list[Numbered]

    def quickly(self) -> Trace:
        """The trace of these lines, of which as much is read as is asked for; raises OtherForm."""
        kinds = ((self.rules, (NAMESPACE,)), (self.commits, (COMMIT,)), (self.issued, (CONTENT,)), (self.wanted, (CHECK, CONTENT)))
        if not all([raw.startswith(starts) for lines, starts in kinds for _, raw in lines]):
            raise OtherForm
        raws = [raw for lines in self for _, raw in lines]
        refuse_other_keys(b"\n".join(raws), len(raws), len(self.commits))
        trace = AuditedTrace(self.rules, [line for line, _ in self.commits], [raw for _, raw in self.commits], self.issued)
        for line, raw in self.issued + self.wanted:
            trace.entries.keep(line, raw)
        return trace

    def in_full(self) -> Trace:
        return read_lines(sorted({line for lines in self for line in lines}))


def lines_for(found: Audited, own: Own, has_stories: bool = False) -> Lines:
    """Of a window that was audited. It keeps the entries that have findings and, where commits tell something of these, or for stories, the
    store, the commits and the versions."""
    old, findings = found.old, found.report.findings
    lines = {one.line for one in findings}
    wanted = [(row.line, row.raw) for row in old.waiting if row.line in lines] + sorted(own.numbered(old.lines, lines).items())
    rows: dict[str, list[Numbered]] = {"namespace": [], "commit": [], "content": []}
    for row in old.rows:
        rows[KINDS[row.kind]].append((row.line, row.raw))
    for kind, one in own.but_checks(old.lines):
        rows[kind].append(one)
    if not has_stories and not any(one.finding in ON_TOKENS or one.finding == "F10" for one in findings):
        return Lines(rows["namespace"], [], [], wanted)
    return Lines(rows["namespace"], rows["commit"], [one for one in rows["content"] if may_issue(one[1])], wanted)


class Texts(NamedTuple):
    """The findings of a window as rows of JSON, and for people as a line for each group behind one of sums."""

    rows: list[str]
    groups: list[str]


def texts_of(found: Audited, own: Own, ids: Optional[Ids]) -> Texts:
    """Nothing where nothing was found."""
    if not found.report.findings:
        return Texts([], [])
    lines = lines_for(found, own)
    try:
        return _texts(lines.quickly(), found, own, ids)
    except (OtherForm, ToolFault):
        return _texts(lines.in_full(), found, own, ids)


def telling_in_full(found: Audited, own: Own, ids: Optional[Ids]) -> Telling:
    """What is to be told of a window, for stories too."""
    return _telling(lines_for(found, own, True).in_full(), found, own, ids)


def _telling(trace: Trace, found: Audited, own: Own, ids: Optional[Ids]) -> Telling:
    told = found.report
    report = Report(told.findings, len(trace.entries), told.verdict)
    telling = telling_of(told_of(trace, report), trace, Names(ids), own.path, report, labels_of(found.counted(own)), told.coverage)
    return telling._replace(report=report._replace(entries=told.entries), held_over=told.held, held_back=told.held_back)


def _texts(trace: Trace, found: Audited, own: Own, ids: Optional[Ids]) -> Texts:
    telling = _telling(trace, found, own, ids)
    return Texts(list(FORMS["jsonl"](telling)), [telling.said, *group_lines(telling)])
