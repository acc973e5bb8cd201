"""A run of a monitor, as of a day: lines of a log in, lines of a trace out; and what a program that follows these
says in, findings with their effects out. It has no file, process or clock."""
import re
from collections import Counter, deque
from hashlib import blake2b
from typing import Callable, NamedTuple, Optional

from new_enemy_tools.audit_summary import Telling, telling_of, told_of
from new_enemy_tools.coverage import Coverage
from new_enemy_tools.effects import RatedFinding
from new_enemy_tools.entries import Commit
from new_enemy_tools.faults import MonitorFault
from new_enemy_tools.findings import ON_TOKENS, Finding, Report, finding_of
from new_enemy_tools.ids import Ids
from new_enemy_tools.importing import causes
from new_enemy_tools.importing.going_on import Left
from new_enemy_tools.labels import Labels
from new_enemy_tools.limits import LINE_BYTES
from new_enemy_tools.monitoring.holding import CHECKS, time_of
from new_enemy_tools.monitoring.stream import Chunk, Stream
from new_enemy_tools.names import Names
from new_enemy_tools.token_order import ignored
from new_enemy_tools.trace import Refusal, Trace
from new_enemy_tools.trace_lines import CHECK_START, CONTENT_START, Counted, counted_in, is_utf8, may_issue, snapshots_in
from new_enemy_tools.windowing.audited_window import Audited
from new_enemy_tools.windowing.beginning import Keep, begun, oldest_of
from new_enemy_tools.windowing.following import BELOW, SUM, RunReport, run_report_of
from new_enemy_tools.windowing.own_lines import strata_in
from new_enemy_tools.windowing.state import State

THROUGH = re.compile(r"through line ([0-9]+): ([0-9]+) entries, ([0-9]+) findings, ([0-9]+) open")
VERDICT = re.compile(r"verdict .*")
# A finding waits so long for the commits that its effect hangs on.
EFFECT_WAIT = 10.0


class Begun(NamedTuple):
    """What a run begins with: what the import before it left, the state, and the table of ids."""

    left: Optional[Left]
    state: State
    ids: Ids


class Through(NamedTuple):
    """What a program that follows says of how far it is: the last settled line of the log, how many entries are
    settled and how many are not."""

    line: int
    entries: int
    open: int


class Piece(NamedTuple):
    """Lines that were taken together: the last line of the trace that is an entry of them, and when their first and
    last reply were given."""

    line: int
    first: int
    last: int


def held_over(state: State) -> list[Piece]:
    """The checks that no run before has settled."""
    found = [Piece(row.line, at, at) for row in state.waiting if (at := time_of(row.raw)) is not None]
    return sorted(found)


class Waiting(NamedTuple):
    finding: Finding
    until: float


class Run:
    """`line_of` gives a line of the run's own trace by its number in the log, when the run has given it out."""

    def __init__(self, begun: Begun, has_between: bool, line_of: Callable[[int], bytes], keep: Keep):
        self.begun, self.line_of, self.keep = begun, line_of, keep
        self.stream = Stream(begun.ids, begun.left, begun.state, has_between)
        # what the program begins with
        self.state = begun.state
        # how many lines the log has
        self.lines = begun.state.lines
        self.digest = blake2b(digest_size=16)
        self.trace = Trace()
        self.names = Names(begun.ids)
        self.through = Through(0, 0, 0)
        self.findings = 0
        # what its own lines say of themselves
        self.counted = Counted()
        # the trace's own bytes
        self.bytes = 0
        # what is not settled yet
        self._pieces = deque(held_over(begun.state))
        self.newest: Optional[int] = None
        self._waiting: list[Waiting] = []
        self._is_fed = False
        self._known = 0
        # what the program said of the run, but for how far it is
        self._output: list[str] = []
        self.is_closed = False
        self._ended: Optional[Audited] = None
        # how many entries ask below the base, and name a version that is not known since versions were let go
        self._low = self._let_go = 0

    # Lines of the log

    def take(self, chunk: Chunk) -> bytes:
        """The run's own lines of the trace; raises MonitorFault, and NewStrata."""
        text = self.stream.take(chunk)
        if not text:
            return text
        if not self._is_fed:
            self._begin(text)
        if max(map(len, text.split(b"\n"))) > LINE_BYTES:
            raise MonitorFault("%s:%d: a line becomes one of the trace that is too long" % (chunk.file, chunk.first))
        before = self.lines
        self._see(text)
        self._note_times(chunk, before, text)
        self.bytes += len(text)
        return text

    @property
    def oldest(self) -> int:
        """Up to where the base of the next run moves at most."""
        first = self.trace.commits.ats[0] if self.begun.state.carry is None and self.trace.commits else 0
        return max(first, oldest_of(self.begun.state, self.keep, False))

    def _begin(self, text: bytes) -> None:
        self._is_fed = True
        self.state = begun(self.begun.state, strata_in(text[:text.find(b"\n") + 1]), self.keep)
        self._known = sum(1 for _ in self.state.rows_of("v"))
        for row in self.state.rows:
            self._keep(row.line, row.raw)

    def _see(self, text: bytes) -> None:
        self.digest.update(text)
        self.counted = self.counted.plus(counted_in(text))
        if self.state.base is not None:
            self._low += sum(snapshot < self.state.base for snapshot in snapshots_in(text))
        for self.lines, raw in enumerate(text.split(b"\n")[:-1], self.lines + 1):
            if not raw.startswith(CHECK_START) and (not raw.startswith(CONTENT_START) or may_issue(raw)):
                self._keep(self.lines, raw)

    def _keep(self, line: int, raw: bytes) -> None:
        try:
            if not (is_utf8(raw) and self.trace.take_quickly(line, raw)):
                self.trace.take(line, raw)
        except Refusal as fault:
            raise MonitorFault("trace line %d: %s" % (line, fault)) from None

    def _note_times(self, chunk: Chunk, before: int, text: bytes) -> None:
        lines = text.split(b"\n")
        last = next((place for place in range(len(lines), 0, -1)
                     if lines[place - 1].startswith((CHECK_START, CONTENT_START))), None)
        checks = [line for line in chunk.data.split(b"\n") if line.startswith(CHECKS)]
        times = [time for time in map(time_of, (checks[0], checks[-1]) if checks else ()) if time is not None]
        if last is not None and times:
            self._pieces.append(Piece(before + last, times[0], times[-1]))
            self.newest = max(self.newest or 0, times[-1])

    @property
    def since(self) -> Optional[int]:
        """When the first reply was given of those that are not settled."""
        return self._pieces[0].first if self._pieces else None

    # What the program says

    def said(self, text: str, now: float) -> None:
        """Takes a line of the program."""
        through = THROUGH.fullmatch(text)
        if through is not None:
            line, entries, is_open = int(through[1]), int(through[2]), int(through[4])
            # The content checks that a carry has were settled in the runs before.
            self._settle(Through(line, max(0, entries - self._known), is_open))
            return
        self._output.append(text)
        if not any(one.fullmatch(text) for one in (SUM, VERDICT, BELOW)):
            finding = finding_of(text)
            if finding is None:
                raise MonitorFault("the program said %r, which is no line of a run" % text[:200])
            self.found(finding, now)

    def _settle(self, through: Through) -> None:
        self.through = through
        while self._pieces and self._pieces[0].line <= through.line:
            self._pieces.popleft()

    def found(self, finding: Finding, now: float) -> None:
        # Such an entry is counted as audited in part.
        if finding.finding == "F6" and self.state.head.may_lack_version(finding.line):
            self._let_go += 1
            return
        self.findings += 1
        self._waiting.append(Waiting(finding, now + EFFECT_WAIT))

    # What is told

    def ready_findings(self, now: float, is_end: bool = False) -> Optional[Telling]:
        """The findings that can be told now, with their effects; those whose ignored commits are not all there yet
        wait for a little."""
        if not self._waiting:
            return None
        ready: list[Waiting] = []
        waiting: list[Waiting] = []
        for one in self._waiting:
            (ready if is_end or one.until <= now or self._is_seen(one.finding) else waiting).append(one)
        self._waiting = waiting
        return self.telling([one.finding for one in ready]) if ready else None

    def telling(self, findings: list[Finding]) -> Telling:
        for finding in findings:
            self._keep_entry(finding.line)
        report = Report(findings, len(self.trace.entries), "dirty")
        return telling_of(told_of(self.trace, report), self.trace, self.names, "the trace", report, Labels(0, 0, 0),
                          Coverage())

    def _keep_entry(self, line: int) -> None:
        if line not in self.trace.entries:
            raw = self.line_of(line)
            if not raw.startswith((CHECK_START, CONTENT_START)):
                raise MonitorFault("the program told a finding on line %d, which is no check" % line)
            self._keep(line, raw)

    def _is_seen(self, finding: Finding) -> bool:
        """Whether all commits that the effect hangs on stand in the trace."""
        if finding.finding not in ON_TOKENS:
            return True
        self._keep_entry(finding.line)
        high = ignored(self.trace, self.trace.entries[finding.line], finding.finding).high
        return bool(self.trace.commits) and high <= self.trace.commits.ats[-1]

    def coverage(self) -> Coverage:
        """What of the lines so far was looked at: by the import, and of what it placed by the state that the run
        began with."""
        struck = +Counter({causes.SNAPSHOT_TOO_OLD: self._low})
        in_part = {causes.VERSION_LET_GO: self._let_go} if self._let_go else {}
        return self.stream.coverage().plus(Coverage(0, in_part)).without(struck)

    # The end

    def close(self) -> None:
        """Ends the run's lines."""
        self.is_closed = True

    def told_all(self, status: int) -> RunReport:
        """What the program told, when it has ended with a status."""
        return run_report_of("\n".join(self._output), status)

    def end(self, found: Audited) -> None:
        """Takes what the run comes to."""
        self._ended = found

    @property
    def entries(self) -> int:
        """How many entries are audited and settled, up to the first that is not; at the end of the run all that the
        next one does not have."""
        if self._ended is None:
            return self.through.entries
        return self._ended.report.entries - len(self._ended.report.not_audited)

    @property
    def waiting(self) -> int:
        return len(self._waiting)

    def change_of(self, told: RatedFinding) -> Optional[Commit]:
        """The change that a reply ignored, as it stands in the log."""
        place = None if told.change is None else self.trace.commits.place_at(told.change.at)
        return None if place is None else self.trace.commits[place]
