"""A window from its lines to what is told of it, and the state behind it. The audit is the program's (`following`)."""
import os
import tempfile
from typing import Callable, NamedTuple, Optional

from new_enemy_tools import limits, strictjson
from new_enemy_tools.coverage import Coverage, coverage_of, marks_in
from new_enemy_tools.faults import WindowFault
from new_enemy_tools.files import read_bytes
from new_enemy_tools.trace_lines import Counted, counted_in, is_imported
from new_enemy_tools.windowing.beginning import Keep, begun, head_behind, oldest_of, version_of
from new_enemy_tools.windowing.carries import Carry
from new_enemy_tools.windowing.following import Follow, RunReport, report_of_waiting
from new_enemy_tools.windowing.own_lines import Own
from new_enemy_tools.windowing.state import NOTHING, State
from new_enemy_tools.windowing.window_report import WindowReport, window_report_of

Step = Callable[[int], None]


class Audited(NamedTuple):
    """`old` is what the window began with, and `new` what it leaves; `entries` counts its own."""

    report: WindowReport
    old: State
    new: State
    entries: int

    def counted(self, own: Own) -> Counted:
        """Of the entries that are told: its own and those that were held over, but for those that are held over now."""
        before, after = [counted_in(b"\n".join(row.raw for row in state.waiting)) for state in (self.old, self.new)]
        return own.counted.plus(before).plus(after, -1)


def audited(own: Own, old: State, program: str, keep: Keep, out: Optional[str], is_final: bool, step: Step, said: Optional[Coverage] = None) -> Audited:
    """Audits a window, and writes the carry behind it to a file, which is not there; where that is None, nothing is handed on. With what the
    import of the window said of what was looked at, where that is known. Raises Refused where the program refuses it."""
    first = begun(old, own.strata(), keep)
    # What a run that is killed leaves there is taken away with the folder that it worked in.
    with tempfile.TemporaryDirectory(dir=None if out is None else os.path.dirname(out)) as folder:
        commit = own.first_commit()
        # A base stands at no commit before the first, also where rules change in front of that.
        oldest = max(oldest_of(old, keep, commit is not None), commit or 0 if old.carry is None else 0)
        follow = Follow(program, folder, own, first, oldest)
        told = follow.final(step) if is_final else follow.all(step)
        own.refuse_changed()
        new, given_up = (NOTHING, {}) if follow.carry is None else state_behind(own, first, read_bytes(follow.carry), keep)
        if out is not None and follow.carry is not None:
            os.replace(follow.carry, out)
    return window_of(own, first, new, report_of_waiting(program, first).plus(told), given_up, is_final or out is not None, said)


def state_behind(own: Own, old: State, data: bytes, keep: Keep) -> tuple[State, dict[int, int]]:
    """The state of a carry that a window left, and the entries that are given up with it."""
    carry = Carry(data, "the carry that the program wrote")
    if carry.lines != old.lines + own.count():
        raise WindowFault("the program counted %d lines, and the window has %d behind %d" % (carry.lines, own.count(), old.lines))
    head, given_up = head_behind(old, carry, keep)
    return State(head, carry, carried_by(own, old, carry), carry.seal), given_up


def carried_by(own: Own, old: State, carry: Carry) -> dict[int, bytes]:
    """The lines that stand for the commits and entries of a carry, as they were. What the commit at the base says is the store, and not what its
    line says, but for the first."""
    wanted = set(carry.kept)
    return {**{line: raw for line, raw in old.carried.items() if line in wanted}, **own.numbered(old.lines, wanted)}


def window_of(own: Own, old: State, new: State, told: RunReport, given_up: dict[int, int], is_handed_on: bool, said: Optional[Coverage]) -> Audited:
    waiting = told.open - len(given_up)
    if new.carry is not None and waiting != len(new.waiting):
        raise WindowFault("the program says that %d entries wait, and its carry has %d" % (told.open, len(new.waiting) + len(given_up)))
    # What is not known of such versions is no finding.
    findings = [one for one in told.findings if one.finding != "F6" or not old.head.may_lack_version(one.line)]
    report = window_report_of(told._replace(findings=findings), given_up, unknown_in(old, new, told), told.entries + len(old.waiting) - waiting, waiting,
                              is_handed_on)
    found = Audited(report, old, new, told.entries)
    return found._replace(report=report.covered(coverage_before(found, own, said)))


def unknown_in(old: State, new: State, told: RunReport) -> set[int]:
    """The entries that are told now and name a version that is not known, since versions were let go: the program says so when an entry comes,
    and one that waits is told later."""
    if old.head.let_go is None:
        return set()
    said = [(row, strictjson.object_of(row.raw)) for row in old.rows_of("vh")]
    issued = {version_of(row.raw) for row, value in said if value["kind"] == "content"}
    found = {row.line for row, value in said if row.kind == "h" and value["kind"] == "check" and value.get("version") is not None
             and version_of(row.raw) not in issued}
    found |= {one.line for one in told.findings if one.finding == "F6"}
    wait = {row.line for row in new.waiting} | set(new.head.given_up)
    return {line for line in found - wait if old.head.may_lack_version(line)}


def coverage_before(found: Audited, own: Own, said: Optional[Coverage]) -> Coverage:
    """What was looked at of the entries that are told with a window: of its own lines, as their import says or said, and of entries that waited."""
    with own.open() as file:
        is_ours = is_imported(file.readline(limits.LINE_BYTES + 1))
    marks = [mark for block in own.blocks() for mark in marks_in(block)] if said is None else [said]
    covered = coverage_of(own.counted, marks, is_ours and own.counted.entries > 0)
    told = found.counted(own)
    return covered._replace(checks=told.entries, in_part=dict(told.part))
