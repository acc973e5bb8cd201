"""Audits a log stretch by stretch, each behind what the one before left (docs/SCALE.md).

    ne window audit TRACE [--state OLD] [--out NEW]    audits the lines behind a state, and writes the state behind them
    ne window show STATE                               says what a state stands for

TRACE has the lines of a window alone; without OLD it is the beginning of the log. A window is a run of `new_enemy follow`, and a state is a folder
with the carry that it left, and with what the tools keep beside it. NEW must not be there. OLD may also be the folder of a day of `ne day`, or a state
that an earlier version wrote.

The status is 0 where nothing was found, 1 where something was, 6 where nothing was found and not everything was looked at, and 2 where
a file is refused; a fault of usage has 3, out of memory 4, and a file that cannot be read or written 5. A state is written where the
status is 0, 1 or 6. Where there is none, and entries wait for a commit that has not come, the status is 6.
"""
import os
import shutil
import sys
from argparse import ArgumentParser, Namespace
from collections import Counter
from typing import Iterable, Optional

from new_enemy_tools import limits, strictjson
from new_enemy_tools.commands.running import Parser, add_allowing, add_program, refuse_below
from new_enemy_tools.faults import WindowFault
from new_enemy_tools.garbage_collection import held_off
from new_enemy_tools.progress import Progress
from new_enemy_tools.shown import plain, tell
from new_enemy_tools.windowing.audited_window import Audited, audited
from new_enemy_tools.windowing.beginning import Keep
from new_enemy_tools.windowing.days import to_disk
from new_enemy_tools.windowing.following import Refused
from new_enemy_tools.windowing.own_lines import Own
from new_enemy_tools.windowing.state import CARRY, NOTHING, State, read_state, write_beside


def add_keeping(parser: ArgumentParser) -> None:
    """The words on what a state keeps."""
    parser.add_argument("--oldest-snapshot", type=int, metavar="T", help="keep what entries with snapshots from this timestamp on need; "
                        "0 keeps all commits (by default what the last days need)")
    parser.add_argument("--keep-snapshots", type=int, default=1, metavar="DAYS", help="from so many windows with commits (1)")
    parser.add_argument("--keep-versions", type=int, metavar="DAYS", help="let versions go after so many windows (never)")


def given_of(words: list[str]) -> Namespace:
    parser = Parser(prog="ne window", description=__doc__)
    commands = parser.add_subparsers(dest="command", required=True)
    command = commands.add_parser("audit", help="audits the lines behind a state")
    command.add_argument("trace", metavar="TRACE", help="the lines of the window")
    command.add_argument("--state", metavar="OLD", help="the state behind the lines before")
    command.add_argument("--out", metavar="NEW", help="the state to write, a folder which is not there")
    command.add_argument("--final", action="store_true", help="the log ends here: nothing waits any longer")
    command.add_argument("--where", action="store_true", help="tell the file and the line of the log where the import kept them")
    add_program(command)
    add_allowing(command)
    add_keeping(command)
    commands.add_parser("show", help="says what a state stands for").add_argument("state", metavar="STATE", help="a state")
    given = parser.parse_args(words)
    if given.command != "show":
        refuse_usage(parser, given)
        if given.final and given.out is not None:
            parser.error("--final tells all that is held over, and a state behind it would tell that again: leave out --out")
    return given


def refuse_usage(parser: ArgumentParser, given: Namespace) -> None:
    refuse_below(parser, given, keep_snapshots=0, keep_versions=1, oldest_snapshot=0)
    if (given.oldest_snapshot or 0) > limits.NUMBER:
        parser.error("--oldest-snapshot is no timestamp")


def keep_of(given: Namespace) -> Keep:
    return Keep(given.oldest_snapshot, given.keep_snapshots, given.keep_versions)


def state_before(path: Optional[str]) -> State:
    return NOTHING if path is None else read_state(path)


def audit_command(given: Namespace, progress: Progress) -> int:
    old, out = state_before(given.state), given.out
    if out is not None and os.path.lexists(out):
        raise WindowFault("%s is there already: give the name of a folder that is not there" % out)
    own, beside = Own(given.trace), None if out is None else out + ".part"
    try:
        if beside is not None:
            # What a run left that was killed.
            shutil.rmtree(beside, ignore_errors=True)
            os.mkdir(beside)
        carry = None if beside is None else os.path.join(beside, CARRY)
        found = audited(own, old, given.program, keep_of(given), carry, given.final, progress.steps("read %s bytes"))
        if beside is not None:
            write_beside(beside, found.new)
        progress.end()
        write(found.report.lines(places(found, own).__getitem__) if given.where else found.report.lines())
        sys.stdout.flush()
        # A run that is killed before this is done anew, and tells the same.
        if beside is not None:
            os.rename(beside, out)
            to_disk(os.path.dirname(os.path.abspath(out)))
    finally:
        if beside is not None:
            shutil.rmtree(beside, ignore_errors=True)
    return found.report.status(given.allow_unaudited)


def places(found: Audited, own: Own) -> dict[int, str]:
    """What is told of where each line that is told comes from."""
    lines = {one.line for one in found.report.findings} | {*found.report.not_audited, *found.report.in_part}
    raws = {row.line: row.raw for row in found.old.waiting if row.line in lines}
    raws.update(own.numbered(found.old.lines, lines))
    said = {line: strictjson.object_of(raw).get("from") for line, raw in raws.items()}
    return {line: " (%s)" % plain(source) if isinstance(source, str) else "" for line, source in said.items()}


def show_command(path: str) -> int:
    state = read_state(path)
    head, carry, kinds = state.head, state.carry, Counter(row.kind for row in state.rows)
    write(["window %d" % head.window, "lines %d" % state.lines, "base %s" % state.base, "last commit %d" % (-1 if carry is None else carry.last),
           "rules %d" % kinds["r"], "commits above the base %d" % kinds["c"],
           "versions %d%s" % (kinds["v"], ", and some were let go" if head.let_go is not None else ""), "held over %d" % kinds["h"]])
    return 0


def write(lines: Iterable[str]) -> None:
    for line in lines:
        sys.stdout.write(line + "\n")


FAULTS = (Refused, WindowFault, OSError)


def status_of(command: str, fault: Exception) -> int:
    """Tells one of the faults of audits in windows; its status."""
    if isinstance(fault, Refused):
        sys.stderr.write(fault.error)
        return fault.status
    said = [fault.filename, fault.strerror] if isinstance(fault, OSError) else [fault]
    tell("%s: %s" % (command, ": ".join(str(part) for part in said if part)), sys.stderr)
    return 5 if isinstance(fault, OSError) else 2


def main(words: list[str]) -> int:
    given = given_of(words)
    try:
        with held_off(), Progress() as progress:
            return audit_command(given, progress) if given.command == "audit" else show_command(given.state)
    except FAULTS as fault:
        return status_of("window", fault)
