"""What a recorder's log has of a load: imported, audited, and compared with what the clients saw and with the tools' own evaluator."""
import contextlib
import glob
import io
import json
import os
import subprocess
import time
from collections import Counter
from typing import Any, Iterable, Iterator, NamedTuple

from new_enemy_tools.commands import import_logs
from new_enemy_tools.coverage import coverage_in
from new_enemy_tools.files import read_bytes
from new_enemy_tools.findings import read_report
from new_enemy_tools.fitting.load import CALLS, Decision, Load
from new_enemy_tools.fitting.services import Tuple
from new_enemy_tools.meaning import Settled
from new_enemy_tools.trace import Trace, read_trace


# So long it may take until the log has what was written last.
SHOWN = 20.0


class Compared(NamedTuple):
    """The sums, and sentences on what differs and on what was not looked at."""

    sums: list[str]
    differs: list[str]
    unseen: list[str]


def _tuple_of(listed: list[str], prefix: str) -> Tuple:
    of, name, relation, user_type, user, *more = (one[len(prefix):] if one.startswith(prefix) else one for one in listed)
    return "%s:%s" % (of, name), relation, "%s:%s%s" % (user_type, user, "".join("#" + one for one in more if one != "*"))


class Log:
    """The decisions of a log, by the places of their lines, and the tuples that are stored at its end."""

    def __init__(self, paths: list[str], prefix: str):
        self.of: dict[str, Decision] = {}
        self.stored: set[Tuple] = set()
        for path in paths:
            # Of a log that is still written the last line may be there by half.
            for number, line in enumerate(read_bytes(path).rpartition(b"\n")[0].splitlines(), 1):
                self._take("%s:%d" % (path, number), json.loads(line), prefix)

    def _take(self, place: str, row: dict[str, Any], prefix: str) -> None:
        if row["event"] in ("check", "content"):
            self.of[place] = _tuple_of(row["goal"], prefix), row["reply"]
        elif row["event"] == "write":
            self.stored -= {_tuple_of(one, prefix) for one in row.get("remove", ())}
            self.stored |= {_tuple_of(one, prefix) for one in row.get("add", ())}


def _paths(room: str) -> list[str]:
    return sorted(glob.glob(os.path.join(room, "log", "*.jsonl")))


def wait_for_changes(load: Load, room: str) -> None:
    """Until the log has all that was written: a recorder that is ended waits for the changes alone that checks need."""
    until = time.monotonic() + SHOWN
    while Log(_paths(room), load.service.place).stored != load.stored and time.monotonic() < until:
        time.sleep(0.1)


def _said(decision: Decision) -> str:
    return "%s#%s@%s" % decision[0] + (" allowed" if decision[1] else " denied")


def _counted_line(what: str, count: int, some: Iterable[str]) -> list[str]:
    return ["%s: %d, as %s" % (what, count, next(iter(some)))] if count > 0 else []


def of_log(load: Load, log: Log, has_lost: bool) -> Iterator[str]:
    """What the clients saw and the log has not, and the other way. A list that is lost counts as one check, whatever it listed."""
    found = Counter(log.of.values())
    others, missing = found - load.asked, load.asked - found
    yield from _counted_line("checks of the log that nobody asked, or that were answered otherwise", sum(others.values()), map(_said, others))
    count = 0 if has_lost else sum(missing.values()) - sum(others.values())
    yield from _counted_line("checks that are not in the log, which tells of none that is lost", count, map(_said, missing))
    for what, some in (("tuples that were written and the log has not", load.stored - log.stored),
                       ("tuples that the log has and are not stored", log.stored - load.stored)):
        yield from _counted_line(what, len(some), ("%s#%s@%s" % one for one in some))


def never_asked(load: Load) -> Iterator[str]:
    """That some kinds of requests were not tried, as with few turns."""
    never = [one for one in CALLS if not load.calls[one]]
    if never:
        yield "requests that were never made: %s; give more --turns" % ", ".join(never)


def _of_audit(trace: Trace, text: str, log: Log) -> Iterator[str]:
    """What the audit finds, and of which replies the evaluator says otherwise."""
    lines: dict[str, list[int]] = {}
    for one in read_report(text).findings:
        lines.setdefault("%s %s" % (one.finding, one.text), []).append(one.line)
    wrong = {line for line, entry in trace.entries.items() if Settled(trace.rules, trace.store, entry.goal, entry.snapshot).holds() != entry.reply}
    listed = [("the audit finds " + kind, some) for kind, some in sorted(lines.items())]
    listed.append(("audit and evaluator say other things of replies", sorted(wrong ^ set(lines.get("F10 wrong reply", ())))))
    for what, some in listed:
        yield from _counted_line(what, len(some), (_said(log.of[trace.entry_on(line).source or ""]) for line in some))


def compared(load: Load, room: str, program: str) -> Compared:
    failed = ["%s (%d)" % one for one in sorted(load.failed.items())]
    paths = _paths(room)
    trace, said = os.path.join(room, "trace.jsonl"), io.StringIO()
    with contextlib.redirect_stderr(said):
        import_logs.main(["events", *paths, "--trace", trace, "--ids", os.path.join(room, "ids.jsonl"), "--jobs", "1"])
    if not os.path.exists(trace):
        return Compared([], [*failed, *("the import refuses the log: " + one for one in said.getvalue().splitlines())], [])
    audit = subprocess.run([program, "audit", trace, "--make"], stdin=subprocess.DEVNULL, capture_output=True, text=True, check=False)
    if audit.returncode not in (0, 1):
        return Compared([], [*failed, "the audit refuses the trace: " + audit.stderr.strip()], [])
    data, log = read_bytes(trace), Log(paths, load.service.place)
    coverage = coverage_in(data)
    sums = ["requests: " + ", ".join("%s %d" % one for one in sorted(load.calls.items())),
            "checks: %d answered, %d in the log" % (sum(load.asked.values()), len(log.of)), "audit: " + audit.stdout.strip().splitlines()[-1]]
    differs = [*failed, *of_log(load, log, bool(coverage.lost)), *_of_audit(read_trace(data), audit.stdout, log)]
    return Compared(sums, differs, [*never_asked(load), *(() if coverage.is_whole else coverage.lines())])
