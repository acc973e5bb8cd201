"""The trace of a day that is kept, compressed: the lines that the carry of the days before stands for, and behind them the day's own. A file beside
it says which line of the log each is."""
import json
import os
import re
from itertools import chain
from typing import NamedTuple, Optional

from new_enemy_tools.compressed_files import ENDS, pack, packed_at, unpacked
from new_enemy_tools.coverage import Coverage, of_row
from new_enemy_tools.faults import ToolFault, naming
from new_enemy_tools.findings import Finding, Report, finding_of
from new_enemy_tools.labels import Labels
from new_enemy_tools.progress import Progress
from new_enemy_tools.trace import Trace, read_lines
from new_enemy_tools.trace_lines import ids_in
from new_enemy_tools.trace_pieces import digest_of
from new_enemy_tools.windowing.audited_window import Audited
from new_enemy_tools.windowing.days import TRACES
from new_enemy_tools.windowing.own_lines import Own

REPORT, TRACE, NUMBERS = "report.txt", "trace", TRACES[-1]
NOT_AUDITED = re.compile("line ([0-9]+): not audited, ")


class NotKept(ToolFault):
    """A day whose trace is not kept."""


def keep_trace(folder: str, found: Audited, own: Own) -> list[str]:
    """Keeps a day's trace in its folder; the files."""
    packed = pack(os.path.join(folder, TRACE), chain((row.raw + b"\n" for row in found.old.rows), own.blocks()))
    numbers = os.path.join(folder, NUMBERS)
    with naming(numbers), open(numbers, "w", encoding="utf-8") as file:
        json.dump({"before": found.old.lines, "carried": [row.line for row in found.old.rows]}, file, separators=(",", ":"))
        file.write("\n")
    return [packed, numbers]


class DayReport(NamedTuple):
    """What was told with a day, and what of it was looked at."""

    report: Report
    coverage: Coverage
    labels: Labels
    # how many checks are left to later days, and the lines of those that were not audited
    held_over: int
    held_back: int
    not_audited: frozenset[int]

    def unjudged(self, trace: Trace) -> frozenset[int]:
        """The lines of its trace whose entries were not judged with it: no commit of the trace has come to their snapshots, or they are told
        not to be audited."""
        last = trace.commits.ats[-1] if trace.commits else -1
        return self.not_audited | {line for line, entry in trace.entries.items() if entry.snapshot > last}


class KeptDay:
    """The folder of a day."""

    def __init__(self, folder: str):
        self.folder = folder

    def read(self, _progress: Progress) -> Trace:
        """As `read_trace_of` reads the bytes of a trace."""
        return self.trace()

    def trace(self) -> Trace:
        """Each line by its number in the log."""
        path = packed_at(os.path.join(self.folder, TRACE))
        if not path:
            raise NotKept("%s has no trace: the traces of as many days are kept as --keep-days says" % self.folder)
        self._refuse_other(path, os.path.join(self.folder, NUMBERS))
        data = unpacked(path)
        try:
            with open(os.path.join(self.folder, NUMBERS), encoding="utf-8") as file:
                given = json.load(file)
            carried, before = [int(line) for line in given["carried"]], int(given["before"])
        except (OSError, ValueError, KeyError, TypeError):
            raise NotKept("%s is not as it was written, and without it nobody knows the lines of %s" % (
                os.path.join(self.folder, NUMBERS), path)) from None
        raws = data.split(b"\n")
        count = len(raws) - len(carried)
        # By their places in the log, where a line that was carried may stand before others that replace commits.
        numbered = sorted(zip([*carried, *range(before + 1, before + count + 1)], raws))
        trace = read_lines((line, raw) for line, raw in numbered if raw.strip(b" \t\r"))
        trace.table = next((mark for mark in map(ids_in, raws[len(carried):len(carried) + 1]) if mark is not None), None)
        return trace

    def _refuse_other(self, *paths: str) -> None:
        """Raises NotKept where a file is not as the day's summary has it; that of an earlier version has no checksums."""
        try:
            with open(os.path.join(self.folder, "summary.json"), encoding="utf-8") as file:
                kept = json.load(file).get("kept", {})
            others = [path for path in paths if kept.get(os.path.basename(path), "") not in ("", digest_of(path))]
        except (OSError, ValueError, AttributeError):
            # What needs them says so.
            return
        if others:
            raise NotKept("%s is not as its day kept it: it was altered, or is of another day" % others[0])

    def report(self) -> DayReport:
        """What its report says; raises NotKept."""
        try:
            self._refuse_other(os.path.join(self.folder, REPORT))
            with open(os.path.join(self.folder, REPORT), encoding="utf-8") as file:
                lines = file.read().splitlines()
            with open(os.path.join(self.folder, "summary.json"), encoding="utf-8") as file:
                summary = json.load(file)
            found = [finding_of(line) for line in lines if line.startswith("line ")]
            findings: list[Finding] = [one for one in found if one is not None]
            verdict = str(summary["verdict"])
            if len(findings) != summary["findings"]:
                raise ValueError
            return DayReport(Report(findings, int(summary["entries"]), verdict), of_row(summary["coverage"]), Labels(**summary["looked"]),
                             int(summary["held_over"]), int(summary["held_back"]),
                             frozenset(int(found[1]) for found in map(NOT_AUDITED.match, lines) if found))
        except (OSError, ValueError, KeyError, TypeError):
            raise NotKept("%s has not the report and the summary of a day, as this version writes them" % self.folder) from None


def kept_day(path: str) -> Optional[KeptDay]:
    """The day of a folder, or of the trace in it; None of any other path."""
    folder = path if os.path.isdir(path) else os.path.dirname(path) or "."
    if os.path.isdir(path) and os.path.exists(os.path.join(folder, "summary.json")):
        return KeptDay(folder)
    is_trace = path.endswith(ENDS) and os.path.basename(path).rpartition(".")[0] == TRACE
    return KeptDay(folder) if is_trace and os.path.exists(os.path.join(folder, NUMBERS)) else None
