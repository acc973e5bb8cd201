"""The answer of the whole, from the reports of all parts."""
import heapq
import re
from typing import Iterable, Iterator, NamedTuple

from new_enemy_tools.faults import PartsFault
from new_enemy_tools.findings import ReportFault, read_report
from new_enemy_tools.parting.reports import PartReport

FAULT = re.compile(r"(?:(trace|evidence) line ([1-9][0-9]*): .+|joined input refused|out of memory|read fault"
                   r"|write fault after [0-9]+ bytes)\n")
BEHIND = ": namespace after other lines\n"


class Answer(NamedTuple):
    """What the program would have answered on the whole."""

    status: int
    output: str
    error: str


class ReportLine(NamedTuple):
    """A line of a report; in order they stand as in the whole's."""

    line: int
    finding: int
    part: int
    text: str


def answer_of(reports: list[PartReport]) -> Answer:
    """The whole's answer; raises PartsFault where the reports are not those of each part of one cut, once, and whole."""
    _refuse_others(reports)
    for report in reports:
        if report.status < 0:
            raise PartsFault("%s was killed by signal %d" % (report.name, -report.status))
        if report.status > 5:
            raise PartsFault("%s ended with status %d" % (report.name, report.status))
    faults = [report for report in reports if report.status > 1]
    return _fault(faults) if faults else _merged(sorted(reports, key=lambda report: report.part))


def _refuse_others(reports: list[PartReport]) -> None:
    """Refuses reports that are not those of all parts of one cut."""
    first = reports[0]
    by_part: dict[int, PartReport] = {}
    for report in reports:
        if (report.cut, report.parts) != (first.cut, first.parts):
            raise PartsFault("%s and %s are of different cuts" % (first.path, report.path))
        if report.part in by_part:
            raise PartsFault("%s stands in %s and in %s" % (report.name, by_part[report.part].path, report.path))
        by_part[report.part] = report
    missing = sorted(set(range(1, first.parts + 1)) - set(by_part))
    if missing:
        raise PartsFault("part %s of %d is missing" % (", ".join(map(str, missing)), first.parts))


def _rank(report: PartReport) -> tuple[int, int, bool]:
    """Faults in the order in which they are the whole's answer.

    What a part that ran out of memory holds is not known, nor where a device failed, so these come first. Then faults as the
    whole would find them: that of its size, the first line of the trace, and the first line of the evidence. A namespace line
    behind entries alone stands behind none in some parts, which may refuse it for another cause or not at all.
    """
    text = report.error.decode("utf-8", "replace")
    found = FAULT.fullmatch(text)
    if report.status == 3:
        return 0, 0, False
    if not found or report.status < 4 and not (found[1] or text == "joined input refused\n"):
        raise PartsFault("%s ended with status %d, and does not say why: %r" % (report.name, report.status, text[:200]))
    if report.status > 3:
        return 1, -report.status, False
    order = (None, "trace", "evidence").index(found[1])
    return 2 + order, int(found[2] or 0), not text.endswith(BEHIND)


def _fault(reports: list[PartReport]) -> Answer:
    ranked = sorted((_rank(report), report.part, report) for report in reports)
    (rank, _, report) = ranked[0]
    for other_rank, _, other in ranked:
        if rank[0] > 1 and other_rank == rank and other.error != report.error:
            raise PartsFault("%s and %s refuse the same line for different causes" % (report.name, other.name))
    return Answer(report.status, "", report.error.decode("utf-8", "replace"))


def _rendered(lines: list[str], entries: int) -> str:
    return "".join(line + "\n" for line in lines) + "entries %d\nfindings %d\nverdict %s\n" % (
        entries, len(lines), "dirty" if lines else "clean")


def _lines_of(report: PartReport) -> list[ReportLine]:
    """The lines of a part's report, which has to be as the program writes it."""
    text = report.output.decode("utf-8", "replace")
    try:
        read = read_report(text)
    except ReportFault as fault:
        raise PartsFault("%s: %s" % (report.name, fault)) from None
    lines = text.split("\n")[:len(read.findings)]
    told = [ReportLine(found.line, int(found.finding[1:]), report.part, line) for found, line in zip(read.findings, lines)]
    if _rendered(lines, read.entries) != text or any(one[:2] >= other[:2] for one, other in zip(told, told[1:])):
        raise PartsFault("%s: its report is not as the program writes it" % report.name)
    if report.status != (1 if told else 0) or report.error:
        raise PartsFault("%s: it ended with status %d and %r on standard error, and its verdict is %s"
                         % (report.name, report.status, report.error[:200], read.verdict))
    if read.entries != report.entries:
        raise PartsFault("%s: its report has %d entries, and the cut gave it %d" % (report.name, read.entries, report.entries))
    return told


def _disjoint(told: Iterable[ReportLine]) -> Iterator[str]:
    """The texts; each line of the trace stands in one part."""
    line = part = 0
    for one in told:
        if one.line == line and one.part != part:
            raise PartsFault("part %d and part %d both have a finding on line %d" % (part, one.part, line))
        line, part = one.line, one.part
        yield one.text


def _merged(reports: list[PartReport]) -> Answer:
    lines = list(_disjoint(heapq.merge(*map(_lines_of, reports))))
    return Answer(1 if lines else 0, _rendered(lines, sum(report.entries for report in reports)), "")
