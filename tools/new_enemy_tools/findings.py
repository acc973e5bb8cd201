"""The audit's report, read back."""
import re
from typing import NamedTuple, Optional

from new_enemy_tools.faults import ToolFault

# Numbers of a report have no more digits than those of 64 bits.
FINDING = re.compile(r"line ([0-9]{1,20}): (F(?:[1-9]|10)) ([a-z ]+?)(?:, see line ([0-9]{1,20})| at step ([0-9]{1,20}))?")
FINDINGS = re.compile("^%s$" % FINDING.pattern, re.MULTILINE)
FORMS = {"F1": ("stale", None), "F2": ("old token", "line"), "F3": ("not latest", "line"), "F4": ("open snapshot", "line"),
         "F5": ("wrong token", None), "F6": ("unknown version", None), "F7": ("no evidence", None),
         "F8": ("bad evidence", "step"), "F9": ("silent evidence", None), "F10": ("wrong reply", None)}
# each finding with its words, and whether another line or a step stands behind these
KNOWN = {(finding, said, more == "line", more == "step") for finding, (said, more) in FORMS.items()}
# on snapshots and tokens, and not on evidence
ON_TOKENS = ("F1", "F2", "F3", "F4", "F5", "F6")


class ReportFault(ToolFault):
    """What is wrong with a report, and on which of its lines."""


class Finding(NamedTuple):
    line: int
    finding: str
    text: str
    related: Optional[int]
    step: Optional[int]


class Report(NamedTuple):
    findings: list[Finding]
    entries: int
    verdict: str


def _finding(number: int, text: str) -> Finding:
    found = FINDING.fullmatch(text)
    if not found:
        raise ReportFault("report line %d: no finding: %r" % (number, text[:200]))
    line, finding, said, related, step = found.groups()
    wanted, more = FORMS[finding]
    if said != wanted or (more == "line") != (related is not None) or (more == "step") != (step is not None):
        raise ReportFault("report line %d: %s is not `%s`" % (number, finding, text[:200]))
    return Finding(int(line), finding, said, None if related is None else int(related), None if step is None else int(step))


def finding_of(text: str) -> Optional[Finding]:
    """The finding of a line of a day's report, which says in brackets where it is from; None of what is no finding."""
    said = text.partition(" (")[0]
    return _finding(1, said) if FINDING.fullmatch(said) else None


def _quickly(text: str) -> list[Finding]:
    """The findings of a text's lines that have the form of one; fewer than there are lines where one is wrong."""
    found = FINDINGS.findall(text)
    if not {(finding, said, bool(related), bool(step)) for _, finding, said, related, step in found} <= KNOWN:
        return []
    return [Finding(int(line), finding, said, int(related) if related else None, int(step) if step else None)
            for line, finding, said, related, step in found]


def _places(told: list[str], lines: range) -> range:
    """The places of the findings on some lines, in a report whose findings come by their lines."""
    ends = []
    for line in (lines.start, lines.stop):
        low, high = 0, len(told)
        while low < high:
            middle = (low + high) // 2
            low, high = (middle + 1, high) if _finding(middle + 1, told[middle]).line < line else (low, middle)
        ends.append(low)
    return range(ends[0], ends[1])


def read_report(text: str, wanted: Optional[list[range]] = None) -> Report:
    """The report of an audit, or of that its findings on some lines; raises ReportFault where it is none, or not whole."""
    lines = text.splitlines()
    tail = re.fullmatch(r"entries ([0-9]{1,20})\nfindings ([0-9]{1,20})\nverdict (clean|dirty)", "\n".join(lines[-3:]))
    if not tail:
        raise ReportFault("report line %d: the last lines are not `entries N`, `findings N` and `verdict ..`" % len(lines))
    told = lines[:-3]
    findings = _quickly(text) if wanted is None else []
    if wanted is not None or len(findings) != len(told):
        places = [range(len(told))] if wanted is None else [_places(told, some) for some in wanted]
        findings = [_finding(place + 1, told[place]) for some in places for place in some]
    if len(told) != int(tail[2]):
        raise ReportFault("report line %d: it says %s findings, and %d stand before it"
                          % (len(lines) - 1, tail[2], len(told)))
    if (tail[3] == "clean") != (not told):
        raise ReportFault("report line %d: the verdict is %s with %d findings" % (len(lines), tail[3], len(told)))
    return Report(findings, int(tail[1]), tail[3])
