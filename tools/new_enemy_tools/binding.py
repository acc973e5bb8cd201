"""Whether a report is of a trace, which it does not name: what it says of entries is compared with what the trace gives.

F1 to F6 rest on the trace alone, so a report has those that it gives. A reply without F7, F8 and F9 was judged, so the
report has F10 exactly where it is not what the rules mean, by the tools' own answers. Of many entries only some are
asked for, all over the trace; how many replies were not compared is told in every form of a report.
"""
from collections import Counter

from new_enemy_tools.entries import Entry
from new_enemy_tools.findings import ON_TOKENS, Report, ReportFault
from new_enemy_tools.held_goals import Answers
from new_enemy_tools.quick_reach import Asked, Tangled
from new_enemy_tools.token_order import order_findings
from new_enemy_tools.trace import Trace

# So many replies are compared.
MOST = 5_000
OTHER = "; it is of another trace, or of this one before it was changed: audit the trace, and give the report of that"


def uncompared(trace: Trace, report: Report) -> int:
    """How many judged replies were not compared; raises ReportFault where the report is not of the trace. That the
    trace gives what it says of tokens is known."""
    _refuse_missing(trace, report)
    on_evidence = {one.line: one.finding for one in report.findings if one.finding not in ON_TOKENS}
    answers, between = Answers(trace.rules, trace.store), -(-len(trace.entries) // MOST) or 1
    unshown = [line for line, said in on_evidence.items() if said != "F10"]
    asked = [line for line in list(trace.entries)[::between] if on_evidence.get(line) in (None, "F10")]
    compared = [line for line in asked if _is_compared(answers, trace.entries[line], line in on_evidence)]
    return len(trace.entries) - len(unshown) - len(compared)


def _refuse_missing(trace: Trace, report: Report) -> None:
    """Raises ReportFault where a report lacks a finding on tokens, or has a finding twice."""
    told = Counter((one.line, one.finding) for one in report.findings)
    for line, entry in trace.entries.items():
        for said, related in order_findings(trace, entry):
            if (line, said.partition(" ")[0]) not in told:
                raise ReportFault("line %d of the trace has `%s%s`, and the report does not say so%s" % (
                    line, said, "" if related is None else ", see line %d" % related, OTHER))
    again = next((one for one, count in told.items() if count > 1), None)
    if again is not None:
        raise ReportFault("the report has %s on line %d twice" % (again[1], again[0]))


def _is_compared(answers: Answers, entry: Entry, is_wrong: bool) -> bool:
    """Whether a reply was compared; raises ReportFault where it is wrong and is not said to be, or the other way round."""
    try:
        holds = Asked(answers, str(entry.goal.user).encode(), entry.snapshot).holds(str(entry.goal.set).encode())
    except Tangled:
        return False
    if (holds != entry.reply) != is_wrong:
        given, said = ("right", "F10 wrong reply") if is_wrong else ("wrong", "nothing of it")
        raise ReportFault("by this trace the reply on line %d is %s, and the report says %s%s" % (
            entry.line, given, said, OTHER))
    return True
