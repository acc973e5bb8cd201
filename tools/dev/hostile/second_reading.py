"""What the tools' own reading of an input says of an answer. It is no more proved than the answer's text, and was written apart."""
import re
from typing import Optional

from hostile.program_runs import Answer
from new_enemy_tools.evidence import check_evidence, records_of
from new_enemy_tools.files import split_joined
from new_enemy_tools.judging import judge
from new_enemy_tools.meaning import Settled
from new_enemy_tools.strictjson import Object
from new_enemy_tools.token_order import order_lines
from new_enemy_tools.trace import Fault, Trace, read_trace


def denied(answer: Answer, data: bytes) -> Optional[str]:
    """Which part of an answer the tools deny; None where they deny nothing."""
    part, evidence = split_joined(data)
    refusal, trace, records = "joined input refused", None, {}
    if evidence is not None:
        try:
            trace = read_trace(part)
            check_evidence(evidence, trace)
            records = records_of(evidence, trace, set(trace.entries))
            refusal = ""
        except Fault as fault:
            refusal = str(fault)
    told = answer.err.decode("utf-8", "replace").rstrip("\n")
    if told != refusal:
        return "%r on standard error, and the tools say %r" % (told, refusal)
    return denied_findings(answer.out.decode("utf-8", "replace").splitlines(), trace, records) if trace and not refusal else None


def denied_findings(report: list[str], trace: Trace, records: dict[int, list[Object]]) -> Optional[str]:
    """The first finding that is not there, or not right."""
    found = [line for line in report if re.match(r"line [0-9]+: F[1-6] ", line)]
    if found != order_lines(trace):
        return "%r of tokens, and the tools say %r" % (found, order_lines(trace))
    told = dict(re.findall(r"^line ([0-9]+): (F(?:[7-9]|10) .*)$", "\n".join(report), re.MULTILINE))
    for entry in trace.entries.values():
        judged = judge(trace, entry, records.get(entry.line)).finding
        if told.get(str(entry.line)) != judged:
            return "line %d: %s, and the tools say %s" % (entry.line, told.get(str(entry.line), "no finding"), judged or "no finding")
        is_right = Settled(trace.rules, trace.store, entry.goal, entry.snapshot).holds() == entry.reply
        if judged in (None, "F10 wrong reply") and is_right != (judged is None):
            return "line %d: the tools find that the evidence shows what is not so" % entry.line
    return None if len(trace.entries) == int(report[-3].split()[1]) else "%s, and the tools say %d" % (report[-3], len(trace.entries))
