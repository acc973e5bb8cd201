"""Why an entry has its reply and its findings: ne explain [--ids IDS] [--evidence EVIDENCE] TRACE LINE ..

With lines: of each check or content check why it is allowed or denied, its findings, the commits that matter, and what they do to
the answer. Where there is evidence, behind `---` or by --evidence, the findings on evidence too.

Without lines: the first line of the trace, and then of the evidence, that the program refuses, with the key, tuple and names at
fault; the status is then 2. TRACE may be joined input.
"""
import sys
from functools import partial
from typing import Callable, Optional

from new_enemy_tools.commands.running import Parser, say
from new_enemy_tools.evidence import check_evidence, records_of
from new_enemy_tools.explanations import Explainer
from new_enemy_tools.files import read_bytes, read_ids, read_joined, read_trace_of, split_joined
from new_enemy_tools.judging import judge
from new_enemy_tools.names import Names
from new_enemy_tools.not_a_trace import hints
from new_enemy_tools.progress import Progress
from new_enemy_tools.shown import tell
from new_enemy_tools.trace import Fault, Trace
from new_enemy_tools.windowing.kept_traces import kept_day


def refusal(part: bytes, evidence: Optional[bytes]) -> int:
    """Tells the first fault of a trace, and then of its evidence."""
    read = part
    try:
        with Progress() as progress:
            trace = read_trace_of(part, progress)
            if evidence is not None:
                read = evidence
                check_evidence(evidence, trace, progress.steps("read %s records"))
    except Fault as fault:
        say(fault, sys.stdout)
        for hint in hints(read):
            tell("  " + hint, sys.stdout)
        return fault.status
    sys.stdout.write("nothing is refused\n")
    return 0


def explained(read: Callable[[Progress], Trace], evidence: Optional[bytes], lines: list[int], ids_path: Optional[str]) -> None:
    with Progress() as progress:
        trace = read(progress)
        entries = [trace.entry_on(line) for line in lines]
        records = None if evidence is None else records_of(evidence, trace, set(lines), progress.steps("read %s records"))
        explainer = Explainer(trace, Names(read_ids(ids_path, trace)))
    for number, entry in enumerate(entries):
        judgement = None if records is None else judge(trace, entry, records.get(entry.line))
        for said in [""] * (number > 0) + list(explainer.lines(entry, judgement)):
            tell(said, sys.stdout)


def main(words: list[str]) -> int:
    parser = Parser(prog="ne explain", description=__doc__)
    parser.add_argument("--ids", metavar="FILE", help="the table of ids, for names in place of numbers")
    parser.add_argument("--evidence", metavar="FILE", help="evidence for the trace")
    parser.add_argument("trace", metavar="TRACE", help="the trace, joined input, or the folder of a day of ne day")
    parser.add_argument("lines", metavar="LINE", nargs="*", type=int, help="the line of an entry")
    given = parser.parse_args(words)
    day = kept_day(given.trace)
    part, evidence = (b"", None) if day is not None else split_joined(read_joined(given.trace))
    if given.evidence is not None:
        evidence = read_bytes(given.evidence)
    if not given.lines:
        if day is not None:
            parser.error("give the LINE of an entry: the trace of a day was audited, and so nothing of it is refused")
        return refusal(part, evidence)
    read: Callable[[Progress], Trace] = partial(read_trace_of, part)
    if day is not None:
        read = day.read
    explained(read, evidence, given.lines, given.ids)
    return 0
