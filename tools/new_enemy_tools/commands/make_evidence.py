"""Evidence for each entry of a trace, by a plain search: ne make-evidence TRACE > EVIDENCE

An entry whose goal leads to too much has none, and is counted on standard error.

Tests compare it with the evidence that the program's own `make` finds.
"""
import sys

from new_enemy_tools.commands.running import Parser
from new_enemy_tools.evidence_maker import record
from new_enemy_tools.files import traced
from new_enemy_tools.meaning import Outgrown
from new_enemy_tools.progress import Progress


def main(words: list[str]) -> int:
    parser = Parser(prog="ne make-evidence", description=__doc__)
    parser.add_argument("trace", metavar="TRACE", help="a trace, or joined input")
    given = parser.parse_args(words)
    given_up = 0
    with Progress() as progress:
        trace = traced(given.trace, progress)
        for count, entry in enumerate(trace.entries.values(), 1):
            try:
                sys.stdout.write(record(trace, entry) + "\n")
            except Outgrown:
                given_up += 1
            progress.step("evidence for %s entries", count)
    if given_up:
        sys.stderr.write("gave up %d\n" % given_up)
    return 0
