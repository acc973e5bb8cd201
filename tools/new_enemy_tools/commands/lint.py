"""What is odd in a trace, although the program takes it: ne lint TRACE

It lists keys that no rule reads, checks that name a version of another spelling, goals that no commit touches, relations
that nothing reads, and a trace without checks or commits. The status is 0 where it lists nothing, 1 where it lists something, 6 where
it lists nothing, and the trace has not all checks of its log whole, and 2 where the trace is refused. TRACE may be joined input.
"""
import sys

from new_enemy_tools.commands.running import Parser, add_allowing
from new_enemy_tools.coverage import coverage_in
from new_enemy_tools.files import read_joined, split_joined
from new_enemy_tools.linting import odd_in
from new_enemy_tools.progress import Progress
from new_enemy_tools.shown import tell


def main(words: list[str]) -> int:
    parser = Parser(prog="ne lint", description=__doc__)
    parser.add_argument("trace", metavar="TRACE", help="the trace, or joined input")
    add_allowing(parser)
    given = parser.parse_args(words)
    with Progress() as progress:
        data = split_joined(read_joined(given.trace))[0]
        found, coverage = odd_in(data, progress.steps("read %s lines")), coverage_in(data)
    for odd in found:
        tell(str(odd), sys.stdout)
    if not found:
        sys.stdout.write("nothing odd\n")
    for line in () if coverage.is_plain else coverage.lines():
        sys.stdout.write(line + "\n")
    return 1 if found else coverage.status(given.allow_unaudited)
