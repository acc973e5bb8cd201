"""What the rules say of a goal and what the service said: ne draw [--ids IDS] [--at TIMESTAMP] [--form dot|svg] TRACE LINE > goal.dot

A userset is green where the user of the goal is in it by the rules; an edge is dashed where what it leads to is subtracted, and the
way that shows the answer is bold. What the service said is red where the rules say otherwise.
"""
import sys

from new_enemy_tools.commands.running import Parser
from new_enemy_tools.files import read_ids, traced
from new_enemy_tools.graph import Drawing, svg
from new_enemy_tools.names import Names
from new_enemy_tools.progress import Progress
from new_enemy_tools.strictjson import is_u64
from new_enemy_tools.windowing.kept_traces import kept_day


def main(words: list[str]) -> int:
    parser = Parser(prog="ne draw", description=__doc__)
    parser.add_argument("--ids", metavar="FILE", help="the table of ids, for names in place of numbers")
    parser.add_argument("--at", metavar="TIMESTAMP", type=int, help="what the rules say at another timestamp than the snapshot")
    parser.add_argument("--form", choices=("dot", "svg"), default="dot", help="the text for Graphviz (dot), or what it draws")
    parser.add_argument("trace", metavar="TRACE", help="the trace, joined input, or the folder of a day of ne day")
    parser.add_argument("line", metavar="LINE", type=int, help="the line of the entry")
    given = parser.parse_args(words)
    if given.at is not None and not is_u64(given.at):
        parser.error("--at is no timestamp, from 0 to 2^64 - 1")
    with Progress() as progress:
        day = kept_day(given.trace)
        trace = traced(given.trace, progress) if day is None else day.trace()
        drawing = Drawing(trace, trace.entry_on(given.line), Names(read_ids(given.ids, trace)), given.at)
        text = "".join(line + "\n" for line in drawing.lines())
    sys.stdout.write(svg(text) if given.form == "svg" else text)
    return 0
