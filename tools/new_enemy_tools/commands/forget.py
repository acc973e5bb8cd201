"""Takes away what old days of ne day keep of users and of what they asked: ne forget --keep-days N FOLDER

Of all but the last N days of FOLDER the traces, the reports, the pages and what imports said are removed. What stays is each day's
summary.json, which has counts and the names of logs, and of the last two days what the next day goes on from.
"""
import os
import sys

from new_enemy_tools.commands.day import write_index
from new_enemy_tools.commands.running import Parser
from new_enemy_tools.faults import WindowFault
from new_enemy_tools.shown import tell
from new_enemy_tools.windowing.days import Days


def main(words: list[str]) -> int:
    parser = Parser(prog="ne forget", description=__doc__)
    parser.add_argument("--keep-days", type=int, required=True, metavar="N", help="of so many days all is kept")
    parser.add_argument("folder", metavar="FOLDER", help="the folder of the days")
    given = parser.parse_args(words)
    if given.keep_days < 0:
        parser.error("--keep-days is below 0")
    if not os.path.isdir(given.folder):
        parser.error("FOLDER is no folder of days")
    try:
        days = Days(given.folder)
    except WindowFault as fault:
        tell("forget: %s" % fault, sys.stderr)
        return 2
    try:
        days.forget(given.keep_days)
        write_index(days, False)
    finally:
        days.close()
    return 0
