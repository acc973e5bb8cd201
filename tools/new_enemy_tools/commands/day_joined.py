"""What `ne day` does with the logs of several recorders: it joins them as far as each has come, and goes on from there the next day."""
import json
import os
from typing import NamedTuple, Optional

from new_enemy_tools.commands.join import log_of, names_of, read_log, with_words, write
from new_enemy_tools.faults import WindowFault
from new_enemy_tools.files import write_whole
from new_enemy_tools.importing.chained import end_of
from new_enemy_tools.importing.going_on import read_left
from new_enemy_tools.recording.beside import said_of, untold
from new_enemy_tools.recording.days_joined import Before, Waiting, join_day, kept
from new_enemy_tools.recording.log_files import LogFiles
from new_enemy_tools.recording.sketches import JOINED, Given
from new_enemy_tools.windowing.days import JOIN, JOINED_LOG, Days


class Joined(NamedTuple):
    """The file that a day's joined log has, where something is new, and what is told of what waits for a later day."""

    path: Optional[str]
    waiting: int
    said: list[str]


def closed_of(folder: str) -> Optional[Given]:
    """The closed files of a log that goes on, and at least its base state; None where that is not whole yet. Raises JoinFault."""
    names = names_of(folder)
    if not names and os.path.exists(os.path.join(folder, "lock")):
        return None
    if not names or end_of(os.path.join(folder, names[-1])).said is not None:
        return log_of(folder)
    if len(names) > 1:
        return read_log(folder, names[:-1])
    base = read_log(folder, names, True)
    return base if any(row.value["event"] == "place" for row in base.rows()) else None


def joined(days: Days, folders: list[str], ended: set[str], skew: int) -> Joined:
    """Joins what a day has of the logs, in the folder that is worked in; raises WindowFault or JoinFault."""
    left, state = days.before("left"), days.before(JOIN)
    if left is not None and state is None:
        raise WindowFault("the days before are not of joined logs; give what they were made of, or another folder of days")
    read = {folder: log_of(folder) if folder in ended else closed_of(folder) for folder in folders}
    logs = [log for log in read.values() if log is not None]
    unbegun = ["%s has no base state so far" % folder for folder, log in read.items() if log is None]
    if not logs:
        return Joined(None, 0, unbegun)
    join = join_day(logs, ended, skew, Before() if state is None else _read(state))
    folder = days.work(JOINED_LOG)
    files = LogFiles(folder, JOINED + join.service, size=1 << 62, age=float("inf"))
    chain = None if left is None else read_left(left).chain
    if chain is not None:
        files.number, files.before = chain[0], chain[1]
    words = {path: word for one in folders for path, word in untold(one).items()}
    count = write(with_words(join, words), files, folder)
    after, waiting = join.after(), join.waiting()
    write_whole(days.work(JOIN), [json.dumps(after._asdict())])
    said = _said(waiting, [one.name for one in join.late]) + unbegun + list(map(said_of, words))
    return Joined(os.path.join(folder, os.listdir(folder)[0]) if count else None, waiting.checks, said)


def _read(path: str) -> Before:
    with open(path, encoding="utf-8") as file:
        return kept(json.load(file))


def _said(waiting: Waiting, late: list[str]) -> list[str]:
    """What is told of what waits."""
    said = ["%s begins with changes that the others have in no closed file yet" % name for name in late]
    if waiting.checks:
        said.insert(0, "held back %d: these checks of closed files are audited when all logs have come as far%s" % (waiting.checks, "".join(
            "; %s ends at %s" % one for one in waiting.logs)))
        said += ["where %s has ended for good, say --ended %s" % (name, name) for name, _ in waiting.logs]
    return said
