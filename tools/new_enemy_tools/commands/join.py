"""Joins the logs of several recorders of one service into one: ne join --out FOLDER LOG ..

Each LOG is the folder of a recorder's log, with all its files; or, beside a log of `ne record --changes-only`, a file of events of an
application, a file of OpenFGA's own log, or a folder of taps of Envoy. FOLDER is new, and has a log that `ne import events` reads as that of one
recorder (docs/RECORDING.md). Where anything is refused nothing is written, and the status is 2.
"""
import os
import shutil
import sys
from argparse import Namespace
from functools import partial
from typing import Iterable, Iterator

from new_enemy_tools.commands.running import Parser, add_skew, refuse_twice
from new_enemy_tools.faults import DeviceFault
from new_enemy_tools.importing import located
from new_enemy_tools.importing.chained import end_of, in_chain
from new_enemy_tools.importing.events import read_events
from new_enemy_tools.importing.opened import opened
from new_enemy_tools.importing.refusals import Refusals
from new_enemy_tools.recording.beside import PASSED, Beside, said_of, untold
from new_enemy_tools.recording.joining import Join
from new_enemy_tools.recording.lines import ENCODE, time_text
from new_enemy_tools.recording.log_files import NAME, LogFault, LogFiles
from new_enemy_tools.recording.overheard import overheard
from new_enemy_tools.recording.own_events import Own, own_of
from new_enemy_tools.recording.sketches import JOINED, Given, JoinFault, Row, Value
from new_enemy_tools.shown import tell

# So many lines are written at once.
LINES = 1000
# No word is a time of so many seconds.
MANY_SECONDS = 10 ** 9
# More than a file has.
MOST = 1 << 62


def given_of(words: list[str]) -> Namespace:
    parser = Parser(prog="ne join", description=__doc__)
    parser.add_argument("--out", required=True, metavar="FOLDER", help="the folder of the joined log, which is made")
    add_skew(parser)
    parser.add_argument("--stale-by", type=float, default=0.0, metavar="SECONDS", help="how long OpenFGA may answer from its cache, for checks "
                        "that passed no recorder (0)")
    parser.add_argument("--took", type=float, default=3.0, metavar="SECONDS", help="how long before its line a request of OpenFGA's own log may have "
                        "begun: the service's request timeout (3)")
    parser.add_argument("logs", nargs="+", metavar="LOG", help="the folder of a recorder's log; or a file of an application's events, of "
                        "OpenFGA's own log, or a folder of Envoy's taps")
    given = parser.parse_args(words)
    if given.skew < 0 or not all(0 <= one < MANY_SECONDS for one in (given.stale_by, given.took)):
        parser.error("--skew, --stale-by or --took is below 0, or no time below %d seconds" % MANY_SECONDS)
    refuse_twice(parser, given.logs)
    return given


class Refused(JoinFault):
    """Lines or files of a log are refused; each is a detail."""

    def __init__(self, folder: str, refusals: Refusals):
        super().__init__("%s can't be joined" % folder)
        self.details = refusals.lines()


def names_of(folder: str) -> list[str]:
    return sorted(name for name in os.listdir(folder) if NAME.fullmatch(name))


def log_of(folder: str) -> Given:
    """A recorder's log, whose files are a chain and whose lines can all be read; raises JoinFault."""
    names = names_of(folder)
    if not names:
        raise JoinFault("%s has no files of a log; give the folder of a recorder's log" % folder)
    return read_log(folder, names)


def read_log(folder: str, names: list[str], is_base: bool = False) -> Given:
    """A log of some files, or of its base state alone; raises JoinFault."""
    refusals = Refusals()
    paths = in_chain([os.path.join(folder, name) for name in names], refusals)
    if paths is None:
        raise JoinFault("%s has files that are none of a recorder's log" % folder)
    if refusals.refused:
        raise Refused(folder, refusals)
    # What is still written grows meanwhile.
    sizes = [(path, os.path.getsize(path) if path == paths[-1] and path.endswith(".jsonl") else MOST) for path in paths]
    rows = partial(base_of, sizes) if is_base else partial(rows_of, sizes)
    for row in rows():
        for _ in read_events([(row.line, row.value)], row.file, refusals):
            pass
    if refusals.refused:
        raise Refused(folder, refusals)
    end = end_of(paths[-1])
    return Given(folder, rows, is_base or end.said is not None and not end.is_full)


def base_of(sizes: list[tuple[str, int]]) -> Iterator[Row]:
    """The lines of files up to the end of the base state."""
    for row in rows_of(sizes):
        yield row
        if row.value["event"] == "place":
            return


def own_in(path: str, took: int) -> Own:
    """What a file of an application's events, OpenFGA's log or a folder of taps says; raises JoinFault."""
    paths = [os.path.join(path, name) for name in taps_in(path)] if os.path.isdir(path) else [path]
    if not os.path.isdir(path) and _first_of(path).get("event") is not None:
        return own_of(Given(path, partial(rows_of, [(path, os.path.getsize(path))]), True))
    refusals = Refusals()
    found = overheard(path, (row for one in paths for row in values_of(one, refusals)), took)
    if refusals.refused:
        raise Refused(path, refusals)
    return found


def taps_in(folder: str) -> list[str]:
    """The names of what may be taps, where no file of the folder is of a recorder's log."""
    return [] if names_of(folder) else sorted(name for name in os.listdir(folder) if name.endswith(".json"))


def _first_of(path: str) -> Value:
    """The first value of a file, where that is an object."""
    for _, value in located.values(path, Refusals()):
        return value if isinstance(value, dict) else {}
    return {}


def values_of(path: str, refusals: Refusals) -> Iterator[Row]:
    for line, value in located.values(path, refusals):
        if not isinstance(value, dict):
            raise JoinFault("%s:%d: no object of JSON" % (path, line))
        yield Row(path, line, value)


def rows_of(sizes: list[tuple[str, int]]) -> Iterator[Row]:
    """The lines of files, of each so many bytes; not one that is still written."""
    for path, size in sizes:
        with opened(path) as file:
            for line, raw in enumerate(file, 1):
                size -= len(raw)
                if size < 0 or not raw.endswith(b"\n"):
                    break
                yield Row(path, line, value_of(raw, path, line))


def value_of(raw: bytes, path: str, line: int) -> Value:
    """The event of a line; raises JoinFault."""
    try:
        value = located.line_value(raw.strip())
    except ValueError:
        value = None
    if not isinstance(value, dict) or not isinstance(value.get("event"), str):
        raise JoinFault("%s:%d: no line of a recorder's log" % (path, line))
    return value


def write(lines: Iterable[Value], files: LogFiles, folder: str) -> int:
    """Writes lines as a log; how many there are. Raises DeviceFault."""
    count = 0
    try:
        files.lock()
        waiting: list[bytes] = []
        for value in lines:
            waiting.append(ENCODE(value).encode() + b"\n")
            count += 1
            if len(waiting) == LINES:
                files.add(b"".join(waiting))
                waiting.clear()
        files.add(b"".join(waiting))
        files.close()
        os.remove(os.path.join(files.folder, "lock"))
    except LogFault as fault:
        raise DeviceFault("cannot write %s: %s" % (folder, fault)) from None
    return count


def with_words(join: Join, words: dict[str, Beside]) -> Iterator[Value]:
    """The joined lines, and where there are some, a gap for each word beside a log that no line of it tells."""
    is_empty = True
    for value in join.lines():
        is_empty = False
        yield value
    last = max(one.until for one in join.sketches)
    for path, found in [] if is_empty else list(words.items()):
        end = time_text(max(found.end, found.start, last))
        yield {"event": "gap", **({"from": time_text(found.start)} if found.start else {}),
               "to": time_text(found.end) if found.end else end, "reason": "%s: %s" % (PASSED, path),
               **({"lost": found.amount} if found.amount else {}), "time": end}


def write_whole(join: Join, words: dict[str, Beside], folder: str) -> int:
    """Writes the joined log whole or not at all; how many lines it has."""
    part = folder.rstrip("/") + ".part"
    shutil.rmtree(part, ignore_errors=True)
    try:
        count = write(with_words(join, words), LogFiles(part, JOINED + join.service, age=float("inf")), folder)
        os.rename(part, folder)
    finally:
        shutil.rmtree(part, ignore_errors=True)
    return count


def main(words: list[str]) -> int:
    given = given_of(words)
    if os.path.exists(given.out):
        raise JoinFault("%s is there already; give the name of a folder that is not" % given.out)
    try:
        folders = [one for one in given.logs if os.path.isdir(one) and not taps_in(one)]
        own = [own_in(one, int(given.took * 1e9)) for one in given.logs if one not in folders]
        join = Join([log_of(folder) for folder in folders], given.skew * 1_000_000, own, int(given.stale_by * 1e9))
        beside = {path: word for folder in folders for path, word in untold(folder).items()}
        count = write_whole(join, beside, given.out)
    except OSError as fault:
        raise DeviceFault("cannot use %s: %s" % (fault.filename, fault.strerror)) from None
    for one in join.own:
        for reason, passed in sorted(one.passed.items()):
            tell("passed over %d in %s: %s" % (passed, one.name, reason), sys.stdout)
    for path in beside:
        tell(said_of(path), sys.stdout)
    print("joined %d logs of %s: %d changes, %d lines" % (len(given.logs), join.service, join.way.spine.count, count))
    return 0
