"""The runs of a monitor on the disk: what one begins with, its trace while it goes on, and its day when it has ended.

Here alone stands how a run begins where another ended: with its carry, as those of `ne day` and `ne window` do.
"""
import json
import os
from argparse import Namespace
from bisect import bisect_right
from typing import BinaryIO, NamedTuple, Optional

from new_enemy_tools.commands.day import go_on, keep_day
from new_enemy_tools.coverage import mark_of
from new_enemy_tools.faults import MonitorFault, naming, write_all
from new_enemy_tools.files import read_bytes, write_whole
from new_enemy_tools.findings import Finding
from new_enemy_tools.ids import mark_of_file
from new_enemy_tools.importing.going_on import write_left
from new_enemy_tools.monitoring.alerts import Known
from new_enemy_tools.monitoring.run import Begun, Run
from new_enemy_tools.monitoring.tail import Place
from new_enemy_tools.trace_lines import with_mark
from new_enemy_tools.windowing.audited_window import Audited, state_behind, window_of
from new_enemy_tools.windowing.days import MONITORED, Days
from new_enemy_tools.windowing.following import report_of_waiting
from new_enemy_tools.windowing.own_lines import Own
from new_enemy_tools.windowing.state import CARRY

# The carry that a run begins with, in the folder that is worked in.
BEGUN = "begun"


class Start(NamedTuple):
    """What a run begins with, and where in the log."""

    begun: Begun
    stories: dict[str, Known]
    place: Place
    # What a run of an earlier version had told of entries that this one has too, by where these stand in the log.
    held: set[tuple[str, str]]


class RunFile:
    """The trace of a run while it grows."""

    def __init__(self, path: str, before: int):
        """Of lines before the first the trace has none."""
        self.path = path
        self._file: BinaryIO = open(path, "wb+", buffering=0)
        self._lines, self._starts = [before + 1], [0]

    def add(self, data: bytes) -> None:
        write_all(self._file, data)
        self._lines.append(self._lines[-1] + data.count(b"\n"))
        self._starts.append(self._starts[-1] + len(data))

    def line(self, number: int) -> bytes:
        place = bisect_right(self._lines, number) - 1
        data = os.pread(self._file.fileno(), self._starts[place + 1] - self._starts[place], self._starts[place])
        return data.split(b"\n")[number - self._lines[place]]

    def end(self, mark: str) -> None:
        """The last line says what was left out."""
        start, size = self._starts[-2], self._starts[-1] - self._starts[-2]
        before, _, last = os.pread(self._file.fileno(), size - 1, start).rpartition(b"\n")
        place = start + (len(before) + 1 if before else 0)
        self._file.truncate(place)
        self._file.seek(place)
        write_all(self._file, with_mark(last, mark) + b"\n")
        self._file.close()


def start_of(days: Days, given: Namespace) -> Start:
    """What the next run begins with; raises WindowFault where the days are not as they were left."""
    days.end()
    os.makedirs(days.work(), exist_ok=True)
    path = days.before(MONITORED)
    if path is None and days.last is not None:
        raise MonitorFault("the last day in %s was kept by no monitor; give another folder" % days.folder)
    before = go_on(days, given)
    begun = Begun(before.left, before.state, before.ids)
    if path is None:
        begun.ids.take_for("events")
        return Start(begun, {}, Place(), set())
    with open(path, encoding="utf-8") as file:
        value = json.load(file)
    held = {(source, finding) for source, finding in value.get("held", ())}
    return Start(begun, {key: Known(*one) for key, one in value["stories"].items()}, Place(*value["place"]), held)


def words_of(days: Days, run: Run) -> list[str]:
    """The words by which the program follows a run: from the carry that it begins with, which is written, to its own."""
    words = ["--carry", days.work(CARRY), "--oldest-snapshot", str(run.oldest)]
    if run.state.carry is None:
        return words
    with naming(days.work(BEGUN)), open(days.work(BEGUN), "wb") as file:
        file.write(run.state.carry.data)
    return ["--from", days.work(BEGUN), *words]


def untold_by(program: str, run: Run, held: set[tuple[str, str]]) -> list[Finding]:
    """Behind a run of an earlier version what it had not told of entries that this one has too."""
    return [one for one in report_of_waiting(program, run.state).findings if (run.trace.entries[one.line].source or "", one.finding) not in held]


def ended(days: Days, program: str, run: Run, status: int, file: RunFile) -> Audited:
    """What a run comes to whose program has ended."""
    coverage = run.stream.coverage()
    file.end(mark_of(coverage))
    own, told = Own(file.path, run.counted), run.told_all(status)
    new, given_up = state_behind(own, run.state, read_bytes(days.work(CARRY)), run.keep)
    return window_of(own, run.state, new, report_of_waiting(program, run.state).plus(told), given_up, True, coverage)


def keep(days: Days, given: Namespace, run: Run, found: Audited, stories: dict[str, Known], place: Place, file: RunFile) -> int:
    """Makes a day of a run that has ended; its number."""
    write_whole(days.work("import.txt"), list(run.stream.summary_lines()))
    run.begun.ids.append()
    write_left(days.work("left"), run.stream.leave()._replace(ids=mark_of_file(days.work("ids.jsonl"))))
    write_whole(days.work(MONITORED), [json.dumps({"place": list(place), "stories": {key: list(one) for key, one in stories.items()}})])
    if os.path.exists(days.work(BEGUN)):
        os.remove(days.work(BEGUN))
    return keep_day(days, given, Own(file.path, run.counted), found, run.begun.ids, run.digest.hexdigest())


def options(folder: str, program: str, names: list[str], html: bool, keep_days: int, allow: float, snapshots: int,
            versions: Optional[int]) -> Namespace:
    """As `ne day` has its words."""
    return Namespace(folder=folder, program=program, jobs=1, names=names, html=html, keep_days=keep_days,
                     allow_unaudited=allow,
                     keep_snapshots=snapshots, keep_versions=versions, oldest_snapshot=None, held_back=0, said=[],
                     service="events")
