"""The rows that a monitor keeps of its alerts: a file that grows, and is written anew when a run begins."""
import json
import os
from typing import BinaryIO, Iterable, Optional

from new_enemy_tools.faults import MonitorFault, naming, write_all
from new_enemy_tools.monitoring.alerts import Row, line_of


class Journal:
    def __init__(self, path: str):
        self.path = path
        self._file: Optional[BinaryIO] = None
        self._is_synced = True

    def read(self) -> list[Row]:
        """The rows that are there; raises MonitorFault where one is none. What a monitor that was killed wrote by half
        is cut."""
        if not os.path.exists(self.path):
            return []
        with open(self.path, "rb+") as file:
            data = file.read()
            end = data.rfind(b"\n") + 1
            file.truncate(end)
        return [self._row(number, line) for number, line in enumerate(data[:end].splitlines(), 1)]

    def _row(self, number: int, line: bytes) -> Row:
        try:
            value = json.loads(line)
        except ValueError:
            value = None
        if not isinstance(value, dict):
            raise MonitorFault("%s:%d: this is no row that a monitor wrote, and alerts may be lost with it; take the file "
                               "away to go on without the alerts that wait in it" % (self.path, number))
        return value

    def add(self, row: Row) -> None:
        if self._file is None:
            # What is written stays where the monitor is killed, and where it is synced also where the machine is.
            self._file = open(self.path, "ab", buffering=0)
        write_all(self._file, line_of(row).encode() + b"\n")
        self._is_synced = False

    def sync(self) -> None:
        """Whoever asks may tell others what was added."""
        if self._file is not None and not self._is_synced:
            with naming(self.path):
                os.fsync(self._file.fileno())
            self._is_synced = True

    def replace(self, rows: Iterable[Row]) -> None:
        """All of it by other rows, or not at all."""
        with naming(self.path), open(self.path + ".part", "wb") as file:
            for row in rows:
                file.write(line_of(row).encode() + b"\n")
            file.flush()
            os.fsync(file.fileno())
        os.replace(self.path + ".part", self.path)
        self.close()

    def close(self) -> None:
        if self._file is not None:
            self.sync()
            self._file.close()
            self._file = None
