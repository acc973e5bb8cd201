"""Up to which alert a receiver has them, on the disk.

A receiver gets alerts one at a time and by rising numbers, so one number says it all. It is written as soon as the
receiver has an alert, and before anybody hears of that.
"""
import os

from new_enemy_tools.faults import MonitorFault, naming

FORM, SIZE = "%020d", 21


class Mark:
    """A file with a number; a new one says that the receiver has none."""

    def __init__(self, path: str):
        self.path = path

    def begin(self) -> int:
        """Makes the file where it is not there, so that it can be written later whatever becomes of the disk."""
        if not os.path.exists(self.path):
            os.makedirs(os.path.dirname(self.path), exist_ok=True)
            self.write(0)
        return self.read()

    def read(self) -> int:
        """Raises MonitorFault where it is no number."""
        with open(self.path, "rb") as file:
            data = file.read(SIZE + 1)
        if not data:
            # It was broken off as it was made.
            return 0
        if len(data) != SIZE or not data[:-1].isdigit() or not data.endswith(b"\n"):
            raise MonitorFault("%s: this is no number of an alert as a monitor wrote it; take the file away, and the "
                               "alerts of the run that goes on are told again, with their ids" % self.path)
        return int(data)

    def open(self) -> int:
        """The file, for who writes a line of `FORM` at its beginning."""
        return os.open(self.path, os.O_RDWR | os.O_CREAT, 0o666)

    def write(self, number: int) -> None:
        file = self.open()
        try:
            with naming(self.path):
                os.pwrite(file, (FORM % number).encode() + b"\n", 0)
                os.fsync(file)
        finally:
            os.close(file)
