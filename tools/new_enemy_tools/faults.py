"""What the libraries raise and no caller has to expect: a command says it, and ends."""
from contextlib import contextmanager
from typing import BinaryIO, Iterator, Sequence


class ToolFault(Exception):
    """What is refused, or fails. A command that it ends has the status, and says the text and the details."""

    status = 2
    details: Sequence[str] = ()


class DeviceFault(ToolFault):
    """A file or a program that cannot be used."""

    status = 5


class WindowFault(ToolFault):
    """Why there is no window, or no state behind it."""


class MonitorFault(ToolFault):
    """Why a monitor cannot go on."""


class PartsFault(Exception):
    """Why there are no parts, or no answer of all of them."""


@contextmanager
def naming(path: str) -> Iterator[None]:
    """Gives a fault of writing the name of the file, which Python gives to one of opening alone."""
    try:
        yield
    except OSError as fault:
        fault.filename = fault.filename or path
        raise


def write_all(file: BinaryIO, data: bytes) -> None:
    """Writes to a file without a buffer, which may take a part at a time where the disk is nearly full."""
    with naming(file.name):
        rest = memoryview(data)
        while rest:
            rest = rest[file.write(rest):]
