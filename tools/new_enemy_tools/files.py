"""The files that commands are given, and those that they write."""
import os
import sys
from typing import Iterable, Optional

from new_enemy_tools.faults import DeviceFault, naming
from new_enemy_tools.ids import Ids
from new_enemy_tools.progress import Progress
from new_enemy_tools.trace import Trace, read_trace
from new_enemy_tools.trace_lines import ids_in
from new_enemy_tools.trace_pieces import refuse_pieces


def read_bytes(path: str) -> bytes:
    """A file, or standard input for `-`; raises DeviceFault."""
    try:
        if path == "-":
            return sys.stdin.buffer.read()
        with open(path, "rb") as file:
            return file.read()
    except OSError as fault:
        raise DeviceFault("cannot open %s: %s" % (path, fault.strerror)) from None


def read_joined(path: str) -> bytes:
    """A trace or joined input in one file; raises InPieces."""
    data = read_bytes(path)
    refuse_pieces(path, data)
    return data


def write_whole(path: str, lines: Iterable[str]) -> None:
    """Writes a file, or leaves the one that is there as it is."""
    try:
        with naming(path), open(path + ".part", "w", encoding="utf-8", newline="\n") as file:
            for line in lines:
                file.write(line + "\n")
        os.replace(path + ".part", path)
    finally:
        if os.path.exists(path + ".part"):
            os.remove(path + ".part")


def split_joined(data: bytes) -> tuple[bytes, Optional[bytes]]:
    """The trace of joined input, and the evidence behind its line `---`; None where there is no such line."""
    if data.startswith(b"---\n") or data == b"---":
        return b"", data[4:]
    at = data.find(b"\n---\n")
    if at >= 0:
        return data[:at + 1], data[at + 5:]
    return (data[:-3], b"") if data.endswith(b"\n---") else (data, None)


def read_trace_of(data: bytes, progress: Progress) -> Trace:
    """The trace of bytes; raises Fault where it is refused."""
    trace = read_trace(data, progress.steps("read %s lines"))
    trace.table = ids_in(data)
    return trace


def traced(path: str, progress: Progress) -> Trace:
    """The trace of a file, which may be joined input; raises Fault where it is refused."""
    return read_trace_of(split_joined(read_joined(path))[0], progress)


def read_ids(path: Optional[str], trace: Trace) -> Optional[Ids]:
    """The table of ids that is given; raises TableFault where it is refused, or is of another trace."""
    if path is None:
        return None
    read_bytes(path)
    ids = Ids(path)
    ids.refuse_other(trace.table)
    return ids
