"""Files that are kept compressed: by zstd where the command of that name is there, else by gzip; what either wrote is read."""
import gzip
import os
import shutil
import subprocess
import zlib
from contextlib import suppress
from typing import BinaryIO, Iterable

from new_enemy_tools.faults import DeviceFault, ToolFault, naming

ZSTD, GZIP = ".zst", ".gz"
ENDS = (ZSTD, GZIP)
LEVEL = 6


class Damaged(ToolFault):
    """A file that cannot be unpacked."""


def pack(path: str, pieces: Iterable[bytes]) -> str:
    """Writes a file whose name has an end behind the path; its path."""
    program = shutil.which("zstd")
    place = path + (GZIP if program is None else ZSTD)
    with naming(place), open(place, "wb") as file:
        if program is None:
            # The time of the day says nothing here, and so the same bytes give the same file.
            with gzip.GzipFile("", "wb", LEVEL, file, 0) as packed:
                for piece in pieces:
                    packed.write(piece)
        else:
            _by_zstd(program, file, pieces)
    return place


def _by_zstd(program: str, file: BinaryIO, pieces: Iterable[bytes]) -> None:
    with subprocess.Popen([program, "-q", "-c"], stdin=subprocess.PIPE, stdout=file, stderr=subprocess.PIPE) as running:
        assert running.stdin is not None and running.stderr is not None
        try:
            for piece in pieces:
                running.stdin.write(piece)
            running.stdin.close()
        except BrokenPipeError:
            # Else what was not written would be tried again.
            with suppress(BrokenPipeError):
                running.stdin.close()
        said = running.stderr.read()
    if running.returncode:
        raise DeviceFault("zstd cannot write %s: %s" % (file.name, said.decode("utf-8", "replace").strip()[:200]))


def unpacked(path: str) -> bytes:
    """Raises Damaged, and DeviceFault where zstd is needed and not there."""
    if not path.endswith(ZSTD):
        try:
            with gzip.open(path) as file:
                return file.read()
        except (EOFError, gzip.BadGzipFile, zlib.error) as fault:
            raise Damaged("%s is damaged: %s" % (path, fault)) from None
        except OSError as fault:
            raise DeviceFault("cannot open %s: %s" % (path, fault.strerror)) from None
    program = shutil.which("zstd")
    if program is None:
        raise DeviceFault("%s needs the program zstd, in Debian the package zstd" % path)
    found = subprocess.run([program, "-q", "-d", "-c", "--", path], capture_output=True, check=False)
    if found.returncode:
        raise Damaged("%s is damaged: %s" % (path, found.stderr.decode("utf-8", "replace").strip()[:200]))
    return found.stdout


def packed_at(path: str) -> str:
    """The packed file with a path before its end; an empty text where there is none."""
    return next((path + end for end in ENDS if os.path.exists(path + end)), "")
