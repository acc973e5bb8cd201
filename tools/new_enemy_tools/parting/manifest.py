"""The folder of a cut: its files, and the manifest that says what the cut wrote."""
import json
import os
from typing import Any, NamedTuple, Optional

from new_enemy_tools.faults import PartsFault, naming
from new_enemy_tools.trace_pieces import digest_of

FORMAT = 2
NAME = "manifest.json"


def _path(folder: str, part: int, kind: str) -> str:
    return os.path.join(folder, "part%d.%s" % (part, kind))


def trace_path(folder: str, part: int) -> str:
    return _path(folder, part, "trace")


def evidence_path(folder: str, part: int) -> str:
    return _path(folder, part, "evidence")


def report_path(folder: str, part: int) -> str:
    return _path(folder, part, "report")


class Written(NamedTuple):
    """A file of a part, as the cut wrote it."""

    bytes: int
    digest: str


class Manifest(NamedTuple):
    """What was cut: the cut's name, how many parts and lines there are, and of each part its entries, and its files' bytes and checksums."""

    cut: str
    parts: int
    lines: int
    entries: list[int]
    traces: list[Written]
    evidence: Optional[list[Written]]

    def write(self, folder: str) -> None:
        """Writes it whole or not at all."""
        path = os.path.join(folder, NAME)
        with naming(path), open(path + ".new", "w", encoding="utf-8") as file:
            file.write(json.dumps({"format": FORMAT, **self._asdict()}) + "\n")
        os.replace(path + ".new", path)


def _are_numbers(value: object, count: int) -> bool:
    return isinstance(value, list) and len(value) == count and all(type(one) is int for one in value)


def read_manifest(folder: str) -> Manifest:
    path = os.path.join(folder, NAME)
    try:
        with open(path, encoding="utf-8") as file:
            value = json.load(file)
        if value.pop("format") != FORMAT:
            raise ValueError
        read = Manifest(**value)
        evidence = None if read.evidence is None else _files(read.evidence)
        read = read._replace(traces=_files(read.traces), evidence=evidence)
        lists = [read.entries] + [[one.bytes for one in files] for files in (read.traces, evidence) if files is not None]
        if not (type(read.parts) is int and isinstance(read.cut, str) and all(_are_numbers(one, read.parts) for one in lists)):
            raise ValueError
    except FileNotFoundError:
        raise PartsFault("%s is not there: the folder has no whole cut" % path) from None
    except (ValueError, TypeError, KeyError, AttributeError):
        raise PartsFault("%s is no manifest of a cut by this version; cut again" % path) from None
    return read


def _files(listed: Any) -> list[Written]:
    """The files of a manifest; raises TypeError."""
    return [Written(*one) for one in listed]


def _refuse_other(path: str, written: Optional[Written]) -> None:
    """Raises PartsFault where a file is not there, or not as the cut wrote it."""
    try:
        found = os.path.getsize(path)
    except FileNotFoundError:
        raise PartsFault("%s is not there" % path) from None
    if written is None:
        return
    if found != written.bytes:
        raise PartsFault("%s has %d bytes, and the cut wrote %d" % (path, found, written.bytes))
    if digest_of(path) != written.digest:
        raise PartsFault("%s has other lines than the cut wrote, as those of another part; cut again" % path)


def part_files(manifest: Manifest, folder: str, part: int, makes: bool) -> tuple[str, Optional[str]]:
    """The trace and the evidence of a part, as the cut wrote them; evidence made later may be any.

    Where the program makes evidence of its own, there is no file of it; one that stands there would not be read, and is refused.
    """
    if not 1 <= part <= manifest.parts:
        raise PartsFault("there is no part %d of %d" % (part, manifest.parts))
    trace, evidence = trace_path(folder, part), evidence_path(folder, part)
    _refuse_other(trace, manifest.traces[part - 1])
    if makes:
        if os.path.exists(evidence):
            raise PartsFault("%s is there, and would not be read with --make" % evidence)
        return trace, None
    if manifest.evidence is None and not os.path.exists(evidence):
        raise PartsFault("%s is not there; with --make the program makes evidence of its own" % evidence)
    _refuse_other(evidence, None if manifest.evidence is None else manifest.evidence[part - 1])
    return trace, evidence
