"""The report of a part: what the program wrote, with which part it is of which cut, and how the program ended."""
import os
import re
import shutil
from typing import IO, NamedTuple

from new_enemy_tools.faults import PartsFault, naming
from new_enemy_tools.findings import ReportFault
from new_enemy_tools.parting.manifest import NAME as MANIFEST, Manifest, read_manifest, trace_path as cut_path

HEAD = re.compile(rb"part ([0-9]{1,3}) of ([0-9]{1,3})\ncut ([0-9a-f]{32})\nentries ([0-9]{1,18})\nstatus (-?[0-9]{1,9})\n"
                  rb"output ([0-9]{1,18})\nerror ([0-9]{1,18})\n\n")


class PartReport(NamedTuple):
    path: str
    part: int
    parts: int
    cut: str
    # those that the cut gave the part
    entries: int
    status: int
    output: bytes
    error: bytes

    @property
    def name(self) -> str:
        return "part %d of %d" % (self.part, self.parts)


def write_report(path: str, manifest: Manifest, part: int, status: int, output: IO[bytes], error: IO[bytes]) -> None:
    """Writes it whole or not at all."""
    sizes: list[int] = []
    for file in (output, error):
        sizes.append(file.seek(0, os.SEEK_END))
        file.seek(0)
    head = "part %d of %d\ncut %s\nentries %d\nstatus %d\noutput %d\nerror %d\n\n" % (
        part, manifest.parts, manifest.cut, manifest.entries[part - 1], status, sizes[0], sizes[1])
    with naming(path), open(path + ".new", "wb") as report:
        report.write(head.encode())
        shutil.copyfileobj(output, report)
        shutil.copyfileobj(error, report)
    os.replace(path + ".new", path)


def text_of(path: str, data: bytes, trace: str) -> str:
    """What the program wrote of a part, whose trace stands there; raises ReportFault where it ended with a fault, or is
    of another part."""
    folder = os.path.dirname(trace)
    try:
        report = read_part_report(path, data)
        cut = read_manifest(folder).cut if os.path.exists(os.path.join(folder, MANIFEST)) else report.cut
    except PartsFault as fault:
        raise ReportFault(str(fault)) from None
    if report.cut != cut:
        raise ReportFault("%s is of another cut than %s; give the report of that part" % (path, trace))
    if cut_path(folder, report.part) != trace and os.path.exists(cut_path(folder, report.part)):
        raise ReportFault("%s is of %s, and %s is none of its; give the report of that part" % (path, report.name, trace))
    if report.status not in (0, 1):
        raise ReportFault("%s: the audit of %s ended with status %d: %s"
                          % (path, report.name, report.status, report.error.decode("utf-8", "replace").strip()))
    return report.output.decode("utf-8", "replace")


def read_part_report(path: str, data: bytes) -> PartReport:
    head = HEAD.match(data)
    if not head:
        raise PartsFault("%s is no report of a part, or is cut short in its head" % path)
    part, parts, cut, entries, status, output, error = head.groups()
    wanted = head.end() + int(output) + int(error)
    if len(data) != wanted:
        raise PartsFault("%s is %s: it has %d bytes, and its head says %d"
                         % (path, "cut short" if len(data) < wanted else "too long", len(data), wanted))
    end = head.end() + int(output)
    return PartReport(path, int(part), int(parts), cut.decode(), int(entries), int(status), data[head.end():end], data[end:])
