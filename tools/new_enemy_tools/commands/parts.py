"""An audit in parts, for a trace that is too large or too slow for one process (docs/SCALE.md).

    ne parts cut N TRACE [EVIDENCE] FOLDER [--jobs N]
                                              cuts into N parts by object
    ne parts run PROGRAM FOLDER [--jobs N]    audits each part here, and merges
    ne parts one PROGRAM FOLDER PART          audits one part, for engines that run commands on many machines
                                              both with --make: by evidence that the program makes
    ne parts merge REPORT ..                  the whole's report and status, from the reports of all parts

What is refused is said on standard error, and the status is 2; a fault of usage has 3, a file that can't be read or written 5.
"""
import os
import sys
from argparse import Namespace
from typing import ContextManager, Optional

from new_enemy_tools.commands.running import Parser, text_of
from new_enemy_tools.faults import PartsFault
from new_enemy_tools.files import read_bytes
from new_enemy_tools.parting.blocks import Source
from new_enemy_tools.parting.cutting import Cut
from new_enemy_tools.parting.manifest import read_manifest
from new_enemy_tools.parting.merging import Answer, answer_of
from new_enemy_tools.parting.part_runs import run_all, run_parts
from new_enemy_tools.parting.reports import read_part_report
from new_enemy_tools.progress import Progress
from new_enemy_tools.shown import tell as tell_line
from new_enemy_tools.trace_pieces import MOST_PARTS, PiecesReader, pieces_of


def given_of(words: list[str]) -> Namespace:
    parser = Parser(prog="ne parts", description=__doc__)
    commands = parser.add_subparsers(dest="command", required=True)
    cut = commands.add_parser("cut", help="cuts a trace, and evidence for it, into parts by object")
    cut.add_argument("parts", type=int, metavar="N", help="how many parts")
    cut.add_argument("trace", metavar="TRACE", help="a trace, also one that an import wrote in pieces, or joined input")
    cut.add_argument("evidence", nargs="?", metavar="EVIDENCE", help="the evidence for the trace")
    cut.add_argument("folder", metavar="FOLDER", help="a folder that is empty or not there yet")
    cut.add_argument("--jobs", type=int, default=os.cpu_count(), metavar="N", help="how many processes cut (one a core)")
    for name, told in (("run", "audits each part here, and merges"), ("one", "audits one part")):
        command = commands.add_parser(name, help=told)
        command.add_argument("program", metavar="PROGRAM", help="the built auditor")
        command.add_argument("folder", metavar="FOLDER", help="the folder of a cut")
        command.add_argument("--make", action="store_true", help="the program makes evidence of its own, and the parts have none")
        if name == "one":
            command.add_argument("part", type=int, metavar="PART", help="its number, from 1")
        else:
            command.add_argument("--jobs", type=int, default=os.cpu_count(), metavar="N", help="how many parts at a time (one a core)")
    merge = commands.add_parser("merge", help="the whole's report, from the reports of all parts")
    merge.add_argument("reports", nargs="+", metavar="REPORT", help="the reports of all parts, in any order")
    given = parser.parse_args(words)
    if given.command == "cut" and not 1 <= given.parts <= MOST_PARTS:
        parser.error("N is from 1 to %d" % MOST_PARTS)
    if given.command in ("cut", "run") and given.jobs < 1:
        parser.error("--jobs is below 1")
    return given


def _empty(folder: str) -> None:
    os.makedirs(folder, exist_ok=True)
    if os.listdir(folder):
        raise PartsFault("%s is not empty" % folder)


def _cut_files(parts: int, trace: Source, evidence: Optional[Source], folder: str, jobs: int) -> None:
    """Cuts, and takes away what it wrote where it fails."""
    try:
        with Progress() as progress:
            Cut(parts, folder, jobs, progress.steps("read %s bytes")).cut(trace, evidence).write(folder)
    except BaseException:
        for name in os.listdir(folder):
            os.remove(os.path.join(folder, name))
        raise


def _opened(path: str) -> ContextManager[Source]:
    """A trace, also one in pieces."""
    pieces = pieces_of(path)
    if pieces is not None:
        return PiecesReader(pieces)
    return open(path, "rb")


def cut_command(parts: int, trace_path: str, evidence_path: Optional[str], folder: str, jobs: int) -> int:
    with _opened(trace_path) as trace:
        if evidence_path is None:
            _empty(folder)
            _cut_files(parts, trace, None, folder, jobs)
            return 0
        with open(evidence_path, "rb") as evidence:
            _empty(folder)
            _cut_files(parts, trace, evidence, folder, jobs)
    return 0


def tell(answer: Answer) -> int:
    sys.stdout.write(answer.output)
    sys.stderr.write(answer.error)
    return answer.status


def merge_command(paths: list[str]) -> int:
    for path in paths:
        if not os.path.exists(path):
            raise PartsFault("%s is not there" % path)
    reports = []
    with Progress() as progress:
        for count, path in enumerate(paths, 1):
            reports.append(read_part_report(path, read_bytes(path)))
            progress.step("read %s reports", count)
        answer = answer_of(reports)
    return tell(answer)


def run_command(program: str, folder: str, jobs: int, makes: bool) -> int:
    with Progress() as progress:
        paths = run_all(program, folder, jobs, progress.steps("audited %s parts"), makes)
    return merge_command(paths)


def one_command(program: str, folder: str, part: int, makes: bool) -> int:
    """The status is 0 where the program ended by itself; what it said is the report's to tell."""
    with Progress() as progress:
        [status] = run_parts(program, read_manifest(folder), folder, [part], 1, progress.steps("audited %s parts"), makes)
    if status < 0:
        raise PartsFault("part %d was killed by signal %d" % (part, -status))
    return 0


def main(words: list[str]) -> int:
    given = given_of(words)
    try:
        if given.command == "cut":
            return cut_command(given.parts, given.trace, given.evidence, given.folder, given.jobs)
        if given.command == "one":
            return one_command(given.program, given.folder, given.part, given.make)
        if given.command == "run":
            return run_command(given.program, given.folder, given.jobs, given.make)
        return merge_command(given.reports)
    except PartsFault as fault:
        tell_line("parts: %s" % fault, sys.stderr)
        return 2
    except OSError as fault:
        tell_line("parts: %s" % text_of(fault), sys.stderr)
        return 5
