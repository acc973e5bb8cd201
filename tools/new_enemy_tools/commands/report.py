"""What an audit found: ne report [--form html|text|jsonl|sarif|junit|annotations] [--ids IDS] [--out FILE] TRACE REPORT

Each finding has its effect, whether it mattered; the sums come first, and then the worst. REPORT may be - for standard input.
--baseline FILE tells only what an earlier report, in JSON lines or SARIF, did not tell; --ignore FILE hides findings for a reason and
until a day (docs/REPORTS.md). --form html writes a page, and of more than a thousand findings the others in files beside that of --out.

The status is 0 where it was written, whatever was found; 1 by --fail-on; 6 where nothing is told, or nothing by which --fail-on fails, and
not everything was looked at, as the sum says; 2 where a file is refused, and then nothing is written.
"""
import argparse
import sys
from collections import Counter
from datetime import date
from typing import Callable, Iterable, Iterator, NamedTuple, Optional

from new_enemy_tools.audit_summary import LeftOut, Telling, telling_of, told_of, warnings_of
from new_enemy_tools.audited_trace import read_audited
from new_enemy_tools.baseline import read_baseline
from new_enemy_tools.binding import uncompared
from new_enemy_tools.commands.running import Parser, add_allowing
from new_enemy_tools.coverage import coverage_in
from new_enemy_tools.effects import EFFECTS
from new_enemy_tools.faults import ToolFault
from new_enemy_tools.files import read_bytes, read_ids, read_joined, read_trace_of, split_joined, write_whole
from new_enemy_tools.findings import read_report
from new_enemy_tools.garbage_collection import held_off
from new_enemy_tools.ignoring import read_rows
from new_enemy_tools.labels import labels_in
from new_enemy_tools.names import Names
from new_enemy_tools.progress import Progress
from new_enemy_tools.report_forms import FORMS
from new_enemy_tools.shown import tell
from new_enemy_tools.trace import Trace
from new_enemy_tools.trace_lines import OtherForm
from new_enemy_tools.windowing.kept_traces import kept_day


def parser_of_words() -> Parser:
    parser = Parser(prog="ne report", description=__doc__)
    parser.add_argument("--form", choices=sorted([*FORMS, "sarif", "html"]), default="jsonl", help="the form of the answer (jsonl)")
    parser.add_argument("--out", metavar="FILE", help="where to write, in place of standard output")
    parser.add_argument("--ids", metavar="FILE", help="the table of ids, for names in place of numbers")
    parser.add_argument("--baseline", metavar="FILE", help="an earlier report, as JSON lines or SARIF; only what is new is told")
    parser.add_argument("--ignore", metavar="FILE", help="rows of findings that are not told, with reasons and days that end it")
    parser.add_argument("--fail-on", choices=EFFECTS, metavar="EFFECT", help="status 1 where a finding that is told has this "
                        "effect or a worse one: %s" % ", ".join(EFFECTS))
    add_allowing(parser)
    parser.add_argument("trace", metavar="TRACE", help="the trace, joined input, or the folder of a day of ne day")
    parser.add_argument("report", metavar="REPORT", nargs="?", help="what the audit wrote, or the report of a part; a day's folder has it")
    return parser


def form_of(name: str) -> Callable[[Telling], Iterator[str]]:
    if name == "sarif":
        # The other forms need not wait until this is loaded.
        from new_enemy_tools.sarif import sarif
        return sarif
    return FORMS[name]


def report_text(path: str, trace: str) -> str:
    """What the program wrote, of the whole or of a part, of the trace that stands there."""
    data = read_bytes(path)
    if data.startswith(b"part "):
        from new_enemy_tools.parting.reports import text_of
        return text_of(path, data, trace)
    return data.decode("utf-8", "replace")


def left_out(ignore: Optional[str], baseline: Optional[str], is_named: bool) -> LeftOut:
    rows = [] if ignore is None else read_rows(ignore, read_bytes(ignore))
    known: Counter[str] = Counter() if baseline is None else read_baseline(baseline, read_bytes(baseline), is_named)
    return LeftOut(rows, known, date.today())


class Rendered(NamedTuple):
    """What is to be told, and what is to be said of the rows that leave something out."""

    telling: Telling
    warnings: list[str]
    # all forms but pages
    lines: list[str]


class Teller:
    """Reads what an audited trace says of its findings, or where that cannot be done, the trace in full."""

    def __init__(self, given: argparse.Namespace, progress: Progress):
        self.given, self.progress = given, progress
        self.day = kept_day(given.trace)
        self.data = b"" if self.day is not None else split_joined(read_joined(given.trace))[0]
        self.report: Optional[str] = None

    def rendered(self) -> Rendered:
        if self.day is not None:
            return self._rendered(self.day.trace())
        if self.given.form != "html":
            try:
                return self._rendered(read_audited(self.data))
            except (OtherForm, ToolFault):
                # Read in full, the trace may be at fault, and not what does not go with it.
                pass
        return self._rendered(read_trace_of(self.data, self.progress))

    def _rendered(self, trace: Trace) -> Rendered:
        given = self.given
        ids = read_ids(given.ids, trace)
        out = left_out(given.ignore, given.baseline, ids is not None)
        step = self.progress.steps("looked at %s findings")
        if self.day is not None:
            day = self.day.report()
            # The trace has content checks of the days before too.
            told = told_of(trace, day.report._replace(entries=len(trace.entries)), step)
            telling = telling_of(told, trace, Names(ids), given.trace, day.report, day.labels, day.coverage, out)._replace(
                held_over=day.held_over, held_back=day.held_back, unjudged=day.unjudged(trace))
        else:
            if self.report is None:
                self.report = report_text(given.report, given.trace)
            report = read_report(self.report)
            told = told_of(trace, report, step)
            telling = telling_of(told, trace, Names(ids), given.trace, report, labels_in(self.data), coverage_in(self.data), out)._replace(
                uncompared=uncompared(trace, report))
        return Rendered(telling, warnings_of(telling, out), [] if given.form == "html" else list(form_of(given.form)(telling)))


def rendered_quickly(given: argparse.Namespace, progress: Progress) -> Rendered:
    """What is read is kept to the end."""
    with held_off():
        return Teller(given, progress).rendered()


def write(lines: Iterable[str], out: Optional[str]) -> None:
    """Writes all of it, or nothing where it goes to a file."""
    if out is not None:
        write_whole(out, lines)
    else:
        for line in lines:
            sys.stdout.write(line + "\n")


def write_html(parser: Parser, telling: Telling, out: Optional[str], progress: Progress) -> None:
    # The other forms need not wait until this is loaded.
    from new_enemy_tools.page import PAGE, Writer, write_pages

    if out is not None:
        write_pages(telling, out, progress.steps("wrote %s findings"))
        return
    if len(telling.told) > PAGE:
        parser.error("%d findings make more than one page; give --out FILE, and the others go to files beside it" % len(telling.told))
    writer = Writer(telling, "")
    write(writer.lines(writer.pages[0]), None)


def main(words: list[str]) -> int:
    parser = parser_of_words()
    given = parser.parse_args(words)
    if (given.report is None) != (kept_day(given.trace) is not None):
        parser.error("REPORT is missing" if given.report is None else "the folder of a day has its report: leave out REPORT")
    with Progress() as progress:
        rendered = rendered_quickly(given, progress)
        progress.end()
        for line in rendered.warnings:
            tell(line, sys.stderr)
        if given.form == "html":
            write_html(parser, rendered.telling, given.out, progress)
        else:
            write(rendered.lines, given.out)
    worst = min((one.effect.rank for one in rendered.telling.told), default=len(EFFECTS))
    if given.fail_on is not None and worst <= EFFECTS.index(given.fail_on):
        return 1
    return rendered.telling.status(given.allow_unaudited, given.fail_on is not None)
