"""Audits a day's logs behind those of the days before: imports, audits and reports, for cron (docs/DAILY.md).

    ne day [--at-least N] .. FOLDER events [--from-empty] LOG ..
    ne day [--ended LOG] [--skew MS] .. FOLDER events LOG ..
    ne day [--at-least N] .. FOLDER spicedb --schema SCHEMA (--base FILE --base-at TOKEN | --from-empty) LOG ..
    ne day [--at-least N] .. FOLDER trace TRACE

FOLDER keeps the days: of each its report, and of the last what the next one goes on from. The words behind FOLDER are those of `ne import`,
each day the same; a base state is taken on the first day alone. `trace` takes a trace in place of logs. Where each LOG is a folder of a
recorder's log, these are joined as far as all have closed files (docs/DAILY.md, "Several recorders").

The status is 0 where nothing was found, 1 where something was, 6 where nothing was found and not everything was looked at, and 2 where
something is refused; then no day was kept, and the same words can be tried again. It is 8 where nothing is new. A day that a killed run had
kept and not told is told by the next run.
"""
import argparse
import contextlib
import io
import json
import os
import shutil
import sys
from argparse import Namespace
from typing import Callable, NamedTuple, Optional

from new_enemy_tools.commands import import_logs
from new_enemy_tools.commands.running import Parser, add_allowing, add_program, add_skew, refuse_twice
from new_enemy_tools.commands.window import FAULTS, add_keeping, keep_of, places, refuse_usage, status_of
from new_enemy_tools.coverage import Coverage
from new_enemy_tools.faults import WindowFault
from new_enemy_tools.files import write_whole
from new_enemy_tools.garbage_collection import held_off
from new_enemy_tools.ids import Ids
from new_enemy_tools.importing.chained import end_of, head_of
from new_enemy_tools.importing.going_on import cut, read_left, write_left
from new_enemy_tools.importing.packed_blocks import Version
from new_enemy_tools.labels import Labels, labels_of
from new_enemy_tools.progress import Progress
from new_enemy_tools.shown import tell as tell_line
from new_enemy_tools.trace_pieces import digest_of
from new_enemy_tools.windowing.audited_window import Audited, audited
from new_enemy_tools.windowing.beginning import begun, version_of
from new_enemy_tools.windowing.days import COMPARED, INDEX, JOINED_LOG, MAIL, PAGE, Days, Summary, compared
from new_enemy_tools.windowing.kept_traces import REPORT, keep_trace
from new_enemy_tools.windowing.own_lines import Own
from new_enemy_tools.windowing.state import CARRY, NOTHING, State, read_state, write_beside
from new_enemy_tools.windowing.window_effects import texts_of

# The worst of two runs first.
STATUSES = (2, 1, 6, 0)
NOTHING_NEW = 8
KEEP_DAYS = 30
OWN_WORDS = ("--trace", "--ids", "--go-on", "--state")
CANNOT = "cannot show "


def given_of(words: list[str]) -> Namespace:
    parser = Parser(prog="ne day", description=__doc__)
    parser.add_argument("--at-least", type=int, default=1, metavar="N", help="refuse a day with fewer checks and content checks (1)")
    parser.add_argument("--keep-days", type=int, default=KEEP_DAYS, metavar="N", help="keep the traces of so many days, compressed, for explain, "
                        "draw and report (%d)" % KEEP_DAYS)
    parser.add_argument("--html", action="store_true", help="write a page of the day, report.html in its folder, and index.html over all days")
    parser.add_argument("--ended", action="append", default=[], metavar="LOG", help="of joined logs one whose recorder has ended for good, so "
                        "that nothing waits for it")
    add_skew(parser)
    add_program(parser)
    add_allowing(parser)
    add_keeping(parser)
    parser.add_argument("--jobs", type=int, default=os.cpu_count(), metavar="N", help="how many processes read the logs (one a core)")
    parser.add_argument("folder", metavar="FOLDER", help="the folder of the days")
    parser.add_argument("service", choices=("events", "spicedb", "trace"), help="what the logs are of")
    parser.add_argument("words", nargs=argparse.REMAINDER, metavar="..", help="the other words of `ne import`, or TRACE")
    given = parser.parse_args(words)
    refuse_usage(parser, given)
    if given.jobs < 1:
        parser.error("--jobs is below 1")
    if given.at_least < 0:
        parser.error("--at-least is below 0")
    if given.keep_days < 0:
        parser.error("--keep-days is below 0")
    for word in OWN_WORDS:
        if any(one == word or one.startswith(word + "=") for one in given.words):
            parser.error("%s is the folder's own: leave it out" % word)
    if given.service == "trace" and len(given.words) != 1:
        parser.error("give one TRACE")
    given.logs = given.words if given.service == "trace" else import_logs.given_of([given.service, *given.words])[1].logs
    given.joins = given.service == "events" and any(map(os.path.isdir, given.logs))
    if given.joins and not all(map(os.path.isdir, given.logs)):
        parser.error("give folders of recorders' logs, which are joined, or files, and not both")
    for folder in given.ended:
        if not given.joins or os.path.normpath(folder) not in map(os.path.normpath, given.logs):
            parser.error("--ended %s names no LOG that is a folder" % folder)
    if given.skew < 0:
        parser.error("--skew is below 0")
    if given.skew != parser.get_default("skew") and not given.joins:
        parser.error("--skew before FOLDER is of logs that are joined; give their folders")
    if given.joins:
        refuse_twice(parser, given.logs)
    given.names, given.held_back, given.said = [os.path.basename(os.path.normpath(log)) for log in given.logs], 0, []
    return given


def take_joined(days: Days, given: Namespace) -> None:
    """Puts the day's part of the joined log in the place of the folders."""
    # Days of one log need not wait until this is loaded.
    from new_enemy_tools.commands.day_joined import joined
    os.mkdir(days.work())
    found = joined(days, list(map(os.path.normpath, given.logs)), set(map(os.path.normpath, given.ended)), given.skew * 1_000_000)
    given.words = [word for word in given.words if word not in given.logs] + ([] if found.path is None else [found.path])
    given.logs = [] if found.path is None else [found.path]
    given.held_back, given.said = found.waiting, found.said


def leave_out(days: Days, given: Namespace) -> None:
    """Of the files of tools/record, leaves out those of the days before, and the last where it is still written."""
    if given.joins:
        take_joined(days, given)
        return
    if given.service != "events":
        return
    heads = {log: head_of(log) for log in given.logs}
    numbers = {log: head.number for log, head in heads.items() if head is not None}
    if len(numbers) < len(heads):
        return
    left = days.before("left")
    chain = None if left is None else read_left(left).chain
    old = {log for log, number in numbers.items() if chain is not None and number <= chain[0]}
    last = max(numbers, key=numbers.__getitem__)
    if last not in old and end_of(last).said is None:
        tell_line("day: %s is still written, and is audited with the next day" % last, sys.stderr)
        old.add(last)
    given.logs = [log for log in given.logs if log not in old]
    given.words = [word for word in given.words if word not in old]


def go_on(days: Days, given: Namespace) -> import_logs.Before:
    """What the day goes on from, as far as later days need it; the table of ids stands in the folder to work in."""
    folder = days.last_folder
    state = NOTHING if folder is None else read_state(folder)
    days.refuse_other(state)
    # The import knows of the versions that the program knows.
    state = begun(state, {}, keep_of(given))
    ids, path = days.before("ids.jsonl"), days.before("left")
    if ids is not None:
        shutil.copyfile(ids, days.work("ids.jsonl"))
    if path is None and days.before("import.txt") is not None:
        raise WindowFault("the file `left` of day %d is not there, and without it nothing goes on from that day" % (days.last or 0))
    if path is not None and days.last is not None and days.summary(days.last).left not in ("", digest_of(path)):
        raise WindowFault("%s is another than day %d left: it was altered, or is of another day" % (path, days.last))
    table = Ids(days.work("ids.jsonl"))
    left = None if path is None else cut(read_left(path), state.base, given.keep_versions, carrying(state, table, given.keep_versions))
    return import_logs.Before(left, state, table)


def carrying(state: State, table: Ids, kept: Optional[int]) -> Callable[[Version], bool]:
    """Whether a state carries a version, by the names of the service. Where versions are let go, one that a waiting check names is not."""
    versions = {version_of(row.raw) for row in state.rows_of("v")} if kept is not None else set()
    return lambda key: ("%s:%s" % (table.name("namespace", key[0]), table.object(key[0], key[1])), table.version(key[2])) in versions


class NothingNew(WindowFault):
    """Logs of which all was audited before."""


class Traced(NamedTuple):
    """The day's trace, and what its import says was looked at, if there was one."""

    path: str
    coverage: Optional[Coverage]


def traced(days: Days, given: Namespace, before: import_logs.Before) -> Traced:
    """Raises WindowFault where the import refuses the logs."""
    if given.service == "trace":
        if before.left is not None:
            write_left(days.work("left"), before.left)
        return Traced(str(given.words[0]), None)
    said = io.StringIO()
    try:
        with contextlib.redirect_stderr(said):
            made = import_logs.run([given.service, "--trace", days.work("trace"), "--ids", days.work("ids.jsonl"), "--go-on", days.work("left"),
                                    "--jobs", str(given.jobs), *given.words], before)
    except BaseException:
        sys.stderr.write(said.getvalue())
        raise
    if made.coverage is None:
        sys.stderr.write(said.getvalue())
        raise WindowFault("the import refused the logs")
    lines = said.getvalue().splitlines()
    write_whole(days.work("import.txt"), lines)
    # What was looked at, and what the day's log cannot show, is told with the report.
    with_report = {*made.coverage.lines()}
    sys.stderr.writelines(line + "\n" for line in lines if line not in with_report and not line.startswith(("commits ", CANNOT)))
    return Traced(days.work("trace"), made.coverage)


def audited_day(days: Days, given: Namespace, before: import_logs.Before, progress: Progress) -> tuple[Own, Audited]:
    trace = traced(days, given, before)
    own = Own(trace.path)
    return own, audited(own, before.state, given.program, keep_of(given), days.work(CARRY), False, progress.steps("read %s bytes"), trace.coverage)


def made(days: Days, given: Namespace, digest: str, progress: Progress) -> int:
    """Makes the next day; its number."""
    os.makedirs(days.work(), exist_ok=True)
    before = go_on(days, given)
    own, found = audited_day(days, given, before, progress)
    if found.entries < given.at_least:
        raise WindowFault("the day has %d checks and content checks, and at least %d are wanted (--at-least)" % (found.entries, given.at_least))
    return keep_day(days, given, own, found, before.ids if given.service != "trace" else None, digest)


def keep_day(days: Days, given: Namespace, own: Own, found: Audited, ids: Optional[Ids], digest: str) -> int:
    """Makes a day of what was found, in the folder that is worked in, where its carry is; its number."""
    write_beside(days.work(), found.new)
    found = found._replace(report=found.report._replace(held_back=given.held_back))
    labels = labels_of(found.counted(own))
    write_reports(days, found, own, ids, labels, given.said)
    if given.html:
        # Days without pages need not wait until this is loaded.
        from new_enemy_tools.windowing.day_pages import write_day
        write_day(found, own, ids, 1 + (days.last or 0), days.work(PAGE))
    report = found.report
    files = [days.work(REPORT), *(keep_trace(days.work(), found, own) if given.keep_days else ())]
    kept = {os.path.basename(path): digest_of(path) for path in files}
    write_whole(days.work("summary.json"), [json.dumps(Summary(
        given.names, digest, report.status(given.allow_unaudited), report.entries, len(report.findings),
        sum(report.coverage.not_audited.values()), report.held, report.verdict, report.coverage.row(), labels._asdict(), given.held_back,
        digest_of(days.work("left")) if os.path.exists(days.work("left")) else "", kept)._asdict())])
    if os.path.exists(days.work("trace")):
        os.remove(days.work("trace"))
    shutil.rmtree(days.work(JOINED_LOG), ignore_errors=True)
    number = days.keep()
    days.tidy(given.keep_days)
    write_index(days, given.html)
    return number


def write_index(days: Days, is_wanted: bool) -> None:
    """Writes the page of all days, where it is wanted or there already: it is to lack none that was kept."""
    path = os.path.join(days.folder, INDEX)
    if is_wanted or os.path.exists(path):
        from new_enemy_tools.windowing.day_pages import index
        write_whole(path, index(days))


def write_reports(days: Days, found: Audited, own: Own, ids: Optional[Ids], labels: Labels, said: list[str]) -> None:
    """The report as text, and with effects as rows of JSON; and what is written out, with what the days before say of their checks. `said` is
    what is told of what waits."""
    texts, where = texts_of(found, own, ids), places(found, own).__getitem__
    write_whole(days.work(REPORT), found.report.lines(where, beside=said))
    write_whole(days.work("report.jsonl"), texts.rows)
    before = [(number, days.summary(number).looked) for number in days.numbers[:-COMPARED - 1:-1]]
    write_whole(days.work(MAIL), found.report.lines(where, texts.groups, [*said, *compared(labels, before)]))


def cannot_show(said: list[str], is_first: bool) -> list[str]:
    """The lines in which the import says what no audit of a day's log can find.

    It looks at that day alone. A later day may have a check of a version that a day before issued, which can be an F2 without a content check.
    """
    lines = [line for line in said if line.startswith(CANNOT)]
    if is_first or any(line.startswith(CANNOT + "F6 ") for line in lines):
        return lines
    return [line for line in lines if not line.startswith(CANNOT + "F2 ")]


def tell(days: Days, number: int) -> int:
    """Writes out the report of a day, and on standard error what its log could not show; its status."""
    path = days.path(number, "import.txt")
    if os.path.exists(path):
        with open(path, encoding="utf-8") as file:
            sys.stderr.writelines("the day's log %s\n" % line for line in cannot_show(file.read().splitlines(), number == 1))
    sys.stdout.write(days.tell(number))
    sys.stdout.flush()
    days.mark_told(number)
    return days.summary(number).status


def run(days: Days, given: Namespace, progress: Progress) -> int:
    # What a run left that was killed.
    days.end()
    try:
        return taken(days, given, progress)
    finally:
        days.end()


def taken(days: Days, given: Namespace, progress: Progress) -> int:
    days.tidy(given.keep_days)
    leave_out(days, given)
    digest, last, status = digest_of(*given.logs), days.last, 0
    if last is not None and not days.is_told(last):
        write_index(days, given.html)
        sys.stderr.write("day: day %d was audited by a run that was broken off; its report:\n" % last)
        status = tell(days, last)
        if days.summary(last).digest == digest or not given.logs:
            return status
    if not given.logs:
        raise NothingNew("; ".join(["no file of the log is new and complete" if not given.joins else "nothing is new that all logs have", *given.said]))
    twice = days.day_of(digest)
    if twice is not None:
        raise NothingNew("these logs were audited before, as day %d" % twice)
    number = made(days, given, digest, progress)
    progress.end()
    return min(status, tell(days, number), key=STATUSES.index)


def main(words: list[str]) -> int:
    given = given_of(words)
    days: Optional[Days] = None
    try:
        days = Days(given.folder)
        with held_off(), Progress() as progress:
            return run(days, given, progress)
    except FAULTS as fault:
        status = status_of("day", fault)
        return NOTHING_NEW if isinstance(fault, NothingNew) else status
    finally:
        if days is not None:
            days.close()
