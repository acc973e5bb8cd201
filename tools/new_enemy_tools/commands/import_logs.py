"""Makes a trace of the logs of a service: ne import SERVICE .. LOG .. (docs/IMPORTING.md).

    ne import openfga --model MODEL (--base FILE .. --base-at TIME | --from-empty) LOG ..
    ne import spicedb --schema SCHEMA (--base FILE .. --base-at TOKEN | --from-empty) LOG ..
    ne import events (--from-empty | base writes in the log) LOG ..

It writes the trace and adds to the table of ids, and ends with status 0, or 6 where a check of the log is not audited whole: the sum on
standard error says which, and why. Where anything is refused it writes neither, lists all refusals, and ends with status 2. A trace with more bytes than one program takes is written in pieces, which
`ne parts cut` takes as the one trace that they are (docs/SCALE.md).
"""
import os
import sys
from argparse import Namespace
from functools import partial
from itertools import chain
from typing import Any, Iterable, Iterator, NamedTuple, Optional

from new_enemy_tools import limits
from new_enemy_tools.commands.running import Parser, add_allowing
from new_enemy_tools.coverage import Coverage, mark_of
from new_enemy_tools.faults import DeviceFault, PartsFault
from new_enemy_tools.garbage_collection import held_off
from new_enemy_tools.ids import Ids, locked, mark_of_file, refuse_other_file
from new_enemy_tools.importing import openfga, spicedb, spicedb_schema
from new_enemy_tools.importing.chained import in_chain, last_of
from new_enemy_tools.importing.going_on import Left, read_left, refuse_other, write_left
from new_enemy_tools.importing.import_summary import Written
from new_enemy_tools.importing.neutral import gather_events
from new_enemy_tools.importing.refusals import Refusals
from new_enemy_tools.importing.sequence_numbers import Numbers
from new_enemy_tools.importing.service import Log, ServiceRules
from new_enemy_tools.importing.spool import Lines
from new_enemy_tools.importing.trace_maker import Core, Given, GoesOn
from new_enemy_tools.progress import Progress
from new_enemy_tools.recording.beside import tell_words
from new_enemy_tools.shown import tell
from new_enemy_tools.trace_lines import with_mark
from new_enemy_tools.trace_pieces import LEAST_BYTES, PiecesWriter
from new_enemy_tools.windowing.state import State, read_state


class Before(NamedTuple):
    """What is known of the days before where it was read already: what the import of the last one left, the state, and the table of ids."""

    left: Optional[Left]
    state: State
    ids: Ids


def given_of(words: list[str]) -> tuple[Parser, Namespace]:
    """The words of the command line, and the parser that tells faults of usage."""
    parser = Parser(prog="ne import", description=__doc__)
    services = parser.add_subparsers(dest="service", required=True)
    for name, told in (("openfga", "of OpenFGA"), ("spicedb", "of SpiceDB"), ("events", "of events in a form of no service")):
        service = services.add_parser(name, help="logs " + told, description="Makes a trace of logs " + told + " (docs/IMPORTING.md).")
        if name == "openfga":
            service.add_argument("--model", required=True, dest="rules", metavar="FILE", help="the authorization model, as JSON")
        elif name == "spicedb":
            service.add_argument("--schema", required=True, dest="rules", metavar="FILE", help="the text of the schema")
        if name != "events":
            service.add_argument("--base", action="append", default=[], metavar="FILE", help="the tuples stored at --base-at")
            service.add_argument("--base-at", metavar="REVISION", help="the revision of the base state")
        service.add_argument("--from-empty", action="store_true", help="the store was empty before the first write")
        service.add_argument("--skew", type=int, metavar="MS", help="order events by time, and refuse two of different clocks within MS milliseconds if their order could change a finding")
        service.add_argument("--sequence-has-holes", action="store_true",
                             help="no line is missing where a number of the `sequence` is")
        unmapped = service.add_mutually_exclusive_group()
        unmapped.add_argument("--refuse-unmapped", action="store_true",
                              help="refuse tuples and rules that a trace cannot say, in place of leaving them out with each check that hangs on them")
        unmapped.add_argument("--skip-unmapped", action="store_true", help="leave them out, as is done anyway")
        add_allowing(service)
        service.add_argument("--trace", default="trace.jsonl", metavar="FILE", help="the trace to write (trace.jsonl)")
        service.add_argument("--ids", default="ids.jsonl", metavar="FILE", help="the table of ids to add to (ids.jsonl)")
        service.add_argument("--jobs", type=int, default=os.cpu_count(), metavar="N", help="how many processes read the logs (one a core)")
        service.add_argument("--piece-bytes", type=int, default=limits.INPUT_BYTES, metavar="N", help="the most bytes of a file; a longer "
                             "trace is written in pieces (%d, which one program takes)" % limits.INPUT_BYTES)
        service.add_argument("--name", metavar="NAME", help="a name of the service, where several of its kind have logs")
        service.add_argument("--go-on", metavar="FILE", help="go on from what the import of the day before left here, or begin; and leave it for the next")
        service.add_argument("--state", metavar="FILE", help="the state of `ne window` behind the days before, for checks between two states")
        service.add_argument("logs", nargs="+", metavar="LOG", help="a file of writes and checks, JSON lines")
    given = parser.parse_args(words)
    if given.jobs < 1:
        parser.error("--jobs is below 1")
    if not LEAST_BYTES <= given.piece_bytes <= limits.INPUT_BYTES:
        parser.error("--piece-bytes is from %d to %d" % (LEAST_BYTES, limits.INPUT_BYTES))
    if given.skew is not None and given.skew < 0:
        parser.error("--skew is below 0")
    if given.state is not None and given.go_on is None:
        parser.error("--state goes with --go-on")
    if given.go_on is not None and given.service == "openfga":
        parser.error("--go-on takes no logs of OpenFGA, whose revisions are places in one feed: import all of them at once")
    if given.service != "events" and bool(given.base) != (given.base_at is not None):
        parser.error("--base and --base-at go together")
    if given.service != "events" and given.from_empty == bool(given.base):
        parser.error("give either --base with --base-at, or --from-empty")
    return parser, given


LOGS: dict[str, type[Log]] = {"openfga": openfga.OpenFgaLog, "spicedb": spicedb.SpiceDbLog}


def base_at(parser: Parser, given: Namespace) -> Any:
    """The revision of the base state, where a front end takes one."""
    if given.service == "events" or given.base_at is None:
        return None
    found = LOGS[given.service].read_base(given.base_at)
    if found is None:
        parser.error("--base-at is no " + LOGS[given.service].BASE)
    return found


def rules_of(given: Namespace, refusals: Refusals) -> Optional[ServiceRules]:
    if given.service == "openfga":
        return openfga.ModelReader(given.rules, refusals).read()
    return spicedb_schema.read_schema(given.rules, refusals)


def gathered(given: Namespace, base: Any, refusals: Refusals, progress: Progress, goes_on: Optional[GoesOn], ids: Ids) -> Given:
    """The lines of the service's files, base state first; that stands in the first day alone."""
    lines, before = Lines(ids=ids), None if goes_on is None else goes_on.before
    is_later = before is not None
    lines.facts.numbers = Numbers(None if before is None else before.sequence, given.sequence_has_holes)
    if given.service == "events":
        chained = in_chain(given.logs, refusals, None if goes_on is None else goes_on.chain, goes_on is not None)
        if goes_on is not None:
            take_chain(goes_on, chained, refusals)
        tell_words(chained or [], refusals)
        lines.facts.is_chained = chained is not None
        more = chain.from_iterable(gather_events(path, lines, given.jobs, refusals) for path in chained or given.logs)
        end = partial(with_base, given, lines, refusals, is_later)
        return Given(lines, None, progress.follow("read %s events", more), end)
    rules = rules_of(given, refusals)
    if rules is None:
        return Given(lines, None, iter(()), lambda: lines)
    log = LOGS[given.service](rules, base, refusals)
    lines.add(rules.event)
    for path in [] if is_later else given.base:
        for line in log.base(path):
            lines.add(line)
    more = chain.from_iterable(log.gather(path, lines, given.jobs) for path in given.logs)
    return Given(lines, log.base_number(), progress.follow("read %s events", more), lambda: log.placed(lines, given.skew))


def with_base(given: Namespace, lines: Lines, refusals: Refusals, is_later: bool) -> Lines:
    """All events, of which the first day's have to say what was stored before them."""
    facts = lines.facts
    if facts.count and not is_later and given.from_empty == (facts.last_base >= 0):
        first = next(iter(lines))
        refusals.refuse(first.file, first.line, "give either base writes (\"base\":true) or --from-empty")
    return lines


def take_chain(goes_on: GoesOn, chained: Optional[list[str]], refusals: Refusals) -> None:
    """The next day's files have to go on from the last of these."""
    if chained is None:
        if goes_on.chain is not None:
            refusals.refuse(goes_on.file, 1, "the day before had files of tools/record, and this is none that goes on from them")
        return
    goes_on.chain = last_of(chained[-1])
    if goes_on.chain is None:
        refusals.refuse(chained[-1], 1, "the file is not closed: give it when it is, and then the next day's files can go on from it")


def marked(made: Written, refusals: Refusals) -> Iterator[bytes]:
    """The lines of a trace, of which the last one says what was left out."""
    last: Optional[bytes] = None
    for piece in made.chunks:
        if last is not None and piece:
            yield last
        last = piece or last
    if last is not None:
        yield with_mark(last.rstrip(b"\n"), mark_of(made.coverage(refusals))) + b"\n"


def write(given: Namespace, pieces: Iterable[bytes], ids: Ids, refusals: Refusals) -> PiecesWriter:
    """The trace, in pieces where it is too long for a file, and the new rows of the table; or neither where something is refused meanwhile."""
    writer = PiecesWriter(given.trace, given.piece_bytes)
    try:
        for piece in pieces:
            writer.write(piece)
        writer.end()
        if not refusals.refused:
            writer.keep(ids.append)
    finally:
        writer.remove()
    return writer


def say(text: str) -> None:
    """A line on standard error, in which no letter of a stranger's text would be another command to a terminal."""
    tell(text, sys.stderr)


def told_refused(refusals: Refusals) -> int:
    for line in refusals.lines():
        say(line)
    say("refused %d" % len(refusals.refused))
    return 2


class Imported(NamedTuple):
    """The status, and where a trace was written, what of the log stands in it."""

    status: int
    coverage: Optional[Coverage] = None


def main(words: list[str]) -> int:
    return run(words).status


def run(words: list[str], before: Optional[Before] = None) -> Imported:
    """An import; of a day what is known of those before it is given. Raises DeviceFault."""
    parser, given = given_of(words)
    base = base_at(parser, given)
    try:
        with held_off():
            return imported(given, base, before)
    except PartsFault as fault:
        raise DeviceFault(str(fault)) from None
    except OSError as fault:
        raise DeviceFault("cannot %s: %s" % ("use %s" % fault.filename if fault.filename else "keep lines in a temporary file",
                                             fault.strerror)) from None


def goes_on_of(given: Namespace, service: str, before: Optional[Before]) -> Optional[GoesOn]:
    if given.go_on is None:
        return None
    if before is not None:
        left, state = before.left, None if before.left is None else before.state
    else:
        left = read_left(given.go_on) if os.path.exists(given.go_on) else None
        state = read_state(given.state) if given.state is not None and left is not None else None
    if left is not None:
        refuse_other(left, given.go_on, service)
        if left.ids is not None:
            refuse_other_file(given.ids, left.ids, given.go_on)
    return GoesOn(service, given.logs[0], left, state)


def imported(given: Namespace, base: Any, before: Optional[Before]) -> Imported:
    refusals = Refusals(given.refuse_unmapped)
    with Progress() as progress, locked(given.ids):
        service = given.service if given.name is None else "%s %s" % (given.service, given.name)
        goes_on = goes_on_of(given, service, before)
        ids = Ids(given.ids) if before is None else before.ids
        ids.take_for(service)
        core = Core(ids, given.skew, refusals, progress, goes_on)
        made = core.trace(gathered(given, base, refusals, progress, goes_on, ids), given.jobs)
        written = write(given, marked(made, refusals), ids, refusals) if made else None
        left = core.left()
        if left is not None and not refusals.refused:
            write_left(given.go_on, left._replace(ids=mark_of_file(given.ids)))
    for line in refusals.summary_lines():
        say(line)
    if made is None or written is None or refusals.refused:
        return Imported(told_refused(refusals))
    coverage = made.coverage(refusals)
    for line in made.lines(coverage):
        say(line)
    if len(written.pieces) > 1:
        say("the trace has %d bytes, and stands in %d pieces, %s to %s: audit it in parts, by tools/ne parts cut %d %s FOLDER"
            % (written.size, len(written.pieces), written.pieces[0].path, written.pieces[-1].path,
               written.size // given.piece_bytes + 2, given.trace))
    return Imported(coverage.status(given.allow_unaudited), coverage)
