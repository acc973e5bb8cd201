"""Audits a recorder's log while it grows, and tells what is found within seconds (docs/MONITORING.md).

    ne monitor [--webhook URL [--secret FILE]] [--command COMMAND] [--syslog] [--metrics ADDRESS] LOG .. OUT

LOG is the folder that `ne record` writes to, and OUT a folder of the monitor's own. The logs of several recorders of
one service are joined. Each story that matters is told
once, as a line of JSON on standard output where no receiver is given, and to each receiver that is; it is told again
with a count while it goes on. At midnight (--zone), or where the trace has --day-bytes, the run ends: OUT/days has a
folder for each, as `ne day` makes them.

It ends with status 0 at SIGTERM, and goes on where it was when it is started again, also after a kill. The status is 9
where it could not end within ten seconds and was broken off as by a kill, 2 where something is refused, which is told
as an alert too, and 5 where a file or a program can't be used.
"""
import argparse
import gc
import os
import sys
from argparse import Namespace
from datetime import tzinfo
from typing import Iterator, Optional

from new_enemy_tools import limits
from new_enemy_tools.commands.running import (Parser, add_allowing, add_program, add_skew, percent, refuse_below, refuse_twice,
                                              text_of)
from new_enemy_tools.effects import EFFECTS
from new_enemy_tools.faults import DeviceFault, ToolFault
from new_enemy_tools.files import read_bytes
from new_enemy_tools.monitoring.devices import Machine, Way
from new_enemy_tools.monitoring.joined import FOLDER, Several
from new_enemy_tools.monitoring.marks import Mark
from new_enemy_tools.monitoring.midnights import UTC, NoZone, zone_of
from new_enemy_tools.monitoring.pure_monitor import Settings
from new_enemy_tools.monitoring.receivers import SYSLOG, Command, Output, Receiver, Syslog, Webhook
from new_enemy_tools.monitoring.run_files import options
from new_enemy_tools.recording.command import address_of, url_of
from new_enemy_tools.shown import tell

# A program takes so many bytes in a run; the lines of the state come before.
MOST_BYTES = limits.INPUT_BYTES // 2
LEAST_BYTES = 1 << 12
SECRET_BYTES = 16


def effects_of(text: str) -> frozenset[str]:
    words = frozenset(text.split(","))
    if not words <= set(EFFECTS):
        raise argparse.ArgumentTypeError("%r are none of %s, with commas between them" % (text, ", ".join(EFFECTS)))
    return words


def zone_named(text: str) -> tzinfo:
    try:
        return zone_of(text)
    except NoZone as fault:
        raise argparse.ArgumentTypeError(str(fault)) from None


def given_of(words: list[str]) -> tuple[Parser, Namespace]:
    parser = Parser(prog="ne monitor", description=__doc__)
    add_telling(parser)
    add_runs(parser)
    add_skew(parser)
    parser.add_argument("--ended", action="append", default=[], metavar="LOG",
                        help="of several logs one whose recorder has ended for good, so that nothing waits for it")
    parser.add_argument("logs", metavar="LOG", nargs="+", help="the folder of a recorder's log; several are joined")
    parser.add_argument("out", metavar="OUT", help="the monitor's folder")
    given = parser.parse_args(words)
    refuse_below(parser, given, again=1, most_lag=0, hold=0, keep_days=0, keep_snapshots=0, keep_versions=1)
    if not LEAST_BYTES <= given.day_bytes <= MOST_BYTES:
        parser.error("--day-bytes is from %d to %d" % (LEAST_BYTES, MOST_BYTES))
    refuse_logs(parser, given)
    if given.page and given.metrics is None:
        parser.error("--page goes with --metrics")
    if given.secret is not None and not given.webhook:
        parser.error("--secret goes with --webhook")
    return parser, given


def refuse_logs(parser: Parser, given: Namespace) -> None:
    """Ends where the words on several logs don't go together."""
    given.logs, given.ended = [[os.path.normpath(path) for path in paths] for paths in (given.logs, given.ended)]
    refuse_twice(parser, given.logs)
    if len(given.logs) == 1 and (given.ended or given.skew != parser.get_default("skew")):
        parser.error("--ended and --skew are of several logs that are joined; give their folders")
    for folder in set(given.ended) - set(given.logs):
        parser.error("--ended %s names no LOG" % folder)
    if given.skew < 0:
        parser.error("--skew is below 0")


def add_telling(parser: Parser) -> None:
    """The words on who is told, and of what."""
    parser.add_argument("--webhook", action="append", default=[], metavar="URL",
                        help="POST each alert to this address, until it answers 2xx")
    parser.add_argument("--secret", metavar="FILE", help="sign what is posted, by the secret in this file")
    parser.add_argument("--command", action="append", default=[], metavar="COMMAND",
                        help="give each alert to this command on standard input, until its status is 0")
    parser.add_argument("--syslog", action="store_true", help="put each alert into the log of the system (/dev/log)")
    parser.add_argument("--print", action="store_true",
                        help="write each alert to standard output too, where there is another receiver")
    parser.add_argument("--effects", type=effects_of, default=effects_of("wrong,changed,undecided"), metavar="WORDS",
                        help="of which effects there are alerts (wrong,changed,undecided)")
    parser.add_argument("--again", type=float, default=600.0, metavar="SECONDS",
                        help="how often at most a story that goes on is told again (600)")
    parser.add_argument("--metrics", metavar="ADDRESS",
                        help="where /health and /metrics are answered, as 127.0.0.1:8092")
    parser.add_argument("--page", action="store_true",
                        help="answer a page there too, at /; it names users and what they asked for")
    parser.add_argument("--most-lag", type=float, default=60.0, metavar="SECONDS",
                        help="an alert where a reply waits longer for its audit (60)")
    parser.add_argument("--most-loss", type=percent, default=1.0, metavar="PERCENT",
                        help="an alert where more of a run's checks were not looked at whole (1)")


def add_runs(parser: Parser) -> None:
    """The words on runs, and on what is kept of them."""
    parser.add_argument("--hold", type=float, default=30.0, metavar="SECONDS",
                        help="the recorder's --hold: so long a check of a version that nobody issued is held, since a "
                        "gap may still say why (30)")
    parser.add_argument("--day-bytes", type=int, default=MOST_BYTES // 2, metavar="N",
                        help="end a run where its trace has so many bytes (%d)" % (MOST_BYTES // 2))
    parser.add_argument("--zone", type=zone_named, default=zone_of(UTC), metavar="ZONE",
                        help="end a run at midnight in this time zone, as Europe/Berlin (UTC)")
    parser.add_argument("--html", action="store_true", help="write a page of each day, and an index of all")
    parser.add_argument("--keep-days", type=int, default=30, metavar="N", help="keep the traces of so many runs (30)")
    parser.add_argument("--keep-snapshots", type=int, default=1, metavar="RUNS",
                        help="entries may read snapshots as old as the beginning of so many runs before (1)")
    parser.add_argument("--keep-versions", type=int, metavar="RUNS", help="let versions go after so many runs (never)")
    parser.add_argument("--once", action="store_true",
                        help="end the last run too, and stop, when all of the log is read and every receiver has its "
                        "alerts")
    add_allowing(parser)
    add_program(parser)


def secret_of(path: Optional[str]) -> Optional[bytes]:
    """The secret of a file, without a newline at its end."""
    if path is None:
        return None
    secret = read_bytes(path).rstrip(b"\r\n")
    if len(secret) < SECRET_BYTES:
        raise ToolFault("%s has fewer than %d bytes, which is no secret; make one by `openssl rand -hex 32`"
                        % (path, SECRET_BYTES))
    return secret


def numbered(name: str, texts: list[str]) -> Iterator[tuple[str, str]]:
    """The first has the name alone."""
    return (((name if number == 1 else "%s %d" % (name, number)), text) for number, text in enumerate(texts, 1))


def mark_of(given: Namespace, name: str) -> Mark:
    return Mark(os.path.join(given.out, "delivered", name))


def receivers_of(parser: Parser, given: Namespace) -> dict[str, Receiver]:
    """By the names under which it is kept what they have."""
    secret = secret_of(given.secret)
    found: dict[str, Receiver] = {name: Webhook(url_of(parser, text), secret)
                                  for name, text in numbered("webhook", given.webhook)}
    for name, text in numbered("command", given.command):
        found[name] = Command(text, mark_of(given, name))
    if given.syslog:
        found["syslog"] = Syslog(SYSLOG)
    if given.print or not found:
        found["output"] = Output()
    return found


def way_of(parser: Parser, given: Namespace) -> Way:
    receivers = receivers_of(parser, given)
    settings = Settings(tuple(receivers), given.effects, given.again, given.most_lag, given.most_loss,
                        given.hold + 1.0, given.day_bytes, given.zone)
    metrics = None if given.metrics is None else address_of(parser, given.metrics, "--metrics")
    is_one = len(given.logs) == 1
    log = given.logs[0] if is_one else os.path.join(given.out, FOLDER)
    several = None if is_one else Several(tuple(given.logs), given.skew * 1_000_000, frozenset(given.ended))
    how = options(os.path.join(given.out, "days"), given.program, given.logs, given.html, given.keep_days,
                  given.allow_unaudited,
                  given.keep_snapshots, given.keep_versions)
    marks = {name: mark_of(given, name) for name in receivers}
    return Way(log, " and ".join(given.logs), several, given.out, how, settings, receivers, marks, metrics, given.page, given.once)


def main(words: list[str]) -> int:
    parser, given = given_of(words)
    way = way_of(parser, given)
    missing = [log for log in given.logs if not os.path.isdir(log)]
    if missing and (way.several is None or len(missing) == len(given.logs)):
        raise DeviceFault("cannot open %s: it is no folder; give that of a recorder's log (ne record --out)" % missing[0])
    # Rows make no circles, and there are many of them to look through.
    gc.set_threshold(50_000, 20, 50)
    return ran(Machine(way), way)


def ran(machine: Machine, way: Way) -> int:
    """The status of a monitor that has stopped; why it can't go on is told as an alert, too."""
    fault: Optional[str] = None
    status = 0
    try:
        machine.serve()
        machine.hear_signals()
        machine.begin()
        tell("monitor: reading %s, and keeping %s" % (way.logs, way.folder), sys.stderr)
        machine.live()
    except ToolFault as ended:
        fault, status = str(ended), ended.status
    except OSError as failed:
        fault, status = text_of(failed), 5
    except Exception as odd:
        machine.stop("a fault of the tool itself: %s: %s" % (type(odd).__name__, odd))
        raise
    if fault is not None:
        tell("monitor: %s" % fault, sys.stderr)
    machine.stop(fault)
    return status
