"""Tries whether the recorder fits a service of yours: ne selftest (--openfga | --spicedb) URL

In a scratch place of the service four clients write, save and show content, and ask some thousand checks through a recorder; its log is
imported and audited, and compared with what the clients saw and with the tools' own evaluator. Tried are, over HTTP, of OpenFGA Write,
Check, BatchCheck, ListObjects and ReadChanges, and of SpiceDB the like with Watch; no other call, no condition or caveat, and not gRPC.

The scratch place of OpenFGA is a store of its own, which is created and deleted; whether OpenFGA takes its rows out of the database is
OpenFGA's to say. A SpiceDB has one schema, and to write a schema replaces it. So it refuses a SpiceDB that has one: begin an empty one
for it. There all definitions begin with a prefix of their own, and at the end the tuples and the schema are deleted. A process of its own
does that, also where this one is interrupted or killed, and says what it can't delete.

This was tried with stand-ins of both services alone: it was never run against a real one.

Status 0 where all fits, 1 where something differs, 6 where nothing differs and something was not looked at, 2 where it refuses the
service, and 5 where the service can't be asked.
"""
import os
import signal
import socket
import sys
import tempfile
from argparse import Namespace

from new_enemy_tools.commands.running import Parser, add_program
from new_enemy_tools.coverage import INCOMPLETE
from new_enemy_tools.fitting.comparing import Compared, compared, wait_for_changes
from new_enemy_tools.fitting.guard import Guard
from new_enemy_tools.fitting.load import BASE, CLIENTS, Load
from new_enemy_tools.fitting.services import OpenFga, Service, SpiceDb
from new_enemy_tools.recording.asking import Asker
from new_enemy_tools.recording.command import ENTRY, url_of
from new_enemy_tools.recording.secured import FileFault, key_in
from new_enemy_tools.shown import tell

FITS = "fits in all that is tried, which --help names"


def given_of(words: list[str]) -> Namespace:
    parser = Parser(prog="ne selftest", description=__doc__)
    which = parser.add_mutually_exclusive_group(required=True)
    which.add_argument("--openfga", metavar="URL", help="where OpenFGA answers, as http://127.0.0.1:8080")
    which.add_argument("--spicedb", metavar="URL", help="where the HTTP gateway of an empty SpiceDB answers")
    parser.add_argument("--key-file", metavar="FILE", help="a file with a key that may write and read all")
    parser.add_argument("--service-ca", metavar="FILE", help="the certificates by which the service is believed, in place of the system's")
    parser.add_argument("--stale-by", type=float, default=0.0, metavar="SECONDS", help="how long OpenFGA may answer from its cache (0)")
    parser.add_argument("--turns", type=int, default=500, metavar="N", help="how often each of the %d clients asks (500)" % CLIENTS)
    parser.add_argument("--out", metavar="FOLDER", help="where the log, the trace and what the recorder said stay; without it they go away")
    add_program(parser)
    given = parser.parse_args(words)
    url_of(parser, given.openfga or given.spicedb)
    try:
        given.key = None if given.key_file is None else key_in(given.key_file)
        given.asker = Asker(given.openfga or given.spicedb, given.key, given.service_ca)
    except FileFault as fault:
        parser.error(str(fault))
    return given


def free_address() -> str:
    with socket.socket() as one:
        one.bind(("127.0.0.1", 0))
        return "127.0.0.1:%d" % one.getsockname()[1]


def run(given: Namespace, room: str) -> Compared:
    service: Service = OpenFga() if given.openfga else SpiceDb()
    address = free_address()
    load = Load(service, "http://" + address, given.key, given.turns)
    recorder = [sys.executable, ENTRY, "--openfga" if given.openfga else "--spicedb", given.openfga or given.spicedb, "--listen", address,
                "--out", os.path.join(room, "log"), "--stale-by", str(given.stale_by)]
    for word, value in (("--key-file", given.key_file), ("--service-ca", given.service_ca)):
        recorder += [] if value is None else [word, value]
    guard = Guard(service, given.asker, BASE, recorder, room, given.out is None)

    def interrupted(number: int, _: object) -> None:
        guard.close()
        os._exit(128 + number)
    for number in (signal.SIGINT, signal.SIGTERM, signal.SIGHUP):
        signal.signal(number, interrupted)
    try:
        guard.begun()
        load.run()
        wait_for_changes(load, room)
        is_clean = guard.over()
        found = compared(load, room, given.program)
        return found if is_clean else found._replace(differs=[*found.differs, "not all could be taken away"])
    finally:
        guard.close()


def main(words: list[str]) -> int:
    given = given_of(words)
    if given.out is not None:
        os.makedirs(given.out)
    found = run(given, given.out or tempfile.mkdtemp(prefix="new_enemy-selftest-"))
    for line in found.sums + ["differs: " + one for one in found.differs] + ["not looked at: " + one for one in found.unseen]:
        tell(line, sys.stdout)
    tell("does not fit" if found.differs else "not all was looked at" if found.unseen else FITS, sys.stdout)
    return 1 if found.differs else INCOMPLETE if found.unseen else 0
