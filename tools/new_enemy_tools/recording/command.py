"""Records what OpenFGA or SpiceDB decide, as a proxy in front of it: record (--openfga | --spicedb) URL --listen ADDRESS --out FOLDER.

Requests and answers pass unchanged, whatever becomes of the log. docs/RECORDING.md says what is recorded, and how an application names
the content that it shows or saves. SIGTERM ends it.
"""
import asyncio
import json
import os
import resource
import signal
import socket
import subprocess
import sys
import time
from argparse import SUPPRESS, Namespace
from typing import Any, NamedTuple, Optional
from urllib.parse import SplitResult, urlsplit

from new_enemy_tools.commands.running import Parser
from new_enemy_tools.held_signals import held_back
from new_enemy_tools.recording import openfga, spicedb
from new_enemy_tools.recording.beside import Word
from new_enemy_tools.recording.spicedb_http import HttpSource
from new_enemy_tools.recording.core import Service
from new_enemy_tools.recording.keeper import Feed, Keeper, Settings
from new_enemy_tools.recording.log_files import AGE, SIZE
from new_enemy_tools.recording.messages import Bye, Key, Teller
from new_enemy_tools.recording.metrics import MetricsServer, Seen, StatusReader, exposition
from new_enemy_tools.recording.openfga_feed import OpenFgaFeed, OpenFgaOverHttp
from new_enemy_tools.recording.relay import Relay
from new_enemy_tools.recording.secured import Certificate, FileFault, context_of, key_in

ENTRY = os.path.join(os.path.dirname(os.path.dirname(os.path.dirname(os.path.abspath(__file__)))), "record")
TICK = 0.05
# So long open requests have at the end; and so long the keeper has to end the log, which takes it much less on a machine that is not overloaded.
LAST = 3.0
CLOSING = 60.0
# A keeper that ends is started again after so long.
AGAIN = 2.0
# The proxy itself has a few files open; and more than so many are not asked for.
FILES, MANY = 40, 1 << 20
# No word is a time of so many seconds.
MANY_SECONDS = 10 ** 9
CALLS = {"openfga": openfga.call_of, "spicedb": spicedb.call_of}


def words(arguments: list[str]) -> tuple[Parser, Namespace]:
    parser = Parser(prog="ne record", description=__doc__)
    which = parser.add_mutually_exclusive_group(required=True)
    which.add_argument("--openfga", metavar="URL", help="where OpenFGA answers, as http://127.0.0.1:8080, or with --grpc its gRPC")
    which.add_argument("--spicedb", metavar="URL", help="where SpiceDB's HTTP gateway answers, or with --grpc its gRPC")
    parser.add_argument("--grpc", action="store_true", help="speak gRPC, which needs grpcio")
    parser.add_argument("--changes-only", action="store_true", help="record the changes alone, for checks that do not pass here")
    parser.add_argument("--listen", metavar="ADDRESS", help="where the application asks in place of the service, as 127.0.0.1:8090")
    parser.add_argument("--out", metavar="FOLDER", required=True, help="the folder of the log")
    parser.add_argument("--store", metavar="ID", help="the store of OpenFGA that is recorded, where there are several")
    parser.add_argument("--ignore-other-stores", action="store_true", help="let checks of other stores than --store be no gap in the log, since "
                        "others record them, or they are not to be audited; they are counted all the same")
    parser.add_argument("--key-file", metavar="FILE", help="a file with the key by which the recorder reads the changes")
    parser.add_argument("--tls-cert", metavar="FILE", help="speak TLS to the application, with the certificates of this file")
    parser.add_argument("--tls-key", metavar="FILE", help="the key of the certificate, where --tls-cert does not have it")
    parser.add_argument("--service-ca", metavar="FILE", help="the certificates by which the service is believed, in place of the system's")
    parser.add_argument("--share-port", action="store_true", help="let other recorders listen at the same address, so that one takes over "
                        "where another dies; each has a log of its own")
    parser.add_argument("--metrics", metavar="ADDRESS", help="where /health and /metrics are answered, as 127.0.0.1:8091")
    parser.add_argument("--hold", type=float, default=30.0, metavar="SECONDS", help="how long a check waits for the changes that it saw (30)")
    parser.add_argument("--poll", type=float, default=0.05, metavar="SECONDS", help="the rest of OpenFGA between two reads of its changes (0.05)")
    parser.add_argument("--horizon", type=float, default=0.0, metavar="SECONDS", help="how late OpenFGA shows its changes at least, as its "
                        "changelog horizon says (0)")
    parser.add_argument("--overlap", type=float, default=2.0, metavar="SECONDS", help="how far back each read of OpenFGA's changes begins, "
                        "for commits that come later than their place (2)")
    parser.add_argument("--stale-by", type=float, default=0.0, metavar="SECONDS", help="how long OpenFGA may answer from its cache (0)")
    parser.add_argument("--file-bytes", type=int, default=SIZE, metavar="N", help="how long a file of the log is at most (512 MB)")
    parser.add_argument("--file-seconds", type=float, default=AGE, metavar="N", help="how long a file of the log is written to (an hour)")
    parser.add_argument("--compress", action="store_true", help="compress each file of the log, by gzip, when it is closed")
    parser.add_argument("--keep", type=int, help=SUPPRESS)
    return parser, parser.parse_args(arguments)


def address_of(parser: Parser, text: str, word: str) -> tuple[str, int]:
    host, colon, port = text.rpartition(":")
    if not colon or not port.isdigit() or int(port) > 65535:
        parser.error("%s is no ADDRESS:PORT" % word)
    return host.strip("[]"), int(port)


def url_of(parser: Parser, text: str) -> SplitResult:
    url = urlsplit(text)
    try:
        is_good = url.scheme in ("http", "https") and bool(url.hostname) and (url.port is None or url.port > 0)
    except ValueError:
        is_good = False
    if not is_good:
        parser.error("the URL is none of http or https, as http://127.0.0.1:8080")
    if "@" in url.netloc:
        parser.error("the URL has a name or a password before its host, which anyone could read in a list of processes: leave it out, and give "
                     "a key by --key-file")
    return url


class Side(NamedTuple):
    """What the application's side of the proxy has: where it listens, and where it says how it stands; the files that are read again."""

    address: tuple[str, int]
    metrics: Optional[tuple[str, int]]
    certificate: Optional[Certificate]
    key_file: Optional[str]
    is_shared: bool


def side_of(parser: Parser, given: Namespace) -> Side:
    if given.tls_key is not None and given.tls_cert is None:
        parser.error("--tls-key goes with --tls-cert")
    if given.grpc and given.share_port:
        parser.error("--share-port does not go with --grpc")
    certificate = None if given.tls_cert is None else Certificate(given.tls_cert, given.tls_key)
    metrics = None if given.metrics is None else address_of(parser, given.metrics, "--metrics")
    address = ("", 0) if given.changes_only else address_of(parser, given.listen, "--listen")
    return Side(address, metrics, certificate, given.key_file, given.share_port)


class NoRelay:
    """Where the changes alone are recorded nothing passes."""

    refused = 0

    def connections(self) -> int:
        return 0

    def is_busy(self) -> bool:
        return False

    def stop(self) -> None:
        """There is nothing to stop."""

    async def close(self) -> None:
        """There is nothing to close."""


def relay_of(settings: Settings, url: SplitResult, teller: Teller) -> Any:
    """What passes the requests on; gRPC needs a library that not all have."""
    if settings.only:
        return NoRelay()
    if settings.grpc:
        from new_enemy_tools.recording.grpc_relay import GrpcRelay
        return GrpcRelay(url, teller, settings.ca)
    return Relay(url, teller, CALLS[settings.service], (files_raised() - FILES) // 2, settings.ca)


def files_raised() -> int:
    """How many files this process may have open: as many as it may allow itself."""
    soft, hard = resource.getrlimit(resource.RLIMIT_NOFILE)
    most = MANY if hard == resource.RLIM_INFINITY else min(hard, MANY)
    if soft != resource.RLIM_INFINITY and soft < most:
        resource.setrlimit(resource.RLIMIT_NOFILE, (most, hard))
        return most
    return MANY if soft == resource.RLIM_INFINITY else soft


class Proxy:
    """The proxy's process, with the keeper that it starts, and starts again where it ends."""

    def __init__(self, settings: Settings, url: SplitResult, side: Side):
        self.settings, self.side = settings, side
        self.teller = Teller(None)
        self.status, self.starts = StatusReader(), 0
        self.metrics = MetricsServer(lambda: self.status.is_recording(time.monotonic()), self.numbers)
        self.relay = relay_of(settings, url, self.teller)
        self.keeper: Optional[subprocess.Popen[bytes]] = None
        # what stands in the folder as long as no keeper has it, and when one was seen last
        self.word, self.seen = Word(settings.folder), time.time_ns()
        self.start_at = 0.0
        self.is_over = False

    def start_keeper(self) -> None:
        mine, its = socket.socketpair()
        mine.setblocking(False)
        mine.setsockopt(socket.SOL_SOCKET, socket.SO_SNDBUF, 1 << 20)
        word = ["--openfga" if self.settings.service == "openfga" else "--spicedb", self.settings.url]
        with held_back():
            self.keeper = subprocess.Popen([sys.executable, ENTRY, *word, "--listen", ":0", "--out", self.settings.folder,
                                            "--keep", str(its.fileno())],
                                           pass_fds=(its.fileno(),), stdin=subprocess.PIPE, start_new_session=True)
        its.close()
        assert self.keeper.stdin is not None
        # What the keeper needs to know, with the key, stands on no command line.
        settings = self.settings._replace(word=self.word.path, since=self.word.start if self.starts else None)
        self.keeper.stdin.write(json.dumps(settings).encode())
        self.keeper.stdin.close()
        self.teller.begin(mine)
        self.starts += 1

    def numbers(self) -> str:
        seen = Seen(self.teller.answered, self.relay.connections(), self.relay.refused, self.starts)
        return exposition(self.status, seen, time.monotonic())

    def read_again(self) -> None:
        """Takes what the files of the key and the certificate have now; where one can't be used, what was there stays."""
        try:
            if self.side.certificate is not None:
                self.side.certificate.load()
            if self.side.key_file is not None:
                self.settings = self.settings._replace(key=key_in(self.side.key_file))
                self.teller.tell(Key(self.settings.key or ""))
            sys.stderr.write("record: the files of keys and certificates were read again\n")
        except FileFault as fault:
            sys.stderr.write("record: what was read before stays in use: %s\n" % fault)

    def tick(self) -> None:
        """Starts the keeper where there is none, and tells it what waits."""
        try:
            if self.keeper is not None and self.keeper.poll() is not None and not self.is_over:
                self.word.leave(self.seen)
                self.teller.forget()
                self.status.forget()
                self.keeper, self.start_at = None, time.monotonic() + AGAIN
            elif self.keeper is not None:
                self.seen = time.time_ns()
            if self.keeper is None and time.monotonic() > self.start_at and not self.is_over:
                self.start_keeper()
        except OSError as fault:
            sys.stderr.write("record: the keeper of the log can't be started: %s\n" % fault.strerror)
            self.start_at = time.monotonic() + AGAIN
        self.teller.catch_up()
        self.status.read(self.teller.end, time.monotonic())

    async def run(self) -> int:
        loop, over = asyncio.get_running_loop(), asyncio.Event()
        for number in (signal.SIGTERM, signal.SIGINT):
            loop.add_signal_handler(number, over.set)
        loop.add_signal_handler(signal.SIGHUP, self.read_again)
        if not self.settings.only:
            self.word.leave(self.seen)
        await self.listen()
        while not over.is_set():
            self.tick()
            try:
                await asyncio.wait_for(over.wait(), TICK)
            except asyncio.TimeoutError:
                pass
        self.relay.stop()
        if self.side.metrics is not None:
            self.metrics.stop()
        until = time.monotonic() + LAST
        while self.relay.is_busy() and time.monotonic() < until:
            self.teller.catch_up()
            await asyncio.sleep(TICK)
        await self.relay.close()
        return await self.end()

    async def listen(self) -> None:
        certificate = self.side.certificate
        if self.settings.only:
            pass
        elif self.settings.grpc:
            await self.relay.serve(*self.side.address, certificate)
        else:
            await self.relay.serve(*self.side.address, None if certificate is None else certificate.context, self.side.is_shared)
        if self.side.metrics is not None:
            await self.metrics.serve(*self.side.metrics)

    async def end(self) -> int:
        """Tells the keeper all that is to be told and that it is over, and waits for it to close the log."""
        self.is_over = True
        until = time.monotonic() + CLOSING
        while self.teller.end is not None and not self.teller.has_told() and time.monotonic() < until:
            await asyncio.sleep(TICK)
            self.teller.catch_up()
        self.teller.tell(Bye(time.time_ns()))
        while not self.teller.flush() and time.monotonic() < until:
            await asyncio.sleep(TICK)
        if self.teller.end is not None:
            self.teller.end.close()
        while self.keeper is not None and self.keeper.poll() is None:
            if time.monotonic() > until:
                self.keeper.kill()
            await asyncio.sleep(TICK)
        return 0 if self.keeper is not None and self.keeper.returncode == 0 else 5


def source_of(settings: Settings) -> Any:
    """What asks the service of itself; gRPC needs a library that not all have."""
    is_openfga = settings.service == "openfga"
    if not settings.grpc:
        return OpenFgaOverHttp if is_openfga else HttpSource
    from new_enemy_tools.recording.grpc_asking import OpenFgaOverGrpc, SpiceDbOverGrpc
    return OpenFgaOverGrpc if is_openfga else SpiceDbOverGrpc


def service_of(settings: Settings) -> tuple[Service, Feed]:
    """What places the calls of a service, and what reads its changes."""
    source = source_of(settings)(settings.url, settings.key, settings.ca)
    if settings.service == "openfga":
        made = openfga.OpenFga(settings.store, int(settings.stale * 1e9), int(settings.hold * 1e9), int(settings.horizon * 1e9), settings.only,
                               settings.ignores)
        return made, OpenFgaFeed(settings, source)
    return spicedb.SpiceDb(settings.only), spicedb.Feed(source, settings.only)


def keep(descriptor: int) -> int:
    """The keeper's process, which ends when the proxy does; signals that end this one are held back from it."""
    settings = Settings(*json.loads(sys.stdin.buffer.read()))
    return Keeper(settings, *service_of(settings), socket.socket(fileno=descriptor)).run()


def main(arguments: list[str]) -> int:
    parser, given = words(arguments)
    if given.keep is not None:
        return keep(given.keep)
    if given.store is not None and not given.openfga:
        parser.error("--store goes with --openfga")
    if given.ignore_other_stores and given.store is None:
        parser.error("--ignore-other-stores goes with --store")
    if given.changes_only == (given.listen is not None):
        parser.error("give either --listen or --changes-only")
    if given.changes_only and (given.tls_cert or given.share_port):
        parser.error("--tls-cert and --share-port go with --listen")
    seconds = given.hold, given.poll, given.stale_by, given.file_seconds, given.horizon, given.overlap
    if not all(0 <= one < MANY_SECONDS for one in seconds) or given.file_bytes < 1:
        parser.error("a number is below 0, or a time is none below %d seconds" % MANY_SECONDS)
    if given.hold < 2 * given.horizon:
        parser.error("--hold has to be twice as long as --horizon, since each check waits for that")
    url = url_of(parser, given.openfga or given.spicedb)
    try:
        side = side_of(parser, given)
        key = None if given.key_file is None else key_in(given.key_file)
        if given.service_ca is not None:
            context_of(given.service_ca)
    except FileFault as fault:
        parser.error(str(fault))
    settings = Settings("openfga" if given.openfga else "spicedb", given.openfga or given.spicedb, given.out, given.store,
                        key, given.grpc, given.hold, given.poll, given.stale_by, given.file_bytes, given.file_seconds,
                        given.horizon, given.overlap, given.service_ca, given.compress, given.changes_only, given.ignore_other_stores)
    try:
        return asyncio.run(Proxy(settings, url, side).run())
    except OSError as fault:
        sys.stderr.write("record: cannot listen at %s: %s\n" % (given.listen, fault.strerror))
        return 5
