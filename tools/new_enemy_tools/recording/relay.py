"""The proxy: passes the bytes of each connection through unchanged, and reads along."""
import asyncio
import errno
import ssl
import sys
import time
from typing import Any, Optional
from urllib.parse import SplitResult

from new_enemy_tools.recording.messages import Teller
from new_enemy_tools.recording.reader import Call, Reader
from new_enemy_tools.recording.secured import context_of

# A client is read no further while so much of what it sent can't go on.
ROOM = 2 << 20
# What has come is read into this, by one connection after the other: a place of its own for each reading costs more than the reading.
COMING = memoryview(bytearray(64 << 10))
# Of a connection whose bytes take longer to read, in seconds of the processor, less is taken at once, so that others have their turn; at
# least so much.
LONG, LEAST = 0.004, 8 << 10


class Side(asyncio.BufferedProtocol):
    """One end of a connection; what comes goes to the other end."""

    def __init__(self, relay: "Relay", reader: Reader, is_client: bool):
        self.relay, self.reader, self.is_client = relay, reader, is_client
        self.transport: Any = None
        self.other: Optional["Side"] = None
        self.has_ended = False
        # how much is taken at once
        self.at_once = len(COMING)
        # whether too much is held of what it sent, and whether the other end takes no more
        self.is_full = self.is_stopped = False

    def connection_made(self, transport: Any) -> None:
        self.transport = transport

    def get_buffer(self, sizehint: int) -> memoryview:
        return COMING[:self.at_once]

    def buffer_updated(self, nbytes: int) -> None:
        if nbytes < LEAST:
            self.take(bytes(COMING[:nbytes]))
            return
        began = time.thread_time()
        self.take(bytes(COMING[:nbytes]))
        took = time.thread_time() - began
        if took > LONG:
            self.at_once = max(LEAST, self.at_once // 4)
        elif took < LONG / 8 and self.at_once < len(COMING):
            self.at_once *= 2

    def take(self, data: bytes) -> None:
        assert self.other is not None
        if self.is_client:
            self.reader.feed(self.reader.requests, data)
            self.pass_on(self, self.other)
        else:
            if self.reader.is_writing():
                # What rests on the answer of a write may be asked as soon as that is passed on: it is told before.
                self.reader.feed(self.reader.answers, data)
                self.relay.teller.flush()
                self.other.transport.write(data)
            else:
                self.other.transport.write(data)
                self.reader.feed(self.reader.answers, data)
            self.pass_on(self.other, self)

    def pass_on(self, client: "Side", service: "Side") -> None:
        """Passes on what may go on to the service, and what was told."""
        reader = self.reader
        self.relay.put(service.transport, reader.passing() if reader.coming or reader.free else b"")
        is_full = reader.waits() > ROOM
        if is_full != client.is_full:
            client.is_full = is_full
            client.read_or_pause()

    def read_or_pause(self) -> None:
        if self.is_full or self.is_stopped:
            self.transport.pause_reading()
        else:
            self.transport.resume_reading()

    def eof_received(self) -> bool:
        """Whether the connection stays open for what comes from the other end."""
        self.has_ended = True
        if self.is_client:
            self.reader.end_requests()
            if self.other is not None:
                self.pass_on(self, self.other)
        else:
            self.reader.end()
        if self.other is None or self.other.has_ended or not self.other.transport.can_write_eof():
            return False
        self.relay.go_on()
        self.other.transport.write_eof()
        return True

    def connection_lost(self, fault: Optional[Exception]) -> None:
        self.reader.end()
        self.relay.go_on()
        if self.other is not None:
            self.other.transport.close()

    def pause_writing(self) -> None:
        if self.other is not None:
            self.other.is_stopped = True
            self.other.read_or_pause()

    def resume_writing(self) -> None:
        if self.other is not None:
            self.other.is_stopped = False
            self.other.read_or_pause()


class Relay:
    """`most` is how many clients there may be at once; more are refused."""

    def __init__(self, url: SplitResult, teller: Teller, call_of: Call, most: int = 1 << 30, ca: Optional[str] = None):
        self.most, self.refused = most, 0
        self.host, self.secure = url.hostname or "", url.scheme == "https"
        self.port = url.port or (443 if self.secure else 80)
        self.teller, self.call_of = teller, call_of
        self.context = context_of(ca) if self.secure else None
        self.server: Any = None
        self.is_over = False
        # what goes on to the service when what was told of it has been written
        self.going: list[tuple[Any, bytes]] = []
        self.is_due = False
        teller.gathers = True
        self.tasks: set[asyncio.Task[Any]] = set()
        self.open: set[Client] = set()

    def put(self, transport: Any, data: bytes) -> None:
        """Takes what goes on to the service, together with all else that comes at once."""
        if data:
            self.going.append((transport, data))
        if not self.is_due:
            self.is_due = True
            asyncio.get_running_loop().call_soon(self.go_on)

    def go_on(self) -> None:
        """The beginning of a check has been told before the service can answer it."""
        self.is_due = False
        self.teller.flush()
        going, self.going = self.going, []
        for transport, data in going:
            transport.write(data)

    def is_busy(self) -> bool:
        """Whether some request has no answer yet."""
        return any(client.reader.exchanges for client in self.open)

    def connections(self) -> int:
        return len(self.open)

    def client(self) -> "Client":
        return Client(self)

    async def serve(self, host: str, port: int, shown: Optional[ssl.SSLContext] = None, is_shared: bool = False) -> None:
        """Listens, with TLS where something is shown to clients; other processes may listen at the port too where it is shared."""
        self.server = await asyncio.get_running_loop().create_server(self.client, host, port, backlog=1024, ssl=shown, reuse_port=is_shared)

    def stop(self) -> None:
        """Takes no more connections, nor those that have come and were not begun: their answers would be told to nobody."""
        self.is_over = True
        self.server.close()

    async def close(self) -> None:
        for client in list(self.open):
            client.reader.leave()
            client.transport.close()

    def refuse(self, transport: Any, why: str) -> None:
        """There are as many clients as there may be files, or no more files."""
        transport.abort()
        self.refused += 1
        self.teller.lose("a connection was refused, since " + why)
        self.put(transport, b"")
        if self.refused & (self.refused - 1) == 0:
            sys.stderr.write("record: connections refused: %d; this process may have too few files open (ulimit -n)\n" % self.refused)

    async def connect(self, client: "Client") -> None:
        """Opens the connection to the service; where that fails, the client's is closed, as the service would refuse it."""
        service = Side(self, client.reader, False)
        service.other = client
        try:
            await asyncio.get_running_loop().create_connection(
                lambda: service, self.host, self.port, ssl=self.context, server_hostname=self.host if self.secure else None)
        except OSError as fault:
            if fault.errno in (errno.EMFILE, errno.ENFILE):
                self.refuse(client.transport, "no more files could be opened")
            else:
                client.transport.abort()
            return
        client.begin(service)


class Client(Side):
    """The end of a client, whose bytes wait until the service is there."""

    def __init__(self, relay: Relay):
        super().__init__(relay, Reader(relay.teller, relay.call_of), True)
        self.early = bytearray()

    def begin(self, service: Side) -> None:
        """The service is there, and gets what has come."""
        self.other = service
        if self.transport.is_closing():
            service.transport.close()
            return
        if self.early:
            self.take(bytes(self.early))
        if self.has_ended:
            self.eof_received()
        self.read_or_pause()

    def take(self, data: bytes) -> None:
        if self.other is None:
            # Before Python 3.11 something may come although reading is paused from the beginning.
            self.early += data
        else:
            super().take(data)

    def eof_received(self) -> bool:
        if self.other is None:
            self.has_ended = True
            return True
        return super().eof_received()

    def connection_made(self, transport: Any) -> None:
        super().connection_made(transport)
        if self.relay.is_over:
            transport.abort()
            return
        if len(self.relay.open) >= self.relay.most:
            self.relay.refuse(transport, "there were %d" % self.relay.most)
            return
        transport.pause_reading()
        self.relay.open.add(self)
        task = asyncio.get_running_loop().create_task(self.relay.connect(self))
        self.relay.tasks.add(task)
        task.add_done_callback(self.relay.tasks.discard)

    def connection_lost(self, fault: Optional[Exception]) -> None:
        super().connection_lost(fault)
        self.relay.open.discard(self)
