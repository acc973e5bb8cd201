"""The proxy over gRPC: passes the messages, metadata and status of each call through unchanged, and keeps those that are recorded."""
import asyncio
import errno
import itertools
import sys
import time
from typing import Any, AsyncIterator, Optional
from urllib.parse import SplitResult

from new_enemy_tools.recording.grpc_calls import CALLS, GRPC, Call, joined, may_decide
from new_enemy_tools.recording.http_reading import BODY
from new_enemy_tools.recording.messages import TOLD, UNKNOWN_CALL, Ended, Started, Teller
from new_enemy_tools.recording.secured import Certificate, roots_in

try:
    import grpc  # type: ignore[import]
    import grpc.aio  # type: ignore[import]
except ImportError:
    sys.stderr.write("record: --grpc needs grpcio, in Debian the package python3-grpcio, for this Python (%s)\n" % sys.executable)
    sys.exit(3)

NUMBERS = itertools.count(1)
# What gRPC's libraries in Go let pass, as a long token of a user; by itself this one refuses more than 8 KB.
METADATA = 16 << 20
OPTIONS = [("grpc.max_receive_message_length", -1), ("grpc.max_send_message_length", -1), ("grpc.max_metadata_size", METADATA),
           ("grpc.absolute_max_metadata_size", METADATA), ("grpc.http2.max_ping_strikes", 0)]
LAST = 3.0
LABELS = ("x-content-save", "x-content-version", "x-content-token")
# What gRPC itself says of a connection, and says anew on the next.
OWN = frozenset(("user-agent", "content-type", "te", "accept-encoding"))


def channel_of(library: Any, url: SplitResult, ca: Optional[str]) -> Any:
    """A channel to the service, by the one or the other of gRPC's two libraries."""
    if url.scheme == "https":
        return library.secure_channel("%s:%d" % (url.hostname, url.port or 443), grpc.ssl_channel_credentials(roots_in(ca)), OPTIONS)
    return library.insecure_channel("%s:%d" % (url.hostname, url.port or 50051), OPTIONS)


def shown_by(certificate: Certificate) -> Any:
    """What each new connection is shown: the certificate as it was read last."""
    def newest() -> Any:
        return grpc.ssl_server_certificate_configuration([certificate.pair])
    return grpc.dynamic_ssl_server_credentials(newest(), newest)


class Kept:
    """What is kept of a call that is recorded."""

    def __init__(self, method: str, call: Call, metadata: list[tuple[str, Any]]):
        self.method, self.call, self.metadata = method, call, dict(metadata)
        self.number, self.begun = next(NUMBERS), time.time_ns()
        self.is_told = False
        named = [name for name, _ in metadata if name in LABELS]
        self.strange = next(("%s stands twice" % name.title() for name in LABELS if named.count(name) > 1), None)
        self.requests: list[bytes] = []
        self.responses: list[bytes] = []
        self.size = 0

    def take(self, side: list[bytes], data: bytes) -> None:
        self.size += len(data)
        if self.size <= BODY:
            side.append(data)

    def started(self) -> Started:
        """The call is passed on: its message has come whole."""
        self.is_told, self.begun = True, time.time_ns()
        return Started(self.number, time.monotonic_ns(), self._text("x-content-save") is not None, self.call.kind)

    def _text(self, name: str) -> Optional[str]:
        value = self.metadata.get(name)
        return value if isinstance(value, str) else None

    def ended(self, is_good: bool) -> Ended:
        save, version, token = (self._text("x-content-" + name) for name in ("save", "version", "token"))
        # Of an answer that broke off the client has a part.
        status = 200 if is_good or self.responses else 0
        bodies = (joined(self.requests), joined(self.responses)) if is_good and self.size <= BODY else (None, None)
        return Ended(self.number, self.call.kind, self.method, self.begun, time.time_ns(), time.monotonic_ns(), save, version, token,
                     status, *bodies, GRPC, self.strange)


class Handler(grpc.GenericRpcHandler):  # type: ignore[misc]
    def __init__(self, relay: "GrpcRelay"):
        self.relay = relay

    def service(self, details: Any) -> Any:
        """On the wire every call is a stream of messages each way."""
        async def pass_on(requests: AsyncIterator[bytes], context: Any) -> None:
            await self.relay.pass_on(details.method, requests, context)
        return grpc.stream_stream_rpc_method_handler(pass_on)


class GrpcRelay:
    def __init__(self, url: SplitResult, teller: Teller, ca: Optional[str] = None):
        self.url, self.teller, self.ca = url, teller, ca
        self.under_way = self.refused = 0
        self.server: Any = None
        self.channel: Any = None
        self.stopping: Optional[asyncio.Future[Any]] = None

    async def serve(self, host: str, port: int, certificate: Optional[Certificate]) -> None:
        self.channel = channel_of(grpc.aio, self.url, self.ca)
        self.server = grpc.aio.server(handlers=(Handler(self),), options=[*OPTIONS, ("grpc.so_reuseport", 0)])
        address = "%s:%d" % ("[%s]" % host if ":" in host else host, port)
        try:
            found = self.server.add_insecure_port(address) if certificate is None else self.server.add_secure_port(address, shown_by(certificate))
        except RuntimeError:
            found = 0
        if not found:
            raise OSError(errno.EADDRNOTAVAIL, "the address is in use, or none of this machine")
        await self.server.start()

    def stop(self) -> None:
        """Takes no more calls; those under way go on for a little."""
        self.stopping = asyncio.ensure_future(self.server.stop(LAST))

    async def close(self) -> None:
        await self.server.stop(0)
        await self.channel.close()

    def connections(self) -> int:
        """Over gRPC a connection is not seen, and calls under way are."""
        return self.under_way

    def is_busy(self) -> bool:
        return self.under_way > 0

    async def pass_on(self, method: str, requests: AsyncIterator[bytes], context: Any) -> None:
        metadata = [(key, value) for key, value in context.invocation_metadata() or () if key not in OWN and not key.startswith("grpc-")]
        call = CALLS.get(method)
        kept = None if call is None else Kept(method, call, metadata)
        self.under_way += 1
        is_good = is_cut = False
        try:
            is_good = await self._passed(method, requests, context, metadata, kept)
        except BaseException:
            # What the end of the recorder cut off is told no more, so that the keeper counts it.
            is_cut = self.stopping is not None
            raise
        finally:
            self.under_way -= 1
            if kept is not None and not is_cut and (is_good or kept.is_told):
                self.teller.tell(kept.ended(is_good))
            elif kept is None and is_good and may_decide(method):
                self.teller.lose(UNKNOWN_CALL)

    async def _passed(self, method: str, requests: AsyncIterator[bytes], context: Any, metadata: list[Any], kept: Optional[Kept]) -> bool:
        """Whether the call ended well."""
        async def read_along() -> AsyncIterator[bytes]:
            async for data in requests:
                if kept is not None:
                    kept.take(kept.requests, data)
                    if kept.call.kind in TOLD and not kept.is_told:
                        self.teller.tell(kept.started())
                yield data
        call = self.channel.stream_stream(method)(read_along(), metadata=metadata, timeout=context.time_remaining())
        try:
            await context.send_initial_metadata(await call.initial_metadata())
            async for data in call:
                if kept is not None:
                    kept.take(kept.responses, data)
                await context.write(data)
        except grpc.aio.AioRpcError:
            pass
        finally:
            if not call.done():
                call.cancel()
        code, details, trailing = await call.code(), await call.details(), await call.trailing_metadata()
        context.set_trailing_metadata(trailing or ())
        context.set_details(details or "")
        context.set_code(code)
        return bool(code == grpc.StatusCode.OK)
