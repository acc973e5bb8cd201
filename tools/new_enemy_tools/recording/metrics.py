"""What a recorder says of itself: whether it records, and numbers in the text format of Prometheus, on an address of their own.

The keeper tells the proxy now and then how it stands; where it has said nothing for some time, it does not record.
"""
import asyncio
import json
import socket
from collections import Counter
from typing import Any, Callable, Iterator, Mapping, NamedTuple, Optional

# A keeper that has said nothing for so many seconds does not record.
SILENT = 5.0
# A request that takes longer is closed.
PATIENCE = 5.0
ROOM = 64 << 10
TYPE = "text/plain; version=0.0.4; charset=utf-8"
# A page names users: it is kept nowhere, and stands in no other page.
HTML = "text/html; charset=utf-8\r\nCache-Control: no-store\r\nX-Frame-Options: DENY\r\nReferrer-Policy: no-referrer"


class Status(NamedTuple):
    """How a keeper stands: how many entries it has recorded and lost, by cause, how many calls wait, how many seconds ago it read the
    changes, whether there is a gap now, and how many calls were of other stores."""

    recorded: int
    lost: dict[str, int]
    waiting: int
    lag: Optional[float]
    has_gap: bool
    elsewhere: int = 0


class StatusSender:
    """The keeper's side; what the proxy does not take is left out."""

    def __init__(self, end: socket.socket):
        self.end = end
        self.rest = b""

    def tell(self, status: Status) -> None:
        data = self.rest or json.dumps(status).encode() + b"\n"
        try:
            sent = self.end.send(data, socket.MSG_DONTWAIT)
        except OSError:
            sent = 0
        # A line that went out by half is ended before the next.
        self.rest = data[sent:] if self.rest or 0 < sent < len(data) else b""


class StatusReader:
    """The proxy's side."""

    def __init__(self) -> None:
        self.data = b""
        self.status: Optional[Status] = None
        self.at = 0.0

    def read(self, end: Optional[socket.socket], now: float) -> None:
        try:
            while end is not None and (found := end.recv(ROOM)):
                self.data += found
        except OSError:
            pass
        *lines, self.data = self.data.split(b"\n")
        try:
            if lines:
                self.status, self.at = Status(*json.loads(lines[-1])), now
        except (ValueError, TypeError):
            # Whatever a keeper says, it must not end the proxy.
            self.status = None

    def forget(self) -> None:
        """The keeper is gone."""
        self.data, self.status = b"", None

    def is_recording(self, now: float) -> bool:
        return self.status is not None and not self.status.has_gap and now - self.at < SILENT


class Seen(NamedTuple):
    """What the proxy has seen: the calls with an answer by their kinds, connections now, refused ones, and how often a keeper was started."""

    answered: Counter[str]
    connections: int
    refused: int
    starts: int


def _quoted(text: str) -> str:
    return text.replace("\\", "\\\\").replace('"', '\\"').replace("\n", "\\n")


def family(name: str, kind: str, told: str, samples: Mapping[Any, float], *labels: str) -> Iterator[str]:
    """The lines of a family of numbers; where there are several labels, a key has a text for each."""
    yield "# HELP %s %s\n# TYPE %s %s\n" % (name, told, name, kind)
    for key, value in sorted(samples.items()):
        named = zip(labels, (key,) if isinstance(key, str) else key)
        shown = ",".join('%s="%s"' % (label, _quoted(one)) for label, one in named)
        yield "%s%s %s\n" % (name, "{%s}" % shown if shown else "", format(value, ".15g"))


def exposition(reader: StatusReader, seen: Seen, now: float) -> str:
    """All numbers, as Prometheus reads them."""
    status = reader.status
    families: list[tuple[str, str, str, Mapping[str, float], str]] = [
                ("requests_total", "counter", "Calls that are recorded and had an answer.", dict(seen.answered), "call"),
                ("connections", "gauge", "Clients that are connected.", {"": seen.connections}, ""),
                ("connections_refused_total", "counter", "Connections that were refused for want of files.", {"": seen.refused}, ""),
                ("keeper_starts_total", "counter", "How often the keeper of the log was started.", {"": seen.starts}, ""),
                ("gap_open", "gauge", "1 where nothing is recorded now.", {"": not reader.is_recording(now)}, "")]
    if status is not None:
        families += [("recorded_total", "counter", "Decisions in the log, since this keeper began.", {"": status.recorded}, ""),
                     ("lost_total", "counter", "Decisions that are counted as lost, by their cause.", dict(status.lost), "cause"),
                     ("other_stores_total", "counter", "Checks of other stores, which are not recorded.", {"": status.elsewhere}, ""),
                     ("waiting", "gauge", "Calls that wait for the changes that they may have seen.", {"": status.waiting}, "")]
        if status.lag is not None:
            families.append(("feed_lag_seconds", "gauge", "Since when the service has not told of its changes.",
                             {"": status.lag + max(0.0, now - reader.at)}, ""))
    return "".join(line for name, kind, told, samples, label in families
                   for line in family("new_enemy_recorder_" + name, kind, told, samples, *filter(None, [label])))


class MetricsServer:
    """Answers GET of /health and /metrics, and of / where there is a page. `words` are said where it is well, and where it is not."""

    def __init__(self, is_well: Callable[[], bool], numbers: Callable[[], str],
                 words: tuple[str, str] = ("recording", "not recording; requests pass"), page: Optional[Callable[[], str]] = None):
        self.is_well, self.numbers, self.words, self.page = is_well, numbers, words, page
        self.server: Any = None

    async def serve(self, host: str, port: int) -> None:
        self.server = await asyncio.start_server(self._asked, host, port, limit=ROOM)

    def stop(self) -> None:
        self.server.close()

    async def _asked(self, reader: asyncio.StreamReader, writer: asyncio.StreamWriter) -> None:
        try:
            head = await asyncio.wait_for(reader.readuntil(b"\r\n\r\n"), PATIENCE)
            writer.write(self.answer(head.split(b"\r\n")[0].decode("latin-1")))
            await writer.drain()
        except (OSError, asyncio.TimeoutError, asyncio.IncompleteReadError, asyncio.LimitOverrunError):
            pass
        finally:
            writer.close()

    def answer(self, line: str) -> bytes:
        method, _, rest = line.partition(" ")
        path, kind = rest.partition(" ")[0].partition("?")[0], TYPE
        if method not in ("GET", "HEAD") or path not in ("/health", "/metrics") and (path != "/" or self.page is None):
            status, body = "404 Not Found", "there are %s/health and /metrics\n" % ("" if self.page is None else "/, ")
        elif path == "/metrics":
            status, body = "200 OK", self.numbers()
        elif path == "/" and self.page is not None:
            status, body, kind = "200 OK", self.page(), HTML
        else:
            is_well = self.is_well()
            status, body = "200 OK" if is_well else "503 Service Unavailable", self.words[not is_well] + "\n"
        head = "HTTP/1.1 %s\r\nContent-Type: %s\r\nContent-Length: %d\r\nConnection: close\r\n\r\n" % (status, kind, len(body.encode()))
        return (head + ("" if method == "HEAD" else body)).encode()
