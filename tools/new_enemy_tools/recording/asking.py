"""The recorder's own requests to a service, over HTTP."""
import http.client
import json
import socket
from typing import Any, Iterator, Optional
from urllib.parse import SplitResult, urlsplit

from new_enemy_tools.recording.secured import context_of

TIMEOUT = 30.0
READ = 64 << 10


class FeedFault(Exception):
    """Why the changes can't be read; `for_good` where trying again does not help."""

    def __init__(self, reason: str, for_good: bool = False):
        super().__init__(reason)
        self.for_good = for_good


class Asker:
    """Asks one service; the key goes into the header that services read, and nowhere else."""

    def __init__(self, url: str, key: Optional[str], ca: Optional[str] = None):
        self.url: SplitResult = urlsplit(url)
        self.headers = {"Content-Type": "application/json"}
        if key:
            self.use_key(key)
        self.context = context_of(ca) if self.url.scheme == "https" else None
        self.connection: Optional[http.client.HTTPConnection] = None

    def _connected(self, timeout: float) -> http.client.HTTPConnection:
        host = self.url.hostname or ""
        if self.url.scheme == "https":
            return http.client.HTTPSConnection(host, self.url.port, timeout=timeout, context=self.context)
        return http.client.HTTPConnection(host, self.url.port, timeout=timeout)

    def use_key(self, key: str) -> None:
        self.headers = {**self.headers, "Authorization": "Bearer " + key}

    def ask(self, method: str, path: str, body: Any = None) -> Any:
        """The JSON of an answer; raises FeedFault."""
        return json.loads(self.raw(method, path, body))

    def raw(self, method: str, path: str, body: Any = None) -> bytes:
        for is_again in (False, True):
            is_new = self.connection is None
            try:
                self.connection = self.connection or self._connected(TIMEOUT)
                self.connection.request(method, self.url.path.rstrip("/") + path, None if body is None else json.dumps(body), self.headers)
                answer = self.connection.getresponse()
                data = answer.read()
                break
            except (OSError, http.client.HTTPException) as fault:
                self.close()
                # A connection that was kept may have been closed meanwhile.
                if is_new or is_again:
                    raise FeedFault("the service can't be asked: %s" % (str(fault) or type(fault).__name__)) from None
        _refuse_failed(path, answer.status, data)
        return data

    def stream(self, path: str, body: Any, timeout: float, has_end: bool) -> Iterator[Any]:
        """The JSON values of an answer that comes line by line; raises FeedFault. One that has no end of its own may rest for long."""
        connection = self._connected(timeout)
        try:
            connection.request("POST", self.url.path.rstrip("/") + path, json.dumps(body), self.headers)
            answer = connection.getresponse()
            if answer.status >= 400:
                _refuse_failed(path, answer.status, answer.read())
            yield from map(json.loads, filter(bytes.strip, _lines(answer)))
            if has_end and not answer.chunked and answer.length != 0:
                raise OSError("it may have been cut")
        except (OSError, http.client.HTTPException) as fault:
            if not has_end and isinstance(fault, (socket.timeout, http.client.IncompleteRead)):
                return
            raise FeedFault("%s ends: %s" % (path, str(fault) or type(fault).__name__)) from None
        finally:
            connection.close()

    def close(self) -> None:
        if self.connection is not None:
            self.connection.close()
            self.connection = None


def _lines(answer: http.client.HTTPResponse) -> Iterator[bytes]:
    """The lines of an answer, as they come. `readline` takes one that was cut between two chunks for whole."""
    data = b""
    while piece := answer.read1(READ):
        *lines, data = (data + piece).split(b"\n")
        yield from lines
    yield data


def _refuse_failed(path: str, status: int, data: bytes) -> None:
    if status >= 400:
        try:
            why = json.loads(data).get("message", "")
        except (ValueError, AttributeError):
            why = ""
        hint = "; give a key that may read by --key-file" if status in (401, 403) else ""
        raise FeedFault("%s is answered by %d %s%s" % (path, status, str(why)[:200], hint))
