"""What the proxy tells the keeper of the log, over a socket: the proxy never waits, and what has no room is counted as lost."""
import marshal
import socket
import struct
import time
from collections import Counter, deque
from itertools import islice
from typing import Any, Iterator, NamedTuple, Optional

SIZE = struct.Struct("<I")
# Calls that decide.
CHECKS = frozenset(("check", "batch", "list", "stream"))
WRITE = "write"
# Calls that are told when they are passed on.
TOLD = CHECKS | {WRITE}
# A call that may decide, of which the recorder does not know how, or which not all services read alike.
UNKNOWN = "unknown"
UNKNOWN_CALL = "a call that the recorder does not know, which was answered"
# Methods by which nobody asks for a decision.
QUIET = frozenset(("HEAD", "OPTIONS", "TRACE", "CONNECT"))
# What a message takes beside its bodies.
EACH = 500
# So many messages are written at once, and so many bytes read.
AT_ONCE, READ = 64, 1 << 16
# So many bytes may wait for the keeper.
ROOM = 64 << 20
# Of so many bytes of writes that had their answers it is remembered what they made.
WRITTEN = 16 << 20


class Started(NamedTuple):
    """A check, or a write, is passed on whole, by the clock of all processes; `save` where it is a check for content that is to be saved."""

    number: int
    clock: int
    save: bool
    call: str


class Ended(NamedTuple):
    """A call has its answer; without bodies where they were not kept, or where the answer broke off. `at` is the time of that, `begun`
    that of the request, and `clock` that of the answer by the clock of all processes."""

    number: int
    call: str
    path: str
    begun: int
    at: int
    clock: int
    save: Optional[str]
    version: Optional[str]
    token: Optional[str]
    status: int
    request: Optional[bytes]
    response: Optional[bytes]
    encoding: Optional[str]
    # why what the application says with the call can't be used
    strange: Optional[str] = None

    def without_bodies(self) -> "Ended":
        """What is kept of one that waits, of which they were read."""
        return Ended(*self[:10], None, None, *self[12:])


class Lost(NamedTuple):
    """From when to when something was not told, how much of it and why."""

    start: int
    end: int
    amount: int
    reason: str


class Beat(NamedTuple):
    """All that happened before has been told."""

    clock: int


class Bye(NamedTuple):
    """The proxy ends as it should."""

    at: int


class Key(NamedTuple):
    """The key by which the changes are read from now on."""

    text: str


KINDS = (Started, Ended, Lost, Beat, Bye, Key)
NUMBERS = {kind: number for number, kind in enumerate(KINDS)}


def packed(message: tuple[Any, ...]) -> bytes:
    data = marshal.dumps((NUMBERS[type(message)], *message))
    return SIZE.pack(len(data)) + data


def _size(message: Ended) -> int:
    return EACH + len(message.request or b"") + len(message.response or b"")


class Writes:
    """The last writes that had their answers."""

    def __init__(self) -> None:
        self.kept: deque[Ended] = deque()
        self.size = 0

    def keep(self, message: Ended) -> None:
        if message.call == WRITE and 200 <= message.status < 300:
            self.kept.append(message)
            self.size += _size(message)
        while self.size > WRITTEN:
            self.size -= _size(self.kept.popleft())


class Teller:
    """The proxy's side. It writes what the socket takes at once, or where it gathers when it is asked to, and keeps the rest for `flush`.

    What a write made may rest on nothing but its answer. So each keeper is told of the last writes when it begins, and knows which of them its log
    has; and those of which one could not be told are told it when there is room."""

    def __init__(self, end: Optional[socket.socket]):
        self.end, self.gathers = end, False
        self.writes, self.untold = Writes(), Writes()
        self.waiting: deque[bytes] = deque()
        self.size = 0
        self.lost: Optional[Lost] = None
        # the calls that had an answer, by their kinds
        self.answered: Counter[str] = Counter()

    def tell(self, message: tuple[Any, ...]) -> None:
        if isinstance(message, Ended):
            self.answered[message.call] += 1
            self.writes.keep(message)
        if not self._put(message):
            if isinstance(message, Ended):
                self.untold.keep(message)
            self.lose("the keeper of the log does not keep up" if self.end is not None else "the keeper of the log was gone")
        if not self.gathers:
            self.flush()

    def has_told(self) -> bool:
        """Whether nothing is still to be told."""
        return self.flush() and self.lost is None

    def catch_up(self) -> None:
        """Tells what was lost and what waits, where there is room again, and that nothing else happened."""
        self._put(Beat(time.monotonic_ns()))
        self.flush()

    def lose(self, reason: str) -> None:
        """Counts something that is not told."""
        now = time.time_ns()
        before = self.lost
        self.lost = Lost(now if before is None else before.start, now, 1 if before is None else before.amount + 1, reason)

    def _put(self, message: tuple[Any, ...]) -> bool:
        """Keeps what is to be told, behind what was lost; False where there is no room."""
        if self.end is None or self.size >= ROOM:
            return False
        self._put_lost()
        self._keep(message)
        return True

    def _put_lost(self) -> None:
        if self.lost is not None and self.end is not None and self.size < ROOM:
            lost, self.lost = self.lost, None
            self._keep(lost)
        if self.end is not None and self.size < ROOM:
            untold, self.untold = self.untold, Writes()
            for one in untold.kept:
                self._keep(one)

    def begin(self, end: socket.socket) -> None:
        """A keeper begins."""
        self.end, self.untold = end, Writes()
        for one in self.writes.kept:
            self._keep(one)

    def _keep(self, message: tuple[Any, ...]) -> None:
        self.waiting.append(packed(message))
        self.size += len(self.waiting[-1])

    def flush(self) -> bool:
        """Writes what the socket takes, also what was lost; whether nothing waits."""
        self._put_lost()
        while self.waiting and self.end is not None:
            try:
                sent = self.end.send(b"".join(islice(self.waiting, AT_ONCE)))
            except BlockingIOError:
                return False
            except OSError:
                self.forget()
                return True
            self.size -= sent
            while sent:
                first = self.waiting.popleft()
                if sent < len(first):
                    self.waiting.appendleft(first[sent:])
                sent = max(0, sent - len(first))
        return True

    def forget(self) -> None:
        """The keeper is gone, and with it what waited."""
        if self.end is not None:
            self.end.close()
        count = len(self.waiting)
        self.end, self.size = None, 0
        self.waiting.clear()
        for _ in range(max(1, count)):
            self.lose("the keeper of the log was gone")


def messages_from(end: socket.socket) -> Iterator[list[tuple[Any, ...]]]:
    """What the other side tells, together what came at once, until it is gone."""
    data = bytearray()
    while True:
        try:
            came = end.recv(READ)
        except OSError:
            # The other side is gone in the midst of what was told it.
            return
        if not came:
            return
        data += came
        found, at = list[tuple[Any, ...]](), 0
        while len(data) >= at + SIZE.size and len(data) >= (behind := at + SIZE.size + SIZE.unpack_from(data, at)[0]):
            kind, *values = marshal.loads(data[at + SIZE.size:behind])
            found.append(KINDS[kind](*values))
            at = behind
        del data[:at]
        if found:
            yield found
