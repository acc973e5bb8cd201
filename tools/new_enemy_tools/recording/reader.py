"""Reads along with both sides of a connection, and says what goes on to the service when.

A check begins when it is passed on. So it goes on whole, and not before all requests ahead of it have their answers: no service can have
begun with it earlier.
"""
import itertools
import time
from collections import deque
from typing import Callable, Optional

from new_enemy_tools.recording.http_reading import Head, Messages, Strange, path_of
from new_enemy_tools.recording.messages import CHECKS, TOLD, UNKNOWN, UNKNOWN_CALL, WRITE, Ended, Started, Teller

NUMBERS = itertools.count(1)
Call = Callable[[str, str], Optional[str]]
# What counts as the status of an answer that may have been given, and can't be read along.
UNREAD = 200
# A longer request of a check goes on in pieces, and is a gap.
HELD, LONG = 1 << 20, "a request of more than %d bytes, which went on in pieces"
LABELS = {name: "x-content-" + name for name in ("save", "version", "token")}


class Exchange:
    """A request on its way, and what is kept of it where its call is recorded."""

    def __init__(self, call: Optional[str], head: Head, path: str):
        self.call, self.path, self.method = call, path, head.words[0]
        self.number, self.begun = next(NUMBERS), time.time_ns()
        # what is still to be passed on of it; whether all of it came, some was passed on, it was told, and it has its answer
        self.held = bytearray()
        self.is_whole = self.is_passed = self.is_told = self.is_answered = False
        # whether the service says first whether it wants the body
        self.waits = "expect" in head.values
        self.strange: Optional[str] = None
        self.save, self.version, self.token = (self._label(head, name) if name in head.values else None for name in LABELS.values())
        self.request: Optional[bytes] = None
        self.status = 0
        self.encoding: Optional[str] = None

    def _label(self, head: Head, name: str) -> str:
        """What the application says, which is UTF-8."""
        value = head.values[name]
        if name in head.twice:
            self.strange = "%s stands twice" % name.title()
        try:
            return value.decode("utf-8")
        except UnicodeDecodeError:
            self.strange = "%s is no UTF-8" % name.title()
            return value.decode("utf-8", "replace")

    def started(self) -> Started:
        self.is_told, self.begun = True, time.time_ns()
        return Started(self.number, time.monotonic_ns(), self.save is not None, self.call or "")

    def ended(self, body: Optional[bytes]) -> Ended:
        return Ended(self.number, self.call or "", self.path, self.begun, time.time_ns(), time.monotonic_ns(), self.save, self.version,
                     self.token, self.status, self.request, body, self.encoding, self.strange)


class Reader:
    """Tells the keeper of the calls that are recorded; `passing` gives what goes on to the service."""

    def __init__(self, teller: Teller, call_of: Call):
        self.teller, self.call_of = teller, call_of
        # those without an answer, and those of which something is still to be passed on
        self.exchanges: deque[Exchange] = deque()
        self.coming: deque[Exchange] = deque()
        # how many writes are among those without an answer
        self.writing = 0
        # how many bytes are held of these
        self.held = 0
        self.asked: Optional[Exchange] = None
        self.requests = Messages(self._request, self._request_body, self._hold, lambda: HELD)
        self.answers = Messages(self._answer, self._answer_body)
        # what is passed on, whatever it is
        self.free = bytearray()
        # why the connection can't be read along any more
        self.blind: Optional[str] = None
        self.is_over = False

    def feed(self, side: Messages, data: bytes) -> None:
        if self.is_over or self.blind is not None:
            if side is self.requests:
                self.free += data
                if not self.is_over and self.blind is not None:
                    # Each piece may be a request.
                    self.teller.lose(self.blind)
            return
        try:
            side.feed(data)
        except Exception as fault:
            # Whatever it is, it must not touch the request.
            self.blind = "a connection can't be read along: %s" % (fault if isinstance(fault, Strange) else type(fault).__name__)
            self.teller.lose(self.blind)
            for exchange in self.exchanges:
                exchange.status = UNREAD
            self._let_pass()
            self._give_up()

    # What goes on

    def _hold(self, data: bytes) -> None:
        if self.asked is None:
            self.free += data
        else:
            self.asked.held += data
            self.held += len(data)

    def is_writing(self) -> bool:
        """Whether a write has no answer yet."""
        return self.writing > 0

    def waits(self) -> int:
        """How many bytes are held."""
        return len(self.requests.data) + self.held

    def passing(self) -> bytes:
        """What goes on to the service now."""
        found, self.free = self.free, bytearray()
        while self.coming:
            first = self.coming[0]
            if not first.is_answered and self.exchanges and self.exchanges[0] is not first:
                break
            found += self._part_of(first)
            if not first.is_whole or first.held:
                break
            self.coming.popleft()
        return bytes(found)

    def _part_of(self, one: Exchange) -> bytes:
        """What of a request goes on when its turn has come: of a check all at once."""
        if one.call in TOLD and not one.is_told and not one.is_whole:
            if one.waits:
                # The body comes when the service has asked for it.
                one.waits = False
                at = one.held.index(b"\r\n\r\n") + 4
                found = bytes(one.held[:at])
                del one.held[:at]
                one.is_passed = True
                self.held -= at
                return found
            if len(one.held) <= HELD:
                return b""
            one.strange = LONG % HELD
        self._tell(one)
        one.is_passed = True
        found, one.held = bytes(one.held), bytearray()
        self.held -= len(found)
        return found

    def _tell(self, one: Exchange) -> None:
        """Of what goes on when no answer comes any more nothing is told."""
        if one.call in TOLD and not one.is_told and not one.is_answered and not self.is_over:
            self.teller.tell(one.started())

    def _let_pass(self) -> None:
        """All that is held goes on, as it came; of a check that does not go on as others do it is not known when it began."""
        for one in self.coming:
            has_turn = not self.exchanges or self.exchanges[0] is one
            if one.call in TOLD and not one.is_told and not (one.is_whole and has_turn):
                one.strange = one.strange or ("a request before whose turn its client ended" if one.is_whole else "a request that broke off")
            self._tell(one)
            one.is_passed = True
            self.free += one.held
            one.held = bytearray()
        self.coming.clear()
        self.held = 0
        self.free += self.requests.data
        self.requests.data = b""

    # The ends

    def leave(self) -> None:
        """The recorder ends. What has no answer yet is told no more, so that the keeper counts it."""
        self.is_over = True
        self.exchanges.clear()
        self.writing = 0

    def end_requests(self) -> None:
        """The client has ended its side: no more of a request comes, and the service is to see that end."""
        if not self.is_over and self.blind is None:
            self._let_pass()

    def end(self) -> None:
        """The service has ended its side of the connection, or one side is gone: no more answers come."""
        if not self.is_over:
            self.is_over = True
            if self.blind is None:
                self._feed_end()
            self._give_up()
            self._let_pass()

    def _give_up(self) -> None:
        """No answer will be read of what was asked; one that had begun broke off."""
        for exchange in self.exchanges:
            self._tell_end(exchange, None)
        self.exchanges.clear()
        self.writing = 0

    def _feed_end(self) -> None:
        try:
            self.answers.end()
        except Exception:
            self.teller.lose("a connection can't be read along at its end")

    # Messages

    def _request(self, head: Head) -> Optional[int]:
        if not head.is_request:
            raise Strange("a request that is no HTTP/1.1")
        path = path_of(head.words[1])
        exchange = Exchange(self.call_of(head.words[0], path), head, path)
        length = head.length() or 0
        self.requests.is_wanted = exchange.call in TOLD
        self.exchanges.append(exchange)
        self.writing += exchange.call == WRITE
        self.coming.append(exchange)
        self.asked = exchange
        return length

    def _request_body(self, body: Optional[bytes]) -> None:
        if self.asked is not None:
            self.asked.is_whole = True
            if self.asked.call in TOLD:
                self.asked.request = body
                if body is None:
                    self.asked.strange = self.asked.strange or LONG % HELD
        self.asked = None

    def _answer(self, head: Head) -> Optional[int]:
        status = head.words[1]
        if len(status) != 3 or not status.isdigit():
            raise Strange("an answer without a status")
        if not self.exchanges or not self.exchanges[0].is_passed:
            raise Strange("an answer without a request")
        exchange = self.exchanges[0]
        if status == "101" or exchange.method == "CONNECT" and status.startswith("2"):
            raise Strange("another protocol")
        exchange.status, exchange.encoding = int(status), head.text("content-encoding")
        self.answers.is_wanted = exchange.call in TOLD
        if exchange.method == "HEAD" or status.startswith("1") or status in ("204", "304"):
            return 0
        return head.length()

    def _answer_body(self, body: Optional[bytes]) -> None:
        if 100 <= self.exchanges[0].status < 200:
            return
        exchange = self.exchanges.popleft()
        self.writing -= exchange.call == WRITE
        exchange.is_answered = True
        self._tell_end(exchange, body)

    def _tell_end(self, exchange: Exchange, body: Optional[bytes]) -> None:
        """An answer, or that it broke off."""
        if exchange.is_told:
            self.teller.tell(exchange.ended(body))
        elif 200 <= exchange.status < 300 and exchange.call == UNKNOWN:
            self.teller.lose(UNKNOWN_CALL)
        elif 200 <= exchange.status < 300 and exchange.call in CHECKS:
            self.teller.lose("an answer that came before its request had been passed on")
