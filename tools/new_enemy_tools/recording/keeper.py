"""The keeper of the log: a process beside the proxy, with the devices around `core.py`: the clock, the files, and the proxy and the
service, each read by a thread.

All that comes stands in one queue, in the order in which it came. A keeper that fails harms no request.
"""
import queue
import socket
import sys
import threading
import time
from typing import Any, Callable, NamedTuple, Optional, Protocol

from new_enemy_tools.recording.asking import FeedFault
from new_enemy_tools.recording.core import NOISE, Core, Faulty, Now, Service
from new_enemy_tools.recording.beside import Beside, Words
from new_enemy_tools.recording.log_files import InUse, Left, LogFault, LogFiles
from new_enemy_tools.recording.messages import KINDS, Bye, Ended, Key, messages_from
from new_enemy_tools.recording.metrics import Status, StatusSender
from new_enemy_tools.shown import tell

# Of so many messages, or of so many bytes in them, more are not taken in; the proxy and the service wait, or count what is lost.
MESSAGES = 20_000
ROOM = 64 << 20
EACH = ROOM // MESSAGES
TICK = 0.2
UNWRITTEN = "the log could not be written; what came later was kept as long as there was room"
BESIDE = "another recorder passed them, and ended while it waited for this folder"
# So long the end waits for changes that entries need.
LAST = 5.0


class Settings(NamedTuple):
    """How a keeper works: where the service and the log are, and how long what, in seconds."""

    service: str
    url: str
    folder: str
    store: Optional[str]
    key: Optional[str]
    grpc: bool
    hold: float
    poll: float
    stale: float
    size: int
    age: float
    horizon: float = 0.0
    overlap: float = 2.0
    ca: Optional[str] = None
    packs: bool = False
    only: bool = False
    ignores: bool = False
    # the word that the proxy keeps as long as no keeper has the folder; and since when its requests passed without one that knows of them
    word: Optional[str] = None
    since: Optional[int] = None


class Feed(Protocol):
    """What reads the changes of a service."""

    def run(self, left: Optional[Left], put: Callable[[Any], None]) -> None:
        """Reads the changes, in a thread of its own, and puts what it reads into the queue; raises FeedFault where it can't."""

    def use_key(self, key: str) -> None:
        """Takes another key for what is asked from now on."""


def _weight(messages: list[Any]) -> int:
    """How much room messages take, with the requests and answers that they keep."""
    return sum(EACH + len(one.request or b"") + len(one.response or b"") if isinstance(one, Ended) else EACH for one in messages)


class Keeper:
    def __init__(self, settings: Settings, service: Service, feed: Feed, end: socket.socket):
        self.settings, self.feed, self.end = settings, feed, end
        self.core = Core(service, settings.hold)
        # messages that came at once, and how much room those of the proxy take
        self.queue: queue.SimpleQueue[tuple[list[Any], int]] = queue.SimpleQueue()
        # how much of that has come and has been taken; each is changed by one thread
        self.came = self.taken = 0
        self.words = Words(settings.folder)
        if settings.since is not None:
            self.core.gaps.add(BESIDE, settings.since, time.time_ns(), 0)
        self.log = LogFiles(settings.folder, settings.service, settings.size, settings.age, settings.hold, settings.packs)
        self.sender = StatusSender(end)
        self.ticked = time.monotonic()
        self.said: Optional[str] = None
        self.gone_at: Optional[float] = None

    def say(self, text: str) -> None:
        """Says something once, until it says something else."""
        if text == "recording":
            text = "recording %s at %s into %s" % (self.settings.service, self.settings.url, self.settings.folder)
        if text != self.said:
            self.said = text
            tell("record: %s" % text, sys.stderr)
            sys.stderr.flush()

    # The queue

    def run(self) -> int:
        threading.Thread(target=self._read_proxy, daemon=True).start()
        try:
            self._open()
            threading.Thread(target=self._read_feed, args=(self.core.left,), daemon=True).start()
            self._keep()
            self._end_log()
        except LogFault as fault:
            self.say("cannot end the log: %s" % fault)
            return 5
        return 0

    def _keep(self) -> None:
        while not self.core.is_over:
            try:
                self._take(*self.queue.get(timeout=TICK))
                # What has come meanwhile goes into the log with it, by one write.
                for _ in range(min(self.queue.qsize(), 50)):
                    self._take(*self.queue.get())
            except queue.Empty:
                pass
            if self._write():
                self._take_beside()
                self.sender.tell(self._status())

    def _status(self) -> Status:
        core = self.core
        lag = None if core.fed is None else (time.monotonic_ns() - core.fed) / 1e9
        return Status(core.recorded, dict(core.lost), len(core.held), lag, not core.is_ready or core.is_faulty, core.elsewhere)

    def _read_proxy(self) -> None:
        for messages in messages_from(self.end):
            for message in messages:
                if isinstance(message, Key):
                    self.feed.use_key(message.text)
                elif isinstance(message, Bye):
                    self.gone_at = time.monotonic()
            messages = [one for one in messages if not isinstance(one, Key)]
            while self.came - self.taken > ROOM:
                time.sleep(0.01)
            weight = _weight(messages)
            self.came += weight
            self.queue.put((messages, weight))
        self.gone_at = self.gone_at or time.monotonic()
        self.queue.put(([Bye(0)], 0))

    def _is_last(self) -> bool:
        """Whether the proxy is gone, and the keeper has waited for long enough."""
        return self.gone_at is not None and time.monotonic() - self.gone_at > LAST

    def _put(self, message: Any) -> None:
        while self.queue.qsize() > MESSAGES:
            time.sleep(0.01)
        self.queue.put(([message], 0))

    def _read_feed(self, left: Optional[Left]) -> None:
        while True:
            try:
                self.feed.run(left, self._put)
                return
            except FeedFault as fault:
                self._put(Faulty(str(fault)))
                if fault.for_good:
                    return
            except Exception as fault:
                self._put(Faulty("the changes can't be read: %s" % (str(fault) or type(fault).__name__)))
            time.sleep(0.5)

    def take_over(self) -> None:
        """Takes the folder, and closes what was left in it; raises InUse or LogFault."""
        self.log.lock()
        self.core.left, self.core.is_first = self.log.recover(), self.log.is_first

    def _open(self) -> None:
        """Waits for the folder, however long another recorder has it."""
        while True:
            try:
                self.take_over()
                return
            except InUse:
                self.say("another recorder writes to %s; waiting for it" % self.settings.folder)
            except LogFault as fault:
                self.say("cannot write to %s: %s" % (self.settings.folder, fault))
            if self._is_last():
                self._leave()
                raise LogFault("it was never begun")
            time.sleep(0.5)

    def _leave(self) -> None:
        """What passed here is told to the recorder that has the folder."""
        while not self.queue.empty():
            self._take(*self.queue.get())
        self.core.end_asked(_now())
        try:
            if self.core.gaps.open:
                self.words.leave(Beside(*self.core.gaps.take(), time.time_ns()))
        except OSError as fault:
            raise LogFault(fault.strerror) from None
        self._drop_word()

    def _drop_word(self) -> None:
        """The proxy's word has nothing to say any more that is not told."""
        if self.settings.word is not None:
            self.words.let_go([self.settings.word])

    def _take_beside(self) -> None:
        """What others passed that ended while this one had the folder is a gap of its log, and their word is gone when that stands there."""
        found = self.words.found() if self.core.is_ready else {}
        for one in found.values():
            self.core.miss(BESIDE, one.start, one.end, one.amount)
        if found:
            self._write()
            self.words.let_go(found)

    def _take(self, messages: list[Any], weight: int) -> None:
        self.taken += weight
        now = _now()
        for message in messages:
            if not isinstance(message, (*KINDS, Faulty)):
                self.said = None
            self.core.take(message, now)
            if self.core.first is not None:
                self.log.unshown = self.core.service.unshown
                # It may be long, and stands in one file.
                for data in self.core.first:
                    self._write_whole(data, True)
                self.core.first = None
                self.log.place = self.core.place
                self._drop_word()
        self._tell()

    def _tell(self) -> None:
        told, self.core.told = self.core.told, []
        for text in told:
            self.say(text)

    # The files

    def _write(self) -> bool:
        """Writes what can be written, and where it is time gives up what waited for too long, which it says; where the log can't be written,
        nothing more is taken in until it can."""
        is_time = time.monotonic() - self.ticked > TICK
        if is_time:
            self.ticked = time.monotonic()
        data = self.core.drained(_now() if is_time else None)
        self._tell()
        if self.core.is_ready:
            self.log.until = self.core.until()
        self._write_whole(data)
        if self.core.is_ready:
            self.log.place = self.core.place
        return is_time

    def _write_whole(self, data: bytes, goes_on: bool = False) -> None:
        failed = 0
        while data:
            try:
                self.log.add(data, goes_on)
                if failed:
                    self.said = None
                    self.say("the log goes on")
                    self.core.miss(UNWRITTEN, failed, time.time_ns(), 0)
                return
            except LogFault as fault:
                failed = failed or time.time_ns()
                self.say("cannot write the log: %s" % fault)
                if self._is_last():
                    raise
                time.sleep(0.2)

    def _end_log(self) -> None:
        """Waits a little for what entries need, says what is lost, and closes the log."""
        self.core.end_asked(_now())
        self.gone_at = time.monotonic()
        while self.core.is_waiting() and not self._is_last():
            try:
                self._take(*self.queue.get(timeout=TICK))
            except queue.Empty:
                pass
            self._write()
        self.core.end(_now())
        if self.core.is_ready:
            self._write()
            self._take_beside()
            self._close()
        elif self.core.gaps.open:
            self._write_whole(self.core.end_unbegun())
            self._tell()
            if self.core.left is not None:
                self._close()
            self._drop_word()

    def _close(self) -> None:
        self.log.close()
        if self.log.packer is not None:
            self.log.packer.end()


def _now() -> Now:
    """Both clocks at one moment, as far as this process is not held up between them."""
    for _ in range(10):
        before, wall, clock = time.monotonic_ns(), time.time_ns(), time.monotonic_ns()
        if clock - before < NOISE // 100:
            break
    return Now(wall, clock)
