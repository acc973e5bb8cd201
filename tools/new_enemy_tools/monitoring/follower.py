"""The program that follows a trace, as a process: lines in, and what it says as messages."""
import subprocess
import tempfile
from queue import Queue, SimpleQueue
from threading import Thread
from typing import Any, BinaryIO, NamedTuple, Optional, cast

from new_enemy_tools.faults import DeviceFault, MonitorFault, ToolFault, WindowFault
from new_enemy_tools.held_signals import held_back

# So many pieces of a trace wait at most until the program reads them.
WAITING = 16
# The program's status where it refuses what it reads; others are of devices and memory.
REFUSES = 2
# What it says where it can't write its carry; what it tells is read.
WRITE_FAULT = "write fault "


class _Feeder:
    """Writes lines to the program, in a thread of its own."""

    def __init__(self, pipe: BinaryIO):
        self._pipe = pipe
        self._fault: Optional[OSError] = None
        self._waiting: "Queue[Optional[bytes]]" = Queue(WAITING)
        self._thread = Thread(target=self._write_all, daemon=True)
        self._thread.start()

    def put(self, lines: bytes) -> None:
        self._waiting.put(lines)

    def _write_all(self) -> None:
        """What the program does not read any more is let go."""
        while (lines := self._waiting.get()) is not None:
            self._write(lines)
            if self._waiting.empty():
                # Who waits for an answer is not to wait for more lines.
                self._write(b"", True)
        try:
            self._pipe.close()
        except OSError as fault:
            self._fault = self._fault or fault

    def _write(self, lines: bytes, is_all: bool = False) -> None:
        if self._fault is None:
            try:
                self._pipe.write(lines)
                if is_all:
                    self._pipe.flush()
            except OSError as fault:
                self._fault = fault

    def end(self) -> None:
        self.stop()
        if self._fault is not None and not isinstance(self._fault, BrokenPipeError):
            raise WindowFault("the lines cannot be given to the program: %s" % self._fault.strerror)

    def stop(self) -> None:
        self._waiting.put(None)
        self._thread.join()


class Follower:
    def __init__(self, program: str, words: list[str], inbox: "SimpleQueue[Any]"):
        self.program, self.words, self.inbox = program, words, inbox
        self._error = tempfile.TemporaryFile()
        try:
            with held_back():
                self._process = subprocess.Popen([program, "follow", "--heartbeat", *words], stdin=subprocess.PIPE,
                                                 stdout=subprocess.PIPE, stderr=self._error)
        except OSError as fault:
            raise DeviceFault("cannot run %s: %s" % (program, fault.strerror)) from None
        assert self._process.stdin is not None
        self._feeder = _Feeder(cast(BinaryIO, self._process.stdin))
        self._thread = Thread(target=self._read, daemon=True)
        self._thread.start()

    def _read(self) -> None:
        assert self._process.stdout is not None
        for line in self._process.stdout:
            self.inbox.put(Said(self, line.decode("utf-8", "replace").rstrip("\n")))
        self.inbox.put(Ended(self))

    def feed(self, data: bytes) -> None:
        # The program has what it can read at once; a line is never held back here.
        self._feeder.put(data)

    def end(self) -> int:
        """Ends its input, and waits until it has said all; its status."""
        self._feeder.end()
        status = self._process.wait()
        self._thread.join()
        return status

    def fault(self) -> ToolFault:
        """Why it ended too early: only where it refuses the trace is the log to blame."""
        status = self._process.wait()
        self._error.seek(0)
        said = self._error.read().decode("utf-8", "replace").strip()
        if status == REFUSES:
            return MonitorFault("the program refuses the trace: %s" % said)
        if status < 0:
            return DeviceFault("%s was killed by signal %d" % (self.program, -status))
        if said.startswith(WRITE_FAULT):
            said += ", of %s" % self.words[self.words.index("--carry") + 1]
        return DeviceFault("%s ended with status %d%s" % (self.program, status, said and ": " + said))

    def kill(self) -> None:
        """Also where somebody waits for its end."""
        self._process.kill()

    def stop(self) -> None:
        self.kill()
        self._process.wait()
        self._feeder.stop()


class Said(NamedTuple):
    """A line that a program said."""

    by: Follower
    line: str


class Ended(NamedTuple):
    """A program says no more."""

    by: Follower
