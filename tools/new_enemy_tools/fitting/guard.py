"""A process that has the scratch place and the recorder, and takes both away when its parent says so, or is gone, however it ended."""
import os
import shutil
import signal
import subprocess
import sys
import time
from multiprocessing import Pipe, get_context
from typing import Any, Optional, Sequence

from new_enemy_tools.faults import ToolFault
from new_enemy_tools.fitting.services import Service, Tuple
from new_enemy_tools.recording.asking import Asker, FeedFault
from new_enemy_tools.shown import tell

# So long a recorder may take to begin, and to end.
BEGINS, ENDS = 60.0, 120.0
# What comes of a service that can't be asked, or answers in another form.
FAULTS = FeedFault, OSError, ValueError, KeyError, TypeError


class Unfit(ToolFault):
    """What shows by itself that the recorder does not fit."""

    status = 1


class Unasked(ToolFault):
    """The service can't be asked."""

    status = 5


class Guard:
    """Made, it begins a scratch place of a service and a recorder in front of it; `room` is a folder, which may go away at the end."""

    def __init__(self, service: Service, asker: Asker, base: Sequence[Tuple], recorder: list[str], room: str, clears: bool):
        self.service, self.asker, self.base, self.recorder, self.room, self.clears = service, asker, base, recorder, room, clears
        self.end, its = Pipe()
        self.process = get_context("fork").Process(target=self._keep, args=(its,))
        self.process.start()
        its.close()

    # In the parent

    def _hear(self) -> object:
        try:
            found = self.end.recv()
        except EOFError:
            raise ToolFault("the process that takes all away has ended; look for %s" % (self.service.place or "a store new_enemy-selftest")) from None
        if isinstance(found, ToolFault):
            raise found
        return found

    def begun(self) -> None:
        """Returns when the recorder records."""
        self.service.place = str(self._hear())

    def over(self) -> bool:
        """Ends the recorder, and takes away what is in the service; whether nothing is left there, else it is said."""
        self.end.send(None)
        return self._hear() is None

    def close(self) -> None:
        self.end.close()
        self.process.join()

    # In the child

    def _keep(self, its: Any) -> None:
        self.end.close()
        os.setsid()
        for number in (signal.SIGINT, signal.SIGTERM, signal.SIGHUP):
            signal.signal(number, signal.SIG_IGN)
        recorder: Optional[subprocess.Popen[bytes]] = None
        try:
            self.service.make(self.asker, self.base)
            recorder = self._started()
            its.send(self.service.place)
            _wait(its)
        except ToolFault as fault:
            _tell(its, fault)
        except FAULTS as fault:
            _tell(its, Unasked(_why(fault)))
        finally:
            if recorder is not None:
                _end(recorder)
            left = self._left()
            if left is not None:
                tell(left, sys.stderr)
            _tell(its, left)
            _wait(its)
            if self.clears:
                shutil.rmtree(self.room, ignore_errors=True)

    def _started(self) -> "subprocess.Popen[bytes]":
        said = os.path.join(self.room, "recorder.txt")
        with open(said, "wb") as file:
            recorder = subprocess.Popen(self.recorder + self.service.recorder_words(), stdin=subprocess.DEVNULL, stdout=file, stderr=file)
        until = time.monotonic() + BEGINS
        while True:
            with open(said, encoding="utf-8", errors="replace") as read:
                text = read.read()
            if "recording " in text:
                return recorder
            if recorder.poll() is not None or time.monotonic() > until:
                _end(recorder)
                raise Unfit("differs: the recorder does not begin: %s" % (text.strip().splitlines() or ["it says nothing"])[-1])
            time.sleep(0.05)

    def _left(self) -> Optional[str]:
        try:
            why = self.service.take_away(self.asker)
        except FAULTS as fault:
            why = _why(fault)
        return None if why is None else "left in the service: what is called %s: %s" % (self.service.place, why)


def _why(fault: Exception) -> str:
    return str(fault) if isinstance(fault, (FeedFault, OSError)) else "an answer in another form: %s %s" % (type(fault).__name__, fault)


def _wait(its: Any) -> None:
    """Until the parent says something, or is gone."""
    try:
        its.recv()
    except (EOFError, OSError):
        pass


def _tell(its: Any, what: object) -> None:
    try:
        its.send(what)
    except OSError:
        pass


def _end(recorder: "subprocess.Popen[bytes]") -> None:
    recorder.terminate()
    try:
        recorder.wait(ENDS)
    except subprocess.TimeoutExpired:
        recorder.kill()
        recorder.wait()
