"""The devices round the core of a monitor: it reads the log, feeds the program, keeps rows, tells receivers, and ends
runs."""
import asyncio
import gc
import os
import sys
import time
from argparse import Namespace
from queue import Empty, SimpleQueue
from threading import Thread
from typing import Any, Iterable, NamedTuple, Optional

from new_enemy_tools.commands.day import write_index
from new_enemy_tools.faults import DeviceFault, MonitorFault
from new_enemy_tools.monitoring.exposition import Before, exposition
from new_enemy_tools.monitoring.follower import Ended, Follower, Said
from new_enemy_tools.monitoring.holding import Holding
from new_enemy_tools.monitoring.joined import STATE, JoinedLog, Several
from new_enemy_tools.monitoring.journal import Journal
from new_enemy_tools.monitoring.live_page import SILENT, Live, live_of, page_of
from new_enemy_tools.monitoring.marks import Mark
from new_enemy_tools.monitoring.pure_monitor import BeginAnew, Core, EndRun, Feed, Keep, Out, Settings
from new_enemy_tools.monitoring.receivers import Answered, Receiver, Teller
from new_enemy_tools.monitoring.run import Run
from new_enemy_tools.monitoring.run_files import RunFile, ended, keep, start_of, untold_by, words_of
from new_enemy_tools.monitoring.stopping import Stopping
from new_enemy_tools.monitoring.tail import Tail
from new_enemy_tools.recording.metrics import MetricsServer
from new_enemy_tools.recording.sketches import JOINED
from new_enemy_tools.shown import tell
from new_enemy_tools.windowing.beginning import Keep as KeepOfPast
from new_enemy_tools.windowing.days import Days
from new_enemy_tools.windowing.following import VERDICT

# Between two looks at the log, and at bounds, in seconds.
POLL, LOOK = 0.02, 1.0
# So long alerts are told when the monitor ends.
PATIENCE = 3.0
WORDS = ("auditing", "not auditing as it should; see /metrics")


class Way(NamedTuple):
    """Where a monitor works, and how."""

    # the folder of a log; with several of these, of the joined one
    log: str
    # the folders as they were given
    logs: str
    several: Optional[Several]
    folder: str
    options: Namespace
    settings: Settings
    receivers: dict[str, Receiver]
    # by the names of the receivers
    marks: dict[str, Mark]
    metrics: Optional[tuple[str, int]]
    has_page: bool = False
    # whether it ends where the log does
    is_once: bool = False


class Machine:
    def __init__(self, way: Way):
        self.way = way
        os.makedirs(way.folder, exist_ok=True)
        self.days = Days(way.options.folder)
        self.journal = Journal(os.path.join(way.folder, "alerts.jsonl"))
        self.inbox: "SimpleQueue[Any]" = SimpleQueue()
        self.core = Core(way.settings, self.journal.read(), {name: one.begin() for name, one in way.marks.items()})
        self.tellers = {name: Teller(name, one, way.marks[name], self.inbox) for name, one in way.receivers.items()}
        self.before = Before()
        self.is_stopping = self.is_caught_up = False
        self.began = self.looked = time.monotonic()
        self.shown, self.is_well = "", False
        self.live_page: Optional[Live] = None
        self.tail: Optional[Tail] = None
        self.follower: Optional[Follower] = None
        self.joined: Optional[JoinedLog] = None
        if way.several is not None:
            self.joined = JoinedLog(way.folder, way.several, way.settings.hold, self.days.last is None)
        elif os.path.exists(os.path.join(way.folder, STATE)):
            raise MonitorFault("the runs before are of several logs that were joined; give them all, or another folder "
                               "of the monitor")

    # Runs

    def begin(self) -> None:
        """Begins the first run of this monitor; the one before may have been killed when it had kept a day."""
        if self.days.last is not None:
            write_index(self.days, self.way.options.html)
        self._begin(None)

    def _begin(self, holding: Optional[Holding], stop: Optional[tuple[str, int]] = None) -> None:
        """Begins a run with the lines that are held; without these anew, from where the last one that was kept has
        ended, and up to a line."""
        given = self.way.options
        start = start_of(self.days, given)
        number = 1 + (self.days.last or 0)
        if holding is None:
            self.tail = Tail(self.way.log, start.place)
            holding = Holding(self.way.settings.hold, self.days.last is not None, stop, self.way.settings.zone)
        self.file = RunFile(self.days.work("trace"), start.begun.state.lines)
        self.follower, self.held = None, start.held
        self.run = Run(start.begun, self._has_between(), self.file.line, KeepOfPast(None, given.keep_snapshots, given.keep_versions))
        self.core.begin(self.run, number, start.stories, holding, time.monotonic())

    def _has_between(self) -> bool:
        """Whether checks may have looked at any state between two; of a log that is not there yet that is not known,
        and taken to be so."""
        assert self.tail is not None
        return (self.tail.first_service() or "").removeprefix(JOINED) != "spicedb"

    def _end_run(self, why: str) -> None:
        given, run, now = self.way.options, self.run, time.monotonic()
        assert self.tail is not None and self.follower is not None
        run.close()
        status = self.follower.end()
        self._hear_all()
        if status not in VERDICT.values():
            if self.is_stopping:
                return
            raise self.follower.fault()
        self._do(self.core.tell(now, True))
        self._do(self.core.look_at_loss())
        self.journal.sync()
        line = self.core.holding.lines[0] if self.core.holding.lines else None
        place = self.tail.here() if line is None else self.tail.place_at(line.file, line.number)
        found = ended(self.days, given.program, run, status, self.file)
        run.end(found)
        self.before = self.before.plus(self.core)
        if self.joined is not None:
            self.joined.keep()
        number = keep(self.days, given, run, found, self.core.leave(), place, self.file)
        self.days.mark_told(number)
        self.tail.forget(place.file)
        if self.joined is not None:
            self.joined.forget(place.file)
        tell("monitor: run %d has ended, since %s; %s" % (number, why, self.days.tell(number).splitlines()[-1]),
             sys.stderr)
        self.journal.replace(self.core.kept_rows())
        self.core.holding.stop = None
        del run, found
        self._let_go()
        self._begin(self.core.holding)

    def _let_go(self) -> None:
        """Gives back what a run had, before the next one begins: it goes in circles, and there is much of it."""
        del self.run, self.core.run
        gc.collect()

    # What comes in

    def live(self) -> None:
        """Until it is told to stop. Raises MonitorFault where it can't go on."""
        is_more = False
        while not self.is_stopping:
            self._hear(0 if is_more else POLL)
            is_more = self._read()
            now = time.monotonic()
            self._do(self.core.move(now))
            self._do(self.core.tell(now))
            self._do(self.core.due(now))
            self._look(now, is_more)
            if not is_more and not self.way.is_once:
                self._do(self.core.pass_time(time.time_ns()))
            if self.way.is_once and not is_more and not self.core.holding.lines:
                if self.run.bytes:
                    self._end_run("the log ends")
                return

    def _read(self) -> bool:
        """Reads more of the log; whether there may be more still."""
        assert self.tail is not None
        is_more = False
        if self.joined is not None:
            is_more = self.joined.read(self.way.is_once)
            self.core.unjoined = self.joined.unjoined()
        while self.core.has_room:
            chunk = self.tail.read()
            if chunk is None:
                return is_more
            self.core.read(chunk, time.monotonic())
        return True

    def _hear(self, seconds: float) -> None:
        """What the program and the receivers say, for so long at most as nothing comes."""
        try:
            self._take(self.inbox.get(seconds > 0, seconds or None))
        except Empty:
            return
        self._hear_all()

    def _hear_all(self) -> None:
        while not self.inbox.empty():
            self._take(self.inbox.get())

    def _take(self, message: Any) -> None:
        now = time.monotonic()
        if isinstance(message, Said):
            # What one said that was stopped is of a run that was begun anew.
            if message.by is self.follower:
                self.core.said(message.line, now)
        elif isinstance(message, Answered):
            self.core.answered(message.receiver, message.number, message.fault, now)
        elif isinstance(message, Ended) and message.by is self.follower:
            # Who tells the monitor to stop may have told the program too.
            if not self.run.is_closed and not self.is_stopping:
                raise message.by.fault()

    # What is to be done

    def _do(self, outs: Iterable[Out]) -> None:
        ended: Optional[EndRun] = None
        anew: Optional[BeginAnew] = None
        for out in outs:
            if isinstance(out, Feed):
                self.file.add(out.data)
                if self.follower is None:
                    self.follower = self._followed()
                self.follower.feed(out.data)
            elif isinstance(out, Keep):
                self.journal.add(out.row)
            elif isinstance(out, EndRun):
                ended = out
            elif isinstance(out, BeginAnew):
                anew = out
            else:
                self.journal.sync()
                self.tellers[out.receiver].put(out)
        if anew is not None and self.follower is not None:
            self.follower.stop()
            self._let_go()
            self._begin(None, anew.stop)
        elif ended is not None:
            self._end_run(ended.why)

    def _followed(self) -> Follower:
        """The program on the run's lines, the first of which are there."""
        program = self.way.options.program
        for finding in untold_by(program, self.run, self.held):
            self.run.found(finding, time.monotonic())
        return Follower(program, words_of(self.days, self.run), self.inbox)

    def _look(self, now: float, is_more: bool) -> None:
        self.is_caught_up |= not is_more and not self.core.holding.lines
        if now - self.looked < LOOK:
            return
        self.looked, wall = now, time.time_ns()
        if self.is_caught_up or now - self.began > self.way.settings.most_lag:
            self._do(self.core.look(wall))
        self.journal.sync()
        # Before the numbers: who reads these and asks then whether it is well is told of no look before theirs.
        self.is_well = self.is_caught_up and not any(self.core.passed.values())
        self.shown = exposition(self.core, self.before, wall, self.is_caught_up)
        self.live_page = live_of(self.core, self.before, self.way.logs, wall, self.is_caught_up)

    # The end

    def stop(self, fault: Optional[str]) -> None:
        """Tells what waits for a little, and keeps the rest for the next monitor."""
        if fault is not None:
            self._do(self.core.stopped(fault))
        until = time.monotonic() + PATIENCE
        while not self.core.delivery.is_idle and (time.monotonic() < until or self._waits_for_all(fault)):
            self._do(self.core.due(time.monotonic()))
            try:
                message = self.inbox.get(timeout=POLL)
            except Empty:
                continue
            if isinstance(message, Answered):
                self._take(message)
        self.journal.close()
        if self.follower is not None:
            self.follower.stop()
        self.days.end()
        self.days.close()

    def _waits_for_all(self, fault: Optional[str]) -> bool:
        return self.way.is_once and fault is None and not self.is_stopping

    def serve(self) -> None:
        """Answers on the address of the metrics, in a thread of its own; raises DeviceFault where it can't."""
        if self.way.metrics is None:
            return
        server = MetricsServer(lambda: self.is_well and self._age() < SILENT, lambda: self.shown, WORDS,
                               self._page if self.way.has_page else None)
        loop = asyncio.new_event_loop()
        try:
            loop.run_until_complete(server.serve(*self.way.metrics))
        except OSError as fault:
            raise DeviceFault("cannot listen at %s:%d: %s" % (*self.way.metrics, fault.strerror)) from None
        Thread(target=loop.run_forever, daemon=True).start()

    def _age(self) -> float:
        """For how many seconds it has not looked."""
        return time.monotonic() - self.looked

    def _page(self) -> str:
        return "The monitor begins.\n" if self.live_page is None else page_of(self.live_page, self._age())

    def hear_signals(self) -> None:
        Stopping(self._told_to_stop, self._broken_off)

    def _told_to_stop(self) -> None:
        self.is_stopping = True
        # CPython waits for ever in a `get` with a time which a signal interrupts, where the time is over by then and
        # there is no message.
        self.inbox.put(None)

    def _broken_off(self) -> None:
        if self.follower is not None:
            self.follower.kill()
