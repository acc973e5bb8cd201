"""How a monitor hears that it is to stop, so that it ends within seconds whatever it does then."""
import os
import select
import signal
import time
from threading import Thread
from typing import Callable

# So long it may take to end in order, in seconds.
GRACE = 10.0
# How it ends where it takes longer: a status of no other end of a tool.
BROKEN_OFF_STATUS = 9
BROKEN_OFF = b"monitor: what it did would have taken too long, and was broken off; the next monitor does it anew\n"


class Stopping:
    """`told` is called when a signal comes. Where the process still runs GRACE later it ends as by a kill, behind which
    the next one loses nothing, and with a status of its own; `broken_off` is called before."""

    def __init__(self, told: Callable[[], None], broken_off: Callable[[], None]):
        self._broken_off = broken_off
        # What the main thread does, it may do for long before it runs a handler; the pipe is written to at once.
        self._signals, end = os.pipe()
        os.set_blocking(end, False)
        signal.set_wakeup_fd(end, warn_on_full_buffer=False)
        for number in (signal.SIGTERM, signal.SIGINT):
            signal.signal(number, lambda *_: told())
        Thread(target=self._watch, daemon=True).start()

    def _watch(self) -> None:
        os.read(self._signals, 1)
        time.sleep(GRACE)
        # Nobody may read what is said any more.
        if select.select([], [2], [], 0)[1]:
            os.write(2, BROKEN_OFF)
        self._broken_off()
        os._exit(BROKEN_OFF_STATUS)
