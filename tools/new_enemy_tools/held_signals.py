"""Signals that reach all processes of a unit of systemd, or of a terminal: who starts a process that it ends itself
holds them back from that one."""
import signal
from contextlib import contextmanager
from typing import Iterator

ENDING = {signal.SIGTERM, signal.SIGINT, signal.SIGHUP}


@contextmanager
def held_back() -> Iterator[None]:
    """A process begins with those signals held back that are held back where it is started."""
    before = signal.pthread_sigmask(signal.SIG_BLOCK, ENDING)
    try:
        yield
    finally:
        signal.pthread_sigmask(signal.SIG_SETMASK, before)
