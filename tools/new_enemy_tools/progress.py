"""One line on a terminal that says how far a tool has come, where it works for over a second."""
import sys
import time
from types import TracebackType
from typing import Callable, Iterable, Iterator, Optional, TextIO


class Progress:
    """Shows counts. As a context it takes the line away at its end, also where that is a fault."""

    SECONDS = 1.0
    # Between two that are shown.
    PAUSE = 0.1

    def __init__(self, stream: Optional[TextIO] = None):
        self.stream = sys.stderr if stream is None else stream
        self.is_terminal = self.stream.isatty()
        self.is_shown = False
        self.next = time.monotonic() + self.SECONDS

    def __enter__(self) -> "Progress":
        return self

    def __exit__(self, kind: Optional[type[BaseException]], fault: Optional[BaseException], where: Optional[TracebackType]) -> None:
        self.end()

    def step(self, said: str, count: int) -> None:
        """Shows what was done so far, as `read %s lines`."""
        if self.is_terminal and time.monotonic() > self.next:
            self.next = time.monotonic() + self.PAUSE
            self.is_shown = True
            self.stream.write("\r%s\x1b[K" % (said % format(count, ",")))
            self.stream.flush()

    def steps(self, said: str) -> Callable[[int], None]:
        """What shows counts of one kind."""
        return lambda count: self.step(said, count)

    def follow(self, said: str, counts: Iterable[int]) -> Iterator[int]:
        """Shows counts as they are gone through."""
        for count in counts:
            self.step(said, count)
            yield count

    def end(self) -> None:
        """Takes the line away, before something else is written."""
        if self.is_shown:
            self.is_shown = False
            self.stream.write("\r\x1b[K")
            self.stream.flush()
