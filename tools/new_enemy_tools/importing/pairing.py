"""The lines of SpiceDB's log of requests and responses, each request and its response as one text, so that those of a usual shape
are not parsed. Which lines belong together is seen by their letters; what is read in full is compared with that."""
import re
from typing import Callable, Iterable, Iterator, Optional

from new_enemy_tools.importing.carried import Carried, Otherwise, step_in, value_of
from new_enemy_tools.importing.events import Line
from new_enemy_tools.importing.line_shapes import flat_expression
from new_enemy_tools.importing.located import BLANK
from new_enemy_tools.importing.printed import REQUEST, Joining, is_plain_end

Full = Callable[[int, bytes], list[Line]]
Match = Callable[[bytes], Optional[re.Match[bytes]]]
# What a line that says the end of a call has in all lines of its shape; and so many shapes are known at most.
FIXED = frozenset(("grpc-code", "message", "grpc-service"))
MOST = 16


class Pairing:
    """Goes through the lines of a block; what it gives to be read in full it reads with the request that belongs to it."""

    def __init__(self, joining: Joining, given: Carried, read: Full, ends: list[Match]):
        """`ends` are the expressions for lines that say no more than that a call ended well, and grow."""
        self.joining, self.read, self.ends = joining, read, ends
        joining.answered = dict.fromkeys(given.answered)
        # the requests that were not read, each with its number, and whether it stands in a block before
        self.asked = {found: (line, number, True) for found, (line, number) in given.waiting.items()}
        # the request and the line of the response that were given as one text, until it is known whether they are read in full
        self.joined: Optional[tuple[str, bytes]] = None

    def lines(self, lines: Iterable[tuple[int, bytes]]) -> Iterator[tuple[int, bytes]]:
        for number, raw in lines:
            line = raw.strip(BLANK)
            step = step_in(line)
            if step is None:
                yield number, line
                continue
            kind, found, is_stream = step
            if kind == 0:
                if found in self.asked or found in self.joining.waiting:
                    # Several calls with one id are under way at once.
                    raise Otherwise
                self.asked[found] = line, number, False
            elif kind == 1 and not is_stream and found in self.asked:
                self.joined = found, line
                yield number, b'{"asked":%s,"told":%s}' % (self.asked[found][0], line)
                if self.joined is not None:
                    # Nobody read it in full.
                    self.joined = None
                    del self.asked[found]
                    self.joining.answer(found)
            else:
                self._read_asked(found)
                is_end = kind == 2 and found in self.joining.answered
                if is_end and any(match(line) for match in self.ends):
                    self.joining.end(found)
                    continue
                yield number, line
                if is_end:
                    self._learn(line)
        for found in [found for found, (_, _, is_before) in self.asked.items() if not is_before]:
            self._read_asked(found)

    def full(self, number: int, line: bytes) -> list[Line]:
        """What a text has that was given; raises Otherwise."""
        if self.joined is not None:
            (found, line), self.joined = self.joined, None
            self._read_asked(found)
        return self._read(number, line)

    def _read(self, number: int, line: bytes) -> list[Line]:
        steps = self.joining.steps = []
        made, step = self.read(number, line), step_in(line)
        if steps != ([] if step is None else [step]):
            raise Otherwise
        return made

    def _read_asked(self, found: str) -> None:
        """Reads a request that waits, if there is one."""
        line, number, is_before = self.asked.pop(found, (b"", 0, False))
        if not line:
            return
        if not is_before:
            self._read(number, line)
            return
        value = value_of(line)
        if not isinstance(value, dict) or REQUEST not in value:
            raise Otherwise
        self.joining.wait(found, value, number)

    def _learn(self, line: bytes) -> None:
        if len(self.ends) < MOST and is_plain_end(value_of(line)):
            match = flat_expression(line, FIXED)
            self.ends += [] if match is None else [match]
