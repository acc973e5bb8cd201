"""Blocks of a log whose lines are joined, as SpiceDB's requests and responses are, each with what it needs of the blocks before it.

So each block is read by itself. What joins lines is found without parsing them, by their letters; who parses a block compares.
"""
import re
from contextlib import closing
from itertools import islice
from typing import Callable, Iterable, Iterator, NamedTuple, Optional, Union

from new_enemy_tools.importing.located import BLANK, Block, Place, Source, line_value
from new_enemy_tools.importing.printed import FINISHED, REQUEST, RESPONSE, Joining, Step, UnderWay, call_of, steps_of
from new_enemy_tools.importing.refusals import Refusals
from new_enemy_tools.importing.spool import Read
from new_enemy_tools.parting.sharing import shared

Made = tuple[Read, Refusals]
# So often processes begin anew behind a block that one of them alone can read.
POOLS = 8

ASKED, ANSWER, END = (b'"%s"' % mark.encode() for mark in (REQUEST, RESPONSE, FINISHED))
# As a line has them nearly always, and as it may have them.
PLAIN_END, ENDED = b'"message":%s' % END, re.compile(rb'"message"[ \t]*:[ \t]*%s' % END)
PLAIN_ID, PLAIN_SERVICE = b'"requestID":"', b'"grpc.service":"authzed.'
REQUEST_ID = re.compile(rb'"(?:requestID|requestId|request_id)"[ \t]*:[ \t]*"([^"\\]*)"')
STREAM = re.compile(rb'"grpc\.method_type"[ \t]*:[ \t]*"[^"\\]*stream"')
HEALTH = re.compile(rb'"grpc\.service"[ \t]*:[ \t]*"grpc\.')


class Carried(NamedTuple):
    """A block by its place, the requests of blocks before it that wait, with their lines, and which calls were answered, as far as its lines
    name them."""

    place: Place
    waiting: dict[str, tuple[bytes, int]]
    answered: list[str]

    def joining(self) -> Joining:
        """Raises Otherwise where a line is no request after all."""
        joining = Joining()
        joining.steps = []
        joining.answered = dict.fromkeys(self.answered)
        for found, (line, number) in self.waiting.items():
            value = value_of(line)
            if not isinstance(value, dict) or REQUEST not in value:
                raise Otherwise
            joining.wait(found, value, number)
        return joining



class Otherwise(Exception):
    """Lines are not what their letters say."""


def value_of(line: bytes) -> object:
    try:
        return line_value(line)
    except ValueError:
        return None


def is_as_read(block: Block, steps: Optional[list[Step]]) -> bool:
    """Whether lines that were parsed did what their letters say."""
    return steps == [step for _, _, step in steps_in(block)]


def _parsed_steps(block: Block) -> list[Step]:
    return [step for line in block.data.split(b"\n") for step in steps_of(value_of(line.strip(BLANK)))]


def step_in(line: bytes) -> Optional[Step]:
    """What a line that is not parsed does to what waits, by its letters."""
    if ASKED in line:
        kind = 0
    elif ANSWER in line:
        kind = 1
    elif PLAIN_END in line or END in line and ENDED.search(line) is not None:
        kind = 2
    else:
        return None
    at = line.find(PLAIN_ID) + len(PLAIN_ID)
    if at >= len(PLAIN_ID):
        found = line[at:line.find(b'"', at)]
    else:
        other = REQUEST_ID.search(line)
        if other is None and kind < 2:
            return None
        found = b"" if other is None else other[1]
    if PLAIN_SERVICE not in line and HEALTH.search(line):
        return None
    return kind, found.decode("utf-8", "replace"), kind == 1 and b'stream"' in line and STREAM.search(line) is not None


class Carrying(UnderWay[tuple[bytes, int]]):
    """What the lines so far leave to those behind."""

    def carried(self, blocks: Iterable[tuple[Place, Block]]) -> Iterator[Carried]:
        for place, block in blocks:
            steps = list(steps_in(block))
            named = {found for _, _, (_, found, _) in steps}
            yield Carried(place, {one: self.waiting[one] for one in named & self.waiting.keys()}, [one for one in self.answered if one in named])
            for number, line, step in steps:
                self._take(number, line, step)

    def _take(self, number: int, line: bytes, step: Step) -> None:
        """As Joining has it."""
        kind, found, is_stream = step
        if kind == 0:
            self.waiting[found] = line.strip(BLANK), number
        elif kind == 2:
            self.end(found)
        elif found in self.waiting:
            self.answer(found, is_stream)

    def left(self) -> list[tuple[int, Optional[str]]]:
        """The lines of requests that no line answered, and their calls."""
        return [(number, call_of(value_of(line))) for found, (line, number) in self.waiting.items() if found not in self.answered]


def has_steps(block: Block) -> bool:
    """Whether some lines may do something to what waits."""
    return any(mark in block.data for mark in (ASKED, ANSWER, END))


def steps_in(block: Block) -> Iterator[tuple[int, bytes, Step]]:
    """The lines of a block that do something to what waits, with their numbers."""
    if not has_steps(block):
        return
    for number, line in enumerate(block.data.split(b"\n"), block.first):
        step = step_in(line)
        if step is not None:
            yield number, line, step


class Blocks:
    """The blocks of a log, read by processes as far as each can be read by itself."""

    def __init__(self, source: Source, work: Callable[[Carried], Union[Made, Carried, None]], jobs: int):
        """The work makes something of a block, or gives it back where it changes how all behind it are read; None where `Otherwise`."""
        self.source, self.work, self.jobs = source, work, jobs
        # of the block that is given as it is; and the lines of requests that no line answered, when all is read
        self.joining = Joining()
        self.left: list[tuple[int, Optional[str]]] = []

    def read(self) -> Iterator[Union[Made, Block]]:
        """What the work makes of each block, in order, or the block."""
        done = 0
        for _ in range(POOLS):
            carrying = self._behind(done)
            found: Union[Made, Carried, None] = None
            with closing(shared(self.work, carrying.carried(islice(self.source.placed(), done, None)), self.jobs)) as made:
                for found in made:
                    if found is None or isinstance(found, Carried):
                        break
                    done += 1
                    yield found
                else:
                    self.left = carrying.left()
                    return
            block = None if found is None else self.source.block(found.place)
            if found is None or block is None or not is_as_read(block, _parsed_steps(block)):
                break
            self.joining = found.joining()
            done += 1
            yield block
        self.joining = Joining()
        for block in islice(self.source.blocks(), done):
            for number, line in enumerate(block.data.split(b"\n"), block.first):
                self.joining.go_on(value_of(line.strip(BLANK)), number)
        for block in islice(self.source.blocks(), done, None):
            yield block
        self.left = self.joining.left()

    def _behind(self, count: int) -> Carrying:
        """Behind so many blocks."""
        carrying = Carrying()
        for _ in carrying.carried(islice(self.source.placed(), count)):
            pass
        return carrying
