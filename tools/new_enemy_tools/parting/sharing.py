"""Blocks of a file, shared by processes."""
import itertools
import os
import sys
import time
from collections import deque
from concurrent.futures import Future, ProcessPoolExecutor
from concurrent.futures.process import BrokenProcessPool
from multiprocessing import get_context
from threading import Thread
from typing import Any, Callable, Generator, Iterable, TypeVar

from new_enemy_tools.faults import PartsFault

SECOND = 1.0
# So long a thread of this process may work while another one waits that hands blocks to the processes, or takes what they made. A
# result comes in many parts, and for each of them that one waits anew.
TURN = 0.0002
Given = TypeVar("Given")
Made = TypeVar("Made")
# What a process of a pool does with a block; it has it from the start, so that a large table is shared and not sent.
_work: list[Callable[[Any], Any]] = []


def _begin(work: Callable[[Any], Any], parent: int) -> None:
    _work.append(work)
    Thread(target=_end_with, args=(parent,), daemon=True).start()


def _end_with(parent: int) -> None:
    """Ends this process where the one that it works for was killed; it would wait for work for ever."""
    while os.getppid() == parent:
        time.sleep(SECOND)
    os._exit(1)


def _do(given: Any) -> Any:
    return _work[0](given)


def shared(work: Callable[[Given], Made], blocks: Iterable[Given], jobs: int) -> Generator[Made, None, None]:
    """What the work makes of each block, in order; by so many processes where there are blocks enough for two."""
    blocks = iter(blocks)
    first = list(itertools.islice(blocks, 2))
    blocks = itertools.chain(first, blocks)
    if jobs == 1 or len(first) < 2:
        yield from map(work, blocks)
        return
    with ProcessPoolExecutor(jobs, get_context("fork"), _begin, (work, os.getpid())) as pool:
        waiting: deque[Future[Made]] = deque()
        turn = sys.getswitchinterval()
        sys.setswitchinterval(TURN)
        try:
            for block in blocks:
                waiting.append(pool.submit(_do, block))
                if len(waiting) > 2 * jobs:
                    yield waiting.popleft().result()
            while waiting:
                yield waiting.popleft().result()
        except BrokenProcessPool:
            raise PartsFault("a process that places lines was killed") from None
        finally:
            sys.setswitchinterval(turn)
