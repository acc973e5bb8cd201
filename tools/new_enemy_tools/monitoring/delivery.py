"""What receivers have still to be told: each gets the alerts in their order, one at a time, until it says that it has
them. It has no clock and no socket."""
from collections import Counter, deque
from typing import Iterator, NamedTuple, Optional

# Between two tries, in seconds: twice as long each time.
FIRST, LONGEST = 0.5, 60.0


class Send(NamedTuple):
    receiver: str
    number: int
    text: str


class Delivery:
    def __init__(self, receivers: tuple[str, ...]):
        self.waiting: dict[str, deque[Send]] = {receiver: deque() for receiver in receivers}
        self.failed: Counter[str] = Counter()
        # of each receiver that failed what it said last
        self.faults: dict[str, str] = {}
        self._under_way: dict[str, int] = {}
        self._tries: Counter[str] = Counter()
        self._from: dict[str, float] = {}

    def put(self, send: Send) -> None:
        if send.receiver in self.waiting:
            self.waiting[send.receiver].append(send)

    def due(self, now: float) -> Iterator[Send]:
        for receiver, waiting in self.waiting.items():
            if waiting and receiver not in self._under_way and now >= self._from.get(receiver, now):
                self._under_way[receiver] = waiting[0].number
                yield waiting[0]

    def answered(self, receiver: str, number: int, fault: Optional[str], now: float) -> None:
        """A receiver has an alert now; or has not, and is tried again later."""
        if self._under_way.get(receiver) != number:
            return
        del self._under_way[receiver]
        if fault is None:
            self.waiting[receiver].popleft()
            self._tries[receiver] = 0
            self.faults.pop(receiver, None)
            self._from.pop(receiver, None)
            return
        self._from[receiver] = now + min(LONGEST, FIRST * 2 ** min(self._tries[receiver], 10))
        self._tries[receiver] += 1
        self.failed[receiver] += 1
        self.faults[receiver] = fault

    @property
    def is_idle(self) -> bool:
        return not any(self.waiting.values())
