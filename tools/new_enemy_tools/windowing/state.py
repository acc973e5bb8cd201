"""What a window leaves to the next, in a folder: the program's carry, and beside it what the tools need.

`carry` is what `new_enemy follow --carry` wrote. `carried` has the lines of the trace that stand for its items, as they were, with their places
and times, and with what was not looked at of them: a number, a space, and the line. `window.json` counts the windows, and has the checksums
of the other two and of itself. In a folder of days these stand in the folder of a day.
"""
import json
import os
from functools import cached_property
from hashlib import blake2b
from typing import Any, Iterator, NamedTuple, Optional, Sequence

from new_enemy_tools.faults import WindowFault, naming
from new_enemy_tools.files import read_bytes
from new_enemy_tools.windowing.carries import Carry, Item, adds_as, raw_of

CARRY, CARRIED, HEAD = "carry", "carried", "window.json"
FILES = (CARRY, CARRIED, HEAD)
# What earlier versions wrote in place of these.
OLD_STATE = "state"
FORMAT = 2
# As long as versions are let go after fewer windows, it is known where these ended.
SIZES = 400


class Row(NamedTuple):
    """A line of a trace that a carry stands for.

    Its kind is r for rules, f for the commit of the store at the base, c for a commit above it, v for a content check whose version may be named,
    h for an entry that waits, and g for one that waits no longer. Its number is a timestamp, -1 of rules without, or of an entry its snapshot.
    """

    kind: str
    line: int
    number: int
    raw: bytes


class Head(NamedTuple):
    """What is known of the windows so far beside the carry."""

    window: int
    # of each of the last windows that had commits how many lines of the log were read, and the last timestamp
    ends: list[list[int]]
    # of the last windows how many lines of the log were read
    sizes: list[int]
    # the lines of entries in the carry that wait no longer: they were told not to be audited
    given_up: list[int]
    # how many lines of the log were read when versions were first let go
    let_go: Optional[int]
    # the checksum of the carry that the window began with
    before: Optional[str]

    @property
    def last(self) -> int:
        return self.ends[-1][1] if self.ends else -1

    def may_lack_version(self, line: int) -> bool:
        """Whether the version that an entry on a line names may have been let go before it came."""
        return self.let_go is not None and line > self.let_go


class State:
    """Behind no window there is no carry."""

    def __init__(self, head: Head, carry: Optional[Carry], carried: dict[int, bytes], seal: Optional[str], untold: Sequence[Row] = ()):
        """Of a state of an earlier version, which told nothing of entries that wait, `untold` has the lines that it was written for."""
        self.head, self.carry, self.carried, self.seal, self.untold = head, carry, carried, seal, untold

    @property
    def lines(self) -> int:
        return 0 if self.carry is None else self.carry.lines

    @property
    def base(self) -> Optional[int]:
        return None if self.carry is None else self.carry.base

    @property
    def rows(self) -> Iterator[Row]:
        return self.rows_of("rfcvhg")

    @cached_property
    def waiting(self) -> list[Row]:
        return list(self.rows_of("h"))

    def rows_of(self, kinds: str) -> Iterator[Row]:
        """Those of some kinds, each time made anew: one has the whole store."""
        if self.carry is None:
            return
        for item in self.carry.entries() if set(kinds) <= set("vhg") else iter(self.carry):
            kind = self._kind_of(item)
            if kind in kinds:
                raw = self.carried.get(item.line) if kind != "r" else None
                if raw is None or kind == "f" and not adds_as(item, raw):
                    raw = raw_of(item)
                yield Row(kind, item.line, item.number, raw)

    def _kind_of(self, item: Item) -> str:
        assert self.carry is not None
        if item.kind == "declaration":
            return "r"
        if item.kind == "commit":
            return "f" if item.number <= self.carry.base else "c"
        return "g" if item.line in self.head.given_up else "h" if item.number > self.carry.last else "v"


NOTHING = State(Head(0, [], [], [], None, None), None, {}, None)


def read_state(path: str) -> State:
    """That of a folder, or of what an earlier version wrote."""
    old = os.path.join(path, OLD_STATE) if os.path.isdir(path) else path
    if not os.path.isdir(path) or os.path.exists(old) and not os.path.exists(os.path.join(path, HEAD)):
        # Where there is nothing of an earlier version, what reads it need not be loaded.
        from new_enemy_tools.windowing.old_state import converted
        return converted(old)
    return _read_folder(path)


def _read_folder(folder: str) -> State:
    """Raises WindowFault where the folder has no state, or not as it was written."""
    if not os.path.exists(os.path.join(folder, HEAD)):
        raise WindowFault("%s is no state of a window" % folder)
    data, lines = read_bytes(os.path.join(folder, CARRY)), read_bytes(os.path.join(folder, CARRIED))
    carry = Carry(data, os.path.join(folder, CARRY))
    try:
        value = json.loads(read_bytes(os.path.join(folder, HEAD)))
        if value.pop("sum") != _sum_of_head(value) or value.pop("new_enemy_state") != FORMAT:
            raise ValueError
        sums = value.pop("carry"), value.pop("carried")
        head = _head_of(value)
        carried = {int(number): raw for number, _, raw in (line.partition(b" ") for line in lines.split(b"\n")[:-1])}
    except (ValueError, KeyError, TypeError, AttributeError):
        raise WindowFault("%s is no state that this version reads, or was altered" % os.path.join(folder, HEAD)) from None
    for name, wanted, found in zip((CARRY, CARRIED), sums, (carry.seal, _sum_of(lines))):
        if wanted != found:
            raise WindowFault("%s is another than %s names: it was altered, or is of another window" % (os.path.join(folder, name), HEAD))
    return State(head, carry, carried, sums[0])


def _head_of(value: dict[str, Any]) -> Head:
    head = Head(**value)
    numbers = [head.window, head.let_go or 0, *head.sizes, *head.given_up, *(number for end in head.ends for number in end)]
    if not all(type(one) is int for one in numbers) or not all(len(end) == 2 for end in head.ends):
        raise ValueError
    return head


def _sum_of(data: bytes) -> str:
    return blake2b(data, digest_size=16).hexdigest()


def _sum_of_head(value: dict[str, Any]) -> str:
    return _sum_of(json.dumps(value, separators=(",", ":")).encode())


def write_beside(folder: str, state: State) -> None:
    """Writes what stands beside a carry that is in a folder already, all of it to the disk."""
    lines = b"".join(b"%d %s\n" % one for one in sorted(state.carried.items()))
    with open(os.path.join(folder, CARRY), "rb") as file:
        os.fsync(file.fileno())
    head = {"new_enemy_state": FORMAT, **state.head._asdict(), "carry": state.seal, "carried": _sum_of(lines)}
    said = json.dumps({**head, "sum": _sum_of_head(head)}, separators=(",", ":"))
    for name, data in ((CARRIED, lines), (HEAD, said.encode() + b"\n")):
        with naming(os.path.join(folder, name)), open(os.path.join(folder, name), "wb") as file:
            file.write(data)
            file.flush()
            os.fsync(file.fileno())


def seal_in(folder: str) -> Optional[str]:
    """The checksum of the carry in a folder; None where it has no state of this form."""
    try:
        return str(json.loads(read_bytes(os.path.join(folder, HEAD)))["carry"]) if os.path.exists(os.path.join(folder, HEAD)) else None
    except (ValueError, KeyError, TypeError):
        raise WindowFault("%s is no state that this version reads" % folder) from None
