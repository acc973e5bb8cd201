"""The revision in a ZedToken of SpiceDB: a number, or a snapshot of PostgreSQL.

The forms are those of SpiceDB's public source; no service was run. A token is base64 of a protocol buffer whose field 3 has the
datastore's revision as a text in its field 1 (in the old form field 2 has a number in its field 1). On PostgreSQL that text is
base64 of another: 1 is xmin; 2, relative to it, xmax; 3, relative to it and packed, the transactions that were running; 4 the
writer's own transaction; 5 a time.
"""
import base64
import binascii
import re
from functools import lru_cache
from typing import Any, NamedTuple, Optional, TypeVar, Union

NUMBER = re.compile(r"([0-9]{1,30})(?:\.([0-9]{10}))?")
# The decimals of PostgreSQL before it had snapshots. A hybrid clock counts nanoseconds, and is much longer.
OLDER = re.compile(r"[0-9]{1,15}\.[0-9]{1,15}")
SHOWN = 5
# Longer texts are read each time, and not kept.
KEPT = 1 << 12

Kind = TypeVar("Kind")


class Malformed(Exception):
    """Bytes that are no token."""


class Older(Exception):
    """A revision of PostgreSQL in the older form."""

    def __init__(self) -> None:
        super().__init__("is of SpiceDB on PostgreSQL in the older form xid.xmin, which does not say what it sees")


class Snapshot(NamedTuple):
    """What a transaction of PostgreSQL sees: all below xmin, and those below xmax that were not running; and its own."""

    xmin: int
    xmax: int
    running: frozenset[int]
    own: Optional[int]

    def sees(self, transaction: int) -> bool:
        return transaction == self.own or transaction < self.xmin or (
            transaction < self.xmax and transaction not in self.running)

    def contains(self, other: "Snapshot") -> bool:
        """Whether it sees all that another sees, of all transactions there are."""
        if any(other.sees(one) and one != self.own for one in self.running):
            return False
        above = range(self.xmax, max(self.xmax, other.xmax))
        running = [one for one in other.running if one != other.own]
        hidden = {one for one in (*running, self.own) if one is not None and one in above}
        return len(hidden) == len(above) and (other.own is None or self.sees(other.own))

    def __str__(self) -> str:
        listed = sorted(self.running)
        shown = ",".join(map(str, listed[:SHOWN])) + (",.." if len(listed) > SHOWN else "")
        return "%d:%d:%s%s" % (self.xmin, self.xmax, shown, "" if self.own is None else "+%d" % self.own)


class Revision(NamedTuple):
    """A revision as a number that rises with the datastore's, or as a snapshot; and as it is written."""

    number: Optional[int]
    snapshot: Optional[Snapshot]
    shown: str


def _varint(data: bytes, at: int) -> tuple[int, int]:
    value = 0
    for shift in range(0, 70, 7):
        if at >= len(data):
            break
        byte = data[at]
        value |= (byte & 127) << shift
        at += 1
        if byte < 128:
            return value, at
    raise Malformed


def fields(data: bytes) -> dict[int, list[Any]]:
    """The fields of a protocol buffer, each a number or bytes, by their tags."""
    found: dict[int, list[Any]] = {}
    at = 0
    value: Union[int, bytes]
    while at < len(data):
        tag, at = _varint(data, at)
        kind = tag & 7
        if kind == 0:
            value, at = _varint(data, at)
        elif kind in (1, 2, 5):
            size, at = _varint(data, at) if kind == 2 else (8 if kind == 1 else 4, at)
            value, at = data[at:at + size], at + size
        if kind not in (0, 1, 2, 5) or at > len(data):
            raise Malformed
        found.setdefault(tag >> 3, []).append(value)
    return found


def _only(found: dict[int, list[Any]], field: int, kind: type[Kind]) -> Optional[Kind]:
    """The last value of a field; of another kind it is malformed."""
    value = found.get(field, [None])[-1]
    if value is not None and not isinstance(value, kind):
        raise Malformed
    return value


def snapshot_of(data: bytes) -> Snapshot:
    """The snapshot of a revision of PostgreSQL; raises Malformed."""
    found = fields(data)
    xmin, width, own = (_only(found, field, int) for field in (1, 2, 4))
    running = set()
    for packed in found.get(3, ()):
        if not isinstance(packed, bytes):
            raise Malformed
        at = 0
        while at < len(packed):
            relative, at = _varint(packed, at)
            running.add(relative)
    width = width or 0
    # A number below zero has its highest bit set, and is above every width.
    if not xmin or width >= 1 << 63 or any(relative >= width for relative in running):
        raise Malformed
    return Snapshot(xmin, xmin + width, frozenset(xmin + relative for relative in running), own)


def _bytes_of(text: str) -> bytes:
    """The bytes of base64, whose padding may have been left out."""
    return base64.b64decode(text + "=" * (-len(text) % 4), validate=True)


def _revision_text(token: str) -> str:
    """The datastore's revision in a token."""
    data = _bytes_of(token)
    # As a rule there is nothing but field 3, and in it nothing but field 1.
    if 3 < len(data) < 128 and data[:4] == bytes((0x1a, len(data) - 2, 0x0a, len(data) - 4)):
        return data[4:].decode("ascii")
    found = fields(data)
    inner = _only(found, 3, bytes)
    if inner is not None:
        return _needed(_only(fields(inner), 1, bytes)).decode("ascii")
    return str(_needed(_only(fields(_needed(_only(found, 2, bytes))), 1, int)))


def _needed(value: Optional[Kind]) -> Kind:
    if value is None:
        raise Malformed
    return value


def _of_text(text: str) -> Revision:
    if OLDER.fullmatch(text):
        raise Older
    number = NUMBER.fullmatch(text)
    if number:
        return Revision(int(number[1]) * 10 ** 10 + int(number[2] or 0), None, text)
    snapshot = snapshot_of(_bytes_of(text))
    return Revision(None, snapshot, str(snapshot))


def read_revision(text: object) -> Optional[Revision]:
    """The revision of a token, or of a number in its place; None where the text is neither. Raises Older."""
    if not isinstance(text, str):
        return None
    # Many checks have one token.
    return _known(text) if len(text) <= KEPT else _read_text(text)


@lru_cache(1 << 12)
def _known(text: str) -> Optional[Revision]:
    return _read_text(text)


def _read_text(text: str) -> Optional[Revision]:
    try:
        return _of_text(text if NUMBER.fullmatch(text) or OLDER.fullmatch(text) else _revision_text(text))
    except (Malformed, binascii.Error, ValueError, TypeError, AttributeError):
        return None
