"""Which part a line stands in: by its object an entry, by its entry a record, and everywhere what is neither.

The namespace, `:` and the object id of an entry's goal, as UTF-8 and without the escapes of JSON, are hashed by BLAKE2b to 8
bytes with no key. These are a number, the most significant byte first, and the part is its remainder by the number of parts,
plus 1.
"""
from hashlib import blake2b
from typing import Optional

from new_enemy_tools import texts
from new_enemy_tools.strictjson import is_u64
from new_enemy_tools.trace_lines import value_in

EVERYWHERE = 0
KNOWN = 1 << 16


def part_of(thing: bytes, parts: int) -> int:
    """The part of an object, from 1."""
    return int.from_bytes(blake2b(thing, digest_size=8).digest(), "big") % parts + 1


def object_of(line: bytes) -> Optional[bytes]:
    """The object of an entry whose goal can be read; None for any other line."""
    if b"\\" not in line and b'"check"' not in line and b'"content"' not in line:
        return None
    value = value_in(line)
    if value.get("kind") not in ("check", "content") or not isinstance(value.get("goal"), str):
        return None
    try:
        of = texts.parse_fact(value["goal"]).set
    except texts.TextFault:
        return None
    return ("%s:%s" % (of.namespace, of.id)).encode()


def line_of(record: bytes) -> Optional[int]:
    """The line that a record names, where that can be read."""
    line = value_in(record).get("line")
    return line if is_u64(line) else None


class Objects(dict[bytes, int]):
    """The parts of objects; those last asked for are kept."""

    def __init__(self, parts: int):
        super().__init__()
        self.parts = parts

    def __missing__(self, thing: bytes) -> int:
        if len(self) >= KNOWN:
            self.clear()
        part = self[thing] = part_of(thing, self.parts)
        return part
