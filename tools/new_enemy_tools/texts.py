"""The texts of docs/FORMATS.md: names, object ids, tuples, facts and zookies."""
import functools
import re
from typing import NamedTuple, NoReturn, Optional, Union

from new_enemy_tools import limits

NAME = re.compile(r"[a-z][a-z0-9_]{0,%d}" % (limits.NAME_BYTES - 1))
OBJECT_ID = re.compile(r"[^\x00-\x20\x7f#@]+")
NUMBER = re.compile(r"0|[1-9][0-9]{0,19}")
ZOOKIE = re.compile("z(?:1-|2-([wcr]))([0-9a-f]{16})")
NO_RELATION = "..."


class TextFault(Exception):
    """The leftmost part of a text that fails, and the byte at which it begins."""

    def __init__(self, part: str, at: int):
        super().__init__("bad text, %s at %d" % (part, at))
        self.part = part
        self.at = at


class ZookieFault(Exception):
    """Why a text is no zookie."""


class Userset(NamedTuple):
    namespace: str
    id: str
    relation: str

    def __str__(self) -> str:
        return "%s:%s#%s" % self


class Tuple(NamedTuple):
    set: Userset
    user: Union[int, Userset]

    def __str__(self) -> str:
        return "%s@%s" % self


def is_name(text: str) -> bool:
    return NAME.fullmatch(text) is not None


def is_object_id(text: str) -> bool:
    return OBJECT_ID.fullmatch(text) is not None and len(text.encode()) <= limits.OBJECT_ID_BYTES


def number_of(text: str) -> Optional[int]:
    """The user id that a text is, or None."""
    if NUMBER.fullmatch(text) and int(text) <= limits.NUMBER:
        return int(text)
    return None


def userset_of(text: str) -> Userset:
    """A userset as it may stand as a user; raises TextFault where it is none."""
    namespace, colon, rest = text.partition(":")
    if not colon or not is_name(namespace):
        raise TextFault("user", 0)
    id_text, hash_sign, relation = rest.partition("#")
    if not hash_sign or not is_object_id(id_text) or not (relation == NO_RELATION or is_name(relation)):
        raise TextFault("user", 0)
    return Userset(namespace, id_text, relation)


def parse_tuple(text: str) -> Tuple:
    namespace, colon, rest = text.partition(":")
    if not colon or not is_name(namespace):
        raise TextFault("namespace", 0)
    at = len(namespace) + 1
    id_text, hash_sign, rest = rest.partition("#")
    if not hash_sign or not is_object_id(id_text):
        raise TextFault("object id", at)
    at += len(id_text.encode()) + 1
    relation, at_sign, user = rest.partition("@")
    if not at_sign or not is_name(relation):
        raise TextFault("relation", at)
    at += len(relation) + 1
    number = number_of(user)
    if number is not None:
        return Tuple(Userset(namespace, id_text, relation), number)
    try:
        return Tuple(Userset(namespace, id_text, relation), userset_of(user))
    except TextFault:
        raise TextFault("user", at) from None


def parse_fact(text: str) -> Tuple:
    """A tuple whose user is an id."""
    read = parse_tuple(text)
    if isinstance(read.user, Userset):
        raise TextFault("user", len(str(read.set).encode()) + 1)
    return read


def zookie_text(at: int) -> str:
    return "z1-%016x" % at


@functools.lru_cache(maxsize=1 << 16)
def parse_zookie(text: str) -> tuple[int, Optional[str]]:
    """The timestamp, and the kind of version 2."""
    found = ZOOKIE.fullmatch(text)
    return (int(found[2], 16), found[1]) if found else _refuse_zookie(text)


def _refuse_zookie(text: str) -> NoReturn:
    """Raises ZookieFault with the first fault."""
    raw = text.encode()
    digits = 4 if raw.startswith(b"z2-") else 3
    if len(raw) != digits + 16:
        raise ZookieFault("bad zookie, length")
    if not raw.startswith((b"z1-", b"z2-")):
        raise ZookieFault("bad zookie, prefix")
    for at in range(digits, digits + 16):
        if raw[at] not in b"0123456789abcdef":
            raise ZookieFault("bad zookie, digit at %d" % at)
    raise ZookieFault("bad zookie, kind")
