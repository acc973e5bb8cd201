"""Keys that no rule reads, and the key that was meant by one."""
from functools import lru_cache
from typing import Iterator, NamedTuple, Optional

from new_enemy_tools.rules import FORMS, children_of, form_of
from new_enemy_tools.strictjson import Object

NEAR = 0.7
# Likeness takes the square of a key's length, and no key that is read is longer.
LONGEST = 64
EXPRESSION = frozenset(FORMS)
PARTS: dict[str, frozenset[str]] = {
    "this": frozenset(), "tuple_to": frozenset(("tupleset", "computed")), "exclusion": frozenset(("base", "subtract"))}


class Unread(NamedTuple):
    """A key that no rule reads, and those that could stand there."""

    key: str
    known: frozenset[str]

    def said(self, where: str = "") -> str:
        meant = near(self.key, self.known)
        return "unknown key %s%s%s" % (_quoted(self.key), where, "; is %s meant?" % _quoted(meant) if meant else "")


def _quoted(key: str) -> str:
    return '"%s"' % (key if len(key) <= LONGEST else key[:LONGEST] + "..")


def near(key: str, known: frozenset[str]) -> Optional[str]:
    """The known key that is most like this one, if one is."""
    # A longer one is not kept either.
    return _near(key, known) if len(key) <= LONGEST else None


@lru_cache(1 << 12)
def _near(key: str, known: frozenset[str]) -> Optional[str]:
    # It is seldom needed, and takes long to load.
    from difflib import get_close_matches

    folded = {one.lower(): one for one in known}
    found = get_close_matches(key.lower(), folded, 1, NEAR)
    return folded[found[0]] if found else None


def unread(value: object, known: frozenset[str]) -> Iterator[Unread]:
    """The keys of an object that are none of these."""
    if isinstance(value, dict) and not value.keys() <= known:
        for key in value:
            if key not in known:
                yield Unread(key, known)


def unread_in_expression(expression: Object) -> Iterator[Unread]:
    """Those of an expression that has its shape."""
    yield from unread(expression, EXPRESSION)
    form = form_of(expression)
    if form in PARTS:
        yield from unread(expression[form], PARTS[form])
    for child in children_of(expression):
        yield from unread_in_expression(child)
