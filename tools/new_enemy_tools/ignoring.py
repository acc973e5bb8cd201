"""Findings that are not told, each with a reason and a day on which that ends: a file of JSON lines.

    {"finding":"F3","object":"2024/*","reason":"the nightly job reads old snapshots","until":"2027-01-31"}

A row hides what all of its keys match. A wrong reply or a changed answer is hidden only where the row names its key or its effect.
"""
import json
import re
from datetime import date
from typing import Callable, NamedTuple, Optional

from new_enemy_tools.effects import EFFECTS
from new_enemy_tools.faults import ToolFault
from new_enemy_tools.findings import FORMS

PATTERNS = ("namespace", "object", "relation", "user")
EXACT: dict[str, Callable[[str], bool]] = {
    "finding": lambda text: text in FORMS, "effect": lambda text: text in EFFECTS,
    "kind": lambda text: text in ("check", "content"), "key": lambda text: re.fullmatch("[0-9a-f]{16}", text) is not None}
WORST = ("wrong", "changed")


class IgnoreFault(ToolFault):
    """What is wrong with a row, with its file and line."""


class Row(NamedTuple):
    place: str
    matched: dict[str, str]
    reason: str
    until: date

    def hides(self, parts: dict[str, str]) -> bool:
        """Whether it hides a finding, by its parts."""
        if parts["effect"] in WORST and not {"key", "effect"} & set(self.matched):
            return False
        return all(_is_like(wanted, parts[name]) if name in PATTERNS else wanted == parts[name]
                   for name, wanted in self.matched.items())


def _is_like(wanted: str, text: str) -> bool:
    """Whether a text is as wanted, where a star stands for any letters."""
    first, *rest = wanted.split("*")
    if not rest:
        return wanted == text
    if not text.startswith(first):
        return False
    at = len(first)
    for part in rest[:-1]:
        found = text.find(part, at)
        if found < 0:
            return False
        at = found + len(part)
    return len(text) - at >= len(rest[-1]) and text.endswith(rest[-1])


def _day(value: object) -> Optional[date]:
    try:
        return date.fromisoformat(value) if isinstance(value, str) and re.fullmatch("[0-9]{4}-[0-9]{2}-[0-9]{2}", value) else None
    except ValueError:
        return None


def _row(place: str, line: str) -> Row:
    try:
        value = json.loads(line)
    except (ValueError, RecursionError) as fault:
        raise IgnoreFault("%s: not JSON: %s" % (place, fault)) from None
    if not isinstance(value, dict):
        raise IgnoreFault("%s: no object" % place)
    known = [*EXACT, *PATTERNS, "reason", "until"]
    for name, given in value.items():
        if name not in known:
            raise IgnoreFault("%s: the key %r is none of %s" % (place, name, ", ".join(known)))
        if not isinstance(given, str) or not given:
            raise IgnoreFault("%s: `%s` is no text" % (place, name))
        if name in EXACT and not EXACT[name](given):
            raise IgnoreFault("%s: `%s` is %r, which no finding has" % (place, name, given))
    until = _day(value.get("until"))
    if "reason" not in value or until is None:
        raise IgnoreFault("%s: a row needs a `reason`, and a day `until` which it holds, as \"2027-01-31\"" % place)
    matched = {name: given for name, given in value.items() if name not in ("reason", "until")}
    if not matched:
        raise IgnoreFault("%s: a row says what it hides, by one of %s" % (place, ", ".join([*EXACT, *PATTERNS])))
    return Row(place, matched, value["reason"], until)


def read_rows(path: str, data: bytes) -> list[Row]:
    """The rows of a file; raises IgnoreFault on the first that is none."""
    lines = data.decode("utf-8", "replace").splitlines()
    return [_row("%s:%d" % (path, number), line) for number, line in enumerate(lines, 1) if line.strip()]
