"""The rules of a service as the log has them, and tuples of them."""
from itertools import islice
from typing import Iterable, Iterator, NamedTuple, Optional

from new_enemy_tools.importing.events import Relationship
from new_enemy_tools.importing.refusals import Refusals
from new_enemy_tools.importing.service import ServiceRules
from new_enemy_tools.recording.lines import TUPLES, Came, base_lines, hash_of_rules, rules_line, unmapped_line


class Unread(Exception):
    """Why rules can't be read."""


def refuse_unread(rules: Optional[ServiceRules], refusals: Refusals) -> None:
    if rules is None or refusals.refused:
        raise Unread("the rules can't be read: %s" % "; ".join(one.text for one in list(refusals.refused)[:3]))


class Ruled(NamedTuple):
    """Rules in force from a revision on; `left_out` are the lines for what a log has no form for."""

    revision: int
    id: Optional[str]
    hash: str
    data: bytes
    rules: ServiceRules


def ruled(rules: Optional[ServiceRules], refusals: Refusals, revision: int, is_first: bool, came: Optional[Came] = None) -> Ruled:
    """Raises Unread, where the reader of the rules refused them."""
    refuse_unread(rules, refusals)
    assert rules is not None
    reasons = ", ".join(refusals.left_out) or "rule without a form"
    left_out = b"".join(unmapped_line(reasons, userset=doubt) for doubt in refusals.doubts)
    return Ruled(revision, rules.id, hash_of_rules(rules), rules_line(rules, None if is_first else revision, rules.id, came) + left_out, rules)


class Takes:
    """Which users relations take, by all rules so far."""

    def __init__(self) -> None:
        self.takes: dict[tuple[str, str], set[tuple[str, Optional[str]]]] = {}

    def add(self, rules: ServiceRules) -> None:
        for name, taken in rules.takes.items():
            self.takes.setdefault(name, set()).update(taken)

    def unmapped(self, given: Relationship, reason: Optional[str], is_base: bool) -> Optional[bytes]:
        """The line for a tuple that has no form in the log, for this reason or because no rules take it; None where it has one."""
        if reason is None and (given.user_type, given.user_relation) in self.takes.get((given.type, given.relation), ()):
            return None
        return unmapped_line(reason or "tuple that the rules do not take", str(given), given[:3], base=is_base)

    def base_lines(self, revision: int, given: Iterator[tuple[Relationship, Optional[str]]]) -> Iterator[bytes]:
        """The base state, which may be long; one line at least."""
        some = list(islice(given, TUPLES))
        while True:
            kept, unmapped = self.sorted_out(some, True)
            yield unmapped + b"".join(base_lines(revision, kept))
            some = list(islice(given, TUPLES))
            if not some:
                return

    def sorted_out(self, given: Iterable[tuple[Relationship, Optional[str]]], is_base: bool = False) -> tuple[list[Relationship], bytes]:
        """The tuples that have a form, and the lines for the others."""
        kept, lines = [], []
        for relationship, reason in given:
            unmapped = self.unmapped(relationship, reason, is_base)
            if unmapped is None:
                kept.append(relationship)
            else:
                lines.append(unmapped)
        return kept, b"".join(lines)
