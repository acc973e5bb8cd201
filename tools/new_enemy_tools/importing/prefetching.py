"""Lines that are taken while others are still read, where nothing of what is done with them hangs on all of them."""
from typing import Any, Iterator, Union

from new_enemy_tools.importing.events import Event
from new_enemy_tools.importing.packed_blocks import Packed
from new_enemy_tools.importing.refusals import Refusals
from new_enemy_tools.importing.spool import Facts, Lines

# What matters to lines that stand before the one that has it.
LATE = ("has_newest", "has_between", "has_groups", "has_every", "has_asked", "has_calls")


class Ahead:
    """What is refused meanwhile is kept apart, since it is told behind what is refused of the `reading`."""

    def __init__(self, lines: Lines, refusals: Refusals, reading: Refusals):
        self.lines, self.refusals, self.reading = lines, refusals, reading
        self._rules = len(lines.rules)
        self._is_over = False

    def may_begin(self) -> bool:
        """Whether lines that were read so far are plain."""
        return bool(self.lines.facts.count) and self._is_plain(self.lines.facts)

    def stream(self, more: Iterator[object]) -> Iterator[Union[Packed, Event, tuple[Any, ...]]]:
        """The lines, as they are read, up to one with which this ends."""
        for found in self.lines.growing(more):
            if not self._is_plain(self.lines.facts):
                self._is_over = True
                return
            yield found

    def stands(self, lines: Lines) -> bool:
        """Whether what was done is right, by all lines."""
        return not self._is_over and lines is self.lines and self._is_plain(lines.facts)

    def _is_plain(self, facts: Facts) -> bool:
        """By the lines so far: of one file and one day, in their order, without rules that change, and with all versions that they name."""
        is_known = self.reading.gap_since is None and not self.reading.versions and not self.reading.has_lost_version
        is_known &= not facts.is_sequenced or facts.is_rising
        is_known &= next(facts.numbers.holes(), None) is None
        return is_known and not any(getattr(facts, name) for name in LATE) and facts.last_base < 0 and len(facts.sources) < 2 and (
            len(self.lines.rules) == self._rules)
