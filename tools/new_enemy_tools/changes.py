"""Of a finding the change that its reply ignored: the commit from which on another answer had to be given.

Of commits that bear on the question it is the first after which the reply is not right any more. Where none bears on it, it is the newest that
was ignored. Of a wrong reply it is the last change before its snapshot by which the reply came to be wrong.
"""
from typing import Optional

from new_enemy_tools.effects import Change, Effect, Effects
from new_enemy_tools.entries import Commit, Entry
from new_enemy_tools.meaning import Outgrown
from new_enemy_tools.quick_reach import Look
from new_enemy_tools.reach import Reach, commit_at
from new_enemy_tools.texts import Tuple
from new_enemy_tools.token_order import Window, ignored
from new_enemy_tools.trace import Trace

# So many commits are looked at for one finding, and so many questions in all; of more the change is not told.
LOOKED = 20
QUESTIONS = 20_000
# Of a wrong reply so many commits before its snapshot are gone through, and where none of these made it wrong, so many more.
SPANS = (64, 4_096, 1 << 40)


class Unseen(Exception):
    """What cannot be seen quickly."""


class Changes:
    """What is found of one question is kept."""

    def __init__(self, trace: Trace, effects: Effects):
        self.trace, self.effects = trace, effects
        self._known: dict[tuple[Tuple, bool, Window, str], Optional[Change]] = {}
        self._looked = 0

    def of(self, entry: Entry, finding: str, effect: Effect) -> Optional[Change]:
        if finding in ("F4", "F5") or effect.word == "undecided":
            return None
        window = Window(-1, entry.snapshot) if effect.word == "wrong" else ignored(self.trace, entry, finding)
        key = (entry.goal, entry.reply, window, effect.word)
        if key not in self._known:
            self._known[key] = self._found(entry, window, effect.word)
        return self._known[key]

    def _found(self, entry: Entry, window: Window, effect: str) -> Optional[Change]:
        if effect == "none":
            place = self.trace.commits.during(*window)
            return self._change(self.trace.commits[place[-1]], False) if place else None
        self._looked += 1
        if self._looked > QUESTIONS:
            return None
        try:
            at = self._turn(entry) if effect == "wrong" else self._first(entry, window, effect)
        except Outgrown:
            return None
        commit = None if at is None else commit_at(self.trace, at)
        return None if commit is None else self._change(commit, True)

    def _turn(self, entry: Entry) -> Optional[int]:
        """Of a wrong reply the last commit up to its snapshot before which it was right. It is looked for among few commits first."""
        ats, end = self.trace.commits.ats, self.trace.commits.during(-1, entry.snapshot).stop
        for span in SPANS:
            low = ats[end - span] - 1 if span < end else -1
            touching = Reach(self.trace, entry.goal, Window(low, entry.snapshot)).touching()
            for at in touching[:-LOOKED - 1:-1]:
                if at and self.effects.holds(entry.goal, at - 1) == entry.reply:
                    return at
            if span >= end or len(touching) >= LOOKED:
                return None
        return None

    def _first(self, entry: Entry, window: Window, effect: str) -> Optional[int]:
        try:
            return self._first_quickly(entry, window, effect)
        except Unseen:
            pass
        low, found = window.low, Reach(self.trace, entry.goal, window).touching()[:LOOKED]
        if effect == "changed":
            found = [at for at in found if self.effects.holds(entry.goal, at) != entry.reply]
        # What touches only what a later commit leads to does not bear on the question yet.
        return next((at for at in found if Reach(self.trace, entry.goal, Window(low, at)).touching()), None)

    def _first_quickly(self, entry: Entry, window: Window, effect: str) -> Optional[int]:
        """By quick looks alone; raises Unseen. Whether commits up to one touch a goal never turns to no with more of them."""
        ats, places, low = self.trace.commits.ats, self.trace.commits.during(*window), window.low
        start = places.start
        for _ in range(LOOKED):
            first, end = start, places.stop - 1
            if first > end or not self._look(entry, low, ats[end]).is_touched:
                return None
            while first < end:
                middle = (first + end) // 2
                first, end = (first, middle) if self._look(entry, low, ats[middle]).is_touched else (middle + 1, end)
            at, start = ats[first], first + 1
            if effect != "changed" or self._look(entry, low, at).holds != entry.reply:
                return at
            low = at
        return None

    def _look(self, entry: Entry, low: int, high: int) -> Look:
        look = self.trace.look(entry.goal, low, high)
        if look is None:
            raise Unseen
        return look

    @staticmethod
    def _change(commit: Commit, bears: bool) -> Change:
        return Change(commit.at, commit.line, commit.time, bears)
