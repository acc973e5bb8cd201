"""Whether a finding mattered: what the commits that an entry ignored do to its answer.

The effect of a finding on tokens is one of
  none      no ignored commit bears on the question: it touches nothing that the goal leads to
  possible  some does, and the reply is the answer at the newest state that had to be seen
  changed   some does, and the reply is not the answer there
A wrong reply is `wrong`; what lacks good evidence, or whose goal leads to too much to be looked at, is `undecided`. The answers are the
tools' own; the program's audit does not lean on them.
"""
from typing import Iterable, NamedTuple, Optional

from new_enemy_tools.entries import Entry
from new_enemy_tools.findings import Finding
from new_enemy_tools.meaning import Outgrown, Settled
from new_enemy_tools.quick_reach import UNTOUCHED, Look
from new_enemy_tools.reach import Reach
from new_enemy_tools.texts import Tuple
from new_enemy_tools.token_order import Window, ignored
from new_enemy_tools.trace import Trace

# The worst first.
EFFECTS = ("wrong", "changed", "undecided", "possible", "none")
RANKS = {word: rank for rank, word in enumerate(EFFECTS)}
MEANT = {"wrong": "the reply is wrong at its own snapshot",
         "changed": "the answer that had to be seen is another",
         "undecided": "nothing was shown of the reply",
         "possible": "an ignored commit bears on the question, and the answer is the same",
         "none": "no ignored commit bears on the question"}
SEVERITIES = {"wrong": "error", "changed": "error", "undecided": "warning", "possible": "warning", "none": "note"}
UNDECIDED = ("F7", "F8", "F9")


class Effect(NamedTuple):
    """The effect, and of a finding on tokens the newest state that had to be seen."""

    word: str
    seen: Optional[int]

    @property
    def rank(self) -> int:
        return RANKS[self.word]

    @property
    def severity(self) -> str:
        return SEVERITIES[self.word]


class Change(NamedTuple):
    """A commit that was ignored: its timestamp, its line, and when it was made, as far as the log says so."""

    at: int
    line: int
    time: Optional[str]
    # whether it bears on the question
    bears: bool


# what is known of findings on evidence without a look at the commits
WITHOUT_WINDOW = {"F10": Effect("wrong", None), **dict.fromkeys(UNDECIDED, Effect("undecided", None))}


class Effects:
    """The effects of findings; an answer that was found once is kept."""

    FEW = 64

    def __init__(self, trace: Trace):
        self.trace = trace
        self._answers: dict[tuple[Tuple, int], bool] = {}
        self._looks: dict[tuple[Tuple, Window], Look] = {}

    def holds(self, goal: Tuple, at: int) -> bool:
        """Whether a goal holds at a snapshot."""
        known = self._answers.get((goal, at))
        if known is None:
            known = self._answers[goal, at] = Settled(self.trace.rules, self.trace.store, goal, at).holds()
        return known

    def of(self, entry: Entry, finding: str) -> Effect:
        """The effect of a finding, F1 to F10, of an entry that has it."""
        if finding in WITHOUT_WINDOW:
            return WITHOUT_WINDOW[finding]
        window = ignored(self.trace, entry, finding)
        try:
            return Effect(self._word(entry, window), window.high)
        except Outgrown:
            return Effect("undecided", window.high)

    def _look(self, goal: Tuple, window: Window) -> Look:
        """What the commits of a window do to a goal. Of few commits it is quickly seen that they do nothing."""
        places = self.trace.commits.during(*window)
        if len(places) <= self.FEW and not self.trace.may_touch(places, goal) or not Reach(self.trace, goal, window).touching():
            return UNTOUCHED
        return Look(True, self.holds(goal, window.high))

    def _word(self, entry: Entry, window: Window) -> str:
        look = self._looks.get((entry.goal, window))
        if look is None:
            look = self._looks[entry.goal, window] = self.trace.look(entry.goal, *window) or self._look(entry.goal, window)
        if not look.is_touched:
            return "none"
        return "possible" if look.holds == entry.reply else "changed"


class RatedFinding(NamedTuple):
    """A finding with its entry, its effect, and the change that was ignored."""

    finding: Finding
    entry: Entry
    effect: Effect
    change: Optional[Change] = None
    # whether someone was let in to a version, although a change from before it was to keep them out
    is_new_enemy: bool = False

    @property
    def reply(self) -> tuple[object, ...]:
        """What the entries of one check have in common that stands in the trace at several states."""
        entry = self.entry
        return (entry.source, entry.goal, entry.reply) if entry.source is not None else (entry.line,)

    @property
    def outcome(self) -> Optional[str]:
        """What a reply that was wrong, or is another by now, did to the user."""
        if self.effect.word not in ("wrong", "changed"):
            return None
        return "let in" if self.entry.reply else "kept out"


def by_effect(told: Iterable[RatedFinding]) -> list[RatedFinding]:
    """New enemies first and then the worst, otherwise in the order of the report."""
    return sorted(told, key=lambda one: (not one.is_new_enemy, RANKS[one.effect.word]))
