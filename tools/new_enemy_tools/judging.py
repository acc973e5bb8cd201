"""The judgement of an entry's evidence, as docs/FORMATS.md has it, and what is wrong with a step that is not accepted."""
from typing import NamedTuple, Optional

from new_enemy_tools import texts
from new_enemy_tools.entries import Entry
from new_enemy_tools.meaning import Known
from new_enemy_tools.strictjson import Object
from new_enemy_tools.texts import Tuple, Userset
from new_enemy_tools.trace import Trace


class Judgement(NamedTuple):
    """The finding on evidence, or None, and what it rests on; where the goal is settled, also what is known of its user."""

    finding: Optional[str]
    why: str
    known: Optional[Known] = None


def judge(trace: Trace, entry: Entry, steps: Optional[list[Object]]) -> Judgement:
    if steps is None:
        return Judgement("F7 no evidence", "The evidence has no record of this line.")
    known: dict[int, Known] = {}
    for number, step in enumerate(steps, 1):
        facts = [texts.parse_fact(fact) for fact in ([step["yes"]] if "yes" in step else step["no"])]
        by_user: dict[int, list[Userset]] = {}
        for fact in facts:
            assert isinstance(fact.user, int)
            by_user.setdefault(fact.user, []).append(fact.set)
        for user, sets in by_user.items():
            of_user = known.setdefault(user, Known(trace.rules, trace.store, user, entry.snapshot))
            refused = _take(of_user, sets, "yes" in step)
            if refused is not None:
                return Judgement("F8 bad evidence at step %d" % number, "%s `%s` is not accepted: %s" % (
                    "The step yes" if "yes" in step else "In the step no,", Tuple(refused, user), _why(of_user, refused)))
    goal = known.get(_user_of(entry))
    answer = None if goal is None else goal.known.get(entry.goal.set)
    if answer is None:
        return Judgement("F9 silent evidence", "The steps are accepted, and none of them answers the question itself.")
    return Judgement(None if answer == entry.reply else "F10 wrong reply", "", goal)


def _user_of(entry: Entry) -> int:
    assert isinstance(entry.goal.user, int)
    return entry.goal.user


def _take(known: Known, sets: list[Userset], is_yes: bool) -> Optional[Userset]:
    """Takes what a step says of one user, or answers the first userset that is not accepted."""
    if is_yes:
        if known.of_rule(sets[0]) is not True:
            return sets[0]
        known.known[sets[0]] = True
        return None
    # The facts of a step count as known no together; what a step before has as known yes stays known.
    before = dict(known.known)
    known.known.update((of, False) for of in sets)
    for of in sets:
        if known.of_rule(of) is not False:
            known.known = before
            return of
    return None


def _why(known: Known, of: Userset) -> str:
    if not known.is_declared(of):
        return "its relation is not declared at the snapshot."
    said = {True: "its rule holds, by what is stored and the steps before.", False: "its rule does not hold, by what is stored and the steps before.",
            None: "its rule hangs on what no step before shows."}
    return said[known.of_rule(of)]
