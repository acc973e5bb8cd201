"""The changes of several logs as one list, on which the states of each log have their places.

The recorders of OpenFGA may have changes in different orders, and one knows of a write that its changes came at once where another does not.
The list has the order of the log that began first; and what one of them knows to have come at once stands together.
"""
import heapq
from collections import deque
from typing import Any, Callable, Collection, Iterator, NamedTuple, Optional

from new_enemy_tools.importing.events import Relationship
from new_enemy_tools.recording.lines import ODD
from new_enemy_tools.recording.sketches import Change, JoinFault, Sketch, Unreached, Value

NEVER = 1 << 62
Bears = Callable[[Change], bool]


class Span(NamedTuple):
    """The places at which a state stands on the list, as far as it bears on a question."""

    low: int
    high: int


class Found:
    """Changes by what they are known by, each of which is taken once."""

    def __init__(self) -> None:
        self.listed: dict[tuple[Any, ...], deque[int]] = {}

    def add(self, key: tuple[Any, ...], one: int) -> None:
        self.listed.setdefault(key, deque()).append(one)

    def take(self, key: tuple[Any, ...], taken: dict[int, int]) -> Optional[int]:
        listed = self.listed.get(key)
        while listed:
            one = listed.popleft()
            if one not in taken:
                return one
        return None


class Track:
    """Where the states of a log stand. `ranks` says of each change that it has, behind how many of its own steps it came; 0 is its base.

    The state behind a step has all changes up to `solid`, and none behind `span`.
    """

    def __init__(self, ranks: dict[int, int], steps: int, spine: "Spine"):
        self.ranks, self.spine = ranks, spine
        self.solid: list[int] = []
        self.span: list[int] = []
        had = [0] * (len(spine.groups) + 1)
        came: dict[int, list[int]] = {}
        for change, rank in ranks.items():
            came.setdefault(rank, []).append(spine.at[change])
        solid = span = 0
        for step in range(steps + 1):
            for place in came.get(step, ()):
                had[place] += 1
                span = max(span, place)
            while solid < len(spine.groups) and had[solid + 1] == len(spine.groups[solid]):
                solid += 1
            self.solid.append(solid)
            self.span.append(span)

    def whole(self, step: int) -> Optional[int]:
        """The place at which all of a state stands, where there is one."""
        return self.solid[step] if self.solid[step] == self.span[step] else None

    def spans(self, low: int, high: int, bears: Bears) -> Optional[list[Span]]:
        """Where the states behind some steps stand, as far as they bear on a question; None where one stands nowhere. A state that has a
        part of what came at once was none."""
        found = []
        for step in range(low, high + 1):
            span = self._span(step, bears)
            if span is None:
                return None
            if span.low >= 0:
                found.append(span)
        return found or None

    def _span(self, step: int, bears: Bears) -> Optional[Span]:
        low, high = self.solid[step], self.span[step]
        for place in range(low + 1, high + 1):
            here = {self.ranks.get(one, NEVER) <= step for one in self.spine.groups[place - 1] if bears(self.spine.changes[one])}
            if len(here) == 2:
                return Span(-1, -1)
            if True in here:
                low = place
            elif False in here:
                high = min(high, place - 1)
        return Span(low, high) if low <= high else None


class Spine:
    """Changes in groups that came at once, by their places from 1 on."""

    def __init__(self, first: Sketch, odd: Collection[Relationship] = ()):
        """`odd` are tuples of which it was said already that they do not come by turns: they stand as they were read."""
        self.base, self.first, self.told_odd = first.revision, first, frozenset(odd)
        self.changes: list[Change] = []
        # what came at once by the steps of some log
        self.together: list[list[int]] = []
        self.groups: list[list[int]] = []
        self.at: dict[int, int] = {}
        # tuples that do not come by turns: of these it is not known whether they are there
        self.odd: set[Relationship] = set(odd)
        # changes of which it was said already what came at once with them
        self.fixed: set[int] = set()
        self.ranks = [self._added(first)]

    @property
    def count(self) -> int:
        return len(self.groups)

    def number(self, place: int) -> int:
        """The revision at a place."""
        return self.base + place

    def keys(self, place: int) -> list[tuple[Any, ...]]:
        """What the changes at a place are known by."""
        return [self.changes[one].key for one in self.groups[place - 1]]

    def odd_until(self, place: int) -> set[Relationship]:
        """The tuples of which the lines up to a place say that they do not come by turns."""
        return self.odd.intersection(given for group in self.groups[:place] for one in group for given in self.changes[one].tuples)

    def lines(self, place: int) -> Iterator[Value]:
        for one in self.groups[place - 1]:
            change = self.changes[one]
            yield from change.before
            for given in self.odd.intersection(change.tuples):
                yield {"event": "unmapped", "reason": ODD, "detail": str(given), "userset": [*given[:3]]}
            yield {**change.value, "revision": self.number(place)}
            yield from change.behind

    def add(self, sketch: Sketch) -> None:
        """Finds the changes of another log again, and puts behind all others what only it has."""
        before = len(self.changes)
        ranks = self._added(sketch)
        others = [one for one in range(before) if one not in ranks]
        ranks.update(dict.fromkeys(self._in_base(sketch, others), 0))
        self.ranks.append(ranks)

    def fix(self, place: int) -> None:
        """The order of the changes up to a place stays, whatever other logs say of what came at once."""
        self._order()
        self.fixed = {one for group in self.groups[:place] for one in group}

    def end(self) -> list[Track]:
        """All logs are there."""
        self._order()
        return [Track(ranks, max(ranks.values(), default=0), self) for ranks in self.ranks]

    def _order(self) -> None:
        """A group stands where the last of it does."""
        while True:
            lead = self._leaders()
            groups: dict[int, list[int]] = {}
            for one, last in enumerate(lead):
                groups.setdefault(last, []).append(one)
            order = self._by_turns(groups, lead)
            if len(order) == len(groups):
                break
            # No order has all of these at once and each tuple by turns, so what some log knows of them is not taken.
            placed = set(order)
            self.together = [group for group in self.together if lead[group[0]] in placed]
        self.groups = [groups[last] for last in order]
        self.at = {one: place for place, group in enumerate(self.groups, 1) for one in group}

    def _leaders(self) -> list[int]:
        """Of each change the last of its group."""
        lead = list(range(len(self.changes)))

        def last_of(one: int) -> int:
            while lead[one] != one:
                lead[one] = one = lead[lead[one]]
            return one
        for group in self.together:
            for one in group[1:]:
                first, last = sorted((last_of(group[0]), last_of(one)))
                lead[first] = last
        return list(map(last_of, lead))

    def _by_turns(self, groups: dict[int, list[int]], lead: list[int]) -> list[int]:
        """The groups in their order, but that each tuple comes and goes by turns; without those that go round in a circle by that."""
        behind: dict[int, list[int]] = {}
        waits = dict.fromkeys(groups, 0)
        for turns in self._turns().values():
            for before, here in zip(turns, turns[1:]):
                if lead[before] != lead[here]:
                    behind.setdefault(lead[before], []).append(lead[here])
                    waits[lead[here]] += 1
        ready = [group for group, count in waits.items() if not count]
        heapq.heapify(ready)
        found: list[int] = []
        while ready:
            group = heapq.heappop(ready)
            found.append(group)
            for one in behind.get(group, ()):
                waits[one] -= 1
                if not waits[one]:
                    heapq.heappush(ready, one)
        return found

    def _turns(self) -> dict[Relationship, list[int]]:
        """The changes of each tuple by turns. A recorder that read a change too late has it behind the next one of its tuple."""
        of: dict[Relationship, list[int]] = {}
        for one, change in enumerate(self.changes):
            for given in change.tuples:
                of.setdefault(given, []).append(one)
        for given in self.told_odd & of.keys():
            of[given] = []
        for given, listed in of.items():
            sides = [deque(one for one in listed if bool(self.changes[one].value.get("add")) is comes) for comes in (False, True)]
            is_there, turns = given in self.first.base, list[int]()
            while sides[0] or sides[1]:
                if sides[not is_there]:
                    is_there = not is_there
                else:
                    self.odd.add(given)
                turns.append(sides[is_there].popleft())
            of[given] = turns
        return of

    def _added(self, sketch: Sketch) -> dict[int, int]:
        """Of each change of a log its own step."""
        wanted, timed = Found(), Found()
        for one, change in enumerate(self.changes):
            wanted.add(change.key, one)
            if not change.is_rules:
                timed.add((change.key[0], not change.tuples), one)
        ranks: dict[int, int] = {}
        for step, changes in enumerate(sketch.steps, 1):
            group = []
            for change in changes:
                known = wanted.take(change.key, ranks)
                if known is None and not change.is_rules:
                    # Where one of two logs has no form for it, its time tells alone.
                    known = timed.take((change.key[0], bool(change.tuples)), ranks)
                if known is None:
                    known = len(self.changes)
                    self.changes.append(change)
                ranks[known] = step
                group.append(known)
            if len(group) > 1 and self.fixed.isdisjoint(group):
                self.together.append(group)
        return ranks

    def _in_base(self, sketch: Sketch, others: list[int]) -> list[int]:
        """Of the changes that a log does not have, those that are in its base state; the others came when it had ended."""
        assert sketch.count is not None and self.first.count is not None
        count = sketch.count - self.first.count
        tuples = [one for one in others if not self.changes[one].is_rules]
        if len(tuples) < count:
            raise Unreached(sketch.given.name, "begins with %d changes that no other log has; give logs of which each begins before the one "
                            "before has ended" % (count - len(tuples)))
        turns = self._turns()
        unformed = self.first.unformed.union(one[:3] for one in self.odd)
        found = self._had(sketch, turns, tuples, count, unformed | sketch.unformed)
        by_turns = [self.changes[one] for listed in turns.values() for one in listed if one in found]
        refuse_other_base(sketch, state_of(self.first.base, by_turns), unformed, len(tuples) > count)
        found |= self._rules_in_base(sketch, [one for one in others if self.changes[one].is_rules])
        return [one for one in others if one in found]

    def _had(self, sketch: Sketch, turns: dict[Relationship, list[int]], others: list[int], count: int,
             unformed: set[tuple[str, ...]]) -> set[int]:
        """Of the changes that a log does not have, so many that it began with: the first ones, but that of changes that came at once a later one
        may be in its base state, and an earlier one not. What has no form, no state tells of."""
        had, rest = set(others[:count]), set(others[count:])
        least: list[int] = []
        most: list[int] = []
        either: list[tuple[int, int]] = []
        for given, listed in turns.items():
            inside, behind = [one for one in listed if one in had], [one for one in listed if one in rest]
            is_there = bool(self.changes[inside[-1]].value.get("add")) if inside else given in self.first.base
            if is_there == (given in sketch.base) or given[:3] in unformed:
                continue
            if inside and behind:
                either.append((behind[0], inside[-1]))
            else:
                least += behind[:1]
                most += inside[-1:]
        for more, less in sorted(either):
            if len(least) <= len(most):
                least.append(more)
            else:
                most.append(less)
        apart = len(most) - len(least)
        unread = [one for one in others if not self.changes[one].tuples]
        least += [one for one in unread if one in rest][:max(0, apart)]
        most += [one for one in reversed(unread) if one in had][:max(0, -apart)]
        return had.union(least).difference(most) if len(least) == len(most) else had

    def _rules_in_base(self, sketch: Sketch, others: list[int]) -> set[int]:
        """The models that came up to that with which a log begins."""
        assert sketch.rules is not None and self.first.rules is not None
        for count in range(len(others) + 1):
            rules = self.changes[others[count - 1]].value if count else self.first.rules
            if rules.get("model") == sketch.rules.get("model"):
                return set(others[:count])
        raise Unreached(sketch.given.name, "begins with another model than those of the other logs")


def state_of(base: set[Relationship], changes: list[Change]) -> set[Relationship]:
    found = set(base)
    for change in changes:
        found.update(Relationship(*one) for one in change.value.get("add") or ())
        found.difference_update(Relationship(*one) for one in change.value.get("remove") or ())
    return found


def refuse_other_base(sketch: Sketch, state: set[Relationship], unformed: set[tuple[str, ...]], is_behind: bool = False) -> None:
    """Raises Unreached where a log begins with another state than the others have there, but for what one of them has no form for."""
    for one in sorted(state ^ sketch.base):
        if tuple(one[:3]) not in (unformed | sketch.unformed):
            raise Unreached(sketch.given.name, "does not begin with what the other logs have there: %s is in %s, and not in %s. It is of another "
                            "store, or there were changes that are in no log%s" % (
                                one, *(("the other logs", "it") if one in state else ("it", "the other logs")),
                                ", or too few of the next ones are in it" * is_behind), is_behind)


class Numbered:
    """The changes of logs whose revisions are those of the service, by their places from 1 on."""

    def __init__(self, sketches: list[Sketch]):
        self.first = sketches[0]
        self.steps: dict[int, list[Change]] = {}
        for sketch in sketches:
            self.steps.update(zip(sketch.numbers, sketch.steps))
        self.numbers = sorted(self.steps)
        for sketch in sketches:
            self._refuse_other(sketch)

    @property
    def count(self) -> int:
        return len(self.numbers)

    def keys(self, place: int) -> list[tuple[Any, ...]]:
        return [change.key for change in self.steps[self.numbers[place - 1]]]

    def odd_until(self, place: int) -> set[Relationship]:
        """A tuple may be touched several times."""
        return set()

    def lines(self, place: int) -> Iterator[Value]:
        for change in self.steps[self.numbers[place - 1]]:
            yield from change.before
            yield change.value
            yield from change.behind

    def _refuse_other(self, sketch: Sketch) -> None:
        """Raises JoinFault where a log does not begin with what others have there, or has not all that they have up to its end."""
        before = [change for number in self.numbers if number <= sketch.revision for change in self.steps[number]]
        refuse_other_base(sketch, state_of(self.first.base, before), self.first.unformed)
        end = sketch.numbers[-1] if sketch.numbers else sketch.revision
        missing = sorted(set(one for one in self.numbers if sketch.revision < one <= end) - set(sketch.numbers))
        if missing:
            raise JoinFault("%s does not have revision %d, which the other logs have: it is of another service, or the schema changed while its "
                            "recorder did not run" % (sketch.given.name, missing[0]))
