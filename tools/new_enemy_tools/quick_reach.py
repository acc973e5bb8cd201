"""A quick look at what a goal leads to, by the bytes of commits in the form of importers, under rules that do not change.

It says what Reach and Settled would say, of goals that lead to few usersets.
"""
from bisect import bisect_left, bisect_right
from itertools import accumulate
from typing import NamedTuple, Optional, Protocol

from new_enemy_tools.rules import Place, Rules, children_of, form_of, places
from new_enemy_tools.strictjson import Object
from new_enemy_tools.texts import Tuple
from new_enemy_tools.trace_lines import MEMBER, OtherForm, Pair, quick_commit

# A goal that leads to more usersets than this is looked at by another way.
FEW = 1_000
# So many usersets are gone through for one answer, and so many expressions at most within one another, since Python has few frames.
STEPS = 5_000
DEEP = 120
# Windows of so many commits are searched as they are.
SHORT = 64
# The last touch of a tuple is looked for in so many bytes, and so often in all of them, before all are listed.
NEAR = 4_096
SEARCHES = 40

# of each touch the commit's place, and whether the tuple was added
Touches = list[tuple[int, bool]]


class Look(NamedTuple):
    """Whether commits of a window touch what a goal leads to, and if so, whether the goal holds at its end."""

    is_touched: bool
    holds: bool


UNTOUCHED = Look(False, False)


Leaf = tuple[str, bytes, bytes]


class Body:
    """An expression, of which each form but a leaf has children."""

    def __init__(self, expression: Object):
        self.form = form_of(expression)
        self.children = list(map(Body, children_of(expression)))
        self.leaf = _leaf(next(places(expression)))


class Rule(NamedTuple):
    """The leaves of a relation's rule, as a form and names; and the rule, where it is more than a union of these."""

    leaves: list[Leaf]
    body: Optional[Body]


NO_RULE = Rule([], None)


class Users(NamedTuple):
    """The users that a userset ever had, each with its touches; and those that are usersets."""

    touches: dict[bytes, Touches]
    sets: list[tuple[bytes, Touches]]


NOBODY = Users({}, [])


class Tangled(Exception):
    """A rule that is no union hangs on itself, or such rules lead to the same usersets again and again, or to many behind one another."""


def _leaf(place: Place) -> Leaf:
    names = [name.encode() for name in place.names] + [b"", b""]
    return place.form, names[0], names[1]


def rule_of(rewrite: Object) -> Rule:
    return Rule(list(map(_leaf, places(rewrite))), None if _is_union(rewrite) else Body(rewrite))


def _is_union(rewrite: Object) -> bool:
    form = form_of(rewrite)
    return form not in ("intersection", "exclusion") and (form != "union" or all(map(_is_union, rewrite[form])))


def _is_live(touches: Touches, count: int) -> bool:
    """By the first so many commits."""
    number = bisect_left(touches, (count,))
    return number > 0 and touches[number - 1][1]


def _has_touch(touches: Touches, low: int, high: int) -> bool:
    number = bisect_left(touches, (low,))
    return number < len(touches) and touches[number][0] < high


def _was_live(touches: Touches, low: int, high: int) -> bool:
    """At some moment between the first commits and the first others."""
    first = bisect_left(touches, (low,))
    return first > 0 and touches[first - 1][1] or any(live for _, live in touches[first:bisect_left(touches, (high,))])


class Sight:
    """What is listed of the commits grows with their tuples, where it is asked for."""

    def __init__(self, rules: Rules, commits: list[bytes], ats: list[int]):
        self._commits, self._ats = commits, ats
        self._text = b"\n".join(commits)
        self._starts = [0, *accumulate([len(raw) + 1 for raw in commits])]
        self._rules: dict[tuple[bytes, bytes], Rule] = {}
        for declaration in rules.declarations:
            for relation in declaration.relations:
                self._rules[declaration.name.encode(), relation.name.encode()] = rule_of(relation.rewrite)
        self._has_members = MEMBER.search(self._text) is not None
        # of each relation those of the same object whose tuples are read, where no userset is stored anywhere
        self._own: dict[tuple[bytes, bytes], list[bytes]] = {}
        # of commits that were read, what they add and what they remove
        self._sides: dict[int, tuple[frozenset[Pair], frozenset[Pair]]] = {}
        self._searches = 0
        # what stands around each letter @ of the text, and how many of these stand before each commit
        self._pieces: list[bytes] = []
        self._counts: list[int] = []
        # of each userset the last of these that stands behind it, and the others
        self._last: dict[bytes, int] = {}
        self._others: dict[bytes, list[int]] = {}
        self._users: dict[bytes, Users] = {}

    def look(self, goal: Tuple, low: int, high: int) -> Optional[Look]:
        """None where a goal leads to more than few usersets; raises OtherForm."""
        of, user = str(goal.set).encode(), str(goal.user).encode()
        first, last = bisect_right(self._ats, low), bisect_right(self._ats, high)
        is_touched = self._is_touched(of, user, first, last)
        if not is_touched:
            return None if is_touched is None else UNTOUCHED
        try:
            return Look(True, Asked(self, user, last).holds(of))
        except Tangled:
            return None

    def rule(self, thing: bytes, relation: bytes, _: int = 0) -> Rule:
        return self._rules.get((thing.partition(b":")[0], relation), NO_RULE)

    # What a goal leads to

    def _is_touched(self, of: bytes, user: bytes, low: int, high: int) -> Optional[bool]:
        if high - low <= SHORT:
            start, end = self._starts[low], self._starts[high]
            if self._text.find(b'@%s"' % user, start, end) < 0 and not (self._has_members and MEMBER.search(self._text, start, end)):
                return False
            if not self._has_members:
                return self._is_own_touched(of, user, start, end)
        nodes, read = self._cone(of, low, high)
        if len(nodes) > FEW:
            return None
        for users in read.values():
            touches = users.touches.get(user)
            if touches is not None and _has_touch(touches, low, high) or users.sets and any([_has_touch(one, low, high) for _, one in users.sets]):
                return True
        return False

    def _is_own_touched(self, of: bytes, user: bytes, start: int, end: int) -> bool:
        """Whether a part of the text touches what a goal leads to, where no userset is stored anywhere."""
        thing, _, relation = of.rpartition(b"#")
        namespace = thing.partition(b":")[0]
        own = self._own.get((namespace, relation))
        if own is None:
            own = self._own[namespace, relation] = [one.rpartition(b"#")[2] for one in self._cone(of, 0, 0)[1]]
        for name in own:
            holder = b"%s#%s" % (thing, name)
            text = b'"%s@%s"' % (holder, user)
            at = self._text.find(text, start, end)
            # as often as it stands there, and seldom twice
            while at >= 0:
                if self._touch(self._place(at), (holder, user)) is not None:
                    return True
                at = self._text.find(text, at + 1, end)
        return False

    def _cone(self, of: bytes, low: int, high: int) -> tuple[set[bytes], dict[bytes, Users]]:
        """The usersets that a goal leads to in a window, at most few and one more, and those whose tuples are read."""
        nodes, todo = {of}, [of]
        read: dict[bytes, Users] = {}
        # each userset once
        while todo and len(nodes) <= FEW:
            node = todo.pop()
            thing, _, relation = node.rpartition(b"#")
            for form, name, other in self.rule(thing, relation).leaves:
                if form == "computed":
                    found = [b"%s#%s" % (thing, name)]
                else:
                    holder = node if form == "this" else b"%s#%s" % (thing, name)
                    users = read[holder] = self.users(holder) if self._has_members or high > low else NOBODY
                    sets = [one for one, touches in users.sets if _was_live(touches, low, high)] if users.sets else []
                    found = sets if form == "this" else [b"%s#%s" % (one.rpartition(b"#")[0], other) for one in sets]
                for one in found:
                    if one not in nodes:
                        nodes.add(one)
                        todo.append(one)
        return nodes, read

    # The store

    def sets(self, of: bytes, count: int) -> list[bytes]:
        """The usersets stored in a userset by the first so many commits."""
        sets = self.users(of).sets if self._has_members else None
        return [one for one, touches in sets if _is_live(touches, count)] if sets else []

    def has(self, of: bytes, user: bytes, count: int) -> bool:
        """Whether a tuple is stored by the first so many commits."""
        if not self._last:
            text, end = b'"%s@%s"' % (of, user), self._starts[count]
            start = max(0, end - NEAR)
            at = self._text.rfind(text, start, end)
            if at < 0 and start:
                self._searches += 1
                at = self._text.rfind(text, 0, start + len(text)) if self._searches <= SEARCHES else at
            live = None if at < 0 else self._touch(self._place(at), (of, user))
            if live is not None or at < 0 and self._searches <= SEARCHES:
                return live is True
        touches = self.users(of).touches.get(user)
        return touches is not None and _is_live(touches, count)

    def users(self, of: bytes) -> Users:
        known = self._users.get(of)
        if known is None:
            if not self._last:
                self._list()
            last = self._last.get(of)
            known = self._users[of] = NOBODY if last is None else self._users_of(of, [*self._others.get(of, ()), last])
        return known

    def _users_of(self, of: bytes, found: list[int]) -> Users:
        touches: dict[bytes, Touches] = {}
        for number in found:
            place, user = bisect_right(self._counts, number) - 1, self._pieces[number + 1].partition(b'"')[0]
            live = self._touch(place, (of, user))
            if live is None:
                continue
            if user in touches:
                touches[user].append((place, live))
            else:
                touches[user] = [(place, live)]
        return Users(touches, [(user, touched) for user, touched in touches.items() if user[:1] > b"9"])

    def _list(self) -> None:
        """A tuple's userset stands before its letter @ and behind a quotation mark, and its user behind the one and before another."""
        self._pieces = self._text.split(b"@")
        self._counts = [0, *accumulate([raw.count(b"@") for raw in self._commits])]
        usersets = [piece.rpartition(b'"')[2] for piece in self._pieces]
        self._last = dict(zip(usersets, range(len(usersets) - 1)))
        # Most usersets may stand once, and then there is nothing more to list.
        for number, of in enumerate(usersets[:-1] if len(self._last) < len(usersets) - 1 else ()):
            if self._last[of] > number:
                if of in self._others:
                    self._others[of].append(number)
                else:
                    self._others[of] = [number]

    def _place(self, at: int) -> int:
        """The place of the commit in which a byte stands."""
        return bisect_right(self._starts, at) - 1

    def _touch(self, place: int, pair: Pair) -> Optional[bool]:
        """Whether a commit adds a tuple or removes it; None where the tuple's text is that of another key, as of the line's source."""
        known = self._sides.get(place)
        if known is None:
            commit = quick_commit(self._commits[place])
            if commit is None:
                raise OtherForm
            known = self._sides[place] = frozenset(commit.add), frozenset(commit.remove)
        return True if pair in known[0] else False if pair in known[1] else None


class Seen(Protocol):
    """Rules and a store, whose states have numbers."""

    def rule(self, thing: bytes, relation: bytes, count: int) -> Rule: ...

    def sets(self, of: bytes, count: int) -> list[bytes]: ...

    def has(self, of: bytes, user: bytes, count: int) -> bool: ...


class Asked:
    """Whether a user is in usersets at a state, by its number; raises Tangled."""

    def __init__(self, sight: Seen, user: bytes, count: int):
        self.sight, self.user, self.count = sight, user, count
        # usersets whose rules are no unions: those that are being asked for, and what was found
        self._asked: set[bytes] = set()
        self._known: dict[bytes, bool] = {}
        self._left, self._depth = STEPS, 0

    def holds(self, of: bytes) -> bool:
        """A union holds where something does that it leads to; that goes through each userset once, and below a rule that is no union anew."""
        seen, todo = {of}, [of]
        while todo:
            node = todo.pop()
            self._left -= 1
            if self._left < 0:
                raise Tangled
            thing, _, relation = node.rpartition(b"#")
            rule = self.sight.rule(thing, relation, self.count)
            if rule.body is not None:
                if self._body_holds(node, thing, rule.body):
                    return True
                continue
            for form, name, other in rule.leaves:
                if form == "this" and self.sight.has(node, self.user, self.count):
                    return True
                for one in self._read(node, thing, form, name, other):
                    if one not in seen:
                        seen.add(one)
                        todo.append(one)
        return False

    def _read(self, node: bytes, thing: bytes, form: str, name: bytes, other: bytes) -> list[bytes]:
        if form == "computed":
            return [b"%s#%s" % (thing, name)]
        if form == "this":
            return self.sight.sets(node, self.count)
        return [b"%s#%s" % (one.rpartition(b"#")[0], other) for one in self.sight.sets(b"%s#%s" % (thing, name), self.count)]

    def _body_holds(self, node: bytes, thing: bytes, body: Body) -> bool:
        known = self._known.get(node)
        if known is None:
            if node in self._asked:
                raise Tangled
            self._asked.add(node)
            known = self._known[node] = self._of(node, thing, body)
            self._asked.discard(node)
        return known

    def _of(self, node: bytes, thing: bytes, body: Body) -> bool:
        """Whether an expression holds, as nested as rules are, and those that they lead to."""
        if self._depth >= DEEP:
            raise Tangled
        self._depth += 1
        answer = self._by_form(node, thing, body)
        self._depth -= 1
        return answer

    def _by_form(self, node: bytes, thing: bytes, body: Body) -> bool:
        form = body.form
        if form == "exclusion":
            return self._of(node, thing, body.children[0]) and not self._of(node, thing, body.children[1])
        if form in ("union", "intersection"):
            answers = (self._of(node, thing, child) for child in body.children)
            return any(answers) if form == "union" else all(answers)
        if form == "this" and self.sight.has(node, self.user, self.count):
            return True
        return any([self.holds(one) for one in self._read(node, thing, *body.leaf)])
