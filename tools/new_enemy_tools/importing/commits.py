"""Commits: the writes of one revision, as the texts of a trace, in parts that fit on a line."""
from typing import Any, Iterator, NamedTuple, Optional

from new_enemy_tools import limits, texts
from new_enemy_tools.edges import TupleEdges
from new_enemy_tools.ids import Ids
from new_enemy_tools.importing.declared import Declared
from new_enemy_tools.importing.events import EVERY, Event, Relationship
from new_enemy_tools.importing.refusals import Refusals
from new_enemy_tools.importing.strata import Edges, Reason
from new_enemy_tools.importing.wildcards import Wildcards
from new_enemy_tools.texts import Tuple, Userset

ROOM = limits.LINE_BYTES - 64_000
Touches = list[tuple[int, bool]]


class Touch(NamedTuple):
    """Where a tuple is touched, and whether it is stored from then on."""

    file: str
    line: int
    live: bool


class Commit:
    """Writes of one revision, the last of its writes; `lines` are the texts to add and remove on each line."""

    def __init__(self, event: Event):
        self.event = event
        self.revision = event.revision
        self.given: set[Relationship] = set()
        self.touched: dict[Tuple, Touch] = {}
        self.add: list[str] = []
        self.remove: list[str] = []
        self._lines: Optional[list[tuple[list[str], list[str]]]] = None

    def takes(self, event: Event) -> bool:
        """Whether a write behind it can be one of a group with it."""
        return event.group is not None and event.group == self.event.group and self.given.isdisjoint(event.add + event.remove)

    def lines(self) -> list[tuple[list[str], list[str]]]:
        if self._lines is None:
            self._lines = list(self._split())
        return self._lines

    def _split(self) -> Iterator[tuple[list[str], list[str]]]:
        part: tuple[list[str], list[str]] = ([], [])
        used = 0
        for side, listed in enumerate((self.add, self.remove)):
            for text in listed:
                size = len(text.encode()) + text.count('"') + text.count("\\") + 3
                if used + size > ROOM:
                    yield part
                    part, used = ([], []), 0
                part[side].append(text)
                used += size
        yield part


class Writer:
    """Turns relationships into tuples and their texts, and gathers the edges that they give."""

    def __init__(self, declared: Declared, wildcards: Wildcards, ids: Ids, edges: Edges, refusals: Refusals):
        self.declared, self.wildcards, self.ids, self.edges, self.refusals = declared, wildcards, ids, edges, refusals
        self.tuple_edges = TupleEdges(declared.rules)
        # the tuples of usersets that were ever stored, each with the revisions that touch it and whether it is stored from there on
        self.stored: dict[Tuple, Touches] = {}
        # what stands around an object id in tuples of users, by type and relation
        self.around: dict[tuple[str, str], tuple[str, str]] = {}

    def write(self, commit: Commit, event: Event) -> None:
        commit.revision = event.revision
        if event.group is not None:
            commit.given.update(event.add, event.remove)
        for texts_of, given in ((commit.add, event.add), (commit.remove, event.remove)):
            for relationship in given:
                for one in self._tuples(event, relationship):
                    self._touch(commit, Touch(event.file, event.line, texts_of is commit.add), one, relationship)
                    self._store(event, one, relationship, texts_of is commit.add)
                    texts_of.append(self.text(one))

    def commit_of(self, rows: list[tuple[Any, ...]]) -> tuple[Any, ...]:
        """The row of a commit, by those of its plain writes, whose tuples are of single users and give no edge."""
        sides = [[self.text_of(given) for row in rows for given in row[side]] for side in (10, 11)]
        return ("commit", rows[-1][3], rows[0][4], rows[0][1], rows[0][2], rows[0][8], [tuple(sides)])

    def text_of(self, given: tuple[Any, ...]) -> str:
        """The text of a relationship of a single user that gives no edge."""
        of, thing, relation, user_type, user_id, _ = given
        around = self.around.get((of, relation))
        if around is None:
            after = "#%s@" % self.ids.name("relation", relation)
            around = self.around[of, relation] = "%s:" % self.ids.name("namespace", of), after
        return "%s%s%s%d" % (around[0], self.ids.object(of, thing), around[1], self.ids.number("user", user_type, user_id))

    def is_repeated(self, commit: Commit, event: Event) -> bool:
        """Whether a write says again what the commit has."""
        sides = ((True, event.add), (False, event.remove))
        touches = [commit.touched.get(one) for live, side in sides for given in side for one in self._tuples(event, given)]
        lives = [live for live, side in sides for given in side for one in self._tuples(event, given)]
        return bool(touches) and [touch and touch.live for touch in touches] == lives

    def _tuples(self, event: Event, given: Relationship) -> list[Tuple]:
        """A user that stands for itself in a tupleset also gives the userset that `tuple_to` reads."""
        of = Userset(*given[:3])
        if not self.declared.rules.is_declared(of.namespace, of.relation):
            self.refusals.unmapped_tuple(event.file, event.line, "tuple of a relation that the rules do not have", given, event.base)
            self.refusals.has_other_rules = True
            return []
        if given.user_relation == EVERY and (of.namespace, of.relation) in self.declared.tuplesets:
            self.refusals.refuse(event.file, event.line, "a rule goes on from %s#%s, and no rule can from every user: %s"
                                 % (of.namespace, of.relation, given))
        if given.user_relation == EVERY and not self.wildcards.have_form:
            self.refusals.unmapped_tuple(event.file, event.line, "tuple for every user of a type, in a log that goes on", given, event.base)
            return []
        if given.user_relation == EVERY:
            return [Tuple(of, self.wildcards.set_of(given.user_type))]
        if given.user_relation is not None:
            if not self.declared.rules.is_declared(given.user_type, given.user_relation):
                self.refusals.note("undeclared", "%s:%d: nobody is in %s:%s#%s, a relation that the rules do not have"
                                   % (event.file, event.line, *given[3:]))
            return [Tuple(of, Userset(given.user_type, given.user_id, given.user_relation))]
        found = [Tuple(of, self.ids.number("user", given.user_type, given.user_id))]
        if (of.namespace, of.relation) in self.declared.tuplesets:
            found.append(Tuple(of, Userset(given.user_type, given.user_id, texts.NO_RELATION)))
        return found

    def _touch(self, commit: Commit, touch: Touch, given: Tuple, told: Relationship) -> None:
        before = commit.touched.get(given)
        if before is None:
            commit.touched[given] = touch
        elif not (isinstance(given.user, Userset) and given.user.relation == texts.NO_RELATION):
            self.refusals.refuse(touch.file, touch.line, "%s is touched twice in one commit, at %s:%d too"
                                 % (told, before.file, before.line))

    def _store(self, event: Event, given: Tuple, told: Relationship, live: bool) -> None:
        if not isinstance(given.user, Userset) or not live and given not in self.stored:
            return
        if given not in self.stored:
            self.stored[given] = []
            for edge in self.tuple_edges.of(given):
                self.edges.add(edge, Reason(event.file, event.line, "tuple %s" % (told,), True))
        self.stored[given].append((event.revision or 0, live))

    def text(self, given: Tuple) -> str:
        user = given.user
        return "%s@%s" % (self.set_text(*given.set), self.set_text(*user) if isinstance(user, Userset) else user)

    def set_text(self, of: str, id_text: str, relation: str) -> str:
        return "%s:%s#%s" % self.named_set(of, id_text, relation)

    def named(self, given: Tuple) -> Tuple:
        """A tuple of the service by the names of the trace."""
        user = given.user
        return Tuple(self.named_set(*given.set), self.named_set(*user) if isinstance(user, Userset) else user)

    def named_set(self, of: str, id_text: str, relation: str) -> Userset:
        ids = self.ids
        name = relation if relation == texts.NO_RELATION else ids.name("relation", relation)
        return Userset(ids.name("namespace", of), ids.object(of, id_text), name)
