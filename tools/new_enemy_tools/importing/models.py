"""The models of a log of OpenFGA side by side: each check is judged by the model that it names, wherever it stands.

A check ignores stored tuples that its model does not take. So a trace has each relation once for each meaning that models give it, and
a tuple in those of them whose models take it. Models that agree on a relation, and on all that it reads, share it under its own name.
"""
import json
from bisect import bisect_left, bisect_right
from typing import Any, Iterable, Mapping, NamedTuple, Optional

from new_enemy_tools.importing.events import EVERY, Event, RelationRule
from new_enemy_tools.importing.reading import Bad
from new_enemy_tools.importing.refusals import Refusals
from new_enemy_tools.importing.service import ServiceRules
from new_enemy_tools.rules import children_of, form_of, places

# Below all places of the feed.
BEFORE = -1
Key = tuple[str, str, str, Optional[str]]


class OtherModel(Exception):
    """A check of a model that the log does not have."""


class TwoModels(Exception):
    """Why a model without an id can't be that of a check."""


class Said(NamedTuple):
    """What a model says of all relations of one name, and the names that these read."""

    text: str
    reads: tuple[str, ...]


def said_by(rules: ServiceRules) -> dict[str, Said]:
    """By the names of relations what rules say of them; the lines do not count."""
    told: dict[str, list[Any]] = {}
    reads: dict[str, set[str]] = {}
    for of, relations in sorted(rules.event.namespaces.items()):
        for relation in relations:
            users = sorted(rules.takes.get((of, relation.name), ()), key=str)
            told.setdefault(relation.name, []).append([of, relation.rewrite, users])
            named = reads.setdefault(relation.name, set())
            named.update(name for place in places(relation.rewrite) for name in place.names)
            named.update(user_relation for _, user_relation in users
                         if user_relation is not None and user_relation != EVERY)
    return {name: Said(json.dumps(listed, sort_keys=True), tuple(sorted(reads[name]))) for name, listed in told.items()}


def _meanings(said: list[dict[str, Said]]) -> list[dict[str, int]]:
    """A number for each meaning: names have one where what is said of them is the same, and what they read has one meaning each.

    Numbers are split until none is any more, so as often as there are names at most.
    """
    meanings: list[dict[str, int]] = [dict.fromkeys(one, 0) for one in said]
    count = 0
    while True:
        known: dict[Any, int] = {}
        meanings = [{name: known.setdefault((name, of.text, mine[name], *(mine.get(read) for read in of.reads)), len(known))
                     for name, of in one.items()} for one, mine in zip(said, meanings)]
        if len(known) == count:
            return meanings
        count = len(known)


def _label(name: str, rules: ServiceRules) -> str:
    """What a relation of a model is called where another model has its name; no service has a name with a space."""
    return "%s of model %s" % (name, rules.id if rules.id is not None else "%s:%d" % (rules.event.file, rules.event.line))


def _renamed(rewrite: dict[str, Any], name: Any) -> dict[str, Any]:
    form = form_of(rewrite)
    if form == "this":
        return rewrite
    if form == "computed":
        return {form: name(rewrite[form])}
    if form == "tuple_to":
        return {form: {key: name(rewrite[form][key]) for key in ("tupleset", "computed")}}
    children = [_renamed(child, name) for child in children_of(rewrite)]
    return {form: {"base": children[0], "subtract": children[1]} if form == "exclusion" else children}


class Given(NamedTuple):
    """The models of a log; one of the `first` was in force before all changes, and what is refused of those `apart` matters where they are used."""

    models: list[ServiceRules]
    first: int
    apart: Mapping[int, Refusals]


class Models:
    """The models of a log by their numbers; some may be of no check, and have no names in the trace.

    `starts` has for each model that came into force the place of the feed behind which it did, those at first below all places.
    """

    def __init__(self, given: list[ServiceRules], starts: list[tuple[int, int]], asked: Iterable[Optional[str]] = ()):
        self.given = given
        self.starts = [place for place, _ in starts]
        self.in_force = [model for _, model in starts]
        self.by_id = {one.id: model for model, one in enumerate(given) if one.id is not None}
        # of the first model where it has no id, the one that checks name, once some has
        self.claimed: Optional[str] = None
        self.used = self._used(asked) if len(given) > 1 else [0]
        meanings = _meanings([said_by(given[model]) for model in self.used])
        first: dict[str, int] = {}
        labels: dict[int, str] = {}
        self.names: dict[int, dict[str, str]] = {}
        for model, found in zip(self.used, meanings):
            for name, meaning in found.items():
                labels.setdefault(meaning, name if first.setdefault(name, meaning) == meaning else _label(name, given[model]))
            self.names[model] = {name: labels[meaning] for name, meaning in found.items()}
        # whether all models that are used have the same relations, and mean the same by them
        self.is_plain = all(names == {name: name for name in self.names[self.used[0]]} for names in self.names.values())
        self.known: dict[Key, list[tuple[str, Optional[str]]]] = {}

    def _used(self, asked: Iterable[Optional[str]]) -> list[int]:
        named = set(asked)
        found = set(self.in_force) if None in named else {0}
        return sorted(found | {self.by_id.get(model, 0) for model in named if model is not None})

    def name(self, model: int, relation: str) -> str:
        """What the trace calls a relation of a model; one that the model does not have has no rule there either."""
        return self.names[model].get(relation) or (relation if len(self.used) == 1 else _label(relation, self.given[model]))

    def all_names(self, relation: str) -> list[str]:
        """What the trace calls a relation of the models that are used."""
        return sorted({self.name(model, relation) for model in self.used})

    def rules(self) -> Event:
        """The rules of all models together, which are in force from the beginning."""
        first = self.given[0].event
        made = Event("rules", first.file, first.line)
        for model in self.used:
            event = self.given[model].event
            for of, relations in event.namespaces.items():
                listed = made.namespaces.setdefault(of, [])
                known = {one.name for one in listed}
                for one in relations:
                    name = self.name(model, one.name)
                    if name not in known:
                        listed.append(RelationRule(name, _renamed(one.rewrite, lambda read: self.name(model, read)), one.line, event.file))
        return made

    def takes(self, key: Key) -> list[tuple[str, Optional[str]]]:
        """The relations of the trace that a tuple is stored in, each with the relation of its user; none where no model that is used takes it."""
        found = self.known.get(key)
        if found is None:
            of, relation, user_type, user_relation = key
            is_userset = user_relation not in (None, EVERY)
            found = self.known[key] = list(dict.fromkeys(
                (self.name(model, relation), self.name(model, user_relation or "") if is_userset else user_relation)
                for model in self.used if (user_type, user_relation) in self.given[model].takes.get((of, relation), ())))
        return found

    def taking_with_condition(self, key: Key) -> list[str]:
        """The relations of the trace by whose models a tuple has to have a condition."""
        return [self.name(model, key[1]) for model in self.used if key[2:] in self.given[model].conditional.get(key[:2], ())]

    def is_taken(self, key: Key) -> bool:
        """Whether some model of the log takes such a tuple, also one that no check is of."""
        return any((key[2], key[3]) in one.takes.get(key[:2], ()) for one in self.given)

    def name_at(self, relation: str, model: Optional[str], low: int, high: int) -> str:
        """What the trace calls the relation of a check that was evaluated between two places; raises OtherModel, TwoModels and Bad.

        A check that names no model is of the newest there is, of which there are several where the model changes.
        """
        if model is not None:
            return self.name(self._named(model), relation)
        begins = max(bisect_left(self.starts, low) - 1, 0)
        # Which of those at first was in force is not known.
        begins = begins if self.starts[begins] > BEFORE else 0
        found = {self.name(one, relation) for one in self.in_force[begins:bisect_right(self.starts, max(high, -1))]}
        if len(found) > 1:
            raise Bad("the model changes %s, and the request does not say which it is of"
                      % ("at its place" if low == high else "between its places"))
        return found.pop()

    def _named(self, model: str) -> int:
        found = self.by_id.get(model)
        if found is not None:
            return found
        if [number for number, one in enumerate(self.given) if one.id is None] != [0]:
            raise OtherModel
        if self.claimed not in (None, model):
            raise TwoModels("it names the model %s, and the model of %s, which has no id, was taken for %s, which another check names: "
                            "give each model with its id" % (model, self.given[0].event.file, self.claimed))
        self.claimed = model
        return 0
