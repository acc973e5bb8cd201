"""Namespace lines and the rules that they declare."""
from typing import Iterator, NamedTuple, Optional

from new_enemy_tools import limits, texts
from new_enemy_tools.strictjson import Object, is_u64

FORMS = ("this", "computed", "tuple_to", "union", "intersection", "exclusion")


class RulesFault(Exception):
    """Why a namespace line is refused, and the place in it."""

    def __init__(self, what: str, where: str):
        super().__init__("bad namespace, " + what)
        self.where = where


class Place(NamedTuple):
    """A leaf of an expression, with whether it lies under a subtracted side."""

    form: str
    names: tuple[str, ...]
    strict: bool


class Relation(NamedTuple):
    name: str
    stratum: int
    rewrite: Object


class Declaration(NamedTuple):
    name: str
    at: Optional[int]
    relations: list[Relation]


def form_of(expression: Object) -> str:
    return next(form for form in FORMS if form in expression)


def children_of(expression: Object) -> list[Object]:
    form = form_of(expression)
    if form == "exclusion":
        return [expression[form]["base"], expression[form]["subtract"]]
    return list(expression[form]) if form in ("union", "intersection") else []


def places(expression: Object, strict: bool = False) -> Iterator[Place]:
    """The leaves from left to right, base before subtracted side."""
    form = form_of(expression)
    if form == "this":
        yield Place(form, (), strict)
    elif form == "computed":
        yield Place(form, (expression[form],), strict)
    elif form == "tuple_to":
        yield Place(form, (expression[form]["tupleset"], expression[form]["computed"]), strict)
    elif form == "exclusion":
        yield from places(expression[form]["base"], strict)
        yield from places(expression[form]["subtract"], True)
    else:
        for child in expression[form]:
            yield from places(child, strict)


def depth(expression: Object) -> int:
    return 1 + max((depth(child) for child in children_of(expression)), default=0)


def shape_of_expression(value: object, where: str) -> None:
    """Raises RulesFault where a value is no expression."""
    if not isinstance(value, dict):
        raise RulesFault("shape", "%s is no object" % where)
    forms = [form for form in FORMS if form in value]
    if len(forms) != 1:
        raise RulesFault("shape", "%s has %s" % (where, " and ".join(forms) or "none of the six forms"))
    form, inner = forms[0], value[forms[0]]
    place = "%s.%s" % (where, form)
    if form == "computed" and not isinstance(inner, str):
        raise RulesFault("shape", "%s is no text" % place)
    if form in ("union", "intersection"):
        if not isinstance(inner, list):
            raise RulesFault("shape", "%s is no list" % place)
        for number, child in enumerate(inner):
            shape_of_expression(child, "%s[%d]" % (place, number))
    if form in ("tuple_to", "exclusion"):
        keys = ("tupleset", "computed") if form == "tuple_to" else ("base", "subtract")
        for key in keys:
            if not isinstance(inner, dict) or inner.get(key) is None:
                raise RulesFault("shape", "%s has no %s" % (place, key))
            if form == "exclusion":
                shape_of_expression(inner[key], "%s.%s" % (place, key))
            elif not isinstance(inner[key], str):
                raise RulesFault("shape", "%s.%s is no text" % (place, key))


def _shape(value: Object) -> Declaration:
    at, name, listed = value.get("at"), value.get("name"), value.get("relations")
    if at is not None and not is_u64(at):
        raise RulesFault("shape", "at is no timestamp")
    if not isinstance(name, str):
        raise RulesFault("shape", "name is no text")
    if not isinstance(listed, list):
        raise RulesFault("shape", "relations is no list")
    relations = []
    for number, given in enumerate(listed):
        where = "relations[%d]" % number
        if not isinstance(given, dict) or not isinstance(given.get("name"), str):
            raise RulesFault("shape", "%s has no name" % where)
        stratum = 0 if given.get("stratum") is None else given["stratum"]
        if not is_u64(stratum) or stratum > limits.STRATUM:
            raise RulesFault("shape", "%s.stratum is no number from 0 to %d" % (where, limits.STRATUM))
        rewrite = {"this": {}} if given.get("rewrite") is None else given["rewrite"]
        shape_of_expression(rewrite, "%s.rewrite" % where)
        relations.append(Relation(given["name"], stratum, rewrite))
    return Declaration(name, at, relations)


def _widths(expression: Object) -> Iterator[int]:
    if form_of(expression) in ("union", "intersection"):
        yield len(children_of(expression))
    for child in children_of(expression):
        yield from _widths(child)


class Rules:
    """All declarations so far, in order."""

    def __init__(self) -> None:
        self.declarations: list[Declaration] = []
        self.current: dict[str, Declaration] = {}
        self.changes = 0
        self._strata: dict[tuple[str, str], int] = {}
        # of each relation its rules with their leaves, and since when each is in force
        self._rewrites: dict[tuple[str, str], list[tuple[int, Object, tuple[Place, ...]]]] = {}

    def add(self, value: Object) -> Declaration:
        """Takes a namespace line; raises RulesFault, and then changes nothing."""
        declaration = _shape(value)
        self._refuse_names(declaration)
        known = self.current.get(declaration.name)
        if known and declaration.at is None:
            raise RulesFault("repeated namespace", declaration.name)
        self._refuse_relations(declaration)
        self._refuse_sizes(declaration, known)
        if known:
            self._refuse_change(declaration, known)
        return declaration

    def keep(self, declaration: Declaration) -> None:
        self.declarations.append(declaration)
        self.current[declaration.name] = declaration
        self.changes += declaration.at is not None
        for relation in declaration.relations:
            key = (declaration.name, relation.name)
            self._strata[key] = relation.stratum
            self._rewrites.setdefault(key, []).append(
                (declaration.at or 0, relation.rewrite, tuple(places(relation.rewrite))))

    @staticmethod
    def _refuse_names(declaration: Declaration) -> None:
        named = [("name", declaration.name)]
        for relation in declaration.relations:
            named.append(("relation", relation.name))
            for place in places(relation.rewrite):
                named += [("rewrite of %s" % relation.name, name) for name in place.names]
        for where, name in named:
            if not texts.is_name(name):
                raise RulesFault("name", "%s: %r" % (where, name))

    @staticmethod
    def _refuse_relations(declaration: Declaration) -> None:
        names = [relation.name for relation in declaration.relations]
        for number, name in enumerate(names):
            if name in names[:number]:
                raise RulesFault("repeated relation", "%s#%s" % (declaration.name, name))
        own = set(names)
        for relation in declaration.relations:
            for place in places(relation.rewrite):
                if place.names and place.names[0] not in own:
                    raise RulesFault("undeclared relation", "the rewrite of %s#%s reads %s, which %s does not declare"
                                     % (declaration.name, relation.name, place.names[0], declaration.name))

    def _refuse_sizes(self, declaration: Declaration, known: Optional[Declaration]) -> None:
        for relation in declaration.relations:
            if depth(relation.rewrite) > limits.DEPTH:
                raise RulesFault("too deep", "the rewrite of %s#%s" % (declaration.name, relation.name))
        if len(declaration.relations) > limits.RELATIONS:
            raise RulesFault("too many", "%d relations" % len(declaration.relations))
        for relation in declaration.relations:
            for width in _widths(relation.rewrite):
                if not 1 <= width <= limits.CHILDREN:
                    raise RulesFault("too many", "%d children in the rewrite of %s#%s"
                                     % (width, declaration.name, relation.name))
        if not known and len(self.current) >= limits.NAMESPACES:
            raise RulesFault("too many", "namespace %d" % (len(self.current) + 1))
        if declaration.at is not None and self.changes >= limits.CHANGES:
            raise RulesFault("too many", "change %d" % (self.changes + 1))

    @staticmethod
    def _refuse_change(declaration: Declaration, known: Declaration) -> None:
        for number, old in enumerate(known.relations):
            name = declaration.relations[number].name if number < len(declaration.relations) else "none"
            if name != old.name:
                raise RulesFault("relations changed", "relation %d of %s is %s, and was %s"
                                 % (number + 1, declaration.name, name, old.name))
        for old, new in zip(known.relations, declaration.relations):
            if old.stratum != new.stratum:
                raise RulesFault("stratum changed", "%s#%s has %d, and had %d"
                                 % (declaration.name, old.name, new.stratum, old.stratum))

    def is_declared(self, namespace: str, relation: str) -> bool:
        """Whether some declaration has the relation, whatever its timestamp."""
        return (namespace, relation) in self._strata

    def stratum(self, namespace: str, relation: str) -> int:
        return self._strata[namespace, relation]

    def rewrites(self, namespace: str, relation: str) -> list[Object]:
        """All rules that a relation ever had, by time."""
        return [rewrite for _, rewrite, _ in self._rewrites.get((namespace, relation), [])]

    def rewrite_at(self, namespace: str, relation: str, at: int) -> Optional[Object]:
        """The rule in force at a timestamp; None where the relation is not declared then."""
        found = None
        for since, rewrite, _ in self._rewrites.get((namespace, relation), ()):
            if since <= at:
                found = rewrite
        return found

    def places_during(self, namespace: str, relation: str, low: int, high: int) -> list[Place]:
        """The leaves of the rule in force at a timestamp, and of those that came up to another."""
        found: list[Place] = []
        for since, _, leaves in self._rewrites.get((namespace, relation), ()):
            if since <= low:
                found = list(leaves)
            elif since <= high:
                found += leaves
        return found

    def relations(self, namespace: str) -> list[str]:
        declaration = self.current.get(namespace)
        return [relation.name for relation in declaration.relations] if declaration else []
