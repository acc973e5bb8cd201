"""The rules of an import: those from the beginning and those that change them."""
from new_enemy_tools import limits
from new_enemy_tools.edges import rule_edges
from new_enemy_tools.importing.events import Event, RelationRule
from new_enemy_tools.importing.refusals import Refusals
from new_enemy_tools.importing.strata import Edges, Reason
from new_enemy_tools.rules import Declaration, Relation, Rules, depth, places


class Declared:
    def __init__(self, events: list[Event], edges: Edges, refusals: Refusals):
        self.rules, self.edges, self.refusals = Rules(), edges, refusals
        self.head: list[str] = []
        self.changes: dict[int, list[Declaration]] = {}
        self.take(events)

    def take(self, events: list[Event]) -> None:
        """Takes rules behind those before."""
        for event in events:
            for name, relations in event.namespaces.items():
                self._declare(event, name, relations)
        self.tuplesets = {(name, place.names[0]) for name in self.rules.current
                          for relation in self.rules.relations(name)
                          for rewrite in self.rules.rewrites(name, relation)
                          for place in places(rewrite) if place.form == "tuple_to"}

    def _declare(self, event: Event, name: str, relations: list[RelationRule]) -> None:
        known = self.rules.current.get(name)
        own = {relation.name: relation for relation in relations}
        if known and event.revision is None:
            self._refuse(event, "namespace %s stands twice in the first rules" % name)
            return
        # What new rules leave out stays declared, since a trace has no form for less; they do not read it.
        listed = [own.pop(old.name, RelationRule(old.name, old.rewrite, event.line)) for old in known.relations] if known else []
        listed += own.values()
        self._refuse_sizes(event, name, listed)
        declaration = Declaration(name, event.revision, [Relation(one.name, 0, one.rewrite) for one in listed])
        if known and [one.rewrite for one in listed] == [old.rewrite for old in known.relations]:
            return
        self.rules.keep(declaration)
        if event.revision is None:
            self.head += [name] if listed else []
        else:
            self.changes.setdefault(event.revision, []).append(declaration)
        at = {one.name: (one.file or event.file, one.line) for one in listed}
        for edge in rule_edges(declaration):
            self.edges.add(edge, Reason(*at[edge.reader[1]], "the rule of %s#%s" % edge.reader, False))

    def _refuse_sizes(self, event: Event, name: str, listed: list[RelationRule]) -> None:
        if name not in self.rules.current and len(self.rules.current) == limits.NAMESPACES:
            self._refuse(event, "namespace %s is one more than the %d of a trace" % (name, limits.NAMESPACES))
        if len(listed) > limits.RELATIONS:
            self._refuse(event, "%s has %d relations, and a trace %d at most" % (name, len(listed), limits.RELATIONS))
        for relation in listed:
            if depth(relation.rewrite) > limits.DEPTH:
                self.refusals.refuse(relation.file or event.file, relation.line, "the rule of %s#%s is deeper than %d"
                                     % (name, relation.name, limits.DEPTH))
        if event.revision is not None and sum(map(len, self.changes.values())) >= limits.CHANGES:
            self._refuse(event, "more than %d changes of rules" % limits.CHANGES)

    def _refuse(self, event: Event, text: str) -> None:
        self.refusals.refuse(event.file, event.line, text)
