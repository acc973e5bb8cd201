"""Whether goals hold at the states of a store, by the texts of their usersets: quickly where they lead to few."""
from new_enemy_tools.meaning import Settled
from new_enemy_tools.quick_reach import NO_RULE, Asked, Rule, Tangled, rule_of
from new_enemy_tools.rules import Rules
from new_enemy_tools.store import Store
from new_enemy_tools.texts import Tuple


class Answers:
    """The rules and the store may grow."""

    def __init__(self, rules: Rules, store: Store):
        self.rules, self.store = rules, store
        self.has, self.sets = store.has_text, store.set_texts
        # by the identity of an expression, which the rules keep
        self.made: dict[int, Rule] = {}

    def holds(self, goal: Tuple, at: int) -> bool:
        """Raises Outgrown."""
        try:
            return Asked(self, str(goal.user).encode(), at).holds(str(goal.set).encode())
        except Tangled:
            return Settled(self.rules, self.store, goal, at).holds()

    def rule(self, thing: bytes, relation: bytes, at: int) -> Rule:
        rewrite = self.rules.rewrite_at(thing.partition(b":")[0].decode(), relation.decode(), at)
        if rewrite is None:
            return NO_RULE
        made = self.made.get(id(rewrite))
        if made is None:
            made = self.made[id(rewrite)] = rule_of(rewrite)
        return made
