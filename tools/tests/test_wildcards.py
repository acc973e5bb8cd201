"""Tuples for every user of a type: what is written, what is told, and what is refused."""
from tests.test_trace_maker import CoreCase, check, rel, write

RULES = {"event": "rules", "namespaces": [
    {"name": "doc", "relations": [{"name": "viewer"}, {"name": "banned"}, {"name": "parent"}, {"name": "reader", "rewrite": {
        "exclusion": {"base": {"computed": "viewer"}, "subtract": {"computed": "banned"}}}},
        {"name": "above", "rewrite": {"tuple_to": {"tupleset": "parent", "computed": "reader"}}}]},
    {"name": "every", "relations": [{"name": "user"}]}]}
ALL = rel(user="*") + ["*"]


class Wildcards(CoreCase):
    def test_every_user_that_the_log_names(self):
        bots = rel(user="x", user_type="bot", relation="reader")
        rows = self.lines(RULES, write(1, ALL, rel("1", "banned", "b")), check(1), check(1, goal=rel(relation="reader")),
                          check(1, goal=rel(relation="reader", user="b"), reply=False), check(1, goal=bots, reply=False),
                          check(1, goal=rel(user="new")), write(2, remove=[ALL]), check(2, reply=False))
        self.assertEqual(rows[0]["add"], ["every_:user#user@%d" % number for number in (1, 2, 3)])
        self.assertEqual(rows[1]["add"], ["doc:1#viewer@every_:user#user", "doc:1#banned@1"])
        self.assertEqual((rows[0]["at"], rows[1]["at"], rows[-1]["snapshot"]), (1, 2, 3))
        self.assertIn("wildcards 2: a tuple for every user of a type stands for the users that the log names, 3 of type user\n",
                      self.said)
        self.assertEqual(self.audited(), "entries 6\nfindings 0\nverdict clean\n")

    def test_a_base_state_and_more_types(self):
        bots = rel(user="*", user_type="bot") + ["*"]
        self.lines(RULES, write(1, ALL, base=True), write(2, bots), check(1, goal=rel(user="x", user_type="bot"), reply=False),
                   check(2, goal=rel(user="x", user_type="bot")), check(1), words=())
        self.assertIn("1 of type user, 1 of type bot\n", self.said)
        self.assertEqual(self.audited(), "entries 3\nfindings 0\nverdict clean\n")

    def test_rules_that_change_need_not_have_the_namespace_of_all_users(self):
        later = RULES | {"revision": 2}
        self.lines(RULES, write(1, ALL), later, check(2))
        self.assertEqual(self.audited(), "entries 1\nfindings 0\nverdict clean\n")

    def test_refusals(self):
        self.assertEqual(self.refusals(RULES, write(1, rel("1", "parent", "*", "doc") + ["*"]), write(2, rel(user="a") + ["*"])), [
            "log:2: a rule goes on from doc#parent, and no rule can from every user: doc:1#parent@doc:*",
            "log:3: add[0] has `*` for the relation of one user; every user of a type is [.., type, \"*\", \"*\"]"])

    def test_a_user_with_a_star_for_its_id(self):
        rows = self.lines(RULES, write(1, rel(user="*")), check(1, goal=rel(user="*")), check(1, reply=False))
        self.assertEqual(rows[0]["add"], ["doc:1#viewer@1"])
        self.assertEqual(self.audited(), "entries 2\nfindings 0\nverdict clean\n")
