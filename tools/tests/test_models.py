"""Models of OpenFGA that take less than the one before, and that clients name side by side."""
import json
import os
import re

from new_enemy_tools import limits
from tests.random_models import RandomLog, json_of
from tests.support import Case
from tests.test_openfga import change, check

RANDOM_MODELS = int(os.environ.get("RANDOM_MODELS", "40"))


def model(takes, model_id, **more):
    """A model whose documents are seen by these types of users."""
    relations = {"viewer": takes, "parent": ["doc"], **more}
    return json_of({"group": {"member": (["user", "group#member"], ("this",))},
                    "doc": {name: (users, ("this",)) for name, users in relations.items()}}, model_id)


def of(model_id):
    return {"authorization_model_id": model_id}


MEMBER = change("user:a", "member", "group:g")
VIEWER = change("group:g#member", at="2024-01-01T00:00:02Z")


class TightenedModels(Case):
    def words(self, first, *lines):
        self.put("model.json", json.dumps(first))
        self.put("log", list(lines))
        return "openfga", "--model", "model.json", "--from-empty", "log"

    def report(self, first, *lines):
        self.said = self.imported(*self.words(first, *lines))
        return self.audited().splitlines()[:-3]

    def test_a_stored_tuple_that_the_model_takes_no_more_gives_nothing(self):
        wide, tight = model(["user", "group#member"], "wide"), model(["user"], "tight")
        log = MEMBER, VIEWER, check(at=2, request=of("wide")), {"authorization_model": tight}
        self.assertEqual(self.report(wide, *log, check(at=2, allowed=False, request=of("tight"))), [])
        found, = self.report(wide, *log, check(at=2, request=of("tight")))
        self.assertIn("F10 wrong reply", found)

    def test_and_so_has_a_wildcard(self):
        log = change("user:*"), {"authorization_model": model(["user"], "tight")}
        self.assertEqual(self.report(model(["user", "user:*"], "wide"), *log, check(at=1, allowed=False, request=of("tight"))), [])
        self.assertEqual(len(self.report(model(["user", "user:*"], "wide"), *log, check(at=1, request=of("tight")))), 1)

    def test_what_a_later_model_takes_again_counts_again(self):
        wide = model(["user", "group#member"], "wide")
        log = (MEMBER, VIEWER, {"authorization_model": model(["user"], "tight")}, change("user:b", at="2024-01-01T00:00:03Z"),
               {"authorization_model": {**wide, "id": "again"}}, change("user:c", at="2024-01-01T00:00:04Z"))
        self.assertEqual(self.report(wide, *log, check(at=3, allowed=False, request=of("tight")), check(at=4), check("user:b", at=3, request=of("tight"))), [])
        self.assertEqual(len(self.report(wide, *log, check(at=3, request=of("tight")), check(at=4, allowed=False))), 2)

    def test_a_type_or_a_relation_that_is_dropped(self):
        tight = json_of({"doc": {"viewer": (["user"], ("this",))}}, "tight")
        wide = model(["user", "group#member"], "wide", editor=["user"])
        log = MEMBER, VIEWER, change("user:a", "editor"), {"authorization_model": tight}
        self.assertEqual(self.report(wide, *log, check(at=3, allowed=False, request=of("tight")), check(at=3, request=of("wide"))), [])
        self.assertEqual(self.struck(*self.words(wide, *log, check("user:a", "editor", at=3, request=of("tight")))),
                         ["log:5: check of a relation that the rules do not have: doc:1#editor of model tight@user:a"])

    def test_models_side_by_side_are_judged_each_by_theirs(self):
        wide, tight = model(["user", "group#member"], "wide"), model(["user"], "tight")
        log = [MEMBER, VIEWER, {"authorization_model": tight}]
        for allowed, name in (False, "tight"), (True, "wide"), (False, "tight"), (True, "wide"):
            log.append(check(at=2, allowed=allowed, request=of(name)))
        self.assertEqual(self.report(wide, *log), [])
        self.assertEqual(len(self.report(wide, *log, check(at=2, allowed=False, request=of("wide")))), 1)

    def test_a_relation_that_the_model_of_a_check_does_not_have(self):
        """Also where the models agree on all that both have."""
        more = model(["user"], "more", editor=["user"])
        log = change("user:a"), {"authorization_model": more}, check("user:b", "editor", at=1, allowed=False, request=of("less"))
        self.assertEqual(self.struck(*self.words(model(["user"], "less"), *log, check(at=1, request=of("more")))), [
            "log:3: check of a relation that the rules do not have: doc:1#editor of model less@user:b"])

    def test_a_version_is_one_for_all_models(self):
        wide, tight = model(["user", "user:*"], "wide"), model(["user"], "tight")
        log = (change("user:*"), change("user:a", at="2024-01-01T00:00:02Z"), {"authorization_model": tight},
               check(at=2, request=of("wide"), content={"version": "v", "token": 2}),
               check(at=2, request=of("tight"), version="v", token=2))
        self.assertEqual(self.report(wide, *log), [])
        found, = self.report(wide, *log, check(at=2, request=of("tight"), version="v"))
        self.assertIn("F2 old token", found)

    def test_a_stored_tuple_of_the_base_state_that_no_model_takes_is_not_seen(self):
        self.put("base", [{"key": {"user": "group:g#member", "relation": "viewer", "object": "doc:1"}},
                          {"key": {"user": "user:a", "relation": "member", "object": "group:g"}}])
        self.put("model.json", json.dumps(model(["user"], "tight")))
        self.put("log", [check(at=0, allowed=False), change("group:g#member", operation="DELETE"), check(at=1, allowed=False)])
        words = "openfga", "--model", "model.json", "--base", "base", "--base-at", "0", "log"
        self.assertIn("passed over 2: stored tuple that no model takes, so that no check sees it\n", self.imported(*words))
        self.assertEqual(self.audited(), "entries 2\nfindings 0\nverdict clean\n")

    def test_a_model_that_was_refused_is_never_in_force(self):
        wide, tight = model(["user", "group#member"], "wide"), model(["user"], "")
        call = {"request": {key: tight[key] for key in ("schema_version", "type_definitions")}}
        log = MEMBER, VIEWER, check(at=2), check(at=1, allowed=False)
        for failed in ({"response": {"code": "invalid_authorization_model", "message": "no"}}, {"error": {"code": 3}}, {"response": {}, "status": 400}):
            self.assertEqual(self.report(wide, *log[:2], {**call, **failed}, *log[2:]), [])
            self.assertIn("passed over 1: failed request", self.said)
        self.forget()
        self.assertEqual(self.refused(*self.words(wide, *log, call)), [
            "log:5: the line of this WriteAuthorizationModel has no response, so that it is not known whether the model came into force"])

    def test_a_rule_of_a_later_model_is_refused_at_the_line_that_has_it(self):
        odd = json_of({"doc": {"viewer": (["user"], ("difference", ("this",), ("computed", "viewer")))}}, "odd")
        found, = self.refused(*self.words(model(["user"], "first"), change("user:a"), {"authorization_model": odd}, check(at=1, request=of("odd"))))
        self.assertTrue(found.startswith("log:2: recursion through exclusion, by the rule of doc#viewer of model odd: "), found)
        self.assertIn(" at log:2", found)
        deep = ("this",)
        for _ in range(limits.DEPTH):
            deep = "union", [deep]
        deep = json_of({"doc": {"viewer": (["user"], deep)}}, "odd")
        self.assertEqual(self.refused(*self.words(model(["user"], "first"), change("user:a"), {"authorization_model": deep},
                                                  check(at=1, request=of("odd")))), ["log:2: the rule of doc#viewer of model odd is deeper than %d" % limits.DEPTH])

    def test_a_model_without_an_id_is_one_of_the_log(self):
        first = {key: value for key, value in model(["user"], "").items() if key != "id"}
        log = change("user:a"), check(at=1, request=of("one")), check(at=1, request=of("one"))
        self.assertEqual(self.report(first, *log), [])
        self.forget()
        self.assertEqual(self.refused(*self.words(first, *log, check(at=1, request=of("two")))), [
            "log:4: it names the model two, and the model of model.json, which has no id, was taken for one, which another check names: "
            "give each model with its id"])

    def test_a_model_that_is_told_again_has_the_same_rules(self):
        first = model(["user"], "one")
        self.assertEqual(self.report(first, change("user:a"), {"authorization_model": first}, check(at=1)), [])
        self.forget()
        self.assertEqual(self.refused(*self.words(first, {"authorization_model": model(["user:*"], "one")})),
                         ["log:1: model one stands at model.json:1 with other rules"])

    def test_what_is_in_doubt_is_so_for_each_model(self):
        wide, tight = model(["user", "group#member"], "wide"), model(["user"], "tight")
        log = (change("user:a", condition={"name": "c"}), {"authorization_model": tight}, check(at=1, request=of("wide")),
               check(at=1, request=of("tight")), check(thing="doc:2", at=1, allowed=False, request=of("tight")))
        said = self.imported(*self.words(wide, *log))
        self.assertIn("not audited 2: check that hangs on a tuple or rule that was left out\n", said)
        self.assertEqual(self.audited(), "entries 1\nfindings 0\nverdict clean\n")


class RandomModels(Case):
    def report(self, log, lines):
        self.put("model.json", json.dumps(json_of(log.models[0], "m0")))
        self.put("log", lines)
        self.imported("openfga", "--model", "model.json", "--from-empty", "log")
        return self.audited()

    def looked_at(self, seed):
        log = RandomLog(seed)
        report = self.report(log, log.lines)
        self.assertEqual(report, "entries %d\nfindings 0\nverdict clean\n" % len(log.checks), "seed %d" % seed)
        if not log.checks:
            return
        planted = log.rng.choice(log.checks)
        response = log.lines[planted]["response"]
        report = self.report(log, log.lines[:planted] + [{**log.lines[planted], "response": {"allowed": not response["allowed"]}}]
                             + log.lines[planted + 1:])
        found = [self.rows("trace.jsonl")[int(line) - 1]["from"] for line in re.findall(r"^line (\d+): F10 wrong reply$", report, re.M)]
        self.assertEqual([source.rsplit(":", 1)[1] for source in found], [str(planted + 1)], "seed %d" % seed)

    def test_random_logs_are_not_accused_and_each_planted_fault_is_found(self):
        for seed in range(RANDOM_MODELS):
            self.looked_at(seed)
