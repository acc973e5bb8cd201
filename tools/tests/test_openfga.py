"""The front end for OpenFGA: what it maps, and what it refuses by file and line."""
import json
import os
import subprocess
import sys

from new_enemy_tools.importing import causes
from new_enemy_tools.importing.feed import NO_SNAPSHOT
from tests.support import EXAMPLES, TOOLS, Case

MODEL = """{
  "schema_version": "1.1", "id": "M",
  "type_definitions": [
    {"type": "user"},
    {"type": "group", "relations": {"member": {"this": {}}},
     "metadata": {"relations": {"member": {"directly_related_user_types": [{"type": "user"}, {"type": "group", "relation": "member"}]}}}},
    {"type": "doc",
     "relations": {
       "parent": {"this": {}},
       "viewer": %s
     },
     "metadata": {"relations": {
       "parent": {"directly_related_user_types": [{"type": "doc"}]},
       "viewer": {"directly_related_user_types": [{"type": "user"}, {"type": "group", "relation": "member"}]}
     }}}
  ]
}
"""
THIS = '{"this": {}}'


def change(user, relation="viewer", thing="doc:1", at="2024-01-01T00:00:01Z", operation="WRITE", **more):
    return {"tuple_key": {"user": user, "relation": relation, "object": thing, **more}, "timestamp": at,
            "operation": "TUPLE_OPERATION_" + operation}


def check(user="user:a", relation="viewer", thing="doc:1", allowed=True, at="2024-01-01T00:00:01Z", request=None, **more):
    return {"request": {"tuple_key": {"user": user, "relation": relation, "object": thing}, **(request or {})},
            "response": {"allowed": allowed}, "snapshot": at, **more}


class Refusals(Case):
    def words(self, log=(), model=MODEL % THIS, *more):
        return ("openfga", "--model", self.name("model.json", model), "--from-empty", *more,
                self.name("log", log if isinstance(log, (bytes, str)) else list(log)))

    def refusals(self, *given):
        return self.refused(*self.words(*given), "--refuse-unmapped")

    def name(self, name, content):
        self.put(name, content)
        return name

    def test_tuples_by_line(self):
        log = [change("user:a"), change("user:*"), change("user:b", condition={"name": "weekday"}), change("robot:a"),
               change("user:a", "writer"), change("user:a", thing="paper:1")]
        self.assertEqual(self.refusals(log), [
            "log:2: tuple that the model does not take: doc:1#viewer@user:*",
            "log:3: condition on a tuple: doc:1#viewer@user:b",
            "log:4: tuple that the model does not take: doc:1#viewer@robot:a",
            "log:5: tuple that the model does not take: doc:1#writer@user:a",
            "log:6: tuple that the model does not take: paper:1#viewer@user:a"])

    def test_changes_by_line(self):
        log = [change("user:a", operation="MOVE"), change("user:a", at="2024-02-30T00:00:00Z"), change("anne"), change("user:a#"),
               change(7), change("user:a", thing="doc"), change("user:a", relation=None), {"hello": 1}, [1]]
        self.assertEqual(self.refusals(log), [
            "log:1: unknown operation 'TUPLE_OPERATION_MOVE'",
            "log:2: a change has no `timestamp` of RFC 3339",
            "log:3: 'anne' is no object `type:id`",
            "log:4: 'user:a#' is no user",
            "log:5: 7 is no user",
            "log:6: 'doc' is no object `type:id`",
            "log:7: a tuple key has no `relation`",
            "log:8: neither changes of ReadChanges nor a check with its `request`",
            "log:9: neither changes of ReadChanges nor a check with its `request`"])

    def test_checks_by_line(self):
        log = [change("user:a"), check("group:g#member"), check("user:*"), check(relation="writer"),
               check(request={"contextual_tuples": {"tuple_keys": [{"user": "user:a"}]}}),
               check(request={"context": {"hour": 7}}), check(request={"authorization_model_id": "N"}),
               check(allowed="yes"), check(at=None), check(token="soon"), check(version=7), check(content=1),
               check(content={"version": "v"}, allowed=False), check(content={}), check(version="")]
        self.assertEqual(self.struck(*self.words(log)), [
            "log:2: check of a userset as the user: doc:1#viewer@group:g#member",
            "log:3: check of a typed wildcard as the user: doc:1#viewer@user:*",
            "log:4: check of a relation that the rules do not have: doc:1#writer@user:a",
            "log:5: contextual tuples: doc:1#viewer@user:a",
            "log:6: context of conditions: doc:1#viewer@user:a",
            "log:7: check with another model: doc:1#viewer@user:a",
            "log:8: check that can't be read: the response has no `allowed`",
            "log:9: check that can't be read: " + NO_SNAPSHOT,
            "log:10: check that can't be read: `token` is no place in the changes feed and no timestamp",
            "log:11: check that can't be read: `version` is no text",
            "log:12: content check that can't be read: `content` is no object"])
        self.assertEqual([row.get("part") for row in self.rows("trace.jsonl")[-3:]], [causes.CONTENT_ODD, causes.CONTENT_ODD, causes.LABEL_EMPTY])

    def test_rewrites_by_line(self):
        cases = {
            '{"hidden": {}}': "rewrite without a form: doc#viewer has hidden",
            '{"this": {}, "union": {}}': "rewrite without a form: doc#viewer has this, union",
            '{"union": {"child": []}}': "rewrite without a form: the union of doc#viewer has no children",
            '{"computedUserset": {"relation": "editor"}}':
                "rewrite without a form: doc#viewer reads 'editor', which its type does not define",
            '{"computedUserset": {"object": "doc:2", "relation": "parent"}}':
                "rewrite without a form: doc#viewer reads 'parent', which its type does not define",
            '{"tupleToUserset": {"tupleset": {"relation": "viewer"}, "computedUserset": {"relation": "parent"}}}':
                "tupleset that is not direct: doc#viewer reads viewer",
            '{"tupleToUserset": {"tupleset": {"relation": "parent"}}}':
                "rewrite without a form: doc#viewer has no relation behind its tupleset"}
        for rewrite, text in cases.items():
            self.assertIn("model.json:10: " + text, self.refusals([change("user:a")], MODEL % rewrite))

    def test_a_tupleset_with_a_wildcard(self):
        ttu = '{"tupleToUserset": {"tupleset": {"relation": "parent"}, "computedUserset": {"relation": "viewer"}}}'
        model = (MODEL % ttu).replace('[{"type": "doc"}]', '[{"type": "doc"}, {"type": "doc", "wildcard": {}}]')
        self.assertEqual(self.refusals([change("user:a")], model)[0],
                         "model.json:10: doc#viewer goes on from doc#parent, which takes a wildcard: doc:*")

    def test_models_by_line(self):
        model = MODEL % THIS
        self.assertEqual(self.refusals([], model.replace('"1.1"', '"1.0"')),
                         ["model.json:2: schema version '1.0': only 1.1 and 1.2 are mapped"])
        self.assertEqual(self.refusals([], model.replace('{"type": "doc"}', '{"type": "paper"}')),
                         ["model.json:9: doc#parent takes paper, which the model does not define"])
        self.assertEqual(self.refusals([], model.replace('{"type": "doc"}', "")),
                         ["model.json:9: doc#parent has `this` and no `directly_related_user_types`"])
        self.assertEqual(self.refusals([], model.replace('"type": "group", "relations"', '"type": "user", "relations"'))[0],
                         "model.json:5: type user stands twice")
        self.assertEqual(self.refusals([], model.replace('{"type": "user"},\n', "{},\n", 1))[0],
                         "model.json:4: a type definition has no `type`, or no object as its `relations`")
        self.assertEqual(self.refusals([], "[]"), ["model.json:1: no authorization model: it has no `type_definitions`"])

    def test_what_is_no_json(self):
        self.assertEqual(self.refusals([], "{\n\"a\": 1,\n\"a\": 2}"), ["model.json:3: the key 'a' stands twice"])
        self.assertEqual(self.refusals([], "{\n\"a\" 1}"), ["model.json:2: not JSON: ':' should stand here"])
        self.assertEqual(self.refusals([], "{\n\"a\n\": 1}"),
                         ["model.json:2: not JSON: a text without an end, or with a letter that has to be escaped"])
        for text, told in (("{\n1: 2}", "2: not JSON: a key should stand here"), ("{\"a\":\n?}", "2: not JSON"),
                           ("{}\n{}", "2: not JSON: more text behind the value"), ("\n" + "[" * 300, "2: nested too deep"),
                           (b"{\n\xff}", "2: the bytes are no UTF-8")):
            self.assertEqual(self.refusals([], text), ["model.json:" + told])
            self.assertIn("log:", self.refusals(b"{\n\xff")[0])
        self.assertEqual(self.refusals("{\"changes\": [\n\n}"), ["log:3: not JSON"])
        self.assertEqual(self.refusals("{}\n" + "[" * 100_000)[1], "log:2: nested too deep")
        self.assertEqual(self.refusals('{"a":\n"\\ud800"}'), ["log:2: half of a pair of code units stands alone"])
        good = json.dumps(change("user:a"))
        self.assertEqual(self.refusals("{\"changes\":\n%s\n{\"a\":\"\\ud800\"}\n%s\n{" % (good, good.replace(":a", ":b"))), [
            "log:1: not JSON", "log:3: half of a pair of code units stands alone", "log:5: not JSON"])
        log = json.dumps(change("user:a")) + "\n{\"a\":\n" + '{"a":1,"a":2}\n{"a":NaN}\n'
        self.assertEqual(self.refusals(log), ["log:2: not JSON", "log:3: the key 'a' stands twice", "log:4: NaN is no JSON"])

    def test_recursion_through_a_difference_leaves_out_what_hangs_on_it(self):
        rewrite = '{"difference": {"base": {"this": {}}, "subtract": {"computedUserset": {"relation": "banned"}}}}'
        model = (MODEL % rewrite).replace('"parent": {"this": {}}', '"parent": {"this": {}}, "banned": {"this": {}}')
        users = '"banned": {"directly_related_user_types": [{"type": "user"}, {"type": "doc", "relation": "viewer"}]},\n"parent":'
        model = model.replace('"parent": {"dir', users + ' {"dir')
        log = [change("user:a"), change("doc:2#viewer", "banned", at="2024-01-01T00:00:02Z"),
               change("doc:3#viewer", "banned", at="2024-01-01T00:00:03Z")]
        checks = [check(at=3), check("user:b", at=3, allowed=False, thing="doc:2"), check("user:b", at=3, thing="doc:4"),
                  check(at=1), check("user:a", "banned", at=1, allowed=False, thing="doc:4")]
        gone = change("doc:2#viewer", "banned", at="2024-01-01T00:00:04Z", operation="DELETE")
        self.put("model.json", model)
        self.put("log", [*log, *checks, gone])
        self.assertEqual(self.struck("openfga", "--model", "model.json", "--from-empty", "log"), [
            "log:%d: check that hangs on a tuple or rule that was left out: doc:1#viewer@user:a" % line for line in (4, 7)])
        self.assertEqual(self.audited(), "line 7: F10 wrong reply\nentries 3\nfindings 1\nverdict dirty\n")
        said = self.imported("openfga", "--model", "model.json", "--from-empty", "log")
        self.assertIn("log:2: by tuple doc:1#banned@doc:2#viewer and what is like it doc#banned reads doc#viewer, and so a relation takes away "
                      "what rests on it", said)
        self.assertIn("left out 2: tuple through which a relation takes away what it rests on\n", said)

    def test_base_state(self):
        self.put("base.json", '{"tuples": [\n{"key": {"user": "user:a", "relation": "viewer", "object": "doc:1"}},\n'
                 '{"key": {"user": "user:*", "relation": "viewer", "object": "doc:1"}},\n{"key": 1}]}')
        self.put("model.json", MODEL % THIS)
        self.put("log", [check(at="2023-01-01T00:00:00Z"), change("user:b", at="2023-01-01T00:00:00Z")])
        words = ("openfga", "--model", "model.json", "--base", "base.json", "--base-at", "2024-01-01T00:00:00Z", "log")
        self.assertEqual(self.refused(*words), [
            "base.json:4: a tuple key has no `relation`",
            "log:2: its revision 2023-01-01T00:00:00Z is not later than that of the base state"])


class Places(Case):
    """Revisions are places in the changes feed, and timestamps are labels."""

    def setUp(self):
        super().setUp()
        self.put("model.json", MODEL % THIS)

    def at(self, seconds):
        return "2024-01-01T00:00:%02dZ" % seconds

    def words(self, log, *more):
        self.put("log", list(log))
        return ("openfga", "--model", "model.json", *(more or ["--from-empty"]), "log")

    def refusals(self, log, *more):
        return self.refused(*self.words(log, *more))

    def audit(self, log, *more):
        self.said = self.imported(*self.words(log, *more)).splitlines()
        return self.audited().splitlines()

    def test_one_timestamp_more_than_once(self):
        log = [change("user:a", at=self.at(1)), change("user:a", at=self.at(1), operation="DELETE"), change("user:b", at=self.at(2)),
               change("user:c", at=self.at(1)),
               *[check(allowed=allowed, at=place) for place, allowed in ((0, False), (1, True), (2, False), (4, False))],
               check("user:c", at=4), check("user:c", allowed=False, at=3), check("user:c", at=self.at(2)), check("user:c", at=3)]
        self.assertEqual(self.audit(log), ["line 14: F10 wrong reply", "entries 8", "findings 1", "verdict dirty"])
        self.assertEqual([row["at"] for row in self.rows("trace.jsonl") if row["kind"] == "commit"], [2, 3, 4, 5])

    def test_changes_of_one_timestamp_are_one_commit_where_no_check_looks_between(self):
        log = [change("user:a"), change("user:b"), change("user:c"), change("user:d"), check("user:b", at=2), check("user:d")]
        self.audit(log)
        self.assertEqual([row["add"] for row in self.rows("trace.jsonl") if row["kind"] == "commit"],
                         [["doc:1#viewer@1", "doc:1#viewer@2"], ["doc:1#viewer@3", "doc:1#viewer@4"]])

    def test_what_is_not_one_place(self):
        log = [change("user:a", at=self.at(1)), change("user:b", at=self.at(3)), change("user:c", at=self.at(1)),
               check(at=self.at(1)), check(at=4), check(snapshot_between=[2, 1], at=None), check(snapshot_between=[1, 2]),
               check(snapshot_between=[1], at=None), check(snapshot_between=[1, "x"], at=None), check(token=9, at=3), check(at=-1),
               check(at=True)]
        self.assertEqual(self.struck(*self.words(log)), [
            "log:4: check without one snapshot: snapshot 2024-01-01T00:00:01Z is not one place: changes at or before it stand "
            "behind later ones; give the place in the feed",
            "log:5: check without one snapshot: place 4 is beyond the feed, which ends at place 3",
            "log:6: check without one snapshot: `snapshot_between` is no range: place 2 stands behind place 1",
            "log:7: check that can't be read: the check has both of `snapshot` and `snapshot_between`; give one",
            "log:8: check that can't be read: `snapshot_between` is no list of two places or timestamps",
            "log:9: check that can't be read: `snapshot_between` is no place in the changes feed and no timestamp",
            "log:10: check without one snapshot: place 9 is beyond the feed, which ends at place 3",
            "log:11: check that can't be read: `snapshot` is no place in the changes feed and no timestamp",
            "log:12: check that can't be read: `snapshot` is no place in the changes feed and no timestamp"])

    def test_a_base_state_of_which_the_last_page_is_missing(self):
        def page(user, ends):
            return {"tuples": [{"key": change(user)["tuple_key"], "timestamp": "2023-01-01T00:00:00Z"}], "continuation_token": ends}
        words = ("openfga", "--model", "model.json", "--base", "one", "--base", "two", "--base-at", "7", "log")
        self.put("log", [check(at=7), check("user:b", at=7)])
        self.put("one", [page("user:a", "more")])
        self.put("two", [page("user:b", "")])
        self.assertIn("checks 2", self.imported(*words))
        self.forget()
        self.put("two", [page("user:b", "still more")])
        self.assertEqual(self.refused(*words), [
            "two:1: the base state goes on behind this page, which has a `continuation_token`: give all pages of Read"])

    def test_places_go_on_behind_a_base_state(self):
        self.put("base.json", {})
        words = ("--base", "base.json", "--base-at", "7")
        self.put("base.json", [{"key": change("user:a")["tuple_key"]}])
        self.assertEqual(self.audit([change("user:b"), check(at=7), check("user:b", at=7, allowed=False), check("user:b", at=8)],
                                    *words)[-1], "verdict clean")
        self.forget()
        self.assertEqual(self.struck(*self.words([change("user:b"), check(at=6), check(at=9)], *words)), [
            "log:2: check before the base state: its snapshot is place 6",
            "log:3: check without one snapshot: place 9 is beyond the feed, which ends at place 8"])

    def test_between_two_places(self):
        log = [change("user:a", at=self.at(1)), change("user:a", at=self.at(2), operation="DELETE"), change("user:b", at=self.at(2)),
               check(snapshot_between=[0, 3], at=None), check("user:b", snapshot_between=[1, 2], at=None),
               check("user:b", snapshot_between=[self.at(1), self.at(2)], at=None)]
        self.assertEqual(self.audit(log), ["line 7: F10 wrong reply", "line 8: F10 wrong reply", "entries 4", "findings 2",
                                           "verdict dirty"])
        self.assertEqual(self.said[:2], ["commits 3, checks 3, content checks 0",
                                         "3 checks may have looked at any state between two that are known: 2 right at one of them, 1 wrong at each of them (2 entries)"])

    def test_a_state_without_another_finding_is_taken(self):
        """The token demands place 2, and a reply of place 2 or 3 is right; the content's token is that of place 2."""
        content = {"version": "v", "token": 2}
        log = [change("user:a", at=self.at(1)), change("user:b", at=self.at(2)), change("user:c", at=self.at(3)),
               check(snapshot_between=[1, 3], at=None, token=2), check(snapshot_between=[1, 2], at=None, content=content)]
        self.assertEqual(self.audit(log), ["line 7: F3 not latest, see line 5", "entries 2", "findings 1", "verdict dirty"])
        self.assertEqual([row["snapshot"] for row in self.rows("trace.jsonl")[-2:]], [3, 2])

    def test_more_states_than_are_looked_at(self):
        log = [change("user:u%d" % number, at=self.at(number % 60)) for number in range(1200)]
        self.assertEqual(self.struck(*self.words(log + [check(snapshot_between=[1, 1200], at=None), check("user:u0", at=1)])), [
            "log:1201: %s: 1200 commits, and 1000 states at most are looked at" % causes.TOO_WIDE])
        self.assertEqual(self.audited(), "entries 1\nfindings 0\nverdict clean\n")


class Mapped(Case):
    def test_all_forms_one_to_one(self):
        parts = ('{"union": {"child": [{"this": {}}, {"computedUserset": {"relation": "parent"}}, {"intersection": {"child": ['
                 '{"this": {}}, {"tupleToUserset": {"tupleset": {"relation": "parent"}, "computedUserset": {"relation": '
                 '"viewer"}}}]}}, {"difference": {"base": {"this": {}}, "subtract": {"computedUserset": {"relation": "parent"}}}}]}}')
        self.put("model.json", MODEL % parts)
        self.put("log", [change("doc:2", "parent")])
        self.imported("openfga", "--model", "model.json", "--from-empty", "log")
        viewer = self.rows("trace.jsonl")[1]["relations"][1]
        self.assertEqual(viewer, {"name": "viewer", "stratum": 1, "rewrite": {"union": [
            {"this": {}}, {"computed": "parent"},
            {"intersection": [{"this": {}}, {"tuple_to": {"tupleset": "parent", "computed": "viewer"}}]},
            {"exclusion": {"base": {"this": {}}, "subtract": {"computed": "parent"}}}]}})

    def test_a_direct_subject_of_a_tupleset_gives_the_userset_too(self):
        ttu = '{"tupleToUserset": {"tupleset": {"relation": "parent"}, "computedUserset": {"relation": "viewer"}}}'
        self.put("model.json", MODEL % ('{"union": {"child": [{"this": {}}, %s]}}' % ttu))
        self.put("log", [change("doc:2", "parent"), change("doc:2", "parent", operation="DELETE", at="2024-01-01T00:00:02Z")])
        self.imported("openfga", "--model", "model.json", "--from-empty", "log")
        commits = self.rows("trace.jsonl")[2:]
        self.assertEqual(commits[0]["add"], ["doc:1#parent@1", "doc:1#parent@doc:2#..."])
        self.assertEqual(commits[1]["remove"], commits[0]["add"])

    def test_a_page_over_many_lines_and_both_spellings(self):
        page = json.dumps({"changes": [change("user:a"), change("user:b")]}, indent=2).replace("tuple_key", "tupleKey")
        self.put("model.json", (MODEL % THIS).replace("type_definitions", "typeDefinitions"))
        self.put("log", page)
        self.imported("openfga", "--model", "model.json", "--from-empty", "log")
        commit = self.rows("trace.jsonl")[2]
        self.assertEqual((commit["add"], commit["from"]), (["doc:1#viewer@1", "doc:1#viewer@2"], "log:3"))

    def test_a_union_of_more_children_than_a_trace_takes(self):
        self.put("model.json", MODEL % ('{"union": {"child": [%s]}}' % ", ".join([THIS] * 130)))
        self.put("log", [change("user:a"), check()])
        self.imported("openfga", "--model", "model.json", "--from-empty", "log")
        union = self.rows("trace.jsonl")[1]["relations"][1]["rewrite"]["union"]
        self.assertEqual([len(child["union"]) for child in union], [64, 64, 2])
        self.assertIn("verdict clean", self.audited())


class Examples(Case):
    def imported_example(self, log):
        folder = os.path.join(EXAMPLES, "openfga")
        return self.imported("openfga", "--model", os.path.join(folder, "model.json"), "--from-empty",
                             os.path.join(folder, log))

    def test_clean(self):
        self.imported_example("log.jsonl")
        self.assertEqual(self.audited(), "entries 6\nfindings 0\nverdict clean\n")

    def test_stale(self):
        self.imported_example("stale_log.jsonl")
        self.assertEqual(self.audited().splitlines(), [
            "line 9: F3 not latest, see line 8", "line 11: F2 old token, see line 10", "line 13: F1 stale",
            "line 14: F10 wrong reply", "entries 7", "findings 4", "verdict dirty"])


class InShort(Case):
    def test_each_run_has_its_own_numbers_for_tuples_whatever_the_seed_of_python(self):
        words = [sys.executable, "-c", "from new_enemy_tools.importing.keyed_hash import short; print(*map(short, [('doc', '1')] * 2))"]
        runs = [subprocess.run(words, cwd=TOOLS, env={**os.environ, "PYTHONHASHSEED": "0"}, capture_output=True, text=True) for _ in range(2)]
        (one, again), (other, _) = (run.stdout.split() for run in runs)
        self.assertEqual(one, again)
        self.assertNotEqual(one, other)
