"""What services and their tools print: calls that answer many questions, store files, and lines of other tools."""
import json
import unittest
from unittest import mock

from new_enemy_tools.importing import causes, yaml_files
from new_enemy_tools.importing.located import Malformed
from new_enemy_tools.importing.openfga_answers import answers_of
from new_enemy_tools.importing.reading import Bad
from new_enemy_tools.importing.refusals import Refusals
from new_enemy_tools.importing.yaml_files import parse_yaml, yaml
from tests.support import Case
from tests.test_openfga import MODEL, THIS, change
from tests.test_openfga_dsl import DSL
from tests.test_round_trips import token_text
from tests.test_spicedb import SCHEMA, VIEW, thing, update, watch
from tests.test_spicedb import check as zed_check


NEEDS_YAML = unittest.skipIf(yaml is None, "PyYAML is not installed")


def key(user, thing="doc:1", relation="viewer"):
    return {"tuple_key": {"user": user, "relation": relation, "object": thing}}


class CallsCase(Case):
    def goals(self):
        """The goals of the trace with their replies, by the names of the table."""
        users = [row["id"] for row in self.rows("ids.jsonl")]
        rows = [row for row in self.rows("trace.jsonl") if row["kind"] == "check"]
        return ["%s@%s %s" % (row["goal"].split("@")[0], users[int(row["goal"].split("@")[1]) - 1], str(row["reply"]).lower())
                for row in rows]


class OpenFga(CallsCase):
    def words(self, *lines):
        self.put("model.json", MODEL % THIS)
        self.put("log", [change("user:a"), change("user:b", at="2024-01-01T00:00:02Z"), *lines])
        return "openfga", "--model", "model.json", "--from-empty", "log"

    def test_a_batch(self):
        checks = [key("user:%s" % name) | {"correlation_id": name} for name in "abcx"] + [
            key("user:d") | {"correlation_id": "d", "context": {"hour": 7}}]
        results = {"a": {"allowed": True}, "b": {"allowed": True}, "c": {"allowed": False}, "d": {"allowed": True},
                   "x": {"error": {"input_error": "validation_error", "message": "no such relation"}}}
        words = self.words({"request": {"checks": checks}, "response": {"result": results}, "snapshot": 2})
        said = self.imported(*words).splitlines()
        self.assertEqual(said[:2], ["passed over 1: failed request (no such relation)",
                                    "not audited: context of conditions, first at log:3: doc:1#viewer@user:d"])
        self.assertEqual(self.goals(), ["doc:1#viewer@a true", "doc:1#viewer@b true", "doc:1#viewer@c false"])
        self.assertIn("verdict clean", self.audited())
        del results["a"]
        words = self.words({"request": {"checks": checks[:1]}, "response": {"result": results}, "snapshot": 2})
        # The other three are decisions on what nobody asked.
        self.assertEqual(self.unaudited(*words), ["not audited: %s, first at log:3: doc:1#viewer@user:a" % causes.UNREADABLE,
                                                  "not audited 4: %s" % causes.UNREADABLE])

    def test_answers_of_another_form(self):
        """A list that is left out has nothing in it, but not where the answer says something else; what was decided was, also beside an error."""
        objects = {"type": "doc", "relation": "viewer", "user": "user:a"}
        users = {"object": {"type": "doc", "id": "1"}, "relation": "viewer", "user_filters": [{"type": "user"}]}
        for request, name in (objects, "objects"), (users, "users"):
            for response in {}, {name: []}, {name: None}, {name: [], "more": 1}:
                self.assertEqual(list(answers_of(request, response, Refusals())), [])
            for response in {"others": ["doc:1"]}, {name: {}}, {name: "doc:1"}:
                with self.assertRaises(Bad):
                    list(answers_of(request, response, Refusals()))
        batch = {"checks": [key("user:a") | {"correlation_id": "a"}]}
        results = {"a": {"allowed": True, "error": {"message": "x"}}, "b": {"allowed": True, "error": {"message": "x"}}}
        self.assertEqual([(one.goal.user_id, one.reply, one.unmapped) for one in answers_of(batch, {"result": results}, Refusals())],
                         [("a", True, None), ("?", False, causes.UNREADABLE)])

    def test_one_of_many_that_cannot_be_read_costs_no_other(self):
        checks = [key("user:%s" % name) | {"correlation_id": name} for name in "abc"]
        results = {name: {"allowed": name != "c"} for name in "abc"}
        odd = {"tuple_key": {"user": "anne", "relation": "viewer", "object": "doc:1"}, "correlation_id": "a"}
        batch = {"request": {"checks": [odd, *checks[1:]]}, "response": {"result": results}, "snapshot": 2}
        objects = {"request": {"type": "doc", "relation": "viewer", "user": "user:a"}, "response": {"objects": ["doc:1", "doc", 7]}, "snapshot": 2}
        self.assertEqual(self.struck(*self.words(batch, objects)), [
            "log:%d: %s: one of several of this line" % (line, causes.UNREADABLE) for line in (3, 4, 4)])
        self.assertEqual(self.goals(), ["doc:1#viewer@b true", "doc:1#viewer@c false", "doc:1#viewer@a true"])
        self.assertEqual(self.audited(), "entries 3\nfindings 0\nverdict clean\n")

    def test_a_listed_user_that_cannot_be_read_is_not_one_that_nobody_let_in(self):
        """A right list would be a wrong reply."""
        def listed(*users, **asked):
            request = {"object": {"type": "doc", "id": "1"}, "relation": "viewer", "user_filters": [{"type": "user"}], **asked}
            return {"request": request, "response": {"users": list(users)}, "snapshot": 2}
        good = {"object": {"type": "user", "id": "b"}}
        odd = ({}, None, "user:a", {"object": {"type": "user"}}, {"object": {"type": 7, "id": "a"}}, {"userset": {"type": "group", "id": "g"}},
               {"wildcard": {}}, {"User": good})
        lines = [listed(one) for one in odd] + [listed(good, object={"type": "doc"}), listed(good, *odd)]
        self.assertEqual(len(self.struck(*self.words(*lines))), 2 * len(odd) + 1)
        self.assertEqual(self.audited(), "entries 1\nfindings 0\nverdict clean\n")
        self.assertEqual(self.goals(), ["doc:1#viewer@b true"])

    def test_lists(self):
        objects = {"request": {"type": "doc", "relation": "viewer", "user": "user:a"}, "response": {"objects": ["doc:1", "doc:2"]},
                   "snapshot": 2}
        users = {"request": {"object": {"type": "doc", "id": "1"}, "relation": "viewer", "user_filters": [{"type": "user"}]},
                 "response": {"users": [{"object": {"type": "user", "id": "b"}}]}, "snapshot": 1}
        nothing = objects | {"response": {"objects": []}}
        said = self.imported(*self.words(objects, users, nothing)).splitlines()
        self.assertEqual(said[0], "passed over 1: call that found nothing")
        self.assertEqual(self.goals(), ["doc:1#viewer@a true", "doc:2#viewer@a true", "doc:1#viewer@b true"])
        self.assertEqual(self.audited().splitlines()[:2], ["line 6: F10 wrong reply", "line 7: F10 wrong reply"])
        broken = objects | {"response": [{"result": {"object": "doc:1"}}, {"error": {"grpc_code": 4, "message": "late"}}]}
        self.assertIn("passed over 1: failed request (late)\n", self.imported(*self.words(broken)))
        self.assertEqual(self.goals(), ["doc:1#viewer@a true"])

    def test_users_that_are_none(self):
        users = {"request": {"object": {"type": "doc", "id": "1"}, "relation": "viewer", "user_filters": [{}]}, "response": {"users": [
            {"wildcard": {"type": "user"}}, {"userset": {"type": "group", "id": "g", "relation": "member"}}]}, "snapshot": 1}
        contextual = users | {"request": users["request"] | {"contextual_tuples": [{}]},
                              "response": {"users": [{"object": {"type": "user", "id": "b"}}]}}
        said = self.unaudited(*self.words(users, contextual, users | {"response": {"users": 7}}))
        self.assertEqual(said[:4], ["not audited: %s" % one for one in (
            "check of a typed wildcard as the user, first at log:3: doc:1#viewer@user:*",
            "check of a userset as the user, first at log:3: doc:1#viewer@group:g#member",
            "check that can't be read, first at log:5: `users` is no list", "contextual tuples, first at log:4: doc:1#viewer@user:b")])
        self.assertEqual(len(said), 8)

    def test_a_version_is_of_one_object(self):
        """Of another object nobody saved it, and a right caller would be one that shows an unknown version."""
        saves = {"request": key("user:a"), "response": {"allowed": True}, "snapshot": 2, "content": {"version": "v", "token": 2}}
        def batch(*things):
            checks = [key("user:a", thing) | {"correlation_id": thing} for thing in things]
            return {"request": {"checks": checks}, "response": {"result": {thing: {"allowed": thing == "doc:1"} for thing in things}}, "snapshot": 2}
        shown = {"version": "v", "token": 2}
        self.assertEqual(self.struck(*self.words(saves, batch("doc:1", "doc:2") | shown)), [
            "log:4: %s: a `version` is of one object, and this line asks of several" % causes.UNREADABLE] * 2)
        self.forget()
        self.imported(*self.words(saves, batch("doc:1", "doc:2"), batch("doc:1") | shown))
        self.assertEqual(self.audited(), "entries 4\nfindings 0\nverdict clean\n")

    def test_what_a_content_check_saves_stands_in_its_content_alone(self):
        for more in {"version": "w"}, {"token": 1}:
            line = {"request": key("user:a"), "response": {"allowed": True}, "snapshot": 2, "content": {"version": "v", "token": 2}, **more}
            self.assertEqual(self.struck(*self.words(line)), [
                "log:3: content check that can't be read: what a content check saves stands in `content`, and this line has a `version` or a `token` "
                "beside it: give each a line"])

    def test_a_content_check_asks_one_question(self):
        line = {"request": {"checks": [key("user:a") | {"correlation_id": "1"}, key("user:b") | {"correlation_id": "2"}]},
                "response": {"result": {"1": {"allowed": True}, "2": {"allowed": True}}}, "snapshot": 2, "content": {"version": "v"}}
        self.assertEqual(self.unaudited(*self.words(line))[0],
                         "not audited: content check that can't be read, first at log:3: a content check asks one question, and this line 2")

    def test_changes_within_a_call(self):
        page = {"request": {"page_size": 50}, "response": {"changes": [change("user:c", at="2024-01-01T00:00:03Z")]}}
        empty = {"request": {"continuation_token": "x"}, "response": {"continuation_token": "x"}}
        said = self.imported(*self.words(page, empty, {"request": key("user:c"), "response": {"allowed": True}, "snapshot": 3}))
        self.assertIn("passed over 1: other call (ReadChanges)\n", said)
        self.assertNotIn("not audited", said)
        self.assertIn("verdict clean", self.audited())

    @NEEDS_YAML
    def test_a_store_file(self):
        text = "name: shop\nmodel: |\n%s\ntuples:\n  - user: user:a\n    relation: owner\n    object: doc:1\n%s" % (
            "".join("  %s\n" % line for line in DSL.splitlines()), "  - user: user:*\n    relation: owner\n    object: doc:2\n")
        self.put("store.fga.yaml", text)
        self.put("log", [{"request": key("user:%s" % user, thing), "response": {"allowed": allowed}, "snapshot": 0}
                         for user, thing, allowed in (("a", "doc:1", True), ("b", "doc:1", False), ("b", "doc:2", True))])
        words = ("openfga", "--model", "store.fga.yaml", "--base", "store.fga.yaml", "--base-at", "0", "log")
        self.imported(*words)
        self.assertEqual(self.audited(), "entries 3\nfindings 0\nverdict clean\n")
        self.assertEqual(self.rows("trace.jsonl")[4]["from"], "store.fga.yaml:%d" % (text[:text.index("- user")].count("\n") + 1))
        self.put("store.fga.yaml", text + "tests:\n  - name: t\n    check: x\n")
        self.assertIn("passed over 1: test of a store file\n", self.imported(*words))
        self.put("store.fga.yaml", text + "tuple_file: other.yaml\n")
        self.assertIn("tuples in files of their own are not read; give them with --base", self.run_import(*words)[1])
        self.put("model.fga", DSL)
        self.put("store.fga.yaml", "model_file: ./model.fga\ntuples:\n- {user: &a a}\n")
        self.assertIn("store.fga.yaml:3: YAML that is not read: an anchor, an alias or a tag\n", self.run_import(*words)[1])
        self.put("store.fga.yaml", "model_file: ./model.fga\n")
        self.assertIn("commits 0, checks 3", self.imported(*words))


class SpiceDb(CallsCase):
    def words(self, *lines, base=None):
        self.put("schema.zed", SCHEMA % VIEW)
        self.put("log", [watch(5, update("user:a"), update("user:b")), *lines])
        return "spicedb", "--schema", "schema.zed", "--from-empty", "log"

    def test_bulk_checks(self):
        def pair(user, **more):
            return {"request": {"resource": thing("doc:1"), "permission": "view", "subject": {"object": thing("user:" + user)}}, **more}
        pairs = [pair("a", item={"permissionship": "PERMISSIONSHIP_HAS_PERMISSION"}), pair("b", error={"code": 3, "message": "no"}),
                 pair("c", item={"permissionship": "PERMISSIONSHIP_NO_PERMISSION"})]
        line = {"request": {"items": [{}]}, "response": {"checkedAt": {"token": token_text(5)}, "pairs": pairs}}
        said = self.imported(*self.words(line)).splitlines()
        self.assertEqual(said[0], "passed over 1: failed request (3)")
        self.assertEqual(self.goals(), ["doc:1#view@a true", "doc:1#view@c false"])
        self.assertIn("verdict clean", self.audited())

    def test_lookups(self):
        at = {"token": token_text(5)}
        resources = {"request": {"resourceObjectType": "doc", "permission": "view", "subject": {"object": thing("user:a")}}, "response": [
            {"lookedUpAt": at, "resourceObjectId": name, "permissionship": "LOOKUP_PERMISSIONSHIP_HAS_PERMISSION"} for name in "12"]}
        subjects = {"request": {"resource": thing("doc:1"), "permission": "view", "subjectObjectType": "user"}, "response": {"result": {
            "lookedUpAt": at, "subject": {"subjectObjectId": "b", "permissionship": "LOOKUP_PERMISSIONSHIP_HAS_PERMISSION"}}}}
        nothing = resources | {"response": []}
        maybe = resources | {"response": [resources["response"][0] | {"permissionship": "LOOKUP_PERMISSIONSHIP_CONDITIONAL_PERMISSION"}]}
        said = self.imported(*self.words(resources, subjects, nothing, maybe)).splitlines()
        self.assertEqual(said[:2], ["passed over 1: call that found nothing", "not audited: conditional permission, first at log:5: doc:1#view@user:a"])
        self.assertEqual(self.goals(), ["doc:1#view@a true", "doc:2#view@a true", "doc:1#view@b true"])
        self.assertEqual(self.audited().splitlines()[0], "line 5: F10 wrong reply")
        told = "the line has no response of the lookup: a list is empty where it found nothing"
        for line in resources, subjects:
            for bare in {"request": line["request"]}, line | {"response": None}:
                self.assertEqual(self.struck(*self.words(bare)), ["log:2: %s: %s" % (causes.UNREADABLE, told)])
        broken = [line | {"response": [*(line["response"] if isinstance(line["response"], list) else [line["response"]]), {"error": {"code": 4}}]}
                  for line in (resources, subjects)]
        self.assertIn("passed over 2: failed request (4)\n", self.imported(*self.words(*broken)))
        self.assertEqual(self.goals(), ["doc:1#view@a true", "doc:2#view@a true", "doc:1#view@b true"])
        apart = resources | {"response": [resources["response"][0], resources["response"][1] | {"lookedUpAt": {"token": token_text(6)}}]}
        self.assertEqual(self.struck(*self.words(apart)), [
            "log:2: %s: the answers of this lookup have several `lookedUpAt`: give each state a line, with the request" % causes.UNREADABLE])
        odd = resources | {"response": [*resources["response"], {"lookedUpAt": at, "resourceObjectId": 7}]}
        self.assertEqual(self.struck(*self.words(odd)), ["log:2: %s: one of several of this line" % causes.UNREADABLE])

    def test_bulk_checks_that_have_no_answer(self):
        items = [{"resource": thing("doc:1"), "permission": "view", "subject": {"object": thing("user:" + user)}} for user in "abc"]
        pairs = [{"request": item, "item": {"permissionship": "PERMISSIONSHIP_HAS_PERMISSION"}} for item in items[:2]]
        for given, count in ((pairs, 1), (pairs[:1], 2), ([], 3)):
            line = {"request": {"items": items}, "response": {"checkedAt": {"token": token_text(5)}, "pairs": given}}
            self.assertEqual(len(self.struck(*self.words(line))), count)
            self.assertEqual(self.audited(), "entries %d\nfindings 0\nverdict clean\n" % len(given))
        line["response"]["pairs"] = [{"request": {}, "item": {}}, *pairs, {"request": items[2], "error": {"code": 3}}]
        self.assertEqual(len(self.struck(*self.words(line))), 1)
        self.assertEqual(self.audited(), "entries 2\nfindings 0\nverdict clean\n")

    def test_calls_of_the_experimental_service(self):
        """What loads tuples says nothing of them; others decide nothing."""
        def call(name):
            return {"request": {"permission": "view"}, "response": {}, "method": "/authzed.api.v1.ExperimentalService/" + name}
        words = self.words(*map(call, ("BulkImportRelationships", "BulkExportRelationships", "DependentRelations", "ComputablePermissions")))
        self.assertEqual(self.imported(*words).count("passed over 1: other call"), 4)
        self.forget()
        self.put("log", [call("BulkImportRelationships"), zed_check()])
        refused, = self.refused(*words)
        self.assertTrue(refused.startswith("log:1: this BulkImportRelationships wrote, and no line of the log says all of what"), refused)

    def test_events_of_an_audit_log(self):
        check = zed_check()
        event = {"specversion": "1.0", "id": "1", "source": "/ps/one", "type": "/authzed.api.v1.PermissionsService/CheckPermission",
                 "time": "2024-01-01T00:00:00Z", "data": {"request": check["request"], "response": check["response"]}}
        other = event | {"type": "/authzed.api.v1.SchemaService/ReadSchema", "data": {"request": {}, "response": {}}}
        said = self.imported(*self.words(event, other))
        self.assertIn("passed over 1: other call (ReadSchema)\n", said)
        self.assertEqual(self.goals(), ["doc:1#view@a true"])

    def test_relationships_as_zed_prints_them(self):
        self.words(zed_check(), zed_check(subject="user:m"), zed_check(subject="user:x", reply="NO"))
        self.put("base", "doc:1 viewer group:g#member\ngroup:g member user:m\ngroup:g  member  user:n [expiration:2030]\n")
        words = ("spicedb", "--schema", "schema.zed", "--base", "base", "--base-at", "4", "log")
        self.assertEqual(self.refused(*words, "--refuse-unmapped"), ["base:3: expiration: group:g#member@user:n"])
        self.assertIn("left out 1: expiration, first at base:3: group:g#member@user:n\n", self.imported(*words))
        self.put("base", "doc:1 viewer group:g#member\ngroup:g member user:m\n")
        self.imported(*words)
        self.assertEqual(self.audited(), "entries 3\nfindings 0\nverdict clean\n")

    @NEEDS_YAML
    def test_a_validation_file(self):
        text = "schema: |-\n%srelationships: |\n  // some\n  doc:1#viewer@group:g#member\n  group:g#member@user:m\n%s" % (
            "".join("  %s\n" % line for line in (SCHEMA % VIEW).splitlines()),
            "assertions:\n  assertTrue:\n    - doc:1#view@user:m\nvalidation:\n  doc:1#view:\n    - \"[user:m]\"\n")
        self.words(zed_check(subject="user:m"), zed_check())
        self.put("valid.yaml", text)
        words = ("spicedb", "--schema", "valid.yaml", "--base", "valid.yaml", "--base-at", "4", "log")
        self.assertIn("passed over 1: assertions of a validation file\n", self.imported(*words))
        self.assertEqual(self.audited(), "entries 2\nfindings 0\nverdict clean\n")
        self.put("valid.yaml", text.replace("relation viewer: user", "relation viewer user").replace("group:g#member@user:m", "group:g"))
        self.assertIn("valid.yaml:8: ':' should stand here, and not 'user'\n", self.run_import(*words)[1])
        self.put("valid.yaml", "schemaFile: schema.zed\nrelationships: |\n\n  group:g\n")
        self.assertIn("valid.yaml:4: no relationship", self.run_import(*words)[1])


@NEEDS_YAML
class Yaml(Case):
    def test_values(self):
        self.assertEqual(parse_yaml("# c\n---\na: b # c\n\"x y\": 'it''s'\nl:\n- 1\n-   k: v\n    m:\n-\n  - \"\\u0041\" # n\nd#e:f: g\nz:\n"),
                         {"a": "b", "x y": "it's", "l": ["1", {"k": "v", "m": ""}, ["A"]], "d#e:f": "g", "z": ""})
        self.assertEqual(parse_yaml("a: |\n   x\n\n   \ty\n    z\nb: >-\n  p\n  q\n"), {"a": "x\n\n\ty\n z\n", "b": "p q"})
        self.assertEqual(json.dumps(parse_yaml("")), "{}")

        self.assertEqual(parse_yaml("a: [1, {b: c}]\nd: ~\ne: >\n  f\n  g\n"), {"a": ["1", {"b": "c"}], "d": "~", "e": "f g\n"})

    def test_lines(self):
        found = parse_yaml("a: 1\nb:\n  - c\n  - d: e\nf: |\n\n  g\n")
        self.assertEqual((found.line, found.lines, found["b"].line, found["b"][1].line, found["f"].line), (1, {"a": 1, "b": 2, "f": 5}, 3, 4, 6))

    def test_what_is_not_read(self):
        marked = "an anchor, an alias or a tag"
        for text, line, why in (("a: &b c", 1, marked), ("a: 1\nb: *a", 2, marked), ("a: !b c", 1, marked), ("a: b\n  c: d", 2, ""), ("a:\n\tb: c", 2, ""),
                                ("a: 'b", 1, ""), ("a: b\n---\nc: d", 2, "a second document"), ("- " * 200 + "a", 1, "nested too deep"),
                                ("[" * 100_000, 1, "nested too deep"), ("? {a: b}\n: c", 1, "a key that is no text"), ("a: \x01", 1, "")):
            for loader in "CSafeLoader", "SafeLoader":
                # the quick loader is not everywhere, and has other words
                with mock.patch.object(yaml, "CSafeLoader", getattr(yaml, loader, yaml.SafeLoader), create=True), self.assertRaises(Malformed) as caught:
                    parse_yaml(text)
                self.assertEqual(caught.exception.line, line, text)
                self.assertIn("YAML that is not read: " + why, str(caught.exception))
        with self.assertRaisesRegex(Malformed, "^the key 'a' stands twice$"):
            parse_yaml("a: 1\na: 2")

    def test_without_the_library(self):
        self.put("valid.yaml", "schema: ''\n")
        self.put("log", [])
        with mock.patch.object(yaml_files, "yaml", None):
            self.assertEqual(self.refused("spicedb", "--schema", "valid.yaml", "--from-empty", "log"), ["valid.yaml:1: " + yaml_files.MISSING])
