"""The front end for SpiceDB: what it maps, and what it refuses by file and line."""
import os

from new_enemy_tools.importing.zedtokens import read_revision
from tests.support import EXAMPLES, Case
from tests.test_round_trips import token_text

SCHEMA = """definition user {}
definition group {
  relation member: user | group#member
}
definition doc {
  relation parent: doc
  relation viewer: user | group#member
  relation banned: user | doc#view
%s
}
"""
VIEW = "  permission view = viewer"


def thing(text):
    of, _, id_text = text.partition(":")
    return {"objectType": of, "objectId": id_text}


def update(subject, relation="viewer", resource="doc:1", operation="TOUCH", **more):
    subject, _, subject_relation = subject.partition("#")
    return {"operation": "OPERATION_" + operation, "relationship": {
        "resource": thing(resource), "relation": relation,
        "subject": {"object": thing(subject), "optionalRelation": subject_relation}, **more}}


def watch(at, *updates, **more):
    return {"result": {"updates": list(updates), "changesThrough": {"token": token_text(at)}, **more}}


def check(at=5, subject="user:a", permission="view", reply="HAS", request=None, **more):
    subject, _, subject_relation = subject.partition("#")
    return {"request": {"resource": thing("doc:1"), "permission": permission,
                        "subject": {"object": thing(subject), "optionalRelation": subject_relation}, **(request or {})},
            "response": {"checkedAt": {"token": token_text(at)}, "permissionship": "PERMISSIONSHIP_%s_PERMISSION" % reply},
            **more}


class Refusals(Case):
    def refusals(self, log=(), body=VIEW, schema=None):
        self.put("schema.zed", schema or SCHEMA % body)
        self.put("log", list(log))
        return self.refused("spicedb", "--schema", "schema.zed", "--from-empty", "--refuse-unmapped", "log")

    def name(self, name, content):
        self.put(name, content)
        return name

    def test_permissions_by_line(self):
        cases = {
            "parent.all(view)": ".all(): doc#view",
            "parent->parent->view": "arrow behind an arrow: doc#view",
            "self": "self: doc#view",
            "editor": "doc#view reads editor, which doc does not define",
            "other->view": "doc#view reads other, which doc does not define",
            "view->view": "doc#view has an arrow from view, which is no relation",
            "(" * 40 + "viewer" + ")" * 40: "parentheses deeper than 32: doc#view",
            "(viewer": "')' should stand here, and not 'permission'",
            "viewer +": "a relation, a permission or a parenthesis should stand here, and not '}'"}
        for expression, text in cases.items():
            body = "  permission view = %s" % expression
            if text.startswith("')'"):
                body += "\n  permission other = viewer"
            refusals = self.refusals([], body)
            line = 9 + (expression.count("\n") or text.startswith("')'") or text.endswith("'}'"))
            self.assertIn("schema.zed:%d: %s" % (line, text), refusals)

    def test_schema_by_line(self):
        schema = ("use hope use expiration\ncaveat tuesday(day string) {\n  day == \"tuesday}\"\n}\ndefinition user {}\ndefinition doc {\n"
                  "  relation viewer: user:* | user with tuesday |\n    user with expiration | user with tuesday and expiration\n"
                  "  relation owner user\n  relation owner: cat | user#x\n  relation owner: user\n  nonsense\n}\n"
                  "definition doc {}\n/* of\ntwo lines */ import other\nhello\npartial p { relation x: user }\n")
        self.assertEqual(self.refusals([], schema=schema), [
            "schema.zed:1: use hope: only expiration, self, typechecking are known",
            "schema.zed:9: ':' should stand here, and not 'user'",
            "schema.zed:11: doc#owner stands twice",
            "schema.zed:12: a relation or a permission should stand here, and not 'nonsense'",
            "schema.zed:14: definition doc stands twice",
            "schema.zed:16: `import`: give the schema as one text, as `zed schema compile` makes it",
            "schema.zed:17: a definition should stand here, and not 'hello'",
            "schema.zed:18: `partial`: give the schema as one text, as `zed schema compile` makes it"])
        self.assertEqual(self.refusals([], schema="definition user {};\ndefinition doc {\n  relation owner: user#\n}\n"),
                         ["schema.zed:4: a relation should stand here, and not '}'"])
        self.assertEqual(self.refusals([], schema="definition doc {\n  relation owner: user#{\ndefinition user {}"), [
            "schema.zed:2: a relation should stand here, and not '{'"])
        self.assertEqual(self.refusals([], schema="definition user {}\ndefinition doc {\n  relation owner: cat | user#x\n}\n"), [
            "schema.zed:3: doc#owner takes cat, which the schema does not define",
            "schema.zed:3: doc#owner takes user#x, which the schema does not define"])

    def test_an_arrow_from_a_wildcard(self):
        schema = "definition user {}\ndefinition doc {\n  relation up: doc | doc:*\n  permission view = up->view\n}\n"
        self.assertEqual(self.refusals([], schema=schema),
                         ["schema.zed:4: doc#view goes on from doc#up, which takes a wildcard: doc:*"])

    def test_watch_by_line(self):
        log = [watch(1, update("user:a")), watch(2, update("user:*")), watch(3, update("user:a", optionalCaveat={"caveatName": "c"})),
               watch(4, update("user:a", optionalExpiresAt="2024-01-01T00:00:00Z")), watch(5, update("doc:1")),
               watch(6, update("user:a", "view")), watch(7, update("user:a", operation="MOVE")),
               watch(8, schemaUpdated=True), {"result": {"updates": []}}, watch("x1", update("user:b")),
               watch(9, {"operation": "OPERATION_TOUCH"}), {"error": {"code": 5}}, watch(10, isCheckpoint=True),
               watch(10), watch(10, optionalTransactionMetadata={"by": "a"}),
               *({"result": {"updates": one, "changesThrough": {"token": token_text(11)}}} for one in (7, {}, "", False))]
        self.assertEqual(self.refusals(log), [
            "log:2: relationship that the schema does not take: doc:1#viewer@user:*", "log:3: caveat: doc:1#viewer@user:a",
            "log:4: expiration: doc:1#viewer@user:a",
            "log:5: relationship that the schema does not take: doc:1#viewer@doc:1",
            "log:6: relationship that the schema does not take: doc:1#view@user:a",
            "log:7: unknown operation 'OPERATION_MOVE'",
            "log:8: the schema changes here, and the log has no WriteSchema of this revision",
            "log:9: `changesThrough` has no token whose revision is a number or a snapshot of PostgreSQL",
            "log:10: `changesThrough` has no token whose revision is a number or a snapshot of PostgreSQL",
            "log:11: a relationship has no relation",
            "log:14: a response of Watch has no `updates`, and is no checkpoint",
            *("log:%d: `updates` is no list" % line for line in range(16, 20))])

    def test_checks_by_line(self):
        log = [watch(5, update("user:a")), check(subject="group:g#member"), check(subject="user:*"), check(permission="edit"),
               check(reply="CONDITIONAL"), check(request={"context": {"day": "tuesday"}}), check(reply="MAYBE"),
               check(at="abc"), check(permission=""), check(request={"consistency": {"atLeastAsFresh": {"token": "?"}}}),
               check(request={"subject": {}}), check(content=True), check(content={"version": "v", "token": "?"}), check(version=1)]
        self.assertEqual(self.struck("spicedb", "--schema", self.name("schema.zed", SCHEMA % VIEW), "--from-empty", self.name("log", log)), [
            "log:2: check of a userset as the user: doc:1#view@group:g#member",
            "log:3: check of a wildcard as the user: doc:1#view@user:*",
            "log:4: check of a relation that the rules do not have: doc:1#edit@user:a",
            "log:5: conditional permission: doc:1#view@user:a", "log:6: context of caveats: doc:1#view@user:a",
            "log:7: check that can't be read: the response has no permissionship",
            "log:8: check that can't be read: `checkedAt` of the response has no token whose revision is a number or a snapshot of PostgreSQL",
            "log:9: check that can't be read: the request has no permission",
            "log:10: check that can't be read: the request's consistency has no token whose revision is a number or a snapshot of PostgreSQL",
            "log:11: check that can't be read: the subject has no type and id",
            "log:12: content check that can't be read: `content` is no object",
            "log:13: content check that can't be read: `content` has no token whose revision is a number or a snapshot of PostgreSQL",
            "log:14: check that can't be read: `version` is no text"])

    def test_base_by_line(self):
        self.put("schema.zed", SCHEMA % VIEW)
        self.put("base.txt", "// now\ndoc:1#viewer@user:a\n\ndoc:1#viewer@user:*\ndoc:1#viewer@user:b[tuesday:{\"day\":1}]\n"
                 "doc:1#viewer@user:b[expiration:2030-01-01T00:00:00Z]\ndoc:1#viewer\ndoc:1#view@user:b\ndoc:1#viewer@user:a\n")
        self.put("log", [check(at=4), watch(5, update("user:c"))])
        words = ("spicedb", "--schema", "schema.zed", "--base", "base.txt", "--base-at", token_text(5), "log")
        self.assertEqual(self.refused(*words, "--refuse-unmapped"), [
            "base.txt:4: relationship that the schema does not take: doc:1#viewer@user:*", "base.txt:5: caveat: doc:1#viewer@user:b",
            "base.txt:6: expiration: doc:1#viewer@user:b",
            "base.txt:7: no relationship `type:id#relation@type:id`: 'doc:1#viewer'",
            "base.txt:8: relationship that the schema does not take: doc:1#view@user:b",
            "base.txt:9: doc:1#viewer@user:a is touched twice in one commit, at base.txt:2 too",
            "log:2: its revision 5 is not later than that of the base state"])

    def test_bytes_that_are_no_text(self):
        self.assertEqual(self.refusals([], schema=b"definition user {}\n\xff"), ["schema.zed:2: the bytes are no UTF-8"])
        self.put("schema.zed", SCHEMA % VIEW)
        self.put("base.txt", b"\n\n\xff")
        self.assertEqual(self.refused("spicedb", "--schema", "schema.zed", "--base", "base.txt", "--base-at", "5", "log"),
                         ["base.txt:3: the bytes are no UTF-8"])

    def test_recursion_through_an_exclusion(self):
        body = "  permission view = viewer - banned"
        log = [watch(1, update("user:a")), watch(2, update("doc:2#view", "banned")), check(2)]
        self.put("schema.zed", SCHEMA % body)
        self.put("log", log)
        self.assertEqual(self.struck("spicedb", "--schema", "schema.zed", "--from-empty", "log"), [
            "log:3: check that hangs on a tuple or rule that was left out: doc:1#view@user:a"])
        self.forget()
        self.assertEqual(self.refusals([], "  permission view = viewer - b\n  permission b = view"), [
            "schema.zed:10: recursion through exclusion, by the rule of doc#b: doc#view reads doc#b strictly by the rule of "
            "doc#view at schema.zed:9; doc#b reads doc#view by the rule of doc#b at schema.zed:10"])


class Mapped(Case):
    def rule_of(self, expression):
        self.put("schema.zed", SCHEMA % ("  permission view = %s" % expression))
        self.put("log", [check()])
        self.imported("spicedb", "--schema", "schema.zed", "--from-empty", "log")
        return self.rows("trace.jsonl")[1]["relations"][3]["rewrite"]

    def test_forms(self):
        viewer, banned = {"computed": "viewer"}, {"computed": "banned"}
        up = {"tuple_to": {"tupleset": "parent", "computed": "view"}}
        self.assertEqual(self.rule_of("viewer + banned + parent->view"), {"union": [viewer, banned, up]})
        self.assertEqual(self.rule_of("parent.any(view) & (viewer - banned - banned)"), {"intersection": [
            up, {"exclusion": {"base": viewer, "subtract": {"union": [banned, banned]}}}]})
        self.assertEqual(self.rule_of("((viewer)) /* or\n */ + // and\n banned"), {"union": [viewer, banned]})

    def test_operators_side_by_side(self):
        """As SpiceDB reads them: union binds closest, then intersection, then exclusion."""
        v, b, up = {"computed": "viewer"}, {"computed": "banned"}, {"tuple_to": {"tupleset": "parent", "computed": "view"}}
        union, both = {"union": [v, b]}, {"intersection": [v, b]}
        for expression, wanted in (("viewer + banned - viewer", {"exclusion": {"base": union, "subtract": v}}),
                                   ("viewer - viewer + banned", {"exclusion": {"base": v, "subtract": union}}),
                                   ("viewer & viewer + banned", {"intersection": [v, union]}),
                                   ("viewer + banned & viewer", {"intersection": [union, v]}),
                                   ("viewer - viewer & banned", {"exclusion": {"base": v, "subtract": both}}),
                                   ("viewer & banned - parent->view", {"exclusion": {"base": both, "subtract": up}}),
                                   ("viewer - banned - viewer & viewer + banned", {"exclusion": {
                                       "base": v, "subtract": {"union": [b, {"intersection": [v, union]}]}}})):
            self.assertEqual(self.rule_of(expression), wanted, expression)
        self.put("schema.zed", SCHEMA % "  permission x = viewer - banned + viewer\n  permission view = viewer & x + viewer")
        self.put("log", [check()])
        self.assertEqual(self.imported("spicedb", "--schema", "schema.zed", "--from-empty", "log").splitlines()[0],
                         "schema.zed:9: `viewer - banned + viewer` is read as `viewer - (banned + viewer)`: union binds closest, "
                         "then intersection, then exclusion")
        self.put("schema.zed", SCHEMA % "  permission view = viewer & (viewer - banned + viewer)")
        self.assertIn("`viewer & (viewer - (banned + viewer))`: union", self.imported("spicedb", "--schema", "schema.zed", "--from-empty", "log"))
        self.rule_of("(viewer + banned) & (viewer - banned)")
        self.assertNotIn("is read as", self.imported("spicedb", "--schema", "schema.zed", "--from-empty", "log"))

    def test_nil_and_types_of_permissions(self):
        self.assertEqual(self.rule_of("viewer - nil"), {"exclusion": {"base": {"computed": "viewer"}, "subtract": {"this": {}}}})
        self.put("schema.zed", "use typechecking\n" + SCHEMA % ("  permission none = nil\n  permission view: user | group#member = viewer"))
        self.put("log", [watch(1, update("user:a")), check(), check(permission="none", reply="NO")])
        self.imported("spicedb", "--schema", "schema.zed", "--from-empty", "log")
        self.assertEqual(self.audited(), "entries 2\nfindings 0\nverdict clean\n")

    def test_tokens(self):
        self.put("schema.zed", SCHEMA % VIEW)
        hybrid = "1700000000000000000.0000000002"
        self.put("log", [watch("1700000000000000000.0000000001", update("user:a#...")), watch(hybrid, update("user:b")),
                         check(hybrid, request={"consistency": {"atExactSnapshot": {"token": hybrid}}})])
        self.imported("spicedb", "--schema", "schema.zed", "--from-empty", "log")
        rows = self.rows("trace.jsonl")[2:]
        self.assertEqual([row.get("at", row.get("snapshot")) for row in rows], [1, 2, 2])
        self.assertEqual((rows[2]["zookie"], rows[2]["revision"]), ("z1-0000000000000002", hybrid))

    def test_the_old_form_of_a_token(self):
        self.assertEqual(read_revision("EgIIKg=="), (42 * 10 ** 10, None, "42"))
        for text in ("", "????", "GhUK", "Gg==", "GgQKAngx", "GgIIAQ==", None):
            self.assertIsNone(read_revision(text))


class Examples(Case):
    def imported_example(self, log):
        folder = os.path.join(EXAMPLES, "spicedb")
        return self.imported("spicedb", "--schema", os.path.join(folder, "schema.zed"),
                             "--base", os.path.join(folder, "relationships.txt"),
                             "--base-at", "GhUKEzE3MTQ5ODYwMDAwMDAwMDAwMDA=", os.path.join(folder, log))

    def test_clean(self):
        self.imported_example("log.jsonl")
        self.assertEqual(self.audited(), "entries 6\nfindings 0\nverdict clean\n")

    def test_stale(self):
        self.imported_example("stale_log.jsonl")
        self.assertEqual(self.audited().splitlines(), [
            "line 9: F2 old token, see line 8", "line 10: F1 stale", "line 12: F3 not latest, see line 11",
            "line 12: F5 wrong token", "line 13: F10 wrong reply", "entries 7", "findings 5", "verdict dirty"])
