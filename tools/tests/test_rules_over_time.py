"""Models and schemas that change: change lines of the trace, by the revisions that the log has."""
import json

from tests.support import Case
from tests.test_openfga import change
from tests.test_openfga import check as fga_check
from tests.test_postgres import revision
from tests.test_round_trips import token_text
from tests.test_spicedb import check as zed_check
from tests.test_spicedb import update, watch

MODEL = """model
  schema 1.1
type user
type doc
  relations
    define editor: [user]
    define viewer: [user]
"""
USERS = {"directly_related_user_types": [{"type": "user"}]}
SECOND = {"schema_version": "1.1", "type_definitions": [{"type": "user"}, {"type": "doc", "relations": {
    "viewer": {"union": {"child": [{"this": {}}, {"computedUserset": {"relation": "editor"}}]}}, "editor": {"this": {}}},
    "metadata": {"relations": {"viewer": USERS, "editor": USERS}}}]}
THIRD = {"schema_version": "1.1", "type_definitions": [{"type": "user"}, {"type": "doc", "relations": {"viewer": {"this": {}}},
                                                        "metadata": {"relations": {"viewer": USERS}}}]}


def of(model):
    return {"authorization_model_id": model}


class OpenFga(Case):
    def words(self, *lines):
        self.put("model.json", json.dumps({"id": "one", **THIRD, "type_definitions": [
            {"type": "user"}, {"type": "doc", "relations": {"viewer": {"this": {}}, "editor": {"this": {}}},
                               "metadata": {"relations": {"viewer": USERS, "editor": USERS}}}]}))
        self.put("log", list(lines))
        return "openfga", "--model", "model.json", "--from-empty", "log"

    LOG = (change("user:a", "editor"), fga_check(allowed=False, at=1), {"request": SECOND, "response": of("two")},
           change("user:b", "editor", at="2024-01-01T00:00:02Z"), fga_check(at=1, request=of("two")),
           fga_check(at=1, allowed=False, request=of("one")), fga_check("user:b", at=2),
           {"authorization_model": {"id": "three", **THIRD}}, fga_check("user:b", at=2, allowed=False, request=of("three")),
           fga_check("user:b", at=2, request=of("two")))

    def test_models(self):
        log = [line for number, line in enumerate(self.LOG) if number not in (1, 6)]
        self.imported(*self.words(*log))
        self.assertEqual(self.audited(), "entries 4\nfindings 0\nverdict clean\n")
        rows = self.rows("trace.jsonl")
        declared, = (row for row in rows if row["kind"] == "namespace" and row["name"] == "doc")
        self.assertEqual([one["name"] for one in declared["relations"]], ["viewer", "editor", "n_3"])
        self.assertEqual(self.rows("ids.jsonl")[2]["id"], "viewer of model two")
        self.assertEqual([row["goal"].split("#")[1] for row in rows if row["kind"] == "check"], ["n_3@1", "viewer@1", "viewer@2", "n_3@2"])

    def test_checks_of_no_model_or_another(self):
        log = self.LOG + (fga_check("user:b", at=2, request=of("one")), fga_check("user:b", at=2, request=of("zero")),
                          fga_check("user:b", at=None, snapshot_between=[1, 2]), fga_check(at=None, snapshot_between=[0, 1], request=of("one")),
                          fga_check(at=None, snapshot_between=[0, 2], request=of("two"), token=2))
        self.assertEqual(self.struck(*self.words(*log)), [
            "log:2: check without one snapshot: the model changes at its place, and the request does not say which it is of",
            "log:7: check without one snapshot: the model changes at its place, and the request does not say which it is of",
            "log:12: check with another model: doc:1#viewer@user:b",
            "log:13: check without one snapshot: the model changes between its places, and the request does not say which it is of"])
        self.assertEqual(self.audited(), "line 8: F10 wrong reply\nline 9: F10 wrong reply\nline 10: F10 wrong reply\n"
                         "entries 8\nfindings 3\nverdict dirty\n")

    def test_content_after_a_change_at_its_place(self):
        log = (*self.LOG[:1], self.LOG[2], fga_check(at=1, request=of("two"), content={"version": "v", "token": 1}),
               fga_check(at=1, request=of("two"), version="v", token=1), self.LOG[3], fga_check(at=2, version="v", token=1))
        self.imported(*self.words(*log))
        self.assertEqual(self.audited(), "entries 3\nfindings 0\nverdict clean\n")

    def test_a_model_that_is_refused(self):
        bad = {"schema_version": "9", "type_definitions": [{"type": "doc", "relations": {"viewer": {"no": {}}}}]}
        self.assertEqual(self.refused(*self.words(change("user:a"), {"authorization_model": bad}), "--refuse-unmapped"), [
            "log:2: schema version '9': only 1.1 and 1.2 are mapped", "log:2: rewrite without a form: doc#viewer has no"])


FIRST = "definition user {}\ndefinition doc {\n  relation editor: user\n  relation viewer: user\n  permission view = viewer\n}\n"


class SpiceDb(Case):
    def words(self, *lines):
        self.put("schema.zed", FIRST)
        self.put("log", list(lines))
        return "spicedb", "--schema", "schema.zed", "--from-empty", "log"

    @staticmethod
    def schema(at, text):
        return {"request": {"schema": text}, "response": {"writtenAt": {"token": token_text(at)}}}

    def lines(self, *at):
        second = FIRST.replace("view = viewer", "view = viewer + editor")
        third = second.replace("  relation viewer: user\n", "").replace("viewer + editor", "editor")
        return [watch(at[0], update("user:a", "editor"), update("user:b")), zed_check(at[0], reply="NO"), zed_check(at[0], "user:b"),
                self.schema(at[1], second), watch(at[1], schemaUpdated=True), zed_check(at[2]), zed_check(at[3], "user:b"),
                zed_check(at[4], reply="NO"), self.schema(at[5], third), zed_check(at[6], "user:b", reply="NO"), zed_check(at[6])]

    def test_numbers(self):
        self.imported(*self.words(*self.lines(1, 3, 3, 4, 2, 5, 6)))
        self.assertEqual(self.audited(), "entries 7\nfindings 0\nverdict clean\n")

    def test_a_schema_that_was_refused_is_never_in_force(self):
        request = {"request": {"schema": "definition user {}"}}
        printed = {"grpc.service": "authzed.api.v1.SchemaService", "grpc.method": "WriteSchema", "requestID": "r"}
        failed = ({**request, "response": {"code": 3, "message": "no"}}, {**request, "error": {"code": 3}}, {**request, "status": 400},
                  {**printed, "grpc.request.content": request["request"]}, {**printed, "grpc.code": "InvalidArgument", "message": "finished call"})
        lines = self.lines(1, 3, 3, 4, 2, 5, 6)
        self.assertEqual(self.imported(*self.words(*lines[:1], *failed, *lines[1:])).count("failed request"), 3)
        self.assertEqual(self.audited(), "entries 7\nfindings 0\nverdict clean\n")

    def test_a_schema_in_a_file_that_is_given_too_late(self):
        log = [{**watch(1, update("user:a", "owner")), "sequence": 2}, {**zed_check(1, reply="NO"), "sequence": 3}]
        self.put("rules", [{**self.schema(0, FIRST.replace("relation viewer", "relation owner: user\n  relation viewer")), "sequence": 1}])
        words = self.words(*log)
        self.assertEqual(self.refused(*words, "rules"), [
            "log:1: the WriteSchema that lets doc#owner take this stands behind it, or in a file that is given behind this one: give that file first"])
        self.imported(*words[:-1], "rules", "log")
        self.assertEqual(self.audited(), "entries 1\nfindings 0\nverdict clean\n")

    def test_postgres(self):
        self.imported(*self.words(*self.lines(revision(10, 10, own=10), revision(12, 12, own=12), revision(13, 13), revision(14, 14),
                                              revision(12, 12), revision(15, 15, own=15), revision(16, 16))))
        self.assertEqual(self.audited(), "entries 7\nfindings 0\nverdict clean\n")

    def test_refusals(self):
        bad = self.schema(2, "definition user {}\ndefinition doc {\n  relation viewer cat\n}\n")
        log = [watch(1, isCheckpoint=True), bad, self.schema("?", FIRST), watch(9, schemaUpdated=True),
               self.schema(3, 7), self.schema(revision(3, 3), FIRST)]
        self.assertEqual(self.refused(*self.words(*log)), [
            "log:2: ':' should stand here, and not 'cat'",
            "log:3: `writtenAt` of the response has no token whose revision is a number or a snapshot of PostgreSQL",
            "log:4: the schema changes here, and the log has no WriteSchema of this revision", "log:5: `schema` is no text",
            "log:6: the snapshot of `writtenAt` does not name the transaction that wrote"])
