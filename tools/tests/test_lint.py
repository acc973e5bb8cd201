"""Keys that no rule reads, in the project's own forms and in traces; and what else is odd in a trace."""
import json

from tests.support import EXAMPLES, Case
from tests.test_openfga import MODEL, THIS, change
from tests.test_openfga import check as fga_check
from tests.test_spicedb import SCHEMA, VIEW, watch
from tests.test_spicedb import check as zed_check
from tests.test_trace_maker import RULES, CoreCase, check, content, rel, write

TRACE = [
    {"kind": "namespace", "name": "doc", "relations": [{"name": "viewer"}, {"name": "old"}, {"name": "reader", "rewrite": {
        "union": [{"computed": "viewer"}, {"tuple_to": {"tupleset": "parent", "computed": "reader"}}]}}, {"name": "parent"}]},
    {"kind": "commit", "at": 1, "add": ["doc:1#viewer@1"], "from": "log:1", "revision": "1"},
    {"kind": "content", "goal": "doc:1#viewer@1", "snapshot": 1, "reply": True, "zookie": "z1-0000000000000001", "version": "v2"},
    {"kind": "check", "goal": "doc:1#reader@1", "snapshot": 1, "reply": True, "zookie": "z1-0000000000000001", "version": "v2"}]


class Mistyped(CoreCase):
    def test_events(self):
        rules = json.loads(json.dumps(RULES))
        nested = [json.loads(json.dumps(RULES)) for _ in range(4)]
        nested[0]["namespaces"][0]["Relations"] = []
        nested[1]["namespaces"][0]["relations"][0]["stratum"] = 1
        nested[2]["namespaces"][0]["relations"][2]["rewrite"]["unoin"] = []
        nested[3]["namespaces"][0]["relations"][2]["rewrite"]["union"][1]["tuple_to"]["compute"] = "x"
        events = [rules | {"revison": 1}, write(1) | {"Remove": [rel()]}, check(1) | {"verison": "v"}, check(1) | {"tokn": 1},
                  write(1) | {"remvoe": [rel()]}, content(1, "v") | {"snapshots": 1}, check(1) | {"revision": 1},
                  write(1) | {"base": "yes"}, write(1) | {"x" * 200: 1}, *nested]
        self.assertEqual(self.refusals(*events), ["log:%d: %s" % one for one in enumerate([
            'unknown key "revison"; is "revision" meant?', 'unknown key "Remove"; is "remove" meant?',
            'unknown key "verison"; is "version" meant?', 'unknown key "tokn"; is "token" meant?',
            'unknown key "remvoe"; is "remove" meant?', 'unknown key "snapshots"; is "snapshot" meant?',
            'unknown key "revision"', "`base` is neither true nor false",
            'unknown key "%s.."' % ("x" * 64), 'unknown key "Relations" in namespaces[0]; is "relations" meant?',
            'unknown key "stratum" in relation viewer', 'unknown key "unoin" in the rewrite of reader; is "union" meant?',
            'unknown key "compute" in the rewrite of reader; is "computed" meant?'], 1)])

    def test_lines_of_a_recorder(self):
        self.put("model.json", MODEL % THIS)
        self.put("log", [change("user:a"), change("user:a") | {"sequnce": 1}, change("user:b") | {"continuation_token": ""},
                         fga_check() | {"verison": "v"}, fga_check() | {"Token": "x"}, fga_check(content={"versoin": "v"}),
                         fga_check(request={"trace": True})])
        self.assertEqual(self.refused("openfga", "--model", "model.json", "--from-empty", "log")[:4], [
            'log:2: unknown key "sequnce"; is "sequence" meant?', 'log:4: unknown key "verison"; is "version" meant?',
            'log:5: unknown key "Token"; is "token" meant?', 'log:6: unknown key "versoin"; is "version" meant?'])
        self.put("schema", SCHEMA % VIEW)
        self.put("log", [watch(5, isCheckpoint=True), zed_check() | {"token": "5"}, watch(6) | {"Time": "2024-01-01T00:00:00Z"}])
        self.assertEqual(self.refused("spicedb", "--schema", "schema", "--from-empty", "log"), [
            'log:2: unknown key "token"', 'log:3: unknown key "Time"; is "time" meant?'])

    def test_the_table_of_ids(self):
        self.put("ids.jsonl", '{"kind":"user","type":"user","id":"a","number":1,"Id":"b"}\n')
        status, said = self.run_import("events", "--from-empty", self.given(RULES))
        self.assertEqual((status, said), (2, 'ids.jsonl:1: unknown key "Id"; is "id" meant?\n'))


class Lint(Case):
    def lint(self, *lines):
        run = self.run_tool("lint", self.put("trace", list(lines)))
        self.assertEqual(run.stderr, "")
        return run.returncode, run.stdout.splitlines()

    def test_nothing_odd(self):
        trace = json.loads(json.dumps(TRACE))
        del trace[0]["relations"][1]
        self.assertEqual(self.lint(*trace), (0, ["nothing odd"]))
        self.assertEqual(self.run_tool("lint", EXAMPLES + "/a_new_enemy").returncode, 0)

    def test_each_kind(self):
        second = TRACE[1] | {"at": 2, "Remove": [], "ids": {"rows": 1}}
        namespace = json.loads(json.dumps(TRACE[0]))
        namespace["relations"][2]["rewrite"]["unoin"] = []
        namespace["relations"][0]["Stratum"] = 2
        self.assertEqual(self.lint(namespace, TRACE[1], second, second | {"at": 3}, TRACE[2], TRACE[3] | {"version": "V-2"},
                                   TRACE[3] | {"goal": "doc:2#reader@1", "version": "v2", "verison": ""},
                                   TRACE[3] | {"goal": "doc:2#reader@2", "version": None}), (1, [
            'line 1: unknown key "Stratum" of a relation; is "stratum" meant?',
            'line 1: unknown key "unoin" of a rewrite; is "union" meant?',
            "line 1: relation doc#old is read by no rule, tuple or check",
            'line 3: unknown key "Remove" of a commit; is "remove" meant? (on 2 lines)',
            'line 6: no line issues version "V-2" of doc:1; line 5 issues "v2"',
            'line 7: unknown key "verison" of a check; is "version" meant?',
            "line 7: nobody ever was in doc:2#reader: no commit touches what its rule reads"]))

    def test_empty(self):
        self.assertEqual(self.lint(), (1, ["the trace is empty"]))
        self.assertEqual(self.lint(TRACE[0])[1][-1:], ["line 1: relation doc#old is read by no rule, tuple or check"])
        self.assertEqual(self.lint(TRACE[0], TRACE[1])[1][0], "the trace has no check and no content check, so nothing is audited")
        self.assertEqual(self.lint(TRACE[0], TRACE[2])[1][0], "the trace has no commit, so nothing is ever stored")

    def test_a_trace_that_is_refused(self):
        run = self.run_tool("lint", self.put("trace", [{"kind": "commit"}]))
        self.assertEqual((run.returncode, run.stdout), (2, ""))
        self.assertIn("trace line 1: wrong shape", run.stderr)
