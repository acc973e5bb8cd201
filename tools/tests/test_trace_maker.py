"""The core of the importer, by neutral events: order, numbers, timestamps, strata, what is left out and what is told."""
import json
import os
import re
from itertools import permutations
from random import Random
from unittest import mock

from new_enemy_tools import limits
from new_enemy_tools.ids import Ids
from new_enemy_tools.importing import causes, sorting
from new_enemy_tools.importing.events import Event
from new_enemy_tools.importing.spool import Spool
from new_enemy_tools.texts import Tuple, Userset, parse_tuple
from tests.support import Case

RULES = {"event": "rules", "namespaces": [
    {"name": "doc", "relations": [{"name": "viewer"}, {"name": "parent"}, {"name": "reader", "rewrite": {"union": [
        {"computed": "viewer"}, {"tuple_to": {"tupleset": "parent", "computed": "reader"}}]}}]}]}


def rel(thing="1", relation="viewer", user="a", user_type="user", user_relation=None, of="doc"):
    return [of, thing, relation, user_type, user] + ([user_relation] if user_relation else [])


def write(revision, *add, remove=(), **more):
    return {"event": "write", "revision": revision, "add": list(add), "remove": list(remove), **more}


def check(snapshot, reply=True, goal=None, **more):
    return {"event": "check", "goal": goal or rel(), "snapshot": snapshot, "reply": reply, **more}


def content(snapshot, version, **more):
    return check(snapshot, version is not None, **more) | {"event": "content", "version": version}


class CoreCase(Case):
    def given(self, *events, name="log"):
        return self.put(name, list(events)) and name

    def lines(self, *events, words=("--from-empty",)):
        """The lines of the trace behind the namespaces."""
        self.said = self.imported("events", *words, self.given(*events))
        return [row for row in self.rows("trace.jsonl") if row["kind"] != "namespace"]

    def refusals(self, *events, words=("--from-empty",)):
        return self.refused("events", *words, self.given(*events))


class Numbers(CoreCase):
    NAMES = ["A", "a/b", "a@b", "x" * 200, "é", "a b", "#", "~1", "n_1", "", "\n", "10", "010", "…" * 50]

    def test_what_the_table_gives_back(self):
        names = [name for name in self.NAMES if name]
        rules = {"event": "rules", "namespaces": [{"name": of, "relations": [{"name": relation} for relation in names]}
                                                  for of in names]}
        given = [rel(thing, relation, user, of, None, of) for of in names for relation in names[:4]
                 for thing in names for user in names[:3]]
        self.lines(rules, write(1, *given))
        ids = Ids(self.path("ids.jsonl"))
        commit = next(row for row in self.rows("trace.jsonl") if row["kind"] == "commit")
        told = [ids.tuple_of(parse_tuple(text)) for text in commit["add"]]
        self.assertEqual(told, ["%s:%s#%s@%s:%s" % tuple(one) for one in given])
        self.assertEqual(len(set(commit["add"])), len(given))

    def test_usersets_as_users_and_labels_come_back(self):
        rules = {"event": "rules", "namespaces": [{"name": "Team", "relations": [{"name": "Member"}]}]}
        label = "v" * 300
        rows = self.lines(rules, write(1, rel("T 1", "Member", "T@2", "Team", "Member", "Team")),
                          content(1, label, goal=rel("T 1", "Member", "a", of="Team")))
        ids = Ids(self.path("ids.jsonl"))
        self.assertEqual(ids.tuple_of(parse_tuple(rows[0]["add"][0])), "Team:T 1#Member@Team:T@2#Member")
        self.assertEqual(ids.id_of("version", rows[1]["version"]), label)
        self.assertEqual(ids.tuple_of(Tuple(Userset("n_1", "~9", "..."), 77)), "n_1:~9#...@77")

    def test_first_seen_first_numbered_and_only_added_to(self):
        self.lines(RULES, write(1, rel(user="b"), rel(user="a")), check(1, goal=rel(user="c")))
        before = self.get("ids.jsonl")
        self.assertEqual([json.loads(line)["id"] for line in before.splitlines()], ["b", "a", "c"])
        self.lines(RULES, write(1, rel(user="d"), rel(user="a")))
        after = self.get("ids.jsonl")
        self.assertTrue(after.startswith(before))
        self.assertEqual(json.loads(after.splitlines()[3]), {"kind": "user", "type": "user", "id": "d", "number": 4})

    def test_faults_of_the_table(self):
        row = '{"kind":"user","type":"user","id":"a","number":%d}\n'
        for text, told in ((row % 2, "ids.jsonl:1: no row of the table, or not number 1"),
                           (row % 1 + row % 2, "ids.jsonl:2: this row stands on line 1 too"),
                           ((row % 1).strip(), "ids.jsonl:1: the line has no end"), ("[]\n", "ids.jsonl:1: no row of the table, or not number 1"),
                           (b"\xff\n", "ids.jsonl:1: no row of the table, or not number 1")):
            self.put("ids.jsonl", text)
            status, said = self.run_import("events", "--from-empty", self.given(RULES))
            self.assertEqual((status, said), (2, told + "\n"))
            with open(self.path("ids.jsonl"), "rb") as file:
                self.assertEqual(file.read(), text if isinstance(text, bytes) else text.encode())
            self.assertFalse(os.path.exists(self.path("trace.jsonl")))


class Timestamps(CoreCase):
    def test_dense_and_in_order(self):
        rows = self.lines(RULES, write(10 ** 30, rel()), check(10 ** 30), check(10 ** 40, token=3), write(10 ** 50))
        self.assertEqual([row.get("at", row.get("snapshot")) for row in rows], [2, 2, 3, 4])
        self.assertEqual(rows[2]["zookie"], "z1-0000000000000001")

    def test_writes_of_one_revision_are_one_commit(self):
        rows = self.lines(RULES, write(1, rel(user="a")), write(1, rel(user="b"), remove=[rel(user="c")]), write(2))
        self.assertEqual([(row["at"], row.get("add"), row.get("remove")) for row in rows],
                         [(1, ["doc:1#viewer@1", "doc:1#viewer@2"], ["doc:1#viewer@3"]), (2, None, None)])

    def test_a_base_state_is_split_below_the_limit_of_a_line(self):
        base = [write(5, *[rel("%d-%s\\\"" % (number, "é" * 55)) for number in range(at, at + 1000)], base=True)
                for at in range(0, 20_000, 1000)]
        rows = self.lines(RULES, *base, check(5, goal=rel("19999-%s\\\"" % ("é" * 55))), check(6, token=5), words=())
        commits = [row for row in rows if row["kind"] == "commit"]
        self.assertGreater(len(commits), 2)
        self.assertEqual([row["at"] for row in commits], list(range(1, len(commits) + 1)))
        self.assertEqual(sum(len(row["add"]) for row in commits), 20_000)
        self.assertTrue(all(len(line.encode()) < 1 << 20 for line in self.get("trace.jsonl").split("\n")))
        self.assertEqual([row["snapshot"] for row in rows[-2:]], [len(commits), len(commits) + 1])
        self.assertEqual(rows[-1]["zookie"], "z1-%016x" % len(commits))

    def test_changes_of_rules(self):
        second = {"event": "rules", "revision": 7, "namespaces": [
            {"name": "doc", "relations": [{"name": "new"}, *RULES["namespaces"][0]["relations"]]},
            {"name": "group", "relations": [{"name": "member"}]}]}
        self.imported("events", "--from-empty", self.given(RULES, write(6, rel()), second, write(8, rel("1", "new")), check(8)))
        rows = self.rows("trace.jsonl")
        self.assertEqual([(row["kind"], row.get("at", row.get("snapshot"))) for row in rows],
                         [("namespace", None), ("commit", 1), ("namespace", 2), ("namespace", 3), ("commit", 4), ("check", 4)])
        self.assertEqual([one["name"] for one in rows[2]["relations"]], ["viewer", "parent", "reader", "new"])
        self.assertEqual(self.audited(), "entries 1\nfindings 0\nverdict clean\n")


    def test_what_new_rules_leave_out_stays_declared_and_unread(self):
        change = {"event": "rules", "revision": 3, "namespaces": [{"name": "doc", "relations": [
            {"name": "viewer", "rewrite": {"this": {}}}, {"name": "reader", "rewrite": {"computed": "viewer"}}]}]}
        self.imported("events", "--from-empty", self.given(
            RULES, write(1, rel("1", "parent", "2", "doc"), rel("2")), check(1, goal=rel("1", "reader")), change,
            check(3, False, goal=rel("1", "reader")), {"event": "rules", "revision": 4, "namespaces": []}))
        rows = self.rows("trace.jsonl")
        self.assertEqual([one["name"] for one in rows[-2]["relations"]], ["viewer", "parent", "reader"])
        self.assertEqual(self.audited(), "entries 2\nfindings 0\nverdict clean\n")


class Order(CoreCase):
    def two(self, *words, first, second):
        return ("events", "--from-empty", *words, self.given(RULES, *first, name="one"), self.given(*second, name="two"))

    def test_one_sequencer(self):
        self.imported(*self.two(first=[write(1, rel(), sequence=2), write(2, sequence=4)], second=[check(1, sequence=3)]))
        self.assertEqual([row["kind"] for row in self.rows("trace.jsonl")], ["namespace", "commit", "check", "commit"])

    def test_files_without_an_order(self):
        self.assertEqual(self.refused(*self.two(first=[write(1, rel())], second=[check(1)])), [
            "two:1: events of several files (one, two) have no order: give each line the `sequence` of one sequencer, or a "
            "`time` and --skew MS"])
        # Whatever file their lines say that they come from; these are read in full, or as a text over many lines.
        said = [{**event, "file": "service", "line": 1} for event in (write(1, rel()), check(1))]
        for given in self.two(first=said[:1], second=said[1:]), self.two(first=said[:1], second=said[1:])[:-1] + (self.put("two", json.dumps(said[1], indent=1)),):
            self.assertIn("events of several files (", self.refused(*given)[0])
        self.assertEqual(self.refused(*self.two(first=[write(1, rel(), sequence=4)], second=[check(1, sequence=4)])),
                         ["two:1: sequence 4 stands at one:2 too"])

    def test_skew(self):
        first = [write(1, rel(), time="2024-01-01T00:00:01Z"), write(2, time="2024-01-01T00:00:05Z"),
                 write(3, time="2024-01-01T00:00:09Z")]
        second = [check(1, time="2024-01-01T00:00:01.500Z"), check(1, time="2024-01-01T00:00:05.1Z"),
                  content(2, "v", time="2024-01-01T00:00:09.020Z")]
        self.imported(*self.two("--skew", "10", first=first, second=second))
        self.assertEqual([row["kind"] for row in self.rows("trace.jsonl")][1:],
                         ["commit", "check", "commit", "check", "commit", "content"])
        self.forget()
        self.assertEqual(self.unaudited(*self.two("--skew", "500", first=first, second=second)), [
            "not audited: %s, first at two:1: which came first, this check or the write at one:2, is not known: they are 500 ms apart, and the "
            "skew is 500 ms" % causes.ORDER_UNKNOWN, "not audited 2: %s" % causes.ORDER_UNKNOWN])
        self.assertEqual([row["kind"] for row in self.rows("trace.jsonl")][1:], ["commit", "commit", "check", "commit"])

    def test_skew_of_a_version_and_of_rules(self):
        second = [content(1, "v", time="2024-01-01T00:00:02Z", clock="b")]
        first = [write(1, rel(), time="2024-01-01T00:00:01Z", clock="a"),
                 check(1, version="v", time="2024-01-01T00:00:02Z", clock="a"),
                 check(1, time="2024-01-01T00:00:02Z", clock="a"), check(1, time="2024-01-01T00:00:02Z", clock="c")]
        self.assertEqual(self.unaudited(*self.two("--skew", "0", first=first, second=second)), [
            "not audited: %s, first at two:1: which came first, this content or the check at one:3, is not known: they are 0 ms apart, and the "
            "skew is 0 ms" % causes.ORDER_UNKNOWN, "audited in part 1: %s; not looked for: F2, F6" % causes.VERSION_LEFT_OUT,
            "not audited 1: %s" % causes.ORDER_UNKNOWN])

    def test_times(self):
        self.assertEqual(self.refusals(RULES, write(1), check(1, time="noon"), write(2, time="2024-01-01T00:00:02+01:00"),
                                       check(2, time="2024-01-01T00:00:01+01:00"), check(1, sequence=-1), check(1, clock=4),
                                       words=("--from-empty", "--skew", "0")), [
            "log:2: the line has no `time`, which --skew orders by", "log:3: `time` is no time of RFC 3339",
            "log:5: its time is before that of log:4, of the same clock",
            "log:6: `sequence` is no whole number", "log:7: `clock` is no text"])
        for time in "0001-01-01T00:00:00+10:00", "9999-12-31T23:59:59-10:00":
            self.assertEqual(self.refusals(RULES, write(1, time=time), check(1, time=time)), ["log:%d: `time` is no time of RFC 3339" % line for line in (2, 3)])

    def test_revisions_rise(self):
        self.assertEqual(self.refusals(RULES, write(2, rel()), check(2), write(2), write(1), write(3)), [
            "log:4: its revision 2 is not later than that of log:2, 2", "log:5: its revision 1 is not later than that of log:2, 2"])

    def test_a_base_state_comes_first(self):
        events = [RULES, check(5), write(5, rel(), base=True), check(4), content(6, "v"), write(6, rel(), base=True)]
        self.assertEqual(self.refusals(*events, words=()), [
            "log:6: a base state has one revision, and log:3 has 5",
            "log:6: doc:1#viewer@user:a is touched twice in one commit, at log:3 too"])
        for words in ((), ("--from-empty",)):
            base = write(1, **({"base": True} if words else {}))
            self.assertEqual(self.refusals(RULES, base, words=words),
                             ['log:1: give either base writes ("base":true) or --from-empty'])


class Refusals(CoreCase):
    def test_tuples_and_versions(self):
        self.assertEqual(self.refusals(
            RULES, write(1, rel(), rel()), write(2, rel(), remove=[rel()]), write(3, rel(relation="x")), words=("--from-empty", "--refuse-unmapped")), [
            "log:2: doc:1#viewer@user:a is touched twice in one commit, at log:2 too",
            "log:3: doc:1#viewer@user:a is touched twice in one commit, at log:3 too",
            "log:4: tuple of a relation that the rules do not have: doc:1#x@user:a"])

    def test_content_checks_whose_versions_cannot_be_taken_are_audited_as_checks(self):
        rows = self.lines(RULES, write(1, rel()), content(1, "v", token=1), check(1, token=1, version="v"), write(2, remove=[rel()]),
                          content(2, "v", token=2), check(2, False, version="v"), content(2, None) | {"version": "w"},
                          content(2, None) | {"reply": True}, check(2, False, version=""), content(2, "") | {"reply": True})
        self.assertEqual([(row["kind"], row.get("version"), row.get("named"), row.get("part")) for row in rows if "goal" in row], [
            ("content", "v", None, None), ("check", "v", None, None), ("check", None, "v", causes.LABEL_AGAIN), ("check", "v", None, causes.LABEL_TWICE),
            ("check", None, "w", causes.CONTENT_ODD), ("check", None, None, causes.CONTENT_ODD), ("check", None, None, causes.LABEL_EMPTY),
            ("check", None, "", causes.CONTENT_ODD)])
        self.assertEqual(self.audited().splitlines(), [
            "line 6: F10 wrong reply", "line 7: F2 old token, see line 3", "line 9: F10 wrong reply", "line 11: F10 wrong reply", "entries 8",
            "findings 4", "verdict dirty"])

    def test_versions_from_before_the_log_are_audited_without_them(self):
        """A right reply is no finding, and a wrong one is; what is not looked for is counted."""
        events = [RULES, write(5, rel(), base=True), check(5, version="old"), check(5, False, version="old"), content(5, "new", token=5),
                  check(5, token=5, version="new")]
        rows = self.lines(*events, words=())
        self.assertEqual([(row.get("version"), row.get("named"), row.get("part")) for row in rows[1:]], [
            (None, "old", causes.VERSION_UNKNOWN), (None, "old", causes.VERSION_UNKNOWN), ("new", None, None), ("new", None, None)])
        self.assertIn("checks: 2 whole, 2 in part\naudited in part 2: %s; not looked for: F2, F6\n" % causes.VERSION_UNKNOWN, self.said)
        self.assertEqual(self.audited(), "line 4: F10 wrong reply\nentries 4\nfindings 1\nverdict dirty\n")

    def test_a_version_that_nobody_saved_is_a_finding_where_the_log_has_all(self):
        self.lines(RULES, write(1, rel()), check(1, version="never"))
        self.assertEqual(self.audited(), "line 3: F6 unknown version\nentries 1\nfindings 1\nverdict dirty\n")

    def test_shapes_of_events(self):
        bad = [{"event": "no"}, [], write("1"), write(1, ["doc"]), write(1, base=True, remove=[rel()]),
               *(write(1) | {"add": one} for one in (7, {}, "", False)), write(1) | {"remove": 0},
               check(-1), check(1, "yes"), check(1, goal=rel(user_relation="x")), check(1, version=1), check(1, token="x"),
               check(1) | {"file": 7}, {"event": "rules"}, {"event": "rules", "namespaces": [{"name": "a"}]},
               {"event": "rules", "namespaces": [{"name": "a", "relations": [1]}]},
               {"event": "rules", "namespaces": [{"name": "a", "relations": []}] * 2},
               {"event": "rules", "namespaces": [{"name": "a", "relations": [{"name": "b"}] * 2}]},
               {"event": "rules", "namespaces": [{"name": "a", "relations": [{"name": "b", "rewrite": {}}]}]},
               {"event": "rules", "namespaces": [{"name": "a", "relations": [{"name": "b", "rewrite": {"computed": "c"}}]}]},
               *({"event": "unmapped", "reason": "caveat", "userset": one} for one in (["doc", 1, "viewer"], [None, "1", "viewer"])),
               {"event": "unmapped", "reason": "caveat", "version": ["doc", None, "v"]}]
        wanted = ["`event` is none of rules, write, check, content"] * 2 + [
            "`revision` is no whole number", "add[0] is no list of 5 or 6 texts", "a base state removes nothing",
            *["`add` is no list"] * 4, "`remove` is no list", "`snapshot` is no whole number", "`reply` is neither true nor false",
            "`goal` is no list of 5 texts", "`version` is no text", "`token` is no whole number",
            "`file` is no text or `line` no whole number", "`namespaces` is no list", "namespaces[0] has no name or no relations",
            "a relation of namespaces[0] has no name", "namespace a stands twice", "relation a#b stands twice",
            "the rewrite of b has none of the six forms", "a#b reads c, which a does not declare",
            *["`userset` is no list of three texts"] * 2, "`version` is no list of three texts"]
        self.assertEqual(self.refusals(*bad), ["log:%d: %s" % one for one in enumerate(wanted, 1)])

    def test_rules(self):
        deep = {"this": {}}
        for _ in range(32):
            deep = {"union": [deep]}
        many = {"event": "rules", "namespaces": [{"name": "n%d" % number, "relations": []} for number in range(257)]}
        wide = {"event": "rules", "namespaces": [{"name": "wide", "relations": [{"name": "r%d" % n} for n in range(257)]},
                                                 {"name": "deep", "relations": [{"name": "r", "rewrite": deep}]}]}
        self.assertEqual(self.refusals(many)[0], "log:1: namespace n256 is one more than the 256 of a trace")
        self.assertEqual(self.refusals(wide), ["log:1: wide has 257 relations, and a trace 256 at most",
                                               "log:1: the rule of deep#r is deeper than 32"])
        self.assertEqual(self.refusals(RULES, RULES), ["log:2: namespace doc stands twice in the first rules"])

    def test_more_than_a_trace_takes(self):
        changes = [{"event": "rules", "revision": at, "namespaces": [
            RULES["namespaces"][0], {"name": "other%d" % at, "relations": []}]} for at in (1, 2)]
        changes[1]["namespaces"].append(changes[0]["namespaces"][1])
        with mock.patch.object(limits, "CHANGES", 1):
            self.assertEqual(self.refusals(RULES, *changes), ["log:3: more than 1 changes of rules"])

    def test_more_strata_than_a_trace_has(self):
        relations = [{"name": "r0"}] + [{"name": "r%d" % n, "rewrite": {"exclusion": {
            "base": {"this": {}}, "subtract": {"computed": "r%d" % (n - 1)}}}} for n in range(1, 200)]
        more = [{"name": "s0"}] + [{"name": "s%d" % n, "rewrite": {"exclusion": {
            "base": {"this": {}}, "subtract": {"computed": "s%d" % (n - 1)}}}} for n in range(1, 200)]
        rules = {"event": "rules", "namespaces": [{"name": "a", "relations": relations}, {"name": "b", "relations": more}]}
        refusals = self.refusals(rules, write(1, ["b", "1", "s0", "a", "1", "r199"]))
        self.assertIn("log:1: b#s57 would have stratum 256, and the highest is 255", refusals)

    def test_a_device_that_fails(self):
        status, said = self.run_import("events", "--from-empty", "--trace", "none/trace.jsonl", self.given(RULES))
        self.assertEqual((status, said), (5, "cannot use none/trace.jsonl.part: No such file or directory\n"))
        status, said = self.run_import("events", "--from-empty", "nothing")
        self.assertEqual((status, said), (5, "cannot use nothing: No such file or directory\n"))


class LeftOut(CoreCase):
    """What has no form is left out, and each check that hangs on it."""

    def test_checks_that_hang_on_a_tuple(self):
        lost = write(1, rel("1", "gone"))
        rules = {"event": "rules", "namespaces": [{"name": "doc", "relations": [
            {"name": "viewer"}, {"name": "parent"}, {"name": "reader", "rewrite": {"tuple_to": {
                "tupleset": "parent", "computed": "gone"}}}]}]}
        rows = self.lines(rules, lost, write(2, rel("2", "parent", "1", "doc"), rel("3", "parent", "2", "doc"),
                                             rel("4", "viewer", "1", "doc", "gone")),
                          *[check(2, goal=rel(thing, relation)) for thing in "1234" for relation in ("viewer", "reader")])
        self.assertEqual([row["goal"] for row in rows if row["kind"] == "check"],
                         ["doc:1#viewer@3", "doc:1#reader@3", "doc:2#viewer@3", "doc:3#viewer@3", "doc:3#reader@3", "doc:4#reader@3"])
        self.assertEqual(self.said.splitlines()[:3], [
            "log:3: nobody is in doc:1#gone, a relation that the rules do not have",
            "left out 1: tuple of a relation that the rules do not have, first at log:2: doc:1#gone@user:a",
            "not audited: %s, first at log:7: doc:2#reader@user:a" % causes.HANGS_ON_LEFT_OUT])
        self.assertIn("\nnot audited 2: %s\n" % causes.HANGS_ON_LEFT_OUT, self.said)

    def test_checks_that_hang_on_a_rule(self):
        self.put("schema", "definition user {}\ndefinition doc {\n relation up: doc\n relation own: user | doc#open\n"
                 " permission lost = own - self\n permission open = lost + own\n permission far = up->open\n}\n")
        self.put("log", [{"request": {"resource": {"objectType": "doc", "objectId": "1"}, "permission": name,
                                      "subject": {"object": {"objectType": "user", "objectId": "a"}}},
                          "response": {"checkedAt": {"token": "5"}, "permissionship": "PERMISSIONSHIP_NO_PERMISSION"}}
                         for name in ("lost", "open", "far", "own", "up")])
        self.put("base", "doc:1#up@doc:2\n")
        words = ["spicedb", "--schema", "schema", "--base", "base", "--base-at", "5", "log"]
        said = self.imported(*words)
        self.assertIn("left out 1: self, first at schema:5: doc#lost\n", said)
        self.assertIn("not audited 3: %s\n" % causes.HANGS_ON_LEFT_OUT, said)
        self.assertEqual([row["goal"] for row in self.rows("trace.jsonl") if row["kind"] == "check"],
                         ["doc:1#own@2", "doc:1#up@2"])

    def test_versions_go_with_their_content_check(self):
        rows = self.lines(RULES, write(1, rel()), content(1, "v", goal=rel(relation="gone")), check(1, version="v"),
                          check(1, version="w"))
        self.assertEqual([(row.get("version"), row.get("part")) for row in rows[1:]], [(None, causes.VERSION_LEFT_OUT), ("w", None)])
        self.assertIn("not audited 1: %s\n" % causes.UNKNOWN_RELATION, self.said)

    def test_faults_are_refused_all_the_same(self):
        status, said = self.run_import("events", "--from-empty", self.given(
            RULES, write(1, rel(relation="gone")), write(1, rel(), rel())))
        self.assertEqual((status, said.splitlines()), (2, [
            "left out 1: tuple of a relation that the rules do not have, first at log:2: doc:1#gone@user:a",
            "log:3: doc:1#viewer@user:a is touched twice in one commit, at log:3 too", "refused 1"]))


class Told(CoreCase):
    def test_what_a_trace_cannot_show(self):
        self.lines(RULES, write(1, rel()), check(1))
        self.assertEqual(self.said.splitlines(), [
            "commits 1, checks 1, content checks 0", "cannot show F1 stale: no check carries a token",
            "cannot show F2 old token: there is no content check", "cannot show F3 not latest: there is no content check",
            "cannot show F4 open snapshot: no commit stands behind a check",
            "cannot show F5 wrong token: there is no content check with the reply true",
            "cannot show F6 unknown version: no check names a content version"])
        self.lines(RULES, write(1, rel()), content(1, "v", token=1), check(1, token=1, version="v"), write(2))
        self.assertEqual(self.said, "commits 2, checks 1, content checks 1\n")
        self.lines(RULES, write(1, rel()))
        self.assertIn("cannot show F10 wrong reply: there is no check\n", self.said)

    def test_usage(self):
        for words in (["openfga"], ["openfga", "--model", "m", "log"], ["openfga", "--model", "m", "--base", "b", "log"],
                      ["spicedb", "--schema", "s", "--base", "b", "--base-at", "?", "log"], ["events", "--skew", "-1", "log"], []):
            run = self.run_process("import", *words)
            self.assertEqual((run.returncode, run.stdout), (3, ""), words)
            self.assertIn("usage: ne import", run.stderr)

    def test_a_hundred_thousand_events(self):
        self.given(RULES)
        with open(self.path("log"), "a", encoding="utf-8") as file:
            for number in range(1, 50_001):
                file.write('{"event":"write","revision":%d,"add":[["doc","d%d","viewer","user","u%d"]]}\n'
                           % (number, number % 999, number))
                file.write('{"event":"check","goal":["doc","d1","reader","user","u1"],"snapshot":%d,"reply":true}\n' % number)
        began = os.times()
        run = self.run_process("import", "events", "--from-empty", "log")
        ended = os.times()
        self.assertEqual((run.returncode, run.stdout), (0, ""), run.stderr)
        self.assertLess(ended.children_user + ended.children_system - began.children_user - began.children_system, 40)
        self.assertIn("commits 50000, checks 50000", run.stderr)
        self.assertEqual(self.get("trace.jsonl").count("\n"), 100_001)


class Sorted(CoreCase):
    def lines(self, *times):
        return [Event("write", "log", line, line, time=time) for line, time in enumerate(times)]

    def test_lines_are_in_the_order_of_sorted(self):
        random = Random(1)
        for most in 1, 3, 4096:
            given = self.lines(*[random.randrange(40) for _ in range(200)])
            given[70:70] = [Event("rules", "log", 900, time=7)]
            with mock.patch.object(sorting, "BATCH", most):
                found = list(sorting.sorted_lines(given, lambda line: line.time))
            self.assertEqual(found, sorted(given, key=lambda line: line.time))
            self.assertIs(next(one for one in found if one.kind == "rules"), given[70])

    def test_only_lines_that_may_still_move_are_in_memory(self):
        """Files of two clocks, one behind the other: of each one batch at once."""
        loaded, load = [], Spool.batch
        with mock.patch.object(sorting, "BATCH", 10), mock.patch.object(
                Spool, "batch", lambda spool, number: loaded.append(number) or load(spool, number)):
            for count, _ in enumerate(sorting.sorted_lines(self.lines(*range(500), *range(500)), lambda line: line.time), 1):
                self.assertLessEqual(len(loaded), count // 10 + 3)
        self.assertEqual(sorted(loaded), list(range(100)))


class FilesInAnyOrder(CoreCase):
    """Files of one sequencer, or of one clock, may be given in any order, and their lines may be between each other."""

    LINES = [RULES, write(1, rel(), base=True), check(1), write(2, rel("2")), content(2, "v", token=2), check(2, goal=rel("2")),
             check(2, version="v", token=2), write(3, remove=[rel()]), check(3, False)]

    def assert_same(self, lines, *words):
        """Each way to put the lines into files gives the trace of one file, but for where the lines come from."""
        def read(*names):
            self.assertEqual(self.run_import("events", *words, "--trace", "trace", "--ids", "ids", *names)[0], 0)
            found = [{key: one for key, one in row.items() if key not in ("from", "ids")} for row in self.rows("trace")]
            os.remove(self.path("trace"))
            os.remove(self.path("ids"))
            return found
        wanted = read(self.given(*lines))
        self.assertEqual([row["kind"] for row in wanted], ["namespace", *["commit", "check"] * 1, "commit", "content", "check", "check", "commit", "check"])
        for first, second in (lines[:4], lines[4:]), (lines[0:2] + lines[2::2], lines[3::2]), (lines[3::2], lines[0:2] + lines[2::2]):
            self.given(*first, name="first")
            self.given(*second, name="second")
            for names in ("first", "second"), ("second", "first"):
                self.assertEqual(read(*names), wanted)

    def test_of_one_sequence(self):
        self.assert_same([one | {"sequence": number} for number, one in enumerate(self.LINES)])

    def test_a_stale_reply_is_found_in_each_order_of_the_files(self):
        lines = [one | {"sequence": number} for number, one in enumerate([*self.LINES, check(2, version="v", token=1), check(3, True)])]
        self.given(*lines[::2], name="first")
        self.given(*lines[1::2], name="second")
        for names in ("first", "second"), ("second", "first"):
            self.imported("events", *names)
            self.assertEqual(re.findall("F[0-9]+ .*", self.audited()), ["F2 old token, see line 5", "F10 wrong reply"])
            os.remove(self.path("ids.jsonl"))

    def test_rules_that_change_in_a_file_that_is_read_before_that_of_the_first(self):
        later = {"event": "rules", "revision": 2, "namespaces": [{"name": "doc", "relations": [
            {"name": "viewer"}, {"name": "reader", "rewrite": {"computed": "viewer"}}]}]}
        last = {"event": "rules", "revision": 3, "namespaces": [{"name": "doc", "relations": [{"name": "reader", "rewrite": {"this": {}}}]}]}
        reads = [check(at, reply, rel(relation="reader")) for at, reply in ((2, True), (3, False))]
        lines = [one | {"sequence": number} for number, one in enumerate((RULES, write(1, rel()), later, reads[0], last, reads[1]))]
        for order in permutations(range(3)):
            names = ["log%d" % number for number in order]
            for name, some in zip(("log0", "log1", "log2"), (lines[:2], lines[2:4], lines[4:])):
                self.put(name, some)
            self.imported("events", "--from-empty", *names)
            self.assertEqual(self.audited(), "entries 2\nfindings 0\nverdict clean\n", names)

    def test_a_gap_without_a_number_costs_no_order(self):
        lines = [one | {"sequence": number} for number, one in enumerate([*self.LINES, check(2, version="w", token=2), check(3, True)])]
        self.given(*lines[::2], {"event": "gap", "from": None, "to": "2024-01-01T00:00:00Z", "reason": "the log begins"}, name="first")
        self.given(*lines[1::2], name="second")
        for names in ("first", "second"), ("second", "first"):
            self.assertIn("audited in part 1: %s; not looked for: F2, F6" % causes.VERSION_UNKNOWN, self.unaudited("events", *names))
            self.assertEqual(re.findall("F[0-9]+ .*", self.audited()), ["F10 wrong reply"])
            os.remove(self.path("ids.jsonl"))

    def test_of_one_clock(self):
        times = [one | {"time": "2024-01-01T00:00:%02dZ" % number, "clock": "c"} for number, one in enumerate(self.LINES)]
        self.assert_same(times, "--skew", "0")
        self.assert_same(times, "--skew", "500")

    def test_what_stands_before_the_base_state_does_so_in_any_order(self):
        first, rest = check(1, sequence=1), [RULES | {"sequence": 2}, write(1, rel(), base=True, sequence=3), check(1, sequence=4)]
        self.given(first, name="first")
        self.given(*rest, name="second")
        for names in ("first", "second"), ("second", "first"):
            self.assertEqual(self.struck("events", *names), ["first:1: check before the base state: second:2 gives base state behind it"])

    def test_lines_of_one_clock_and_one_time_in_two_files(self):
        stamp = {"time": "2024-01-01T00:00:01Z", "clock": "c"}
        self.given(RULES, write(1, rel(), **stamp), name="first")
        self.given(check(1, **stamp), name="second")
        for names in ("first", "second"), ("second", "first"):
            self.assertEqual(len(self.struck("events", "--from-empty", "--skew", "0", *names)), 1)

    def test_a_file_whose_times_fall_is_refused(self):
        lines = [one | {"time": "2024-01-01T00:00:%02dZ" % at, "clock": "c"} for one, at in ((RULES, 0), (write(1, rel()), 2), (check(1), 1))]
        self.assertEqual(self.refusals(*lines, words=("--from-empty", "--skew", "0")), ["log:3: its time is before that of log:2, of the same clock"])
