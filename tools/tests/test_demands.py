"""A check that asks for the newest state demands all that the version has which it shows, with no token: no caller is accused for that."""
import json
import os

from tests import test_openfga, test_postgres, test_spicedb, test_trace_maker
from tests.support import Case
from tests.test_round_trips import token_text

AT = "2024-01-01T00:00:%02dZ"


class Demands(Case):
    """Each log issues version v at 2, and asks for it at 2 or later, or, where the service was at fault, at 1."""

    def findings(self, *words):
        for name in "trace.jsonl", "ids.jsonl":
            if os.path.exists(self.path(name)):
                os.remove(self.path(name))
        self.imported(*words)
        *found, _, _, _ = self.audited().splitlines()
        return [line.split(" ", 2)[2] for line in found]

    def assert_demands(self, newest, other, count=9):
        """`newest` and `other` make findings of checks that ask for the newest state, and of those that do not, by their snapshots."""
        self.assertEqual(newest(*[2, 3] * count), [])
        self.assertEqual(newest(*[3] * count, 1, 2), ["F1 stale"])
        self.assertEqual({line.split(",")[0] for line in other(2, 3, 3)}, {"F2 old token"})

    def openfga(self, consistency, *snapshots, **more):
        self.put("model.json", test_openfga.MODEL % test_openfga.THIS)
        users = [test_openfga.change("user:" + name, at=AT % second) for second, name in enumerate("abc", 1)]
        issued = test_openfga.check(at=2, content={"version": "v", "token": 2}, request={"consistency": "HIGHER_CONSISTENCY"})
        request = {} if consistency is None else {"consistency": consistency}
        checks = [test_openfga.check(at=at, version="v", request=request, **more) for at in snapshots]
        self.put("log", [*users[:2], issued, users[2], *checks])
        return self.findings("openfga", "--model", "model.json", "--from-empty", "log")

    def test_openfga(self):
        for consistency in "HIGHER_CONSISTENCY", 200, 200.0:
            self.assert_demands(lambda *at: self.openfga(consistency, *at), lambda *at: self.openfga(None, *at))
        for consistency in "MINIMIZE_LATENCY", 100, 1e2, "UNSPECIFIED", 0, -0.0:
            self.assertEqual(len(self.openfga(consistency, 2, 3)), 2)

    def test_openfga_between_two_places(self):
        self.assertEqual(self.openfga("HIGHER_CONSISTENCY", None, snapshot_between=[2, 3]), [])
        self.assertEqual(self.openfga("HIGHER_CONSISTENCY", None, snapshot_between=[1, 1]), ["F1 stale"])

    def test_a_consistency_that_the_service_does_not_have(self):
        self.put("model.json", test_openfga.MODEL % test_openfga.THIS)
        self.put("log", [test_openfga.change("user:a"), *(test_openfga.check(request={"consistency": one}) for one in ("BEST", 7, 200.5, "200", 1e300, True, []))])
        self.assertEqual(self.struck("openfga", "--model", "model.json", "--from-empty", "log"), [
            "log:%d: check that can't be read: unknown consistency %s" % (line, shown) for line, shown in enumerate(
                ("'BEST'", "7", "200.5", "'200'", "1e+300", "True", "[]"), 2)])

    def spicedb(self, consistency, *snapshots, revision=lambda at: at, own=lambda at: at):
        self.put("schema.zed", test_spicedb.SCHEMA % test_spicedb.VIEW)
        writes = [test_spicedb.watch(own(at), test_spicedb.update("user:" + name)) for at, name in enumerate("abc", 1)]
        issued = test_spicedb.check(revision(2), content={"version": "v", "token": token_text(revision(2))},
                                    request={"consistency": {"fullyConsistent": True}})
        checks = [test_spicedb.check(revision(at), version="v", request={"consistency": consistency}) for at in snapshots]
        self.put("log", [*writes[:2], issued, writes[2], *checks])
        return self.findings("spicedb", "--schema", "schema.zed", "--from-empty", "log")

    def test_spicedb(self):
        for consistency in {"fullyConsistent": True}, {"fully_consistent": True}:
            self.assert_demands(lambda *at: self.spicedb(consistency, *at), lambda *at: self.spicedb({"minimizeLatency": True}, *at))

    def test_a_consistency_that_spicedb_does_not_have(self):
        self.put("schema.zed", test_spicedb.SCHEMA % test_spicedb.VIEW)
        odd = "full", 1.5, {"Requirement": {"FullyConsistent": True}}, {"fullyConsistent": "true"}, {"fullyConsistent": False}
        self.put("log", [test_spicedb.watch(1, test_spicedb.update("user:a")), *(test_spicedb.check(1, request={"consistency": one}) for one in (*odd, {}, None))])
        self.assertEqual(self.struck("spicedb", "--schema", "schema.zed", "--from-empty", "log"), [
            "log:%d: check that can't be read: unknown consistency %s" % (line, one) for line, one in enumerate(odd, 2)])

    def test_spicedb_on_postgres(self):
        kinds = {"revision": lambda at: test_postgres.revision(10 + at, 10 + at), "own": lambda at: test_postgres.revision(9 + at, 10 + at, own=9 + at)}
        self.assert_demands(lambda *at: self.spicedb({"fullyConsistent": True}, *at, **kinds), lambda *at: self.spicedb({}, *at, **kinds))

    def events(self, *snapshots, **more):
        writes = [test_trace_maker.write(at, test_trace_maker.rel(user=name)) for at, name in enumerate("abc", 1)]
        checks = [test_trace_maker.check(at, version="v", **more) for at in snapshots]
        self.put("log", [test_trace_maker.RULES, *writes[:2], test_trace_maker.content(2, "v", token=2), writes[2], *checks])
        return self.findings("events", "--from-empty", "log")

    def test_own_events(self):
        self.assert_demands(lambda *at: self.events(*at, newest=True), lambda *at: self.events(*at))
        self.assertEqual(len(self.events(2, newest=False)), 1)

    def test_a_check_that_shows_no_version_demands_nothing_that_could_be_looked_for(self):
        self.put("model.json", json.dumps(json.loads(test_openfga.MODEL % test_openfga.THIS)))
        self.put("log", [test_openfga.change("user:a"), test_openfga.check(at=1, request={"consistency": "HIGHER_CONSISTENCY"})])
        self.assertIn("cannot show F1 stale: no check carries a token", self.imported(
            "openfga", "--model", "model.json", "--from-empty", "log"))
