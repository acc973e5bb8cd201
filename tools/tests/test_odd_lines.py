"""One odd line is one odd line: what records no decision is counted, what can be left out is, and what strikes all is said once."""
from new_enemy_tools.importing import causes
from new_enemy_tools.importing.refusals import HINT
from tests.test_openfga import MODEL, THIS, change
from tests.test_openfga import check as fga_check
from tests.test_spicedb import SCHEMA, VIEW, update, watch
from tests.test_spicedb import check as zed_check
from tests.test_trace_maker import RULES, CoreCase, check, content, rel, write

KEY = {"tuple_key": {"user": "user:a", "relation": "viewer", "object": "doc:1"}}


class PassedOver(CoreCase):
    def test_openfga(self):
        log = [change("user:a"), fga_check(),
               {"request": KEY, "response": {"code": "validation_error", "message": "type not found"}},
               {"request": KEY, "response": {"code": "validation_error", "message": "relation not found"}, "status": 400},
               {"request": KEY, "error": {"code": 14, "message": "unavailable"}}, {"request": KEY, "error": "timeout"},
               {"code": "rate_limit", "message": "slow down"}, {"request": KEY, "status": 503},
               {"request": {"writes": {"tuple_keys": []}}, "response": {}}, {"request": KEY, "response": {"tree": {}}},
               {"request": {}, "response": {}, "method": "/openfga.v1.OpenFGAService/ListStores"},
               fga_check(method="openfga.v1.OpenFGAService.Check")]
        self.put("model.json", MODEL % THIS)
        self.put("log", log)
        self.assertEqual(self.imported("openfga", "--model", "model.json", "--from-empty", "log").splitlines()[:8], [
            "passed over 1: failed request (14)", "passed over 1: failed request (400)", "passed over 1: failed request (503)",
            "passed over 1: failed request (rate_limit)", "passed over 1: failed request (timeout)",
            "passed over 1: failed request (validation_error)", "passed over 1: other call (Expand)",
            "passed over 1: other call (ListStores)"])
        self.assertEqual(self.audited(), "entries 2\nfindings 0\nverdict clean\n")

    def test_spicedb(self):
        log = [watch(1, update("user:a")), watch(1, update("user:a")), zed_check(), {"error": {"code": 13}},
               {"request": zed_check()["request"], "response": {"code": 3, "message": "no such permission"}},
               {"request": {"updates": []}, "response": {"writtenAt": {"token": "x"}}}]
        self.put("schema", SCHEMA % VIEW)
        self.put("log", log)
        self.assertEqual(self.imported("spicedb", "--schema", "schema", "--from-empty", "log").splitlines()[:4], [
            "passed over 1: failed request (13)", "passed over 1: failed request (3)", "passed over 1: other call (WriteRelationships)",
            "passed over 1: write that was logged before"])
        self.assertEqual(self.audited(), "entries 1\nfindings 0\nverdict clean\n")

    def test_a_decision_is_never_passed_over(self):
        self.put("model.json", MODEL % THIS)
        self.put("log", [change("user:a"), fga_check(allowed=False, status=500, error="late")])
        self.imported("openfga", "--model", "model.json", "--from-empty", "log")
        self.assertIn("F10 wrong reply", self.audited())

    def test_a_content_check_that_was_logged_before(self):
        lines = [RULES, write(1, rel()), content(1, "v", token=1), content(1, "v", token=1)]
        self.lines(*lines)
        self.assertIn("audited in part 1: %s; not looked for: F3, F5\n" % causes.LABEL_AGAIN, self.said)
        self.assertEqual(self.audited(), "entries 2\nfindings 0\nverdict clean\n")


class LeftOut(CoreCase):
    def test_checks_that_cannot_be_read(self):
        self.put("model.json", MODEL % THIS)
        log = [change("user:a"), fga_check(allowed="yes"), fga_check("anne"), fga_check(at=None), fga_check(token="soon"), fga_check()]
        self.put("log", log)
        words = ("openfga", "--model", "model.json", "--from-empty", "log")
        self.assertEqual(len(self.struck(*words)), 4)
        self.assertIn("not audited 4: check that can't be read\n", self.imported(*words))
        self.assertEqual(self.audited(), "entries 1\nfindings 0\nverdict clean\n")

    def test_what_cannot_be_left_out(self):
        """A line of no kind, and a mistyped key."""
        self.put("model.json", MODEL % THIS)
        good = [change("user:a"), fga_check()]
        for line in (None, {"hello": 1}, fga_check(verison="v"), fga_check(content={"verison": "v"})):
            self.put("log", good + [line])
            status, said = self.run_import("openfga", "--model", "model.json", "--from-empty", "log")
            self.assertEqual((status, said.splitlines()[-1]), (2, "refused 1"))
            self.assertNotIn(HINT, said)

    def test_checks_whose_order_is_not_known(self):
        words = ("--from-empty", "--skew", "50")
        second = [check(1, time="2024-01-01T00:00:01.01Z", clock="b"), content(2, "v", time="2024-01-01T00:00:02.99Z", clock="b"),
                  check(2, version="v", time="2024-01-01T00:00:05Z", clock="b"), check(2)]
        lines = [RULES, write(1, rel(), time="2024-01-01T00:00:01Z"), write(2, time="2024-01-01T00:00:02Z"),
                 write(3, rel(user="x"), time="2024-01-01T00:00:03Z")]
        self.imported("events", *words, self.given(*lines, name="one"), self.given(*second, name="two"))
        self.assertEqual([row["kind"] for row in self.rows("trace.jsonl")], ["namespace", "commit", "commit", "commit", "check"])
        self.put("two", [check(1), *second[:1], write(4, time="2024-01-01T00:00:03.04Z", clock="b")])
        status, said = self.run_import("events", *words, "one", "two")
        self.assertEqual((status, said.splitlines()), (2, [
            "not audited: %s, first at two:2: which came first, this check or the write at one:2, is not known: they are 10 ms apart, and the skew "
            "is 50 ms" % causes.ORDER_UNKNOWN,
            "not audited: %s, first at two:1: the line has no `time`, which --skew orders by" % causes.WITHOUT_TIME,
            "two:3: which came first, this write or the write at one:4, is not known: they are 40 ms apart, and the skew is 50 ms",
            "refused 1"]))


class Once(CoreCase):
    def test_what_strikes_every_line(self):
        self.put("schema", SCHEMA % VIEW)
        self.put("log", [watch("1234.%d" % number, update("user:a")) for number in range(40)] + [zed_check("1234.17")] * 3)
        status, said = self.run_import("spicedb", "--schema", "schema", "--from-empty", "log")
        older = "is of SpiceDB on PostgreSQL in the older form xid.xmin, which does not say what it sees"
        self.assertEqual((status, said.splitlines()), (2, [
            "not audited: %s, first at log:41: `checkedAt` of the response %s" % (causes.UNREADABLE, older),
            "log:1: `changesThrough` %s; so have 39 lines more" % older,
            "refused 40"]))
