"""OpenFGA's own log and Envoy's taps beside a log of the changes alone: ne record --changes-only, and ne join."""
import base64
import gzip
import json
import os
import time
from collections import Counter
from unittest import mock

from new_enemy_tools.importing import causes
from new_enemy_tools.importing.times import nanoseconds, text_of_time
from new_enemy_tools.recording import joining, overheard
from new_enemy_tools.recording.openfga import CONSISTENT
from new_enemy_tools.recording.joining import Join
from new_enemy_tools.recording.sketches import Given, JoinFault, Row
from tests.simulated_overheard import run_overheard
from tests.stand_in_openfga import STORE
from tests.simulated_case import SimulatedCase
from tests.support import Case
from tests.test_joining import events
from tests.stand_in_spicedb import wrapped
from tests.test_own_events import SECONDS, TOKENS, at, log
from tests.test_recording_openfga import EARLY, FIXED, MODEL, USERS, OpenFga, key

SEEDS = 250
KEY = {"object": "document:d", "relation": "viewer", "user": "user:a"}


def logged(second, request=None, response=None, method="Check", **more):
    """A line of OpenFGA's log, of a check that its newest state answered with true."""
    asked = {"store_id": "S", "tuple_key": KEY, "consistency": "HIGHER_CONSISTENCY", **(request or {})}
    return {"level": "info", "timestamp": at(second), "msg": "grpc_req_complete", "grpc_service": "openfga.v1.OpenFGAService", "grpc_method": method,
            "raw_request": asked, "raw_response": {"allowed": True, "resolution": ""} if response is None else response, "grpc_code": 0, **more}


def tapped(began, ended, request=None, response=None, path="/stores/S/check", status="200", answer=(), **headers):
    """A tap of Envoy, of a check that its newest state answered with true."""
    def part(times, body, *listed):
        return {"headers": [{"key": name, "value": value} for name, value in listed], "headers_received_time": times, "trailers": [],
                "body": body if "truncated" in body else {"truncated": False, "as_string": json.dumps(body)}}
    asked = {"tuple_key": KEY, "consistency": "HIGHER_CONSISTENCY"} if request is None else request
    named = [(name.replace("_", "-"), value) for name, value in headers.items()]
    return {"http_buffered_trace": {
        "request": part(at(began), asked, (":method", "POST"), (":path", path), ("content-type", "application/json"), *named),
        "response": part(at(ended), {"allowed": True} if response is None else response, (":status", status), *answer)}}


def joined(log_rows, rows, took=3 * SECONDS, name="heard"):
    given = Given("log", lambda: (Row("log", number, row) for number, row in enumerate(log_rows, 1)), True)
    join = Join([given], 0, [overheard.overheard(name, [Row(name, number, row) for number, row in enumerate(rows, 1)], took)])
    return list(join.lines()), join.own[0].passed


def payload(number, second, body=None, method="CheckPermission", **more):
    """A line of SpiceDB's log: a request, or with a `checked_at` or as it is given a response."""
    return {"level": "info", "grpc.service": "authzed.api.v1.PermissionsService", "grpc.method": method, "requestID": str(number), "time": at(second),
            **({} if body is None else {"grpc.%s.content" % ("response" if "checked_at" in body else "request"): body}), **more}


ASKED = {"resource": {"object_type": "document", "object_id": "d"}, "permission": "viewer",
         "subject": {"object": {"object_type": "user", "object_id": "a"}}, "consistency": {"Requirement": {"FullyConsistent": True}}}


def told(revision, permissionship=2):
    return {"checked_at": {"token": str(revision)}, "permissionship": permissionship}


class OfSpiceDb(Case):
    """SpiceDB's log of requests and responses, beside a log of the changes alone."""

    def test_what_is_taken(self):
        """A request that waits for its response, a version on either line; the newest state that was known when the request came."""
        made, passed = joined(TOKENS, [
            payload(1, 5, ASKED), payload(2, 20, ASKED, content={"version": "v"}), payload(1, 6, told(1)), payload(2, 21, told(2)),
            payload(3, 22, ASKED), payload(3, 23, told(1, 1), version="v"), payload(4, 24, ASKED), payload(5, 25, {}, "WriteRelationships"),
            payload(5, 26, told(2), "WriteRelationships"), payload(6, 27, ASKED), payload(6, 28, **{"grpc.code": "Unavailable", "message": "finished call"})])
        self.assertEqual([(row["event"], row["snapshot"] // 10 ** 10, row.get("version"), row["token"] // 10 ** 10, row["reply"]) for row in made
                          if row["event"] in ("check", "content")],
                         [("check", 1, None, 1, True), ("content", 2, "v", 2, True), ("check", 1, "v", 2, False)])
        self.assertEqual(passed, {overheard.FAILED: 1, overheard.OTHER: 1, overheard.UNANSWERED: 1})

    def test_what_can_not_be_placed_is_counted(self):
        """A response whose request stands in an earlier file, tokens of PostgreSQL, a caveat's context, a reply that is not sure."""
        token = wrapped(base64.b64encode(b"\x08\x05\x20\x05"))
        made, _ = joined(TOKENS, [
            payload(1, 5, told(1), content={"version": "v"}), payload(2, 5, ASKED), payload(2, 6, {**told(1), "checked_at": token}),
            payload(3, 5, {**ASKED, "context": {"fields": {"x": 1}}}), payload(3, 6, told(1)), payload(4, 5, ASKED), payload(4, 6, told(1, 3))])
        self.assertEqual(sorted(row["reason"] for row in made if row["event"] == "unmapped"), sorted([
            causes.UNREADABLE, "a snapshot of PostgreSQL, which only ne import spicedb can place", causes.CONTEXT_OF_CAVEATS, causes.CONDITIONAL]))

    def test_calls_that_have_one_id_at_once_are_not_told_apart(self):
        made, passed = joined(TOKENS, [payload(1, 5, ASKED), payload(1, 6, {**ASKED, "permission": "other"}), payload(1, 7, told(1, 1)), payload(1, 8, told(1)),
                                       payload(2, 9, ASKED), payload(2, 10, told(1))])
        self.assertEqual([row.get("reason", row["event"]) for row in made if row["event"] in ("check", "unmapped")], [causes.UNREADABLE] * 2 + ["check"])
        self.assertEqual(passed, {})

    def test_values_that_no_service_writes(self):
        """One such check costs no other its place."""
        def fresh(one):
            return {**ASKED, "consistency": {"Requirement": {"AtLeastAsFresh": {"token": one}}}}
        odd = [fresh(one) for one in (7, {"x": 1}, "x", base64.b64encode(b"\x08\x05\x20\x05").decode())]
        odd += [{**ASKED, "resource": {**ASKED["resource"], part: one}} for part in ("object_type", "object_id") for one in ([], {"x": 1}, 7)]
        rows = [row for number, one in enumerate([*odd, ASKED]) for row in (payload(number, 5, one, content={"version": "v"} if one in odd[4:] else None),
                                                                           payload(number, 6, told(1)))]
        made, _ = joined(TOKENS, rows)
        # Where the object of a version is not known, the check is a gap.
        self.assertEqual(sum(row["event"] == "unmapped" or row.get("lost") == 1 for row in made), len(odd))
        self.assertEqual([row["goal"][1] for row in made if row["event"] == "check"], ["d"])

    def test_what_is_refused(self):
        check = [payload(1, 5, ASKED), payload(1, 6, told(1))]
        for rows, said in (([{key: one for key, one in check[0].items() if key != "time"}], "heard:1: the line has no `time` of RFC 3339"),
                           ([check[0], {**check[1], "snapshot": 1}], "heard:2: a line with `snapshot` has its place already; give the log to ne import spicedb"),
                           ([check[0], {**check[1], "verison": "v"}], "heard:2: unknown key \"verison\"; is \"version\" meant?"),
                           ([*check, logged(15)], "heard:3: a line of another service than those before")):
            with self.assertRaises(JoinFault) as found:
                joined(TOKENS, rows)
            self.assertEqual(str(found.exception), said)


class Simulated(SimulatedCase):
    """OpenFGA's log, and taps, whose clocks may be apart from that of the recorder."""

    RUN = run_overheard

    def test_no_right_reply_is_accused_and_no_wrong_one_passes(self):
        self.assert_holds(*range(SEEDS))
        self.assertGreater(2 * self.recorded, self.lost)

    def test_a_content_check_that_was_denied(self):
        """It asks for the newest state, also where a log names no version of it."""
        self.assert_holds(61018229)

    def test_a_model_that_changes(self):
        self.assert_holds(*range(SEEDS // 3), models=True)

    def test_clocks_that_are_apart_by_more_than_it_is_told(self):
        kept = joining.placing_of
        with mock.patch.object(joining, "placing_of", lambda sketches, own, skew, *more: kept(sketches, own, 0, *more)):
            self.assert_finds("a right reply is called wrong")

    def test_a_version_that_a_check_saved_which_can_not_be_read(self):
        """Of what object is not known, so any later check of such a label is audited without it."""
        with mock.patch.object(overheard, "_unread", lambda call, lost: lost):
            self.assert_finds("a version that was saved is not known")


class Parts(Case):
    def places(self, rows):
        return [row.get("newest_between") or row.get("snapshot_between") or row.get("reason") for row in rows if row["event"] in ("check", "content", "unmapped")]

    def test_a_check_of_the_log_began_no_earlier_than_a_request_may_take(self):
        for took, place in ((3, [1, 1]), (6, [0, 1])):
            made, _ = joined(log((10, "a"), (20, "b")), [logged(15)], took * SECONDS)
            self.assertEqual(self.places(made), [place])

    def test_a_version_that_a_check_saved_which_can_not_be_read(self):
        """Where its object is not known it is a gap before all that may show it, in whatever order the files of taps have their names."""
        made, _ = joined(log((10, "a")), [logged(20, version="v"), logged(15, content={"version": "v"}, store_id="S", raw_request=None), logged(30)])
        self.assertEqual([(row["event"], row.get("reason"), row.get("lost")) for row in made[3:]], [
            ("gap", causes.UNREADABLE, 1), ("check", None, None), ("check", None, None), ("gap", "heard has no end, since its process runs or was killed", None)])

    def test_what_came_within_the_millisecond_that_is_cut(self):
        rows = log((10, "a"))
        rows[-2]["came"] = ["2024-01-01T00:00:15.0005Z", "2024-01-01T00:00:15.0006Z"]
        self.assertEqual(self.places(joined(rows, [logged(15)])[0]), [[0, 1]])

    def test_seconds_since_1970(self):
        seconds = nanoseconds(at(15)) / 1e9
        for stamp in seconds, int(seconds), seconds + 0.25, "2024-01-01T02:00:15.000+0200":
            made, _ = joined(log((10, "a")), [logged(0, timestamp=stamp)])
            self.assertEqual(self.places(made), [[1, 1]])
        for stamp in True, -1, 1e300, "2024-01-01T02:00:15.000+02":
            with self.assertRaises(JoinFault):
                joined(log((10, "a")), [logged(0, timestamp=stamp)])

    def test_calls_that_decide_several_things(self):
        batch = {"checks": [{"tuple_key": KEY, "correlation_id": "1"}, {"tuple_key": {**KEY, "user": "user:b"}, "correlation_id": "2"}]}
        made, _ = joined(log((10, "a")), [
            logged(15, batch, {"result": {"1": {"allowed": True}, "2": {"allowed": False}}}, "BatchCheck"),
            logged(16, {"type": "document", "relation": "viewer", "user": "user:a"}, {"objects": ["document:d", "document:e"]}, "ListObjects")])
        self.assertEqual([(row["goal"][1], row["goal"][4], row["reply"]) for row in made if row["event"] == "check"],
                         [("d", "a", True), ("d", "b", False), ("d", "a", True), ("e", "a", True)])

    def test_versions_that_somebody_adds_to_the_log(self):
        made, _ = joined(log((10, "a")), [logged(15, content={"version": "v"}), logged(16, version="v")])
        self.assertEqual([(row["event"], row.get("version")) for row in made if row["event"] in ("check", "content")], [("content", "v"), ("check", "v")])

    def test_a_content_check_without_a_version(self):
        """It has one exactly where it was allowed."""
        for response, content, wanted in (({}, {}, ("content", None)), ({}, {"version": "v"}, ("content", None)),
                                          (None, {}, ("unmapped", causes.CONTENT_ODD))):
            made, _ = joined(log((10, "a")), [logged(15, {"consistency": None}, response, content=content)])
            found = [row for row in made if row["event"] in ("check", "content", "unmapped")]
            self.assertEqual([(row["event"], row.get("reason") or row.get("version")) for row in found], [wanted])
        made, _ = joined(TOKENS, [payload(1, 5, ASKED, content={}), payload(1, 6, told(1, 1)),
                                  payload(2, 5, ASKED, content={}), payload(2, 6, told(1))])
        found = [row for row in made if row["event"] in ("check", "content", "unmapped")]
        self.assertEqual([(row["event"], row.get("token"), row.get("reason")) for row in found],
                         [("content", None, None), ("unmapped", None, causes.CONTENT_ODD)])

    def test_what_has_no_decision_is_counted(self):
        rows = [{"level": "info", "msg": "starting"}, logged(15), logged(15, method="Write"), logged(15, response={}, grpc_code=5, error="x"),
                logged(15, {"store_id": "T"}), tapped(12, 15, path="/stores/S/read"), tapped(12, 15, status="404"), tapped(12, 15, path="/stores/T/check")]
        made, passed = joined(log((10, "a")), rows)
        self.assertEqual(self.places(made), [[1, 1]])
        self.assertEqual(passed, Counter({overheard.OTHER: 2, overheard.FAILED: 2, overheard.OTHER_STORE: 2}))

    def test_a_response_without_its_call_is_counted(self):
        _, passed = joined(log((10, "a")), [{key: one for key, one in logged(15).items() if key not in ("raw_request", "grpc_method")}])
        self.assertEqual(passed, {overheard.OTHER: 1})

    def test_what_can_not_be_taken_is_counted(self):
        untold = logged(15, store_id="S")
        del untold["raw_request"], untold["raw_response"]
        content = logged(15, {"contextual_tuples": {"tuple_keys": [KEY]}}, content={"version": "v"})
        rows = [untold, content, logged(15, {"consistency": 7}), logged(15, content={"version": "v", "token": at(1)}), logged(15, response={"allowed": 3})]
        made, _ = joined(log((10, "a")), rows)
        self.assertEqual(self.places(made), [causes.UNREADABLE, causes.CONTEXTUAL, CONSISTENT, overheard.TOKEN, causes.UNREADABLE])
        self.assertEqual([row.get("version") for row in made if row["event"] == "unmapped"],
                         [None, ["document", "d", "v"], None, ["document", "d", "v"], None])

    def test_what_comes_behind_the_last_line_is_a_gap(self):
        made, _ = joined(log((10, "a")), [logged(15)])
        self.assertEqual([(row["reason"], row["to"]) for row in made if row["event"] == "gap"],
                         [("heard has no end, since its process runs or was killed", "2024-01-01T00:00:50.000000Z")])

    def test_taps(self):
        made, _ = joined(log((10, "a"), (20, "b")), [tapped(12, 15, x_content_save="v"), tapped(5, 15), tapped(12, 22, x_content_version="v")])
        self.assertEqual([(row["event"], row["newest_between"], row.get("version")) for row in made if row["event"] in ("check", "content")],
                         [("content", [1, 1], "v"), ("check", [0, 1], None), ("check", [1, 2], "v")])
        self.assertEqual(events(made)[2:5], [("write", 1), ("content", None), ("check", None)])

    def test_bodies_as_bytes_and_compressed(self):
        one = tapped(12, 15, response={"truncated": False, "as_bytes": base64.b64encode(gzip.compress(b'{"allowed":false}')).decode()},
                     answer=[("content-encoding", "gzip")])
        made, _ = joined(log((10, "a")), [one])
        self.assertEqual([row["reply"] for row in made if row["event"] == "check"], [False])

    def test_labels_by_their_bytes(self):
        """Envoy has those that are no UTF-8 as bytes; two that differ are two."""
        rows = [tapped(12, 15, x_content_save="v"), tapped(16, 18, x_content_version="v"), tapped(16, 18, x_content_version="v")]
        for row, label in zip(rows, (b"\xe0", b"\xe0", b"\xc5")):
            header = row["http_buffered_trace"]["request"]["headers"][-1]
            header["raw_value"] = base64.b64encode(label).decode()
            del header["value"]
        made, _ = joined(log((10, "a")), rows)
        save, shown, other = [row["version"] for row in made if row["event"] in ("check", "content")]
        self.assertTrue(save == shown != other, (save, shown, other))

    def test_a_field_that_the_call_does_not_have(self):
        """It must not turn a check into another call, which decided nothing."""
        asked = {"tuple_key": KEY, "checks": []}
        made, _ = joined(log((10, "a")), [tapped(12, 15, asked)])
        self.assertEqual(self.places(made), ["CheckRequest has a field that is not known (checks)"])

    def test_taps_that_can_not_be_taken_are_counted(self):
        twice = tapped(12, 15)
        twice["http_buffered_trace"]["request"]["headers"] += [{"key": "X-Content-Save", "value": "v"}] * 2
        rows = [tapped(12, 15, response={"truncated": True, "as_string": "{"}), tapped(12, 15, path="/stores/S/streamed-list-objects"), twice,
                tapped(12, 15, path="/openfga.v1.OpenFGAService/Check"), tapped(12, 15, x_content_token=at(1)), tapped(12, 15, {"truncated": False})]
        rows[3]["http_buffered_trace"]["request"]["headers"][2]["value"] = "application/grpc"
        made, _ = joined(log((10, "a")), rows)
        self.assertEqual(self.places(made), [overheard.CUT_SHORT, overheard.STREAMED, "X-Content-Save stands twice", overheard.OVER_GRPC, overheard.TOKEN,
                                             causes.UNREADABLE])
        self.assertEqual([row["version"] for row in made if row.get("reason", "").endswith("twice")], [["document", "d", "v"]])

    def test_what_is_refused(self):
        untimed = tapped(12, 15)
        del untimed["http_buffered_trace"]["response"]["headers_received_time"]
        raw = tapped(12, 15)
        raw["http_buffered_trace"]["request"]["headers"].append({"key": "x", "raw_value": "AAA"})
        for rows, told in (
                ([logged(15, verison="v")], 'heard:1: unknown key "verison"; is "version" meant?'),
                ([logged(15, timestamp=None)], "heard:1: the line has no `timestamp`, as seconds since 1970 or as a time of RFC 3339"),
                ([logged(15), logged(15, snapshot=1)], "heard:2: a line with `snapshot` has its place already; give the log to ne import openfga"),
                ([logged(15, {"store_id": None})], "heard:1: the line does not say of which store it is (`store_id`)"),
                ([logged(15, grpc_method=7)], "heard:1: `method` is no text"),
                ([{"a": 1}], "heard:1: no line of OpenFGA's log in JSON, and no tap of Envoy's tap filter (`http_buffered_trace`)"),
                ([logged(15, {"store_id": "T"})], "heard has checks of the store T alone, and the logs are of S"),
                ([{"http_streamed_trace_segment": {}}], "heard:1: a tap of the kind `http_streamed_trace_segment`; set `streaming: false` in the tap "
                 "filter of HTTP"),
                ([raw], "heard:1: a header of the tap has a `raw_value` that is no Base64"),
                ([untimed], "heard:1: the tap does not say when its headers came; set `record_headers_received_time: true` in the tap filter")):
            with self.subTest(told), self.assertRaises(JoinFault) as found:
                joined(log((10, "a")), rows)
            self.assertEqual(str(found.exception), told)


class Processes(OpenFga):
    def test_what_is_overheard_is_audited(self):
        """Stale replies that the service plants are found, and no other; half of the checks stand in taps, and half in OpenFGA's log."""
        self.start_service(MODEL, "0.3", "planted")
        self.prepare()
        recorder = self.started("log", "--changes-only")
        self.wait_for(lambda: self.of_kind("read") if "recording" in self.get("said") else False, lambda: self.get("said"))
        os.mkdir(self.path("taps"))
        heard, longest = [], [0]
        self.port = self.service_port

        def work(client, random, number, turn):
            user, thing = random.choice(USERS), random.choice(FIXED + EARLY)
            if turn % 7 == 0:
                self.write(client, key("user:n%d.%d" % (number, turn), "viewer", "document:x"))
            began = time.time_ns()
            reply = self.check(client, user, "viewer", thing)[1]["allowed"]
            ended = time.time_ns()
            asked = {"tuple_key": key(user, "viewer", thing), "consistency": "HIGHER_CONSISTENCY"}
            if turn % 2:
                one = tapped(0, 0, asked, {"allowed": reply}, path="/stores/%s/check" % STORE)
                for part, when in (("request", began), ("response", ended)):
                    one["http_buffered_trace"][part]["headers_received_time"] = text_of_time(when)
                self.put("taps/check_%d_%d.json" % (number, turn), json.dumps(one, indent=1))
            else:
                longest[0] = max(longest[0], ended - began)
                heard.append(logged(0, {**asked, "store_id": STORE}, {"allowed": reply}, timestamp=text_of_time(ended // 10 ** 6 * 10 ** 6)))
        self.run_clients(4, 40, work)
        self.put("openfga.log", [{"level": "info", "msg": "starting"}, *heard])
        # A check is placed where the changes were read beyond it.
        until = time.time_ns() + 30_000_000
        self.wait_for(lambda: nanoseconds(self.of_kind("read")[-1]["until"]) > until)
        self.end(recorder)
        run = self.run_process("join", "--skew", "20", "--took", str(longest[0] / 1e9 + 0.01), "--out", "all", "log", "openfga.log", "taps")
        self.assertEqual((run.returncode, run.stderr), (0, ""))
        self.import_log(folder="all")
        found, planted = self.found(), len(self.get("planted").splitlines())
        self.assertEqual(set.union(*found.values()), {"F10 wrong reply"})
        lost = len([row for row in self.of_kind("unmapped", "all") if "detail" in row])
        self.assertEqual(len(self.of_kind("check", "all")) + lost, 4 * 40)
        self.assertLessEqual(len(found), planted)
        self.assertGreater(len([row for row in self.of_kind("check", "all") if "taps/" in row["file"]]), 40)
        self.assertTrue(any("taps/" in place for place in found), found)

    def test_what_is_no_log_of_any_kind(self):
        self.put("odd", "[1]\n")
        run = self.run_process("join", "--out", "all", "odd")
        self.assertEqual((run.returncode, run.stderr), (2, "odd:1: no object of JSON\n"))
