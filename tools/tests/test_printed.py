"""What servers and their clients print: logs of OpenFGA and of SpiceDB, numbers for names, and JSON of protobuf without its defaults."""
import json

from new_enemy_tools.importing.feed import NO_SNAPSHOT
from new_enemy_tools.importing.printed import UNTOLD
from tests import test_openfga, test_spicedb
from tests.random_models import json_of
from tests.support import Case
from tests.test_openfga import MODEL, THIS, change
from tests.test_round_trips import token_text
from tests.test_spicedb import SCHEMA, VIEW, thing, update, watch

AT = "2024-01-01T00:00:%02dZ"


class OpenFga(Case):
    check = staticmethod(test_openfga.check)

    def words(self, *lines, model=MODEL % THIS):
        self.put("model.json", model)
        self.put("log", list(lines))
        return "openfga", "--model", "model.json", "--from-empty", "log"

    @staticmethod
    def printed(method, request, response=None, code=0, at=1714986000.5, **more):
        """A line of the server's log."""
        return {"level": "info", "timestamp": at, "msg": "grpc_req_complete", "grpc_service": "openfga.v1.OpenFGAService", "grpc_method": method,
                "grpc_type": "unary", "raw_request": request, **({} if response is None else {"raw_response": response}), "grpc_code": code, **more}

    def test_the_servers_log(self):
        key = {"user": "user:a", "relation": "viewer", "object": "doc:1"}
        start = [{"level": "info", "ts": 1.5, "msg": "starting openfga service..."}, {"level": "info", "msg": "gRPC server listening"}]
        log = (*start, self.printed("Write", {"store_id": "s", "writes": {"tuple_keys": [key]}}, {}),
               self.printed("Check", {"store_id": "s", "tuple_key": key, "consistency": "HIGHER_CONSISTENCY"}, {"allowed": True}, snapshot=1),
               self.printed("Check", {"store_id": "s", "tuple_key": {**key, "user": "user:b"}}, {}, snapshot=1, at="2024-05-06T09:00:01.5Z"),
               self.printed("Check", {"store_id": "s", "tuple_key": key}, code=2000, error="no type"), self.printed("ListStores", {}, {}))
        self.assertEqual(self.report(*log), "entries 2\nfindings 0\nverdict clean\n")
        self.assertEqual([line for line in self.said.splitlines() if line.startswith("passed")], [
            "passed over 1: failed request (2000)", "passed over 2: line of the service's own log", "passed over 1: other call (ListStores)"])

    def test_a_mistyped_key_among_those_of_the_server_is_refused(self):
        key = {"user": "user:a", "relation": "viewer", "object": "doc:1"}
        log = change("user:a"), self.printed("Check", {"tuple_key": key}, {"allowed": True}, snapshot=1, verison="v")
        self.assertEqual(self.refused(*self.words(*log)), ['log:2: unknown key "verison"; is "version" meant?'])
        log[1].pop("verison")
        log[1].update({"build.version": "1.8", "request_id": "x", "user_agent": "y", "store_id": "z", "trace_id": "t", "query_duration_ms": "1"})
        self.assertEqual(self.report(*log), "entries 1\nfindings 0\nverdict clean\n")

    def test_fields_that_are_not_known(self):
        """What a field means that is not named, as one that is mistyped, is not known: neither a reply nor a tuple is judged without it."""
        key, odd = {"user": "user:a", "relation": "viewer", "object": "doc:1"}, "not audited: a request with a field that is not known, first at log:2"
        request = {"store_id": "s", "tuple_key": key}
        for asked in ({**request, "consistnecy": "HIGHER_CONSISTENCY"}, {**request, "tuple_key": {**key, "zone": "x"}}):
            self.assertIn(odd, self.imported(*self.words(change("user:a"), self.printed("Check", asked, {"allowed": True}, snapshot=1))))
            self.forget()
        batch = {"store_id": "s", "checks": [{"tuple_key": key, "correlation_id": "1", "contextual_tupels": {"tuple_keys": [key]}}]}
        lines = change("user:a"), self.printed("BatchCheck", batch, {"result": {"1": {"allowed": True}}}, snapshot=1)
        self.assertIn(odd, self.imported(*self.words(*lines)))
        self.forget()
        # A field that is not set says nothing.
        self.assertEqual(self.report(change("user:a"), self.printed("Check", {**request, "later": ""}, {"allowed": True}, snapshot=1)),
                         "entries 1\nfindings 0\nverdict clean\n")
        self.forget()
        stored = change("user:a")
        stored["tuple_key"]["until"] = "2024-01-01T00:00:00Z"
        said = self.imported(*self.words(stored, self.printed("Check", request, {"allowed": True}, snapshot=1)))
        self.assertIn("left out 1: a tuple with a field that is not known, first at log:1", said)
        self.assertIn("checks: 0 whole, 1 not audited", said)

    def test_tuple_keys_that_are_no_list(self):
        log = self.printed("Write", {"store_id": "s", "writes": {"tuple_keys": 2}}, {}, at="2024-05-06T09:00:00Z")
        self.assertEqual(self.refused(*self.words(log)), ["log:1: `tuple_keys` is no list"])

    def test_a_log_of_two_stores_is_refused(self):
        """A check of one is not judged by the tuples of another. Calls that decide and write nothing may be of any."""
        key = {"user": "user:a", "relation": "viewer", "object": "doc:1"}
        log = [change("user:a"), *[self.printed("Check", {"store_id": store, "tuple_key": key}, {"allowed": True}, snapshot=1) for store in "aaba"]]
        self.assertEqual(self.refused(*self.words(*log)), ["log:4: this call is of the store b, and that of log:2 of the store a: give the lines of one store"])
        read = self.printed("GetStore", {"store_id": "b"}, {"id": "b"})
        self.assertEqual(self.report(log[0], read, log[1], log[2]), "entries 2\nfindings 0\nverdict clean\n")

    def test_calls_of_which_the_log_has_no_payload_are_counted(self):
        bare = [{key: one for key, one in self.printed(call, {}).items() if key != "raw_request"} for call in ("Check", "ListStores")]
        health = {**self.printed("Check", {}, {}), "grpc_service": "grpc.health.v1.Health"}
        self.assertEqual(self.struck(*self.words(change("user:a"), *bare, health)), ["log:2: check that can't be read: " + UNTOLD])
        self.assertIn("passed over 1: other call (Health)\npassed over 1: other call (ListStores)\n", self.imported(*self.words(
            change("user:a"), *bare, health)))

    def test_a_log_whose_checks_have_no_snapshot_says_what_would_do(self):
        key = {"user": "user:a", "relation": "viewer", "object": "doc:1"}
        self.assertEqual(self.struck(*self.words(change("user:a"), self.printed("Check", {"tuple_key": key}, {"allowed": True}))),
                         ["log:2: check that can't be read: " + NO_SNAPSHOT])
        self.assertIn("run `ne record`", NO_SNAPSHOT)

    def test_a_denial_without_allowed_is_audited(self):
        for response in {}, {"resolution": ""}, {"allowed": False}:
            denied = self.check("user:b") | {"response": response}
            self.assertEqual(self.report(change("user:a"), *[denied] * 5), "entries 5\nfindings 0\nverdict clean\n")
            self.assertIn("F10 wrong reply", self.report(change("user:a"), *[denied] * 5, self.check() | {"response": response}))
        self.assertEqual(self.struck(*self.words(change("user:a"), self.check() | {"response": {"allow": True}}, self.check() | {"response": []})), [
            "log:%d: check that can't be read: the response has no `allowed`" % line for line in (2, 3)])

    def test_a_denial_within_a_batch(self):
        checks = [{"correlation_id": user, "tuple_key": {"user": "user:" + user, "relation": "viewer", "object": "doc:1"}} for user in "ab"]
        batch = {"request": {"checks": checks}, "response": {"result": {"a": {"allowed": True}, "b": {}}}, "snapshot": 1}
        self.assertEqual(self.report(change("user:a"), batch), "entries 2\nfindings 0\nverdict clean\n")

    def test_an_odd_answer_within_a_batch_costs_no_other(self):
        checks = [{"correlation_id": user, "tuple_key": {"user": "user:" + user, "relation": "viewer", "object": "doc:1"}} for user in "abc"]
        batch = {"request": {"checks": checks}, "response": {"result": {"a": {"allowed": True}, "b": {"allowed": "yes"}}}, "snapshot": 1}
        self.assertEqual(self.struck(*self.words(change("user:a"), batch)), [
            "log:2: check that can't be read: doc:1#viewer@user:%s" % user for user in "bc"])
        self.assertEqual(self.audited(), "entries 1\nfindings 0\nverdict clean\n")

    def test_a_write_without_its_operation_and_with_its_number(self):
        bare = {key: value for key, value in change("user:a").items() if key != "operation"}
        gone = {**bare, "operation": 1, "timestamp": AT % 3}
        self.assertEqual(self.report(bare, {"changes": [{**bare, "operation": 0, "tuple_key": {**bare["tuple_key"], "user": "user:b"}}]},
                                     self.check(at=1), gone, self.check(at=3, allowed=False), self.check("user:b", at=3)),
                         "entries 3\nfindings 0\nverdict clean\n")
        self.forget()
        self.assertEqual(self.refused(*self.words({**bare, "operation": ""}, {**bare, "operation": 2}, {**bare, "operation": True})), [
            "log:1: unknown operation ''", "log:2: unknown operation 2", "log:3: unknown operation True"])

    def test_lists_that_are_streamed_or_empty(self):
        asked = {"type": "doc", "relation": "viewer", "user": "user:a"}
        one, two = {"result": {"object": "doc:1"}}, {"object": "doc:2"}
        lines = [{"request": asked, "response": response, "snapshot": 2} for response in ([one, two], one, two, {"objects": ["doc:1"]}, {}, [])]
        lines.append({"request": {"object": {"type": "doc", "id": "1"}, "relation": "viewer", "user_filters": [{"type": "user"}]}, "response": {},
                      "snapshot": 2})
        self.assertEqual(self.report(change("user:a"), change("user:a", thing="doc:2"), *lines), "entries 5\nfindings 0\nverdict clean\n")
        self.assertIn("passed over 3: call that found nothing\n", self.said)

    def test_each_answer_of_a_stream_in_a_line_of_the_servers_log(self):
        """The server prints each under the same key, and no such key where it found nothing."""
        asked = {"store_id": "s", "type": "doc", "relation": "viewer", "user": "user:a"}
        line = json.dumps(self.printed("StreamedListObjects", asked, {"object": "doc:1"}, snapshot=2))
        two = line.replace('"raw_response"', '"raw_response": {"object": "doc:2"}, "raw_response"')
        none = self.printed("StreamedListObjects", asked, snapshot=2)
        words, head = self.words(), [json.dumps(one) for one in (change("user:a"), change("user:a", thing="doc:2", at=AT % 2), none)]
        def put(*lines):
            self.put("log", "\n".join((*head, *lines)))
        put(two, line)
        self.assertIn("passed over 1: call that found nothing\n", self.imported(*words))
        self.assertEqual(self.audited(), "entries 3\nfindings 0\nverdict clean\n")
        put(line, two.replace("doc:2", "doc:3"))
        self.imported(*words)
        self.assertEqual(self.audited().count("F10 wrong reply"), 1)
        self.forget()
        put(two.replace('"level"', '"level": "info", "level"'))
        self.assertEqual(self.refused(*words), ["log:4: the key 'level' stands twice"])

    def test_the_model_that_the_server_took_for_a_request_that_names_none(self):
        key = {"user": "user:a", "relation": "viewer", "object": "doc:1"}
        lines = [self.printed("Check", request, {"allowed": True}, snapshot=1, authorization_model_id=taken) for request, taken in (
            ({"tuple_key": key}, "M"), ({"tuple_key": key, "authorization_model_id": ""}, "M"), ({"tuple_key": key}, "N"))]
        log = change("user:a"), *lines[:2] * 4, lines[2], lines[0]
        self.assertEqual(self.struck(*self.words(*log)), ["log:10: check with another model: doc:1#viewer@user:a"])
        self.assertEqual(self.audited(), "entries 9\nfindings 0\nverdict clean\n")

    def test_an_answer_of_all_models(self):
        old, new = (json_of({"doc": {"viewer": (users, ("this",))}}, name) for users, name in ((["user", "user:*"], "old"), (["user"], "new")))
        checks = [self.check(at=1, allowed=allowed, request={"authorization_model_id": name}) for allowed, name in ((True, "old"), (False, "new"))]
        both = {"authorization_models": [new, old], "continuation_token": ""}
        self.assertEqual(self.report(change("user:*"), *checks, model=json.dumps(both)), "entries 2\nfindings 0\nverdict clean\n")
        self.assertEqual(self.struck(*self.words(change("user:*"), self.check(at=1), model=json.dumps(both))),
                         ["log:2: check without one snapshot: the model changes at its place, and the request does not say which it is of"])
        read = {"request": {}, "response": both}
        self.assertEqual(self.report(change("user:*"), read, *checks, self.check(at=1), model=json.dumps(old)),
                         "entries 3\nfindings 0\nverdict clean\n")
        self.assertIn("passed over 1: other call (ReadAuthorizationModels)\n", self.said)

    def test_a_model_that_was_read_and_that_no_check_is_of_refuses_nothing(self):
        odd = json_of({"doc": {"viewer": (["user"], ("this",))}}, "odd")
        odd["schema_version"] = "1.0"
        log = change("user:a"), {"request": {}, "response": {"authorization_models": [odd]}}, self.check()
        self.assertEqual(self.report(*log), "entries 1\nfindings 0\nverdict clean\n")

    def test_a_condition_that_no_relation_takes(self):
        model = json.loads(MODEL % THIS) | {"conditions": {"c": {"name": "c", "expression": "true"}}}
        self.assertEqual(self.report(change("user:a"), self.check(), model=json.dumps(model)), "entries 1\nfindings 0\nverdict clean\n")

    def test_a_byte_order_mark(self):
        self.words()
        for name, content in ("model.json", MODEL % THIS), ("log", json.dumps(change("user:a")) + "\n" + json.dumps(self.check()) + "\n"):
            self.put(name, b"\xef\xbb\xbf" + content.encode())
        self.imported("openfga", "--model", "model.json", "--from-empty", "log")
        self.assertEqual(self.audited(), "entries 1\nfindings 0\nverdict clean\n")


class OfOtherCommands(Case):
    def test_what_another_command_reads_is_told_so(self):
        """Envoy's taps, and what applications say of their checks."""
        self.put("schema.zed", SCHEMA % VIEW)
        hint = "; give it to `ne join`, beside a log of `ne record --changes-only`"
        for line, words, said in (({"event": "own", "format": 1}, ("events",), "`event` is none of rules, write, check, content"),
                                  ({"http_buffered_trace": {"request": {}}}, ("spicedb", "--schema", "schema.zed"),
                                   "neither a response of Watch nor a check with its `request`")):
            self.put("log", [line])
            self.assertEqual(self.refused(*words, "--from-empty", "log"), ["log:1: %s%s" % (said, hint)])


    def test_spans_are_refused(self):
        """Whatever their status says, they are no call that failed."""
        self.put("schema.zed", SCHEMA % VIEW)
        for line in ({"resourceSpans": [{"scopeSpans": [{"spans": [{"name": "Check"}]}]}]}, {"name": "Check", "traceId": "1", "status": {"code": 2}},
                     {"name": "Check", "traceId": "1", "status": {"code": "Error"}, "attributes": {"allowed": True}}):
            self.put("log", [line])
            self.assertEqual(self.refused("spicedb", "--schema", "schema.zed", "--from-empty", "log"), [
                "log:1: neither a response of Watch nor a check with its `request`"])


class SpiceDb(Case):
    def words(self, *lines, schema=SCHEMA % VIEW):
        self.put("schema.zed", schema)
        self.put("log", list(lines))
        return "spicedb", "--schema", "schema.zed", "--from-empty", "log"

    check = staticmethod(test_spicedb.check)

    @staticmethod
    def printed(call, request_id, message, kind="unary", service="PermissionsService", **more):
        """A line of the server's log."""
        return {"level": "info", "protocol": "grpc", "grpc.component": "server", "grpc.service": "authzed.api.v1." + service,
                "grpc.method": call, "grpc.method_type": kind, "requestID": request_id, "time": AT % 1, "message": message, **more}

    def asked(self, call, request_id, request, response, **more):
        content = {"grpc.request.content": request}, {"grpc.response.content": response}
        return [self.printed(call, request_id, text, **one, **more) for text, one in zip(("request received", "response sent"), content)]

    @staticmethod
    def thing(text):
        return dict(zip(("object_type", "object_id"), text.split(":")))

    def checked(self, request_id, user, permissionship, at, consistency=None, **more):
        request = {"consistency": {"Requirement": consistency or {"MinimizeLatency": True}}, "resource": self.thing("doc:1"), "permission": "view",
                   "subject": {"object": self.thing(user)}}
        response = {"checked_at": {"token": token_text(at)}, "permissionship": permissionship}
        return self.asked("CheckPermission", request_id, request, response, **more)

    def test_requests_and_responses_are_joined(self):
        update = {"operation": 2, "relationship": {"resource": self.thing("doc:1"), "relation": "viewer", "subject": {"object": self.thing("user:a")}}}
        written = self.asked("WriteRelationships", "w", {"updates": [update]}, {"written_at": {"token": token_text(1)}})
        first, second = self.checked("1", "user:a", 2, 1, {"FullyConsistent": True}), self.checked("2", "user:b", 1, 1)
        found = {"Response": {"Item": {"permissionship": 2}}}
        bulk = self.asked("CheckBulkPermissions", "b", {"items": [{}]}, {"checked_at": {"token": token_text(1)}, "pairs": [
            {"request": {"resource": self.thing("doc:1"), "permission": "view", "subject": {"object": self.thing("user:a")}}, **found}]})
        looked = {"resource_object_type": "doc", "permission": "view", "subject": {"object": self.thing("user:a")}}
        stream = self.asked("LookupResources", "l", looked, {"looked_up_at": {"token": token_text(1)}, "resource_object_id": "1", "permissionship": 1},
                            kind="server_stream")
        ended = self.printed("LookupResources", "l", "finished call", **{"grpc.code": "OK"})
        failed = self.checked("3", "user:a", 2, 1)[0], self.printed("CheckPermission", "3", "finished call", **{"grpc.code": "Unavailable"})
        start = {"level": "info", "time": AT % 0, "message": "configured logging"}
        log = (start, *written, first[0], second[0], second[1], first[1], *bulk, *stream, stream[1], ended, *failed)
        self.assertEqual(self.report(*log), "entries 5\nfindings 0\nverdict clean\n")
        self.assertEqual([line for line in self.said.splitlines() if line.startswith("passed")], [
            "passed over 1: failed request (Unavailable)", "passed over 1: line of the service's own log"])
        self.assertIn("F10 wrong reply", self.report(*log, *self.checked("4", "user:b", 2, 1)))

    def test_fields_that_are_not_known(self):
        ask, reply = self.checked("1", "user:a", 2, 1)
        for holder in (ask["grpc.request.content"], ask["grpc.request.content"]["subject"]["object"], ask["grpc.request.content"]["consistency"]):
            holder["later"] = 1
            said = self.imported(*self.words(watch(1, update("user:a")), ask, reply))
            self.assertIn("checks: 0 whole, 1 not audited", said)
            self.forget()
            holder["later"] = 0
        self.assertIn("checks 1, ", self.imported(*self.words(watch(1, update("user:a")), ask, reply)))
        self.forget()
        stored = update("user:a")
        stored["relationship"]["optionalBudget"] = 3
        said = self.imported(*self.words(watch(1, stored), ask, reply))
        self.assertIn("left out 1: a tuple with a field that is not known, first at log:1", said)
        self.assertIn("checks: 0 whole, 1 not audited", said)

    def test_what_has_no_other_half_is_told(self):
        first, second = self.checked("1", "user:a", 2, 1), self.checked("2", "user:a", 2, 1)
        bare = {key: value for key, value in first[0].items() if key != "requestID"}
        self.assertEqual(self.struck(*self.words(watch(1, update("user:a")), first[1], second[0], bare)), [
            "log:2: check that can't be read: the log has no request of the response with the `requestID` 1",
            "log:3: check that can't be read: the log has no response of this request",
            "log:4: check that can't be read: the line has no `requestID`, which joins a request and its response"])

    def test_calls_of_one_id_that_are_under_way_at_once_are_not_told_apart(self):
        """A client may choose the ids of its requests."""
        (one, answer), (other, denial) = self.checked("1", "user:a", 2, 1), self.checked("1", "user:b", 1, 1)
        ended = self.printed("CheckPermission", "1", "finished call", **{"grpc.code": "OK"})
        first, last = watch(1, update("user:a")), self.checked("2", "user:b", 1, 1)
        told = "several calls with the `requestID` 1 were under way at once, and it is not known which this response is of"
        self.assertEqual(self.struck(*self.words(first, one, other, denial, ended, answer, ended, *last)),
                         ["log:%d: check that can't be read: %s" % (line, told) for line in (4, 6)])
        self.assertEqual(self.audited(), "entries 1\nfindings 0\nverdict clean\n")
        self.assertEqual(self.struck(*self.words(first, one, other, denial, *last)), [
            "log:3: check that can't be read: the log has no response of this request", "log:4: check that can't be read: " + told])
        self.assertEqual(self.struck(*self.words(first, one, answer, ended, other, denial, ended)), [])

    def test_half_of_a_call_that_wrote_is_refused(self):
        update = {"operation": 2, "relationship": {"resource": self.thing("doc:1"), "relation": "viewer", "subject": {"object": self.thing("user:a")}}}
        calls = [self.asked(call, "w", request, {"written_at": {"token": token_text(1)}}) for call, request in (
            ("WriteRelationships", {"updates": [update]}), ("WriteSchema", {"schema": SCHEMA % VIEW}))]
        for half, told in enumerate(("the log has no response of this request", "the log has no request of the response with the `requestID` w")):
            self.assertEqual(self.refused(*self.words(calls[1][half], *self.checked("1", "user:a", 1, 2))), ["log:1: " + told])
            found, = self.refused(*self.words(calls[0][half], *self.checked("1", "user:a", 2, 2)))
            self.assertTrue(found.startswith("log:1: this WriteRelationships wrote, and no line of the log says all of what: give the watch stream"), found)

    def test_calls_of_which_the_log_has_no_payload_are_counted(self):
        def ended(call, request_id, **more):
            return self.printed(call, request_id, "finished call", **{"grpc.code": "OK", **more})
        nothing = self.asked("LookupResources", "l", {"resource_object_type": "doc", "permission": "view", "subject": {"object": self.thing("user:a")}},
                             {}, kind="server_stream")[0]
        log = (watch(1, update("user:a")), ended("CheckPermission", "1"), ended("CheckPermission", "2", **{"grpc.code": "Unknown"}),
               ended("ReadSchema", "3"), ended("Check", "4", **{"grpc.service": "grpc.health.v1.Health"}), nothing, ended("LookupResources", "l"),
               *self.checked("5", "user:a", 2, 1), ended("CheckPermission", "5"))
        self.assertEqual(self.struck(*self.words(*log)), ["log:2: check that can't be read: " + UNTOLD])
        self.assertEqual(self.report(*log), "entries 1\nfindings 0\nverdict clean\n")
        self.assertEqual([line for line in self.said.splitlines() if line.startswith("passed")], [
            "passed over 1: call that found nothing", "passed over 1: failed request (Unknown)", "passed over 1: other call (Health)",
            "passed over 1: other call (ReadSchema)"])

    def shown(self, request_id, line, **added):
        """The lines of a check of one who may no longer view, with these keys on one of them."""
        lines = self.checked(request_id, "user:a", 2, 1)
        lines[line] |= added
        return lines

    def test_keys_of_a_recorder_on_either_line(self):
        """A version that is not read would be a check whose old token is not looked for."""
        log = [watch(1, update("user:a")), *self.shown("1", 1, content={"version": "v", "token": token_text(1)}),
               watch(2, update("user:a", operation="DELETE"))]
        for line in 0, 1:
            self.assertIn("F2 old token", self.report(*log, *self.shown("2", line, version="v")))
            self.forget()
        log[1:3] = self.shown("1", 0, content={"version": "v", "token": token_text(1)})
        self.assertIn("F2 old token", self.report(*log, *self.shown("2", 0, version="v")))
        self.forget()
        both = self.shown("2", 0, version="v")
        both[1] |= {"version": "w"}
        self.assertEqual(self.struck(*self.words(*log, *both)), [
            "log:6: check that can't be read: the lines of the request and of the response have each a `version`, and they are not the same"])
        both[1] |= {"version": "v"}
        self.assertIn("F2 old token", self.report(*log, *both))

    def test_a_mistyped_key_among_those_of_the_server_is_refused(self):
        log = [watch(1, update("user:a")), *self.shown("1", 1, content={"version": "v", "token": token_text(1)})]
        for line, key in (0, "verison"), (1, "verison"), (1, "Version"), (1, "vesion"), (1, "verssion"), (0, "versionn"):
            self.assertEqual(self.refused(*self.words(*log, *self.shown("2", line, **{key: "v"}))), [
                'log:%d: unknown key "%s"; is "version" meant?' % (4 + line, key)])
        self.assertIn("clean", self.report(*log, *self.shown("2", 1, **{"build.version": "1", "specversion": "1", "versions": 1, "context": {}})))

    def test_keys_of_a_recorder_in_an_event(self):
        """They stand beside the request and the response, or beside the `data`."""
        def event(check, **more):
            return {"specversion": "1.0", "id": "1", "source": "/ps/one", "type": "/authzed.api.v1.PermissionsService/CheckPermission",
                    "time": AT % 1, "data": check, **more}
        saves = {"content": {"version": "v", "token": token_text(1)}}
        for within in True, False:
            def told(**added):
                return event(self.check(1) | added) if within else event(self.check(1), **added)
            log = [watch(1, update("user:a")), told(**saves), watch(2, update("user:a", operation="DELETE"))]
            self.assertIn("F2 old token", self.report(*log, told(version="v")))
            self.forget()
            self.assertEqual(self.refused(*self.words(*log, told(verison="v"))), ['log:4: unknown key "verison"; is "version" meant?'])
        self.assertEqual(self.struck(*self.words(*log, event(self.check(1) | {"version": "v"}, version="w"))), [
            "log:4: check that can't be read: the event and its `data` have each a `version`, and they are not the same"])
        self.forget()
        more = event(self.check(1) | {"context": {}, "contents": 1}, sequence="1", sequencetype="Integer", schemaversion="2", apiversion="1", traceparent="x")
        self.assertIn("clean", self.report(watch(1, update("user:a")), more))

    def test_names_as_numbers(self):
        one = update("user:a")
        log = watch(1, {**one, "operation": 1}), self.check(1) | {"response": {"checkedAt": {"token": token_text(1)}, "permissionship": 2}}
        denied = self.check(2) | {"response": {"checkedAt": {"token": token_text(2)}, "permissionship": 1}}
        self.assertEqual(self.report(*log, watch(2, {**one, "operation": 3}), denied), "entries 2\nfindings 0\nverdict clean\n")
        lookup = {"request": {"resourceObjectType": "doc", "permission": "view", "subject": {"object": thing("user:a")}},
                  "response": {"lookedUpAt": {"token": token_text(1)}, "resourceObjectId": "1", "permissionship": 1}}
        self.assertEqual(self.report(*log, lookup), "entries 2\nfindings 0\nverdict clean\n")
        self.assertIn("F10 wrong reply", self.report(*log, watch(2, {**one, "operation": 3.0}), self.check(2)))
        for number in 0, 3, 4, True:
            odd = self.check(1) | {"response": {"checkedAt": {"token": token_text(1)}, "permissionship": number}}
            self.assertEqual(len(self.struck(*self.words(*log, odd))), 1)

    def test_an_odd_answer_of_many_costs_no_other(self):
        pairs = [{"request": {"resource": thing("doc:1"), "permission": "view", "subject": {"object": thing("user:" + user)}}, "item": item}
                 for user, item in (("a", {"permissionship": 2}), ("b", {}), ("c", {"permissionship": 1}))]
        many = {"request": {"items": [{}] * 3}, "response": {"checkedAt": {"token": token_text(1)}, "pairs": pairs}}
        self.assertEqual(self.struck(*self.words(watch(1, update("user:a")), many)), ["log:2: check that can't be read: doc:1#view@user:b"])
        self.assertEqual(self.audited(), "entries 2\nfindings 0\nverdict clean\n")

    def test_a_caveat_that_no_relation_takes(self):
        schema = "caveat tuesday(day string) {\n  day == \"tuesday\"\n}\n" + SCHEMA % VIEW
        self.assertEqual(self.report(watch(1, update("user:a")), self.check(1), schema=schema), "entries 1\nfindings 0\nverdict clean\n")

    def test_tokens_without_their_padding(self):
        log = json.dumps([watch(10, update("user:a")), self.check(10), self.check(100)])
        self.assertIn('="', log)
        self.assertEqual(self.report(*json.loads(log.replace('=="', '"').replace('="', '"'))), "entries 2\nfindings 0\nverdict clean\n")

    def test_a_response_without_its_snapshot_says_what_would_do(self):
        self.assertEqual(self.struck(*self.words(watch(1, update("user:a")), self.check() | {"response": {"permissionship": 2}})), [
            "log:2: check that can't be read: the response has no `checkedAt`, which says the state that was looked at: run `ne record`, or log whole responses"])

    def test_wildcards_that_a_lookup_finds_are_told(self):
        found = {"request": {"resource": thing("doc:1"), "permission": "view", "subjectObjectType": "user"}, "response": {
            "lookedUpAt": {"token": token_text(1)}, "subject": {"subjectObjectId": "*", "permissionship": 1}}}
        said = self.imported(*self.words(watch(1, update("user:a")), found, self.check(1)))
        self.assertIn("check of a wildcard as the user", said)
        self.assertEqual(self.audited(), "entries 1\nfindings 0\nverdict clean\n")
