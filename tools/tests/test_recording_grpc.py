"""tools/record in front of a stand-in of SpiceDB over gRPC; by a Python that has grpcio, where there is one."""
import asyncio
import importlib
import json
import os
import shutil
import signal
import ssl
import subprocess
import sys
import unittest
from random import Random
from types import ModuleType, SimpleNamespace
from unittest import mock

from new_enemy_tools.importing.reading import Bad
from new_enemy_tools.recording.grpc_calls import CALLS, GRPC, answered, asked, joined, may_decide
from new_enemy_tools.recording.messages import UNKNOWN_CALL, Ended
from new_enemy_tools.recording.openfga import NOT_NAMED
from new_enemy_tools.recording import openfga_messages, spicedb_messages
from new_enemy_tools.recording.protobuf import Malformed
from tests import test_recording_openfga as over_http
from tests.installed import python_with
from tests.recorded import Recorded, counted
from tests.support import TOOLS, Case
from tests.stand_in_openfga import OTHER, STORE
from tests.test_recording_spicedb import CLIENTS, FINDINGS, REQUESTS

OPENFGA, SPICEDB = openfga_messages.MESSAGES, spicedb_messages.MESSAGES


PYTHON = python_with("grpc", "google.protobuf")


def use_grpc(case):
    case.PYTHON = PYTHON
    if not PYTHON:
        case.skipTest("no Python here has grpcio and protobuf (python3-grpcio, python3-protobuf)")


class Grpc(Recorded):
    SERVICE, STAND_IN = "spicedb", "stand_in_grpc.py spicedb"

    def setUp(self):
        super().setUp()
        use_grpc(self)

    def clients(self, *words):
        run = subprocess.run([self.PYTHON, os.path.join(TOOLS, "tests", "spicedb_grpc_clients.py"), str(self.port), *map(str, words)],
                             capture_output=True, text=True, timeout=600)
        self.assertEqual((run.returncode, run.stderr), (0, ""))
        return run.stdout

    def run_load(self, *words):
        self.start_service(*words)
        recorder = self.start_recorder("--grpc", "--hold", "600")
        self.clients(CLIENTS, REQUESTS)
        self.end(recorder)
        return self.import_log()

    def test_nothing_planted(self):
        said = self.run_load()
        self.assertNotIn("gap", said)
        self.assertEqual(self.found(), {}, self.said_of_audit)
        self.assertGreater(len(self.of_kind("check")) + len(self.of_kind("content")), CLIENTS * REQUESTS * 0.7)
        self.assertGreater(len(self.of_kind("content")), 60)
        self.assertGreater(sum("version" in row for row in self.of_kind("check")), 150)

    def test_planted_faults(self):
        self.run_load("0.1", "planted")
        planted = [json.loads(line) for line in self.get("planted").splitlines()]
        found = []
        for place, kinds in self.found().items():
            row = self.row_at(place)
            found += [[kind, [row["goal"][1], row["goal"][2], row["goal"][4]]] for kind in kinds]
        expected = [[FINDINGS.get(kind, "F3 not latest" if goal[1] == "edit" else "F1 stale"), goal] for kind, goal in planted]
        self.assertEqual(counted(found), counted(expected))
        self.assertEqual({kind for kind, _ in found}, {"F10 wrong reply", "F1 stale", "F3 not latest"})

    def test_what_passes_unchanged(self):
        self.start_service()
        recorder = self.start_recorder("--grpc")
        through = self.clients()
        self.port = self.service_port
        self.assertEqual(through, self.clients())
        self.assertIn("'FAILED_PRECONDITION', 'refused as asked', 'asked for', 20000", through)
        self.end(recorder)


    @unittest.skipUnless(shutil.which("openssl"), "there is no openssl")
    def test_tls_on_both_sides(self):
        """A recorder with TLS to its clients stands for a service with TLS; a new certificate is shown after SIGHUP."""
        self.start_service()
        plain = self.service_port
        for name in ("first", "second"):
            self.certificate(name)
        first = self.start_recorder("--grpc", "--tls-cert", self.path("first.pem"), "--tls-key", self.path("first.key"), folder="one", said="one.said")
        self.service_port = self.port
        second = self.start_recorder("--grpc", "--service-ca", self.path("first.pem"), "--tls-cert", self.path("second.pem"), "--tls-key",
                                     self.path("second.key"), scheme="https")
        through = self.clients(self.path("second.pem"))
        self.certificate("second")
        second.send_signal(signal.SIGHUP)
        self.wait_for(lambda: ssl.get_server_certificate(("127.0.0.1", self.port)).split() == self.get("second.pem").split())
        self.assertEqual(self.clients(self.path("second.pem")), through)
        self.port = plain
        self.assertEqual(self.clients(), through)
        for recorder in (second, first):
            self.end(recorder)
        self.assertEqual([len(self.of_kind("check", folder)) for folder in ("one", "log")], [2, 2])


class Cut(Case):
    """The relay's own steps, without the library: what it tells of a call that ends in the middle."""

    def setUp(self):
        super().setUp()
        library = ModuleType("grpc")
        library.GenericRpcHandler = object
        library.aio = ModuleType("grpc.aio")
        given = {"grpc": library, "grpc.aio": library.aio}
        with mock.patch.dict(sys.modules, given):
            sys.modules.pop("new_enemy_tools.recording.grpc_relay", None)
            self.module = importlib.import_module("new_enemy_tools.recording.grpc_relay")

    def told(self, responses, fault, is_stopping):
        """What is told of a list that gets so many responses and then a fault."""
        told = []
        teller = SimpleNamespace(tell=told.append)
        relay = self.module.GrpcRelay(None, teller)
        relay.stopping = is_stopping or None

        async def passed(method, requests, context, metadata, kept):
            teller.tell(kept.started())
            for _ in range(responses):
                kept.take(kept.responses, b"x")
            raise fault
        relay._passed = passed
        path = next(path for path, call in CALLS.items() if call.kind == "stream")
        with self.assertRaises(type(fault)):
            asyncio.run(relay.pass_on(path, None, SimpleNamespace(invocation_metadata=lambda: ())))
        self.assertEqual((told[0].call, relay.under_way), ("stream", 0))
        return [(one.status, one.response) for one in told[1:]]

    def test_when_a_check_begins(self):
        """When its message has come, and not with its head."""
        told, seen = [], []
        relay = self.module.GrpcRelay(None, SimpleNamespace(tell=told.append))

        class Call:
            def __init__(self, requests, **words):
                self.requests = requests

            async def initial_metadata(self):
                return ()

            async def __aiter__(self):
                async for data in self.requests:
                    seen.append((data, [type(one).__name__ for one in told]))
                    yield b"answer"

            def done(self):
                return True

            async def code(self):
                return "OK"
            details = trailing_metadata = code

        async def requests():
            seen.append((None, list(told)))
            yield b"request"

        async def nothing(*words):
            pass
        relay.channel = SimpleNamespace(stream_stream=lambda method: Call)
        self.module.grpc.StatusCode = SimpleNamespace(OK="OK")
        self.module.grpc.aio.AioRpcError = OSError
        context = SimpleNamespace(invocation_metadata=lambda: (("x-content-save", "a"), ("x-content-save", "b")), time_remaining=lambda: None,
                                  send_initial_metadata=nothing, write=nothing, set_trailing_metadata=lambda one: None,
                                  set_details=lambda one: None, set_code=lambda one: None)
        asyncio.run(relay.pass_on(next(path for path, call in CALLS.items() if call.kind == "check"), requests(), context))
        self.assertEqual(seen, [(None, []), (b"request", ["Started"])])
        self.assertEqual((told[1].status, told[1].strange), (200, "X-Content-Save stands twice"))

    def test_what_metadata_goes_on(self):
        """All but what gRPC itself says of a connection, and not less for what begins alike."""
        passed = []
        relay = self.module.GrpcRelay(None, SimpleNamespace(tell=passed.append))

        async def keep(method, requests, context, metadata, kept):
            passed.append(metadata)
            return True
        relay._passed = keep
        given = [("te", "trailers"), ("tenant-id", "t"), ("user-agent", "a"), ("user-agent-of", "b"), ("content-type", "c"), ("grpc-timeout", "1S")]
        asyncio.run(relay.pass_on("/other", None, SimpleNamespace(invocation_metadata=lambda: given)))
        self.assertEqual(passed, [[("tenant-id", "t"), ("user-agent-of", "b")]])

    def test_a_call_that_is_not_known(self):
        """It is counted where it ended well."""
        lost, ends = [], [True, False]
        relay = self.module.GrpcRelay(None, SimpleNamespace(lose=lost.append))

        async def passed(*words):
            return ends.pop()
        relay._passed = passed
        for _ in range(2):
            asyncio.run(relay.pass_on("/openfga.v1.OpenFGAService/Evaluate", None, SimpleNamespace(invocation_metadata=lambda: ())))
        self.assertEqual(lost, [UNKNOWN_CALL])

    def test_by_its_client(self):
        self.assertEqual(self.told(0, asyncio.CancelledError(), False), [(0, None)])
        self.assertEqual(self.told(2, asyncio.CancelledError(), False), [(200, None)])

    def test_by_the_end_of_the_recorder(self):
        for fault in asyncio.CancelledError(), RuntimeError():
            for responses in 0, 2:
                self.assertEqual(self.told(responses, fault, True), [])


class Without(Case):
    def test_the_package_is_named(self):
        """A Python without grpcio says which package is missing."""
        self.put("grpc.py", "raise ImportError\n")
        words = ["--spicedb", "http://127.0.0.1:1", "--grpc", "--listen", "127.0.0.1:0", "--out", "log"]
        run = subprocess.run([sys.executable, os.path.join(TOOLS, "record"), *words], cwd=self.room, capture_output=True, text=True,
                             timeout=120, env={**os.environ, "PYTHONPATH": self.room})
        self.assertEqual(run.returncode, 3)
        self.assertEqual(run.stderr, "record: --grpc needs grpcio, in Debian the package python3-grpcio, for this Python (%s)\n" % sys.executable)


class OpenFgaClient:
    """Asks over gRPC, by a process, what a client over HTTP would ask."""

    def __init__(self, port, key=None):
        words = [PYTHON, os.path.join(TOOLS, "tests", "openfga_grpc_client.py"), str(port)]
        self.process = subprocess.Popen(words, text=True, stdin=subprocess.PIPE, stdout=subprocess.PIPE)

    def ask(self, path, body, **headers):
        _, _, store, call = path.split("/")
        metadata = [(name.replace("_", "-").lower(), value) for name, value in headers.items()]
        name = "".join(one.title() for one in call.split("-"))
        self.process.stdin.write(json.dumps([name, {"store_id": store, **body}, metadata]) + "\n")
        self.process.stdin.flush()
        return json.loads(self.process.stdout.readline())

    def close(self):
        self.process.stdin.close()
        self.process.wait()
        self.process.stdout.close()


class OpenFgaOverGrpc(over_http.Load):
    """What the tests over HTTP show of a thousand requests, over gRPC."""

    STAND_IN, CLIENT = "stand_in_grpc.py openfga", OpenFgaClient

    def setUp(self):
        super().setUp()
        use_grpc(self)

    def start_recorder(self, *words, **more):
        return super().start_recorder("--grpc", *words, **more)

    def test_calls_that_are_not_taken(self):
        """Checks of other stores, contextual tuples and a consistency that is not known are told, and a list is its checks."""
        self.start_service(over_http.MODEL)
        recorder = self.start_recorder("--store", STORE)
        client = OpenFgaClient(self.port)
        self.write(client, over_http.key("user:u1", "viewer", "document:d1"), over_http.key("user:u1", "viewer", "document:d2"))
        goal = over_http.key("user:u1", "viewer", "document:d1")
        self.assertEqual(client.ask("/stores/%s/check" % OTHER, {"tuple_key": goal})[0], 200)
        self.call(client, "check", {"tuple_key": goal, "contextual_tuples": {"tuple_keys": [goal]}})
        self.call(client, "check", {"tuple_key": goal, "consistency": 150})
        self.assertEqual(self.call(client, "streamed-list-objects", {"type": "document", "relation": "viewer", "user": "user:u1",
                                                                    "consistency": 200})[1], ["document:d1", "document:d2"])
        self.wait_for(lambda: len(self.of_kind("check")) == 2 and self.lost() == 2)
        client.close()
        self.end(recorder)
        self.assertEqual([row["goal"][1] for row in self.of_kind("check")], ["d1", "d2"])
        self.assertEqual([row["reason"] for row in self.of_kind("unmapped")], ["contextual tuples"])
        self.assertEqual({row["reason"] for row in self.of_kind("gap") if row.get("lost")}, {NOT_NAMED, "a check with an unknown consistency"})

    def test_a_model_that_changes(self):
        """By its id; the tuples that a new one takes are recorded."""
        self.start_service(over_http.MODEL)
        recorder = self.started("log", "--changes-only", "--grpc")
        self.wait_for(lambda: "recording " in self.get("said"))
        client = OpenFgaClient(self.service_port)
        with open(over_http.MODEL, encoding="utf-8") as file:
            self.assertEqual(client.ask("/stores/%s/write-authorization-model" % STORE, json.load(file))[0], 200)
        self.wait_for(lambda: len(self.of_kind("rules")) == 2)
        self.assertEqual(self.of_kind("rules")[0]["namespaces"], self.of_kind("rules")[1]["namespaces"])
        client.close()
        self.end(recorder)


class Protobuf(Case):
    def test_what_is_written_is_read(self):
        body = {"optionalStartCursor": {"token": "x" * 300}, "optionalUpdateKinds": ["WATCH_KIND_INCLUDE_CHECKPOINTS"]}
        self.assertEqual(SPICEDB.read("WatchRequest", SPICEDB.written("WatchRequest", body)), body)

    def test_bytes_that_are_no_message(self):
        for seed in range(3000):
            random = Random(seed)
            data = random.randbytes(random.randint(1, 30)) if sys.version_info >= (3, 9) else b""
            for messages in OPENFGA, SPICEDB:
                try:
                    self.assertIsInstance(messages.read(random.choice(list(messages.shapes)), data), dict)
                except Malformed:
                    pass

    def test_what_is_not_known_is_refused(self):
        """Of OpenFGA a field that is not known, and one that stands twice; the answer of a check may have more."""
        key = OPENFGA.written("TupleKey", {"user": "user:a", "relation": "viewer", "object": "document:1"})
        told = []
        for shape, data in ("TupleKey", key + b"\x2a\x01x"), ("CheckRequest", b"\x48\x01"), ("TupleKey", key + key), ("CheckResponse", b"\x48\x01\x08\x01"):
            try:
                told.append(OPENFGA.read(shape, data))
            except Malformed as fault:
                told.append(str(fault))
        with self.assertRaisesRegex(Malformed, "Consistency has a field that is not known"):
            SPICEDB.read("CheckPermissionRequest", b"\x0a\x02\x28\x01")
        self.assertEqual(told, ["TupleKey has a field that is not known (5)", "CheckRequest has a field that is not known (9)",
                                "TupleKey has a field twice (user)", {"allowed": True}])

    def test_calls_that_may_decide(self):
        store, permissions, other = ("/%s/" % name for name in (
            "openfga.v1.OpenFGAService", "authzed.api.v1.PermissionsService", "authzed.api.v1.ExperimentalService"))
        for name in (store + "Evaluate", store + "StreamedListUsers", permissions + "LookupAll", other + "BulkCheckAll"):
            self.assertTrue(may_decide(name), name)
        for name in (store + "Check", store + "Read", store + "ReadChanges", store + "Expand", permissions + "ExpandPermissionTree",
                     permissions + "CheckPermission", permissions + "ReadRelationships", other + "BulkImportRelationships",
                     "/authzed.api.v1.SchemaService/ReadSchema", "/authzed.api.v1.WatchService/Watch", "/grpc.health.v1.Health/Check", "/other"):
            self.assertFalse(may_decide(name), name)

    def test_several_messages_where_one_should_be(self):
        path = "/authzed.api.v1.PermissionsService/CheckPermission"
        for read, messages in ((asked, []), (asked, [b"", b""]), (answered, []), (answered, [b"", b""])):
            data = joined(messages)
            with self.assertRaisesRegex(Bad, "a call with %d " % len(messages)):
                read(Ended(1, "check", path, 0, 0, 0, None, None, None, 200, data, data, GRPC))

    def test_messages_of_a_call(self):
        path = next(path for path, call in CALLS.items() if call.name == "LookupResources")
        request = SPICEDB.written("LookupResourcesRequest", {"permission": "view", "resourceObjectType": "document"})
        answers = [SPICEDB.written("LookupResourcesResponse", {"resourceObjectId": one}) for one in ("a", "b")]
        message = Ended(1, "stream", path, 0, 0, 0, None, None, None, 200, joined([request]), joined(answers), "grpc")
        self.assertEqual((asked(message)["permission"], [one["resourceObjectId"] for one in answered(message)]), ("view", ["a", "b"]))
