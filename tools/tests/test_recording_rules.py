"""tools/record where rules change, and where what an application says can't be recorded."""
import json
import os

from new_enemy_tools.importing import causes
from tests.recorded import Client
from tests.stand_in_spicedb import OPEN, SCHEMA
from tests.support import TOOLS
from tests.test_recording_openfga import MODEL, OpenFga, key
from tests.test_recording_spicedb import FULL, SpiceDb


class Models(OpenFga):
    def test_a_model_that_changes(self):
        """Who is blocked no longer counts by the second model; checks may name the model by which they ask."""
        with open(MODEL, encoding="utf-8") as file:
            model = json.load(file)
        self.start_service(MODEL)
        recorder = self.start_recorder()
        client = Client(self.port)
        self.write(client, key("user:a", "viewer", "document:1"), key("user:a", "blocked", "document:1"))
        self.assertFalse(self.check(client, "user:a", "viewer", "document:1")[1]["allowed"])
        # Where the recorder reads the tuples and the next model at once, it can't say which came first.
        self.wait_for(lambda: len(self.of_kind("check")) == 1)
        relations = next(one for one in model["type_definitions"] if one["type"] == "document")["relations"]
        relations["viewer"] = relations["viewer"]["difference"]["base"]
        _, answer = self.call(client, "authorization-models", {one: model[one] for one in ("schema_version", "type_definitions")})
        self.assertTrue(self.check(client, "user:a", "viewer", "document:1")[1]["allowed"])
        self.wait_for(lambda: len(self.of_kind("rules")) == 2)
        body = {"tuple_key": key("user:a", "viewer", "document:1"), "consistency": "HIGHER_CONSISTENCY"}
        self.call(client, "check", {**body, "authorization_model_id": answer["authorization_model_id"]})
        self.call(client, "check", {**body, "authorization_model_id": "another"})
        client.close()
        self.end(recorder)
        self.assertIn("gap", self.import_log())
        self.assertEqual([row["reason"] for row in self.of_kind("gap")], ["a check by another model than the latest"])
        self.assertEqual(self.found(), {}, self.said_of_audit)
        self.assertEqual(len(self.of_kind("check")), 3)

    def test_a_model_that_changes_while_no_recorder_runs(self):
        self.start_service(MODEL)
        self.end(self.start_recorder())
        with open(MODEL, encoding="utf-8") as file:
            model = json.load(file)
        model["type_definitions"].append({"type": "robot"})
        client = Client(self.service_port)
        self.call(client, "authorization-models", model)
        self.write(client, key("user:a", "viewer", "document:1"))
        client.close()
        recorder = self.start_recorder()
        client = Client(self.port)
        self.assertTrue(self.check(client, "user:a", "viewer", "document:1")[1]["allowed"])
        client.close()
        self.end(recorder)
        self.assertEqual(len(self.of_kind("rules")), 2)
        self.import_log()
        self.assertEqual(self.found(), {}, self.said_of_audit)


class Schemas(SpiceDb):
    def test_a_schema_that_changes(self):
        self.start_service()
        recorder = self.start_recorder()
        client = Client(self.port)
        self.prepare(client)
        self.write(client, ("TOUCH", ("document:d0", "banned", "user:u1", "")))
        self.check(client, "u1", "view", "d0", FULL)
        client.ask("/v1/schema/write", {"schema": OPEN})
        self.check(client, "u1", "view", "d0", FULL)
        # What a schema was is not known where it has changed again before it is read.
        self.wait_for(lambda: len(self.of_kind("rules")) == 2)
        client.ask("/v1/schema/write", {"schema": SCHEMA})
        self.check(client, "u1", "view", "d0", FULL)
        client.close()
        self.wait_for(lambda: len(self.of_kind("check")) == 3)
        self.end(recorder)
        self.assertEqual(len(self.of_kind("rules")), 3)
        self.import_log()
        self.assertEqual(self.found(), {}, self.said_of_audit)


class Said(OpenFga):
    def test_what_an_application_says_wrong(self):
        """Each such check passes, and is a gap or left out."""
        self.start_service(MODEL)
        recorder = self.start_recorder()
        client = Client(self.port)
        self.write(client, key("user:a", "owner", "document:1"), key("user:a", "owner", "document:2"))
        checks = [{"tuple_key": key("user:a", "viewer", "document:%d" % number), "correlation_id": str(number)} for number in (1, 2)]
        for body, headers in (({"checks": checks}, {"X_Content_Save": "x"}), ({"checks": checks}, {"X_Content_Version": "x"})):
            self.assertEqual(self.call(client, "batch-check", body, **headers)[0], 200)
        self.check(client, "user:a", "viewer", "document:1", X_Content_Version="")
        self.check(client, "user:a", "viewer", "document:1", "MINIMIZE_LATENCY", X_Content_Version="v", X_Content_Token="soon")
        for user in "user:b", "user:c":
            self.check(client, "user:a", "editor", "document:1", X_Content_Save="twice")
            self.write(client, key(user, "viewer", "document:1"))
            self.wait_for(lambda user=user: user[5:] in self.get("log/000001.jsonl").split('"'))
        body = {"tuple_key": key("user:a", "viewer", "document:1"), "contextual_tuples": {"tuple_keys": [key("user:a", "viewer", "document:1")]}}
        self.call(client, "check", body)
        client.close()
        self.wait_for(lambda: self.of_kind("unmapped"))
        self.end(recorder)
        reasons = {row["reason"] for row in self.of_kind("gap")}
        self.assertEqual(reasons, {"X-Content-Save on a call that asks more than one question", "X-Content-Version on a call about several objects",
                                   "X-Content-Save or X-Content-Version without a label", "X-Content-Token is no time of RFC 3339"})
        said = self.import_log()
        self.assertIn("version twice of document:1 was saved at log/000001.jsonl:", said)
        self.assertIn("\naudited in part 1: %s; not looked for: F3, F5\n" % causes.LABEL_AGAIN, said)
        self.assertIn("\nnot audited 1: contextual tuples\n", said)
        self.assertEqual(self.found(), {}, self.said_of_audit)

    def test_a_folder_that_is_not_of_this_log(self):
        self.RECORD = os.path.join(TOOLS, "record")
        self.start_service(MODEL)
        for text, said in ((b"x" * 2000, "log/000007.jsonl is no file of a log; give another folder"),
                           (b'{"event":"log","number":7,"service":"spicedb"}\n', "it has a log of spicedb; give another folder")):
            with self.subTest(said=said):
                os.makedirs(self.path("log"), exist_ok=True)
                self.put("log/000007.jsonl", text)
                recorder = self.start_recorder(is_ready=False)
                self.wait_for(lambda said=said: said in self.get("said"), lambda: self.get("said"))
                self.assertEqual(self.check(Client(self.port), "user:a", "viewer", "document:1")[0], 200)
                self.end(recorder, 5)
                with open(self.path("log/000007.jsonl"), "rb") as file:
                    self.assertEqual(file.read(), text)
