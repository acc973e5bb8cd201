"""tools/record in front of a stand-in of SpiceDB's HTTP gateway: what it records is imported and audited."""
import json
import time

from new_enemy_tools.importing.times import nanoseconds
from tests.recorded import Client, Recorded, counted
from tests.stand_in_spicedb import relationship_of

CLIENTS, REQUESTS = 8, 125
DOCUMENTS = ["d%d" % number for number in range(6)]
USERS = ["u%d" % number for number in range(5)]
FULL = {"fullyConsistent": True}
FINDINGS = {"wrong": "F10 wrong reply", "stale": "F1 stale"}


def at_least(token):
    return {"atLeastAsFresh": {"token": token}}


class SpiceDb(Recorded):
    SERVICE, STAND_IN = "spicedb", "stand_in_spicedb.py"

    def write(self, client, *updates):
        listed = [{"operation": "OPERATION_" + operation, "relationship": relationship_of(parts)} for operation, parts in updates]
        return client.ask("/v1/relationships/write", {"updates": listed})

    def asked(self, user, permission, thing):
        return {"resource": {"objectType": "document", "objectId": thing}, "permission": permission,
                "subject": {"object": {"objectType": "user", "objectId": user}}}

    def check(self, client, user, permission, thing, consistency, **headers):
        return client.ask("/v1/permissions/check", {"consistency": consistency, **self.asked(user, permission, thing)}, **headers)

    def prepare(self, client):
        self.write(client, *[("TOUCH", ("document:" + one, "owner", "user:" + USERS[0], "")) for one in DOCUMENTS],
                   ("TOUCH", ("group:g", "member", "user:" + USERS[1], "")),
                   ("TOUCH", ("document:" + DOCUMENTS[0], "viewer", "group:g", "member")))


class Loaded(SpiceDb):
    """A thousand mixed requests by eight clients."""

    def setUp(self):
        super().setUp()
        self.versions = {}
        # what each client was told of its last write
        self.seen = {}

    def work(self, client, random, number, turn):
        form = random.random()
        user, thing = random.choice(USERS), random.choice(DOCUMENTS)
        seen = self.seen.get(number, {})
        if number == 0 and turn % 25 in (0, 20):
            # For most of the time nothing but the answers says what is known.
            client.ask("/v1/control/" + ("go_on" if turn % 25 else "pause"), {})
        if form < 0.2:
            relation = random.choice(["viewer", "viewer", "banned"])
            _, answer = self.write(client, (random.choice(["TOUCH", "DELETE"]), ("document:" + thing, relation, "user:" + user, "")))
            self.seen[number] = {"X_Seen": answer["writtenAt"]["token"]}
        elif form < 0.3:
            version = "v%d.%d" % (number, turn)
            status, answer = self.check(client, USERS[0], "edit", thing, FULL, X_Content_Save=version, **seen)
            if answer["permissionship"] == "PERMISSIONSHIP_HAS_PERMISSION":
                self.versions[thing] = version, answer["checkedAt"]["token"]
        elif form < 0.6 and thing in self.versions:
            version, token = self.versions[thing]
            self.check(client, user, "view", thing, at_least(token), X_Content_Version=version)
        elif form < 0.65:
            client.ask("/v1/permissions/checkbulk", {"consistency": FULL, "items": [self.asked(one, "view", thing) for one in USERS]})
        elif form < 0.68:
            client.ask("/v1/permissions/resources", {"consistency": FULL, "resourceObjectType": "document", "permission": "view",
                                                     "subject": {"object": {"objectType": "user", "objectId": user}}})
        else:
            self.check(client, user, "view", thing, random.choice([FULL, {"minimizeLatency": True}]), **seen)

    def run_load(self, *words):
        self.start_service(*words)
        client = Client(self.service_port)
        self.prepare(client)
        client.close()
        # The changes stand still for as long as some requests take.
        recorder = self.start_recorder("--hold", "600")
        self.run_clients(CLIENTS, REQUESTS, self.work)
        self.wait_for_changes()
        self.end(recorder)
        return self.import_log()

    def wait_for_changes(self):
        """Till the log has all changes, and so all checks, which wait for them; a recorder that ends does so for a little."""
        client = Client(self.port)
        self.write(client, ("TOUCH", ("document:last", "viewer", "user:" + USERS[0], "")))
        client.close()
        self.wait_for(lambda: any("last" in self.get(name).split('"') for name in self.files()))


class Load(Loaded):
    def test_nothing_planted(self, *words):
        begun = time.time_ns()
        said = self.run_load(*words)
        # Each change has the time at which it was told.
        times = [nanoseconds(row.get("time")) for row in self.of_kind("write") if not row.get("base")]
        self.assertTrue(times and all(one is not None and begun < one < time.time_ns() for one in times), times)
        self.assertEqual(self.found(), {}, self.said_of_audit)
        self.assertEqual({row["reason"] for row in self.of_kind("gap")} - {"a snapshot is from before the log"}, {"the log begins"}, said)
        self.assertGreater(len(self.of_kind("check")) + len(self.of_kind("content")), CLIENTS * REQUESTS * 0.7)
        self.assertGreater(len(self.of_kind("content")), 60)
        self.assertGreater(sum("version" in row for row in self.of_kind("check")), 150)

    def test_nothing_planted_on_postgres(self):
        self.test_nothing_planted("--postgres")

    def test_planted_faults_on_postgres(self):
        self.test_planted_faults("--postgres")

    def test_planted_faults(self, *words):
        self.run_load("0.1", "planted", *words)
        planted = [json.loads(line) for line in self.get("planted").splitlines()]
        found = []
        for place, kinds in self.found().items():
            row = self.row_at(place)
            goal = [row["goal"][1], row["goal"][2], row["goal"][4]]
            found += [[kind, goal] for kind in kinds]
        expected = []
        for kind, goal in planted:
            old = "F3 not latest" if goal[1] == "edit" else "F1 stale"
            expected.append([FINDINGS.get(kind, old), goal])
        self.assertEqual(counted(found), counted(expected))
        self.assertEqual({kind for kind, _ in planted}, {"wrong", "stale", "old"})
        self.assertEqual({kind for kind, _ in found}, {"F10 wrong reply", "F1 stale", "F3 not latest"})
