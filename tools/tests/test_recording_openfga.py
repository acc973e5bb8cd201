"""tools/record in front of a stand-in of OpenFGA: what it records is imported and audited."""
import json
import os
import re
import shutil
import signal
import stat
import subprocess
import sys

from new_enemy_tools.recording.openfga import UNORDERED
from tests.documents import read
from tests.recorded import Client, Recorded, counted, keeper_of
from tests.stand_in_openfga import STORE
from tests.support import EXAMPLES, TOOLS, Case

MODEL = os.path.join(EXAMPLES, "openfga", "model.json")
NEWEST = "HIGHER_CONSISTENCY"
CLIENTS, REQUESTS = 8, 125
DOCUMENTS = ["document:d%d" % number for number in range(6)]
FIXED = ["document:fixed%d" % number for number in range(3)]
EARLY = ["document:early%d" % number for number in range(3)]
USERS = ["user:u%d" % number for number in range(5)]


def key(user, relation, thing):
    return {"user": user, "relation": relation, "object": thing}


class OpenFga(Recorded):
    SERVICE, STAND_IN = "openfga", "stand_in_openfga.py"

    def call(self, client, call, body, **headers):
        return client.ask("/stores/%s/%s" % (STORE, call), body, **headers)

    def write(self, client, *keys, kind="writes"):
        return self.call(client, "write", {kind: {"tuple_keys": list(keys)}})

    def check(self, client, user, relation, thing, consistency=NEWEST, **headers):
        body = {"tuple_key": key(user, relation, thing), "consistency": consistency}
        return self.call(client, "check", body, **headers)

    def prepare(self):
        """What no client writes to later: documents that stay, and documents whose viewers were taken away."""
        client = self.CLIENT(self.service_port)
        self.write(client, *[key(USERS[0], "owner", one) for one in FIXED + DOCUMENTS])
        for one in EARLY:
            self.write(client, *[key(user, "viewer", one) for user in USERS])
            self.write(client, *[key(user, "viewer", one) for user in USERS], kind="deletes")
        client.close()


class Loaded(OpenFga):
    """Mixed requests by several clients."""

    def setUp(self):
        super().setUp()
        self.labels = {}
        # of each answer how many decisions it has
        self.decisions = []

    def check(self, *words, **headers):
        answer = super().check(*words, **headers)
        self.decisions.append(1)
        return answer

    def work(self, client, random, number, turn):
        form = random.random()
        user, thing = random.choice(USERS), random.choice(DOCUMENTS)
        if form < 0.15:
            self.write(client, key(user, "viewer", thing), kind=random.choice(["writes", "deletes"]))
        elif form < 0.25:
            version = "v%d.%d" % (number, turn)
            if self.check(client, USERS[0], "editor", thing, X_Content_Save=version)[1]["allowed"]:
                self.labels.setdefault(thing, []).append(version)
        elif form < 0.50 and self.labels.get(thing):
            self.check(client, user, "viewer", thing, X_Content_Version=self.labels[thing][-1])
        elif form < 0.55:
            checks = [{"tuple_key": key(one, "viewer", thing), "correlation_id": one[5:]} for one in USERS]
            answer = self.call(client, "batch-check", {"checks": checks, "consistency": NEWEST})[1]
            self.decisions.append(len(answer["result"]))
        elif form < 0.58:
            answer = self.call(client, "list-objects", {"type": "document", "relation": "viewer", "user": user, "consistency": NEWEST})[1]
            self.decisions.append(len(answer["objects"]))
        else:
            self.check(client, user, "viewer", random.choice(FIXED + EARLY + DOCUMENTS))


class Load(Loaded):
    """A thousand mixed requests by eight clients."""

    def recorded(self):
        return len(self.of_kind("check")) + len(self.of_kind("content"))

    def lost(self):
        return sum(row.get("lost", 0) for row in self.of_kind("gap"))

    def run_load(self, share, *words):
        """Each decision is in the log, or a gap counts it; and those that come when nothing is written are in the log."""
        self.start_service(MODEL, str(share), "planted")
        self.prepare()
        recorder = self.start_recorder(*words)
        self.run_clients(CLIENTS, REQUESTS, self.work)
        self.wait_for(lambda: self.recorded() + self.lost() == sum(self.decisions), lambda: str((self.recorded(), self.lost(), sum(self.decisions))))
        lost, client = self.lost(), self.CLIENT(self.port)
        for thing in DOCUMENTS:
            for user in USERS:
                self.check(client, user, "viewer", thing, X_Content_Version=self.labels[thing][-1])
        client.close()
        self.end(recorder)
        self.assertEqual((self.lost(), self.recorded()), (lost, sum(self.decisions) - lost))
        return self.import_log()

    def test_nothing_planted(self):
        said = self.run_load(0)
        self.assertEqual(self.found(), {}, self.said_of_audit)
        lost = [line for line in said.splitlines() if line.startswith("gap ") and "lost" in line]
        self.assertEqual([line for line in lost if UNORDERED not in line], [])
        self.assertIn("the log begins", said)
        self.assertGreater(len(self.of_kind("content")), 60)

    def test_planted_faults(self):
        self.run_load(0.3)
        planted = [json.loads(line) for line in self.get("planted").splitlines()]
        self.assertEqual({kind for kind, _ in planted}, {"wrong", "stale"})
        found = self.found()
        goals = [self.row_at(place)["goal"] for place in found]
        self.assertEqual(set.union(*found.values()), {"F10 wrong reply"})
        self.assertEqual(counted([["user:" + goal[4], goal[2], "document:" + goal[1]] for goal in goals]), counted([goal for _, goal in planted]))
        self.assertGreater(len(planted), 30)


class Versions(OpenFga):
    def test_a_version_that_is_shown_without_its_token(self):
        """A new enemy: nothing made the service look at the change before the content."""
        self.start_service(MODEL)
        recorder = self.start_recorder()
        client = Client(self.port)
        self.write(client, key(USERS[0], "owner", DOCUMENTS[0]), key(USERS[1], "viewer", DOCUMENTS[0]))
        self.write(client, key(USERS[1], "viewer", DOCUMENTS[0]), kind="deletes")
        self.check(client, USERS[0], "editor", DOCUMENTS[0], X_Content_Save="first")
        self.check(client, USERS[1], "viewer", DOCUMENTS[0], X_Content_Version="first")
        self.check(client, USERS[1], "viewer", DOCUMENTS[0], "MINIMIZE_LATENCY", X_Content_Version="first")
        self.check(client, USERS[1], "viewer", DOCUMENTS[0], X_Content_Version="none")
        client.close()
        self.end(recorder)
        self.assertNotIn("gap", self.import_log())
        found = {self.row_at(place)["version"]: kinds for place, kinds in self.found().items()}
        self.assertEqual(found, {"first": {"F2 old token"}, "none": {"F6 unknown version"}})


class Cached(OpenFga):
    """A service that may answer from a cache: the reply of the state before is no wrong one, where the recorder knows for how long."""

    def found_with(self, *words, consistency="MINIMIZE_LATENCY"):
        self.start_service(MODEL, "1", "planted")
        recorder = self.start_recorder(*words)
        client = Client(self.port)
        self.write(client, key(USERS[0], "viewer", EARLY[0]))
        self.write(client, key(USERS[0], "viewer", EARLY[0]), kind="deletes")
        self.wait_for(lambda: len(self.of_kind("write")) == 3)
        self.assertTrue(self.check(client, USERS[0], "viewer", EARLY[0], consistency)[1]["allowed"])
        client.close()
        self.end(recorder)
        self.import_log()
        return set().union(*self.found().values())

    def test_without_a_word(self):
        self.assertEqual(self.found_with(), {"F10 wrong reply"})

    def test_as_long_as_it_may(self):
        self.assertEqual(self.found_with("--stale-by", "60"), set())

    def test_where_the_newest_state_was_asked_for(self):
        self.assertEqual(self.found_with("--stale-by", "60", consistency=NEWEST), {"F10 wrong reply"})


class Written(OpenFga):
    """Writes that pass the recorder and are answered before a check is asked, which the changes show later."""

    def begin(self, *words):
        recorder = self.start_recorder(*words)
        self.client = Client(self.port)
        self.addCleanup(self.client.close)
        return recorder

    def viewer(self, thing, kind="writes", user=USERS[1], **more):
        return self.call(self.client, "write", {kind: {"tuple_keys": [key(user, "viewer", thing)], **more}})[0]

    def save(self, thing, version):
        status, answer = self.check(self.client, USERS[0], "editor", thing, X_Content_Save=version)
        self.assertEqual(status, 200)
        return answer["allowed"]

    def lows(self):
        """Of each content check the lowest state that it may have seen, by its version."""
        return {row["version"]: row["snapshot"] if "snapshot" in row else row["newest_between"][0] for row in self.of_kind("content")}

    def removals(self):
        """Of each tuple the last revision at which it was removed."""
        return {tuple(row["remove"][0]): row["revision"] for row in self.of_kind("write") if "remove" in row}

    def lost(self):
        found = {}
        for row in self.of_kind("gap"):
            found[row["reason"]] = found.get(row["reason"], 0) + row.get("lost", 0)
        found.pop("the log begins", None)
        return found

    def test_a_removal_right_before_a_save(self):
        """What was answered before the check counts before it, however often a tuple comes and goes between two readings."""
        self.start_service(MODEL)
        self.prepare()
        recorder = self.begin()
        for number in range(44):
            thing = DOCUMENTS[number % 6]
            for kind in ["writes", "deletes"] * (1 + number % 3):
                self.assertEqual(self.viewer(thing, kind), 200)
            self.assertTrue(self.save(thing, "v%d" % number))
        self.end(recorder)
        lows, writes = self.lows(), [row for row in self.of_kind("write") if "base" not in row]
        made = 0
        for number in range(44):
            made += 2 * (1 + number % 3)
            self.assertEqual((lows["v%d" % number], "remove" in writes[made - 1]), (writes[made - 1]["revision"], True))
        self.assertEqual(self.lost(), {})
        self.import_log()
        self.assertEqual(self.found(), {})

    def test_a_stale_answer_right_behind_a_removal(self):
        self.start_service(MODEL, "1", "planted")
        recorder = self.begin()
        self.write(self.client, key(USERS[0], "owner", EARLY[0]))
        self.wait_for(lambda: len(self.of_kind("write")) == 2)
        self.write(self.client, key(USERS[0], "owner", EARLY[0]), kind="deletes")
        self.assertTrue(self.save(EARLY[0], "v"))
        self.end(recorder)
        self.import_log()
        self.assertIn("F10 wrong reply", set().union(*self.found().values()))

    def test_many_at_once(self):
        """Clients that write and save at the same time; each save comes behind the removal of its client."""
        self.start_service(MODEL)
        self.prepare()
        recorder = self.begin()

        def work(client, random, number, turn):
            user = "user:c%d.%d" % (number, turn)
            for kind in "writes", "deletes":
                self.assertEqual(self.write(client, key(user, "viewer", DOCUMENTS[0]), kind=kind)[0], 200)
            self.check(client, USERS[0], "editor", DOCUMENTS[0], X_Content_Save=user)
        self.run_clients(8, 25, work)
        self.end(recorder)
        lows, removals = self.lows(), {one[4]: revision for one, revision in self.removals().items()}
        self.assertEqual(len(lows), 200)
        self.assertEqual([user for user, low in lows.items() if low < removals[user[5:]]], [])
        self.assertEqual(self.lost(), {})
        self.import_log()
        self.assertEqual(self.found(), {})

    def test_writes_that_change_nothing(self):
        """One that failed, and one that is no fault where there is nothing to remove: a later removal is none of theirs."""
        self.start_service(MODEL)
        self.prepare()
        recorder = self.begin("--poll", "0.5")
        self.viewer(DOCUMENTS[1])
        self.wait_for(lambda: len(self.of_kind("write")) == 2)
        self.assertEqual(self.viewer(DOCUMENTS[0], "deletes"), 400)
        self.assertEqual(self.viewer(DOCUMENTS[0], "deletes", on_missing="ignore"), 200)
        self.assertTrue(self.save(DOCUMENTS[0], "v"))
        self.viewer(DOCUMENTS[0])
        self.viewer(DOCUMENTS[0], "deletes")
        self.end(recorder)
        self.assertEqual((self.lows(), self.lost()), ({"v": self.of_kind("write")[1]["revision"]}, {}))

    def test_a_change_that_is_shown_late(self):
        self.start_service(MODEL)
        recorder = self.begin()
        self.write(self.client, key(USERS[0], "owner", "document:slow"))
        self.viewer("document:slow")
        self.viewer("document:slow", "deletes")
        self.assertTrue(self.save("document:slow", "v"))
        self.end(recorder)
        self.assertEqual(self.lows(), {"v": self.removals()["document", "slow", "viewer", "user", "u1"]})
        self.assertEqual(self.lost(), {})

    def test_a_change_that_is_never_shown(self):
        """The checks behind it are lost, until it is given up; and so they are at the end."""
        self.RECORD = os.path.join(TOOLS, "record")
        self.start_service(MODEL)
        self.prepare()
        recorder = self.begin("--hold", "1")
        self.viewer("document:hidden")
        self.save(DOCUMENTS[0], "lost")
        self.check(self.client, USERS[0], "viewer", DOCUMENTS[0])
        self.wait_for(lambda: sum(self.lost().values()) == 2 and any("did not show" in one for one in self.lost()), lambda: self.get("said"))
        self.viewer(DOCUMENTS[0])
        self.viewer(DOCUMENTS[0], "deletes")
        saved = []

        def is_kept():
            """A recorder that gets no time for a second loses one that it could have."""
            if len(self.lows()) + sum(self.lost().values()) == 2 + len(saved):
                saved.append("kept%d" % len(saved))
                self.save(DOCUMENTS[0], saved[-1])
            return self.lows()
        self.wait_for(is_kept)
        self.viewer("document:hidden", user=USERS[2])
        self.save(DOCUMENTS[0], "last")
        self.end(recorder)
        self.assertEqual(set(self.lows().values()), {self.removals()["document", "d0", "viewer", "user", "u1"]})
        self.assertNotIn("last", self.lows())
        self.assertEqual(len(self.lows()) + sum(self.lost().values()), 3 + len(saved))
        self.assertLessEqual(set(self.lost()), {
            "a write was answered that the changes did not show within 1 seconds", "the changes were more than 1 seconds behind",
            "an answer took longer than 1 seconds", "the recorder ended before the changes that these needed: content checks"})

    def test_a_change_that_is_never_shown_when_the_keeper_is_killed(self):
        """What may rest on it is lost, and no right reply is called wrong."""
        self.start_service(MODEL)
        self.prepare()
        recorder = self.begin("--hold", "1")
        self.viewer("document:hidden")
        os.kill(keeper_of(recorder), signal.SIGKILL)
        self.wait_for(lambda: self.get("said").count("recording openfga") == 2, lambda: self.get("said"))
        unshown = "a write was answered that the changes did not show within 1 seconds"
        self.assertTrue(self.check(self.client, USERS[1], "viewer", "document:hidden")[1]["allowed"])
        self.wait_for(lambda: unshown in self.lost(), lambda: self.get("said"))
        self.assertTrue(self.check(self.client, USERS[1], "viewer", "document:hidden")[1]["allowed"])
        self.end(recorder)
        self.import_log()
        self.assertEqual((self.found(), self.of_kind("check")), ({}, []), self.said_of_audit)
        self.assertGreaterEqual(sum(self.lost().values()), 2)


class WhoMayRead(OpenFga):
    """What docs/RECORDING.md says of what a log holds, and of how files are made."""

    def record(self, *bodies, **headers):
        self.start_service(MODEL)
        self.prepare()
        recorder = self.start_recorder()
        client = Client(self.port)
        self.write(client, key("user:bob", "viewer", "document:plan"))
        self.check(client, USERS[0], "editor", DOCUMENTS[0], X_Content_Save="v1")
        for body in bodies:
            self.assertEqual(self.call(client, "check", {"tuple_key": key("user:bob", "viewer", "document:plan"), **body}, **headers)[0], 200)
        client.close()
        self.end(recorder)

    def modes(self, folder):
        return {os.path.join(place, name): oct(stat.S_IMODE(os.stat(os.path.join(place, name)).st_mode))
                for place, folders, files in os.walk(self.path(folder)) for name in [*folders, *files]}

    def umask(self, mask):
        self.addCleanup(os.umask, os.umask(mask))

    def test_how_files_are_made(self):
        """Those of the log are closed to others; what is made of them is as the umask says."""
        self.umask(0o022)
        self.record({})
        self.assertEqual(self.modes("log"), {self.path("log/" + name): "0o600" for name in ("000001.jsonl", "lock")})
        self.assertEqual(stat.S_IMODE(os.stat(self.path("log")).st_mode), 0o755)
        for mask, of_files, of_folders in (0o022, "0o644", "0o755"), (0o077, "0o600", "0o700"):
            self.umask(mask)
            self.import_log()
            made = [oct(stat.S_IMODE(os.stat(self.path(name)).st_mode)) for name in ("trace.jsonl", "ids.jsonl")]
            self.assertEqual(made, [of_files] * 2)
            run = self.run_tool("day", "--program", os.environ["NEW_ENEMY"], "days", "events", *self.files())
            self.assertIn(run.returncode, (0, 1), run.stderr)
            modes = self.modes("days")
            self.assertEqual(modes.pop(self.path("days/day000001")), of_folders)
            self.assertEqual(set(modes.values()), {of_files}, modes)
            for name in "trace.jsonl", "ids.jsonl":
                os.remove(self.path(name))
            shutil.rmtree(self.path("days"))

    def test_what_stands_in_it(self):
        """No line has a key that the page does not name; and contexts, contextual tuples and other headers are not there."""
        other = {"tuple_keys": [key("user:nobody-may-find", "viewer", "document:nobody-may-find")]}
        self.record({}, {"contextual_tuples": other}, {"context": {"address": "nobody-may-find"}}, Cookie="nobody-may-find", Forwarded="nobody-may-find",
                    X_Content_Version="v1")
        self.assertNotIn("nobody-may-find", "".join(self.get(name) for name in self.files()))
        named = {}
        for row in re.findall(r"(?m)^\| (`.*) \|$", read("docs", "RECORDING.md").split("## What the log holds")[1].split("\n## ")[0]):
            events, keys = row.split(" | ")
            for event in re.findall("`([a-z]+)`", events):
                named[event] = set(re.findall("`([a-z0-9_]+)`", keys))
        found = {}
        for row in self.events():
            found.setdefault(row["event"], set()).update(set(row) - {"event"})
        self.assertEqual(set(found), set(named))
        for event, keys in found.items():
            self.assertLessEqual(keys, named[event], event)


class Cost(Case):
    def test_what_is_measured_where_each_asks_again_when_it_has_its_answer(self):
        run = subprocess.run([sys.executable, os.path.join(TOOLS, "tests", "recording_latency.py"), "1", "0", "2"], capture_output=True, text=True, timeout=300)
        self.assertRegex(run.stdout, r"asked ([0-9]+), recorded \1, of 1\d\d bytes each\n")

    def test_what_is_measured_of_a_large_store(self):
        """It had 0.8 KB a tuple, and a minute for a hundred thousand. Python and its modules are some 30 MB."""
        run = subprocess.run([sys.executable, os.path.join(TOOLS, "tests", "recording_base.py"), "40000"], capture_output=True, text=True, timeout=300)
        found = json.loads(run.stdout)
        self.assertEqual(found["tuples"], 40000)
        self.assertLess(found["bytes"], (40 << 20) + 400 * found["tuples"])

    def test_what_is_measured(self):
        run = subprocess.run([sys.executable, os.path.join(TOOLS, "tests", "recording_latency.py"), "1", "30"], capture_output=True, text=True, timeout=300)
        times = r"30 checks, p50 [0-9.]+ ms, p99 [0-9.]+ ms\n"
        self.assertRegex(run.stdout, r"^the service alone: %sthrough the recorder of .*: %sasked 30, recorded 30, of 1\d\d bytes each\n"
                         r"processor time of a check: the service [0-9.]+ ms, the recorder [0-9.]+ ms\n$" % (times, times), run.stderr)
