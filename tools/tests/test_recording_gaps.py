"""What tools/record does where something fails: requests pass all the same, nothing is recorded twice, and gaps are said."""
import glob
import json
import os
import resource
import signal
import threading
import urllib.request
from collections import Counter
from random import Random

from new_enemy_tools.importing import causes
from new_enemy_tools.recording.openfga import UNORDERED
from tests.ports import free_port
from tests.recorded import Client, Recorded, is_alive, keeper_of
from tests.stand_in_openfga import STORE
from tests.test_recording_openfga import MODEL, OpenFga, key
from tests.test_recording_spicedb import SpiceDb
from tests.support import TOOLS

SECRET = "a-secret-that-nobody-may-find"


class Failing(OpenFga):
    """Each client asks each question once, so that the log tells what was recorded twice."""

    def setUp(self):
        super().setUp()
        self.passed = Counter()

    def work(self, client, random, number, turn):
        user = "user:c%d.%d" % (number, turn)
        if random.random() < 0.3:
            status, _ = self.write(client, key(user, "viewer", "document:d%d" % random.randint(0, 3)))
        elif random.random() < 0.2:
            status, _ = self.check(client, "user:owner", "editor", "document:d0", X_Content_Save=user)
        else:
            status, _ = self.check(client, user, "viewer", "document:d%d" % random.randint(0, 3), X_Content_Version="c%d" % turn)
        self.passed[status] += 1

    def start_service(self, *words, port=0):
        """With the owner whose content is saved."""
        service = super().start_service(MODEL, *words, port=port)
        client = Client(self.service_port)
        self.write(client, key("user:owner", "owner", "document:d0"))
        client.close()
        return service

    def assert_once(self):
        """No check and no change stands twice in the log, and the changes are those of the service."""
        events = self.events()
        checks = Counter((row["goal"][4], row["goal"][1], row.get("version")) for row in events if row["event"] in ("check", "content"))
        self.assertEqual([one for one, count in checks.items() if count > 1], [])
        writes = [row for row in events if row["event"] == "write" and not row.get("base")]
        self.assertEqual([row["revision"] for row in writes], sorted({row["revision"] for row in writes}))
        feed = self.feed()
        base = len(feed) - len(writes)
        given = [["document", one["object"].split(":")[1], "viewer", "user", one["user"].split(":")[1]] for one in feed[base:]]
        # Of those that came at once the order is not known.
        self.assertEqual(sorted(row["add"][0] for row in writes), sorted(given))
        return len(checks)

    def feed(self):
        found, token = [], ""
        while True:
            url = "http://127.0.0.1:%d/stores/%s/changes?page_size=100&continuation_token=%s" % (self.service_port, STORE, token)
            with urllib.request.urlopen(url) as answer:
                page = json.loads(answer.read())
            if not page["changes"]:
                return found
            found += [one["tuple_key"] for one in page["changes"]]
            token = page["continuation_token"]


class Killed(Failing):
    def test_at_random_moments(self):
        """The recorder, or its keeper alone, is killed at some answer and started again; what passes while there is none goes by the
        service itself."""
        self.start_service()
        random = Random(5)
        turns = 5
        for turn in range(turns):
            recorder = self.start_recorder()
            keeper = keeper_of(recorder)

            def work(client, chance, number, step, turn=turn):
                self.work(client, chance, number + 8 * turn, step)
            clients = threading.Thread(target=self.run_clients, args=(4, 60, work))
            clients.start()
            passed = self.passed[200] + random.randint(20, 180)
            self.wait_for(lambda passed=passed: self.passed[200] >= passed)
            os.kill(keeper if turn == 2 else recorder.pid, signal.SIGKILL)
            clients.join()
            if turn == 2:
                self.wait_for(lambda: keeper_of(recorder) not in (None, keeper))
                self.wait_for(lambda: self.get("said").count("recording ") == 2, lambda: self.get("said"))
                self.end(recorder)
            else:
                recorder.wait()
                # The keeper ends by itself, as the proxy is gone.
                self.wait_for(lambda keeper=keeper: not is_alive(keeper))
        self.end(self.start_recorder())
        gaps = self.of_kind("gap")
        # Of the checks that passed, and those are most, each is in the log or counted, but for those of the keeper that was killed.
        self.assertGreater(self.assert_once() + sum(gap.get("lost", 0) for gap in gaps), 50)
        self.assertEqual(Counter(row["reason"] for row in gaps)["the recorder did not run"], turns + 1, gaps)
        said = self.import_log()
        self.assertEqual(said.count("Z: the recorder did not run"), turns + 1)
        self.assertIn("the log has gaps: a verdict says nothing of what was asked in them", said)
        self.assertEqual(self.found(), {}, self.said_of_audit)

    def test_a_keeper_that_is_killed_harms_no_request(self):
        self.start_service()
        recorder = self.start_recorder()
        client = Client(self.port)
        for turn in range(100):
            if turn == 50:
                os.kill(keeper_of(recorder), signal.SIGKILL)
            self.assertEqual(self.check(client, "user:%d" % turn, "viewer", "document:1")[0], 200)
        client.close()
        self.wait_for(lambda: self.get("said").count("recording ") == 2, lambda: self.get("said"))
        self.end(recorder)
        self.assertEqual([row["reason"] for row in self.of_kind("gap")][:3],
                         ["the log begins", "the recorder was killed", "the recorder did not run"])


class Told(Failing):
    def test_a_keeper_that_is_told_to_stop_too(self):
        """As all processes of a unit may be, also when it begins: its proxy alone ends it."""
        self.start_service()
        self.port = free_port()
        recorder = self.started("log", "--listen", "127.0.0.1:%d" % self.port)
        self.wait_for(lambda: keeper_of(recorder) is not None)
        keeper = keeper_of(recorder)
        for number in (signal.SIGTERM, signal.SIGINT, signal.SIGHUP):
            os.kill(keeper, number)
        self.wait_for(lambda: "recording " in self.get("said"), lambda: self.get("said"))
        self.assertEqual(keeper_of(recorder), keeper)
        self.end(recorder)
        self.assertEqual(len(self.of_kind("closed")), 1)


class KilledSpiceDb(SpiceDb):
    def test_at_random_moments(self):
        """As of OpenFGA; here the keeper and the proxy are killed at once."""
        self.start_service()
        random, written = Random(6), []
        lock = threading.Lock()

        def work(client, chance, number, turn):
            user = "c%d.%d" % (number + 8 * self.round, turn)
            if chance.random() < 0.4:
                with lock:
                    # Where there is no answer, the write may have come through or not.
                    if self.write(client, ("TOUCH", ("document:d1", "viewer", "user:" + user, "")))[0] == 200:
                        written.append(user)
            else:
                self.check(client, user, "view", "d1", {"fullyConsistent": True})
        turns = 4
        for self.round in range(turns):
            recorder = self.start_recorder()
            keeper = keeper_of(recorder)
            clients = threading.Thread(target=self.run_clients, args=(4, 60, work))
            clients.start()
            recorded = len(self.of_kind("check")) + random.randint(6, 60)
            self.wait_for(lambda recorded=recorded: len(self.of_kind("check")) >= recorded)
            for one in (keeper, recorder.pid)[::random.choice((1, -1))]:
                os.kill(one, signal.SIGKILL)
            clients.join()
            recorder.wait()
        recorder = self.start_recorder()
        self.wait_for(lambda: any(written[-1] in self.get(name).split('"') for name in self.files()))
        self.end(recorder)
        events = self.events()
        goals = Counter(row["goal"][4] for row in events if row["event"] == "check")
        self.assertEqual([one for one, count in goals.items() if count > 1], [])
        self.assertGreater(len(goals), 20)
        added = [row["add"][0][4] for row in events if row["event"] == "write" and row.get("add") and not row.get("base")]
        self.assertEqual([one for one, count in Counter(added).items() if count > 1], [])
        self.assertEqual([one for one in written if one in added], written)
        self.assertEqual(self.import_log().count("Z: the recorder did not run"), turns)
        self.assertEqual(self.found(), {}, self.said_of_audit)


class Connections(Failing):
    def test_what_is_closed_is_closed(self):
        """The recorder keeps nothing open of connections that their clients have closed."""
        self.start_service()
        recorder = self.start_recorder()
        folder = "/proc/%d/fd" % recorder.pid
        before = len(os.listdir(folder))
        for turn in range(30):
            client = Client(self.port)
            self.assertEqual(self.check(client, "user:%d" % turn, "viewer", "document:1")[0], 200)
            client.close()
        self.wait_for(lambda: len(os.listdir(folder)) <= before)
        self.end(recorder)


class Full(Failing):
    RECORD = os.path.join(TOOLS, "record")

    def test_a_log_that_cannot_grow(self):
        """Requests pass while the log can't be written, and it goes on with the gap where it can again."""
        self.start_service()
        recorder = self.start_recorder()
        keeper = keeper_of(recorder)
        resource.prlimit(keeper, resource.RLIMIT_FSIZE, (20_000, resource.RLIM_INFINITY))
        self.run_clients(8, 125, self.work)
        self.assertEqual(set(self.passed), {200})
        self.wait_for(lambda: "cannot write the log: File too large" in self.get("said"))
        resource.prlimit(keeper, resource.RLIMIT_FSIZE, (resource.RLIM_INFINITY, resource.RLIM_INFINITY))
        self.wait_for(lambda: "the log goes on" in self.get("said"))
        # A recorder that is ended waits for the changes alone that checks need.
        last = self.feed()[-1]["user"].split(":")[1]
        self.wait_for(lambda: any(last in self.get(name).split('"') for name in self.files()))
        self.end(recorder)
        self.assert_once()
        self.import_log()
        self.assertEqual(self.found(), {}, self.said_of_audit)

    def test_a_log_that_cannot_be_ended(self):
        """A recorder that ends while the log can't be written says so by its status, and the next one closes the file with a gap."""
        self.start_service()
        recorder = self.start_recorder()
        resource.prlimit(keeper_of(recorder), resource.RLIMIT_FSIZE, (20_000, resource.RLIM_INFINITY))
        self.run_clients(4, 50, self.work)
        self.wait_for(lambda: "cannot write the log: File too large" in self.get("said"))
        self.end(recorder, 5)
        self.assertIn("cannot end the log: File too large", self.get("said"))
        self.assertEqual(set(self.passed), {200})
        self.end(self.start_recorder())
        reasons = [row["reason"] for row in self.of_kind("gap") if row["reason"] != UNORDERED]
        self.assertEqual(reasons, ["the log begins", "the recorder was killed", "the recorder did not run"])
        self.assertIn("the log has gaps", self.import_log())
        self.assert_once()

    def test_a_folder_that_is_none(self):
        self.start_service()
        self.put("log", "")
        recorder = self.start_recorder(is_ready=False)
        client = Client(self.port)
        for _ in range(20):
            self.assertEqual(self.check(client, "user:a", "viewer", "document:1")[0], 200)
        self.wait_for(lambda: "cannot write to log: " in self.get("said"), lambda: self.get("said"))
        os.remove(self.path("log"))
        self.wait_for(lambda: "recording " in self.get("said"), lambda: self.get("said"))
        client.close()
        self.end(recorder)
        (gap,) = self.of_kind("gap")
        self.assertEqual((gap["reason"], gap["lost"]), ("the log begins", 20))


class Behind(SpiceDb):
    def lost(self):
        return sum(row["lost"] for row in self.of_kind("gap"))

    def test_a_watch_that_stands_still(self):
        """Checks that wait longer than they may are lost, and the log says so; the check of a version that was lost is no finding."""
        self.start_service()
        recorder = self.start_recorder("--hold", "5")
        client = Client(self.port)
        self.prepare(client)
        client.ask("/v1/control/pause", {})
        self.write(client, ("TOUCH", ("document:d0", "viewer", "user:u1", "")))
        _, answer = self.check(client, "u0", "edit", "d0", {"fullyConsistent": True}, X_Content_Save="first")
        self.wait_for(lambda: self.of_kind("gap"))
        client.ask("/v1/control/go_on", {})
        self.wait_for(lambda: len(self.of_kind("write")) == 3)
        asked = []

        def is_recorded():
            """A recorder that gets no time for so long loses one that it could have."""
            if self.lost() == 1 + len(asked):
                asked.append(self.check(client, "u1", "view", "d0", {"atLeastAsFresh": answer["checkedAt"]}, X_Content_Version="first"))
            return self.of_kind("check")
        self.wait_for(is_recorded)
        client.close()
        self.end(recorder)
        self.assertEqual((self.lost(), {row["reason"] for row in self.of_kind("gap")}), (len(asked), {"the changes were more than 5 seconds behind"}))
        self.assertIn("audited in part 1: %s; not looked for: F2, F6" % causes.VERSION_UNKNOWN, self.import_log())
        self.assertEqual(self.found(), {})


class Secrets(Recorded):
    def look(self, name):
        """No file of the recorder, nothing that it says and no command line has the secret."""
        for folder, _, files in os.walk(self.path("log")):
            for file in files:
                self.assertNotIn(SECRET, self.get(os.path.join(folder, file)), name)
        self.assertNotIn(SECRET, self.get("said"))
        self.assertGreater(len(self.of_kind("check")), 0)
        for path in glob.glob("/proc/[0-9]*/cmdline"):
            try:
                with open(path, "rb") as file:
                    words = file.read().split(b"\0")
            except OSError:
                continue
            if self.RECORD.encode() in words:
                self.assertNotIn(SECRET.encode(), b" ".join(words))


class OpenFgaSecrets(OpenFga, Secrets):
    def test_no_key_is_recorded(self):
        self.start_service(MODEL, "--key", SECRET)
        recorder = self.start_recorder("--key-file", self.put("key", SECRET + "\n"))
        client = Client(self.port, SECRET)
        self.assertEqual(self.check(client, "user:a", "viewer", "document:1")[0], 200)
        self.assertEqual(self.check(client, "user:a", "viewer", "document:1", Cookie=SECRET, X_Other=SECRET)[0], 200)
        self.wait_for(lambda: self.of_kind("check"))
        self.look("running")
        client.close()
        self.end(recorder)
        self.look("ended")

    def test_without_the_key(self):
        self.start_service(MODEL, "--key", SECRET)
        recorder = self.start_recorder(is_ready=False)
        client = Client(self.port, SECRET)
        self.assertEqual(self.check(client, "user:a", "viewer", "document:1")[0], 200)
        client.close()
        self.wait_for(lambda: "401 no key; give a key that may read by --key-file" in self.get("said"), lambda: self.get("said"))
        self.end(recorder)


class SpiceDbSecrets(SpiceDb, Secrets):
    def test_no_key_is_recorded(self):
        self.start_service("--key", SECRET)
        recorder = self.start_recorder("--key-file", self.put("key", SECRET + "\n"))
        client = Client(self.port, SECRET)
        self.assertEqual(self.check(client, "u1", "view", "d0", {"fullyConsistent": True})[0], 200)
        client.close()
        self.wait_for(lambda: self.of_kind("check"))
        self.end(recorder)
        self.look("ended")


class Chain(Failing):
    def refused_log(self, *files):
        """What an import refuses of a log with a gap at its beginning."""
        status, said = self.run_import("events", *files)
        self.assertEqual(status, 2, said)
        return [line for line in said.splitlines()[:-1] if not line.startswith(("gap ", "the log ", "not audited"))]

    def test_files_of_a_log(self):
        self.start_service()
        recorder = self.start_recorder("--file-bytes", "8000")
        for turn in range(2):
            # More than fits into one file, however much of it is written at once.
            self.run_clients(4, 30, lambda client, random, number, step, turn=turn: self.work(client, random, number + 4 * turn, step))
            self.wait_for(lambda turn=turn: len(self.files()) > turn + 1)
        self.end(recorder)
        self.assertNotIn("is not closed", self.import_log())
        files = self.files()
        self.assertGreater(len(files), 2)
        self.imported("events", *reversed(files))
        self.assertEqual(self.found(), {}, self.said_of_audit)
        for name in "trace.jsonl", "ids.jsonl":
            os.remove(self.path(name))
        self.assertEqual(self.refused_log(*files[:1], *files[2:]), [
            "%s:1: file 2 of the log, between it and %s, is missing; give all files" % (files[2], files[0])])
        self.assertIn("%s:1: files 1 to 1 of the log are missing, with its base state; give all files from the first on" % files[1],
                      self.refused_log(*files[1:]))
        text = self.get(files[1])
        head, rest = text.split("\n", 1)
        self.put(files[1], head + "\n" + rest.replace("{", "{ ", 1))
        self.assertEqual([one.split(": ")[1].split(";")[0] for one in self.refused_log(*files)],
                         ["the file was changed or cut after it was written", "it goes on from another file than %s" % files[1]])
        lines = text.splitlines(True)
        self.put(files[1], "".join(lines[:-1]))
        self.assertEqual(self.refused_log(*files), [
            "%s:1: the file is not closed, and others go on from it; give it as tools/record left it" % files[1]])
