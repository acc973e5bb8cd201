"""How tools/record ends: each check whose answer was given stands in the log, or a gap of the log counts it."""
import http.client
import json
import os
import signal
import threading
import time
from collections import Counter

from new_enemy_tools.importing.times import nanoseconds
from new_enemy_tools.recording.keeper import BESIDE
from new_enemy_tools.recording.openfga import OTHER_STORE
from tests.recorded import READY, Client, Recorded, is_alive
from tests.stand_in_openfga import OTHER, STORE
from tests.support import TOOLS
from tests.test_recording_gaps import Failing, keeper_of
from tests.test_recording_openfga import NEWEST, key
from tests.test_recording_spicedb import FULL, SpiceDb

ANSWERS, CHANGES = "the recorder ended before their answers: ", "the recorder ended before the changes that these needed: "
DID_NOT_RUN, KILLED = "the recorder did not run", "the recorder was killed"


RECORD = os.path.join(TOOLS, "record")


class Ending(Failing):
    RECORD = RECORD

    def lost(self):
        """What the gaps of the log count, by their reasons."""
        found = Counter()
        for row in self.of_kind("gap"):
            found[row["reason"]] += row.get("lost", 0)
        del found["the log begins"]
        return +found

    def users(self):
        return {row["goal"][4] for row in self.events() if row["event"] in ("check", "content")}

    def begin(self, *words, is_last=False):
        """A service and a recorder, which has read the changes for the last time where that is asked for."""
        self.service = self.start_service()
        self.recorder = self.start_recorder(*words)
        self.client = Client(self.port)
        self.addCleanup(self.client.close)
        self.record("first")
        if is_last:
            self.control("pause")

    def record(self, user):
        """A check that stands in the log. A recorder that gets no time for as long as it may hold one loses one that
        it could have."""
        before, asked = self.late(), 0

        def is_recorded():
            nonlocal asked
            if self.late() == before + asked:
                self.ask(user)
                asked += 1
            return user in self.users()
        self.wait_for(is_recorded, lambda: str(self.lost()))

    def late(self):
        """How many checks were lost since the changes came too late."""
        return sum(count for reason, count in self.lost().items() if reason.startswith("the changes were more than"))

    def control(self, what):
        """The changes of the service can't be read any more, or can be again."""
        client = Client(self.service_port)
        self.assertEqual(self.call(client, "control-" + what, {})[0], 200)
        client.close()

    def ask(self, user, thing="document:d0", **headers):
        status, answer = self.check(self.client, "user:" + user, "viewer", thing, **headers)
        self.assertEqual((status, answer["allowed"]), (200, False))

    def end_service(self):
        self.service.kill()
        self.service.wait()

    def end_by(self, number):
        self.recorder.send_signal(number)
        self.assertEqual(self.recorder.wait(READY), 0, self.get("said"))
        self.assertEqual(self.events()[-1]["event"], "closed")


class Alone(Ending):
    """The service goes on, so the log has all, where it is waited for long enough."""

    RECORD = Recorded.RECORD

    def ended_by(self, number):
        self.begin()
        self.ask("last")
        self.end_by(number)
        self.assertEqual((self.users(), self.lost()), ({"first", "last"}, Counter()))

    def test_by_sigterm(self):
        self.ended_by(signal.SIGTERM)

    def test_by_sigint(self):
        self.ended_by(signal.SIGINT)


class Unread(Ending):
    """The changes behind the last checks can't be read any more."""

    def assert_last_is_lost(self):
        self.assertEqual((self.users(), self.lost()), ({"first"}, Counter({CHANGES + "checks": 1})))
        (gap,) = [row for row in self.of_kind("gap") if row["reason"].startswith(CHANGES)]
        self.assertLess(gap["from"], gap["to"])
        said = self.import_log()
        self.assertIn(": %schecks (1 lost)\n" % CHANGES, said)
        self.assertIn("the log has gaps: a verdict says nothing of what was asked in them\n", said)
        self.assertEqual(self.found(), {}, self.said_of_audit)
        self.put("report.txt", "\n".join(self.said_of_audit) + "\n")
        self.assertIn("lost in gaps 1: %schecks\n" % CHANGES, self.run_tool("report", "--form", "text", "trace.jsonl", "report.txt").stdout)

    def test_after_the_service(self):
        for number in (signal.SIGTERM, signal.SIGINT):
            with self.subTest(number):
                self.room = self.path("%d" % number)
                os.mkdir(self.room)
                self.begin(is_last=True)
                self.ask("last")
                self.end_service()
                self.end_by(number)
                self.assert_last_is_lost()

    def test_with_the_service(self):
        self.begin(is_last=True)
        self.ask("last")
        self.service.send_signal(signal.SIGTERM)
        self.end_by(signal.SIGTERM)
        self.assert_last_is_lost()

    def test_before_the_service(self):
        self.begin(is_last=True)
        self.ask("last")
        self.end_by(signal.SIGTERM)
        self.assert_last_is_lost()

    def test_where_the_proxy_is_killed(self):
        """The keeper goes on and ends the log; it has the beginning of each check before the service has it."""
        self.begin(is_last=True)
        self.ask("last")
        self.end_service()
        self.recorder.kill()
        self.wait_for(lambda: self.events()[-1]["event"] == "closed")
        self.assert_last_is_lost()

    def test_kinds(self):
        self.begin(is_last=True)
        self.ask("second")
        self.ask("third", X_Content_Version="v")
        self.assertTrue(self.check(self.client, "user:owner", "editor", "document:d0", X_Content_Save="v")[1]["allowed"])
        checks = [{"tuple_key": key("user:owner", "viewer", "document:d%d" % one), "correlation_id": str(one)} for one in range(3)]
        self.assertEqual(self.call(self.client, "batch-check", {"checks": checks, "consistency": NEWEST})[0], 200)
        listed = {"type": "document", "relation": "editor", "user": "user:owner", "consistency": NEWEST}
        for call in "list-objects", "streamed-list-objects":
            self.assertEqual(Client(self.port).ask("/stores/%s/%s" % (STORE, call), listed)[0], 200)
        self.end_service()
        self.end_by(signal.SIGTERM)
        self.assertEqual(self.lost(), {CHANGES + "checks": 2, CHANGES + "content checks": 1, CHANGES + "batches of checks": 1, CHANGES + "lists": 2})


class Waiting(Ending):
    """A client that still waits for its answer."""

    def ask_held(self):
        waiting = threading.Thread(target=self.check, args=(Client(self.port), "user:held", "viewer", "document:held"))
        waiting.start()
        self.addCleanup(waiting.join)
        self.assertEqual(self.service.stdout.readline(), "held\n")
        return waiting

    def test_at_the_end_of_the_recorder(self):
        self.begin()
        self.ask_held()
        self.end_by(signal.SIGTERM)
        self.assertEqual((self.users(), self.lost()), ({"first"}, Counter({ANSWERS + "checks": 1})))
        self.import_log()
        self.assertEqual(self.found(), {}, self.said_of_audit)

    def test_where_the_proxy_is_killed(self):
        self.begin()
        self.ask_held()
        self.recorder.kill()
        self.wait_for(lambda: self.events()[-1]["event"] == "closed")
        self.assertEqual(self.lost(), {ANSWERS + "checks": 1})

    def test_at_the_end_of_the_service(self):
        """Nobody got an answer, so there is no decision."""
        self.begin()
        waiting = self.ask_held()
        self.end_service()
        waiting.join()
        self.end_by(signal.SIGTERM)
        self.assertEqual((self.users(), self.lost()), ({"first"}, Counter()))

    def test_an_answer_that_breaks_off(self):
        """The client has a part of it."""
        self.begin()
        self.write(self.client, key("user:broken", "viewer", "document:d0"), key("user:broken", "viewer", "document:d1"))
        status, _ = self.call(self.client, "streamed-list-objects", {"type": "document", "relation": "viewer", "user": "user:broken"})
        self.assertEqual(status, 0)
        self.end_by(signal.SIGTERM)
        self.assertEqual((self.users(), self.lost()), ({"first"}, Counter({"an answer broke off, or was too long to be kept": 1})))


class Killed(Ending):
    """The keeper is killed, so nothing is said: the end of the log stays open, which is a gap."""

    def kill_all(self):
        keeper = keeper_of(self.recorder)
        for one in (self.recorder.pid, keeper):
            os.kill(one, signal.SIGKILL)
        self.recorder.wait()
        self.wait_for(lambda: not is_alive(keeper))

    def test_an_open_end_is_a_gap(self):
        self.begin(is_last=True)
        self.ask("last")
        self.kill_all()
        self.assertEqual(self.users(), {"first"})
        told = "gap at the end: %s is not closed, since it is still written or its recorder was killed\n" % self.files()[0]
        self.assertIn(told + "the log has gaps: a verdict says nothing of what was asked in them\n", self.import_log())
        self.found()
        self.put("report.txt", "\n".join(self.said_of_audit) + "\n")
        self.assertIn("the log is open: its last file, 1, is not closed, or full, so more may follow\n",
                      self.run_tool("report", "--form", "text", "trace.jsonl", "report.txt").stdout)

    def test_the_next_recorder_says_it(self):
        self.begin("--hold", "60", is_last=True)
        self.ask("last")
        last = max(row["time"] for row in self.events() if "time" in row)
        self.kill_all()
        self.control("go-on")
        recorder = self.start_recorder()
        self.end(recorder)
        gaps = [row for row in self.of_kind("gap") if row["reason"] != "the log begins"]
        self.assertEqual([row["reason"] for row in gaps], [KILLED, DID_NOT_RUN])
        self.assertEqual(gaps[0]["to"], gaps[1]["from"])
        # What waited had its answer up to so long before the last line.
        self.assertLess(gaps[0]["from"], last)
        self.assertNotIn("is not closed", self.import_log())
        self.assertEqual(self.found(), {}, self.said_of_audit)

    def test_a_recorder_that_ends_while_it_waits_for_the_folder(self):
        """What passed it is a gap of the log of the other one, which goes on."""
        self.begin()
        waiting, first = self.start_recorder(is_ready=False, said="waiting"), self.client
        self.client = Client(self.port)
        self.addCleanup(self.client.close)
        for user in "a", "b":
            self.ask(user)
        self.end(waiting, 5)
        self.client = first
        self.wait_for(lambda: self.lost()[BESIDE])
        self.record("last")
        self.end(self.recorder)
        self.assertEqual((self.users(), self.lost()), ({"first", "last"}, Counter({BESIDE: 2})))
        self.import_log()
        self.assertEqual(self.found(), {}, self.said_of_audit)

    def test_a_next_recorder_that_cannot_begin(self):
        """It closes what it found, and says what passed by it, so that the log does not look as if nothing was lost."""
        self.begin(is_last=True)
        self.write(self.client, key("user:new", "viewer", "document:d0"))
        self.ask("last")
        self.kill_all()
        wrong = self.start_recorder("--key-file", self.put("key", "k"), "--store", "NONE", is_ready=False)
        self.client = Client(self.port)
        self.addCleanup(self.client.close)
        for user in "a", "b", "c":
            self.ask(user)
        self.wait_for(lambda: self.of_kind("closed"))
        self.end(wrong)
        self.assertEqual((self.users(), self.lost()), ({"first"}, Counter({DID_NOT_RUN: 3})))
        self.import_log()
        self.control("go-on")
        recorder = self.start_recorder()
        self.end(recorder)
        self.assertEqual(self.lost(), Counter({DID_NOT_RUN: 3}))
        self.assertEqual(len(self.of_kind("closed")), 3)
        self.assert_once()
        self.import_log()
        self.assertEqual(self.found(), {}, self.said_of_audit)

    def test_a_log_that_never_begins(self):
        self.start_service()
        recorder = self.start_recorder("--store", "NONE", is_ready=False)
        self.client = Client(self.port)
        self.addCleanup(self.client.close)
        self.ask("a")
        self.end(recorder)
        self.assertIn("record: the log was never begun; requests that passed and stand in no log: 1\n", self.get("said"))
        self.assertEqual(self.files(), [])


class Untold(Ending):
    """What nobody can write down any more, since whoever knew of it was killed, is told by the next recorder, or by the one beside it."""

    def setUp(self):
        super().setUp()
        self.answered = {}

    def ask(self, user, *words, **headers):
        super().ask(user, *words, **headers)
        self.answered[user] = time.time_ns()

    def assert_told(self):
        """Each check that was answered stands in the log, or was answered in a gap."""
        gaps = [(nanoseconds(row.get("from")) or 0, nanoseconds(row["to"])) for row in self.of_kind("gap")]
        for user in set(self.answered) - self.users():
            self.assertTrue(any(start <= self.answered[user] <= end for start, end in gaps), (user, self.answered[user], self.of_kind("gap")))

    def kill(self, *numbers):
        for one in numbers:
            os.kill(one, signal.SIGKILL)
        self.wait_for(lambda: not any(is_alive(one) for one in numbers))

    def gap(self):
        """Something that is a gap of the log at once, without the changes; some time behind the one before."""
        time.sleep(1.5)
        self.assertEqual(self.client.ask("/stores/%s/check" % OTHER, {"tuple_key": key("user:a", "viewer", "document:d0")})[0], 200)

    def gap_in_a_file(self):
        """The same, when it has a file of its own."""
        count = len(self.files())
        self.gap()
        self.wait_for(lambda: len(self.files()) > count and self.of_kind("gap")[-1]["reason"] == OTHER_STORE, lambda: self.get("said"))

    def block(self):
        """The last file is full, and there can be no next one."""
        self.blocked = self.path("log/%06d.jsonl" % (len(self.files()) + 1))
        os.mkdir(self.blocked)

    def wait_blocked(self):
        self.wait_for(lambda: "cannot write the log" in self.get("said"), lambda: self.get("said"))

    def files(self, folder="log"):
        return [name for name in super().files(folder) if os.path.isfile(self.path(name))]

    def go_on(self):
        """Kills the recorder; another goes on in the folder, and ends."""
        self.kill(self.recorder.pid, keeper_of(self.recorder))
        os.rmdir(self.blocked)
        self.control("go-on")
        self.end(self.start_recorder("--hold", "0.2"))
        self.assertNotIn("is not closed", self.import_log())

    def test_a_proxy_whose_keeper_is_behind(self):
        self.begin()
        keeper = keeper_of(self.recorder)
        os.kill(keeper, signal.SIGSTOP)
        for number in range(40):
            # More than the socket to the keeper takes.
            body = json.dumps({"tuple_key": key("user:%d" % number, "viewer", "document:d0")}).encode() + b" " * 100_000
            connection = http.client.HTTPConnection("127.0.0.1", self.port, timeout=READY)
            connection.request("POST", "/stores/%s/check" % STORE, body, {"Content-Type": "application/json"})
            self.assertEqual(connection.getresponse().status, 200)
            self.answered["%d" % number] = time.time_ns()
            connection.close()
        self.kill(self.recorder.pid)
        os.kill(keeper, signal.SIGCONT)
        self.wait_for(lambda: not is_alive(keeper))
        self.assertEqual(self.events()[-1]["event"], "closed")
        self.assertIn("0", self.users())
        self.assertNotIn("39", self.users())
        self.assert_told()
        self.end(self.start_recorder())
        self.assert_told()
        self.import_log()

    def test_a_full_file_without_a_next_one(self):
        """What waited then had its answer before the last line of that file, by as long as that recorder let it wait, and not the next."""
        self.begin("--file-bytes", "1", is_last=True)
        self.ask("waits")
        self.gap_in_a_file()
        self.gap_in_a_file()
        self.block()
        self.gap()
        self.wait_blocked()
        told = "gap at the end: %s is full, and no file follows, since it is still to come or the recorder was killed\n" % self.files()[-1]
        self.assertIn(told + "the log has gaps: a verdict says nothing of what was asked in them\n", self.import_log())
        self.go_on()
        self.assertNotIn("waits", self.users())
        self.assert_told()

    def test_a_word_of_what_passed_that_is_taken_and_not_written(self):
        self.begin("--file-bytes", "1", "--hold", "0.2")
        waiting, first = self.start_recorder(is_ready=False, said="waiting"), self.client
        self.client = Client(self.port)
        self.addCleanup(self.client.close)
        self.ask("passes")
        self.client = first
        time.sleep(3)
        self.gap_in_a_file()
        self.block()
        self.end(waiting, 5)
        self.wait_blocked()
        self.go_on()
        self.assert_told()
        self.assertEqual(self.lost()[BESIDE], 1)

    def test_a_recorder_that_is_killed_while_it_waits_for_the_folder(self):
        """With its keeper, which alone knew what passed."""
        self.begin("--hold", "0.2")
        waiting, first = self.start_recorder(is_ready=False, said="waiting"), self.client
        self.client = Client(self.port)
        self.addCleanup(self.client.close)
        self.ask("passes")
        time.sleep(1)
        self.kill(waiting.pid, keeper_of(waiting))
        self.client = first
        self.record("last")
        self.end(self.recorder)
        self.assert_told()
        self.assertEqual([name for name in os.listdir(self.path("log")) if name.startswith("beside")], [])
        self.import_log()


    def test_both_recorders_of_a_folder_are_killed(self):
        """No line tells what passed the one that waited; an import says so."""
        self.begin("--hold", "0.2")
        waiting, first = self.start_recorder(is_ready=False, said="waiting"), self.client
        self.client = Client(self.port)
        self.addCleanup(self.client.close)
        self.ask("passes")
        # It would take the folder where it got some time between the end of the others and its own.
        os.kill(keeper_of(waiting), signal.SIGSTOP)
        self.kill(self.recorder.pid, keeper_of(self.recorder), waiting.pid, keeper_of(waiting))
        self.client = first
        self.assertIn("gap beside the log: log/beside-", self.import_log())
        self.recorder = self.start_recorder(said="again")
        self.end(self.recorder)
        self.assert_told()
        self.assertNotIn("gap beside the log", self.import_log())


class AtOnce(Ending):
    def test_while_clients_ask(self):
        """Whichever is ended first: what was answered stands in the log, or is counted."""
        answered, lock = [], threading.Lock()

        def work(client, random, number, turn):
            user = "c%d.%d.%d" % (self.round, number, turn)
            if self.check(client, "user:" + user, "viewer", "document:d0", X_Content_Version="v")[0] == 200:
                with lock:
                    answered.append(user)
        for self.round in range(2):
            self.room = os.path.join(self.room, "next")
            os.mkdir(self.room)
            answered.clear()
            service, recorder = self.start_service(), self.start_recorder()
            clients = threading.Thread(target=self.run_clients, args=(4, 100, work))
            clients.start()
            self.wait_for(lambda: len(answered) > 50)
            if self.round == 0:
                service.terminate()
                recorder.terminate()
            else:
                recorder.send_signal(signal.SIGINT)
                service.terminate()
            clients.join()
            self.assertEqual(recorder.wait(READY), 0, self.get("said"))
            missing = set(answered) - self.users()
            self.assertLessEqual(len(missing), sum(self.lost().values()), (missing, self.of_kind("gap")))


class SpiceDbEnding(SpiceDb):
    """Its answers name their snapshots, and wait for the changes up to these."""

    RECORD = RECORD

    def ended_with(self, *words):
        self.service = self.start_service(*words)
        recorder = self.start_recorder()
        client = Client(self.port)
        self.addCleanup(client.close)
        self.prepare(client)
        self.check(client, "u0", "view", "d0", FULL)
        self.wait_for(lambda: len(self.of_kind("check")) == 1)
        client.ask("/v1/control/pause", {})
        self.write(client, ("TOUCH", ("document:d1", "viewer", "user:u1", "")))
        self.assertEqual(self.check(client, "u1", "view", "d1", FULL)[0], 200)
        self.assertEqual(self.check(client, "u0", "edit", "d1", FULL, X_Content_Save="v")[0], 200)
        self.service.kill()
        self.service.wait()
        self.end(recorder)
        gaps = [(row["reason"], row["lost"]) for row in self.of_kind("gap") if row["reason"] != "the log begins"]
        self.assertEqual(gaps, [(CHANGES + "checks", 1), (CHANGES + "content checks", 1)])
        self.assertEqual(len(self.of_kind("check")), 1)
        self.import_log()
        self.assertEqual(self.found(), {}, self.said_of_audit)

    def test_numbers(self):
        self.ended_with()

    def test_postgres(self):
        self.ended_with("--postgres")
