"""tools/record where a service, a client or a network does what is seldom seen: with processes, each against the truth of the stand-in."""
import asyncio
import gzip
import http.client
import os
import signal
import socket
import threading
import time
from unittest import mock

from new_enemy_tools.recording.keeper import Settings
from new_enemy_tools.recording.openfga_feed import OpenFgaFeed
from tests import recording_latency
from tests.recorded import READY, Client
from tests.stand_in_openfga import STORE
from tests.test_recording_gaps import keeper_of
from tests.test_recording_openfga import DOCUMENTS, EARLY, MODEL, NEWEST, USERS, OpenFga, key


class Raced(OpenFga):
    STAND_IN = "stand_in_openfga_races.py"

    def begin(self, race, horizon, *words, share="0"):
        self.start_service(MODEL, str(race), str(horizon), share, "planted")
        self.prepare()
        time.sleep(horizon)
        recorder = self.start_recorder(*words)
        self.client = Client(self.port)
        self.addCleanup(self.client.close)
        return recorder

    def lost(self):
        return sum(row.get("lost", 0) for row in self.of_kind("gap"))

    def run_load(self, recorder):
        """Clients of which each writes and checks its own tuples and those of others."""
        def work(client, random, number, turn):
            user, thing = random.choice(USERS), random.choice(DOCUMENTS)
            if random.random() < 0.4:
                self.write(client, key("user:c%d.%d" % (number, turn), "viewer", thing))
            else:
                self.check(client, random.choice((user, "user:c%d.%d" % (random.randrange(8), turn - 1))), "viewer", thing)
        self.run_clients(8, 60, work)
        # Where nothing else comes, each check is recorded.
        self.wait_for(lambda: self.count() == 8 * 60, lambda: str(self.count()))
        lost = self.lost()
        for user in USERS:
            self.check(self.client, user, "viewer", DOCUMENTS[0])
        self.end(recorder)
        self.assertEqual(self.lost(), lost)

    def count(self):
        """How many of the requests of clients are in the log or counted: each write makes one change."""
        return len([row for row in self.of_kind("write") if "base" not in row]) + len(self.of_kind("check")) + self.lost()

    def test_places_that_are_given_before_the_commit(self):
        """Each change is in the log, most checks are, and no right reply is called wrong."""
        for race in (0.005, 0.03):
            self.room = self.path("race%g" % race)
            os.mkdir(self.room)
            # A stand-in that gets no time between the two takes longer than it should.
            self.run_load(self.begin(race, 0, "--overlap", "10"))
            self.import_log()
            self.assertEqual(self.found(), {}, self.said_of_audit)
            self.assertEqual(self.count(), 8 * 60 + len(USERS))
            self.assertGreater(len(self.of_kind("check")), len(USERS))

    def test_a_horizon_that_a_write_proves_is_learnt(self):
        """Then a check that saw a change by another way waits until that is shown, and is no wrong reply."""
        recorder = self.begin(0, 3)
        self.write(self.client, key("user:own", "viewer", "document:1"))
        self.wait_for(lambda: len(self.of_kind("write")) > 1)
        direct = Client(self.service_port)
        self.write(direct, key("user:direct", "viewer", "document:1"))
        direct.close()
        self.assertTrue(self.check(self.client, "user:direct", "viewer", "document:1")[1]["allowed"])
        self.wait_for(lambda: len(self.of_kind("check")) + self.lost() == 1)
        self.end(recorder)
        self.import_log()
        self.assertEqual((self.found(), len(self.of_kind("check"))), ({}, 1), self.said_of_audit)

    def unshown(self):
        """The tuples of the writes that the log was told of before they were shown."""
        return [one for row in self.of_kind("place") for write in row.get("unshown", ()) for one in write["add"]]

    def test_a_write_that_is_not_shown_when_the_keeper_is_killed(self):
        """The next keeper knows of it, and waits until it is shown: a check that sees it is no wrong reply. So it is where the proxy is killed too."""
        recorder = self.begin(0, 3)
        for turn in range(2):
            self.write(self.client, key("user:%d" % turn, "viewer", "document:1"))
            keeper = keeper_of(recorder)
            if turn:
                # The log has had those of the turn before.
                self.wait_for(lambda: ["document", "1", "viewer", "user", "1"] in self.unshown())
                recorder.kill()
            os.kill(keeper, signal.SIGKILL)
            if turn:
                recorder.wait(READY)
                recorder = self.start_recorder()
                self.client.port = self.port
                self.client.close()
            else:
                self.wait_for(lambda: self.get("said").count("recording openfga") == 2, lambda: self.get("said"))
            self.assertTrue(self.check(self.client, "user:%d" % turn, "viewer", "document:1")[1]["allowed"])
            self.wait_for(lambda: len(self.of_kind("check")) == turn + 1, lambda: str(self.of_kind("gap")))
        self.end(recorder)
        self.import_log()
        self.assertEqual(self.found(), {}, self.said_of_audit)

    def test_how_long_the_readings_rest(self):
        """As long after many that gave nothing as after the first."""
        feed = OpenFgaFeed(Settings("openfga", "http://127.0.0.1:1", "log", STORE, None, False, 30, 0.05, 0, 1, 1), mock.Mock())
        feed.overlap, read, ends = mock.Mock(), [], [None] * 200 + [InterruptedError]
        with mock.patch.object(feed, "_read"), mock.patch("time.sleep", mock.Mock(side_effect=ends)) as sleep:
            with self.assertRaises(InterruptedError):
                feed.run(None, read.append)
        self.assertEqual((len(read), {words[0] for words, _ in sleep.call_args_list}), (201, {0.05}))

    def test_a_right_that_is_revoked_at_the_service_when_all_was_quiet(self):
        recorder = self.begin(0, 0, share="1")
        direct = Client(self.service_port)
        self.write(direct, key(USERS[0], "owner", EARLY[0]))
        self.write(direct, key(USERS[0], "owner", EARLY[0]), kind="deletes")
        direct.close()
        self.wait_for(lambda: any("remove" in row for row in self.of_kind("write")))
        self.assertTrue(self.check(self.client, USERS[0], "owner", EARLY[0])[1]["allowed"])
        self.end(recorder)
        self.import_log()
        self.assertEqual(list(self.found().values()), [{"F10 wrong reply"}])

    def connected(self):
        made = socket.create_connection(("127.0.0.1", self.port), timeout=READY)
        self.addCleanup(made.close)
        return made

    def answer(self, one):
        """What comes on a connection up to the end of a JSON object."""
        found = b""
        while not found.endswith(b"}"):
            found += one.recv(10_000) or self.fail(found)
        return found

    def request(self, path="/stores/%s/check" % STORE, user=USERS[0], thing=EARLY[0], headers=b""):
        body = b'{"tuple_key":{"user":"%s","relation":"owner","object":"%s"},"consistency":"%s"}' % (user.encode(), thing.encode(), NEWEST.encode())
        return b"POST %s HTTP/1.1\r\nHost: x\r\n%sContent-Length: %d\r\n\r\n" % (path.encode(), headers, len(body)), body

    def test_a_check_whose_head_is_sent_before_a_right_is_revoked(self):
        recorder = self.begin(0, 0, share="1")
        self.write(self.client, key(USERS[0], "owner", EARLY[0]))
        one = self.connected()
        head, body = self.request()
        one.sendall(head)
        time.sleep(0.2)
        self.write(self.client, key(USERS[0], "owner", EARLY[0]), kind="deletes")
        one.sendall(body)
        self.assertIn(b'"allowed": true', self.answer(one))
        self.end(recorder)
        self.import_log()
        self.assertEqual(list(self.found().values()), [{"F10 wrong reply"}])

    def test_a_check_that_is_sent_behind_a_slow_one_before_a_right_is_revoked(self):
        """It begins when the slow one has its answer."""
        recorder = self.begin(0, 0, share="1")
        self.write(self.client, key(USERS[0], "owner", EARLY[0]))
        one = self.connected()
        one.sendall(b"".join((*self.request(thing="document:waits"), *self.request())))
        time.sleep(0.2)
        self.write(self.client, key(USERS[0], "owner", EARLY[0]), kind="deletes")
        direct = Client(self.service_port)
        self.call(direct, "control-answer", {})
        direct.close()
        found = b""
        while found.count(b"}") < 2:
            found += one.recv(10_000) or self.fail(found)
        self.assertEqual([found.count(b'"allowed": %s' % reply) for reply in (b"false", b"true")], [1, 1])
        self.end(recorder)
        self.import_log()
        self.assertEqual(list(self.found().values()), [{"F10 wrong reply"}])

    def test_paths_in_other_spellings(self):
        recorder = self.begin(0, 0)
        for path in ("/stores/%s/%%63heck" % STORE, "/stores/%%30%s/check" % STORE[1:], "/stores/%s/check#x" % STORE):
            one = self.connected()
            one.sendall(b"".join(self.request(path)))
            self.assertIn(b'"allowed"', self.answer(one))
            one.close()
        self.end(recorder)
        self.assertEqual(len(self.of_kind("check")), 3)

    def test_labels_by_their_bytes(self):
        """`\u00e0` and `\u00c5` end alike in UTF-8, as Latin-1 has it; what an application says in two ways is a gap."""
        recorder = self.begin(0, 0)
        self.write(self.client, key(USERS[0], "owner", EARLY[0]))
        for headers in (b"Save: \xc3\xa0", b"Version: \xc3\xa0", b"Version: \xc3\x85", b"Version: a\r\nX-Content-Version: b", b"Save: c\r\nX-Content-Version: d"):
            one = self.connected()
            one.sendall(b"".join(self.request(headers=b"X-Content-%s\r\n" % headers)))
            self.assertIn(b'"allowed": true', self.answer(one))
            one.close()
        self.end(recorder)
        self.assertEqual([(kind, row["version"]) for kind in ("content", "check") for row in self.of_kind(kind)],
                         [("content", "\u00e0"), ("check", "\u00e0"), ("check", "\u00c5")])
        self.assertEqual(sorted((row["reason"], row["lost"]) for row in self.of_kind("gap") if row["reason"].startswith("X-")),
                         [("X-Content-Save and X-Content-Version on one call", 1), ("X-Content-Version stands twice", 1)])

    def test_a_stray_end_of_a_line(self):
        """Whatever the service makes of it, no answer is taken for that of another request."""
        recorder = self.begin(0, 0)
        head, body = self.request(thing=DOCUMENTS[0])
        smuggled = b"GET /stores HTTP/1.1\r\nHost: x\r\nX: y\nContent-Length: %d\r\n\r\n" % len(head + body)
        one = self.connected()
        one.sendall(smuggled + head + body + b"".join(self.request(user="user:other")))
        self.wait_for(lambda: "a connection can't be read along: a line with a stray end in it" in {row["reason"] for row in self.of_kind("gap")})
        one.close()
        self.end(recorder)
        self.assertEqual(self.of_kind("check"), [])

    def test_a_tuple_with_a_blank_of_unicode_in_its_id(self):
        recorder = self.begin(0, 0)
        self.write(self.client, key(USERS[1], "viewer", "document:no\u00a0break"), key(USERS[1], "viewer", DOCUMENTS[0]))
        for _ in range(2):
            self.assertTrue(self.check(self.client, USERS[1], "viewer", DOCUMENTS[0])[1]["allowed"])
            self.assertTrue(self.check(self.client, USERS[1], "viewer", "document:no\u00a0break")[1]["allowed"])
            self.end(recorder)
            recorder = self.start_recorder()
            self.client.port = self.port
            self.client.close()
        self.end(recorder)
        self.assertEqual((len(self.of_kind("check")), self.lost()), (4, 0))
        self.import_log()
        self.assertEqual(self.found(), {}, self.said_of_audit)


class Bounds(OpenFga):
    """Files, and memory."""

    def limited(self, words):
        """A recorder that begins with limits on its files, as a shell sets them."""
        self.PYTHON, python = "/bin/sh", self.PYTHON
        shell = self.put("limited", 'ulimit %s && exec "%s" "$@"\n' % (words, python))
        start = self.start
        self.start = lambda *given, **more: start(shell, *given, **more)
        return self.start_recorder()

    def clients(self, count):
        made = [Client(self.port) for _ in range(count)]
        for one in made:
            self.addCleanup(one.close)
        return [self.check(one, USERS[0], "viewer", DOCUMENTS[0])[0] for one in made]

    def test_more_clients_than_the_soft_limit_of_files_has_room_for(self):
        self.start_service(MODEL)
        recorder = self.limited("-Sn 128")
        self.assertEqual(set(self.clients(150)), {200})
        self.end(recorder)

    def test_more_clients_than_there_can_be(self):
        """They are refused and counted; the others go on."""
        self.start_service(MODEL)
        recorder = self.limited("-n 100")
        status = self.clients(50)
        self.assertEqual(set(status), {200, 0})
        self.assertGreater(status.count(200), 20)
        self.assertIn("record: connections refused: 1; this process may have too few files open (ulimit -n)", self.get("said"))
        self.end(recorder)
        self.assertEqual(len(self.of_kind("check")), status.count(200))
        self.assertTrue(any(row["reason"].startswith("a connection was refused") for row in self.of_kind("gap")))

    def memory(self, process):
        with open("/proc/%d/status" % process, encoding="ascii") as file:
            return int(next(line.split()[1] for line in file if line.startswith("VmHWM"))) >> 10

    def test_packed_answers_that_hold_much(self):
        """They pass as they are, and the keeper unpacks no more than it may."""
        packed = gzip.compress(bytes(300 << 20), 1)

        class Packed(recording_latency.Service):
            def data_received(self, data):
                if b"/check" not in data:
                    super().data_received(data)
                else:
                    self.transport.write(b"HTTP/1.1 200 OK\r\nContent-Encoding: gzip\r\nContent-Length: %d\r\n\r\n%s" % (len(packed), packed))
        loop = asyncio.new_event_loop()
        self.service_port = loop.run_until_complete(loop.create_server(Packed, "127.0.0.1", 0)).sockets[0].getsockname()[1]
        threading.Thread(target=loop.run_forever, daemon=True).start()
        self.addCleanup(loop.call_soon_threadsafe, loop.stop)
        recorder = self.start_recorder()
        for _ in range(5):
            client = http.client.HTTPConnection("127.0.0.1", self.port, timeout=READY)
            client.request("POST", "/stores/%s/check" % recording_latency.STORE, b"{}")
            self.assertEqual(client.getresponse().read(), packed)
            client.close()
        self.assertLess(self.memory(keeper_of(recorder)), 250)
        self.end(recorder)
        self.assertEqual(sum(row["lost"] for row in self.of_kind("gap") if row["reason"] == "an answer was too long to be kept"), 5)

    def test_long_requests_while_the_folder_is_held(self):
        """What waits is bounded by bytes."""
        self.start_service(MODEL)
        first = self.start_recorder()
        second = self.start_recorder(is_ready=False)
        body = {"tuple_key": key(USERS[0], "viewer", DOCUMENTS[0]), "context": {"pad": "x" * 200_000}}
        # By several clients, since that is quicker.
        self.run_clients(4, 375, lambda client, *_: self.assertEqual(self.call(client, "check", body)[0], 200))
        self.assertLess(self.memory(keeper_of(second)), 250)
        self.assertLess(self.memory(second.pid), 250)
        self.end(first)
        self.end(second)
