"""tools/record as a service in production: TLS, keys that change, a port that is shared, and what it says of itself."""
import http.client
import json
import os
import re
import shutil
import signal
import socket
import ssl
import subprocess
import unittest
from collections import Counter

from new_enemy_tools.recording.command import words
from new_enemy_tools.recording.metrics import MetricsServer, Seen, Status, StatusReader, StatusSender, exposition
from new_enemy_tools.recording.openfga import NOT_NAMED
from tests.ports import free_port
from tests.recorded import READY, Client
from tests.stand_in_openfga import OTHER, STORE
from tests.support import EXAMPLES, TOP, Case
from tests.test_day import WORDS
from tests.test_recording_gaps import keeper_of
from tests.test_recording_openfga import MODEL, OpenFga, key

ELSEWHERE = "checks: %d whole, %d of other stores, which are not recorded"
UNIT = "new-enemy-recorder@.service"
LINE = re.compile(r'(?:# (?:HELP|TYPE) .+|[a-z_]+(?:\{[a-z]+="(?:[^"\\]|\\.)*"\})? -?[0-9.e+]+)')


def get(port, path, scheme=http.client.HTTPConnection):
    connection = scheme("127.0.0.1", port, timeout=READY)
    try:
        connection.request("GET", path)
        answer = connection.getresponse()
        return answer.status, answer.read().decode()
    finally:
        connection.close()


def numbers_of(text):
    return {name: float(value) for name, _, value in (line.rpartition(" ") for line in text.splitlines() if not line.startswith("#"))}


class Metrics(Case):
    def read(self, *given):
        mine, its = socket.socketpair()
        self.addCleanup(mine.close)
        self.addCleanup(its.close)
        its.setblocking(False)
        sender, reader = StatusSender(mine), StatusReader()
        for status in given:
            sender.tell(status)
        reader.read(its, 100.0)
        return reader

    def test_the_text_is_what_prometheus_reads(self):
        status = Status(3, {'a "cause"\n\\': 2}, 1, 0.25, False, 6)
        text = exposition(self.read(Status(1, {}, 0, None, True), status), Seen(Counter(check=5, write=2), 4, 1, 2), 101.0)
        for line in text.splitlines():
            self.assertRegex(line, LINE)
        name = "new_enemy_recorder_"
        self.assertEqual(numbers_of(text), {name + one: value for one, value in {
            'requests_total{call="check"}': 5, 'requests_total{call="write"}': 2, "connections": 4, "connections_refused_total": 1,
            "keeper_starts_total": 2, "gap_open": 0, "recorded_total": 3, "other_stores_total": 6, 'lost_total{cause="a \\"cause\\"\\n\\\\"}': 2, "waiting": 1,
            "feed_lag_seconds": 1.25}.items()})

    def test_a_keeper_that_is_silent_or_has_a_gap_does_not_record(self):
        seen = Seen(Counter(), 0, 0, 1)
        for reader, now in ((StatusReader(), 100.0), (self.read(Status(1, {}, 0, 0.0, True)), 100.0), (self.read(Status(1, {}, 0, 0.0, False)), 106.0)):
            self.assertFalse(reader.is_recording(now))
            self.assertEqual(numbers_of(exposition(reader, seen, now))["new_enemy_recorder_gap_open"], 1)

    def test_a_proxy_that_does_not_read_holds_nothing_up(self):
        mine, its = socket.socketpair()
        self.addCleanup(mine.close)
        self.addCleanup(its.close)
        its.setblocking(False)
        sender, reader = StatusSender(mine), StatusReader()
        for number in range(20_000):
            sender.tell(Status(number, {"cause": number}, 0, 0.5, False))
        for number in range(3):
            reader.read(its, 1.0)
            sender.tell(Status(1, {}, 0, 0.5, False))
        reader.read(its, 2.0)
        self.assertEqual((reader.status.recorded, reader.at), (1, 2.0))

    def test_a_keeper_that_says_something_else_ends_no_proxy(self):
        mine, its = socket.socketpair()
        self.addCleanup(mine.close)
        self.addCleanup(its.close)
        its.setblocking(False)
        for data in (b"no json\n", b"[1]\n", b"7\n", b"\xff\n"):
            mine.send(data)
            reader = StatusReader()
            reader.read(its, 1.0)
            self.assertFalse(reader.is_recording(1.0))

    def test_other_paths_and_methods(self):
        server = MetricsServer(lambda: True, lambda: "x 1\n")
        for line, status in (("GET /health HTTP/1.1", b"200"), ("HEAD /metrics HTTP/1.1", b"200"), ("GET /other HTTP/1.1", b"404"),
                             ("POST /metrics HTTP/1.1", b"404"), ("", b"404")):
            self.assertEqual(server.answer(line).split(b" ")[1], status)
        self.assertTrue(server.answer("HEAD /metrics HTTP/1.1").endswith(b"\r\n\r\n"))


class Saying(OpenFga):
    def test_health_and_numbers(self):
        self.start_service(MODEL)
        port = free_port()
        recorder = self.start_recorder("--metrics", "127.0.0.1:%d" % port)
        self.wait_for(lambda: get(port, "/health") == (200, "recording\n"))
        client = Client(self.port)
        self.write(client, key("user:a", "viewer", "document:1"))
        for _ in range(3):
            self.check(client, "user:a", "viewer", "document:1")
        self.check(client, "user:a", "viewer", "document:1", X_Content_Save="v", X_Content_Version="w")
        told, name = {}, "new_enemy_recorder_"

        def is_told():
            told.update(numbers_of(get(port, "/metrics")[1]))
            return {one: told.get(name + one) for one in wanted} == wanted
        wanted = {"recorded_total": 3, 'lost_total{cause="X-Content-Save and X-Content-Version on one call"}': 1, "connections": 1,
                  'requests_total{call="check"}': 4, "gap_open": 0, "waiting": 0, "keeper_starts_total": 1}
        self.wait_for(is_told, lambda: str(told))
        self.wait_for(lambda: numbers_of(get(port, "/metrics")[1])[name + "feed_lag_seconds"] < 2)
        client.close()
        # The next keeper can't begin before it was seen that there is none.
        os.rename(self.path("log"), self.path("away"))
        self.put("log", "")
        os.kill(keeper_of(recorder), signal.SIGKILL)
        self.wait_for(lambda: get(port, "/health")[0] == 503)
        os.remove(self.path("log"))
        os.rename(self.path("away"), self.path("log"))
        self.wait_for(lambda: get(port, "/health")[0] == 200)
        self.end(recorder)

    def test_a_service_that_cant_be_read_is_a_gap(self):
        service = self.start_service(MODEL)
        port = free_port()
        self.start_recorder("--metrics", "127.0.0.1:%d" % port)
        self.wait_for(lambda: get(port, "/health")[0] == 200)
        service.kill()
        self.wait_for(lambda: get(port, "/health")[0] == 503)


class Stores(OpenFga):
    """A client that moves to a store that is made while the recorder runs."""

    def ask_both(self, *words, folder="log"):
        port = free_port()
        recorder = self.start_recorder("--store", STORE, "--metrics", "127.0.0.1:%d" % port, *words, folder=folder)
        client = Client(self.port)
        self.assertEqual(self.check(client, "user:a", "viewer", "document:1")[1]["allowed"], False)
        for _ in range(3):
            body = {"tuple_key": key("user:a", "viewer", "document:1")}
            self.assertEqual(client.ask("/stores/%s/check" % OTHER, body)[1]["allowed"], True)
        client.close()
        self.wait_for(lambda: numbers_of(get(port, "/metrics")[1]).get("new_enemy_recorder_other_stores_total") == 3)
        self.end(recorder)
        self.assertIn("record: checks of other stores, which are not recorded: 3\n", self.get("said"))

    def moved(self, *words):
        self.start_service(MODEL)
        self.ask_both(*words)
        status, said = self.run_import("events", *self.files())
        self.found()
        self.put("report.txt", "\n".join(self.said_of_audit) + "\n")
        return status, said, self.run_tool("report", "--form", "text", "trace.jsonl", "report.txt").stdout

    def test_what_it_asks_there_is_not_looked_at(self):
        status, said, report = self.moved()
        self.assertEqual(sum(row["lost"] for row in self.of_kind("gap") if row["reason"] == NOT_NAMED), 3)
        self.assertEqual((status, self.said_of_audit[-1]), (6, "verdict clean"))
        self.assertEqual(self.of_kind("elsewhere"), [])
        for text in said, report:
            self.assertIn("lost in gaps 3: %s\n" % NOT_NAMED, text)

    def test_what_it_asks_there_where_that_is_no_concern(self):
        status, said, report = self.moved("--ignore-other-stores")
        self.assertEqual((status, self.of_kind("gap"), self.said_of_audit[-1]), (0, [], "verdict clean"), said)
        self.assertEqual(sum(row["count"] for row in self.of_kind("elsewhere")), 3)
        for text in said, report, *(self.run_tool("report", "--form", form, "trace.jsonl", "report.txt").stdout for form in ("junit", "annotations")):
            self.assertIn(ELSEWHERE % (1, 3), text)
            self.assertNotIn("lost", text)
        rows = self.run_tool("report", "--form", "jsonl", "trace.jsonl", "report.txt").stdout.splitlines()
        self.assertEqual((json.loads(rows[0])["verdict"], json.loads(rows[0])["coverage"]["other_stores"]), ("clean", 3))
        self.assertIn('"other_stores":3', self.run_tool("report", "--form", "sarif", "trace.jsonl", "report.txt").stdout)
        page = self.run_tool("report", "--form", "html", "trace.jsonl", "report.txt").stdout
        self.assertIn('class="verdict incomplete">clean', page)
        self.assertIn(ELSEWHERE[1:] % (1, 3), page)

    def test_of_several_recorders(self):
        """Each counts them, and the joined log and its days have the sum."""
        self.start_service(MODEL)
        for folder in "left", "right":
            self.ask_both("--ignore-other-stores", folder=folder)
        self.run_tool("join", "--out", "all", "left", "right")
        status, said = self.run_import("events", *self.files("all"))
        self.assertEqual(status, 0, said)
        self.assertIn(ELSEWHERE % (2, 6), said)
        day = self.run_process("day", *WORDS, "--html", "days", "events", "left", "right")
        self.assertEqual(day.returncode, 0, day.stdout + day.stderr)
        self.assertIn(ELSEWHERE % (2, 6), day.stdout)
        self.assertIn("<td>2, and 6 of other stores</td>", self.get("days/index.html"))
        self.assertIn('class="verdict incomplete">clean', self.get("days/index.html"))

    def test_a_folder_that_has_the_log_of_another_store(self):
        """Nothing is recorded, and what passes is counted, however little the changes of the two stores differ."""
        self.start_service(MODEL)
        self.end(self.start_recorder("--store", STORE))
        recorder = self.start_recorder("--store", OTHER, is_ready=False)
        self.wait_for(lambda: "the log is of the store %s, and %s is to be recorded" % (STORE, OTHER) in self.get("said"), lambda: self.get("said"))
        client = Client(self.port)
        self.assertEqual(client.ask("/stores/%s/check" % OTHER, {"tuple_key": key("user:a", "viewer", "document:1")})[0], 200)
        client.close()
        self.end(recorder)
        self.assertEqual([(row["reason"], row.get("lost")) for row in self.of_kind("gap")], [("the recorder did not run", 1)])

    def test_what_does_not_go_together(self):
        run = self.run_process("record", "--openfga", "http://127.0.0.1:1", "--listen", "127.0.0.1:1", "--out", "log", "--ignore-other-stores")
        self.assertEqual(run.returncode, 3)
        self.assertIn("--ignore-other-stores goes with --store", run.stderr)


class Keys(OpenFga):
    def test_a_key_that_is_changed(self):
        self.start_service(MODEL, "--key", "second")
        self.put("key", "first\n")
        recorder = self.start_recorder("--key-file", self.path("key"), is_ready=False)
        self.wait_for(lambda: "401 no key" in self.get("said"), lambda: self.get("said"))
        self.put("key", "\n")
        recorder.send_signal(signal.SIGHUP)
        self.wait_for(lambda: "what was read before stays in use: --key-file has no key" in self.get("said"), lambda: self.get("said"))
        self.put("key", "second\n")
        recorder.send_signal(signal.SIGHUP)
        self.wait_for(lambda: "recording openfga" in self.get("said"), lambda: self.get("said"))
        os.kill(keeper_of(recorder), signal.SIGKILL)
        self.wait_for(lambda: self.get("said").count("recording openfga") == 2, lambda: self.get("said"))
        self.end(recorder)


@unittest.skipUnless(shutil.which("openssl"), "there is no openssl")
class Secured(OpenFga):
    def shown(self):
        """The name in the certificate that a client is shown."""
        text = ssl.get_server_certificate(("127.0.0.1", self.port))
        run = subprocess.run(["openssl", "x509", "-noout", "-subject"], input=text, capture_output=True, text=True, check=True)
        return run.stdout.strip().rpartition("=")[2].strip()

    def test_tls_on_both_sides(self):
        """The second recorder speaks TLS to the first, which stands for the service."""
        self.start_service(MODEL)
        self.certificate("first")
        self.certificate("second")
        first = self.start_recorder("--tls-cert", self.path("first.pem"), "--tls-key", self.path("first.key"), folder="one", said="one.said")
        self.service_port = self.port
        recorder = self.start_recorder("--service-ca", self.path("first.pem"), "--tls-cert", self.path("second.pem"), "--tls-key",
                                       self.path("second.key"), scheme="https")
        context = ssl.create_default_context(cafile=self.path("second.pem"))
        client = Client(self.port)
        client.connection = http.client.HTTPSConnection("127.0.0.1", self.port, timeout=READY, context=context)
        self.assertEqual(self.write(client, key("user:a", "viewer", "document:1"))[0], 200)
        self.assertTrue(self.check(client, "user:a", "viewer", "document:1")[1]["allowed"])
        client.close()
        self.wait_for(lambda: len(self.of_kind("check")) == 1)
        self.assertEqual(self.shown(), "second")
        self.certificate("third")
        for end in (".pem", ".key"):
            os.rename(self.path("third" + end), self.path("second" + end))
        recorder.send_signal(signal.SIGHUP)
        self.wait_for(lambda: "were read again" in self.get("said"))
        self.assertEqual(self.shown(), "third")
        for one in (recorder, first):
            self.end(one)

    def test_a_service_that_is_not_believed(self):
        self.start_service(MODEL)
        self.certificate("first")
        self.start_recorder("--tls-cert", self.path("first.pem"), "--tls-key", self.path("first.key"), folder="one", said="one.said")
        self.service_port = self.port
        self.start_recorder(is_ready=False, scheme="https")
        self.wait_for(lambda: "CERTIFICATE_VERIFY_FAILED" in self.get("said"), lambda: self.get("said"))

    def test_what_is_refused(self):
        self.put("bad", "no certificate\n")
        given = ["record", "--openfga", "http://127.0.0.1:1", "--listen", "127.0.0.1:%d" % free_port(), "--out", "log"]
        for more, told in ((["--tls-cert", "bad"], "--tls-cert and --tls-key can't be used"), (["--tls-key", "bad"], "--tls-key goes with --tls-cert"),
                           (["--service-ca", "bad"], "--service-ca can't be used"),
                           (["--metrics", "x"], "--metrics is no ADDRESS:PORT"),
                           (["--hold", "inf"], "a time is none below"), (["--poll", "nan"], "a time is none below"), (["--overlap", "-1"], "is below 0")):
            run = self.run_process(*given, *more)
            self.assertEqual(run.returncode, 3, run.stderr)
            self.assertIn(told, run.stderr)


class Unit(Case):
    PLACE = os.path.join(EXAMPLES, "recorder")

    def unit(self):
        with open(os.path.join(self.PLACE, UNIT), encoding="utf-8") as file:
            return file.read()

    def test_its_words_are_those_that_the_recorder_takes(self):
        text = self.unit()
        started = re.search(r"ExecStart=/usr/bin/new-enemy-tools record (.+)", text)[1].replace("%i", "x")
        shown = re.search(r"#   WORDS=(.+)", text)[1]
        _, given = words(started.replace("$WORDS", shown).split())
        self.assertEqual((given.out, given.listen, given.openfga), ("/var/lib/new-enemy/x", "127.0.0.1:8090", "http://127.0.0.1:8080"))
        with open(os.path.join(self.PLACE, "sidecar.yaml"), encoding="utf-8") as file:
            found = re.search(r"args: \[(.+)\]", file.read())[1]
        _, given = words([*json.loads("[%s]" % found), "--out", "/log"])
        self.assertEqual((given.listen, given.metrics), ("127.0.0.1:8090", "0.0.0.0:8091"))

    @unittest.skipUnless(shutil.which("systemd-analyze"), "there is no systemd-analyze")
    def test_systemd_takes_it(self):
        """But for the program, which is not installed here."""
        made = self.put(UNIT.replace("@", "@x"), self.unit().replace("/usr/bin/new-enemy-tools", "/bin/true"))
        run = subprocess.run(["systemd-analyze", "verify", made], capture_output=True, text=True, timeout=300)
        self.assertEqual((run.returncode, run.stderr), (0, ""))

    def test_what_the_image_needs_is_there(self):
        with open(os.path.join(self.PLACE, "Containerfile"), encoding="utf-8") as file:
            copied = [word for line in file if line.startswith("COPY ") for word in line.split()[1:-1]]
        self.assertEqual([os.path.exists(os.path.join(TOP, word)) for word in copied], [True] * 3)


class Shared(OpenFga):
    def test_a_second_recorder_takes_over_the_port_of_one_that_died(self):
        """Each has a log of its own; joined, they have what each of them answered."""
        self.start_service(MODEL)
        first = self.start_recorder("--share-port", folder="left", said="left.said")
        second = self.start_recorder("--share-port", folder="right", said="right.said", port=self.port)

        def count(kind):
            """How many lines of a kind the log of each has."""
            return [len(self.of_kind(kind, folder)) for folder in ("left", "right")]

        def ask(relation, **headers):
            client = Client(self.port)
            try:
                self.assertEqual(self.check(client, "user:a", relation, "document:1", **headers)[0], 200)
            finally:
                client.close()

        def is_saved_through_both():
            """Which of the two gets a connection is up to the system."""
            saved.append("v%d" % len(saved))
            ask("editor", X_Content_Save=saved[-1])
            return len(saved) >= 12 and 0 not in count("content")
        client = Client(self.port)
        self.write(client, key("user:a", "owner", "document:1"))
        client.close()
        # The base state, and this change: of a check that comes before it one of them could not say what it saw.
        self.wait_for(lambda: count("write") == [2, 2])
        saved = []
        self.wait_for(is_saved_through_both, lambda: str(count("content")))
        # What the first has answered and not written it can't write when it is dead.
        self.wait_for(lambda: sum(count("content")) == len(saved), lambda: str(count("content")))
        first.kill()
        first.wait()
        for version in saved:
            ask("viewer", X_Content_Version=version)
        self.end(second)
        self.wait_for(lambda: '"closed"' in self.get("left/000001.jsonl"))
        run = self.run_process("join", "--out", "all", "left", "right")
        self.assertEqual((run.returncode, run.stderr), (0, ""))
        self.import_log(folder="all")
        self.assertEqual(self.found(), {}, self.said_of_audit)
        self.assertEqual((len(self.of_kind("content", "all")), len(self.of_kind("check", "all"))), (len(saved), len(saved)))
        self.assertEqual({row["clock"] for row in self.of_kind("content", "all")}, {"left", "right"})

    def test_one_that_is_killed_and_begun_again_at_its_port(self):
        """As systemd does. Clients that ask the same address are served as soon as it listens, and its log goes on behind a gap."""
        self.start_service(MODEL)
        first = self.start_recorder()
        client = Client(self.port)
        self.addCleanup(client.close)
        self.write(client, key("user:a", "owner", "document:1"))
        self.check(client, "user:a", "editor", "document:1", X_Content_Save="v")
        self.wait_for(lambda: self.of_kind("content"))
        first.kill()
        first.wait()
        self.assertEqual(self.check(client, "user:a", "viewer", "document:1")[0], 0)
        second = self.started("log", "--listen", "127.0.0.1:%d" % self.port, said="again.said")
        self.wait_for(lambda: self.check(client, "user:a", "viewer", "document:1")[0] == 200)
        self.wait_for(lambda: "recording " in self.get("again.said"), lambda: self.get("again.said"))
        self.assertEqual(self.check(client, "user:a", "viewer", "document:1", X_Content_Version="v")[0], 200)
        self.end(second)
        self.assertIn("the recorder did not run", [row["reason"] for row in self.of_kind("gap")])
        self.import_log()
        self.assertEqual((self.found(), self.of_kind("check")[-1]["version"]), ({}, "v"), self.said_of_audit)

    def test_a_port_that_is_not_shared_is_in_use(self):
        self.start_service(MODEL)
        self.start_recorder()
        run = self.run_process("record", "--openfga", "http://127.0.0.1:%d" % self.service_port, "--listen", "127.0.0.1:%d" % self.port, "--out", "other")
        self.assertEqual(run.returncode, 5)
        self.assertIn("cannot listen", run.stderr)
