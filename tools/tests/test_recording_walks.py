"""The commands of docs/RECORDING.md, taken out of the page and run against stand-ins: one recorder, two, an application's own events, OpenFGA's
own log and Envoy's taps. URL, ADDRESS and FOLDER are what they are here; what stands in brackets is left out.
"""
import json
import os
import re
import shlex
import subprocess
import sys
import time
import unittest

from new_enemy_tools.importing.times import nanoseconds, text_of_time
from tests.documents import read
from tests.ports import free_port
from tests.recorded import READY, Client
from tests.stand_in_openfga import STORE
from tests.support import TOOLS
from tests.test_overheard import logged, tapped
from tests.test_own_events import library
from tests.test_recording_openfga import EARLY, FIXED, MODEL, NEWEST, USERS, OpenFga, key
from tests.test_recording_spicedb import DOCUMENTS, FULL, SpiceDb

PAGE = read("docs", "RECORDING.md")
COMMANDS = re.findall(r"(?m)^    (tools/.+)$", PAGE)
# How the commands of the page begin, each of which some walk runs.
OPENFGA, SPICEDB = "tools/ne record --openfga URL --listen", "tools/ne record --spicedb URL --listen"
JOIN, IMPORT = "tools/ne join --out all left right", "tools/ne import events all/*.jsonl"
CHANGES = "tools/ne record (--openfga | --spicedb) URL --changes-only"
OWN, HEARD = "tools/ne join --skew 50 --out all changes events/*.events", "tools/ne join --skew 50 --out all changes openfga.log taps"
WALKED = (OPENFGA, SPICEDB, JOIN, IMPORT, CHANGES, OWN, HEARD)
# Commands that the page and its examples name and that no test runs, since they need what is not there.
ELSEWHERE = re.compile(r"\b(podman build|systemctl reload|systemd-analyze)\b")


class Page(unittest.TestCase):
    def test_each_command_of_the_page_is_walked(self):
        self.assertEqual([[one for one in WALKED if command.startswith(one)] for command in COMMANDS], [[one] for one in WALKED])

    def test_what_is_not_run(self):
        texts = [PAGE, read("examples", "recorder", "Containerfile"), read("examples", "recorder", "new-enemy-recorder@.service")]
        named = sorted({found for text in texts for found in ELSEWHERE.findall(text)})
        self.assertEqual(named, ["podman build", "systemctl reload", "systemd-analyze"])
        self.skipTest("of docs/RECORDING.md and its examples %d commands are not run: %s" % (len(named), ", ".join(named)))


class Walk:
    """A folder in which the page's commands are run."""

    def setUp(self):
        super().setUp()
        os.symlink(TOOLS, self.path("tools"))

    def command(self, begins):
        [found] = [one for one in COMMANDS if one.startswith(begins)]
        return re.sub(r" \[[^]]*\]", "", found)

    def begin(self, begins, folder="left"):
        """A recorder by its command, when it records."""
        self.port = free_port()
        here = {"URL": "http://127.0.0.1:%d" % self.service_port, "ADDRESS": "127.0.0.1:%d" % self.port, "FOLDER": folder}
        chosen = re.sub(r"\([^)]*\)", "--" + self.SERVICE, self.command(begins))
        words = [here.get(one, one) for one in shlex.split(chosen)]
        file = open(self.path("said " + folder), "w+", encoding="utf-8")
        self.addCleanup(file.close)
        one = self.start(*words, stderr=file)
        self.wait_for(lambda: "recording " in self.get("said " + folder), lambda: self.get("said " + folder))
        return one

    def end(self, one):
        one.terminate()
        self.assertEqual(one.wait(READY), 0)

    def run_page(self, begins, folder="all"):
        command = self.command(begins).replace("all/", folder + "/")
        run = subprocess.run(["bash", "-c", command], cwd=self.room, env={**os.environ, "PATH": os.path.dirname(sys.executable) + ":" + os.environ["PATH"]},
                             capture_output=True, text=True, timeout=300)
        self.assertIn(run.returncode, (0, 6) if begins == IMPORT else (0,), run.stdout + run.stderr)
        return run.stdout + run.stderr


class OfOpenFga(Walk, OpenFga):
    def setUp(self):
        super().setUp()
        self.start_service(MODEL, "0.3", "planted")
        self.prepare()

    def ask(self, port, count=20):
        """Checks of what no write touches any more, each with its reply, and when it was sent and answered."""
        client = Client(port)
        self.addCleanup(client.close)
        for number in range(count):
            goal = USERS[number % len(USERS)], "viewer", (FIXED + EARLY)[number % 6]
            began = time.time_ns()
            reply = self.check(client, *goal)[1]["allowed"]
            yield goal, reply, began, time.time_ns()

    def assert_found(self, count, folder="all"):
        """All checks are in the log or counted; what the service planted is found, and nothing else."""
        found, planted = self.found(), len(self.get("planted").splitlines())
        lost = sum(row.get("lost", 0) for row in self.of_kind("gap", folder)) + sum("detail" in row for row in self.of_kind("unmapped", folder))
        self.assertEqual(len(self.of_kind("check", folder)) + lost, count)
        self.assertEqual(set.union(*found.values()), {"F10 wrong reply"})
        self.assertLessEqual(len(found), planted)

    def test_one_proxy(self):
        recorder = self.begin(OPENFGA)
        asked = list(self.ask(self.port))
        self.end(recorder)
        self.run_page(IMPORT, "left")
        self.assert_found(len(asked), "left")

    def test_two_proxies(self):
        recorders, asked = [], []
        for folder in "left", "right":
            recorders.append(self.begin(OPENFGA, folder))
            asked += self.ask(self.port)
        for one in recorders:
            self.end(one)
        self.run_page(JOIN)
        self.run_page(IMPORT)
        self.assert_found(len(asked))

    def overheard(self, tell):
        """A log of the changes alone, while something tells what is asked at the service itself."""
        recorder = self.begin(CHANGES, "changes")
        # A check of OpenFGA's log may have begun three seconds before its line, and is placed where the changes were read by then.
        time.sleep(3.1)
        asked = 0
        for one in self.ask(self.service_port):
            tell(*one)
            asked += 1
        # A check is placed where the changes were read beyond it.
        until = time.time_ns() + 10 ** 8
        self.wait_for(lambda: any(nanoseconds(row["until"]) > until for row in self.of_kind("read", "changes")[-1:]))
        self.end(recorder)
        return asked

    def test_own_events(self):
        events = library().Events(self.path("events"), STORE)

        def tell(goal, reply, began, ended):
            """The library has its own clock, so the check is asked again within."""
            with events.asked(*goal, newest=True) as one:
                client = Client(self.service_port)
                one.reply = self.check(client, *goal)[1]["allowed"]
                client.close()
        asked = self.overheard(tell)
        events.close()
        self.run_page(OWN)
        self.run_page(IMPORT)
        self.assert_found(asked)

    def test_openfgas_own_log_and_envoys_taps(self):
        """Half of the checks stand in each."""
        heard, at = [], [0]
        os.mkdir(self.path("taps"))

        def tell(goal, reply, began, ended):
            body, at[0] = {"tuple_key": key(*goal), "consistency": NEWEST}, at[0] + 1
            if at[0] % 2:
                heard.append(logged(0, {**body, "store_id": STORE}, {"allowed": reply}, timestamp=text_of_time(ended // 10 ** 6 * 10 ** 6)))
                return
            one = tapped(0, 0, body, {"allowed": reply}, path="/stores/%s/check" % STORE)
            for part, when in (("request", began), ("response", ended)):
                one["http_buffered_trace"][part]["headers_received_time"] = text_of_time(when)
            self.put("taps/check_%d.json" % at[0], json.dumps(one))
        asked = self.overheard(tell)
        self.put("openfga.log", heard)
        self.run_page(HEARD)
        self.assertIn("gaps in which nobody counted", self.run_page(IMPORT))
        self.assert_found(asked)
        files = {row["file"].split("/")[0] for row in self.of_kind("check", "all")}
        self.assertEqual(files, {"openfga.log", "taps"})


class OfSpiceDb(Walk, SpiceDb):
    def test_one_proxy(self):
        self.start_service()
        client = Client(self.service_port)
        self.prepare(client)
        recorder = self.begin(SPICEDB)
        client.port = self.port
        client.close()
        for thing in DOCUMENTS:
            self.assertEqual(self.check(client, USERS[0], "viewer", thing, FULL)[0], 200)
        client.close()
        self.end(recorder)
        self.run_page(IMPORT, "left")
        self.assertEqual((self.found(), len(self.of_kind("check", "left"))), ({}, len(DOCUMENTS)))
