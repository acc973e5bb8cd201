"""`ne monitor` beside a recorder in front of a stand-in of OpenFGA, and over logs that grow: what it tells, also when
it is killed at any moment.

KILLS in the environment says how often it is killed.
"""
import hashlib
import hmac
import json
import os
import re
import shutil
import signal
import socket
import subprocess
import threading
import time
import unittest
import urllib.error
import urllib.request
from datetime import datetime, timedelta, timezone
from http.server import BaseHTTPRequestHandler, HTTPServer
from random import Random

from new_enemy_tools.commands.monitor import given_of
from new_enemy_tools.monitoring.delivery import Send
from new_enemy_tools.monitoring.receivers import Syslog
from tests import test_joining
from tests.ports import free_port
from tests.recorded import READY, Client, Recorded
from tests.support import EXAMPLES, TOOLS, TOP
from tests.test_going_on import RULES, events_of
from tests.test_recording_openfga import MODEL
from tests.test_recording_openfga import Loaded as OpenFgaLoaded
from tests.test_recording_spicedb import Loaded as SpiceDbLoaded
from tests.test_trace_maker import check, content, rel, write

PROGRAM = os.path.abspath(os.environ["NEW_ENEMY"])
PATIENT = os.path.join(TOOLS, "tests", "patient_monitor.py")
KILLS = int(os.environ.get("KILLS", "20"))
UNIT = "new-enemy-monitor@.service"
SECRET = "0123456789abcdef"
# A day that does not end while tests run, and the one behind it.
DAY, NEXT = ((datetime.now(timezone.utc) + timedelta(hours=hours)).strftime("%Y-%m-%d") for hours in (12, 36))
BASE = write(0, base=True)
PLACE = {"event": "place", "revision": 0}


def compact(events):
    return "".join(json.dumps(event, separators=(",", ":")) + "\n" for event in events).encode()


def files_of(events, counts, service="openfga"):
    """The files of a recorder's log, of which each but the last has so many events; all are closed."""
    files, before, events = [], None, list(events)
    for number, count in enumerate([*counts, len(events)], 1):
        some, events = events[:count], events[count:]
        data = compact([{"event": "log", "number": number, "before": before, "service": service}, *some])
        before = hashlib.sha256(data).hexdigest()
        files.append(data + compact([{"event": "closed", "count": data.count(b"\n"), "sha256": before}]))
    return files


def timed(events, day=DAY):
    return [{**event, "time": "%sT10:%02d:%02dZ" % (day, place // 60, place % 60)} for place,
            event in enumerate(events)]


class Monitoring(Recorded):
    """Monitors as processes, over logs that recorders write or that are put there."""

    def monitor(self, *words, log="log", out="out", said="monitor.err", told="told"):
        """A monitor as a process; what it tells goes behind what earlier ones told. The replies of these logs are days old, so on a machine with
        much other work there would be an alert of their lag, unless a test asks for it."""
        files = [open(self.path(name), "a", encoding="utf-8") for name in (told, said)]
        one = self.start(PATIENT, "monitor", "--program", PROGRAM, "--hold", "0", "--most-lag", "1e9", *words, log, out,
                         stdout=files[0], stderr=files[1])
        for file in files:
            file.close()
        return one

    def ends(self, one, status=0):
        self.assertEqual(one.wait(READY), status, self.get("monitor.err"))

    def stop(self, one):
        one.send_signal(signal.SIGTERM)
        self.ends(one)

    def told(self, name="told"):
        # The last line of one that was killed may be there by half.
        return [json.loads(line) for line in self.get(name).split("\n")[:-1]] if os.path.exists(self.path(name)) else []

    def days_told(self, folder):
        """The findings of all days with their effects, each by where its check stands in the log."""
        rows = []
        for day in sorted(name for name in os.listdir(self.path(folder)) if name.startswith("day")):
            rows += self.rows(os.path.join(folder, day, "report.jsonl"))[1:]
        return {(row["from"], row["finding"], row["effect"], row.get("outcome")) for row in rows}

    def day(self):
        run = self.run_tool("day", "--program", PROGRAM, "--jobs", "1", "byday", "events", *self.files())
        self.assertIn(run.returncode, (0, 1, 6), run.stderr)
        return self.days_told("byday")

    def assert_as_the_day(self):
        """What the runs of the monitor and its alerts tell of the log that is there is what `ne day` tells."""
        day, told = self.day(), self.told()
        self.assertEqual(self.days_told("out/days"), day)
        self.assertEqual(len({row["id"] for row in told}), len(told))
        mattered = {one for one in day if one[2] in ("wrong", "changed", "undecided")}
        self.assertTrue(mattered)
        found = [row for row in told if row["kind"] == "finding"]
        self.assertLessEqual({(row["from"], row["finding"], row["effect"], row.get("outcome")) for row in found},
                             mattered)
        self.assertEqual({row["goal"] for row in found}, self.goals_of(mattered))

    def goals_of(self, found):
        """The questions of some findings of the days."""
        places = {place for place, *_ in found}
        rows = [row for name in os.listdir(self.path("byday")) if name.startswith("day")
                for row in self.rows("byday/%s/report.jsonl" % name)[1:]]
        return {row["goal"] for row in rows if row["from"] in places
                and row["effect"] in ("wrong", "changed", "undecided")}

    def put_log(self, files, folder="log"):
        os.makedirs(self.path(folder), exist_ok=True)
        for number, data in enumerate(files, 1):
            self.put(os.path.join(folder, "%06d.jsonl" % number), data)


class BesideOpenFga(Monitoring, OpenFgaLoaded):
    def test_it_tells_what_the_day_tells(self):
        self.start_service(MODEL, "0.3", "planted")
        self.prepare()
        recorder = self.start_recorder()
        monitor = self.monitor()
        self.run_clients(4, 60, self.work)
        self.wait_for(lambda: self.told(), lambda: self.get("monitor.err"))
        self.end(recorder)
        self.stop(monitor)
        self.ends(self.monitor("--once"))
        self.assert_as_the_day()


class BesideSpiceDb(Monitoring, SpiceDbLoaded):
    def compare(self, *words):
        self.start_service("0.1", "planted", *words)
        client = Client(self.service_port)
        self.prepare(client)
        client.close()
        recorder = self.start_recorder("--hold", "600")
        monitor = self.monitor()
        # The changes stand still for twenty turns of twenty-five.
        self.run_clients(4, 75, self.work)
        self.wait_for_changes()
        self.wait_for(lambda: self.told(), lambda: self.get("monitor.err"))
        self.end(recorder)
        self.stop(monitor)
        self.ends(self.monitor("--once"))
        self.assert_as_the_day()

    def test_it_tells_what_the_day_tells(self):
        self.compare()

    def test_on_postgres(self):
        self.compare("--postgres")


class BesideSeveral(Monitoring, OpenFgaLoaded):
    """Over the logs of two recorders, with a third between these and the service."""

    start_two, work = test_joining.Processes.start_two, test_joining.Processes.work

    def several(self, *words):
        return self.monitor("--hold", "30", *words, "left", log="right")

    def test_it_tells_what_a_join_of_the_logs_tells(self):
        """Also where it is killed, and begun again in the middle of a run or behind one."""
        self.start_two("0.3")
        self.run_broken()
        for recorder, _ in self.two:
            self.end(recorder)
        self.end(self.between)
        self.compare()

    def run_broken(self):
        """Clients ask beside a monitor that is killed meanwhile, and one that is begun behind it."""
        one = self.several("--day-bytes", "20000")
        self.run_clients(4, 40, self.work)
        self.wait_for(lambda: self.told(), lambda: self.get("monitor.err"))
        one.kill()
        one.wait()
        self.last = self.several("--day-bytes", "20000")
        self.wait_for(lambda: self.get("monitor.err").count("reading left and right") == 2)
        self.run_clients(4, 40, self.work)

    def compare(self):
        self.stop(self.last)
        self.ends(self.several("--once"))
        run = self.run_process("join", "--out", "all", "left", "right")
        self.assertEqual((run.returncode, run.stderr), (0, ""))
        self.import_log(folder="all")
        joined = {(place, name.split()[0]) for place, names in self.found().items() for name in names}
        self.assertEqual({one[:2] for one in self.days_told("out/days")}, joined)
        self.assertGreater(len(joined), 10)
        told = self.told()
        self.assertEqual(len({row["id"] for row in told}), len(told), "told twice")
        self.assertLessEqual({(row["from"], row["finding"]) for row in told if row["kind"] == "finding"}, joined)
        self.assertGreater(len({row["file"].partition("/")[0] for row in told if row["kind"] == "finding"}), 1)
        # What no run needs is not kept twice.
        self.assertEqual(sum(name.endswith(".jsonl") for name in os.listdir(self.path("out/joined"))), 1)

    def test_what_is_refused(self):
        doc = rel("plan", "viewer", "bob")
        self.put_log(files_of(timed([RULES, BASE, PLACE, write(5, doc), check(5, True, doc)]), []))
        for words, said in ((("log",), "one LOG stands twice"), (("--ended", "log"), "--ended and --skew are of several logs"),
                            (("--skew", "5"), "--ended and --skew are of several logs"),
                            (("--ended", "other", "left"), "--ended other names no LOG")):
            self.ends(self.monitor(*words), 3)
            self.assertIn(said, self.get("monitor.err"))
        os.mkdir(self.path("left"))
        self.ends(self.monitor("--once", "left"), 2)
        self.assertIn("log does not say which store it is of", self.get("monitor.err"))
        self.ends(self.monitor("--once", out="single"))
        self.ends(self.monitor("--once", "left", out="single"), 2)
        self.assertIn("the runs before are of one log that was not joined", self.get("monitor.err"))


    def test_what_was_joined_and_not_kept_is_cut(self):
        """A monitor that was killed joins anew what it had joined since its last run, and nobody reads the rest."""
        for name in ("left", "right"):
            rows = test_joining.lines(test_joining.change(1, "a"), test_joining.check(1, 3), test_joining.change(2, "b"))
            self.put_log(files_of([rows[1], *rows[2:]], []), name)
        self.ends(self.several("--once"))
        self.assertEqual(json.loads(self.get("out/days/day000001/summary.json"))["entries"], 2)
        kept, number = self.get("out/joined/000001.jsonl"), json.loads(self.get("out/joined.json"))
        self.assertEqual((number["number"], number["size"]), (1, len(kept)))
        self.put("out/joined/000001.jsonl", kept + '{"event":"check","goal":["document","d","viewer","user","z"],"snapshot":2,"reply":true}\n')
        self.put("out/joined/000002.jsonl", "no line\n")
        self.ends(self.several("--once"))
        self.assertEqual(self.get("out/joined/000001.jsonl"), kept)
        self.assertEqual(sorted(os.listdir(self.path("out/joined"))), ["000001.jsonl"])
        self.assertEqual(sorted(os.listdir(self.path("out/days"))), ["day000001", "lock"])
        self.put("out/joined/000001.jsonl", kept[:-10])
        self.ends(self.several("--once"), 5)
        self.assertIn("out/joined/000001.jsonl was cut; begin another folder", self.get("monitor.err"))


class BesideSeveralOfSpiceDb(Monitoring, SpiceDbLoaded):
    """Over the logs of two recorders in front of SpiceDB."""

    several, run_broken, compare = BesideSeveral.several, BesideSeveral.run_broken, BesideSeveral.compare

    def work(self, client, random, number, turn):
        client.port = self.two[number % 2][1]
        super().work(client, random, number, turn)

    def test_it_tells_what_a_join_of_the_logs_tells(self):
        self.start_service("0.1", "planted")
        client = Client(self.service_port)
        self.prepare(client)
        client.close()
        self.two = [(self.start_recorder("--hold", "600", folder=name, said=name + ".said"), self.port)
                    for name in ("left", "right")]
        self.run_broken()
        for recorder, _ in self.two:
            self.end(recorder)
        self.compare()


class Growing(Monitoring):
    """Over logs that grow as this writes them."""

    def test_kills(self):
        """Whenever it is killed: what is told together is what an unbroken one tells, and each story once."""
        random = Random("kills")
        events = [RULES, BASE, PLACE, *timed(events_of(random, 400)), write(10 ** 6, rel("none"))]
        self.put_log(files_of(events, [150, 100]), "whole")
        self.ends(self.monitor("--once", log="whole", out="unbroken", told="wanted"))
        data = [(name, self.get(os.path.join("whole", name)).encode())
                for name in sorted(os.listdir(self.path("whole")))]
        os.mkdir(self.path("log"))
        size = min(2_000, sum(len(text) for _, text in data) // KILLS)
        pieces = [(name, text[at:at + size]) for name, text in data for at in range(0, len(text), size)]
        turns = max(1, len(pieces) // KILLS)
        for turn in range(KILLS):
            one = self.monitor()
            for name, piece in pieces[turn * turns:(turn + 1) * turns if turn < KILLS - 1 else len(pieces)]:
                with open(self.path(os.path.join("log", name)), "ab") as file:
                    file.write(piece)
                time.sleep(random.random() * 0.1)
            time.sleep(random.random() * 0.8)
            one.kill()
            one.wait()
        self.ends(self.monitor("--once"))
        self.assertEqual(len(self.told()), len({row["id"] for row in self.told()}), "told twice")
        wanted, told = ({row["id"]: row for row in self.told(name)} for name in ("wanted", "told"))
        self.assertGreater(len(wanted), 20)
        self.assertEqual({key for key in told if "-" not in key}, {key for key in wanted if "-" not in key})
        counts = [{row["first_id"]: row["count"] for row in rows.values() if row["kind"] == "again"}
                  for rows in (wanted, told)]
        self.assertEqual(*counts)
        self.assertEqual(*({(place.partition("/")[2], *more) for place, *more in self.days_told(name)}
                           for name in ("unbroken/days", "out/days")))

    def log_of_days(self):
        random = Random("days of a monitor")
        first, second = (timed(events_of(random, 150), day) for day in (DAY, NEXT))
        rise = max(event.get("revision", 0) for event in first)
        for event in second:
            for key in ("revision", "snapshot", "token"):
                if key in event:
                    event[key] += rise
            if "version" in event:
                event["version"] += " of day 2"
        return [RULES, BASE, PLACE, *first, *second, write(10 ** 6, rel("none"))]

    def test_runs(self):
        """At midnight, and where the trace is long enough, a run ends; all tell together what the days of `ne day`
        do."""
        self.put_log(files_of(self.log_of_days(), [100]))
        self.ends(self.monitor("--once", "--html"))
        run = self.run_tool("day", "--program", PROGRAM, "--jobs", "1", "byday", "events", *self.files())
        self.assertIn(run.returncode, (1, 6), run.stderr)
        wanted = {one[:2] for one in self.days_told("byday")}
        self.assertGreater(len(wanted), 30)
        self.assertEqual({one[:2] for one in self.days_told("out/days")}, wanted)
        self.assertEqual(sorted(os.listdir(self.path("out/days"))), ["day000001", "day000002", "index.html", "lock"])
        # A check of the first day that no commit had settled is told with the second.
        self.assertEqual({row["time"][:10] for row in self.rows("out/days/day000001/report.jsonl")[1:]}, {DAY})
        for name in ("mail.txt", "report.html", "summary.json", "lines.json", "told"):
            self.assertTrue(os.path.exists(self.path("out/days/day000001/" + name)), name)
        explained = self.run_tool("explain", "--ids", "out/days/day000002/ids.jsonl", "out/days/day000001",
                                  str(self.rows("out/days/day000001/report.jsonl")[1]["line"]))
        self.assertEqual((explained.returncode, explained.stderr), (0, ""))
        os.mkdir(self.path("grown"))
        one = self.monitor("--day-bytes", "4096", "--keep-snapshots", "100", log="grown", out="often",
                           said="often.err", told="often.told")
        size = ends = 0
        for name in sorted(os.listdir(self.path("log"))):
            for line in self.get("log/" + name).splitlines(True):
                with open(self.path("grown/" + name), "a", encoding="utf-8") as file:
                    file.write(line)
                size += len(line)
                # A run has less of the log than this, and what is read at once is one run.
                if size > 14_000 * (ends + 1):
                    ends += 1
                    self.wait_for(lambda: self.ended(said="often.err") >= ends, lambda: self.get("often.err"))
        self.assertEqual(ends, 3)
        self.stop(one)
        self.ends(self.monitor("--once", "--day-bytes", "4096", "--keep-snapshots", "100", log="grown", out="often",
                               told="often.told"))
        self.assertGreater(len(os.listdir(self.path("often/days"))), ends)
        self.assertEqual({(place.replace("grown", "log"), finding) for place, finding,
                          *_ in self.days_told("often/days")}, wanted)
        # `ne day` does not go on in the middle of a file.
        run = self.run_tool("day", "--program", PROGRAM, "out/days", "events", *self.files())
        self.assertEqual(run.returncode, 2)
        self.assertIn("by ne monitor", run.stderr)

    def ended(self, said):
        """How many runs of a monitor have ended."""
        return len(re.findall("(?m)^monitor: run .* has ended", self.get(said)))

    def sums_of(self, folder):
        """What a day's summary counts. A run may end in the middle of a file, so it names no last one."""
        found = json.loads(self.get(folder + "/summary.json"))
        found["coverage"].pop("last_file", None)
        return {key: found[key] for key in ("status", "entries", "findings", "not_audited", "held_over", "verdict",
                                            "coverage", "looked")}

    def test_a_day_that_ends_by_the_clock(self):
        """Also where no line comes; its page, its sums and its trace are those of `ne day` over the same folder."""
        day = (datetime.now(timezone.utc) - timedelta(hours=36)).strftime("%Y-%m-%d")
        events = [RULES, BASE, PLACE, *timed(events_of(Random("nights"), 200), day), write(10 ** 6, rel("none"))]
        self.put_log(files_of(events, [150]))
        # A zone in which the next day does not end meanwhile.
        one = self.monitor("--html", "--zone", "Asia/Tokyo" if datetime.now(timezone.utc).hour > 19 else "Europe/Berlin")
        self.wait_for(lambda: "run 1 has ended, since the day is over" in self.get("monitor.err"),
                      lambda: self.get("monitor.err"))
        run = self.run_tool("day", "--program", PROGRAM, "--jobs", "1", "--html", "byday", "events", *self.files())
        self.assertEqual(run.returncode, 1, run.stderr)
        self.assertGreater(len(self.days_told("byday")), 20)
        self.assertEqual(self.days_told("out/days"), self.days_told("byday"))
        self.assertEqual(*map(self.sums_of, ("out/days/day000001", "byday/day000001")))
        self.assertEqual(*(sorted(name for name in os.listdir(self.path(folder + "/day000001"))
                                  if name != "monitored.json") for folder in ("out/days", "byday")))
        # What comes then is of the next run, which has a day of its own.
        more = compact([{"event": "log", "number": 3, "before": hashlib.sha256(b"".join(self.get(
            "log/000002.jsonl").encode().splitlines(True)[:-1])).hexdigest(), "service": "openfga"},
            *timed([check(10 ** 6, True, rel("none")), check(10 ** 6, False, rel("none"))])])
        self.put("log/000003.jsonl", more)
        self.wait_for(lambda: any(row.get("from") == "log/000003.jsonl:3" for row in self.told()),
                      lambda: self.get("monitor.err"))
        self.stop(one)
        self.assertEqual(self.get("monitor.err").count("has ended"), 1)

    def test_it_goes_on_in_the_next_file(self):
        """Where a run has ended with a file, the next one begins with the first line of the file behind it."""
        events = [RULES, BASE, PLACE, *timed(events_of(Random("files of a monitor"), 200)), write(10 ** 6, rel("none"))]
        files = files_of(events, [50, 70])
        for number in range(1, 4):
            self.put_log(files[:number])
            self.ends(self.monitor("--once", "--keep-snapshots", "100"))
        day = {one[:2] for one in self.day()}
        self.assertGreater(len(day), 20)
        self.assertEqual({one[:2] for one in self.days_told("out/days")}, day)
        self.assertEqual(sorted(os.listdir(self.path("out/days"))), ["day000001", "day000002", "day000003", "lock"])

    def test_what_is_refused(self):
        """By name, with the line; it is told as an alert too, and once."""
        events = [RULES, BASE, PLACE, write(2, rel()), check(2)]
        cases = (([files_of(events, [3])[0], files_of(events, [3])[1].replace(b'"before":"', b'"before":"0')],
                  "log/000002.jsonl:1: it goes on from another file than the one before it; give the files of one log, as "
                  "tools/record wrote them"),
                 ([files_of(events, [])[0].replace(b"true", b"false")],
                  "log/000001.jsonl:7: the file was changed or cut after it was written: its last line tells of other lines "
                  "than these; give the file as tools/record wrote it"),
                 (files_of([*events, {"event": "check", "goal": rel(), "reply": True}], []),
                  "log/000001.jsonl:7: `snapshot` is no whole number"),
                 ([compact(events)], "log/000001.jsonl:1: this is no file of a recorder's log; give the folder that tools/ne "
                  "record writes (--out)"),
                 ([files_of(events, [])[0][:-20] + b"\nno line\n"],
                  "log/000001.jsonl:8: the line is none that tools/record writes; give the folder as its recorder left "
                  "it"))
        for number, (files, text) in enumerate(cases):
            with self.subTest(text):
                self.put_log(files)
                for _ in range(2):
                    one = self.monitor("--once", out="refused%d" % number, told="refused%d.told" % number)
                    self.ends(one, 2)
                said = [row["said"] for row in self.told("refused%d.told" % number)]
                self.assertEqual(said, ["the monitor stopped, and nothing is audited: " + text])
                for name in self.files():
                    os.remove(self.path(name))
        self.put_log([files_of(events, [])[0]])
        os.rename(self.path("log/000001.jsonl"), self.path("log/000002.jsonl"))
        self.ends(self.monitor("--once", out="missing"), 2)
        self.assertEqual([row["said"] for row in self.told()], ["the monitor stopped, and nothing is audited: file 1 of the log in "
                                                                "log is missing, and others go on from it; give it back"])
        self.ends(self.monitor(log="none"), 5)

    def test_a_journal_that_was_altered(self):
        """What was written by half is cut; a row that is none is refused, since an alert may be lost with it."""
        self.put_log(files_of([RULES, BASE, PLACE, write(5, rel()), check(5, False)], []))
        self.ends(self.monitor("--once"))
        rows = self.get("out/alerts.jsonl")
        self.put("out/alerts.jsonl", rows + '{"alert":9,"run":')
        self.ends(self.monitor("--once"))
        self.put("out/alerts.jsonl", "no row\n" + rows)
        self.ends(self.monitor("--once"), 2)
        self.assertIn("out/alerts.jsonl:1: this is no row that a monitor wrote", self.get("monitor.err"))
        self.assertEqual([row["alert"] for row in self.told()], [1])

    def test_two_at_once(self):
        self.put_log([files_of([RULES, BASE, PLACE], [])[0]])
        one = self.monitor()
        self.wait_for(lambda: "reading log" in self.get("monitor.err"))
        self.ends(self.monitor(said="other.err"), 2)
        self.assertIn("another run works in out/days", self.get("other.err"))
        self.stop(one)


class Hook(BaseHTTPRequestHandler):
    """A receiver that is down at first, and then answers as it is told to."""

    protocol_version = "HTTP/1.1"

    def do_POST(self):
        body = self.rfile.read(int(self.headers["Content-Length"]))
        self.server.asked += 1
        is_down = self.server.asked <= self.server.down
        if not is_down:
            sent = self.headers["X-New-Enemy-Time"]
            wanted = hmac.new(SECRET.encode(), sent.encode() + b"." + body, hashlib.sha256).hexdigest()
            self.server.are_signed.append(self.headers["X-New-Enemy-Signature"] == "sha256=" + wanted)
            # Last, since tests wait for it.
            self.server.got.append((json.loads(body), time.time()))
        self.send_response(503 if is_down else 204)
        self.send_header("Content-Length", "0")
        self.end_headers()

    def log_message(self, *_):
        pass


class Hooked(Monitoring):
    def hook(self, down=0, port=0):
        server = HTTPServer(("127.0.0.1", port), Hook)
        server.asked, server.down, server.got, server.are_signed = 0, down, [], []
        threading.Thread(target=server.serve_forever, daemon=True).start()
        self.addCleanup(server.server_close)
        self.addCleanup(server.shutdown)
        return server

    def log(self):
        """A log with a new enemy, a wrong reply, and a stale reply that is harmless."""
        doc = rel("plan", "viewer", "bob")
        events = [RULES, BASE, PLACE, write(5, doc, rel("plan", "viewer", "alice")), write(10, remove=[doc]),
                  content(10, "v2", goal=rel("plan", "viewer", "alice"), token=10), check(5, True, doc, version="v2"),
                  check(10, True, doc), check(5, True, rel("plan", "viewer", "alice"), version="v2"),
                  check(5, True, doc, version="v2")]
        self.put_log(files_of(timed(events), []))


class Receivers(Hooked):
    def test_a_webhook_that_is_down(self):
        """Nothing is lost, and all is signed."""
        self.log()
        self.put("secret", SECRET + "\n")
        server = self.hook(down=3)
        url = "http://127.0.0.1:%d/alerts?to=duty" % server.server_port
        one = self.monitor("--webhook", url, "--secret", "secret")
        self.wait_for(lambda: len(server.got) == 2, lambda: self.get("monitor.err"))
        self.stop(one)
        rows = [row for row, _ in server.got]
        self.assertEqual([(row["kind"], row["effect"], row["title"], row.get("new_enemy")) for row in rows], [
            ("finding", "changed", "user:bob, a new enemy, was let in: doc:plan#viewer@user:bob F2 old token", True),
            ("finding", "wrong", "user:bob was let in: doc:plan#viewer@user:bob F10 wrong reply", None)])
        self.assertEqual([rows[0][key] for key in ("user", "object", "relation", "version", "from", "ignored_from",
                                                   "time", "ignored_since")], [
            "user:bob", "doc:plan", "viewer", "v2", "log/000001.jsonl:8", "log/000001.jsonl:6",
                                                                               DAY + "T10:00:06Z",
                                                                               DAY + "T10:00:04Z"])
        self.assertIn("doc:plan#viewer@user:bob was removed", [event["text"] for event in rows[0]["story"]["events"]])
        self.assertEqual(server.are_signed, [True, True])
        # The story that goes on is told with its count, when the run ends.
        self.ends(self.monitor("--once", "--webhook", url, "--secret", "secret"))
        self.assertEqual([(row["kind"], row["first"], row["count"]) for row, _ in server.got[2:]], [("again", 1, 2)])

    def test_a_story_that_goes_on(self):
        """It is told with its count, as often as --again says."""
        doc = rel("plan", "viewer", "bob")
        events = timed([RULES, BASE, PLACE, write(5, doc), write(10, remove=[doc]), *[check(10, True, doc)] * 4])
        lines = files_of(events, [])[0].splitlines(True)
        self.put_log([b"".join(lines[:7])])
        one = self.monitor("--again", "1")
        self.wait_for(lambda: self.told())
        with open(self.path("log/000001.jsonl"), "ab") as file:
            file.write(b"".join(lines[7:]))
        self.wait_for(lambda: self.told()[-1].get("count") == 4, lambda: str(self.told()))
        self.stop(one)
        # Where the program is slow, it may be told again before all were found.
        _, *again = self.told()
        self.assertEqual([again[-1][key] for key in ("kind", "first", "count", "until")], ["again", 1, 4, DAY + "T10:00:08Z"])
        self.assertEqual((sum(one["more"] for one in again), len(again) < 4), (3, True))

    def test_a_webhook_that_is_not_there(self):
        """The alerts wait on the disk, and a later monitor tells them."""
        self.log()
        port = free_port()
        url = "http://127.0.0.1:%d/" % port
        one = self.monitor("--webhook", url, "--metrics", "127.0.0.1:%d" % free_port())
        self.wait_for(lambda: os.path.exists(self.path("out/alerts.jsonl"))
                      and self.get("out/alerts.jsonl").count("\n") == 2)
        self.stop(one)
        server = self.hook(port=port)
        one = self.monitor("--webhook", url)
        self.wait_for(lambda: len(server.got) == 2)
        self.stop(one)
        self.assertEqual([row["alert"] for row, _ in server.got], [1, 2])

    def test_others(self):
        """A command, the log of the system, and standard output: each has all alerts, whatever becomes of another."""
        self.log()
        self.put("take", "#!/bin/sh\ncat >> taken; test -e ready || { touch ready; echo no >&2; exit 1; }\n")
        os.chmod(self.path("take"), 0o700)
        self.ends(self.monitor("--once", "--command", "./take", "--print"))
        self.assertEqual([row["alert"] for row in self.told()], [1, 2, 3])
        # The first was taken twice, since the command said that it was not.
        self.assertEqual([json.loads(line)["alert"] for line in self.get("taken").splitlines()], [1, 1, 2, 3])

    def test_the_log_of_the_system(self):
        send = Send("syslog", 1, "{}")
        with socket.socket(socket.AF_UNIX, socket.SOCK_DGRAM) as end:
            end.bind(self.path("log"))
            self.assertIsNone(Syslog(self.path("log")).take(send))
            self.assertEqual(end.recv(100), b"<26>new_enemy: {}")
        self.assertRegex(Syslog(self.path("none")).take(send), "No such file")

    def test_a_command_that_outlives_its_monitor(self):
        """It is not begun again: the next monitor waits for it, and goes on with the alert behind."""
        self.log()
        self.put("take", "#!/bin/sh\necho begun >> turns\nuntil test -e go; do sleep 0.05; done\ncat >> taken\n")
        os.chmod(self.path("take"), 0o700)
        one = self.monitor("--command", "./take")
        self.wait_for(lambda: os.path.exists(self.path("turns")), lambda: self.get("monitor.err"))
        one.kill()
        one.wait()
        one = self.monitor("--once", "--command", "./take")
        self.wait_for(lambda: self.get("monitor.err").count("run 1 has ended") == 1, lambda: self.get("monitor.err"))
        self.assertEqual(self.get("turns"), "begun\n")
        self.put("go", "")
        self.ends(one)
        self.assertEqual([json.loads(line)["alert"] for line in self.get("taken").splitlines()], [1, 2, 3])
        self.assertEqual(self.get("turns"), "begun\n" * 3)

    def test_a_file_that_has_the_line_already(self):
        """A monitor that was killed before its mark, or in a line, finds what the file has."""
        self.log()
        self.ends(self.monitor("--once"))
        told = self.get("told")
        self.assertEqual(len(told.splitlines()), 3)
        first = told.splitlines(True)[0]
        for number, (has, wanted) in enumerate(((told, told), (first[:40], told), (first, told), ("", told),
                                                ("of others", "of others\n" + told))):
            with self.subTest(has):
                self.put("told%d" % number, has)
                # Without marks and days it is told anew, as by a monitor that was killed in its first run.
                self.ends(self.monitor("--once", told="told%d" % number, out="again%d" % number))
                self.assertEqual(self.get("told%d" % number), wanted)

    def test_marks_that_were_altered_or_taken_away(self):
        """Each number is given to one alert alone, also where the journal is gone."""
        self.log()
        self.ends(self.monitor("--once"))
        self.assertEqual(self.get("out/delivered/output"), "%020d\n" % 3)
        shutil.rmtree(self.path("out/days"))
        os.remove(self.path("out/alerts.jsonl"))
        self.ends(self.monitor("--once"))
        self.assertEqual([row["alert"] for row in self.told()], [1, 2, 3, 4, 5, 6])
        self.put("out/delivered/output", "7\n")
        self.ends(self.monitor("--once"), 2)
        self.assertIn("out/delivered/output: this is no number of an alert", self.get("monitor.err"))

    def test_a_secret_that_is_none(self):
        self.log()
        self.put("secret", "short\n")
        self.ends(self.monitor("--webhook", "http://127.0.0.1:1/", "--secret", "secret"), 2)
        self.assertIn("fewer than 16 bytes", self.get("monitor.err"))


class Metrics(Hooked):
    def asked(self, port, path):
        try:
            with urllib.request.urlopen("http://127.0.0.1:%d%s" % (port, path), timeout=READY) as answer:
                return answer.status, answer.read().decode()
        except urllib.error.HTTPError as fault:
            return fault.code, fault.read().decode()
        except OSError:
            return 0, ""

    def numbers(self, port):
        lines = self.asked(port, "/metrics")[1].splitlines()
        return {name.removeprefix("new_enemy_monitor_"): float(value) for name, _,
                value in (line.rpartition(" ") for line in lines) if name[:1] != "#"}

    def test_what_was_looked_at(self):
        self.log()
        port = free_port()
        one = self.monitor("--metrics", "127.0.0.1:%d" % port)
        wanted = {"entries_total": 5, 'findings_total{finding="F10",effect="wrong"}': 1, 'findings_total{finding="F2",effect="changed"}': 2,
                  'findings_total{finding="F2",effect="none"}': 1, "lag_seconds": 0, "open": 0, "held_lines": 0, "caught_up": 1,
                  'alerts_waiting{receiver="output"}': 0}
        found = {}

        def is_told():
            found.update(self.numbers(port))
            return {key: found.get(key) for key in wanted} == wanted
        self.wait_for(is_told, lambda: str(found))
        self.assertEqual({key for key in found if key.startswith("findings_total")}, {key for key in wanted if key.startswith("findings_total")})
        self.assertEqual(self.asked(port, "/health"), (200, "auditing\n"))
        self.stop(one)

    def test_loss(self):
        """What the recorder lost is counted, told as an alert, and is never well."""
        events = [RULES, BASE, PLACE, write(5, rel()), check(5),
                  {"event": "gap", "from": "2026-11-26T10:00:00Z", "to": "2026-11-26T10:00:01Z",
                                                                 "reason": "it was full", "lost": 3}]
        self.put_log(files_of(timed(events), []))
        port = free_port()
        one = self.monitor("--metrics", "127.0.0.1:%d" % port)
        self.wait_for(lambda: self.told())
        self.assertEqual([(row["kind"], row["state"], row["value"]) for row in self.told()], [("loss", "passed", 75.0)])
        self.wait_for(lambda: self.numbers(port).get('bound_passed{bound="loss"}') == 1)
        self.assertEqual(self.numbers(port)['lost_total{cause="it was full"}'], 3)
        self.assertEqual(self.asked(port, "/health")[0], 503)
        self.stop(one)

    def test_loss_with_which_a_day_ends(self):
        """A recorder that was away at midnight tells of it behind the day's last reply, and at once goes on with those of the next day."""
        gap = {"event": "gap", "from": "2026-11-26T10:00:00Z", "to": "2026-11-26T10:00:01Z", "reason": "it was full", "lost": 3}
        self.put_log(files_of([*timed([RULES, BASE, PLACE, write(5, rel()), check(5), gap]), *timed([check(5)], NEXT)], []))
        self.ends(self.monitor("--once"))
        self.assertEqual([(row["kind"], row["state"], row["value"]) for row in self.told()], [("loss", "passed", 75.0), ("loss", "ended", 0.0)])

    def test_loss_is_not_over_where_nothing_was_asked_since(self):
        gap = {"event": "gap", "from": "2026-11-26T10:00:00Z", "to": "2026-11-26T10:00:01Z", "reason": "it was full", "lost": 3}
        events = timed([RULES, BASE, PLACE, write(5, rel()), check(5), gap], "2026-11-26")
        self.put_log([files_of(events, [])[0].rpartition(b'{"event":"closed"')[0]])
        port = free_port()
        one = self.monitor("--metrics", "127.0.0.1:%d" % port)
        # The day of the check is over.
        self.wait_for(lambda: self.numbers(port).get("run") == 2, lambda: self.get("monitor.err"))
        self.assertEqual(self.numbers(port)['bound_passed{bound="loss"}'], 1)
        self.wait_for(self.told)
        self.stop(one)
        self.assertEqual([(row["kind"], row["state"]) for row in self.told()], [("loss", "passed")])

    def test_lag(self):
        """A check above all commits waits for one, and is told to wait, also in the run behind it."""
        events, day = [RULES, BASE, PLACE, write(5, rel()), check(7)], "2026-11-26"
        self.put_log([files_of(timed(events, day), [], "spicedb")[0].rpartition(b'{"event":"closed"')[0]])
        one = self.monitor("--most-lag", "2", "--most-loss", "100")
        # The day of the check is over.
        self.wait_for(lambda: "run 1 has ended" in self.get("monitor.err"), lambda: self.get("monitor.err"))
        self.wait_for(lambda: self.told())
        self.assertEqual([(row["kind"], row["state"]) for row in self.told()], [("lag", "passed")])
        with open(self.path("log/000001.jsonl"), "ab") as file:
            file.write(compact([write(8, rel("2"))]))
        self.wait_for(lambda: len(self.told()) == 2)
        self.assertEqual([(row["kind"], row["state"]) for row in self.told()[1:]], [("lag", "ended")])
        self.stop(one)


class Examples(Monitoring):
    PLACE = os.path.join(EXAMPLES, "monitor")

    def text(self, name):
        with open(os.path.join(self.PLACE, name), encoding="utf-8") as file:
            return file.read()

    def test_the_words_of_the_unit_are_those_that_the_monitor_takes(self):
        text = self.text(UNIT)
        started = re.search(r"ExecStart=/usr/bin/new-enemy-tools monitor (.+)", text)[1].replace("%i", "x")
        shown = re.search(r"#   WORDS=(.+)", text)[1]
        _, given = given_of(started.replace("$WORDS", shown).split())
        self.assertEqual((given.logs, given.out, given.webhook, given.metrics), (
            ["/var/lib/private/new-enemy/x"], "/var/lib/new-enemy-monitor/x", ["https://duty.example/alerts"],
                                                                                "127.0.0.1:8092"))

    @unittest.skipUnless(shutil.which("systemd-analyze"), "there is no systemd-analyze")
    def test_systemd_takes_the_unit(self):
        made = self.put(UNIT.replace("@", "@x"), self.text(UNIT).replace("/usr/bin/new-enemy-tools", "/bin/true"))
        run = subprocess.run(["systemd-analyze", "verify", made], capture_output=True, text=True, timeout=300)
        self.assertNotIn("Unknown", run.stderr)

    def test_what_the_image_needs_is_there(self):
        copied = [word for line in self.text("Containerfile").splitlines() if line.startswith("COPY ") for word in line.split()[1:-1]]
        self.assertEqual([os.path.exists(os.path.join(TOP, word)) for word in copied], [True] * 3)
        started = json.loads(re.search("ENTRYPOINT (.+)", self.text("Containerfile"))[1])
        _, given = given_of([*started[3:], "--syslog"])
        self.assertEqual((given.logs, given.out), (["/log"], "/watched"))

    def test_the_board_asks_for_what_there_is(self):
        """Each number of the board is one that the monitor gives, with the labels that the board names."""
        self.put_log([files_of([RULES, BASE, PLACE, write(5, rel()), check(5)], [])[0]])
        port = free_port()
        one = self.monitor("--metrics", "127.0.0.1:%d" % port)
        self.wait_for(lambda: b"run_bytes" in self.page(port))
        given = set(re.findall(r"# TYPE (\w+) ", self.page(port).decode()))
        self.stop(one)
        asked = [target["expr"] for panel in json.loads(self.text("grafana.json"))["panels"]
                 for target in panel["targets"]]
        named = {name for expr in asked for name in re.findall(r"new_enemy_monitor_\w+", expr)}
        self.assertGreater(len(named), 10)
        self.assertLessEqual(named, given)

    def page(self, port):
        try:
            with urllib.request.urlopen("http://127.0.0.1:%d/metrics" % port, timeout=READY) as answer:
                return answer.read()
        except OSError:
            return b""
