"""States of before they had carries go on as carries: by the same lines, base, versions and entries that wait.

`data/old_states.json.gz` was made by the code of commit c079f81a: random logs of which some windows were audited by it, with the state behind them and
what it told; and a folder of two days.
"""
import gzip
import json
import os
import shutil
from hashlib import sha256
from random import Random

from tests.support import TOOLS
from tests.test_day import WORDS, rel
from tests.test_monitor import Monitoring, compact, timed
from tests.test_trace_maker import check, write
from tests.test_windows import NO_CARRY, Told, WindowCase, order

with gzip.open(os.path.join(TOOLS, "tests", "data", "old_states.json.gz"), "rt", encoding="utf-8") as opened:
    DATA = json.load(opened)


class OldStates(WindowCase):
    def told_of(self, case, cuts):
        """What windows behind an old state told, which end at some lines of its log."""
        told, state, lines = Told(), self.put("old", case["state"]), [line.encode() + b"\n" for line in case["log"]]
        for number, (low, high) in enumerate(zip([case["lines"], *cuts], [*cuts, len(lines)])):
            shutil.rmtree(self.path("state%d" % number), ignore_errors=True)
            out = ["--final"] if high == len(lines) else ["--out", self.path("state%d" % number)]
            run = self.audit(self.put("window", b"".join(lines[low:high])), "--state", state, *out, *case["keep"])
            self.assertNotIn(NO_CARRY, run.stderr)
            told.take_run(self, run)
            state = self.path("state%d" % number)
        return told

    def test_old_and_new_windows_together_are_the_whole(self):
        early = parts = below = 0
        for number, case in enumerate(DATA["windows"]):
            log = [line.encode() for line in case["log"]]
            whole = [line for line in self.made(b"".join(line + b"\n" for line in log)).splitlines() if line.startswith("line ")]
            random = Random("old states %d" % number)
            for cuts in ([], sorted(random.sample(range(case["lines"] + 1, len(log)), min(2, len(log) - case["lines"] - 1)))):
                with self.subTest(number=number, cuts=cuts):
                    told = self.told_of(case, cuts)
                    before = Told()
                    before.findings = [line for line in case["told"] if "audited" not in line]
                    lines = [line for line in case["told"] if "audited" in line] + told.not_audited
                    left = {int(line.split(":")[0][5:]) for line in lines if "not audited" in line}
                    part = {int(line.split(":")[0][5:]) for line in lines if "audited in part" in line}
                    self.assertEqual(sorted(before.findings + told.findings, key=order), [
                        line for line in whole if order(line)[0] not in left and not (order(line)[0] in part and order(line)[1] in (2, 6))])
                    early += sum(order(line)[0] <= case["lines"] and order(line)[1] < 7 for line in told.findings)
                    parts, below = parts + len(part), below + len(left)
        # What the old version had not told of entries that wait is told.
        self.assertGreater(early, 5)
        self.assertGreater(parts, 0)
        self.assertGreater(below, 0)

    def test_what_an_old_state_stands_for(self):
        for case in DATA["windows"]:
            head, *rows, _ = case["state"].splitlines()
            head, kinds = json.loads(head), [row[0] for row in rows]
            run = self.run_window("show", self.put("old", case["state"]))
            said = dict(line.rsplit(" ", 1) for line in run.stdout.splitlines() if not line.startswith("versions"))
            first = next((int(row.split(" ")[2]) for row in rows if row[0] == "c"), 0)
            self.assertEqual((int(said["window"]), int(said["lines"]), int(said["base"]), int(said["held over"])), (
                head["window"], head["lines"], first if head["base"] is None else head["base"], kinds.count("h")))
            self.assertIn("\nversions %d" % kinds.count("v"), run.stdout)

    def test_states_that_are_not_whole(self):
        data, day = DATA["windows"][0]["state"].encode(), self.put("day", b'{"kind":"commit","at":1000}\n')
        for place in range(0, len(data), 97):
            for made in (data[:place], data[:place] + bytes([data[place] ^ 1]) + data[place + 1:]):
                run = self.audit(day, "--state", self.put("torn", made))
                self.assertEqual((run.returncode, run.stdout), (2, ""))
                self.assertRegex(run.stderr, "is no state of a window|is cut short|was altered|is no state that this version reads")


class OldDays(WindowCase):
    def setUp(self):
        super().setUp()
        for name, text in DATA["days"].items():
            os.makedirs(os.path.dirname(self.path("days/" + name)), exist_ok=True)
            self.put("days/" + name, text)

    def day(self, *words):
        return self.run_tool("day", *WORDS, "days", "events", *words)

    def test_a_folder_of_days_goes_on(self):
        self.put("three", [{"event": "write", "revision": 4, "remove": [rel("1", "viewer", "anne")]},
                           {"event": "check", "goal": rel("1", "reader", "bob"), "snapshot": 4, "reply": False},
                           {"event": "write", "revision": 9, "add": [rel("9", "viewer", "anne")]}])
        run = self.day("three")
        self.assertEqual(run.returncode, 1, run.stderr)
        # The check at 9 waited, and is told with all that is wrong with it.
        self.assertEqual(self.get("days/day000003/report.txt").splitlines(), [
            "line 6: F2 old token, see line 3 (two:2)", "line 6: F4 open snapshot, see line 8 (two:2)", "line 6: F10 wrong reply (two:2)", "entries 2",
            "findings 3", "verdict dirty"])
        self.put("four", [{"event": "check", "goal": rel("1", "reader", "anne"), "snapshot": 9, "reply": False, "version": "first", "token": 1}])
        self.assertEqual(self.day("four").stdout.splitlines()[0], "entries 1")
        self.assertEqual(sorted(os.listdir(self.path("days/day000003"))), [
            "carried", "carry", "ids.jsonl", "import.txt", "left", "lines.json", "mail.txt", "report.jsonl", "report.txt", "summary.json", "told",
            *[name for name in os.listdir(self.path("days/day000003")) if name.startswith("trace")], "window.json"])
        # Older days need no state any more, of whatever form.
        self.assertFalse(os.path.exists(self.path("days/day000001/state")) or os.path.exists(self.path("days/day000002/state")))

    def test_a_run_that_fails_leaves_the_old_state(self):
        before = self.files()
        self.put("three", [{"event": "write", "revision": 1}])
        self.assertEqual(self.day("three").returncode, 2)
        del before[self.path("days/day000001/state")]
        after = self.files()
        self.assertEqual({name: data for name, data in after.items() if name in before}, before)


class OldMonitors(Monitoring):
    def test_a_folder_of_a_monitor_goes_on(self):
        """Its last run had read a check that waits, and had told nothing of it; or had told all that its own line lets tell."""
        for held in ([], [["log/000001.jsonl:8", "F2"]]):
            for name, text in DATA["monitor"].items():
                os.makedirs(os.path.dirname(self.path(name)), exist_ok=True)
                self.put(name, text)
            name = "out/days/day000001/monitored.json"
            self.put(name, json.dumps({**json.loads(self.get(name)), "held": held}))
            before = json.loads(self.get("log/000001.jsonl").splitlines()[-1])["sha256"]
            events = [write(4, remove=[rel("1", "viewer", "anne")]), write(9, rel("9", "viewer", "anne")), check(9, False, goal=rel("1", "reader", "anne"))]
            data = compact([{"event": "log", "number": 2, "before": before, "service": "spicedb"}, *timed(events, "2024-05-07")])
            self.put("log/000002.jsonl", data + compact([{"event": "closed", "count": data.count(b"\n"), "sha256": sha256(data).hexdigest()}]))
            self.ends(self.monitor("--once", "--effects", "wrong,changed,undecided,possible,none", told="told%d" % len(held)))
            self.assertEqual(self.get("out/days/day000002/report.txt").splitlines(), [
                "line 7: F2 old token, see line 5 (log/000001.jsonl:8)", "line 7: F4 open snapshot, see line 8 (log/000001.jsonl:8)",
                "line 7: F10 wrong reply (log/000001.jsonl:8)", "entries 2", "findings 3", "verdict dirty"])
            told = {row["finding"] for row in self.told("told%d" % len(held)) if row["kind"] == "finding"}
            self.assertEqual(told, {"F2", "F4", "F10"} - {one for _, one in held})
            shutil.rmtree(self.path("out"))
