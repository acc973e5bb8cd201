"""`ne day`: days told one by one are what the whole says; nothing is half-written; and what is refused.

KILLS in the environment says how often a run is killed.
"""
import json
import os
import re
import shutil
import signal
import subprocess
import sys
import time
from random import Random

from new_enemy_tools.importing import causes
from tests.documents import Shown, read
from tests.support import EXAMPLES, NE, TOP, Case
from tests.test_going_on import RULES, between, chained, events_of
from tests.test_trace_maker import check, content, rel, write
from tests.test_windows import Told

KILLS = int(os.environ.get("KILLS", "20"))
PROGRAM = os.path.abspath(os.environ.get("NEW_ENEMY", os.path.join(TOP, "new_enemy")))
WORDS = ("--program", PROGRAM, "--jobs", "1")
LOG = [RULES, write(1, rel("1", "viewer", "anne")), content(1, "first", goal=rel("1", "reader", "anne"), token=1),
       check(1, goal=rel("1", "reader", "anne")), write(2, rel("2", "viewer", "bob")), check(9, goal=rel("1", "reader", "anne"))]
NEXT = [write(4, remove=[rel("1", "viewer", "anne")]), check(4, goal=rel("1", "reader", "anne"), version="first"),
        check(4, False, goal=rel("1", "reader", "anne")), write(12, rel("2", "viewer", "carla"))]

NO_TOKEN, NO_CONTENT = "F1 stale: no check carries a token", "F3 not latest: there is no content check"
NO_ISSUE, NO_COMMIT = "F5 wrong token: there is no content check with the reply true", "F4 open snapshot: no commit stands behind a check"
NO_NAME = ("F2 old token: no check names a content version", "F6 unknown version: no check names a content version")


def cannot_show(*findings):
    """What a run says on standard error of findings that the day's log cannot show."""
    return "".join("the day's log cannot show %s\n" % finding for finding in sorted(findings))


# Of the days LOG and NEXT. The second has no content check, and a check of the first one's version all the same.
FIRST, SECOND = cannot_show(NO_TOKEN, *NO_NAME), cannot_show(NO_TOKEN, NO_CONTENT, NO_ISSUE)


class DayCase(Case):
    def day(self, name, *options, folder="days", words=("--from-empty",)):
        return self.run_tool("day", *WORDS, *options, folder, "events", *words, name)

    def files(self, folder):
        """The files of the days, each with its bytes; the checksum of the carry before stands in a state."""
        found = {}
        for place, _, names in os.walk(self.path(folder)):
            for name in names:
                path = os.path.join(place, name)
                with open(path, "rb") as file:
                    found[os.path.relpath(path, self.path(folder))] = file.read()
        return found


class Days(DayCase):
    def test_what_is_told(self):
        self.put("one", LOG)
        self.put("two", NEXT)
        first, second = self.day("one"), self.day("two")
        self.assertEqual(first, (0, "entries 2\nheld over 1\nfindings 0\nverdict clean\n", FIRST))
        # The check at 9 was held over, until a commit came to its snapshot.
        self.assertEqual((second.returncode, second.stderr), (1, SECOND))
        self.assertEqual(self.get("days/day000002/report.txt").splitlines(), [
            "line 7: F4 open snapshot, see line 8 (one:6)", "line 7: F10 wrong reply (one:6)", "line 9: F2 old token, see line 4 (two:2)",
            "line 9: F10 wrong reply (two:2)", "entries 3", "findings 4", "verdict dirty"])
        # What is written out has a line for each group. The two requests got one answer, which anne's removal at 4 made wrong.
        self.assertEqual(re.sub(r"at snapshot \d+ ", "at snapshot ", second.stdout).splitlines(), [
            "1 reply wrong (2 requests), 0 stale answers that let someone in, 0 that kept someone out, 0 harmless; "
            "of 3 checks 1 names a content version, none carries a token",
            "line 7: F10 wrong reply: check of doc:1#reader@user:anne at snapshot replied true, from one:6, effect wrong: someone was let in; "
            "with F4 open snapshot; asked 2 times",
            "line 9: F2 old token: check of doc:1#reader@user:anne at snapshot replied true, version first, see line 4, from two:2, effect none: "
            "no ignored commit bears on the question", "entries 3", "findings 4", "verdict dirty"])
        rows = self.rows("days/day000002/report.jsonl")
        self.assertEqual(rows[0]["sums"]["wrong"], 2)
        self.assertEqual([rows[0][key] for key in ("entries", "checks", "with_version", "with_token")], [3, 3, 1, 0])
        self.assertEqual([(row["line"], row["finding"], row["effect"], row["file"], row["file_line"]) for row in rows[1:]], [
            (7, "F10", "wrong", "one", 6), (9, "F10", "wrong", "two", 2), (7, "F4", "changed", "one", 6), (9, "F2", "none", "two", 2)])
        self.assertEqual(rows[1]["named"], "doc:1#reader@user:anne")
        summary = json.loads(self.get("days/day000002/summary.json"))
        self.assertEqual(sorted(name.partition(".")[0] for name in summary.pop("kept")), ["lines", "report", "trace"])
        self.assertEqual(summary, {
            "logs": ["two"], "digest": summary["digest"], "left": summary["left"], "status": 1, "entries": 3, "findings": 4,
            "not_audited": 0, "held_over": 0, "verdict": "dirty", "coverage": {"checks": 3, "whole": 3},
            "looked": {"checks": 3, "with_version": 1, "with_token": 0, "with_unknown": 0}, "held_back": 0})

    def assert_could_be_shown(self, run, low, high):
        """No line of the day's log, whose lines of the whole log are those above LOW up to HIGH, has a finding that this log cannot show."""
        self.assertEqual([line for line in run.stderr.splitlines() if not line.startswith("the day's log cannot show F")], [])
        places = [int(row.get("from", "log:0").rpartition(":")[2]) for row in self.rows("trace")]
        found = {finding for line, finding in re.findall(r"(?m)^line (\d+): (F\d+)", run.stdout) if low < places[int(line) - 1] <= high}
        self.assertEqual(found & set(re.findall(r"cannot show (F\d+)", run.stderr)), set())

    def test_days_are_the_whole(self):
        for number in range(6):
            random = Random("days %d" % number)
            log = [RULES, write(0, rel("0", "viewer", "u1"), base=True), *events_of(random, 60), write(10 ** 6)]
            shutil.rmtree(self.path("days"), ignore_errors=True)
            for name in ("whole_ids", "trace"):
                if os.path.exists(self.path(name)):
                    os.remove(self.path(name))
            self.put("log", log)
            self.imported("events", "--trace", "trace", "--ids", "whole_ids", "log")
            whole = subprocess.run([PROGRAM, "audit", self.path("trace"), "--make"], capture_output=True, text=True, timeout=300).stdout
            places = sorted(random.sample(range(2, len(log)), random.randint(1, 4)))
            told, rows = Told(), set()
            for place, (low, high) in enumerate(zip([0, *places], [*places, len(log)]), 1):
                self.put("log", log[low:high])
                run = self.day("log", "--oldest-snapshot", "0", "--at-least", "0", words=())
                self.assertIn(run.returncode, (0, 1))
                self.assert_could_be_shown(run, low, high)
                report = self.get("days/day%06d/report.txt" % place)
                told.take("".join(line.partition(" (")[0] + "\n" for line in report.splitlines()))
                rows |= {"line %d: %s" % (row["line"], row["finding"]) for row in self.rows("days/day%06d/report.jsonl" % place) if "line" in row}
            self.assertEqual(told.report, whole)
            self.assertEqual(rows, {" ".join(line.split(" ")[:3]) for line in whole.splitlines() if line.startswith("line ")})

    def test_what_is_kept(self):
        for number in range(1, 5):
            self.put("log", LOG if number == 1 else [write(10 * number), check(10 * number, goal=rel("1", "reader", "anne"))])
            self.assertIn(self.day("log").returncode, (0, 1))
        self.assertEqual([name for name in sorted(self.files("days")) if name.endswith(("carried", "carry", "left", "ids.jsonl", "window.json"))],
                         ["day%06d/%s" % (day, name) for day in (3, 4) for name in ("carried", "carry", "ids.jsonl", "left", "window.json")])
        # Of revisions below the base of the state before, the last is kept, and those of versions.
        left = json.loads(self.get("days/day000004/left").splitlines()[0])
        self.assertEqual([one[0] for one in left["named"]], [1, 9, 20, 30, 40])

    def test_versions_that_are_let_go(self):
        """Neither the state nor the import keeps them."""
        for number in range(1, 5):
            goal = rel("1", "viewer", "anne")
            self.put("log", ([RULES, write(1, goal)] if number == 1 else []) + [write(10 * number), content(10 * number, "v%d" % number, goal=goal, token=10 * number),
                                                                              check(10 * number, goal=goal, version="v%d" % max(1, number - 1), token=10 * number)])
            run = self.day("log", "--keep-versions", "2")
            self.assertEqual((run.returncode, run.stdout.splitlines()[-1]), (0, "verdict clean"))
        left = json.loads(self.get("days/day000004/left").splitlines()[0])
        self.assertEqual([row[0][2] for row in left["issued"]], ["v2", "v3", "v4"])
        self.assertEqual(self.get("days/day000004/carry").count("\ncontent "), 3)
        self.put("log", [write(50), check(50, goal=goal, version="v2", token=50)])
        self.assertIn("line 17: audited in part, its version is not known", self.day("log", "--keep-versions", "2").stdout)

    def test_a_label_that_a_waiting_check_names_is_known_when_it_is_saved_again(self):
        """Else the program would refuse the day for its second content check of one label."""
        goal = rel("1", "reader", "anne")
        self.put("one", [RULES, write(1, rel("1", "viewer", "anne")), content(1, "v", goal=goal, token=1)])
        self.put("two", [write(2, rel("2", "viewer", "bob")), check(9, goal=goal, version="v", token=9)])
        self.put("three", [write(4, rel("3", "viewer", "bob")), content(4, "v", goal=goal, token=4), content(4, "w", goal=goal, token=4)])
        for name in ("one", "two"):
            self.assertIn(self.day(name, "--keep-versions", "1").returncode, (0, 6))
        run = self.day("three", "--keep-versions", "1")
        # A write below the snapshot of the check that waits came behind it.
        self.assertEqual((run.returncode, self.get("days/day000003/report.txt").splitlines()[0]), (1, "line 6: F4 open snapshot, see line 7 (two:2)"))
        self.assertIn("audited in part 1: %s; not looked for: F3, F5" % causes.LABEL_AGAIN, run.stdout)
        self.put("four", [write(12, rel("4", "viewer", "bob")), check(12, goal=goal, version="w", token=12)])
        # The check that waited is told with its version, of which nothing is wrong.
        self.assertEqual(self.day("four", "--keep-versions", "1").stdout.splitlines()[0], "entries 2")

    def test_gaps_are_said(self):
        self.put("log", [*LOG[:-1], {"event": "gap", "from": "2024-01-01T00:00:00Z", "to": "2024-01-01T00:00:01Z", "reason": "why"}])
        run = self.day("log")
        self.assertIn("the log has gaps: a verdict says nothing of what was asked in them\n", run.stderr)
        self.assertEqual((run.returncode, run.stdout.splitlines()[1:3]), (6, [
            "checks: 2 whole, and what was asked in 1 gap", "gaps in which nobody counted what was asked: 1"]))
        # A version may have been issued in the gap, on this day and on later ones.
        self.put("log", [write(3), check(3, goal=rel("1", "reader", "anne"), version="other", token=3), check(3, goal=rel("1", "reader", "anne"))])
        run = self.day("log")
        self.assertEqual((run.returncode, run.stdout.splitlines()), (6, [
            "entries 2", "checks: 1 whole, 1 in part", "audited in part 1: %s; not looked for: F2, F6" % causes.VERSION_UNKNOWN, "findings 0",
            "verdict incomplete"]))
        self.assertEqual(run.stderr, cannot_show(NO_CONTENT, NO_COMMIT, NO_ISSUE))

    def test_what_a_day_cannot_show(self):
        """It is said beside the verdict, whose status it does not change, and again where the report is told again."""
        goal = rel("1", "viewer", "anne")
        self.put("log", [RULES, write(1, goal), check(1, goal=goal)])
        self.assertEqual(self.day("log"), (0, "entries 1\nfindings 0\nverdict clean\n", cannot_show(
            NO_TOKEN, "F2 old token: there is no content check", NO_CONTENT, NO_COMMIT, NO_ISSUE, NO_NAME[1])))
        # A check of a version needs no content check of its own day for an F2.
        self.put("log", [write(2), content(2, "v2", goal=goal, token=2), check(2, goal=goal, version="v2", token=2), write(3)])
        self.assertEqual(self.day("log"), (0, "entries 2\nfindings 0\nverdict clean\n", ""))
        self.put("log", [write(4), check(4, goal=goal, version="v2", token=1), write(5)])
        third = self.day("log")
        self.assertEqual((third.returncode, third.stdout.splitlines()[1:], third.stderr), (1, [
            "line 10: F2 old token: check of doc:1#viewer@user:anne at snapshot 4194308 replied true, token of 1048577, version v2, see line 6, from log:2, "
            "effect none: no ignored commit bears on the question", "entries 1", "checks that name a content version: 1 of 1; before: 1 of 1 (day 2), 0 of 1 (day 1)",
            "checks that carry a token: 1 of 1; before: 1 of 1 (day 2), 0 of 1 (day 1)",
            "findings 1", "verdict dirty"], cannot_show(NO_CONTENT, NO_ISSUE)))
        os.remove(self.path("days/day000003/told"))
        told = "day: day 3 was audited by a run that was broken off; its report:\n"
        self.assertEqual(self.day("log"), (1, third.stdout, told + third.stderr))

    def test_what_nobody_looked_for(self):
        """The count of stale answers says of how many checks of that day; one that is held over counts with the day that tells it."""
        goal, gone = rel("1", "viewer", "anne"), rel("1", "viewer", "bob")
        days = {"none": [RULES, write(1, goal), content(1, "v1", goal=goal, token=1), check(1, goal=gone), check(9, goal=goal, version="v1", token=9)],
                "some": [write(9), check(1, goal=gone, version="v1", token=1), check(9, goal=goal), check(9, goal=goal), write(10), check(20, goal=goal)]}
        said = []
        for number, (name, log) in enumerate(days.items(), 1):
            self.put(name, log)
            self.assertEqual(self.day(name).returncode, 1)
            sums = self.rows("days/day%06d/report.jsonl" % number)[0]
            said.append((sums["sums"]["text"], sums["note"].partition(":")[0].partition(",")[0]))
        self.assertEqual(said, [
            ("1 reply wrong, stale answers to checks not looked for, 0 harmless; of 1 check none names a content version, none carries a token",
             "Stale answers to checks were not looked for"),
            ("1 reply wrong, 0 stale answers that let someone in, 0 that kept someone out, 1 harmless; of 4 checks 2 name a content version, "
             "2 carry a token", "On checks that name no content version")])

    def test_files_of_a_recorder(self):
        """Each day gets all files that there are; those of days before are left out, and one that is still written."""
        names, before = [], None
        events = [LOG, [check(2, goal=rel("2", "reader", "bob"))], NEXT]
        for number, some in enumerate(events, 1):
            text, found = chained(number, before, *some, is_closed=number < 3)
            names.append("%d.jsonl" % number)
            self.put(names[-1], text)
            if number == 2:
                first = self.run_tool("day", *WORDS, "days", "events", "--from-empty", *names)
                self.assertEqual(first, (0, "entries 3\nheld over 1\nfindings 0\nverdict clean\n", "the log ends with file 2, which is closed\n" + FIRST))
            before = found
        again = self.run_tool("day", *WORDS, "days", "events", "--from-empty", *names)
        self.assertEqual(again, (8, "", "day: 3.jsonl is still written, and is audited with the next day\nday: no file of the log is new and complete\n"))
        self.put("3.jsonl", chained(3, json.loads(self.get("2.jsonl").splitlines()[-1])["sha256"], *NEXT)[0])
        second = self.run_tool("day", *WORDS, "days", "events", "--from-empty", *names)
        self.assertEqual((second.returncode, second.stdout.splitlines()[-3:]), (1, ["entries 3", "findings 4", "verdict dirty"]))
        # A run that was killed before it told the day tells it again.
        os.remove(self.path("days/day000002/told"))
        run = self.run_tool("day", *WORDS, "days", "events", "--from-empty", *names)
        self.assertEqual((run.returncode, run.stdout), (1, second.stdout))
        self.assertEqual(json.loads(self.get("days/day000001/summary.json"))["logs"], ["1.jsonl", "2.jsonl"])

    def test_traces(self):
        self.put("log", LOG)
        self.imported("events", "--from-empty", "--trace", "trace", "log")
        run = self.run_tool("day", *WORDS, "days", "trace", "trace")
        self.assertEqual((run.returncode, run.stdout), (0, "entries 2\nheld over 1\nfindings 0\nverdict clean\n"))


    def test_a_word_beside_the_log_that_nobody_took(self):
        """Another recorder passed requests, of which no line of the log tells: no day is green until one does."""
        os.mkdir(self.path("log"))
        text, found = chained(1, None, *LOG[:5])
        self.put("log/1.jsonl", text)
        self.put("log/beside-1-a", "[3,1000000000,2000000000]")
        run = self.day("log/1.jsonl")
        self.assertIn("lost in gaps 3: requests that another recorder passed\n", run.stdout)
        self.assertEqual((run.returncode, run.stdout.splitlines()[-1]), (6, "verdict incomplete"))
        self.assertIn("gap beside the log: log/beside-1-a tells that another recorder passed requests that it did not record",
                      self.get("days/day000001/import.txt"))
        os.rename(self.path("log/beside-1-a"), self.path("log/beside-2-b"))
        self.put("log/2.jsonl", chained(2, found, write(4), check(4, False, goal=rel("1", "viewer", "carla")), write(5))[0])
        self.assertEqual(self.day("log/2.jsonl").returncode, 6)


class Refused(DayCase):
    def setUp(self):
        super().setUp()
        self.put("one", LOG)
        self.put("two", NEXT)
        self.assertEqual(self.day("one").returncode, 0)
        self.before = self.files("days")

    def refused(self, told, *words, status=2):
        run = self.run_tool("day", *WORDS, *words)
        self.assertEqual((run.returncode, run.stdout), (status, ""), run)
        self.assertRegex(run.stderr, told)
        self.assertEqual(self.files("days"), self.before)

    def test_a_day_twice(self):
        self.refused("^day: these logs were audited before, as day 1\n$", "days", "events", "--from-empty", "one", status=8)

    def test_too_few(self):
        self.refused("^day: the day has 2 checks and content checks, and at least 3 are wanted", "--at-least", "3", "days", "events", "two")
        self.put("empty", "")
        self.refused("^day: the day has 0 checks and content checks, and at least 1 are wanted", "days", "events", "empty")

    def test_logs_that_are_refused(self):
        self.put("bad", [write(1), {"event": "x"}])
        self.refused("^bad:1: its revision 1 is not later than that of one:5, 2\nbad:2: `event` is none of .*\nrefused 2\nday: the import refused the logs\n$",
                     "days", "events", "bad")
        self.refused("none: No such file", "days", "events", "none", status=5)
        # and the day can be tried again
        self.assertEqual(self.day("two").returncode, 1)

    def test_another_folder(self):
        for name in ("notes", "work"):
            os.makedirs(self.path("mine/" + name))
            run = self.run_tool("day", *WORDS, "mine", "events", "two")
            self.assertEqual((run.returncode, run.stdout, run.stderr), (
                2, "", "day: mine has %s, and is no folder of days: give one that is empty or not there\n" % name))
            self.assertEqual(os.listdir(self.path("mine")), [name])
            os.rmdir(self.path("mine/" + name))

    def test_a_program_that_fails(self):
        for text, told in (("kill -9 $$", "day: .*program was killed by signal 9"), ("echo no; echo why >&2; exit 2", "why")):
            program = self.put("program", "#!/bin/sh\n%s\n" % text)
            os.chmod(program, 0o755)
            self.refused("^%s\n$" % told, "--program", program, "days", "events", "two")
        self.refused("^cannot run none: No such file or directory\n$", "--program", "none", "days", "events", "two", status=5)

    def test_what_is_not_audited_is_seen_while_the_program_runs(self):
        """A check between states of which one is not kept any more is seen when the lines before it are audited already."""
        for name, at in (("two", 12), ("three", 20), ("four", 30)):
            if at > 12:
                self.put(name, [write(at, rel(str(at), "viewer", "anne"))])
            self.assertIn(self.day(name, "--at-least", "0").returncode, (0, 1))
        self.put("five", [write(40), *[check(40, False, goal=rel("3", "reader", "u%d" % one)) for one in range(9)],
                          between(check(0, False, goal=rel("1", "reader", "anne")), 1, 12, False)])
        run = self.day("five")
        self.assertEqual((run.returncode, run.stdout.splitlines()[1:3]), (6, [
            "checks: 9 whole, 1 not audited", "not audited 1: %s" % causes.STATE_NOT_KEPT]))

    def test_two_at_once(self):
        """Another process has the lock."""
        code = "import fcntl, sys; file = open(sys.argv[1], 'ab'); fcntl.lockf(file, fcntl.LOCK_EX); print('locked', flush=True); sys.stdin.read()"
        with subprocess.Popen([sys.executable, "-c", code, self.path("days/lock")], stdin=subprocess.PIPE, stdout=subprocess.PIPE) as other:
            self.assertEqual(other.stdout.readline(), b"locked\n")
            self.refused("^day: another run works in days\n$", "days", "events", "two")
            other.stdin.close()
        self.assertEqual(self.day("two").returncode, 1)

    def test_a_state_that_was_altered(self):
        for name in ("carry", "carried", "window.json"):
            data = self.before["day000001/" + name]
            self.put("days/day000001/" + name, data[:-9])
            self.before = self.files("days")
            self.refused("cut short|altered", "days", "events", "two")
            self.put("days/day000001/" + name, data)

    def put_state(self, number, files, other):
        """The state of another day in the place of one's."""
        for name in ("carry", "carried", "window.json"):
            self.put("days/day%06d/%s" % (number, name), files["day%06d/%s" % (other, name)])
        self.before = self.files("days")

    def test_a_state_of_another_day(self):
        self.assertEqual(self.day("two").returncode, 1)
        self.put("three", [write(13), check(13, goal=rel("2", "reader", "carla"))])
        self.put_state(2, self.before, 1)
        self.refused("^day: the state of day 2 is not that of this folder: it stands for 1 windows", "days", "events", "three")
        # One that goes on from another folder's state.
        self.put("other", [*LOG, check(2, goal=rel("2", "reader", "bob"))])
        self.assertEqual([self.day(name, folder="others").returncode for name in ("other", "two")], [0, 1])
        self.put_state(2, self.files("others"), 2)
        self.refused("^day: the state of day 2 is not that of this folder: it stands for 2 windows, or goes on from another", "days", "events", "three")

    def test_what_an_import_left_of_another_day(self):
        """What was left out on the last day would be forgotten, and a right reply that hangs on it called wrong."""
        self.put("two", [{"event": "unmapped", "reason": "tuple with a condition", "userset": ["doc", "9", "viewer"]}, check(2, goal=rel("1", "reader", "anne"))])
        self.put("three", [check(2, True, rel("9", "viewer", "bob")), check(2, goal=rel("1", "reader", "anne")), write(13)])
        self.assertEqual(self.day("two").returncode, 0)
        right = self.files("days")["day000002/left"]
        self.put("days/day000002/left", self.before["day000001/left"])
        self.before = self.files("days")
        self.refused("^day: days/day000002/left is another than day 2 left", "days", "events", "three")
        self.put("days/day000002/left", right)
        run = self.day("three")
        self.assertEqual((run.returncode, run.stdout.count("not audited 1: ")), (6, 1))

    def test_usage(self):
        for words in (["days"], ["days", "events"], ["days", "events", "--trace", "x", "two"], ["days", "events", "--go-on=x", "two"],
                      ["days", "trace", "one", "two"], ["--at-least", "-1", "days", "events", "two"], ["--jobs", "0", "days", "events", "two"]):
            self.refused("usage: ne ", *words, status=3)


class FromCron(Shown):
    """The line for cron of docs/DAILY.md, with no more than cron gives."""

    def run_line(self, *exchanged):
        [line] = re.findall(r"(?m)^    15 0 \* \* \* (.*)$", read("docs", "DAILY.md"))
        for old, new in (("/srv/audits", self.room), ("mail-the-duty", "echo the duty"), *exchanged):
            self.assertEqual(line.count(old), 1)
            line = line.replace(old, new)
        run = subprocess.run(["/bin/sh", "-c", line], env={"HOME": self.room, "PATH": os.path.dirname(sys.executable) + ":/usr/bin:/bin"},
                             capture_output=True, text=True, timeout=300)
        return run.stdout, run.stderr

    def test_the_line(self):
        self.link(self.room, "tools")
        self.assertEqual(self.run_line(), ("the duty\n", "day: log/*.jsonl: No such file or directory\n"))
        os.mkdir(os.path.join(self.room, "log"))
        shutil.copy(os.path.join(EXAMPLES, "events", "log.jsonl"), os.path.join(self.room, "log"))
        out, err = self.run_line()
        self.assertEqual((out, err.splitlines()[-1]), (
            "the duty\n", "day: the day has 3 checks and content checks, and at least 1000 are wanted (--at-least)"))
        self.assertEqual(os.listdir(os.path.join(self.room, "days")), ["lock"])
        self.assertEqual(self.run_line(("1000", "3"))[0], "entries 2\nheld over 1\nfindings 0\nverdict clean\n")
        self.assertEqual(self.run_line(("1000", "3"))[0], "the duty\n")


class Kills(DayCase):
    """A run that is killed leaves the days as they were, or a day that the next run tells."""

    def begun(self, folder):
        return subprocess.Popen([sys.executable, NE, "day", *WORDS, folder, "events", "two"], cwd=self.room, stdout=subprocess.PIPE, stderr=subprocess.PIPE,
                                start_new_session=True, text=True)

    def end(self, run):
        out, err = run.communicate(timeout=300)
        return run.returncode, out, err

    def test_random_moments(self):
        self.put("one", LOG)
        self.put("two", NEXT)
        self.assertEqual(self.day("one", folder="first").returncode, 0)
        shutil.copytree(self.path("first"), self.path("unbroken"))
        start = time.monotonic()
        wanted = self.end(self.begun("unbroken"))
        took = time.monotonic() - start
        self.assertEqual(wanted[0], 1)
        random, killed = Random(5), 0
        for number in range(KILLS):
            shutil.rmtree(self.path("days"), ignore_errors=True)
            shutil.copytree(self.path("first"), self.path("days"))
            run = self.begun("days")
            # The first before it can have told anything, however quick it is.
            time.sleep(random.uniform(0, took * 1.1) if number else 0)
            os.kill(run.pid, signal.SIGKILL)
            broken = self.end(run)
            is_told = os.path.exists(self.path("days/day000002/told"))
            if is_told:
                self.assertEqual(broken[1], wanted[1])
            else:
                killed += 1
                again = self.end(self.begun("days"))
                self.assertEqual(again[:2], wanted[:2], again[2])
                self.assertIn(again[2], (SECOND, "day: day 2 was audited by a run that was broken off; its report:\n" + SECOND))
            self.assertEqual(self.files("days"), self.files("unbroken"))
        self.assertGreater(killed, 0)
