"""The traces of days that are kept: what is told of them is what was told, and what is taken away is gone."""
import gzip
import json
import os
import re
import shutil
import subprocess
import xml.etree.ElementTree
from random import Random
from unittest import mock

from tests.random_windows import RandomHistory
from tests.support import Case
from tests.test_day import LOG, NEXT, WORDS
from tests.test_trace_maker import check, rel, write

HISTORIES = 12
NAMES = re.compile("anne|bob|carla")


class KeptCase(Case):
    def day(self, *words, status=(0, 1, 6)):
        run = self.run_tool("day", *WORDS, *words)
        self.assertIn(run.returncode, status, run.stderr)
        return run

    def two_days(self, *words):
        self.put("one", LOG)
        self.put("two", NEXT)
        for name in ("one", "two"):
            self.day(*words, "days", "events", "--from-empty", name)

    def explained(self, *words):
        run = self.run_tool("explain", *words)
        self.assertEqual((run.returncode, run.stderr), (0, ""))
        return run.stdout

    def files(self, number):
        return sorted(os.listdir(self.path("days/day%06d" % number)))


class Told(KeptCase):
    def test_a_line_of_a_kept_day_is_explained_and_drawn_as_in_the_whole_log(self):
        count = 0
        for number in range(HISTORIES):
            random = Random("kept %d" % number)
            lines = list(RandomHistory(random, 30).lines())
            low, high = sorted(random.sample(range(5, len(lines)), 2))
            shutil.rmtree(self.path("days"), ignore_errors=True)
            for day, (start, end) in enumerate(((0, low), (low, high), (high, len(lines))), 1):
                self.put("own", b"".join(line + b"\n" for line in lines[start:end]))
                self.put("whole", b"".join(line + b"\n" for line in lines[:end]))
                run = self.day("--at-least", "0", "--oldest-snapshot", "0", "days", "trace", "own", status=(0, 1, 2, 6))
                if run.returncode == 2:
                    # There is nothing to hand on, and what comes behind it does not fit.
                    self.assertIn("nothing can be handed on", run.stderr)
                    break
                folder = "days/day%06d" % day
                for line in sorted({int(line) for line in re.findall("(?m)^line ([0-9]+): F", self.get(folder + "/report.txt"))}):
                    self.assertEqual(self.explained(folder, str(line)), self.explained("whole", str(line)), (number, day, line))
                    self.assertEqual(self.run_tool("draw", folder, str(line)), self.run_tool("draw", "whole", str(line)), (number, day, line))
                    count += 1
        self.assertGreater(count, HISTORIES * 5)

    def test_the_report_of_a_kept_day_is_that_of_the_day(self):
        self.two_days()
        told = self.get("days/day000002/report.jsonl")
        run = self.run_tool("report", "--ids", "days/day000002/ids.jsonl", "days/day000002")
        self.assertEqual((run.returncode, run.stdout, run.stderr), (0, told, ""))
        trace = next(name for name in self.files(2) if name.startswith("trace."))
        self.assertEqual(self.run_tool("report", "--ids", "days/day000002/ids.jsonl", "days/day000002/" + trace).stdout, told)
        page = self.run_tool("report", "--form", "html", "--ids", "days/day000002/ids.jsonl", "days/day000002")
        self.assertEqual((page.returncode, page.stdout.count('<details class="story"')), (0, 1))
        clean = self.run_tool("report", "--form", "text", "days/day000001")
        self.assertEqual((clean.returncode, clean.stdout.startswith("0 replies wrong, ")), (0, True))

    def test_names_come_from_the_table_of_any_later_day(self):
        self.two_days()
        said = self.explained("--ids", "days/day000002/ids.jsonl", "days/day000001", "5")
        self.assertIn("line 5: check of doc:1#reader@user:anne at snapshot", said)

    def test_what_the_program_says_of_a_kept_trace_is_what_it_said(self):
        """The trace is whole in itself, and the program takes it."""
        self.two_days()
        with mock.patch("shutil.which", return_value=None):
            self.put("three", [{"event": "write", "revision": 20, "add": [["doc", "9", "viewer", "user", "eve"]]},
                               {"event": "check", "goal": ["doc", "9", "viewer", "user", "bob"], "snapshot": 20, "reply": True}])
            self.day("days", "events", "three")
        self.assertIn("trace.gz", self.files(3))
        with gzip.open(self.path("days/day000003/trace.gz")) as file:
            self.put("unpacked", file.read())
        run = subprocess.run([WORDS[1], "audit", self.path("unpacked"), "--make"], capture_output=True, text=True, timeout=300)
        self.assertIn("F10 wrong reply", run.stdout)
        self.assertIn("F10 wrong reply, as this tool finds", self.explained("days/day000003", self.line_of(3)))

    def line_of(self, number):
        return re.search("(?m)^line ([0-9]+): F10", self.get("days/day%06d/report.txt" % number))[1]


class Waiting(KeptCase):
    """A check that a day leaves to a later one, or does not audit, passes in no form of its report."""

    def test_a_check_that_is_held_over_is_told_in_each_form_and_passes_in_none(self):
        self.two_days("--html")
        said = "held over 1: the replies of these checks are judged with the day whose writes come to their snapshots"
        for form in ("text", "jsonl", "sarif", "junit", "annotations", "html"):
            told = self.run_tool("report", "--form", form, "days/day000001").stdout
            self.assertIn('"held_over":1' if form == "jsonl" else said, told, form)
            self.assertNotIn("held over" if form != "jsonl" else "held_over", self.run_tool("report", "--form", form, "days/day000002").stdout)
        self.assertIn(said, self.get("days/day000001/report.html"))
        self.assertEqual(self.cases(1), {4: None, 5: None, 7: "not judged with this day"})

    def test_a_check_that_is_not_audited_does_not_pass(self):
        self.two_days()
        self.put("three", [check(12, goal=rel("2", "viewer", "carla")), check(1, goal=rel("1", "reader", "anne")), write(13, rel("4", "viewer", "bob"))])
        told = self.day("--keep-snapshots", "0", "days", "events", "three", status=(6,)).stdout
        line = int(re.search("line ([0-9]+): not audited", told)[1])
        self.assertEqual({one: why for one, why in self.cases(3).items() if one >= line - 1}, {line - 1: None, line: "not judged with this day"})

    def cases(self, number):
        """Of each line of a day that has a test why it is skipped, if it is; the counts of the suite are those of its tests."""
        suite = xml.etree.ElementTree.fromstring(self.run_tool("report", "--form", "junit", "days/day%06d" % number).stdout)[0]
        found = [(one.get("name"), [skipped.get("message") for skipped in one.iter("skipped")]) for one in suite.iter("testcase")]
        self.assertEqual((suite.get("tests"), suite.get("skipped")), (str(len(found)), str(sum(len(skipped) for _, skipped in found))))
        return {int(name.split()[1][:-1]): skipped[0] if skipped else None for name, skipped in found if name.startswith("line ")}


class Index(KeptCase):
    """The page of all days lacks none that was kept, whenever a run is broken off."""

    def listed(self):
        return re.findall('<tr><td>(?:<a [^>]*>)?([0-9]+)', self.get("days/index.html"))

    def test_a_day_whose_run_was_broken_off_before_the_index(self):
        self.put("one", LOG)
        self.put("two", NEXT)
        self.day("--html", "days", "events", "--from-empty", "one")
        os.remove(self.path("days/index.html"))
        os.mkdir(self.path("days/index.html"))
        self.day("--html", "days", "events", "--from-empty", "two", status=(5,))
        os.rmdir(self.path("days/index.html"))
        self.assertIn("was broken off", self.day("--html", "days", "events", "--from-empty", "two", status=(1,)).stderr)
        self.assertEqual(self.listed(), ["2", "1"])

    def test_a_run_that_was_killed_while_it_wrote_the_index(self):
        self.put("one", LOG)
        self.put("two", NEXT)
        self.day("--html", "days", "events", "--from-empty", "one")
        self.put("days/index.html.part", "half of it")
        self.day("--html", "days", "events", "--from-empty", "two", status=(1,))
        self.assertEqual(self.listed(), ["2", "1"])

    def test_a_day_without_a_page_stands_in_an_index_that_is_there(self):
        self.put("one", LOG)
        self.put("two", NEXT)
        self.day("--html", "days", "events", "--from-empty", "one")
        self.day("days", "events", "--from-empty", "two", status=(1,))
        self.assertEqual(self.listed(), ["2", "1"])


class Refused(KeptCase):
    def test_words(self):
        self.two_days()
        for words, said in ((["explain", "days/day000002"], "give the LINE of an entry"), (["report", "days/day000002", "-"], "leave out REPORT"),
                            (["report", "days/day000002/report.txt"], "REPORT is missing"), (["draw", "days/day000002"], "required: LINE")):
            run = self.run_tool(*words)
            self.assertEqual(run.returncode, 3, words)
            self.assertIn(said, run.stderr)
        run = self.run_tool("explain", "days/day000002", "1")
        self.assertEqual((run.returncode, run.stderr), (2, "line 1 of the trace is no check and no content line\n"))

    def test_files_that_are_damaged_or_gone(self):
        self.two_days()
        name = next(name for name in self.files(2) if name.startswith("trace."))
        path, folder = self.path("days/day000002/" + name), self.path("days/day000002/")
        with open(path, "rb") as file:
            data = file.read()
        for made in (data[:-9], b"", b"x" + data):
            with open(path, "wb") as file:
                file.write(made)
            run = self.run_tool("explain", "days/day000002", "9")
            self.assertEqual((run.returncode, run.stdout), (2, ""), made)
            self.assertIn("%s is not as its day kept it" % name, run.stderr)
        os.rename(folder + "lines.json", folder + "kept")
        with open(path, "wb") as file:
            file.write(data)
        run = self.run_tool("draw", "days/day000002", "9")
        self.assertEqual((run.returncode, run.stdout), (2, ""))
        self.assertIn("lines.json is not as it was written", run.stderr)
        os.remove(path)
        run = self.run_tool("report", "days/day000002")
        self.assertEqual((run.returncode, run.stdout), (2, ""))
        self.assertIn("has no trace: the traces of as many days are kept as --keep-days says", run.stderr)
        self.assertEqual(self.run_tool("day", *WORDS, "--keep-days", "-1", "days", "events", "one").returncode, 3)


class TakenAway(KeptCase):
    def test_a_file_of_another_day(self):
        self.two_days()
        packed = next(name for name in self.files(1) if name.startswith("trace."))
        for name in ("report.txt", packed, "lines.json"):
            shutil.copytree(self.path("days/day000002"), self.path("mixed"))
            shutil.copy(self.path("days/day000001/" + name), self.path("mixed/" + name))
            self.assertEqual(self.run_tool("report", "mixed"), (
                2, "", "mixed/%s is not as its day kept it: it was altered, or is of another day\n" % name))
            shutil.rmtree(self.path("mixed"))

    def test_so_many_traces_are_kept(self):
        self.two_days("--keep-days", "1")
        self.assertEqual([name for name in self.files(1) if name.startswith(("trace", "lines"))], [])
        self.assertEqual(len([name for name in self.files(2) if name.startswith(("trace", "lines"))]), 2)
        shutil.rmtree(self.path("days"))
        self.two_days("--keep-days", "0")
        self.assertEqual([name for day in (1, 2) for name in self.files(day) if name.startswith(("trace", "lines"))], [])

    def test_what_old_days_say_of_users_is_taken_away_by_a_command(self):
        self.two_days("--html")
        self.put("three", [{"event": "write", "revision": 20, "add": [["doc", "9", "viewer", "user", "eve"]]},
                           {"event": "check", "goal": ["doc", "9", "viewer", "user", "eve"], "snapshot": 20, "reply": True}])
        self.day("--html", "days", "events", "three")
        for words in (["forget", "--keep-days", "1"], ["forget", "days"], ["forget", "--keep-days", "-1", "days"], ["forget", "--keep-days", "1", "none"]):
            self.assertEqual(self.run_tool(*words).returncode, 3, words)
        before = {name: self.get("days/day000003/" + name) for name in self.files(3) if not name.startswith("trace")}
        run = self.run_tool("forget", "--keep-days", "1", "days")
        self.assertEqual(run, (0, "", ""))
        self.assertEqual(self.files(1), ["summary.json", "told"])
        # What the next day goes on from stays.
        self.assertEqual(self.files(2), ["carried", "carry", "ids.jsonl", "left", "summary.json", "told", "window.json"])
        self.assertEqual({name: self.get("days/day000003/" + name) for name in before}, before)
        for name in ("days/day000001/summary.json", "days/day000002/summary.json", "days/index.html"):
            self.assertIsNone(NAMES.search(self.get(name)))
        self.assertIn('<a href="day000003/report.html">3</a>', self.get("days/index.html"))
        self.assertNotIn("day000002/report.html", self.get("days/index.html"))
        self.put("four", [{"event": "check", "goal": ["doc", "9", "viewer", "user", "eve"], "snapshot": 20, "reply": True}])
        self.day("days", "events", "four")
        # A day that is still to be told stays.
        os.remove(self.path("days/day000004/told"))
        self.assertEqual(self.run_tool("forget", "--keep-days", "0", "days").returncode, 0)
        self.assertIn("verdict", self.get("days/day000004/mail.txt"))
        self.assertEqual(self.day("days", "events", "four").returncode, 0)
        # A log of a day whose files are gone is known all the same.
        self.assertEqual(self.run_tool("day", *WORDS, "days", "events", "one").returncode, 8)

    def test_no_folder_of_days_is_touched_that_is_none_or_in_use(self):
        os.mkdir(self.path("other"))
        self.put("other/precious", "x")
        self.assertEqual(self.run_tool("forget", "--keep-days", "0", "other").returncode, 2)
        self.assertEqual(os.listdir(self.path("other")), ["precious"])


class Compared(KeptCase):
    def test_a_release_that_dropped_the_header_is_seen_on_a_clean_day(self):
        goal = ["doc", "1", "viewer", "user", "anne"]
        named = {"event": "check", "goal": goal, "reply": True, "version": "v", "token": 1}
        self.put("one", [LOG[0], {"event": "write", "revision": 1, "add": [goal]}, {"event": "content", "goal": goal, "snapshot": 1, "reply": True, "version": "v",
                                                                                  "token": 1}, *[{**named, "snapshot": 1}] * 4])
        self.put("two", [{"event": "write", "revision": 2, "add": [["doc", "1", "viewer", "user", "b"]]}, *[{**named, "snapshot": 2}] * 3])
        bare = {key: value for key, value in named.items() if key not in ("version", "token")}
        self.put("three", [{"event": "write", "revision": 3, "add": [["doc", "1", "viewer", "user", "c"]]}, *[{**bare, "snapshot": 3}] * 5])
        said = [self.day("days", "events", "--from-empty", name, status=(0,)).stdout for name in ("one", "two", "three")]
        self.assertEqual(said[0], "entries 5\nfindings 0\nverdict clean\n")
        self.assertEqual(said[1].splitlines()[1:3], ["checks that name a content version: 3 of 3; before: 4 of 4 (day 1)",
                                                     "checks that carry a token: 3 of 3; before: 4 of 4 (day 1)"])
        less = "; that is less than half of each day before"
        self.assertEqual(said[2].splitlines()[1:3], ["checks that name a content version: 0 of 5; before: 3 of 3 (day 2), 4 of 4 (day 1)" + less,
                                                     "checks that carry a token: 0 of 5; before: 3 of 3 (day 2), 4 of 4 (day 1)" + less])
        self.assertEqual(json.loads(self.get("days/day000003/summary.json"))["looked"]["with_version"], 0)
