"""ne day over the logs of several recorders: the days together say what the logs joined whole would say."""
import json
import os
from unittest import mock

from new_enemy_tools.recording.days_joined import LATE, Before, DayJoin, join_day, kept
from new_enemy_tools.recording.joining import OPEN, UNKNOWN
from new_enemy_tools.recording.lines import ODD
from new_enemy_tools.recording.log_files import LogFiles, Place
from new_enemy_tools.recording.sketches import Given, JoinFault, Row
from tests.simulated_crowd import run_days
from tests import test_joining
from tests.recorded import Client
from tests.simulated_case import SimulatedCase
from tests.support import Case
from tests.test_day import WORDS, DayCase
from tests.test_joining import change, check, events, lines
from tests.test_recording_openfga import FIXED, USERS, OpenFga

SEEDS = 300
SPANS = DayJoin._spans


class Simulated(SimulatedCase):
    """Recorders whose logs are joined at some times, each with some of its lines closed."""

    RUN = run_days

    def test_no_right_reply_is_accused_and_no_wrong_one_passes(self):
        waited = days = 0
        for world, _ in self.held(range(SEEDS)):
            waited += sum(one.checks for _, one in world.days)
            days += sum(any(row["event"] == "check" for row in rows) for rows, _ in world.days)
        self.assertGreater(self.recorded, 2 * self.lost)
        self.assertGreater(waited, 50)
        self.assertGreater(days, 1.2 * SEEDS)

    def test_a_model_that_changes(self):
        self.assert_holds(*range(100), models=True)

    def test_a_change_that_is_read_after_the_day_that_it_belongs_to(self):
        self.assert_holds(11021240)

    def test_a_cut_that_parts_content_from_what_it_may_have_seen(self):
        with mock.patch.object(DayJoin, "_spans", lambda self, log: [(place, place) for place, _ in SPANS(self, log)]):
            self.assert_finds("content is left out that was there in time")

    def test_a_version_that_is_not_waited_for(self):
        with mock.patch.object(DayJoin, "_reach", lambda self, log: 1 << 62):
            self.assert_finds("a version is left out that was saved in time", writes=0.1, requests=25)


def joined(before, *logs, over=(), skew=0):
    """The lines of a day, and what the next one goes on from."""
    def given(name, rows):
        return Given(name, lambda: (Row(name, number, row) for number, row in enumerate(rows, 1)), name != "killed")
    join = join_day([given(name, rows) for name, rows in logs], set(over), skew, before)
    made = list(join.lines())
    return made, join.after(), join.waiting()


class Parts(Case):
    FIRST = lines(change(1, "a"), check(1, 3), change(2, "b"), check(2, 5), change(3, "c"), check(3, 7))
    SECOND = lines(change(1, "a"), check(1, 4), change(2, "b"), check(2, 6))

    def test_a_tuple_that_is_read_out_of_turn_stands_as_it_was_read(self):
        """Its deletion between two writes of it is read on the next day; what depends on it is not audited on any day."""
        first = lines(change(1, "a"), change(2, "a", at=4))
        made, before, _ = joined(Before(), ("left", first))
        self.assertEqual([row.get("reason", row["event"]) for row in made[2:]], [ODD, "write", ODD, "write"])
        before = kept(json.loads(json.dumps(before._asdict())))
        made, _, _ = joined(before, ("left", [*first, change(3, "a", "remove", at=3), check(3, 9)]))
        self.assertEqual([row.get("reason", row["event"]) for row in made], [ODD, "write", "check"])

    def test_a_day_ends_where_each_log_has_come(self):
        made, before, waiting = joined(Before(), ("left", self.FIRST), ("right", self.SECOND))
        self.assertEqual(events(made)[2:], [("write", 1), ("check", 1), ("check", 1), ("write", 2), ("check", 2), ("check", 2)])
        self.assertEqual((waiting.checks, waiting.logs), (1, [("right", "2024-01-01T00:00:06.000000Z")]))
        made, _, waiting = joined(before, ("right", [*self.SECOND, change(3, "c"), check(3, 8)]), ("left", self.FIRST))
        self.assertEqual((events(made), waiting.checks), ([("write", 3), ("check", 3), ("check", 3)], 0))

    def test_a_log_that_has_ended_holds_nothing_back(self):
        _, before, _ = joined(Before(), ("left", self.FIRST), ("right", self.SECOND))
        made, _, waiting = joined(before, ("left", self.FIRST), ("right", self.SECOND), over=["right"])
        self.assertEqual((events(made), waiting.checks), ([("write", 3), ("check", 3)], 0))

    def test_a_log_that_missed_a_change_is_read_on_when_nothing_waits_for_it(self):
        missed = lines(change(1, "a"), check(1, 4), change(2, "c", at=3), {**check(2, 8), "goal": ["document", "e", "viewer", "user", "a"]}, check(2, 9))
        made, before, waiting = joined(Before(), ("left", self.FIRST), ("right", missed))
        self.assertEqual((events(made)[2:], waiting.checks), ([("write", 1), ("check", 1), ("check", 1)], 4))
        made, _, waiting = joined(before, ("left", self.FIRST), ("right", missed), over=["right"])
        # The last bears on what was missed.
        self.assertEqual((events(made), waiting.checks),
                         ([("write", 2), ("check", 2), ("write", 3), ("check", 3), ("check", 3), ("unmapped", None)], 0))

    def test_a_log_that_was_killed_and_has_ended_has_a_gap_once(self):
        _, before, _ = joined(Before(), ("left", self.FIRST), ("killed", self.SECOND))
        made, before, _ = joined(before, ("left", self.FIRST), ("killed", self.SECOND), over=["killed"])
        self.assertEqual([row["reason"] for row in made if row["event"] == "gap"], [OPEN % "killed"])
        self.assertEqual(joined(before, ("left", self.FIRST), ("killed", self.SECOND), over=["killed"])[0], [])

    def test_a_log_in_which_nothing_happens_holds_back_nothing_of_the_same_place(self):
        made, before, waiting = joined(Before(), ("left", lines(change(1, "a"), check(1, 3))), ("right", lines(change(1, "a"))))
        self.assertEqual((events(made)[2:], waiting.checks), ([("write", 1), ("check", 1)], 0))
        made, _, _ = joined(before, ("left", lines(change(1, "a"), check(1, 3), check(1, 9))), ("right", lines(change(1, "a"))))
        self.assertEqual(events(made), [("check", 1)])

    def test_a_version_that_another_log_may_have_is_waited_for(self):
        showing, saving = lines(change(1, "a"), check(1, 9, version="v")), lines(change(1, "a"), check(1, 2))
        made, before, waiting = joined(Before(), ("left", showing), ("right", saving))
        self.assertEqual((events(made)[2:], waiting.checks), ([("write", 1), ("check", 1)], 1))
        self.assertEqual([name for name, _ in waiting.logs], ["left", "right"])
        saved = [*saving, check(1, 7, "content", version="v", token=1), check(1, 20)]
        made, _, waiting = joined(before, ("left", showing), ("right", saved))
        self.assertEqual((events(made), waiting.checks), ([("content", 1), ("check", 1), ("check", 1)], 0))
        made, _, _ = joined(before, ("left", showing), ("right", saving), over=["right"])
        self.assertEqual([row.get("reason") for row in made], [UNKNOWN, None])

    def test_a_check_that_names_a_state_to_which_its_log_has_not_come_waits(self):
        """Recorders write it behind the changes that it names; those that were killed wrote it before them."""
        log = lines(change(1, "a"), check(2, 5), change(2, "b"))
        made, before, waiting = joined(Before(), ("left", log[:-1]))
        self.assertEqual((events(made)[2:], waiting.checks), ([("write", 1)], 1))
        self.assertEqual(events(joined(before, ("left", log))[0]), [("write", 2), ("check", 2)])

    def test_content_is_not_parted_from_what_it_may_have_seen(self):
        content = {**check(0, 5, "content", version="v"), "newest_between": [1, 2]}
        del content["snapshot"]
        log = lines(change(1, "a"), content, change(2, "b"), change(3, "c"))
        made, before, _ = joined(Before(), ("left", log[:-2]))
        self.assertEqual(events(made)[2:], [])
        self.assertEqual(events(joined(before, ("left", log))[0]), [("write", 1), ("content", None), ("write", 2), ("write", 3)])

    def test_a_log_that_begins_behind_what_the_others_have(self):
        later = lines(check(0, 9), changes=3)
        later[3]["add"] = [["document", "d", "viewer", "user", user] for user in "abc"]
        made, before, waiting = joined(Before(), ("left", self.SECOND), ("right", later))
        self.assertEqual((events(made)[-1], waiting.checks), (("check", 2), 1))
        made, _, waiting = joined(before, ("left", [*self.SECOND, change(3, "c")]), ("right", later))
        self.assertEqual((events(made), waiting.checks), ([("write", 3), ("check", 3)], 0))

    def test_content_of_a_log_that_was_not_given_in_time(self):
        _, before, _ = joined(Before(), ("left", self.FIRST))
        new = lines(change(1, "a"), check(1, 3, "content", version="v", token=1), check(1, 4), change(2, "b"), change(3, "c"))
        made, _, _ = joined(before, ("left", self.FIRST), ("new", new))
        self.assertEqual([(row["event"], row.get("reason"), row.get("version")) for row in made],
                         [("unmapped", LATE, ["document", "d", "v"]), ("check", None, None)])

    def test_a_spicedb_whose_logs_end_at_different_revisions(self):
        def of(*revisions):
            made = lines(service="spicedb")
            made[-1]["cursor"] = "GhUKEzE3MTQ5ODYwMDAwMDAwMDAwMDA="
            return [*made, *(row for revision in revisions for row in (change(revision, "u%d" % revision), check(revision, revision)))]
        made, before, waiting = joined(Before(), ("left", of(10, 20, 30)), ("right", of(10, 20)))
        self.assertEqual((events(made)[2:], waiting.checks), ([("write", 10), ("check", 10), ("check", 10), ("write", 20), ("check", 20), ("check", 20)], 1))
        made, _, _ = joined(before, ("left", of(10, 20, 30)), ("right", of(10, 20, 30)))
        self.assertEqual(events(made), [("write", 30), ("check", 30), ("check", 30)])

    def test_what_is_refused(self):
        _, before, _ = joined(Before(), ("left", self.FIRST), ("right", self.SECOND))
        early = lines(changes=-1)
        for logs, told in (
                ([("left", self.FIRST)], "right was joined on the days before, and is not given; give the folders of all logs each day"),
                ([("left", lines(change(1, "x"), change(2, "b"))), ("right", lines(change(1, "x"), change(2, "b")))],
                 "the logs have other changes, or in another order, than those that the days before were made of; give the same logs, or begin a "
                 "new folder of days"),
                ([("left", self.FIRST), ("right", self.SECOND), ("new", early)],
                 "new begins before the first log of the days before; give each log from the first day on")):
            with self.subTest(told), self.assertRaises(JoinFault) as found:
                joined(before, *logs)
            self.assertEqual(str(found.exception), told)


class Folders(DayCase):
    """Logs as recorders leave them, and what `ne day` makes of their folders."""

    def log(self, folder, *files, is_open=False):
        """Closed files of a log, or the last one open; in a folder that has some they go on from these."""
        log = LogFiles(self.path(folder), "openfga")
        log.lock()
        log.place = Place(None, 0, "x")
        if os.path.exists(self.path(folder + "/000001.jsonl")):
            log.recover()
        for number, rows in enumerate(files, 1):
            log.add("".join(json.dumps(row) + "\n" for row in rows).encode())
            if number < len(files) or not is_open:
                log.close()
        os.close(log._lock)
        if log.descriptor is not None:
            os.close(log.descriptor)

    def day(self, *words, status=0):
        run = self.run_tool("day", *WORDS, *words)
        self.assertEqual(run.returncode, status, run)
        return run

    def test_days_of_two_recorders(self):
        self.log("left", lines(change(1, "a"), check(1, 3))[1:], [change(2, "b"), check(2, 5)])
        self.log("right", lines(change(1, "a"), check(1, 4))[1:], [change(2, "b"), check(2, 6)], is_open=True)
        run = self.day("--html", "days", "events", "left", "right")
        self.assertIn("entries 2\n", run.stdout)
        # Checks, not audited whole, held back, lost in gaps.
        self.assertIn("<td>2</td><td>0</td><td>1</td><td>0</td>", self.get("days/index.html"))
        for name in ("report.txt", "mail.txt"):
            self.assertRegex(self.get("days/day000001/" + name), "held back 1: these checks of closed files are audited when all logs have come as far; "
                             "right ends at [^;]*Z\nwhere right has ended for good, say --ended right\n")
        for form in ("text", "html", "sarif", "junit", "annotations"):
            self.assertIn("held back 1: ", self.run_tool("report", "--form", form, "days/day000001").stdout, form)
        self.assertIn("held back 1: ", self.get("days/day000001/report.html"))
        summary = json.loads(self.get("days/day000001/summary.json"))
        self.assertEqual((summary["logs"], summary["held_back"]), (["left", "right"], 1))
        self.assertNotIn("joined_log", os.listdir(self.path("days/day000001")))
        run = self.day("days", "events", "left", "right", status=8)
        self.assertIn("day: nothing is new that all logs have; held back 1", run.stderr)
        self.assertNotIn("work", os.listdir(self.path("days")))
        run = self.day("--ended", "right", "days", "events", "left", "right", status=6)
        self.assertIn("entries 2\n", run.stdout)
        self.assertIn("gaps", run.stdout)

    def test_a_word_beside_a_log_that_nobody_took(self):
        """It is told by each day that has something new, and by `ne join`, as by an import."""
        self.log("left", lines(change(1, "a"), check(1, 3))[1:])
        self.log("right", lines(change(1, "a"), check(1, 4))[1:])
        self.put("right/beside-1-a", "[3,1000000000,2000000000]")
        self.put("left/beside-2-b", "{")
        told = "gap beside the log: %s tells that another recorder passed requests that it did not record; the next one in that folder writes down"
        run = self.day("days", "events", "left", "right", status=6)
        self.assertIn("lost in gaps 3: requests that another recorder passed: right/beside-1-a\n", run.stdout)
        self.assertIn("gaps in which nobody counted what was asked: 1, of unknown length 1\n", run.stdout)
        self.assertIn(told % "left/beside-2-b", run.stdout)
        self.assertIn(told % "right/beside-1-a", run.stdout)
        self.day("days", "events", "left", "right", status=8)
        run = self.run_tool("join", "--out", "joined", "left", "right")
        self.assertEqual((run.returncode, [line.partition(" tells")[0] for line in run.stdout.splitlines()[:2]]), (
            0, ["gap beside the log: left/beside-2-b", "gap beside the log: right/beside-1-a"]))
        status, said = self.run_import("events", "joined/000001.jsonl")
        self.assertEqual(status, 6)
        self.assertIn("gap from 1970-01-01T00:00:01.000000Z to 1970-01-01T00:00:02.000000Z: requests that another recorder passed: "
                      "right/beside-1-a (3 lost)\n", said)

    def test_findings_of_checks_through_both(self):
        """A version that is saved through one and shown through the other, on the next day."""
        gone = change(3, "a", "remove")
        self.log("left", lines(change(1, "a"), check(1, 3, "content", version="v", token=1))[1:], [change(2, "b"), gone, check(3, 7, reply=False)])
        self.log("right", lines(change(1, "a"))[1:])
        self.assertIn("entries 1\n", self.day("days", "events", "left", "right").stdout)
        self.log("right", [change(2, "b"), check(0, 5, reply=False, version="v"), gone, check(3, 8, version="v")])
        run = self.day("days", "events", "left", "right", status=1)
        self.assertIn("F2 old token", run.stdout)
        self.assertIn("F10 wrong reply", run.stdout)
        self.assertIn("right/000002.jsonl:", run.stdout)

    def test_a_recorder_that_has_not_begun(self):
        self.log("left", lines(change(1, "a"), check(1, 3))[1:])
        os.mkdir(self.path("right"))
        self.put("right/lock", "")
        self.assertIn("entries 1\nright has no base state so far\n", self.day("days", "events", "left", "right").stdout)
        self.log("begun", lines(change(1, "a"), check(1, 4))[1:], is_open=True)
        # The base state is there, and the checks behind it are in no closed file.
        self.assertIn("the day has 0 checks", self.day("other", "events", "left", "begun", status=2).stderr)

    def test_what_is_refused(self):
        self.log("left", lines(change(1, "a"), check(1, 3))[1:])
        self.log("other", lines(store="T")[1:])
        self.put("file", lines())
        self.assertIn("give folders of recorders' logs, which are joined, or files, and not both",
                      self.day("days", "events", "left", "file", status=3).stderr)
        self.assertIn("--skew before FOLDER is of logs that are joined", self.day("--skew", "5", "days", "events", "left/000001.jsonl", status=3).stderr)
        self.assertIn("--ended right names no LOG that is a folder", self.day("--ended", "right", "days", "events", "left", status=3).stderr)
        self.assertIn("one LOG stands twice", self.day("days", "events", "left", "./left", status=3).stderr)
        self.assertIn("other is a log of the store T, and left of S", self.day("days", "events", "left", "other", status=2).stderr)
        self.assertIn("entries 1\n", self.day("single", "events", "left/000001.jsonl").stdout)
        self.assertIn("the days before are not of joined logs", self.day("single", "events", "left", status=2).stderr)


class Processes(OpenFga):
    """Two recorders with a third between them and the service; the first day comes while they run."""

    start_two, work, found_of = (getattr(test_joining.Processes, name) for name in ("start_two", "work", "found_of"))

    def found_of_days(self):
        """What the days find of each check, as `found_of` says it."""
        found = {}
        for day in sorted(os.listdir(self.path("days"))):
            if day.startswith("day"):
                for row in self.rows("days/%s/report.jsonl" % day):
                    if "line" in row:
                        found.setdefault((row["file"], row["file_line"]), set()).add(row["finding"])
        rows = {place: self.row_at("%s:%d" % place) for place in found}
        return sorted((json.dumps([rows[place]["goal"], rows[place]["reply"], rows[place].get("version")]), sorted(names))
                      for place, names in found.items())

    def test_days_find_what_one_recorder_in_front_of_all_shows(self):
        self.start_two("0.3", "--file-bytes", "2500")
        self.run_clients(4, 40, self.work)
        def are_closed():
            """Whether each has checks in closed files. How much is written at once, and so to one file, is up to the machine."""
            for _, port in self.two:
                client = Client(port)
                self.check(client, USERS[0], "viewer", FIXED[0])
                client.close()
            return all('"event":"check"' in "".join(map(self.get, self.files(name)[:-1])) for name in ("left", "right"))
        self.wait_for(are_closed)
        first = self.run_process("day", *WORDS, "--at-least", "0", "days", "events", "left", "right")
        self.assertIn(first.returncode, (0, 1, 6), first)
        self.run_clients(4, 40, self.work)
        for recorder, _ in self.two:
            self.end(recorder)
        self.end(self.between)
        second = self.run_process("day", *WORDS, "--ended", "left", "--ended", "right", "days", "events", "left", "right")
        self.assertIn(second.returncode, (1, 6), second)
        self.assertNotIn("held back", second.stdout)
        one, days = self.found_of("one"), self.found_of_days()
        one = [(asked, [name.split(" ")[0] for name in names]) for asked, names in one]
        self.assertIn("F10", str(days))
        summaries = [json.loads(self.get("days/day00000%d/summary.json" % day)) for day in (1, 2)]
        entries = sum(one["entries"] for one in summaries)
        asked = sum(row["event"] in ("check", "content") for name in ("left", "right") for row in self.events(name))
        self.assertGreaterEqual(entries, asked)
        # Each recorder has its own gaps; a check in a gap has no finding, and one of a version that was saved in a gap not all.
        lost = sum(row.get("lost", 0) for name in ("left", "right") for row in self.of_kind("gap", name))
        lost += sum(row["event"] == "unmapped" for row in self.events("left") + self.events("right"))
        lost += sum(sum(one["coverage"].get(key, {}).values()) for one in summaries for key in ("in_part", "not_audited"))
        self.assertLessEqual(len([found for found in one if found not in days]), lost, (one, days))
        self.assertEqual([found for found in days if found not in one and "F6" in str(found)], [])
