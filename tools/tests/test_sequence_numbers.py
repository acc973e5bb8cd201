"""The numbers of one sequencer: a number that no line has is a line that is missing, which is counted and told, and never green."""
import json
import xml.etree.ElementTree

from new_enemy_tools.importing import causes
from new_enemy_tools.importing.sequence_numbers import Numbers
from tests.test_printed_blocks import PrintedCase
from tests.test_trace_maker import RULES, check, content, rel, write
from tests.test_unaudited import CONTEXTUAL, Unaudited

LOST = "lost in gaps 1: %s" % causes.NO_LINE
HOLES = "--sequence-has-holes"


def numbered(*lines, first=0):
    return [{**line, "sequence": number} for number, line in enumerate(lines, first)]


class Missing(Unaudited):
    """A line that takes a viewer away, and is lost: the reply behind it is stale."""

    LINES = numbered(RULES, write(1, rel(), rel("2")), check(1), write(2, remove=[rel()]), check(2), check(2, goal=rel("2")))
    SUM = "checks: 1 whole, 2 not audited, 1 lost in gaps"

    def lost(self, *places):
        return [line for place, line in enumerate(self.LINES) if place not in places]

    def test_a_lost_write_with_a_missing_number_is_not_clean(self):
        self.put("log", self.LINES)
        self.imported("events", "--from-empty", "log")
        self.assertIn("F10 wrong reply", self.audited())
        self.put("log", self.lost(3))
        said = self.imported("events", "--from-empty", "log").splitlines()
        self.assertEqual(said[0], "the sequence has 1 hole, of 1 number; the first is 3 before log:4. A check behind a missing line is not audited, since "
                         "that may be a write: find these lines, or give --sequence-has-holes where the numbers have holes and no line is missing")
        self.assertIn("not audited: %s, first at log:4: doc:1#viewer@user:a" % causes.LINE_MISSING, said)
        self.assertIn(self.SUM, said)
        self.assertIn(LOST, said)
        self.assertEqual([row["snapshot"] for row in self.rows("trace.jsonl") if row["kind"] == "check"], [1])

    def test_every_form_says_it(self):
        self.put("log", self.lost(3))
        self.imported("events", "--from-empty", "log")
        self.assertIn(LOST, self.audit("--form", "text").stdout)
        self.assertEqual(json.loads(self.audit().stdout)["coverage"], {"state": "incomplete", "checks": 1, "whole": 1, "not_audited": {
            causes.LINE_MISSING: 2}, "lost": {causes.NO_LINE: 1}})
        self.assertIn(LOST, self.audit("--form", "sarif").stdout)
        suite = xml.etree.ElementTree.fromstring(self.audit("--form", "junit").stdout)[0]
        self.assertEqual(suite[1].find("skipped").get("message"), self.SUM)
        self.assertIn("::warning title=new_enemy::" + LOST, self.audit("--form", "annotations").stdout)
        self.assertEqual({self.audit("--form", form).returncode for form in ("text", "jsonl", "sarif", "junit", "annotations")}, {6})
        self.audit("--form", "html", "--out", "page.html")
        self.assertIn("<li>%s</li>" % LOST, self.get("page.html"))
        self.assertNotIn('class="verdict clean"', self.get("page.html"))
        run = self.run_tool("lint", "trace.jsonl")
        self.assertEqual(run.returncode, 6)
        self.assertIn(LOST, run.stdout)

    def test_a_day_says_it_and_so_do_its_summary_and_its_page(self):
        self.put("log", self.lost(3))
        run = self.day("--html")
        self.assertEqual((run.returncode, run.stdout.splitlines()[-1]), (6, "verdict incomplete"))
        self.assertIn(LOST, run.stdout)
        self.assertEqual(self.summary(1)["coverage"]["lost"], {causes.NO_LINE: 1})
        self.assertIn(LOST, self.get("days/day000001/report.html"))
        self.assertIn('<span class="verdict incomplete">', self.get("days/index.html"))

    def test_a_bound_lets_what_is_behind_a_hole_be_as_much_of_the_checks_as_it_is(self):
        self.put("log", self.lost(3))
        self.assertEqual([self.run_import("events", "--from-empty", "--allow-unaudited", bound, "log")[0] for bound in ("33", "74", "75")], [6, 6, 0])

    def test_who_says_that_the_numbers_have_holes_gets_none_told(self):
        self.put("log", self.lost(3))
        said = self.imported("events", "--from-empty", HOLES, "log")
        self.assertNotIn("checks: ", said)
        self.assertNotIn("sequence", said)
        self.assertEqual(self.audited().splitlines()[-1], "verdict clean")

    def test_a_log_begins_with_any_number(self):
        self.put("log", numbered(*self.LINES, first=400))
        self.imported("events", "--from-empty", "log")
        self.assertEqual(self.run_import("events", "--from-empty", "log")[0], 0)

    def test_lines_in_another_order_have_no_hole_and_files_together_have_none(self):
        self.put("one", self.LINES[::2])
        self.put("two", self.LINES[1::2])
        for names in ("one", "two"), ("two", "one"):
            self.assertEqual(self.run_import("events", "--from-empty", *names)[0], 0)
        self.put("two", self.LINES[1::2][:1] + self.LINES[1::2][2:])
        for names in ("one", "two"), ("two", "one"):
            self.assertIn(self.SUM, self.imported("events", "--from-empty", *names).splitlines())

    def test_a_line_without_a_number_is_behind_a_hole_as_well(self):
        log = self.lost(3)
        del log[2]["sequence"]
        self.addCleanup(self.LINES[2].update, sequence=2)
        self.put("log", log)
        self.assertIn("checks: 0 whole, 3 not audited, 2 lost in gaps", self.imported("events", "--from-empty", "log").splitlines())

    def test_a_line_that_records_no_decision_is_no_hole(self):
        gap = {"event": "gap", "from": "2024-01-01T00:00:02Z", "to": "2024-01-01T00:00:03Z", "reason": "slow", "lost": 0}
        self.put("log", numbered(RULES, write(1, rel()), CONTEXTUAL, gap, check(1)))
        self.assertNotIn("number", self.imported("events", "--from-empty", "log"))

    def test_a_line_that_is_refused_is_not_called_missing(self):
        lines = [json.dumps(line) for line in self.LINES]
        self.put("log", "\n".join([*lines[:3], lines[3][:-2], *lines[4:]]))
        self.assertEqual(self.refused("events", "--from-empty", "log"), ["log:4: not JSON"])

    def test_a_lost_content_check_accuses_nobody(self):
        lines = numbered(RULES, write(1, rel()), content(1, "v", token=1), check(1, version="v", token=1))
        self.put("log", lines[:2] + lines[3:])
        self.imported("events", "--from-empty", "log")
        self.assertEqual(self.audited().splitlines(), ["entries 0", "findings 0", "verdict clean"])


class Days(Unaudited):
    def go_on(self, *words):
        return self.run_import("events", "--from-empty", "--go-on", "left", *words)

    def test_numbers_go_on_from_day_to_day(self):
        self.put("monday", numbered(RULES, write(1, rel()), check(1)))
        self.assertEqual(self.go_on("monday")[0], 0)
        self.put("tuesday", numbered(check(1), check(1), first=3))
        self.assertEqual(self.go_on("tuesday")[0], 0)
        self.put("wednesday", numbered(check(1), first=7))
        status, said = self.go_on("wednesday")
        self.assertEqual(status, 6)
        self.assertIn("the first are 5 to 6 before wednesday:1.", said)
        self.put("thursday", numbered(check(1), check(1), first=8))
        status, said = self.go_on("thursday")
        self.assertEqual(status, 6)
        self.assertIn("not audited 2: %s" % causes.LINE_MISSING, said)

    def test_numbers_that_begin_anew_are_refused(self):
        self.put("monday", numbered(RULES, write(1, rel()), check(1)))
        self.assertEqual(self.go_on("monday")[0], 0)
        self.put("tuesday", numbered(check(1), check(1)))
        status, said = self.go_on("tuesday")
        self.assertEqual((status, said.splitlines()[0]), (2, "tuesday:1: its `sequence` 0 is not behind 2, the last of the day before: one sequencer "
                                                            "numbers all days; or give --sequence-has-holes"))
        self.assertEqual(self.go_on(HOLES, "tuesday")[0], 0)
        self.put("wednesday", numbered(check(1), first=900))
        self.assertEqual(self.go_on("wednesday")[0], 0)


class Printed(PrintedCase):
    """By shapes and in full, by one process and many, in small blocks."""

    def test_a_line_that_is_lost_anywhere(self):
        for form in "events_in_sequence", "openfga", "spicedb_log":
            lines = [{**line, "sequence": number} for number, line in enumerate(self.log_of(form))]
            for place in (None, 2, 41, 89, len(lines) - 2, len(lines) - 1):
                status, *_ = self.compare(self.texts(line for number, line in enumerate(lines) if number != place))
                is_whole = place in (None, len(lines) - 1)
                self.assertEqual(status, 0 if is_whole else 6, (form, place))

    def test_lines_that_are_lost_in_files_that_interleave(self):
        texts = self.texts(self.log_of("events_in_sequence"))
        del texts[50]
        self.put("one", "".join(text + "\n" for text in texts[::2]))
        self.put("two", "".join(text + "\n" for text in texts[1::2]))
        wanted = self.outcome([*self.form.words(), "one", "two"], 1, 1 << 20)
        self.assertEqual(wanted[0], 6)
        self.assertEqual(self.outcome([*self.form.words(), "one", "two"], 3, 3000), wanted)


class Runs(Unaudited):
    def test_many_runs_that_belong_together_are_kept_as_one(self):
        found = Numbers()
        for start in range(7):
            part = Numbers()
            for number in range(start, 70_000, 7):
                part.add(number, "log", number + 1)
            found.merge(part)
            self.assertEqual(part.runs, [])
        self.assertEqual(list(found.holes()), [])
        self.assertEqual(found.runs, [(0, 69_999, "log", 1)])

    def test_numbers_with_holes_are_not_kept(self):
        found, part = Numbers(None, True), Numbers()
        part.add(4, "log", 1)
        found.merge(part)
        self.assertEqual((found.runs, found.last), ([], None))
