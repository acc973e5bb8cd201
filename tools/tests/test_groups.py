"""What was wrong is told once, however often it was asked: with how often, and from when to when, and when the change was made that it ignored."""
import json
import os
import re
import xml.etree.ElementTree
from unittest import mock

from tests.support import Case
from tests.test_trace_maker import RULES, check, content, rel, write

PROGRAM = os.path.abspath(os.environ["NEW_ENEMY"])
ASKED = 121
REMOVED, FIRST, LAST = "2024-05-06T09:00:00.5Z", "2024-05-06T09:00:01Z", "2024-05-06T09:00:04Z"


def time_of(number):
    """Of one request in 25 milliseconds, from the first on."""
    second, rest = divmod(number * 25, 1000)
    return re.sub(r"\.?0+Z$", "Z", "2024-05-06T09:00:%02d.%03dZ" % (1 + second, rest)) if rest else "2024-05-06T09:00:%02dZ" % (1 + second)


# Anne is taken away at 3. For three seconds a cache says yes, while others are let in; and someone else asks, of whom it is right.
CACHED = [RULES, write(1, rel(user="anne"), rel(user="ben"), time="2024-05-06T08:00:00Z"), write(3, remove=[rel(user="anne")], time=REMOVED)]
for one in range(ASKED):
    CACHED.append(check(3 + one // 40, goal=rel(user="anne"), time=time_of(one)))
    CACHED.append(check(3 + one // 40, goal=rel(user="ben"), time=time_of(one)))
    if one % 40 == 39:
        CACHED.append(write(4 + one // 40, rel(user="u%d" % one), time=time_of(one)))
# Bob is taken away at 20, and then asks for a version of after that.
ENEMY = [write(19, rel(user="bob"), time="2024-05-06T10:00:00Z"), write(20, remove=[rel(user="bob")], time="2024-05-06T10:01:00Z"),
         content(20, "v2", goal=rel(user="ben"), token=20, time="2024-05-06T10:02:00Z"),
         check(19, goal=rel(user="bob"), version="v2", token=20, time="2024-05-06T10:03:00Z")]


class Cached(Case):
    def audit(self, *words):
        self.put("report.txt", self.audited())
        return self.run_tool("report", "--ids", "ids.jsonl", *words, "trace.jsonl", "report.txt")

    def setUp(self):
        super().setUp()
        self.put("log", CACHED + ENEMY)

    def test_one_wrong_reply_that_is_asked_121_times_is_one(self):
        self.imported("events", "--from-empty", "log")
        sums, *rows = [json.loads(line) for line in self.audit().stdout.splitlines()]
        self.assertEqual((sums["sums"]["wrong"], sums["sums"]["distinct"]["wrong"], sums["groups"]), (ASKED, 1, 2))
        self.assertEqual((sums["sums"]["let_in"], sums["sums"]["new_enemies"], sums["service"]), (1, 1, "events"))
        self.assertTrue(sums["sums"]["text"].startswith("1 reply wrong (121 requests), 1 stale answer that let someone in, 0 that kept someone out, "
                                                        "0 harmless; of these 1 let a new enemy in; "), sums["sums"]["text"])
        # Each request has a row of its own, and all of them are of one group.
        self.assertEqual(len(rows), ASKED + 1)
        self.assertEqual({(row["finding"], row["group"], row["ignored_since"]) for row in rows}, {("F1", 1, "2024-05-06T10:01:00Z"), ("F10", 2, REMOVED)})
        self.assertEqual([row["time"] for row in rows[1:]], [time_of(one) for one in range(ASKED)])

    def test_people_read_one_line_a_group_and_the_new_enemy_first(self):
        self.imported("events", "--from-empty", "log")
        lines = [line for line in self.audit("--form", "text").stdout.splitlines() if line.startswith("line ")]
        self.assertEqual(len(lines), 2)
        for words in ("F1 stale", "@user:bob", "asked 2024-05-06T10:03:00Z", "ignored a change of 2024-05-06T10:01:00Z", "someone was let in", "a new enemy"):
            self.assertIn(words, lines[0])
        for words in ("F10 wrong reply", "@user:anne", "ignored a change of " + REMOVED, "asked 121 times from %s to %s" % (FIRST, LAST)):
            self.assertIn(words, lines[1])
        notes = [line for line in self.audit("--form", "annotations").stdout.splitlines() if line.startswith("::error ")]
        self.assertEqual(len(notes), 2)
        self.assertIn("asked 121 times from %s to %s" % (FIRST, LAST), notes[1])

    def test_each_form_says_when(self):
        self.imported("events", "--from-empty", "log")
        told = "asked %s, ignored a change of %s" % (LAST, REMOVED)
        results = json.loads(self.audit("--form", "sarif").stdout)["runs"][0]["results"]
        self.assertEqual(len(results), ASKED + 1)
        self.assertEqual(sum(told in one["message"]["text"] for one in results), 1)
        self.assertEqual({(one["properties"]["group"], one["properties"]["ignored_since"]) for one in results[1:]}, {(2, REMOVED)})
        suite = xml.etree.ElementTree.fromstring(self.audit("--form", "junit").stdout)[0]
        self.assertEqual(len(suite.findall("testcase/failure")), ASKED + 1)
        self.assertEqual(sum(told in one.text for one in suite.findall("testcase/failure")), 1)

    def test_the_page_has_a_story_for_each_group_with_its_times(self):
        self.imported("events", "--from-empty", "log")
        self.audit("--form", "html", "--out", "page.html")
        page = self.get("page.html")
        self.assertEqual(re.findall('<details class="story" id="([^"]*)"', page), [
            "story-%d-F1" % (len(CACHED) + 4), "story-4-F10"])
        enemy, cached = page.split('<details class="story"')[1:]
        self.assertIn("(a new enemy)", enemy)
        self.assertIn("asked 121 times from %s to %s" % (FIRST, LAST), cached)
        # In the timeline stand the times of the change and of the first request.
        for time in (REMOVED, "asked " + FIRST):
            self.assertIn('<span class="soft">%s</span>' % time, cached.split("</ol>")[0])
        self.assertIn('<p id="about">Service <strong>events</strong>, from <time>%s</time> to <time>2024-05-06T10:03:00Z</time>.</p>' % FIRST, page)
        row = next(row for row in page.split("<tr ")[1:] if LAST in row)
        self.assertIn("<td>%s</td>" % LAST, row)
        self.assertIn("(%s)</td>" % REMOVED, row)
        # A row of another request leads to the story too.
        self.assertIn('<a href="#story-4-F10">', row)

    def test_what_matters_stands_on_the_first_page_however_often_something_was_asked(self):
        times = 1200
        self.put("log", [*CACHED[:3], *[check(3, goal=rel(user="anne"))] * times, *ENEMY])
        self.imported("events", "--from-empty", "log")
        self.audit("--form", "html", "--out", "page.html")
        self.assertEqual(self.get("page.html").count('<details class="story"'), 2)
        self.assertEqual(self.get("page.2.html").count('<details class="story"'), 0)
        self.assertIn('<a href="./page.html#story-4-F10">', self.get("page.2.html"))

    def test_a_mail_has_one_line_a_group(self):
        run = self.run_tool("day", "--program", PROGRAM, "--jobs", "1", "days", "events", "--from-empty", "log")
        self.assertEqual(run.returncode, 1)
        lines = [line for line in run.stdout.splitlines() if line.startswith("line ")]
        self.assertEqual(len(lines), 2)
        for words in ("F1 stale", "doc:1#viewer@user:bob", "someone was let in", "a new enemy", "asked 2024-05-06T10:03:00Z"):
            self.assertIn(words, lines[0])
        for words in ("doc:1#viewer@user:anne", "someone was let in", "ignored a change of " + REMOVED, "asked 121 times from %s to %s" % (FIRST, LAST)):
            self.assertIn(words, lines[1])
        self.assertEqual(run.stdout.splitlines()[-2:], ["findings 122", "verdict dirty"])
        # The report has all of them.
        self.assertEqual(self.get("days/day000001/report.txt").count("F10 wrong reply"), ASKED)

    def test_many_harmless_findings_do_not_keep_a_new_enemy_from_being_seen(self):
        with mock.patch("new_enemy_tools.changes.QUESTIONS", 1):
            others = [check(18, False, goal=rel(user="x%d" % one), token=19) for one in range(9)]
            self.put("log", [RULES, write(1, rel(user="ben")), write(18, rel(user="zoe")), ENEMY[0], *others, *ENEMY[1:]])
            self.imported("events", "--from-empty", "log")
            sums, first, *rows = [json.loads(line) for line in self.audit().stdout.splitlines()]
            self.assertEqual((sums["sums"]["new_enemies"], first.get("new_enemy"), len(rows)), (1, True, 9))

    def test_a_change_that_stands_far_back_is_found(self):
        """Behind many others, some of which bear on the question too and changed nothing."""
        for others in (70, 5_000):
            some = [write(3 + one, rel(user="u%d" % one)) for one in range(others)]
            self.put("log", [*CACHED[:3], write(4, rel("9")), *[{**one, "revision": one["revision"] + 5} for one in some],
                             check(others + 7, goal=rel(user="anne"))])
            self.imported("events", "--from-empty", "log")
            _, row = [json.loads(line) for line in self.audit().stdout.splitlines()]
            self.assertEqual((row["finding"], row["ignored_since"]), ("F10", REMOVED))

    def test_another_reply_and_another_change_are_other_groups(self):
        self.put("log", [RULES, write(1, rel()), write(2, remove=[rel()]), check(2), check(2), write(3, rel()), check(3, False), write(4, remove=[rel()]),
                         check(4), check(4, goal=rel(user="b"))])
        self.imported("events", "--from-empty", "log")
        sums, *rows = [json.loads(line) for line in self.audit().stdout.splitlines()]
        # Two requests after the first removal; a no behind the second addition; a yes behind the second removal; a yes of somebody else.
        self.assertEqual((sums["sums"]["wrong"], sums["sums"]["distinct"]["wrong"]), (5, 4))
        groups = [row["group"] for row in sorted(rows, key=lambda row: row["line"])]
        self.assertEqual((groups[0], len(set(groups))), (groups[1], 4))
