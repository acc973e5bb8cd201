"""What import_trace makes of the lines that only a recorder writes."""
import json

from new_enemy_tools.importing import causes
from new_enemy_tools.importing.events import Relationship
from new_enemy_tools.recording.ruled import Takes
from tests.test_trace_maker import RULES, CoreCase, check, content, rel, write

GAP = {"event": "gap", "from": "2024-01-01T00:00:00Z", "to": "2024-01-01T00:00:01Z", "reason": "why", "lost": 2, "time": "2024-01-01T00:00:01Z"}
SAID = "the log has gaps: a verdict says nothing of what was asked in them\n"


class Lines(CoreCase):
    def kinds(self, *events, words=("--from-empty",)):
        return ["%s %s %s" % (row["kind"], row.get("at", row.get("snapshot")), row.get("zookie", "-")[-1])
                for row in self.lines(RULES, *events, words=words)]

    def between(self, make, low, high, *rest, **more):
        made = make(low, *rest, **more)
        del made["snapshot"]
        return {**made, "newest_between": [low, high]}

    def test_a_content_check_stands_behind_the_earliest_state_at_which_it_is_right(self):
        goal = rel()
        late = [write(1), self.between(content, 1, 4, "v"), write(2, goal), write(3), write(4), self.between(check, 4, 4, version="v")]
        self.assertEqual(self.kinds(*late), ["commit 1 -", "commit 2 -", "content 2 2", "commit 3 -", "commit 4 -", "check 4 4"])
        self.assertEqual(self.audited(), "entries 2\nfindings 0\nverdict clean\n")

    def test_where_it_stands_already(self):
        goal = rel()
        self.assertEqual(self.kinds(write(1, goal), self.between(content, 1, 2, "v"), write(2), self.between(check, 1, 2, version="v")),
                         ["commit 1 -", "content 1 1", "commit 2 -", "check 2 2"])
        self.assertEqual(self.audited(), "entries 2\nfindings 0\nverdict clean\n")

    def test_a_wrong_reply_is_wrong_at_each(self):
        self.kinds(write(1), self.between(content, 1, 2, "v"), write(2))
        self.assertEqual(self.audited().splitlines()[-2:], ["findings 2", "verdict dirty"])

    def test_a_token_of_its_own(self):
        goal = rel()
        self.kinds(write(1, goal), self.between(content, 1, 2, "v", token=2), write(2))
        self.assertEqual(self.audited(), "entries 1\nfindings 0\nverdict clean\n")

    def test_both_keys(self):
        both = {**check(1), "newest_between": [1, 1]}
        self.assertEqual(self.refusals(RULES, write(1), both), ["log:3: both `snapshot` and `newest_between`"])
        self.assertEqual(self.refusals(RULES, write(1), {**both, "snapshot": None, "newest_between": [2, 1]}),
                         ["log:3: `newest_between` is no list of two whole numbers, the lower one first"])

    def test_a_gap_is_said(self):
        self.kinds(write(1, rel()), check(1, version="before"), GAP, check(1, version="behind"), {**GAP, "from": None, "lost": None})
        self.assertIn("gap from 2024-01-01T00:00:00Z to 2024-01-01T00:00:01Z: why (2 lost)\n", self.said)
        self.assertIn("gap to 2024-01-01T00:00:01Z: why\n", self.said)
        self.assertEqual(self.said.count(SAID), 1)
        self.assertIn("checks: 1 whole, 1 in part, 2 lost in gaps, and what was asked in 1 gap\naudited in part 1: %s; not looked for: F2, F6\n"
                      "lost in gaps 2: why\n" % causes.VERSION_UNKNOWN, self.said)
        report = self.audited()
        self.assertEqual(report, "line 3: F6 unknown version\nentries 2\nfindings 1\nverdict dirty\n")
        self.assertNotIn("unknown key", self.run_tool("lint", "trace.jsonl").stdout)

    def test_a_gap_reaches_back(self):
        """A version may have been issued in it by a check that was lost, also where a check of the version stands before it."""
        early, late = ("2023-12-31T23:59:59Z", "2024-01-01T00:00:00.5Z")
        self.kinds(write(1, rel()), check(1, version="before", time=early), check(1, version="within", time=late), GAP)
        self.assertIn("audited in part 1: %s; not looked for: F2, F6\n" % causes.VERSION_UNKNOWN, self.said)
        self.assertEqual(self.audited(), "line 3: F6 unknown version\nentries 2\nfindings 1\nverdict dirty\n")

    def test_a_gap_without_its_times(self):
        self.assertEqual(self.refusals(RULES, {**GAP, "to": "soon"}),
                         ["log:2: a gap has no `reason`, or its `from` and `to` are no times of RFC 3339"])

    def test_what_has_no_form(self):
        goal = rel()
        odd = [write(1, goal), {"event": "unmapped", "reason": "caveat", "detail": "it", "userset": goal[:3]}, check(1)]
        self.assertEqual(self.refusals(RULES, *odd, words=("--from-empty", "--refuse-unmapped")), ["log:3: caveat: it"])
        self.kinds(*odd)
        self.assertIn("left out 1: caveat, first at log:3: it\n", self.said)
        self.assertIn("not audited 1: check that hangs on a tuple or rule that was left out\n", self.said)

    def test_a_base_state_of_which_all_has_no_form_is_no_empty_store(self):
        """Versions may have been saved before it, as before one that has tuples."""
        lines = b"".join(Takes().base_lines(1, iter([(Relationship(*rel()), "caveat")]))).decode()
        self.put("log", json.dumps(RULES) + "\n" + lines + json.dumps(check(1, False, rel("2"), version="old")) + "\n")
        self.assertIn("audited in part 1: %s" % causes.VERSION_UNKNOWN, self.imported("events", "log"))
        self.assertEqual(self.audited().splitlines()[-1], "verdict clean")

    def test_lines_of_the_chain_stand_in_no_other_log(self):
        self.assertEqual(self.refusals(RULES, {"event": "place", "cursors": "c"}), ['log:2: unknown key "cursors"; is "cursor" meant?'])
        for one in ({"event": "place", "revision": 0, "cursor": "c"}, {"event": "closed", "count": 1}, {"event": "log", "number": 1}):
            self.assertIn("log:2: a line `%s` stands in the files of tools/record alone" % one["event"], self.refusals(RULES, one)[0])
