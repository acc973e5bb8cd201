"""Reports for machines."""
import json
import os
import xml.etree.ElementTree
from collections import Counter
from random import Random
from unittest import mock

from new_enemy_tools import binding
from new_enemy_tools.labels import labels_in
from new_enemy_tools.trace_lines import _plainly, counted_in
from tests.support import EXAMPLES, Case

FOUND = """line 5: F1 stale
line 6: F2 old token, see line 3
line 7: F3 not latest, see line 4
line 8: F4 open snapshot, see line 9
line 10: F5 wrong token
line 11: F6 unknown version
line 12: F7 no evidence
line 13: F8 bad evidence at step 1
line 14: F9 silent evidence
line 15: F10 wrong reply
entries 11
findings 10
verdict dirty
"""
SUMS = "1 reply wrong, 2 stale answers that let someone in, 0 that kept someone out, 3 undecided, 4 harmless; of 8 checks 2 name a content version, 2 carry a token"
DO = ("The application has to name the version on each check that shows content: in the header X-Content-Version, where the recorder writes "
      "the log (docs/RECORDING.md), or as `version` in a log of your own (docs/IMPORTING.md).")
NOTE = ("On checks that name no content version, stale answers about new content were not looked for. Answers older than a token were, where "
        "they carry one. " + DO)


class Reports(Case):
    def setUp(self):
        super().setUp()
        with open(os.path.join(EXAMPLES, "each_finding"), encoding="utf-8") as file:
            self.put("trace.jsonl", file.read().split("---\n")[0])

    def report(self, *words, text=FOUND):
        return self.run_tool("report", *words, "trace.jsonl", "-", stdin=text)

    def test_json_lines(self):
        run = self.report()
        self.assertEqual((run.returncode, run.stderr), (0, ""))
        sums, *rows = [json.loads(line) for line in run.stdout.splitlines()]
        self.assertEqual(sums, {"sums": {"wrong": 1, "let_in": 2, "kept_out": 0, "undecided": 3, "harmless": 4, "text": SUMS, "new_enemies": 0,
                                         "distinct": {"wrong": 1, "let_in": 2, "kept_out": 0, "undecided": 3, "harmless": 4}}, "groups": 10, "entries": 11, "findings": 10, "told": 10, "ignored": 0, "known": 0, "verdict": "dirty",
                                "named": False, "checks": 8, "with_version": 2, "with_token": 2, "with_unknown": 0, "note": NOTE,
                                "coverage": {"state": "whole", "checks": 11, "whole": 11}})
        self.assertEqual([(row["finding"], row["effect"], row["severity"]) for row in rows], [
            ("F10", "wrong", "error"), ("F1", "changed", "error"), ("F3", "changed", "error"), ("F7", "undecided", "warning"),
            ("F8", "undecided", "warning"), ("F9", "undecided", "warning"), ("F2", "none", "note"), ("F4", "none", "note"),
            ("F5", "none", "note"), ("F6", "none", "note")])
        self.assertRegex(rows[1].pop("key"), "^[0-9a-f]{16}$")
        self.assertEqual(rows[1], {"line": 5, "finding": "F1", "text": "stale", "effect": "changed", "severity": "error",
                                   "outcome": "let in", "seen": 7, "kind": "check", "goal": "doc:a#viewer@1",
                                   "snapshot": 5, "reply": True, "zookie": "z1-0000000000000007", "zookie_at": 7, "ignored_at": 7, "group": 2})
        by_finding = {row["finding"]: row for row in rows}
        self.assertEqual([(by_finding[one]["related"], by_finding[one]["related_at"]) for one in ("F2", "F3", "F4")],
                         [(3, 5), (4, 7), (9, 9)])
        self.assertEqual((by_finding["F8"]["step"], by_finding["F6"]["version"]), (1, "v4"))

    def test_text(self):
        lines = self.report("--form", "text").stdout.splitlines()
        self.assertEqual(lines[:2], [SUMS, NOTE])
        self.assertEqual(lines[3], "line 5: F1 stale: check of doc:a#viewer@1 at snapshot 5 replied true, token of 7, "
                         "effect changed: someone was let in")
        self.assertEqual(len(lines), 12)

    def test_junit(self):
        run = self.report("--form", "junit")
        suite = xml.etree.ElementTree.fromstring(run.stdout)[0]
        self.assertEqual((suite.get("tests"), suite.get("failures"), len(suite)), ("11", "10", 12))
        self.assertEqual([(one.get("name"), one.get("value")) for one in suite[0]], [
            ("sums", SUMS), ("coverage", "checks: 11 whole"), ("note", NOTE)])
        self.assertEqual(suite[2].get("name"), "line 5: doc:a#viewer@1")
        self.assertEqual((suite[2].get("file"), suite[2].get("line")), ("trace.jsonl", "5"))
        self.assertEqual(suite[2].find("failure").get("message"), "F1 stale, effect changed")
        self.assertIn("see line 4", suite[3].find("failure").text)
        self.assertEqual(suite[11].get("name"), "line 3: doc:a#viewer@1")
        self.assertIsNone(suite[11].find("failure"))

    def test_annotations(self):
        lines = self.report("--form", "annotations").stdout.splitlines()
        self.assertEqual(lines[:2], ["::notice title=new_enemy::" + SUMS, "::notice title=new_enemy::" + NOTE])
        self.assertEqual(lines[9], "::notice file=trace.jsonl,line=8,title=F4 open snapshot%2C effect none::F4 open snapshot: check "
                         "of doc:a#viewer@1 at snapshot 9 replied false, see line 9, effect none: no ignored commit bears on the question")
        self.assertEqual([line.split()[0] for line in lines], ["::notice"] * 2 + ["::error"] * 3 + ["::warning"] * 3 + ["::notice"] * 4)

    def test_the_place_in_the_log(self):
        self.put("trace.jsonl", self.get("trace.jsonl").replace('"snapshot":5,"reply":true,"zookie":"z1-0000000000000007"',
                                                                '"snapshot":5,"reply":true,"zookie":"z1-0000000000000007","from":"a:b.jsonl:41"'))
        row = json.loads(self.report().stdout.splitlines()[2])
        self.assertEqual((row["from"], row["file"], row["file_line"]), ("a:b.jsonl:41", "a:b.jsonl", 41))
        self.assertIn("::error file=a%3Ab.jsonl,line=41,", self.report("--form", "annotations").stdout)
        self.assertIn('file="a:b.jsonl" line="41"', self.report("--form", "junit").stdout)

    def test_names(self):
        self.put("ids.jsonl", '{"kind":"user","type":"user","id":"anne,\\n","number":1}\n')
        self.assertEqual(json.loads(self.report("--ids", "ids.jsonl").stdout.splitlines()[2])["named"],
                         "doc:a#viewer@user:anne,\n")
        self.assertIn("@user:anne,\\u000a at", self.report("--ids", "ids.jsonl", "--form", "annotations").stdout)
        self.assertIn("@user:anne,\\u000a at", self.report("--ids", "ids.jsonl", "--form", "junit").stdout)

    def test_nothing_was_audited(self):
        self.put("trace.jsonl", "")
        run = self.report(text="entries 0\nfindings 0\nverdict clean\n")
        sums = json.loads(run.stdout)
        self.assertEqual((run.returncode, sums["sums"]["text"], sums["checks"]), (
            0, "0 replies wrong, 0 stale answers that let someone in, 0 that kept someone out, 0 harmless", 0))
        self.assertNotIn("note", sums)
        self.assertEqual(sums["coverage"], {"state": "empty", "checks": 0, "whole": 0})

    def test_reports_that_are_not_whole(self):
        lines = FOUND.splitlines()
        cases = {
            "\n".join(lines[1:]): "report line 11: it says 10 findings, and 9 stand before it",
            "\n".join(lines[:-1]): "report line 12: the last lines are not `entries N`, `findings N` and `verdict ..`",
            "": "report line 0: the last lines are not `entries N`, `findings N` and `verdict ..`",
            FOUND.replace("dirty", "clean"): "report line 13: the verdict is clean with 10 findings",
            FOUND.replace("F1 stale", "F1 old token"): "report line 1: F1 is not `line 5: F1 old token`",
            FOUND.replace("F1 stale", "F11 stale"): "report line 1: no finding: 'line 5: F11 stale'",
            FOUND.replace(" at step 1", ""): "report line 8: F8 is not `line 13: F8 bad evidence`",
            FOUND.replace("line 5:", "line 4:"): "report line 1: line 4 of the trace is no entry",
            FOUND.replace("see line 9", "see line 99"): "report line 4: the trace has no entry or commit on line 99",
            FOUND.replace("line 5", "line " + "5" * 5000): "report line 1: no finding: %r" % ("line " + "5" * 195),
            FOUND.replace("entries 11", "entries 12"): "the report has 12 entries, and the trace 11"}
        for text, told in cases.items():
            run = self.report(text=text)
            self.assertEqual((run.returncode, run.stdout, run.stderr), (2, "", told + "\n"))

    def test_reports_of_another_trace(self):
        """A report does not name its trace: what it says, and what it does not say, has to be what this one gives."""
        found = FOUND.splitlines()[:-3]
        other = "; it is of another trace, or of this one before it was changed: audit the trace, and give the report of that"

        def refused(lines, told):
            text = "".join(line + "\n" for line in lines) + "entries 11\nfindings %d\nverdict %s\n" % (len(lines), "dirty" if lines else "clean")
            run = self.report(text=text)
            self.assertEqual((run.returncode, run.stdout, run.stderr), (2, "", told + "\n"))
        for number, line in enumerate(found[:6]):
            said, _, related = line.partition(": ")[2].partition(",")
            refused(found[:number] + found[number + 1:], "%s of the trace has `%s%s`, and the report does not say so%s" % (
                line.partition(":")[0], said, related and "," + related, other))
        refused(found[:9], "by this trace the reply on line 15 is wrong, and the report says nothing of it" + other)
        refused(found[:6] + ["line 12: F10 wrong reply"] + found[7:],
                "by this trace the reply on line 12 is right, and the report says F10 wrong reply" + other)
        refused(found + found[-1:], "the report has F10 on line 15 twice")
        refused([], "line 5 of the trace has `F1 stale`, and the report does not say so" + other)

    def test_replies_that_were_not_compared(self):
        """Of many replies some are compared with the report, and each form tells of how many that was not done."""
        told = "the report does not name its trace, and of 5 of the 11 replies it was not looked whether this trace gives what it says"
        with mock.patch.object(binding, "MOST", 4):
            for form in ("text", "junit", "sarif", "annotations", "html"):
                self.assertIn(told, self.report("--form", form).stdout)
            self.assertEqual(json.loads(self.report().stdout.splitlines()[0])["uncompared"], 5)
        self.assertNotIn("does not name its trace", self.report("--form", "text").stdout)

    def test_faults(self):
        self.assertEqual(self.run_tool("report", "none", "-").returncode, 5)
        self.assertEqual(self.run_tool("report", "trace.jsonl").returncode, 3)
        self.put("trace.jsonl", "{}\n")
        run = self.report()
        self.assertEqual((run.returncode, run.stderr.splitlines()[0]), (2, "trace line 1: unknown kind"))


RULES = {"kind": "namespace", "name": "doc", "relations": [{"name": "viewer"}, {"name": "editor"}]}
BEGUN = {"kind": "commit", "at": 0, "add": ["doc:a#editor@1"]}
SAVED = {"kind": "content", "goal": "doc:a#editor@1", "snapshot": 0, "reply": True, "version": "v", "zookie": "z1-" + 16 * "0"}
FOUR = "0 replies wrong, 0 stale answers that let someone in, 0 that kept someone out, 0 harmless"


def asked(**more):
    return {"kind": "check", "goal": "doc:a#viewer@1", "snapshot": 0, "reply": False, **more}


class WhatNobodyLookedFor(Case):
    """A count of no stale answers says of how many checks somebody could look for them."""

    def sums(self, *entries, spaces=(",", ":")):
        self.put("trace.jsonl", "".join(json.dumps(one, separators=spaces) + "\n" for one in (RULES, BEGUN, *entries)))
        run = self.run_tool("report", "trace.jsonl", "-", stdin=self.audited())
        self.assertEqual((run.returncode, run.stderr), (0, ""))
        return json.loads(run.stdout.splitlines()[0])

    def test_no_version_and_no_token(self):
        sums = self.sums(SAVED, asked(), asked())
        self.assertEqual(sums["sums"], {"wrong": 0, "let_in": 0, "kept_out": 0, "undecided": 0, "harmless": 0, "new_enemies": 0,
                                        "distinct": {"wrong": 0, "let_in": 0, "kept_out": 0, "undecided": 0, "harmless": 0}, "text": "0 replies wrong, stale "
                         "answers to checks not looked for, 0 harmless; of 2 checks none names a content version, none carries a token"})
        self.assertEqual(sums["note"], "Stale answers to checks were not looked for: no check names the content version that it shows, and none "
                         "carries a token. " + DO)

    def test_tokens_alone(self):
        sums = self.sums(SAVED, asked(), asked(zookie=SAVED["zookie"]))
        self.assertEqual(sums["sums"]["text"], FOUR + "; of 2 checks none names a content version, 1 carries a token")
        self.assertEqual(sums["note"], "Stale answers about new content were not looked for: no check names the content version that it shows. "
                         "Answers older than a token were, on checks that carry one. " + DO)

    def test_some_versions(self):
        sums = self.sums(SAVED, asked(), asked(), asked(version="v", zookie=SAVED["zookie"]))
        self.assertEqual((sums["sums"]["text"], sums["note"]), (FOUR + "; of 3 checks 1 names a content version, 1 carries a token", NOTE))

    def test_all_versions(self):
        for sums in self.sums(SAVED, asked(version="v", zookie=SAVED["zookie"])), self.sums(SAVED):
            self.assertEqual((sums["sums"]["text"], "note" in sums), (FOUR, False))

    def test_stale_answers_that_were_found_all_the_same(self):
        """A content check that was answered before the latest commit counts, and the sums say so."""
        self.put("trace.jsonl", [RULES, {"kind": "commit", "at": 5, "add": ["doc:a#editor@1"]}, {"kind": "commit", "at": 7, "remove": ["doc:a#editor@1"]},
                                 {**SAVED, "snapshot": 5, "zookie": "z1-%016x" % 5}, asked(snapshot=7)])
        run = self.run_tool("report", "--form", "text", "trace.jsonl", "-", stdin="line 4: F3 not latest, see line 3\nentries 2\nfindings 1\nverdict dirty\n")
        self.assertEqual(run.stdout.splitlines()[0], "0 replies wrong, 1 stale answer that let someone in, 0 that kept someone out, 0 harmless; of 1 "
                         "check none names a content version, none carries a token")

    def test_lines_of_any_form(self):
        """Counts of bytes are those of a reader of JSON."""
        entries = [SAVED, asked(version="v"), asked(zookie=SAVED["zookie"], version="v"), asked(zookie=None, version=None), asked()]
        wanted = {"checks": 4, "with_version": 2, "with_token": 1}
        for more, spaces in (({}, (",", ":")), ({}, (", ", ": ")), ({"from": "\"version\":\"\n"}, (",", ":")), ({"from": "version"}, (",", ":"))):
            for some in (entries, [{key: value for key, value in one.items() if value is not None} for one in entries]):
                sums = self.sums(*({**one, **more} for one in some), spaces=spaces)
                self.assertEqual({key: sums[key] for key in wanted}, wanted, (more, spaces))

    def test_random_lines(self):
        """The same, of lines of which some have escapes, spaces, values that are names of keys, or are broken."""
        random, ways = Random("what nobody looked for"), Counter()
        values = {"goal": ["doc:a#b@1", "version"], "zookie": ["z", None, "version"], "version": ["v", None, "zookie", "kind"], "named": ["v", None],
                  "from": ["a", "\\", '"version":"', "kind"], "again": [True, False, None, "true"], "part": ["x", None, 3, "again"],
                  "odd": [{"kind": "check", "again": True}, {"part": "y"}, ["version"]]}
        for _ in range(2000):
            rows, lines = [], []
            for _ in range(random.randrange(6)):
                row = {"kind": random.choice(["check", "check", "content", "commit", "namespace"])}
                named = [key for key in values if random.random() < 0.5]
                row.update((key, random.choice(values[key])) for key in named)
                lines.append(json.dumps(row, separators=random.choice([(",", ":"), (",", ":"), (", ", ": ")])))
                rows.append(row)
            if random.random() < 0.2:
                lines.append(random.choice(["", "{", "[1]", '{"kind":1}']))
            checks = [row for row in rows if row["kind"] == "check"]
            wanted = (len(checks), *(sum(row.get(key) is not None for row in checks) for key in ("version", "zookie", "named")))
            data = "\n".join(lines).encode() + random.choice([b"", b"\n"])
            self.assertEqual(labels_in(data), wanted, data)
            entries = [row for row in rows if row["kind"] in ("check", "content")]
            found = counted_in(data)
            self.assertEqual((found.contents, found.again, found.part), (
                len(entries) - len(checks), sum(row.get("again") is True for row in entries),
                Counter(row["part"] for row in entries if isinstance(row.get("part"), str))), data)
            ways[_plainly(data) is None] += 1
        self.assertGreater(min(ways[True], ways[False]), 200)

    def test_a_page(self):
        self.sums(asked())
        page = self.run_tool("report", "--form", "html", "trace.jsonl", "-", stdin="entries 1\nfindings 0\nverdict clean\n").stdout
        self.assertIn("<li><strong>not looked for:</strong> stale, let someone in</li>", page)
        self.assertIn('<p id="note">Stale answers to checks were not looked for: no check names', page)
        self.assertIn('<span class="verdict incomplete">clean</span>', page)
        self.sums(asked(version="v"))
        page = self.run_tool("report", "--form", "html", "trace.jsonl", "-", stdin="line 3: F6 unknown version\nentries 1\nfindings 1\nverdict dirty\n").stdout
        self.assertIn("<li><strong>0</strong> stale, let someone in</li>", page)
        self.assertNotIn('id="note"', page)
