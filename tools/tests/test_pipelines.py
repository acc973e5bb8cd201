"""Reports for pipelines: SARIF, baselines, and findings that are ignored until a day."""
import json
import os
from collections import Counter
from datetime import date
from unittest import mock

from new_enemy_tools.commands import report
from tests.support import EXAMPLES, Case
from tests.test_report import FOUND, NOTE, SUMS

PAST, TODAY, SOON = "2026-02-28", "2026-03-01", "2026-03-03"


class Today(date):
    """The day on which these tests run, at whatever time they do."""

    @classmethod
    def today(cls) -> date:
        return date.fromisoformat(TODAY)


class Pipelines(Case):
    def setUp(self) -> None:
        super().setUp()
        with open(os.path.join(EXAMPLES, "each_finding"), encoding="utf-8") as file:
            self.put("trace.jsonl", file.read().split("---\n")[0])
        self.put("report.txt", FOUND)

    def report(self, *words: str, status: int = 0, said: str = "") -> str:
        run = self.run_tool("report", *words, "trace.jsonl", "report.txt")
        self.assertEqual((run.returncode, run.stderr), (status, said))
        return run.stdout

    def rows(self, *words: str) -> list[dict]:
        return [json.loads(line) for line in self.report(*words).splitlines()]

    def put_without(self, *findings: str) -> None:
        """The report without some of its findings, as of a trace that has not got them."""
        compared = mock.patch.object(report, "uncompared", return_value=0)
        compared.start()
        self.addCleanup(compared.stop)
        lines = [line for line in FOUND.splitlines() if not any(" %s " % one in line for one in findings)]
        lines[-2] = "findings %d" % (len(lines) - 3)
        self.put("report.txt", "\n".join(lines) + "\n")


class Sarif(Pipelines):
    def test_its_parts(self) -> None:
        """What SARIF 2.1.0 asks for, by its sections on logs, runs, tools, results and locations."""
        log = json.loads(self.report("--form", "sarif"))
        self.assertEqual((log["version"], list(log)), ("2.1.0", ["$schema", "version", "runs"]))
        run, = log["runs"]
        rules = run["tool"]["driver"]["rules"]
        self.assertEqual([rule["id"] for rule in rules], ["F%d" % number for number in range(1, 11)])
        self.assertEqual([one["message"]["text"] for one in run["invocations"][0]["toolExecutionNotifications"]], [SUMS, NOTE])
        self.assertTrue(run["invocations"][0]["executionSuccessful"])
        self.assertEqual(len(run["results"]), 10)
        for result in run["results"]:
            self.assertEqual(rules[result["ruleIndex"]]["id"], result["ruleId"])
            self.assertIn(result["level"], ("error", "warning", "note"))
            self.assertTrue(result["message"]["text"])
            place = result["locations"][0]["physicalLocation"]
            self.assertEqual((place["artifactLocation"]["uri"], place["region"]["startLine"]),
                             ("trace.jsonl", result["properties"]["line"]))
        self.assertEqual([result["ruleId"] for result in run["results"][:3]], ["F10", "F1", "F3"])
        self.assertEqual(run["results"][1]["properties"]["effect"], "changed")
        self.assertEqual(run["results"][2]["relatedLocations"][0]["physicalLocation"]["region"]["startLine"], 4)

    def test_places_in_logs(self) -> None:
        lines = self.get("trace.jsonl").splitlines()
        lines[4] = lines[4][:-1] + ',"from":"/var/log/a b.jsonl:41"}'
        lines[3] = lines[3][:-1] + ',"from":"changes é.jsonl:7"}'
        self.put("trace.jsonl", "\n".join(lines) + "\n")
        results = json.loads(self.report("--form", "sarif"))["runs"][0]["results"]
        self.assertEqual(results[1]["locations"][0]["physicalLocation"], {
            "artifactLocation": {"uri": "file:///var/log/a%20b.jsonl"}, "region": {"startLine": 41}})
        self.assertEqual(results[2]["relatedLocations"][0]["physicalLocation"], {
            "artifactLocation": {"uri": "changes%20%C3%A9.jsonl"}, "region": {"startLine": 7}})

    def test_clean(self) -> None:
        self.put("trace.jsonl", '{"kind":"namespace","name":"doc","relations":[{"name":"viewer"}]}\n'
                 '{"kind":"check","goal":"doc:a#viewer@1","snapshot":1,"reply":false}\n')
        self.put("report.txt", "entries 1\nfindings 0\nverdict clean\n")
        self.assertEqual(json.loads(self.report("--form", "sarif"))["runs"][0]["results"], [])


class Baselines(Pipelines):
    def test_only_what_is_new(self) -> None:
        self.put_without("F3", "F6", "F8")
        for form in ("jsonl", "sarif"):
            self.put(form, self.report("--form", form))
        self.put("report.txt", FOUND)
        for form in ("jsonl", "sarif"):
            sums, *told = self.rows("--baseline", form)
            self.assertEqual([row["finding"] for row in told], ["F3", "F8", "F6"])
            self.assertEqual((sums["told"], sums["known"], sums["findings"]), (3, 7, 10))
            self.assertTrue(sums["sums"]["text"].endswith(
                " 1 undecided, 1 harmless; of 8 checks 2 name a content version, 2 carry a token; not told: 7 known from the baseline"))
        log = json.loads(self.report("--baseline", "jsonl", "--form", "sarif"))
        self.assertEqual(len(log["runs"][0]["results"]), 3)
        self.assertEqual(self.report("--baseline", "jsonl", "--form", "junit").count("<skipped message=\"known from the baseline\"/>"), 7)

    def test_the_same_question_again(self) -> None:
        """A check that is repeated is known as often as the baseline has it."""
        self.put("jsonl", self.report())
        lines = self.get("trace.jsonl").splitlines()
        self.put("trace.jsonl", "\n".join([*lines, lines[4], lines[5].replace("doc:a#viewer@1", "doc:a#viewer@2")]) + "\n")
        self.put("report.txt", FOUND.replace("entries 11\nfindings 10", "line 16: F1 stale\nline 17: F2 old token, see line 3\n"
                                                                        "entries 13\nfindings 12"))
        told = self.rows("--baseline", "jsonl")[1:]
        self.assertEqual([(row["line"], row["finding"]) for row in told], [(16, "F1"), (17, "F2")])

    def test_other_lines_and_timestamps(self) -> None:
        """The service's revision counts, and not where a line stands or which timestamp the import gave it."""
        before = [{"kind": "namespace", "name": "doc", "relations": [{"name": "viewer"}]}, {"kind": "commit", "at": 5, "add": ["doc:a#viewer@1"]},
                  {"kind": "check", "goal": "doc:a#viewer@1", "snapshot": 4, "reply": False, "zookie": "z1-%016x" % 5, "revision": "r4"}]
        after = [before[0], {"kind": "commit", "at": 2}, {**before[1], "at": 15}, {**before[2], "snapshot": 14, "zookie": "z1-%016x" % 15}]
        self.put("trace.jsonl", before)
        self.put("report.txt", "line 3: F1 stale\nentries 1\nfindings 1\nverdict dirty\n")
        self.put("jsonl", self.report())
        self.put("trace.jsonl", after)
        self.put("report.txt", "line 4: F1 stale\nentries 1\nfindings 1\nverdict dirty\n")
        self.assertEqual(self.rows("--baseline", "jsonl")[0]["known"], 1)
        self.put("trace.jsonl", [*after[:3], {**after[3], "revision": "r5"}])
        self.assertEqual(self.rows("--baseline", "jsonl")[0]["known"], 0)

    def test_refused(self) -> None:
        self.put("empty", "")
        self.put("other", '{"version":"2.1.0","runs":[{"results":[]}]}')
        self.put("rows", self.report().replace('"key"', '"kye"', 1))
        self.put("deep", '{"sums":' + "[" * 200_000)
        for name, line in (("empty", 1), ("deep", 1), ("other", 1), ("rows", 2), ("report.txt", 1)):
            self.assertEqual(self.report("--baseline", name, status=2, said="%s:%d: no report of this tool in JSON lines or SARIF; "
                                         "write one with --form jsonl\n" % (name, line)), "")
        self.put("ids.jsonl", "")
        self.put("named", self.report("--ids", "ids.jsonl"))
        self.report("--baseline", "named", status=2, said="named:1: it was written with --ids, and this report is without it\n")
        self.assertEqual(self.run_tool("report", "--baseline", "none", "trace.jsonl", "report.txt").returncode, 5)

    def test_status(self) -> None:
        for effect, status in (("wrong", 1), ("none", 1)):
            self.report("--fail-on", effect, status=status)
        self.put_without("F10", "F1", "F3")
        for effect, status in (("wrong", 0), ("changed", 0), ("undecided", 1), ("possible", 1)):
            self.report("--fail-on", effect, status=status)
        self.put("jsonl", self.report())
        self.report("--fail-on", "none", "--baseline", "jsonl", status=0)
        self.assertEqual(self.run_tool("report", "--fail-on", "some", "trace.jsonl", "report.txt").returncode, 3)


class Ignored(Pipelines):
    def setUp(self) -> None:
        super().setUp()
        today = mock.patch.object(report, "date", Today)
        today.start()
        self.addCleanup(today.stop)

    def ignore(self, *rows: object) -> None:
        self.put("ignore.jsonl", [row if isinstance(row, str) else {"reason": "known", "until": SOON, **row} for row in rows])

    def test_what_is_hidden(self) -> None:
        key = self.rows()[1]["key"]
        for row, hidden in (({"finding": "F2"}, ["F2"]), ({"finding": "F1"}, None), ({"finding": "F1", "effect": "changed"}, ["F1"]),
                            ({"object": "*"}, ["F7", "F8", "F9", "F2", "F4", "F5", "F6"]), ({"key": key}, ["F10"]),
                            ({"user": "1", "kind": "check"}, ["F9", "F2", "F4"]), ({"effect": "wrong"}, ["F10"]),
                            ({"namespace": "d*c", "relation": "view*", "object": "*a*", "finding": "F5"}, ["F5"]),
                            ({"namespace": "do*oc"}, None), ({"object": "aa*"}, None)):
            self.ignore(row)
            said = "" if hidden else "ignore.jsonl:1: hides nothing\n"
            told = [json.loads(line)["finding"] for line in self.report("--ignore", "ignore.jsonl", said=said).splitlines()[1:]]
            self.assertEqual(Counter(told), Counter("F%d" % number for number in range(1, 11)) - Counter(hidden or []), row)

    def test_days_that_end_it(self) -> None:
        self.ignore({"finding": "F2", "until": TODAY}, {"finding": "F4", "until": PAST, "reason": "being moved"})
        said = "ignore.jsonl:2: ended on %s (being moved); what it hid is told again\n" % PAST
        rows = [json.loads(line) for line in self.report("--ignore", "ignore.jsonl", said=said).splitlines()]
        self.assertEqual((rows[0]["ignored"], rows[0]["told"]), (1, 9))
        self.assertNotIn("F2", [row["finding"] for row in rows[1:]])

    def test_forms(self) -> None:
        self.ignore({"finding": "F2", "reason": "a & b"})
        results = json.loads(self.report("--ignore", "ignore.jsonl", "--form", "sarif"))["runs"][0]["results"]
        self.assertEqual(results[-1]["suppressions"], [{"kind": "external", "justification": "a & b, until %s" % SOON}])
        self.assertEqual([result["ruleId"] for result in results if "suppressions" in result], ["F2"])
        self.assertIn('skipped="1"', self.report("--ignore", "ignore.jsonl", "--form", "junit"))
        self.assertIn('<skipped message="ignored: a &amp; b"/>', self.report("--ignore", "ignore.jsonl", "--form", "junit"))
        self.assertTrue(self.report("--ignore", "ignore.jsonl", "--form", "text").splitlines()[0].endswith("; not told: 1 ignored"))

    def test_with_a_baseline(self) -> None:
        """A row still hides what the baseline has too."""
        self.put("jsonl", self.report())
        self.ignore({"finding": "F2"})
        sums = json.loads(self.report("--ignore", "ignore.jsonl", "--baseline", "jsonl").splitlines()[0])
        self.assertEqual((sums["ignored"], sums["known"], sums["told"]), (1, 9, 0))

    def test_names(self) -> None:
        self.put("ids.jsonl", [{"kind": "user", "type": "user", "id": "anne*", "number": 1}])
        self.ignore({"user": "user:an*e*", "effect": "none"})
        sums = json.loads(self.report("--ids", "ids.jsonl", "--ignore", "ignore.jsonl").splitlines()[0])
        self.assertEqual(sums["ignored"], 2)

    def test_refused(self) -> None:
        keys = "finding, effect, kind, key, namespace, object, relation, user"
        for row, said in (({"fnding": "F2"}, "the key 'fnding' is none of %s, reason, until" % keys),
                          ({"finding": "F11"}, "`finding` is 'F11', which no finding has"),
                          ({"effect": "harmless"}, "`effect` is 'harmless', which no finding has"),
                          ({"key": "x"}, "`key` is 'x', which no finding has"), ({"object": 7}, "`object` is no text"),
                          ({"object": "a", "reason": ""}, "`reason` is no text"),
                          ({"object": "a", "until": "2027-13-01"}, "a row needs a `reason`, and a day `until` which it holds, as \"2027-01-31\""),
                          ({"object": "a", "until": "20270101"}, "a row needs a `reason`, and a day `until` which it holds, as \"2027-01-31\""),
                          ({}, "a row says what it hides, by one of %s" % keys), ("text", "no object")):
            self.ignore({"finding": "F2"}, row)
            self.assertEqual(self.report("--ignore", "ignore.jsonl", status=2, said="ignore.jsonl:2: %s\n" % said), "")
        self.put("ignore.jsonl", "\n\n" + "[" * 200_000)
        self.assertIn("ignore.jsonl:3: not JSON", self.run_tool("report", "--ignore", "ignore.jsonl", "trace.jsonl", "report.txt").stderr)
        self.put("ignore.jsonl", "\n{\n")
        self.assertIn("ignore.jsonl:2: not JSON", self.run_tool("report", "--ignore", "ignore.jsonl", "trace.jsonl", "report.txt").stderr)
